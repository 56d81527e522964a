"""The module does as h5py does: the same work by both, with the same outcome.

    PYTHONPATH=bindings/python H5I_LIBRARY=build/libh5i.so python3 -m unittest discover bindings/python/tests
"""

import io
import unittest

import h5i
import numpy as np

try:
    import h5py
except ImportError:
    h5py = None


def plain(found):
    """What was found as plain values: an array with its type and shape."""
    if isinstance(found, (np.ndarray, np.generic)):
        return found.dtype.str, found.shape, found.tolist()
    if isinstance(found, (h5i.Group, h5i.Dataset)) or h5py and isinstance(found, (h5py.Group, h5py.Dataset)):
        return type(found).__name__, found.name
    if isinstance(found, (list, tuple)):
        return [plain(it) for it in found]
    return found


def outcome(work, *words):
    """What the work gives, or that it is refused; a name that is missing has an exception of its own."""
    try:
        return plain(work(*words))
    except KeyError:
        return "missing"
    except (IndexError, TypeError, ValueError, OSError):
        return "refused"


@unittest.skipIf(h5py is None, "h5py is not installed")
class LikeH5py(unittest.TestCase):
    """Work by both."""

    def setUp(self):
        self.files = [h5i.File(None, "w"), h5py.File("like.h5", "w", driver="core", backing_store=False, libver=("earliest", "v108"))]
        for file in self.files:
            file.create_dataset("d", data=np.arange(24, dtype="<i4").reshape(2, 3, 4))
            file.create_dataset("g/h/e", (5, 6), ">u2", chunks=(2, 3), maxshape=(None, 8), fillvalue=7)
            file.create_dataset("g/s", (), "i1")
            file.create_dataset("n", (0, 3), "u8", chunks=(2, 2), maxshape=(None, None))
            file["g"].attrs["unit"] = np.array([109, 115], "u1")

    def tearDown(self):
        for file in self.files:
            file.close()

    def assert_alike(self, *works):
        """Each work has the same outcome, and leaves the same behind."""
        for number, work in enumerate(works):
            with self.subTest(number=number):
                ours, theirs = (outcome(work, file) for file in self.files)
                self.assertEqual(ours, theirs)
                with h5py.File(io.BytesIO(self.files[0].tobytes()), "r") as read:
                    self.assertEqual(self.told(read), self.told(self.files[1]))

    @staticmethod
    def told(file):
        """All that is in a file, as h5py reads it."""
        found = []

        def note(name, thing):
            attributes = [(key, plain(thing.attrs[key])) for key in sorted(thing.attrs)]
            cells = (thing.shape, thing.maxshape, plain(thing[()])) if isinstance(thing, h5py.Dataset) else None
            found.append((name, attributes, cells))

        file.visititems(note)
        return found

    def test_groups(self):
        self.assert_alike(
            lambda file: list(file),
            lambda file: (list(file.keys()), list(file["g"].values()), list(file.items())),
            lambda file: (len(file), len(file.keys()), len(file["g"].items()), len(file["g/h"])),
            lambda file: ["d" in file, "/g/h/e" in file, "g/none" in file, "none/none" in file, "d/e" in file, "/" in file],
            lambda file: [file.get("none"), file.get("none", 5), file.get("d"), file.get("d/none", 6)],
            lambda file: (file["g"]["/d"], file["g/"], file["/"], file["g"].parent, file["g/h/e"].parent, file.parent),
            lambda file: (file["g"] == file["/g"], file["g"] == file["g/h"], file["g"].file == file, bool(file["g/h"]), bool(file)),
            lambda file: {file["g"]: 1}[file["/g"]],
            lambda file: file["none"],
            lambda file: file["none/d"],
            lambda file: file.pop("none"),
            lambda file: file.pop("none", 8),
            lambda file: file["g"].setdefault("s"),
        )

    def test_visits(self):
        def names(file):
            found = []
            file.visit(found.append)
            return found

        def seen(file):
            found = []
            file["g"].visititems(lambda name, thing: found.append((name, thing.name)))
            return found

        for file in self.files:
            file["a"] = file["g/h/e"]
        self.assert_alike(names, seen, lambda file: file.visit(lambda name: name if "h" in name else None))

    def test_what_is_made(self):
        self.assert_alike(
            lambda file: file.create_group("a/b/c"),
            lambda file: file.create_group("a/b"),
            lambda file: file.require_group("a/b"),
            lambda file: file.require_group("d"),
            lambda file: file.require_group("a/z"),
            lambda file: file.create_dataset("i", 5, "u1").shape,
            lambda file: file.create_dataset("j", (5,), "u1", chunks=2, maxshape=9).maxshape,
            lambda file: file.create_dataset("k", (5,), "u1", chunks=(2,)).chunks,
            lambda file: file.create_dataset("l", 5, "u1", chunks=True).chunks is None,
            lambda file: file.create_dataset("m", data=[[1, 2], [3, 4]], dtype="i2")[...],
            lambda file: file.create_dataset("o", (4,), data=np.arange(4).reshape(2, 2))[1:],
            lambda file: file.create_dataset("p", (3,), data=np.arange(4)),
            lambda file: file.create_dataset("d", data=[1]),
            lambda file: file.create_dataset("q"),
            lambda file: file.create_dataset("r", (2, 2), "u1", chunks=(3,)),
            lambda file: file.create_dataset("t", (4,), "u1", chunks=False, maxshape=(None,)),
            lambda file: file.require_dataset("i", 5, "u1"),
            lambda file: file.require_dataset("i", (6,), "u1"),
            lambda file: file.require_dataset("u", (6,), "u1", chunks=(2,)).chunks,
            lambda file: file.__setitem__("v", 5),
            lambda file: file.__setitem__("w", [1, 2, 3]),
            lambda file: file.__setitem__("w", [1, 2, 3]),
            lambda file: file.__setitem__("a/x", file["w"]),
            lambda file: file.__delitem__("w"),
            lambda file: file.__delitem__("w"),
            lambda file: file["a/x"][1],
        )

    def test_groups_that_go(self):
        for file in self.files:
            file["kept"] = file["g/h/e"]
            file["g/h/again"] = file["g/h/e"]
            file["g/h/d"] = file["d"]
        self.assert_alike(
            lambda file: file.__delitem__("g/h"),
            lambda file: (list(file["g"]), "g/h/e" in file, file["kept"].shape),
            lambda file: file.__delitem__("g/h"),
            lambda file: file["g/h/e"],
            lambda file: file["g"].__delitem__("h/e"),
            lambda file: file.__delitem__("g"),
            lambda file: (list(file), file["kept"][...], file["d"][...]),
            lambda file: file.create_dataset("g", data=np.arange(3))[...],
            lambda file: file.clear(),
            lambda file: len(file),
        )

    def test_what_is_told_of_arrays(self):
        for path in ("d", "g/h/e", "g/s", "n"):
            self.assert_alike(
                lambda file, path=path: (file[path].shape, file[path].maxshape, file[path].chunks, file[path].dtype.str),
                lambda file, path=path: (file[path].ndim, int(file[path].size), int(file[path].nbytes), file[path].name),
                lambda file, path=path: file[path].fillvalue,
                lambda file, path=path: len(file[path]),
                lambda file, path=path: bool(file[path]),
                lambda file, path=path: list(file[path]),
                lambda file, path=path: np.asarray(file[path]),
                lambda file, path=path: np.array(file[path], dtype="i8"),
            )

    def test_selections(self):
        keys = [
            np.s_[...], np.s_[()], np.s_[0], np.s_[-1], np.s_[1, 2, 3], np.s_[1, -1], np.s_[:, 1], np.s_[..., 1], np.s_[1, ..., 2], np.s_[:, ::2],
            np.s_[0:1, 1:3, ::3], np.s_[:, -2:], np.s_[1:1], np.s_[5:], np.s_[:, 2:1], np.s_[np.int8(1)], np.s_[2], np.s_[-3], np.s_[0, 3],
            np.s_[0, 0, 0, 0], np.s_[..., ...], np.s_[::-1], np.s_["x"], np.s_[1.5], np.s_[:1, :9],
        ]  # fmt: skip
        self.assert_alike(*(lambda file, key=key: file["d"][key] for key in keys))
        self.assert_alike(*(lambda file, key=key: file["g/s"][key] for key in (np.s_[...], np.s_[()])))
        self.assert_alike(*(lambda file, key=key: file["n"][key] for key in (np.s_[...], np.s_[:, 1], np.s_[:0])))

    def test_assignments(self):
        cases = [
            (np.s_[...], 3), (np.s_[0], [[1, 2, 3, 4]] * 3), (np.s_[0], [5, 6, 7, 8]), (np.s_[:, 1], np.arange(8).reshape(2, 4)), (np.s_[1, 2, 3], -9),
            (np.s_[:, :, ::3], np.ones((2, 3, 2), ">u1")), (np.s_[..., 1], np.array([[1], [2]])), (np.s_[0, 0], np.ones((1, 4), int)),
            (np.s_[0], np.arange(3)), (np.s_[0, 0], np.arange(3)), (np.s_[1:1], 4), (np.s_[2], 4), (np.s_[0, 0, 0], [7]), (np.s_[0, 0], True),
        ]  # fmt: skip
        self.assert_alike(*(lambda file, key=key, values=values: file["d"].__setitem__(key, values) for key, values in cases))
        self.assert_alike(lambda file: file["g/s"].__setitem__((), -5), lambda file: file["g/s"].__setitem__(..., 6))

    def test_direct(self):
        def read(file, *words):
            room = np.zeros((3, 4), "<i4")
            file["d"].read_direct(room, *words)
            return room

        self.assert_alike(
            lambda file: read(file, np.s_[1]),
            lambda file: read(file, np.s_[1, 1:], np.s_[:2]),
            lambda file: file["d"].write_direct(np.full((2, 3, 4), 9, "<i4")),
            lambda file: file["d"].write_direct(np.arange(12, dtype="<i4"), np.s_[4:8], np.s_[0, 1]),
        )

    def test_resizing(self):
        self.assert_alike(
            lambda file: file["g/h/e"].resize((7, 6)),
            lambda file: file["g/h/e"].resize(8, axis=1),
            lambda file: file["g/h/e"].resize(np.int64(2), axis=0),
            lambda file: setattr(file["g/h/e"], "shape", (4, 4)),
            lambda file: file["g/h/e"].resize(8, axis=2),
            lambda file: file["n"].resize((3, 3)),
            lambda file: file["n"].__setitem__(1, [1, 2, 3]),
        )
        # h5py raises a RuntimeError for the second one.
        for work in (lambda file: file["d"].resize((2, 3, 5)), lambda file: file["g/h/e"].resize((4, 9))):
            self.assertEqual(outcome(work, self.files[0]), "refused")

    def test_attributes(self):
        self.assert_alike(
            lambda file: (list(file["g"].attrs), len(file["g"].attrs), "unit" in file["g"].attrs, "x" in file["g"].attrs),
            lambda file: file["g"].attrs["unit"],
            lambda file: file["g"].attrs["x"],
            lambda file: (file["g"].attrs.get("x"), file["g"].attrs.get("x", 4)),
            lambda file: file["d"].attrs.create("one", 7, (), "u1"),
            lambda file: file["d"].attrs.create("row", [1, 2, 3, 4], (2, 2)),
            lambda file: file["d"].attrs.create("type", [1, 2], dtype=">i2"),
            lambda file: file["d"].attrs.modify("type", [3, 4]),
            lambda file: file["d"].attrs.modify("new", np.int16(3)),
            lambda file: file.attrs.__setitem__("root", np.arange(3)),
            lambda file: file.attrs.__delitem__("none"),
            lambda file: file["d"].attrs.__delitem__("one"),
            lambda file: sorted(file["d"].attrs.keys()),
            lambda file: sorted((name, values.tolist()) for name, values in file["d"].attrs.items()),
            lambda file: file["d"].attrs.update(more=np.int32(5)),
            lambda file: file["d"].attrs.pop("more"),
        )

    def test_closed_files(self):
        things = [(file, file["d"], file["g"]) for file in self.files]
        for file in self.files:
            file.close()
        for (_, ours, our_group), (_, theirs, their_group) in [things]:
            self.assertEqual([bool(ours), bool(our_group)], [bool(theirs), bool(their_group)])
            self.assertEqual(outcome(lambda: ours[...]), outcome(lambda: theirs[...]))
            self.assertIn("losed", repr(ours))
            self.assertIn("losed", repr(theirs))


if __name__ == "__main__":
    unittest.main()
