"""Tests of the module h5i: by itself, beside h5py where it is installed, and beside the reference of this repository.

    PYTHONPATH=bindings/python H5I_LIBRARY=build/libh5i.so python3 -m unittest discover bindings/python/tests
"""

import io
import os
import random
import subprocess
import sys
import tempfile
import unittest

import h5i
import numpy as np

try:
    import h5py
except ImportError:
    h5py = None

TOP = os.path.dirname(os.path.dirname(os.path.dirname(os.path.dirname(os.path.abspath(__file__)))))
sys.path.insert(0, os.path.join(TOP, "tests", "reference"))
try:
    from h5oracle import model, reader
except ImportError:
    reader = None

TYPES = ["i1", "u1", "<i2", ">i2", "<u2", ">u2", "<i4", ">i4", "<u4", ">u4", "<i8", ">i8", "<u8", ">u8"]


def in_memory():
    """A new file without a place."""
    return h5i.File(None, "w")


class Files(unittest.TestCase):
    """Files of the system, and bytes."""

    def setUp(self):
        self.folder = tempfile.TemporaryDirectory()
        self.path = os.path.join(self.folder.name, "e.h5")

    def tearDown(self):
        self.folder.cleanup()

    def test_a_file_is_written_when_it_is_closed(self):
        with h5i.File(self.path, "w") as file:
            file["a"] = np.arange(6, dtype=">u2").reshape(2, 3)
            self.assertFalse(os.path.exists(self.path))
        with h5i.File(self.path) as file:
            self.assertEqual(file["a"].dtype, ">u2")
            np.testing.assert_array_equal(file["a"][...], [[0, 1, 2], [3, 4, 5]])
        self.assertEqual(os.listdir(self.folder.name), ["e.h5"])

    def test_a_file_that_is_read_cannot_be_edited(self):
        h5i.File(self.path, "w").close()
        with h5i.File(self.path) as file:
            for edit in (lambda: file.create_group("g/h"), lambda: file.run("group /g\n"), file.repack):
                self.assertRaises(OSError, edit)
            self.assertEqual(list(file), [])

    def test_modes(self):
        self.assertRaises(FileNotFoundError, h5i.File, self.path)
        self.assertRaises(ValueError, h5i.File, self.path, "q")
        h5i.File(self.path, "x").close()
        self.assertRaises(FileExistsError, h5i.File, self.path, "x")
        with h5i.File(self.path, "a") as file:
            file.create_group("g")
        with h5i.File(self.path, "r+") as file:
            self.assertEqual(list(file), ["g"])

    def test_bytes_that_are_no_file_are_refused_with_their_cause_and_place(self):
        with self.assertRaisesRegex(OSError, "NotHdf5: at byte 0") as caught:
            h5i.File.frombytes(b"nothing")
        self.assertEqual(caught.exception.rule, "NotHdf5")

    def test_a_closed_file_says_so(self):
        file = in_memory()
        file.close()
        file.close()
        self.assertFalse(file)
        with self.assertRaisesRegex(ValueError, "the file is closed"):
            file["a"]

    def test_scripts(self):
        with in_memory() as file:
            self.assertEqual(file.run("group /g\nunlink /h\n"), "ok 0\nrefused 6 NotFound\n")


    def test_a_file_that_nobody_closes_is_written(self):
        file = h5i.File(self.path, "w")
        file.create_group("g")
        del file
        with h5i.File(self.path) as file:
            self.assertEqual(list(file), ["g"])
        path = os.path.join(self.folder.name, "f.h5")
        lines = f"import h5i\nfile = h5i.File({path!r}, 'w')\nfile['d'] = [1, 2]\nview = file['d'].view[:]"
        subprocess.run([sys.executable, "-c", lines], check=True, env=os.environ | {"PYTHONPATH": os.pathsep.join(sys.path)})
        with h5i.File(path) as file:
            self.assertEqual(file["d"][...].tolist(), [1, 2])

    def test_a_link_of_the_system_stays(self):
        real = os.path.join(self.folder.name, "real.h5")
        h5i.File(real, "w").close()
        os.symlink("real.h5", self.path)
        with h5i.File(self.path, "r+") as file:
            file.create_group("g")
        self.assertTrue(os.path.islink(self.path))
        with h5i.File(real) as file:
            self.assertIn("g", file)


class Arrays(unittest.TestCase):
    """Arrays, cells and selections."""

    def setUp(self):
        self.file = in_memory()

    def tearDown(self):
        self.file.close()

    def test_properties(self):
        made = self.file.create_dataset("g/h/d", (3, 4), ">i2", chunks=(2, 3), maxshape=(None, 9), fillvalue=-7)
        self.assertEqual((made.shape, made.maxshape, made.chunks), ((3, 4), (None, 9), (2, 3)))
        self.assertEqual((made.dtype, made.fillvalue, made.ndim, made.size, len(made)), (np.dtype(">i2"), -7, 2, 12, 3))
        self.assertEqual(made.name, "/g/h/d")
        self.assertIsNone(self.file.create_dataset("e", 5, "u1", compact=True).chunks)

    def test_each_type_keeps_its_ends(self):
        for name in TYPES:
            ends = np.array([np.iinfo(name).min, np.iinfo(name).max], np.dtype(name))
            made = self.file.create_dataset("t" + name, data=ends, fillvalue=int(ends[0]))
            self.assertEqual(made.dtype, np.dtype(name))
            np.testing.assert_array_equal(made[...], ends)
            self.assertEqual(made.fillvalue, ends[0])

    def test_a_scalar(self):
        made = self.file.create_dataset("s", (), "i4", fillvalue=3)
        self.assertEqual(made[()], 3)
        made[()] = -4
        self.assertEqual(made[...].shape, ())
        self.assertEqual(int(made[...]), -4)

    def test_selections_are_those_of_numpy(self):
        chance = random.Random(5)
        sizes = (5, 7, 3)
        beside = np.arange(105, dtype="<i4").reshape(sizes)
        made = self.file.create_dataset("d", data=beside, chunks=(2, 3, 2))
        for turn in range(300):
            key = []
            for size in sizes[: chance.randint(0, 3)]:
                if chance.random() < 0.3:
                    # inside each axis, wherever an ellipsis moves it
                    key.append(chance.randrange(-min(sizes), min(sizes)))
                else:
                    low, high = chance.randint(-size - 1, size + 1), chance.randint(-size - 1, size + 1)
                    key.append(slice(chance.choice([None, low]), chance.choice([None, high]), chance.choice([None, 1, 2, 3])))
            if chance.random() < 0.4:
                key.insert(chance.randint(0, len(key)), Ellipsis)
            key = tuple(key)
            np.testing.assert_array_equal(made[key], beside[key], str(key))
            self.assertEqual(np.shape(made[key]), np.shape(beside[key]), str(key))
            values = np.array(chance.randrange(1000) + np.arange(beside[key].size), "<i8").reshape(np.shape(beside[key]))
            beside[key] = values
            made[key] = values
            np.testing.assert_array_equal(made[...], beside, f"{turn}: {key}")

    def test_one_value_for_many_cells(self):
        made = self.file.create_dataset("d", (4, 4), "u1", chunks=(3, 3))
        made[1:3, ::2] = 9
        made[3] = [1, 2, 3, 4]
        np.testing.assert_array_equal(made[...], [[0, 0, 0, 0], [9, 0, 9, 0], [9, 0, 9, 0], [1, 2, 3, 4]])

    def test_reads_into_an_array_of_the_callers(self):
        made = self.file.create_dataset("d", data=np.arange(12, dtype="<i4").reshape(3, 4))
        room = np.empty((2, 2), "<i4")
        made.read_direct(room, np.s_[::2, 1:3])
        np.testing.assert_array_equal(room, [[1, 2], [9, 10]])
        for other in (np.empty((2, 2), ">i8"), np.empty((2, 2), "<i4", order="F")):
            made.read_direct(other, np.s_[::2, 1:3])
            np.testing.assert_array_equal(other, room)
        self.assertRaises(ValueError, made.read_direct, np.empty((2, 3), "<i4"), np.s_[::2, 1:3])

    def test_what_is_refused_changes_nothing_and_names_the_rule(self):
        made = self.file.create_dataset("d", data=np.arange(4, dtype="u1"))
        image = self.file.tobytes()
        cases = [
            ("ValueRange", lambda: made.__setitem__(2, 300)),
            ("NotChunked", lambda: made.resize((5,))),
            ("AlreadyThere", lambda: self.file.create_group("d")),
            ("NotFound", lambda: self.file["none"]),
            ("NoSuchParent", lambda: self.file["none/none"]),
            ("NoSuchAttribute", lambda: made.attrs["unit"]),
            ("ValueRange", lambda: self.file.create_dataset("e", data=[1], dtype="u1", fillvalue=256)),
            ("BadSpec", lambda: self.file.create_dataset("e", (3,), "u1", chunks=(0,))),
        ]
        for rule, call in cases:
            with self.assertRaises(h5i.Refused) as caught:
                call()
            self.assertEqual(caught.exception.rule, rule)
        self.assertRaises(KeyError, lambda: self.file["none"])
        self.assertRaises(IndexError, lambda: made[4])
        self.assertRaises(TypeError, lambda: made.__setitem__(0, 1.5))
        self.assertEqual(self.file.tobytes(), image)

    def test_what_fails_leaves_no_group_behind(self):
        self.assertRaises(h5i.Refused, self.file.create_dataset, "a/b/d", (3,), "u1", chunks=(0,))
        self.assertRaises(ValueError, self.file.create_dataset, "a/b/d", data=[1, 2], shape=(3,))
        self.assertRaises(TypeError, self.file.create_dataset, "a/b/d", (3,), "f4")
        self.assertEqual(list(self.file), [])

    def test_sizes_that_are_none(self):
        for words in (dict(shape=-1), dict(shape=(2, -1)), dict(shape=4, chunks=-1), dict(shape=4, chunks=1 << 32), dict(shape=1 << 64)):
            self.assertRaises(ValueError, self.file.create_dataset, "d", dtype="u1", **words)
        for words in (dict(chunks=False, maxshape=(None,)), dict(chunks=2, compact=True)):
            self.assertRaises(ValueError, self.file.create_dataset, "d", 4, "u1", **words)
        self.assertEqual(list(self.file), [])

    def test_values_of_no_type(self):
        made = self.file.create_dataset("d", (3,), "u8")
        for value in (1 << 64, [0, 1, -(1 << 70)]):
            with self.assertRaises(h5i.Refused) as caught:
                made[...] = value
            self.assertEqual(caught.exception.rule, "ValueRange")

    def test_chunks_that_are_not_given(self):
        cases = [((5000, 5000), None, "i8"), ((0,), (None,), "u1"), ((3, 0), (3, None), "i4"), ((2,) * 20, (None,) * 20, "i8"), ((7,), (9,), "u2")]
        for shape, limits, kind in cases:
            made = self.file.create_dataset("c", shape, kind, chunks=True, maxshape=limits)
            self.assertLessEqual(int(np.prod(made.chunks)) * made.dtype.itemsize, 1 << 16)
            self.assertTrue(all(part <= most for part, most in zip(made.chunks, made.maxshape) if most), made.chunks)
            del self.file["c"]

    def test_what_is_printed(self):
        made = self.file.create_dataset("d", (3, 4), ">i2")
        self.assertEqual(repr(made), "<h5i dataset '/d' of shape (3, 4), type '>i2'>")
        self.assertEqual(repr(self.file.create_group("g")), "<h5i group '/g' (0 members)>")
        self.assertEqual(repr(made.view[0]), "<h5i view of shape (4,), type '>i2'>")
        del self.file["d"]
        self.assertEqual(repr(made), "<h5i dataset '/d', which is not there (NotFound)>")
        group = self.file["g"]
        self.file.close()
        self.assertEqual((repr(made), repr(group), repr(self.file)), ("<closed h5i dataset>", "<closed h5i group>", "<closed h5i file>"))
        self.assertFalse(group)

    def test_resizing(self):
        made = self.file.create_dataset("d", data=np.arange(6, dtype="i4").reshape(2, 3), chunks=(2, 2), maxshape=(None, 3))
        made.resize((3, 2))
        np.testing.assert_array_equal(made[...], [[0, 1], [3, 4], [0, 0]])
        made.resize(3, axis=1)
        np.testing.assert_array_equal(made[...], [[0, 1, 0], [3, 4, 0], [0, 0, 0]])


class Groups(unittest.TestCase):
    """Groups, links and attributes."""

    def setUp(self):
        self.file = in_memory()

    def tearDown(self):
        self.file.close()

    def test_links(self):
        group = self.file.create_group("g")
        group["d"] = np.arange(3)
        self.file["h"] = group["d"]
        self.file["s"] = h5i.SoftLink("/nowhere")
        self.assertEqual(list(self.file.keys()), ["g", "h", "s"])
        self.assertEqual(self.file["h"], group["d"])
        self.assertNotEqual(self.file["h"], group)
        self.assertEqual(self.file["s"].path, "/nowhere")
        self.assertIn("g/d", self.file)
        del self.file["g/d"]
        self.assertNotIn("g/d", self.file)
        np.testing.assert_array_equal(self.file["h"][...], [0, 1, 2])
        self.assertEqual(dict(self.file.items())["g"], group)
        self.assertEqual(len(self.file), 3)
        self.assertRaises(TypeError, self.file.require_group, "h")
        self.assertEqual(self.file.require_group("g"), group)

    def test_a_group_goes_with_all_that_it_holds(self):
        self.file["g/h/d"] = np.arange(3)
        self.file["g/e"] = np.arange(4)
        self.file["kept"] = self.file["g/e"]
        self.file["g/h/f"] = self.file["g/e"]
        self.file["g/h/s"] = h5i.SoftLink("/kept")
        goes, stays = self.file["g/h/d"].view[:], self.file["g/e"].view[1:]
        del self.file["g"]
        self.assertEqual(list(self.file), ["kept"])
        with self.assertRaises(h5i.Refused) as caught:
            goes[...]
        self.assertEqual(caught.exception.rule, "Gone")
        self.file["kept"][2] = 9
        self.assertEqual(stays[...].tolist(), [1, 9, 3])
        with self.assertRaises(KeyError):
            del self.file["g"]

    def test_what_stands_in_another_file(self):
        with in_memory() as other:
            other["d"] = [1, 2]
            self.file["d"] = [3]
            with self.assertRaisesRegex(ValueError, "another file"):
                self.file["e"] = other["d"]
            self.file["e"] = other["d"][...]
        self.assertEqual(self.file["e"][...].tolist(), [1, 2])

    def test_names_of_any_bytes(self):
        name = b"a\xff\x01 b"
        self.file.create_group(name)
        self.assertEqual(os.fsencode(list(self.file)[0]), name)
        self.assertIn(list(self.file)[0], self.file)

    def test_attributes(self):
        made = self.file.create_group("g").attrs
        made["unit"] = [109, 115]
        made.create("one", 7, dtype="u1")
        made["none"] = np.zeros((0, 3), "u2")
        self.assertEqual(list(made), ["none", "one", "unit"])
        np.testing.assert_array_equal(made["unit"], [109, 115])
        self.assertEqual((made["one"], made["one"].dtype, made["none"].shape), (7, "u1", (0, 3)))
        made["unit"] = [1]
        del made["one"]
        self.assertEqual({name: values.tolist() for name, values in made.items()}, {"none": [], "unit": [1]})
        self.assertRaises(KeyError, lambda: made["one"])
        self.assertIn("unit", made)
        self.assertEqual(len(made), 2)

    def test_repacking_keeps_all(self):
        self.file["d"] = np.arange(1000)
        self.file["e"] = np.arange(1000)
        del self.file["d"]
        self.file.attrs["a"] = [1]
        for _ in range(3):
            self.file.attrs["a"] = list(range(40))
        long = len(self.file.tobytes())
        self.file.repack()
        self.assertLess(len(self.file.tobytes()), long)
        np.testing.assert_array_equal(self.file["e"][...], np.arange(1000))


class Views(unittest.TestCase):
    """Live views."""

    def test_a_view_ends_with_its_object(self):
        with in_memory() as file:
            made = file.create_dataset("d", data=np.arange(6))
            for turn in range(2000):
                self.assertEqual(made.view[turn % 6][()], turn % 6)
            view = made.view[1:3]
            self.assertEqual((len(view), view.ndim, view.size, [int(n) for n in view]), (2, 1, 2, [1, 2]))
            self.assertTrue(view)
        self.assertFalse(view)
        self.assertEqual(repr(view), "<closed h5i view>")

    def test_a_view_follows_its_array(self):
        with in_memory() as file:
            made = file.create_dataset("d", data=np.arange(12, dtype="<i4").reshape(3, 4), chunks=(2, 2), maxshape=(None, 4))
            view = made.view[1:, ::2]
            np.testing.assert_array_equal(view[...], [[4, 6], [8, 10]])
            made[1] = [9, 9, 8, 8]
            np.testing.assert_array_equal(view, [[9, 8], [8, 10]])
            made.resize((2, 4))
            with self.assertRaises(h5i.Refused) as caught:
                view[...]
            self.assertEqual(caught.exception.rule, "OutsideNow")
            made.resize((3, 4))
            file["other"] = made
            del file["d"]
            np.testing.assert_array_equal(view[...], [[9, 8], [0, 0]])
            del file["other"]
            with self.assertRaises(h5i.Refused) as caught:
                view[...]
            self.assertEqual(caught.exception.rule, "Gone")
            view.close()
            view.close()
            self.assertRaises(h5i.Refused, lambda: view[...])


def drawn(chance):
    """A file with some arrays and attributes, and what is to be read in it by their paths."""
    file, cells, attributes = in_memory(), {}, {}
    for k in range(chance.randint(1, 5)):
        name, dtype = f"/g{k}/d", np.dtype(chance.choice(TYPES))
        shape = tuple(chance.randint(1, 6) for _ in range(chance.randint(0, 3)))
        low, high = np.iinfo(dtype).min, np.iinfo(dtype).max
        values = np.array([chance.randint(low, high) for _ in range(int(np.prod(shape, dtype=int)))], dtype).reshape(shape)
        form = chance.choice(["chunks", "compact", "contiguous"]) if shape else "contiguous"
        chunks = tuple(chance.randint(1, n) for n in shape) if form == "chunks" else None
        file.create_dataset(name, data=values, chunks=chunks, compact=form == "compact")
        cells[name] = values
        if chance.random() < 0.7:
            file[name].attrs["a"] = values
            attributes[name] = values
    return file, cells, attributes


def in_reference(tree, path):
    """The object at a path, as the reference has read it."""
    return tree.objects[model.look(tree, model.names_of(path.encode()))[1][1]]


class Beside(unittest.TestCase):
    """What others read in a file of ours, and we in one of theirs."""

    @unittest.skipIf(h5py is None, "h5py is not installed")
    def test_h5py_reads_the_same(self):
        for turn in range(40):
            file, cells, attributes = drawn(random.Random(turn))
            with file, h5py.File(io.BytesIO(file.tobytes()), "r") as other:
                for path, values in cells.items():
                    self.assertEqual(other[path].dtype, values.dtype)
                    np.testing.assert_array_equal(other[path][()], values)
                    self.assertEqual(other[path].chunks, file[path].chunks)
                for path, values in attributes.items():
                    np.testing.assert_array_equal(other[path].attrs["a"], values)

    @unittest.skipIf(h5py is None, "h5py is not installed")
    def test_a_file_of_h5py_is_read_and_edited(self):
        made = io.BytesIO()
        with h5py.File(made, "w", libver=("earliest", "v108")) as file:
            file.create_dataset("g/d", data=np.arange(120, dtype="<i4").reshape(10, 12), chunks=(4, 5), maxshape=(None, 12))
            file["g"].attrs["a"] = np.arange(3, dtype=">u2")
        with h5i.File.frombytes(made.getvalue()) as file:
            np.testing.assert_array_equal(file["g/d"][1:6:2, 3:12:4], np.arange(120).reshape(10, 12)[1:6:2, 3:12:4])
            np.testing.assert_array_equal(file["g"].attrs["a"], [0, 1, 2])
            file["g/d"][0] = 5
            file["g/d"].resize((11, 12))
            image = file.tobytes()
        with h5py.File(io.BytesIO(image), "r") as file:
            self.assertEqual(file["g/d"].shape, (11, 12))
            np.testing.assert_array_equal(file["g/d"][0], [5] * 12)
            np.testing.assert_array_equal(file["g/d"][10], [0] * 12)

    @unittest.skipIf(reader is None, "the reference is not there")
    def test_the_reference_reads_the_same(self):
        for turn in range(40):
            file, cells, attributes = drawn(random.Random(turn))
            with file:
                tree = reader.open_image(file.tobytes()).tree
            for path, values in cells.items():
                found = in_reference(tree, path)
                self.assertEqual(found.dims, values.shape)
                self.assertEqual([found.cell(index) for index in np.ndindex(*found.dims)], values.reshape(-1).tolist())
            for path, values in attributes.items():
                found = in_reference(tree, path).attrs[b"a"]
                self.assertEqual((found.dims, list(found.values)), (values.shape, values.reshape(-1).tolist()))


if __name__ == "__main__":
    unittest.main()
