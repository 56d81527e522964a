"""Groups and arrays made where their group stands: what the new object is, where its bytes come to stand, and when there is no room."""

import os

from . import today
from .kept_session import image_behind
from .support import InFolder, empty_image, h5i, library, patched, reference
from .test_links_in_place import IMAGE_FULL, LIMIT, Judged
from .test_scripts import unwritten

# pylint: disable=wrong-import-order
from h5oracle.growth import edit_bound  # noqa: E402
from h5oracle.model import Tree  # noqa: E402
from h5oracle.plain import le  # noqa: E402
from h5oracle.reader import Superblock  # noqa: E402
from h5oracle.script import edit_of  # noqa: E402

# New arrays of each form.
FORMS = [
    "u8 3 contiguous fill=7", "i64be 2,2 contiguous fill=-2", "u16le 0 contiguous fill=9", "i32be 2,3 compact fill=-70000",
    "u8 2/inf,3/6 chunked:1,2 fill=200", "i16le - compact",
]
# Reads each array of a file, and makes one more of each kind of object beside it.
CHANGE = """
import sys, h5py
for path in sys.argv[1:]:
    with h5py.File(path, "r+") as file:
        found = []
        file.visititems(lambda name, thing: found.append(thing[()]) if isinstance(thing, h5py.Dataset) else None)
        file.create_group("by h5py").create_dataset("too", data=range(5))
"""


class NewObjects(Judged):
    """Objects of each form."""

    def test_bytes_that_were_given_back_are_the_fill(self):
        """A block of other bytes is taken for the new array's cells, and none of them shows."""
        ones = ",".join(["255"] * 4000)
        begun = ["dataset /kept u8 1 compact", "dataset /gone u8 4000 contiguous", f"write /gone 0 1 4000 1 {ones}"]
        output, image = image_behind(self.path("e.h5"), empty_image(), today.printed(begun))
        self.assertEqual(output, b"ok 0\n" * 3)
        for kind, cells in (("u8", 3900), ("i16be", 1900), ("u64le", 400)):
            with self.subTest(kind=kind):
                lines = ["unlink /gone", f"dataset /made {kind} {cells} contiguous fill=3"]
                after = self.assert_in_place(image, lines)
                self.assertEqual(len(after), len(image))
                cells_of = h5i("dump", self.written("made.h5", after), "/made")[1].split()[-cells:]
                self.assertEqual(cells_of, [b"3"] * cells)

    def test_groups_in_groups(self):
        names = ["a", "b", "c"]
        paths = [f"/{one}" for one in names] + [f"/{one}/{two}" for one in names for two in names]
        after = self.assert_in_place(empty_image(), [f"group {path}" for path in paths] + [f"unlink {path}" for path in reversed(paths)])
        self.assertEqual(today.opened(after)[0].tree.objects[0].links, {})
        # All that was made is free again: as much fits as before.
        again = self.assert_in_place(empty_image(), [f"group {path}" for path in paths])
        script = [f"group {path}" for path in paths] + [f"unlink {path}" for path in reversed(paths)]
        rounds = image_behind(self.path("e.h5"), empty_image(), today.printed(script * 20))
        self.assertEqual((set(rounds[0].split(b"\n")), len(rounds[1])), ({b"ok 0", b""}, len(again)))

    def test_the_usual_library_reads_and_edits(self):
        script = ["group /g"]
        for number in range(40):
            form = FORMS[number % len(FORMS)]
            script += [f"dataset /g/d{number * 7 % 40:02} {form}", f"group /g/g{number * 11 % 40:02}"]
        after = self.assert_in_place(empty_image(), script)
        path = self.written("made.h5", after)
        self.assertEqual(library(CHANGE, path), (0, b"", b""))
        self.assertEqual(reference("check", path)[:2], (0, b"ok\n"))
        wanted = today.opened(after)[0].tree
        found = today.opened(self.read(path))[0].tree
        del found.objects[0].links[b"by h5py"]
        self.assertEqual(found.objects[0].links.keys(), wanted.objects[0].links.keys())
        group = found.objects[0].links[b"g"][1]
        self.assertEqual(len(found.objects[group].links), 80)


class Room(InFolder):
    """An image that would be too long."""

    def test_to_the_byte(self):
        # The block of an array's cells is the last of the image, and so long that the image has these bytes. A group's segment has 88.
        made = image_behind(self.path("one.h5"), empty_image(), b"dataset /d u8 1 contiguous\nrepack\n")[1]
        for line in (b"group /g", b"dataset /n u16le 100 contiguous"):
            bound = edit_bound(Tree.root_alone(), Superblock.fresh(), edit_of(line.split(b" ")), 88)
            for length, answer in ((LIMIT - bound, b"ok 0\n"), (LIMIT - bound + 1, IMAGE_FULL)):
                image, cells = made, length - 1248
                for at, number in ((40, length), (1128 + 32, cells), (1128 + 106, cells)):
                    image = patched(image, at, le(number, 8).hex())
                path = self.written("long.h5", image)
                os.truncate(path, length)
                with self.subTest(line=line, length=length):
                    self.assertEqual(unwritten(path, line + b"\nunlink /d\n"), (4, answer + b"ok 0\n"))
                os.remove(path)

    def test_an_array_that_is_too_long_alone(self):
        path = self.new()
        before = self.read(path)
        for cells in (2147472953, 2147483648, 2147483649, 1 << 40):
            with self.subTest(cells=cells):
                script = b"dataset /q u8 %d contiguous\n" % cells
                self.assertEqual(h5i("run", path, script=script), (1, IMAGE_FULL, b""))
                self.assertEqual(self.read(path), before)
        # One byte less is not refused.
        self.assertEqual(unwritten(path, b"dataset /q u8 2147472952 contiguous\n"), (4, b"ok 0\n"))
