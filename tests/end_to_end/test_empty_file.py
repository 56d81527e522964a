"""The file that `h5i new` writes, and what `h5i ls` prints of it."""

from .support import InFolder, empty_image, h5i, library, reference, run_command

ADD_GROUP = """
import sys, h5py
with h5py.File(sys.argv[1], "r+", libver=("earliest", "v108")) as file:
    assert list(file) == [], list(file)
    file.create_group("added")
with h5py.File(sys.argv[1], "r") as file:
    assert list(file) == ["added"], list(file)
    assert isinstance(file["added"], h5py.Group)
"""


class EmptyFile(InFolder):
    """A file with an empty root group."""

    def setUp(self):
        super().setUp()
        self.file = self.path("e.h5")
        self.assertEqual(h5i("new", self.file), (0, b"", b""))

    def test_bytes_are_those_of_the_tables(self):
        self.assertEqual(self.read(self.file), empty_image())

    def test_bytes_are_those_of_the_reference(self):
        other = self.path("reference.h5")
        self.assertEqual(reference("new", other)[0], 0)
        self.assertEqual(self.read(self.file), self.read(other))
        self.assertEqual(reference("check", self.file)[0], 0)

    def test_listing(self):
        self.assertEqual(h5i("ls", self.file), (0, b"/ group\n", b""))
        self.assertEqual(reference("ls", self.file)[:2], (0, b"/ group\n"))

    def test_listing_leaves_the_file(self):
        h5i("ls", self.file)
        self.assertEqual(self.read(self.file), empty_image())

    def test_new_replaces_what_was_there(self):
        for old in (b"", b"text", empty_image() + bytes(5000)):
            path = self.written("old.h5", old)
            self.assertEqual(h5i("new", path), (0, b"", b""))
            self.assertEqual(self.read(path), empty_image())

    def test_bytes_past_the_end_of_file_are_passed_over(self):
        path = self.written("long.h5", empty_image() + b"more")
        self.assertEqual(h5i("ls", path), (0, b"/ group\n", b""))

    def test_library_adds_a_group(self):
        status, _, errors = library(ADD_GROUP, self.file)
        self.assertEqual((status, errors), (0, b""))
        self.assertEqual(reference("ls", self.file)[:2], (0, b"/ group\n/added group\n"))

    def test_library_tools_read_it(self):
        status, output, errors = run_command("h5ls", self.file)
        self.assertEqual((status, output, errors), (0, b"", b""))
        status, output, errors = run_command("h5dump", self.file)
        self.assertEqual((status, errors), (0, b""))
        self.assertIn(b'GROUP "/" {\n}', output)

    def test_a_group_that_the_library_added_is_listed(self):
        self.assertEqual(library(ADD_GROUP, self.file)[0], 0)
        before = self.read(self.file)
        self.assertEqual(h5i("ls", self.file), (0, b"/ group\n/added group\n", b""))
        self.assertEqual(h5i("dump", self.file, "/added"), (0, b"/added group\n", b""))
        self.assertEqual(self.read(self.file), before)
