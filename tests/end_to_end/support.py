"""The program under test and its two judges: the reference reader and the usual library."""

import os
import subprocess
import sys
import tempfile
import unittest

TOP = os.path.dirname(os.path.dirname(os.path.dirname(os.path.abspath(__file__))))
PROGRAM = os.path.abspath(os.environ.get("H5I", os.path.join(TOP, "build", "h5i")))
REFERENCE = os.path.join(TOP, "tests", "reference", "h5oracle.py")
# Writes what h5py reads of each file beside it.
WITH_H5PY = os.path.join(TOP, "tests", "reference", "with_h5py.py")
# The Python that Debian's h5py belongs to, whatever stands first on PATH.
LIBRARY_PYTHON = os.environ.get("LIBRARY_PYTHON", "/usr/bin/python3")

# The empty file, from the tables of its format: every byte that is not named is 0.
EMPTY_FIELDS = {
    0: "894844460d0a1a0a00000000000808000400100000000000",
    32: "ffffffffffffffff2003000000000000ffffffffffffffff",
    64: "600000000000000001000000000000008800000000000000a802000000000000",
    96: "0100010001000000180000000000000011001000000000008800000000000000a802000000000000",
    136: "5452454500000000ffffffffffffffffffffffffffffffff",
    680: "484541500000000058000000000000000800000000000000c802000000000000",
    720: "01000000000000005000000000000000",
}
# The same with a superblock of version 1, whose bytes 24 to 27 are the K of chunk trees and two that are reserved: all that follows stands 4
# bytes further.
EMPTY_FIELDS_1 = {
    0: "894844460d0a1a0a01000000000808000400100000000000",
    24: "20000000",
    36: "ffffffffffffffff2403000000000000ffffffffffffffff",
    68: "640000000000000001000000000000008c00000000000000ac02000000000000",
    100: "0100010001000000180000000000000011001000000000008c00000000000000ac02000000000000",
    140: "5452454500000000ffffffffffffffffffffffffffffffff",
    684: "484541500000000058000000000000000800000000000000cc02000000000000",
    724: "01000000000000005000000000000000",
}


def image_of_fields(length, fields):
    """So many bytes, which are 0 but for these fields."""
    image = bytearray(length)
    for place, digits in fields.items():
        field = bytes.fromhex(digits)
        image[place:place + len(field)] = field
    return bytes(image)


def empty_image():
    """The 800 bytes of a file with an empty root group."""
    return image_of_fields(800, EMPTY_FIELDS)


def empty_image_1(chunk_k=32):
    """The 804 bytes of such a file whose superblock is of version 1 and has this K of chunk trees."""
    return patched(image_of_fields(804, EMPTY_FIELDS_1), 24, chunk_k.to_bytes(2, "little").hex())


def superblock_length(image):
    """How many bytes the superblock of an image has."""
    return 100 if image[8] == 1 else 96


def end_field(image):
    """Where the end of file address of an image stands."""
    return slice(44, 52) if image[8] == 1 else slice(40, 48)


def end_of_file(image):
    """The end of file address of an image."""
    return int.from_bytes(image[end_field(image)], "little")


def patched(image, place, digits):
    """The image with these bytes at the place."""
    field = bytes.fromhex(digits)
    return image[:place] + field + image[place + len(field):]


def run_command(*words, script=b"", stdout=subprocess.PIPE, stderr=subprocess.PIPE):
    """Runs a command: its status, output and errors."""
    done = subprocess.run(words, input=script, stdout=stdout, stderr=stderr, check=False, timeout=60)
    return done.returncode, done.stdout, done.stderr


def h5i(*words, **options):
    """Runs the program under test."""
    return run_command(PROGRAM, *words, **options)


def reference(*words, **options):
    """Runs the reference implementation."""
    return run_command(sys.executable, REFERENCE, *words, **options)


def library(code, *words):
    """Runs Python code with the usual library's h5py."""
    return run_command(LIBRARY_PYTHON, "-c", code, *words)


class InFolder(unittest.TestCase):
    """Tests with a folder of their own."""

    def setUp(self):
        folder = tempfile.TemporaryDirectory()
        self.addCleanup(folder.cleanup)
        self.folder = folder.name

    def path(self, name):
        """A path in the folder."""
        return os.path.join(self.folder, name)

    def written(self, name, data):
        """The path of a new file with these bytes."""
        path = self.path(name)
        with open(path, "wb") as file:
            file.write(data)
        return path

    def read(self, path):
        """The bytes of a file."""
        with open(path, "rb") as file:
            return file.read()

    def library_texts(self, paths):
        """What the usual library reads of each file, one at least."""
        self.assertEqual(run_command(LIBRARY_PYTHON, WITH_H5PY, *paths), (0, b"", b""))
        return [self.read(path + ".txt") for path in paths]

    def new(self, name="e.h5"):
        """The path of a file that the program has made."""
        path = self.path(name)
        self.assertEqual(h5i("new", path), (0, b"", b""))
        return path

    def with_array(self, line="/d i32le 3 contiguous fill=-7", name="e.h5"):
        """The path of a repacked file with an array, made by the words behind `dataset`."""
        path = self.new(name)
        self.assertEqual(h5i("run", path, script=f"dataset {line}\nrepack\n".encode()), (0, b"ok 0\n" * 2, b""))
        return path

    def stamp(self, path):
        """What changes where a file is written: its bytes, and when it was."""
        return self.read(path), os.stat(path).st_mtime_ns
