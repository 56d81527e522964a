"""Words that are no order, and files that cannot be read or written."""

import os
import resource
import subprocess
import unittest

from .support import PROGRAM, InFolder, empty_image, h5i


class Words(unittest.TestCase):
    """The command line."""

    def test_wrong_words(self):
        for words in ((), ("ls",), ("new",), ("run",), ("dump",), ("dump", "e.h5"), ("mend", "e.h5"), ("ls", "a.h5", "b.h5"),
                      ("dump", "e.h5", "/a", "/b"), ("run", "a.h5", "b.h5"), ("--what",)):
            with self.subTest(words=words):
                status, output, errors = h5i(*words)
                self.assertEqual((status, output), (2, b""))
                self.assertTrue(errors.startswith(b"error: "), errors)
                self.assertIn(b"Usage: h5i", errors)

    def test_help_teaches(self):
        for words in (("--help",), ("-h",), ("help",)):
            with self.subTest(words=words):
                status, output, errors = h5i(*words)
                self.assertEqual((status, errors), (0, b""))
                self.assertIn(b"h5i new e.h5", output)
                self.assertIn(b"h5i ls e.h5", output)
                self.assertIn(b"h5i dump e.h5 /d", output)
                self.assertIn(b"h5i run e.h5", output)

    def test_help_of_each_order(self):
        for name in ("new", "ls", "dump", "run"):
            with self.subTest(name=name):
                status, output, errors = h5i(name, "--help")
                self.assertEqual((status, errors), (0, b""))
                self.assertIn(f"Usage: {os.path.basename(PROGRAM)} {name} <FILE>".encode(), output)

    def test_a_word_that_is_not_utf8(self):
        self.assertEqual(h5i("ls", b"\xff.h5"), (2, b"", b"h5i: a word is not UTF-8\n"))


class Files(InFolder):
    """Files of the system."""

    def test_missing_file(self):
        path = self.path("missing.h5")
        self.assertEqual(h5i("ls", path), (4, b"", f"h5i: cannot read {path}\n".encode()))
        self.assertFalse(os.path.exists(path))

    def test_folder(self):
        self.assertEqual(h5i("ls", self.folder), (4, b"", f"h5i: cannot read {self.folder}\n".encode()))
        self.assertEqual(h5i("run", self.folder), (4, b"", f"h5i: cannot read {self.folder}\n".encode()))
        self.assertEqual(h5i("new", self.folder), (4, b"", f"h5i: cannot write {self.folder}\n".encode()))

    def test_missing_folder(self):
        path = self.path("missing/e.h5")
        self.assertEqual(h5i("new", path), (4, b"", f"h5i: cannot write {path}\n".encode()))
        self.assertEqual(os.listdir(self.folder), [])

    def test_file_that_is_too_long(self):
        path = self.written("long.h5", empty_image())
        os.truncate(path, 2147483649)
        self.assertEqual(h5i("ls", path), (4, b"", f"h5i: cannot read {path}\n".encode()))

    def test_full_disk(self):
        self.assertEqual(h5i("new", "/dev/full"), (4, b"", b"h5i: cannot write /dev/full\n"))

    def test_output_that_cannot_be_written(self):
        path = self.written("e.h5", empty_image())
        with open("/dev/full", "wb") as full:
            status, _, errors = h5i("ls", path, stdout=full)
        self.assertEqual((status, errors), (4, b"h5i: cannot print\n"))

    def test_help_that_cannot_be_written(self):
        with open("/dev/full", "wb") as full:
            status, _, errors = h5i("--help", stdout=full)
        self.assertEqual((status, errors), (4, b""))

    def test_messages_that_cannot_be_written(self):
        changed = self.written("changed.h5", b"no image")
        for words in ((), ("mend", "e.h5"), ("ls", self.path("missing.h5")), ("dump", changed, "/d"), ("run", changed)):
            with self.subTest(words=words), open("/dev/full", "wb") as full:
                status, output, _ = h5i(*words, stderr=full)
                self.assertEqual((status, output), (4, b""))

    def test_a_device(self):
        self.assertEqual(h5i("new", "/dev/null"), (0, b"", b""))
        self.assertEqual(h5i("run", "/dev/null", script=b"ls\n"), (3, b"", b"h5i: refused 1 NotHdf5 at 0\n"))

    def test_out_of_memory(self):
        path = self.written("long.h5", empty_image())
        os.truncate(path, 1 << 30)
        limit = 1 << 28

        def limited():
            resource.setrlimit(resource.RLIMIT_AS, (limit, limit))

        for words in (("ls", path), ("dump", path, "/d"), ("run", path)):
            with self.subTest(words=words):
                done = subprocess.run([PROGRAM, *words], preexec_fn=limited, stdin=subprocess.DEVNULL,
                                      capture_output=True, check=False)
                self.assertEqual((done.returncode, done.stdout, done.stderr), (5, b"", b"h5i: out of memory\n"))
