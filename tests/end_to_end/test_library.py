"""The library for C and Python as it is packed in dist: no test builds it."""

import os
import re
import shutil
import tempfile
import unittest

from .support import LIBRARY_PYTHON, TOP, run_command
from .test_package import DIST, bytes_of, package_in, sources

BINDINGS = os.path.join(TOP, "bindings", "python")


def first_lines():
    """The lines for Python in README.md, and what they print by its text."""
    text = bytes_of(TOP, "README.md").decode("utf-8")
    lines = re.search(r"^    import h5i\n(    .*\n)+", text, re.M)
    return re.sub(r"^    ", "", lines[0], flags=re.M), re.findall(r"print `(.*)`:\n\n$", text[:lines.start()], re.M)[-1] + "\n"


class Packed(unittest.TestCase):
    """What works with the packages alone. What these sources say more than the package does is not asked for."""

    @classmethod
    def setUpClass(cls):
        if not any(file.startswith("python3-h5i_") for file in os.listdir(DIST)):
            raise AssertionError("there is no package python3-h5i in dist: bin/package makes it of what bin/build-c has built")
        cls.folder = tempfile.mkdtemp()
        cls.addClassCleanup(shutil.rmtree, cls.folder)
        run_command("dpkg-deb", "--extract", os.path.join(DIST, package_in(DIST, "python3-h5i")), cls.folder)
        cls.modules = os.path.join(cls.folder, "usr", "lib", "python3", "dist-packages")
        cls.library = os.path.join(cls.modules, "h5i", "libh5i.so")

    def python(self, path, *words):
        """Runs Python, with numpy and h5py, in a folder of its own: its status, output and errors."""
        given = {"PYTHONPATH": path, "H5I_LIBRARY": self.library, "PYTHONDONTWRITEBYTECODE": "1"}
        return run_command("env", "--chdir", tempfile.mkdtemp(dir=self.folder), *(f"{name}={value}" for name, value in given.items()),
                           LIBRARY_PYTHON, *words)

    def is_older(self):
        """Whether the package is of other sources, which is told."""
        if sources("python3-h5i", "h5_c") in bytes_of(DIST, "SOURCES"):
            return False
        print("The sources are newer than python3-h5i in dist; what behaves otherwise, bin/package makes anew.")
        return True

    def test_the_first_lines_of_the_readme(self):
        lines, printed = first_lines()
        self.assertEqual(self.python(self.modules, "-c", lines), (0, printed.encode(), b""))
        self.assertLessEqual(len(lines.splitlines()), 10)

    def test_the_module(self):
        if not self.is_older():
            status, output, errors = self.python(BINDINGS, "-m", "unittest", "discover", os.path.join(BINDINGS, "tests"))
            self.assertEqual((status, output), (0, b""), errors.decode("utf-8", "replace"))
            self.assertNotIn(b"skipped", errors)


if __name__ == "__main__":
    unittest.main()
