"""Small programs over the library, compiled and run with no proof beside a copy of all crates' sources."""

import os
import shutil
import subprocess
import tempfile
import unittest

from .support import TOP

RATTLE = os.environ.get("RT", "rt")


class Tried(unittest.TestCase):
    """Tests that try programs."""

    @classmethod
    def setUpClass(cls):
        folder = tempfile.TemporaryDirectory()
        cls.addClassCleanup(folder.cleanup)
        cls.top = folder.name
        shutil.copytree(os.path.join(TOP, "crates"), os.path.join(cls.top, "crates"), ignore=shutil.ignore_patterns("out"))
        os.makedirs(os.path.join(cls.top, "crates", "tried", "src"))

    def tried(self, text, libraries, given=b""):
        """The status, output and errors of a program of this text, which stands on these libraries."""
        with open(os.path.join(TOP, "crates.txt"), encoding="utf-8") as file:
            listed = file.read()
        with open(os.path.join(self.top, "crates.txt"), "w", encoding="utf-8") as file:
            file.write(f"{listed}tried: {libraries}\n")
        crate = os.path.join(self.top, "crates", "tried")
        with open(os.path.join(crate, "src", "main.rt"), "w", encoding="utf-8") as file:
            file.write(text)
        # The interpreter, which would run it too, is slow.
        done = subprocess.run([RATTLE, "try", "--steps", "1", "--seconds", "600"], cwd=crate, input=given, stdout=subprocess.PIPE, stderr=subprocess.PIPE, check=False)
        return done.returncode, done.stdout, done.stderr.decode("utf-8", "replace")
