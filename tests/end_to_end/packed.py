"""The library for C as it is packed in dist. No test builds it: so what is found by it is found of the sources that it was built from."""

import faulthandler
import functools
import os
import shutil
import tempfile
import unittest

from .support import run_command
from .test_package import DIST, bytes_of, package_in, sources

NAME = "libh5i-dev"
# A module that takes longer is ended: a call does not return.
MOST_SECONDS = 1200


@functools.cache
def is_older():
    """Whether the package is of other sources than these, which is told. What toolchain has built it does not matter here."""
    if sources(NAME, "h5_c").splitlines()[0] in bytes_of(DIST, "SOURCES").splitlines():
        return False
    print(f"The sources are newer than {NAME} in dist; what behaves otherwise, bin/package makes anew.", flush=True)
    return True


class Packed(unittest.TestCase):
    """Tests with the library, its archive and its header, in a folder that is theirs."""

    @classmethod
    def setUpClass(cls):
        if not any(file.startswith(NAME + "_") for file in os.listdir(DIST)):
            raise AssertionError(f"there is no package {NAME} in dist: bin/package makes it of what bin/build-c has built")
        cls.folder = tempfile.mkdtemp()
        cls.addClassCleanup(shutil.rmtree, cls.folder)
        run_command("dpkg-deb", "--extract", os.path.join(DIST, package_in(DIST, NAME)), cls.folder)
        there = os.path.join(cls.folder, "usr", "lib", "x86_64-linux-gnu")
        cls.library, cls.archive = (os.path.join(there, file) for file in ("libh5i.so", "libh5i.a"))
        cls.headers = os.path.join(cls.folder, "usr", "include")
        is_older()
        # Where the library breaks the process, or gives no answer, the lines that have called it are told.
        faulthandler.enable()
        faulthandler.dump_traceback_later(MOST_SECONDS, exit=True)
        cls.addClassCleanup(faulthandler.cancel_dump_traceback_later)
