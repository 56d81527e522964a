"""One minute of tests/fuzz, over the library for C that is packed in dist: half of it on the files of tests/data, half on images that are drawn.

The library has all of the program but its command line and its files. Each day has seeds of its own, from that which is printed on.
"""

import contextlib
import io
import os
import re
from datetime import date

from . import fuzz_command
from .packed import Packed, is_older
from .support import TOP

FILES = os.path.join("tests", "data")
MINUTES = 0.5
# So many cases at least are judged in this time, also where all processors are busy.
FEWEST = 10
# The seeds of the second half, of a day that has not so many cases.
HALF = 500000


class Minute(Packed):
    """What differs on this day."""

    def fuzz(self, first, *files):
        """Judges cases from a seed on. What differs fails where the package is of these sources, and else is told alone."""
        words = ["--library", self.library, "--minutes", str(MINUTES), "--processors", "1", "--seed", str(first)]
        print(f"tests/fuzz --library libh5i.so --seed {first} --minutes {MINUTES} {' '.join(files)}".rstrip(), flush=True)
        text = io.StringIO()
        with contextlib.redirect_stdout(text), contextlib.redirect_stderr(text):
            status = fuzz_command.main([*words, *(os.path.join(TOP, file) for file in files)])
        print(text.getvalue(), end="", flush=True)
        counts = re.fullmatch(r"(\d+) cases, (\d+) differences", text.getvalue().splitlines()[-1])
        self.assertGreater(int(counts[1]), FEWEST)
        self.assertTrue(status == 0 or is_older(), f"{counts[2]} differences; --seed N --count 1 with the same files gives each again")

    def test_files(self):
        self.fuzz(int(f"{date.today():%Y%m%d}") * 2 * HALF, FILES)

    def test_drawn_images(self):
        self.fuzz(int(f"{date.today():%Y%m%d}") * 2 * HALF + HALF)
