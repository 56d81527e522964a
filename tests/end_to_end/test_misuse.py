"""Programs of tests/misuse that must not compile: each is refused at the line that says so, and without that line it runs."""

import os
import re

from .support import TOP
from .tried import Tried

MISUSE = os.path.join(TOP, "tests", "misuse")
# The library that a program uses.
LIBRARY = re.compile(r"^use (h5_\w+)::", re.MULTILINE)
# Behind the line that must be refused stands the name of its error.
REFUSED = re.compile(r" // refused: ([a-z0-9-]+)$")
ERROR = re.compile(r"^src/main\.rt:(\d+):\d+: error\[([a-z0-9-]+)\]", re.MULTILINE)


def programs():
    """The lines of the programs that must not compile, by name."""
    found = {}
    for file in sorted(os.listdir(MISUSE)):
        with open(os.path.join(MISUSE, file), encoding="utf-8") as program:
            found[file] = program.read().splitlines(keepends=True)
    return found


class Misuse(Tried):
    """Programs that hold what the library lends them for too long."""

    def test_there_are_some(self):
        self.assertEqual(len(programs()), 6)

    def test_each_is_refused_at_its_line(self):
        for name, lines in programs().items():
            with self.subTest(name=name):
                wanted = [(str(at), found[1]) for at, line in enumerate(lines, 1) if (found := REFUSED.search(line))]
                self.assertEqual(len(wanted), 1)
                text = "".join(lines)
                status, _, said = self.tried(text, LIBRARY.search(text)[1])
                self.assertEqual((status, ERROR.findall(said)), (1, wanted), said)

    def test_without_that_line_each_runs(self):
        for name, lines in programs().items():
            with self.subTest(name=name):
                text = "".join(line for line in lines if not REFUSED.search(line))
                status, _, said = self.tried(text, LIBRARY.search(text)[1])
                self.assertEqual((status, ERROR.findall(said)), (0, []), said)
