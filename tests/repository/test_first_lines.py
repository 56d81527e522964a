"""The lines at the head of the library are those that its crate of tests runs, and README.md is short."""

import os
import unittest

TOP = os.path.dirname(os.path.dirname(os.path.dirname(os.path.abspath(__file__))))


def lines_of(*parts):
    """The lines of a file of the repository."""
    with open(os.path.join(TOP, *parts), encoding="utf-8") as file:
        return file.read().splitlines()


def documented():
    """The function in the first block of code of the library's documentation."""
    lines = [line[len("//!"):].removeprefix(" ") for line in lines_of("crates", "h5_file", "src", "lib.rt") if line.startswith("//!")]
    begin = lines.index("```")
    block = lines[begin + 1:lines.index("```", begin + 1)]
    return block[block.index(next(line for line in block if line.startswith("fn "))):]


def tested():
    """The first function of the tests' module."""
    lines = lines_of("crates", "h5_file_tests", "src", "door.rt")
    begin = next(place for place, line in enumerate(lines) if line.startswith("fn "))
    return lines[begin:lines.index("}", begin) + 1]


class FirstLines(unittest.TestCase):
    """What a reader copies first."""

    def test_the_tests_run_them(self):
        self.assertGreater(len(documented()), 5)
        self.assertEqual(documented(), tested())

    def test_the_readme_is_short(self):
        lines = lines_of("README.md")
        self.assertLessEqual(len(lines), 150)
        commands = [line.split()[0] for line in lines if line.startswith("    bin/")]
        self.assertEqual(commands, ["bin/install", "bin/test", "bin/build"])
