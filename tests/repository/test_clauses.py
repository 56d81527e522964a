"""No line of a clause is wider than 110 columns."""

import os
import re
import sys
import unittest

ROOT = os.path.dirname(os.path.dirname(os.path.dirname(os.path.realpath(__file__))))
sys.dont_write_bytecode = True
sys.path.insert(0, os.path.join(ROOT, "bin"))

from wrong_bodies import repository, source  # noqa: E402

COLUMNS = 110
CLAUSE = re.compile(r"\b(?:requires|ensures|invariant|decreases)\b\*?(?:\s+[\w-]+)?\s*(?=\{)")


def wide_lines(text):
    """The numbers of the lines that are too wide and stand in a clause."""
    bare = source.blanked(text)
    heads = [(match.start(), bare.index("{", match.start())) for match in CLAUSE.finditer(bare)]
    clauses = [(start, source.closing(bare, opening)) for start, opening in heads]
    place, found = 0, []
    for number, line in enumerate(text.split("\n"), 1):
        end = place + len(line)
        if len(line) > COLUMNS and any(start < end and place < stop for start, stop in clauses):
            found.append(number)
        place = end + 1
    return found


class Clauses(unittest.TestCase):
    def test_finds_a_wide_clause_and_no_other_line(self):
        clause = "    ensures { " + "a" * COLUMNS + " }\n"
        self.assertEqual(wide_lines("fn one()\n" + clause + "{\n    // " + "b" * COLUMNS + "\n}\n"), [2])

    def test_no_clause_is_too_wide(self):
        wide = []
        for name in repository.read_crates(ROOT):
            for path, text in repository.read_sources(repository.folder_of(ROOT, name)).items():
                wide += [f"{name}/{path}:{number}" for number in wide_lines(text)]
        self.assertEqual(wide, [])


if __name__ == "__main__":
    unittest.main()
