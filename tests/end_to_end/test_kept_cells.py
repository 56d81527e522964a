"""Cells that are kept of an array: one box patched leaves all others, and boxes are those that an edit and a selection both meet."""

import os

from .support import TOP
from .tried import Tried

PROGRAM = os.path.join(TOP, "tests", "calls", "kept.rt.txt")
LIBRARIES = "h5_file h5_shape hex anyhow"
# An array of 5 by 4 with 1 to 20 in its cells, and then with 101 to 120, in boxes of 2 by 3.
OLD = list(range(1, 21))
NEW = list(range(101, 121))


def cells(boxes):
    """What is kept where these boxes have the new cells, and all others the old ones."""
    kept = [NEW[place] if (place // 4 // 2 * 2, place % 4 // 3 * 3) in boxes else OLD[place] for place in range(20)]
    return bytes(kept).hex()


class KeptCells(Tried):
    """One run of a program that keeps cells."""

    def test_boxes(self):
        with open(PROGRAM, encoding="utf-8") as file:
            program = file.read()
        status, output, said = self.tried(program, LIBRARIES)
        self.assertEqual(status, 0, said)
        gathered, patched, met, *boxes = output.decode("ascii").splitlines()
        self.assertEqual(gathered, bytes(OLD).hex())
        self.assertEqual(patched, cells({(0, 0)}))
        # The third row is written, which meets two boxes of all cells.
        self.assertEqual(met, f"2 {cells({(0, 0), (2, 0), (2, 3)})}")
        # Of every other cell (rows 0, 2 and 4, columns 0 and 2) it meets one, and of the first row none: the two
        # lie apart. A fourth column less takes a cell of three boxes, and none of the others; a column more takes none.
        self.assertEqual(boxes.pop(3), "true false")
        self.assertEqual([line.split() for line in boxes], [["2,0,", "2,3,"], ["2,0,"], [], ["0,3,", "2,3,", "4,3,"], [], []])
