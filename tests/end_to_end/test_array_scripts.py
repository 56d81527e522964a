"""Random scripts that make arrays of every form, with `repack` among them: answers, trees and files are the reference's."""

from .drawn_images import IMAGES
from .drawn_scripts import ARRAYS, DrawnScripts

SEEDS = range(IMAGES // 5)
LINES = 300


class ArrayScripts(DrawnScripts):
    """Long scripts, on a file that is empty at first or that others wrote."""

    def test_answers_trees_and_files(self):
        edits, stores, _ = self.assert_all_right(SEEDS, "arrays", ARRAYS, LINES)
        self.assertGreater(edits, LINES // 2 * len(SEEDS))
        self.assertGreater(len(stores), 12)
