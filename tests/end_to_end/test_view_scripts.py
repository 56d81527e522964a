"""Random scripts of all lines, with views open meanwhile: answers, trees and files are the reference's."""

from .drawn_images import IMAGES
from .drawn_scripts import VIEWS, DrawnScripts

SEEDS = range(3 * IMAGES // 5)
LINES = 300


class ViewScripts(DrawnScripts):
    """Scripts on a file that is empty at first or that others wrote."""

    def test_answers_trees_and_files(self):
        edits, stores, _ = self.assert_all_right(SEEDS, "views", VIEWS, LINES)
        self.assertGreater(edits, LINES // 3 * len(SEEDS))
        self.assertGreater(len(stores), 15)
