"""Random scripts of all lines but those of views: answers, trees and files are the reference's, and the usual library reads the files."""

import os
import random
from itertools import count, islice

from . import today
from .drawn_images import IMAGES
from .drawn_scripts import CELLS, WRITES, DrawnScripts, drawn, drawn_on
from .support import h5i, library, run_command
from .test_repack import EDIT

# pylint: disable=wrong-import-order
from h5oracle.model import Dataset  # noqa: E402

SEEDS = range(3 * IMAGES // 5)
LINES = 300
# Short scripts on files of others, where all cells that are written are stored already at times: so many of them, and lines in each.
FEW_SEEDS = range(IMAGES)
FEW_LINES = 5
# So many files the usual library reads. It has no room for the largest arrays.
READ = 40
READ_LINES = 80
MOST_CELLS = 1 << 16


class WriteScripts(DrawnScripts):
    """Scripts on a file that is empty at first or that others wrote."""

    def test_answers_trees_and_files(self):
        edits, stores, _ = self.assert_all_right(SEEDS, "writes", WRITES, LINES)
        self.assertGreater(edits, LINES // 2 * len(SEEDS))
        self.assertGreater(len(stores), 15)

    def test_cells_that_are_stored(self):
        """Nothing of an image that others wrote changes but cells that are written, where they all are stored."""
        _, stores, judged = self.assert_all_right(FEW_SEEDS, "cells", CELLS, FEW_LINES, others=True)
        self.assertGreater(judged, len(FEW_SEEDS) // 3)
        self.assertGreater(len(stores), 15)


def readable():
    """Scripts on new files, which then have no array of more cells. Those that are drawn have times and comments that the library cannot read."""
    found = (drawn(seed, "read", WRITES, READ_LINES) for seed in count(0, 2))
    small = (one for one in found if all(thing.cells() <= MOST_CELLS for thing in one.tree.objects.values() if isinstance(thing, Dataset)))
    return list(islice(small, READ))


class Library(DrawnScripts):
    """Files that the usual library reads, and edits."""

    def assert_read(self, paths, trees):
        """What the library reads of the files are these trees."""
        for path, tree, text in zip(paths, trees, self.library_texts(paths), strict=True):
            with self.subTest(path=os.path.basename(path)):
                self.assertEqual(text, today.read_by_the_library(tree))

    def test_the_library_reads_edits_and_reads_again(self):
        made, paths = readable(), []
        for k, one in enumerate(made):
            paths.append(self.written(f"{k}.h5", one.image))
            self.assertEqual(h5i("run", paths[-1], script=one.script)[1], one.answers)
        self.assert_read(paths, [one.tree for one in made])
        # Now cells are written into arrays that the library has resized and written to, in its own layout.
        self.assertEqual(library(EDIT, *paths), (0, b"", b""))
        again = [drawn_on(self.read(path), random.Random(f"edited {k}"), CELLS, FEW_LINES) for k, path in enumerate(paths)]
        for path, one in zip(paths, again, strict=True):
            self.assertEqual(h5i("run", path, script=one.script), (today.status_of(one.answers), one.answers, b""))
            self.assertIn(one.after, (None, self.read(path)))
        self.assert_read(paths, [one.tree for one in again])
        self.assertGreater(sum(one.is_judged() for one in again), len(again) // 4)

    def test_h5dump_prints_the_cells(self):
        path = self.new()
        script = b"".join(b"dataset /%s i16be 3,4 %s fill=-7\nwrite /%s 0,1 2,2 2,2 1,1 -32768,1,2,32767\n" % (name, store, name)
                          for name, store in ((b"a", b"compact"), (b"b", b"contiguous"), (b"c", b"chunked:2,3")))
        self.assertEqual(h5i("run", path, script=script), (0, b"ok 0\n" * 6, b""))
        for name in "abc":
            status, output, errors = run_command("h5dump", "-y", "-d", f"/{name}", path)
            self.assertEqual((status, errors), (0, b""))
            cells = output.decode("ascii").split("DATA {")[1].split("}")[0].replace(",", " ").split()
            self.assertEqual(cells, "-7 -32768 -7 1 -7 -7 -7 -7 -7 2 -7 32767".split())
