"""The line `repack`: the file is then the plain image of its tree, which the reference and the usual library read as they read it before."""

import os
import random
import resource
import subprocess
from concurrent.futures import ThreadPoolExecutor

from . import today
from .drawn_images import AT_ONCE, DUMPS, IMAGES, linked_image, paths_of, small_image, word
from .support import PROGRAM, InFolder, empty_image, h5i, library, patched, reference
from .test_corpus import DATA, causes
from .test_scripts import limited

# pylint: disable=wrong-import-order
from h5oracle.foreign import write_foreign  # noqa: E402
from h5oracle.plain import le, write_plain  # noqa: E402
from h5oracle.reader import Superblock, open_image  # noqa: E402

LIMIT = 2147483648
DRAWN = IMAGES // 2
ACCEPTED = (0, b"ok 0\n", b"")
NINE_LINKS = b"dataset /d i32le 3 contiguous\n" + b"".join(b"link /d /%c\n" % name for name in b"efghijkl")

# Edits of the usual library: an attribute, a link and an array, and of each array in chunks that may grow more cells, one of which is set.
EDIT = """
import sys, h5py, numpy
for name in sys.argv[1:]:
    with h5py.File(name, "r+", libver=("earliest", "v108")) as file:
        arrays = []
        def look(path, thing):
            if isinstance(thing, h5py.Dataset) and thing.chunks:
                arrays.append(thing)
        file.visititems(look)
        for array in arrays:
            more = tuple(size + (most is None or most > size) for size, most in zip(array.shape, array.maxshape))
            array.resize(more)
            if array.size:
                array[tuple(size - 1 for size in more)] = 1
        file.attrs.create("by the library", numpy.array([1, 2], dtype=">i2"))
        group = file.create_group("made by the library")
        group["root again"] = h5py.SoftLink("/")
        group.create_dataset("d", data=numpy.arange(5, dtype="<i4"), maxshape=(None,), chunks=(2,))
        for array in arrays[:1]:
            group["another"] = array
"""


def accepted_files():
    """The files of tests/data that are opened."""
    return [file for file, verdict in causes().items() if verdict == "accepted"]


class Repacked(InFolder):
    """Files that are repacked."""

    def repacked(self, name, image):
        """The path of a file with the image after the line `repack`, which gives the plain image of the same tree; and its reading."""
        reading, refusal = today.opened(image)
        self.assertIsNone(refusal)
        path = self.written(name, image)
        self.assertEqual(h5i("run", path, script=b"repack\n"), ACCEPTED)
        after = self.read(path)
        self.assertTrue(after == write_plain(reading.tree, reading.superblock))
        again, refusal = today.opened(after)
        self.assertIsNone(refusal)
        self.assertIsNone(today.same_tree(again.tree, reading.tree))
        return path, again

    def assert_shown(self, path, tree):
        """The file is listed as the tree is, and what it holds is dumped so; of many paths some are."""
        self.assertEqual(h5i("ls", path), (0, today.listing(tree), b""))
        paths = [b"/"] + [here for here, _ in paths_of(tree)]
        for here in paths[::1 + len(paths) // DUMPS]:
            self.assertEqual(h5i("dump", path, word(here)), (0, today.dump(tree, here), b""), here)


class Worked(Repacked):
    """Files whose lengths are known."""

    def test_nine_links_written_by_others(self):
        other = self.path("plain.h5")
        reference("new", other)
        self.assertEqual(reference("run", other, script=NINE_LINKS), (0, b"ok 0\n" * 9, b""))
        tree = open_image(self.read(other)).tree
        for seed in range(20):
            image = write_foreign(tree, random.Random(f"nine links {seed}"), Superblock(0, 4, 16, 32, 0, 0), wild=0.8)
            with self.subTest(seed=seed):
                path, reading = self.repacked("nine.h5", image)
                self.assertEqual(len(self.read(path)), 1580)
                self.assertEqual(self.read(path), self.read(other))
                self.assertEqual(reading.tree.counts[1], 9)

    def test_of_a_plain_image_nothing_changes(self):
        path = self.new()
        self.assertEqual(h5i("run", path, script=b"repack\nrepack\n"), (0, b"ok 0\nok 0\n", b""))
        self.assertEqual(self.read(path), empty_image())
        self.assertEqual(h5i("run", path, script=NINE_LINKS + b"repack\n"), (0, b"ok 0\n" * 10, b""))
        image = self.read(path)
        self.assertEqual(len(image), 1580)
        self.assertEqual(h5i("run", path, script=b"repack\nls\n")[:2], (0, b"ok 0\n" + today.listing(open_image(image).tree)))
        self.assertEqual(self.read(path), image)

    def test_it_counts_as_an_edit(self):
        # The file has a byte more than its tree, which goes where it is written.
        image = empty_image() + b"x"
        for script, status, length in ((b"ls\n", 0, 801), (b"repack x\n", 1, 801), (b"no line\nrepack\n", 1, 800)):
            with self.subTest(script=script):
                path = self.written("more.h5", image)
                self.assertEqual(h5i("run", path, script=script)[0], status)
                self.assertEqual(len(self.read(path)), length)

    def test_numbers_go_on(self):
        """Lines behind it edit the same tree."""
        path = self.new()
        script = b"group /g\nrepack\ndataset /g/c u8 3/inf chunked:2 fill=7\nrepack\nlink /g/c /d\nattr /d a u8 - 1\nrepack\ndump /g/c\n"
        self.assertEqual(h5i("run", path, script=script),
                         (0, b"ok 0\n" * 7 + b"/g/c dataset u8 {3/inf} chunked {2} fill 7\n@a u8 {} 1\n7 7 7\n", b""))
        other = self.path("other.h5")
        reference("new", other)
        self.assertEqual(reference("run", other, script=script)[0], 0)
        self.assertEqual(self.read(path), self.read(other))


class Limits(InFolder):
    """Images that grow too long, and memory that is short."""

    def test_an_image_that_would_be_too_long(self):
        # A heap segment of just the bytes used, 16 in place of 88, so that the image written anew has 72 bytes more.
        image = self.read(self.with_array("/d u8 1 contiguous", "one.h5"))
        image = image[:728] + image[800:]
        for cells, answer in ((LIMIT - 1248, b"ok 0\n"), (LIMIT - 1247, b"refused 30 ImageFull\n"), (LIMIT - 1176, b"refused 30 ImageFull\n")):
            data = image
            for at, number in ((40, 1176 + cells), (168, 728), (688, 16), (696, 1), (728 + 16, 1056), (1056 + 32, cells), (1056 + 98, 1176),
                               (1056 + 106, cells)):
                data = patched(data, at, le(number, 8).hex())
            path = self.written("full.h5", data)
            os.truncate(path, 1176 + cells)
            self.assertEqual(h5i("ls", path), (0, b"/ group\n/d dataset u8 {%d}\n" % cells, b""))
            with self.subTest(cells=cells):
                self.assertEqual(h5i("run", path, script=b"repack\n"), (1 if b"refused" in answer else 0, answer, b""))
                self.assertEqual(os.path.getsize(path), LIMIT if answer == b"ok 0\n" else 1176 + cells)

    def test_one_that_finds_no_memory(self):
        path = self.with_array("/d u8 67108864 contiguous")
        before = self.stamp(path)
        done = subprocess.run([PROGRAM, "run", path], input=b"repack\nls\n", preexec_fn=limited(resource.RLIMIT_AS, 120 << 20),
                              capture_output=True, check=False, timeout=60)
        self.assertEqual((done.returncode, done.stdout, done.stderr), (1, b"refused 31 NoMemory\n/ group\n/d dataset u8 {67108864}\n", b""))
        self.assertEqual(self.stamp(path), before)


class Drawn(Repacked):
    """Images drawn at random, in layouts as any writer may have them."""

    def test_images(self):
        def one(k):
            rng = random.Random(f"repacked {k}")
            image = linked_image(rng) if k % 2 else small_image(rng)
            path, reading = self.repacked(f"{k}.h5", image)
            self.assert_shown(path, reading.tree)
            os.remove(path)

        with ThreadPoolExecutor(AT_ONCE) as pool:
            for k, done in [(k, pool.submit(one, k)) for k in range(DRAWN)]:
                with self.subTest(k=k):
                    done.result()


class Library(Repacked):
    """Files that the usual library wrote."""

    def assert_same_texts(self, pairs):
        """The usual library reads the same of both files of each pair."""
        found = self.library_texts([path for pair in pairs for path in pair])
        for (one, _), before, after in zip(pairs, found[::2], found[1::2], strict=True):
            with self.subTest(path=os.path.basename(one)):
                self.assertNotIn(b"ERROR", before)
                self.assertEqual(after, before)

    def edited(self, path):
        """The path of the file that the library has edited, repacked again. It is shown as the reference reads it."""
        reading, refusal = today.opened(self.read(path))
        self.assertIsNone(refusal)
        self.assertIn(b"/made\\x20by\\x20the\\x20library/d dataset i32le {5/inf}\n", today.listing(reading.tree))
        self.assert_shown(path, reading.tree)
        return self.repacked("again " + os.path.basename(path), self.read(path))[0]

    def test_each_file(self):
        pairs = []
        for file in accepted_files():
            with self.subTest(file=file):
                original = self.written("original " + file, self.read(os.path.join(DATA, file)))
                path, reading = self.repacked(file, self.read(original))
                self.assert_shown(path, reading.tree)
                self.assertEqual(h5i("ls", path), h5i("ls", original))
                pairs.append((original, path))
        self.assertGreater(len(pairs), 30)
        self.assert_same_texts(pairs)
        self.assertEqual(library(EDIT, *(path for _, path in pairs)), (0, b"", b""))
        self.assert_same_texts([(path, self.edited(path)) for _, path in pairs])
