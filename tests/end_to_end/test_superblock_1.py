"""Files whose superblock is of version 1, which has a K of chunk trees: they are listed, edited where their objects stand, and repacked, and keep
the version and each K.
"""

import os
import random

from . import today
from .drawn_images import CHUNK_KS
from .support import InFolder, empty_image_1, end_field, end_of_file, h5i, library, reference
from .test_corpus import DATA
from .test_links_in_place import Judged
from .test_repack import EDIT, accepted_files

# pylint: disable=wrong-import-order
from h5oracle.model import Tree  # noqa: E402
from h5oracle.plain import write_plain  # noqa: E402
from h5oracle.reader import Superblock, number_at  # noqa: E402
from mutate import chunked  # noqa: E402

LENGTH = 100
DEEPEST = 15
# A tree of chunks of that depth, two to a node, has so many.
MOST_CHUNKS = 1 << 16
TOO_DEEP = b"refused 29 TreeTooDeep\n"
# Leaf K, internal K and K of chunk trees.
KS = [(4, 16, 32), (4, 16, 1), (1, 1, 1), (3, 5, 2), (2, 1, 33), (1, 2, 300)]
CELLS = ",".join(str(k) for k in range(1, 21))
# Lines of each kind.
EDITS = ["group /g", "dataset /c u8 5/inf,4 chunked:2,2 fill=3", "dataset /d i32le 3 contiguous fill=-7", "dataset /g/p u8 2 compact", "attr / note u8 2 7,8",
         "attr /c a i16be - -1", "link /d /g/e", "soft t /s", f"write /c 0,0 1,1 5,4 1,1 {CELLS}", "write /d 1 1 2 1 5,6", "write /g/p 0 1 1 1 9",
         "resize /c 3,4", "resize /c 9,4", "write /c 8,3 1,1 1,1 1,1 77", "attr / note u8 3 1,2,3", "unattr / note", "unlink /d", "unlink /s",
         "resize /c 0,4", "unlink /g", "unlink /c"]
# Which edit of the usual library's file k_chunk makes what of its arrays. A node of its chunk trees has room for four chunks.
OF_K_CHUNK = ["resize /d 9,7", f"write /d 7,0 1,1 2,7 1,1 {','.join(str(-k) for k in range(14))}", "write /d 0,0 2,2 5,4 1,1 " + ",".join("5" * 20),
              "attr /d unit u8 - 3", "dataset /g/new u16be 6/inf chunked:1 fill=9", "write /g/new 0 1 6 1 1,2,3,4,5,6", "link /d /g/again", "resize /d 3,7",
              "soft /d /g/soft", "unattr /d unit", "resize /g/new 2", "unlink /g/soft"]


def image_of(leaf, internal, chunk):
    """The plain image of an empty root group with a superblock of version 1 and these K values."""
    return write_plain(Tree.root_alone(), Superblock(1, leaf, internal, chunk, 0, 0))


def kept(image):
    """The superblock but for the end of file address."""
    field = end_field(image)
    return image[:field.start] + image[field.stop:LENGTH]


def nodes_of_chunks(image):
    """Each node of chunk trees: its address and its length, its level, and how many children it has."""
    return [(at, length, image[at + 5], number_at(image, at + 6, 2)) for at, length, kind in today.opened(image)[0].blocks
            if kind == "tree node" and image[at + 4] == 1]


class Empty(InFolder):
    """A file without links."""

    def test_it_is_listed(self):
        for k in (1, 2, 31, 32, 33, 32767):
            with self.subTest(k=k):
                image = empty_image_1(k)
                self.assertEqual(len(image), 804)
                self.assertEqual(image, image_of(4, 16, k))
                path = self.written("e.h5", image)
                self.assertEqual(reference("check", path)[:2], (0, b"ok\n"))
                for words in (("ls", path), ("dump", path, "/")):
                    self.assertEqual(h5i(*words), (0, b"/ group\n", b""))
                self.assertEqual(h5i("run", path, script=b"repack\nls\n"), (0, b"ok 0\n/ group\n", b""))
                self.assertEqual(self.read(path), image)

    def test_bytes_behind_the_end_of_file(self):
        path = self.written("e.h5", empty_image_1() + b"more")
        self.assertEqual(h5i("ls", path), (0, b"/ group\n", b""))
        self.assertEqual(h5i("run", path, script=b"repack\n"), (0, b"ok 0\n", b""))
        self.assertEqual(self.read(path), empty_image_1())

    def test_bytes_that_are_not_looked_at(self):
        """They stay where an edit is made in place, and are written anew by a repack."""
        image = bytearray(empty_image_1(5))
        image[20:24], image[26:28], image[36:44] = b"\1\2\3\4", b"\xfe\xff", b"freedoms"
        path = self.written("e.h5", bytes(image))
        self.assertEqual(h5i("run", path, script=b"attr / note u8 2 7,8\n"), (0, b"ok 0\n", b""))
        self.assertEqual(kept(self.read(path)), kept(image))
        self.assertEqual(h5i("run", path, script=b"unattr / note\nrepack\n"), (0, b"ok 0\n" * 2, b""))
        self.assertEqual(self.read(path), empty_image_1(5))


class Edits(Judged):
    """Each kind of edit."""

    def test_each_kind(self):
        for ks in KS:
            with self.subTest(ks=ks):
                image = image_of(*ks)
                after = self.assert_in_place(image, EDITS)
                self.assertEqual(kept(after), kept(image))
                path = self.written("e.h5", after)
                self.assertEqual(h5i("run", path, script=b"repack\n"), (0, b"ok 0\n", b""))
                self.assertEqual(self.read(path), image)

    def test_each_kind_and_a_repack(self):
        for ks in KS:
            with self.subTest(ks=ks):
                image = image_of(*ks)
                for count in range(1, len(EDITS)):
                    path, script = self.written("e.h5", image), today.printed([*EDITS[:count], "repack"])
                    self.assertEqual(h5i("run", path, script=script), (0, b"ok 0\n" * (count + 1), b""))
                    self.assertIsNone(today.unlike(self.read(path), image, script))
                    self.assertEqual((self.read(path)[:end_field(image).start], end_of_file(self.read(path))),
                                     (image[:end_field(image).start], os.path.getsize(path)))


class ChunkTrees(Judged):
    """Nodes of chunk trees have room for twice K chunks."""

    def test_three_chunks(self):
        path = self.written("t.h5", empty_image_1(1))
        script = b"dataset /t u8 3/inf chunked:1\nwrite /t 0 1 3 1 1,2,3\nrepack\n"
        self.assertEqual(h5i("run", path, script=script), (0, b"ok 0\n" * 3, b""))
        image = self.read(path)
        self.assertEqual(len(image), 1599)
        # Behind the symbol node of the root, to 1132, the header of the array has 128 bytes.
        self.assertEqual(nodes_of_chunks(image), [(1260, 112, 1, 2), (1372, 112, 0, 2), (1484, 112, 0, 1)])
        self.assertEqual(image[1596:], b"\1\2\3")
        self.assertEqual(h5i("dump", path, "/t"), (0, b"/t dataset u8 {3/inf} chunked {1} fill 0\n1 2 3\n", b""))

    def test_a_node_is_cut_in_two(self):
        for k in (1, 2, 3, 40):
            with self.subTest(k=k):
                room = 2 * k
                lines = [f"dataset /t u8 {room + 1}/inf chunked:1", f"write /t 0 1 {room} 1 {','.join('1' * room)}"]
                image = self.assert_in_place(empty_image_1(k), lines)
                [(root, length, level, children)] = nodes_of_chunks(image)
                self.assertEqual((length, level, children), (24 + 16 * k + (room + 1) * 24, 0, room))
                self.assertEqual(root, 1132 + 128)
                after = self.assert_in_place(image, [f"write /t {room} 1 1 1 2"])
                self.assertEqual(sorted(node[2:] for node in nodes_of_chunks(after))[-1], (1, 2))
                self.assertIn((root, length, 1, 2), nodes_of_chunks(after))
                # Two nodes and a chunk.
                self.assertEqual(len(after) - len(image), 2 * length + 1)

    def test_cells_in_any_order(self):
        for k, chunk in ((1, "1,2"), (2, "2,1"), (3, "1,1"), (5, "3,3")):
            rng = random.Random(f"chunk K {k}")
            cells = [(row, column) for row in range(7) for column in range(5)]
            rng.shuffle(cells)
            lines = [f"dataset /t i16be 7/inf,5 chunked:{chunk} fill=-2"]
            lines += [f"write /t {row},{column} 1,1 1,1 1,1 {row * 10 + column}" for row, column in cells]
            lines += ["resize /t 4,5", "resize /t 4,2", "resize /t 7,5", "write /t 0,0 2,2 4,3 1,1 " + ",".join("8" * 12), "resize /t 0,5"]
            with self.subTest(k=k):
                image = self.assert_in_place(empty_image_1(k), lines)
                [(_, _, level, children)] = nodes_of_chunks(image)
                self.assertEqual((level, children), (0, 0))

    def test_the_widest_nodes(self):
        image = self.assert_in_place(empty_image_1(32767), ["dataset /t u8 3/inf chunked:1 fill=9", "write /t 1 1 2 1 5,6"])
        self.assertEqual(nodes_of_chunks(image), [(nodes_of_chunks(image)[0][0], 24 + 16 * 32767 + 65535 * 24, 0, 2)])
        path = self.written("e.h5", image)
        self.assertEqual(h5i("run", path, script=b"repack\n"), (0, b"ok 0\n", b""))
        self.assertIsNone(today.unlike(self.read(path), image, b"repack\n"))
        self.assertEqual(h5i("dump", path, "/t"), (0, b"/t dataset u8 {3/inf} chunked {1} fill 9\n9 5 6\n", b""))


class Deepest(InFolder):
    """A tree of chunks that has no room for one more, with two chunks to a node."""

    def test_a_full_tree(self):
        image = chunked(MOST_CHUNKS, MOST_CHUNKS + 1, 1, 1)
        reading, refusal = today.opened(image)
        self.assertEqual((refusal, reading.facts[1]["level"], len(reading.tree.objects[1].chunks)), (None, DEEPEST, MOST_CHUNKS))
        path = self.written("full.h5", image)
        before = self.stamp(path)
        self.assertEqual(h5i("run", path, script=b"write /d 65536 1 1 1 9\n"), (1, TOO_DEEP, b""))
        self.assertEqual(self.stamp(path), before)
        # The last node of level 0 has room where its last chunk is gone, for one.
        script = b"write /d 65535 1 1 1 9\nresize /d 65535\nresize /d 65537\nwrite /d 65536 1 1 1 9\nwrite /d 65535 1 1 1 9\n"
        self.assertEqual(h5i("run", path, script=script), (1, b"ok 0\n" * 4 + TOO_DEEP, b""))
        self.assertEqual(len(self.read(path)), len(image))

    def test_one_write_of_all_cells(self):
        path = self.written("t.h5", empty_image_1(1))
        self.assertEqual(h5i("run", path, script=b"dataset /t u8 65537/inf chunked:1\n"), (0, b"ok 0\n", b""))
        before, ones = self.stamp(path), ",".join(["1"] * (MOST_CHUNKS + 1)).encode()
        write = b"write /t 0 1 1 65537 %s\n" % ones
        self.assertEqual(h5i("run", path, script=write), (1, TOO_DEEP, b""))
        self.assertEqual(self.stamp(path), before)
        # In the same session the array has no chunk then.
        script = write + b"resize /t 2\ndump /t\nwrite /t 0 1 2 1 5,6\ndump /t\n"
        head = b"/t dataset u8 {2/inf} chunked {1} fill 0\n"
        self.assertEqual(h5i("run", path, script=script), (1, TOO_DEEP + b"ok 0\n" + head + b"0 0\nok 0\n" + head + b"5 6\n", b""))
        # One node with room for both, behind the header.
        self.assertEqual([node[1:] for node in nodes_of_chunks(self.read(path))], [(112, 0, 2)])


class Library(Judged):
    """The usual library's file with a K of chunk trees, and files that it reads and edits."""

    def assert_read(self, path):
        """The library reads what the reference reads; that is returned."""
        reading, refusal = today.opened(self.read(path))
        self.assertIsNone(refusal)
        self.assertEqual(self.library_texts([path]), [today.read_by_the_library(reading.tree)])
        return reading

    def test_its_file(self):
        self.assertIn("k_chunk.h5", accepted_files())
        image = self.read(os.path.join(DATA, "k_chunk.h5"))
        # Version 1; leaf K, internal K and K of chunk trees.
        self.assertEqual((image[8], image[16:20].hex(), image[24:26].hex()), (1, "03000500", "0200"))
        after = self.assert_in_place(image, OF_K_CHUNK)
        self.assertEqual(kept(after), kept(image))
        path = self.written("k_chunk.h5", after)
        before = self.assert_read(path)
        self.assertEqual(h5i("run", path, script=b"repack\n"), (0, b"ok 0\n", b""))
        self.assertEqual((self.read(path)[8], self.read(path)[16:20].hex(), self.read(path)[24:26].hex()), (1, "03000500", "0200"))
        self.assertIsNone(today.same_tree(self.assert_read(path).tree, before.tree))
        # And now the library, in the file as it was repacked.
        self.assertEqual(library(EDIT, path), (0, b"", b""))
        self.assert_in_place(self.read(path), ["resize /d 1,7", "resize /d 6,7", "unlink /g", "write /d 5,0 1,1 1,7 1,1 1,2,3,4,5,6,7"])

    def test_it_edits_what_was_written(self):
        for k in sorted(set(CHUNK_KS)):
            with self.subTest(k=k):
                lines = ["dataset /c u8 3/inf,4/inf chunked:1,1 fill=3", "write /c 0,0 1,1 3,4 1,1 1,2,3,4,5,6,7,8,9,10,11,12", "attr /c a u8 - 1", "group /g"]
                path = self.written(f"{k}.h5", self.assert_in_place(empty_image_1(k), lines))
                self.assert_read(path)
                self.assertEqual(library(EDIT, path), (0, b"", b""))
                reading = self.assert_read(path)
                self.assertEqual((reading.superblock.version, reading.superblock.chunk_k), (1, k))
                self.assertIn(b"/c dataset u8 {4/inf, 5/inf}\n", today.listing(reading.tree))
                after = self.assert_in_place(self.read(path), ["resize /c 2,2", "resize /c 5,5", "write /c 3,0 1,1 2,5 1,1 1,2,3,4,5,6,7,8,9,10"])
                self.assert_read(self.written(f"{k}.h5", after))
