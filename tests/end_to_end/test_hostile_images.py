"""Hostile images: a file cut at each length, and each byte of one set to each other value. Opening returns, by the library for C in one process;
what is opened is listed, dumped, repacked and opened again. Beside them cases by name, which the program refuses by the rule that they break.
"""

import functools
import random
import signal
from collections import Counter
from concurrent.futures import ProcessPoolExecutor
from concurrent.futures.process import BrokenProcessPool
from datetime import date

from . import today
from .fuzzing import differ
from .libh5i import Library
from .packed import Packed
from .support import InFolder, empty_image, empty_image_1, end_field, h5i, patched, superblock_length
from .test_array_forms import edges_image
from .test_first_fault import body_of_version, noted
from .test_links_in_place import KS, Judged, loose_root

# pylint: disable=wrong-import-order
from h5oracle.model import Attr  # noqa: E402
from h5oracle.plain import le, write_plain  # noqa: E402
from h5oracle.values import TYPES  # noqa: E402
from mutate import chunked, groups_deep  # noqa: E402

# So many processes, each of which ends where what is wanted of one place takes longer.
AT_ONCE, SECONDS = 2, 120
# Each day another value of each byte is held to the reference.
SEED = f"hostile {date.today()}"
NOT_HDF5, TRUNCATED = 1, 2
ARRAY = b"dataset /d i32le 3 contiguous\nwrite /d 0 1 3 1 1,-1,2147483647\n"
# Where the header of /d of `image_1` stands, the size in it, its fill value, its first node, and its first chunk.
HEADER_1, SIZE_1, FILL_1, NODES_1, CHUNKS_1 = 1132, 1164, 1212, 1420, 1756
# The lines that make each image, its length, and of each change to it, places and bytes, the rule that is broken and where.
NAMED = {
    "empty": (b"", 800, {
        ((47, "80"),): "34 TooLarge at 40",
        ((142, "ffff"),): "25 NodeForm at 136",
        # A Continuation that names the block that it stands in; and a tree whose root is its own child.
        ((112, "10"), (120, "7000000000000000"), (128, "1800000000000000")): "32 Overlap at 112",
        ((141, "0101"), (168, "88")): "32 Overlap at 136",
    }),
    "one array": (ARRAY, 1260, {
        ((1160, "04"),): "21 LayoutForm at 1128",
        ((1165, "01"),): "34 TooLarge at 1128",
        ((1153, "21"),): "18 DataspaceForm at 1128",
    }),
    "two arrays": (b"dataset /d i32le 3 contiguous\ndataset /e i32le 3 contiguous\n", 1392, {
        ((1358, "e004"),): "32 Overlap at 1248",
        ((808, "10"), (848, "08")): "26 NameOrder at 800",
        ((176, "08"),): "27 KeyOrder at 136",
        ((848, "09"),): "24 HeapName at 680",
        ((806, "ffff"),): "25 NodeForm at 800",
    }),
    "two names of an array": (ARRAY + b"link /d /e\n", 1260, {((1132, "01"),): "30 LinkCount at 1128"}),
    "two groups": (b"group /g\ngroup /h\n", 2536, {((856, "6804"),): "31 GroupLinkedTwice at 1128"}),
}


@functools.cache
def image_1():
    """An image with a superblock of version 1 and two chunks to a node: `/d` of three chunks, with a fill value of version 3 and an attribute of
    each version.
    """
    reading, _ = today.opened(chunked(3, chunk_k=1, version=1))
    for name, version in ((b"a", 2), (b"b", 3)):
        reading.tree.objects[1].attrs[name] = Attr(name, TYPES["u8"], (1,), (1,), body_of_version(version, name))
    noted(reading.tree.objects[1], c=(1,))
    return patched(write_plain(reading.tree, reading.superblock), FILL_1, "032a010000000900".ljust(32, "0"))


def told(session, more=b""):
    """What a session lists, and dumps of all that it lists, with the answers to more lines."""
    listed = session.run(b"ls\n")
    return listed + session.run(b"".join(b"dump %s\n" % line.split(b" ")[0] for line in listed.splitlines()) + more)


class Opener:
    """Opens images by the library, and tells what is wrong with what it makes of them."""

    def __init__(self, path):
        self.library, self.repacked = Library(path), {}

    def judged(self, image):
        """The cause and the place of a refusal, else what was told; and what is wrong."""
        session, refused = self.library.opened(image)
        if refused:
            return refused, None if 0 < refused[0] < 36 else "the cause is none of bytes"
        text, repacked = told(session, b"repack\n"), session.image()
        session.close()
        # What opens again is the same for the same bytes.
        if repacked not in self.repacked:
            self.repacked[repacked] = self.told_again(repacked)
        return text, None if text == self.repacked[repacked] else "repacked it has another tree"

    def told_again(self, image):
        """What is told of a repacked image."""
        session, refused = self.library.opened(image)
        if refused:
            return b"refused %d at %d" % refused
        try:
            return told(session) + b"ok 0\n"
        finally:
            session.close()


@functools.cache
def opener(path):
    """That of a process."""
    return Opener(path)


def by_the_reference(image):
    """What `Opener.judged` should find: the refusal, or what is told behind a `repack`."""
    reading, refused = today.opened(image)
    if refused:
        number, _, _, place = refused.split()
        return int(number), int(place)
    listed = today.listing(reading.tree)
    return listed + b"".join(today.dump(reading.tree, today.unescape(line.split(b" ")[0])) for line in listed.splitlines()) + b"ok 0\n"


def with_each_value(path, image, place):
    """What is wrong with the image where one byte is set to each other value, how many of these open, and how many are there. One of them is
    held to the reference.
    """
    wrong, counts, changed = {}, Counter(), bytearray(image)
    drawn = random.Random(f"{SEED} {place}").choice([value for value in range(256) if value != image[place]])
    for value in range(256):
        if value == image[place]:
            continue
        changed[place] = value
        hostile = bytes(changed)
        found, unlike = opener(path).judged(hostile)
        if value == drawn:
            unlike = unlike or differ("opened", found, by_the_reference(hostile))
        counts["opened" if isinstance(found, bytes) else "refused"] += 1
        if unlike:
            wrong[place, value] = unlike
    return wrong, counts


def cut_along(path, image, length):
    """What is wrong with the image cut at a length, where its end of file address says so too; and whether it opens."""
    cut = patched(image[:length], end_field(image).start, le(length, 8).hex())[:length]
    found, unlike = opener(path).judged(cut)
    unlike = unlike or differ("opened", found, by_the_reference(cut))
    return {length: unlike} if unlike else {}, Counter(["opened" if isinstance(found, bytes) else "refused"])


def timed(judge, *words):
    """What a judge says. The process ends where it takes too long."""
    signal.alarm(SECONDS)
    try:
        return judge(*words)
    finally:
        signal.alarm(0)


class Hostile(Packed):
    """Many images by the library."""

    def all_of(self, judge, image, ones):
        """How many images open and are refused, of all that a judge makes of an image. Nothing is wrong with any."""
        counts = Counter()
        pool = ProcessPoolExecutor(AT_ONCE)
        self.addCleanup(pool.shutdown, cancel_futures=True)
        for one, run in [(one, pool.submit(timed, judge, self.library, image, one)) for one in ones]:
            try:
                wrong, made = run.result()
            except BrokenProcessPool:
                self.fail(f"the library ended its process at {one} or beside it, or gave no answer in {SECONDS} seconds")
            self.assertEqual(wrong, {})
            counts += made
        return counts

    def test_each_byte_with_each_other_value(self):
        print(f"The values that are held to the reference are drawn of '{SEED}'.")
        session = Library(self.library).opened(empty_image())[0]
        self.assertEqual(session.run(ARRAY), b"ok 0\n" * 2)
        image = session.image()
        session.close()
        self.assertEqual(len(image), 1260)
        counts = self.all_of(with_each_value, image, range(len(image)))
        self.assertEqual(counts.total(), 1260 * 255)
        self.assertGreater(min(counts.values()), 1260 * 255 // 10)

    def assert_cuts(self, image):
        """An image that is cut is no file: what there is of it ends before its end of file address."""
        library = Library(self.library)
        for length in range(len(image)):
            cause, place = (NOT_HDF5, 0) if length < 8 else (TRUNCATED, 0 if length < superblock_length(image) else end_field(image).start)
            self.assertEqual(library.opened(image[:length]), (None, (cause, place)), length)

    def test_each_cut(self):
        for image in (empty_image(), edges_image(), empty_image_1(), image_1()):
            self.assert_cuts(image)

    def test_each_cut_with_the_end_of_file_address(self):
        for image in (edges_image(), image_1()):
            counts = self.all_of(cut_along, image, range(len(image) + 1))
            # The whole file alone opens: its last chunk ends where it ends.
            self.assertEqual(counts, {"opened": 1, "refused": len(image)})

    def test_each_byte_where_versions_differ(self):
        """Of a superblock of version 1, of the header of an array, and of nodes with two chunks."""
        image = image_1()
        self.assertEqual((len(image), image[SIZE_1:SIZE_1 + 8], image[FILL_1 - 8:FILL_1].hex()), (CHUNKS_1 + 3, le(3, 8), "0500100000000000"))
        self.assertEqual(image[NODES_1:NODES_1 + 6], b"TREE\1\1")
        # A size of 65536 and more may be one of an array, and each of its cells would be dumped.
        places = [*range(superblock_length(image)), *range(HEADER_1, SIZE_1 + 2), *range(SIZE_1 + 8, CHUNKS_1)]
        counts = self.all_of(with_each_value, image, places)
        self.assertEqual(counts.total(), 255 * len(places))
        self.assertGreater(min(counts.values()), 255 * len(places) // 20)


class Named(InFolder):
    """Cases by name, by the program."""

    def assert_refused(self, image, refusal):
        """The program and the reference refuse an image so."""
        self.assertEqual(today.opened(image), (None, refusal))
        self.assertEqual(h5i("ls", self.written("changed.h5", image)), (3, b"", f"h5i: refused {refusal}\n".encode()))

    def test_changes(self):
        for name, (lines, length, changes) in NAMED.items():
            path = self.new()
            self.assertEqual(h5i("run", path, script=lines + b"repack\n")[0], 0)
            plain = self.read(path)
            self.assertEqual(len(plain), length)
            for change, refusal in changes.items():
                with self.subTest(name=name, change=change):
                    self.assert_refused(functools.reduce(lambda image, one: patched(image, *one), change, plain), refusal)

    def test_the_deepest_link(self):
        self.assertEqual(h5i("ls", self.written("deep.h5", groups_deep(64)))[0], 0)
        # A group, and a soft link.
        self.assert_refused(groups_deep(65), "33 TooDeep at 66848")
        self.assert_refused(groups_deep(64, True), "33 TooDeep at 66848")


class LooseKeys(Judged):
    """A group whose keys no link has."""

    def test_each_kind_of_edit(self):
        lines = ["group /m", "dataset /n u8 4/inf chunked:2", "link /n /zzz", "soft t /b", "attr /n note u8 1 5", "attr / note u8 1 5",
                 "write /n 0 1 4 1 1,2,3,4", "resize /n 3", "unattr /n note", "unlink /n", "dataset /aa u8 2 compact", "unlink /z", "unlink /m",
                 "unlink /zzz", "unlink /a", "unlink /aa", "unlink /b"]
        for leaf, internal in KS:
            with self.subTest(leaf=leaf, internal=internal):
                image = loose_root(leaf, internal)
                self.assertEqual(today.opened(self.assert_in_place(image, lines))[0].tree.objects[0].links, {})
