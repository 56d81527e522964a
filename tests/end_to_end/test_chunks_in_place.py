"""Cells written and arrays resized where they stand: where the root of a chunk tree stays, what else of the image does, what a resize gives
back, and what the usual library makes of it.
"""

import os
import random

from . import today
from .drawn_images import linked_image
from .drawn_scripts import CHUNKS, new_image
from .kept_session import Judge, image_behind, steps
from .stored_cells import LAYOUT, messages
from .support import InFolder, empty_image, h5i, library, patched
from .test_array_forms import slots
from .test_links_in_place import DEEPEST, IMAGE_FULL, LIMIT, TOO_DEEP, Judged, Sessions
from .test_repack import EDIT
from .test_scripts import unwritten
from .transcripts import Transcripts

# pylint: disable=wrong-import-order
from h5oracle.growth import edit_bound  # noqa: E402
from h5oracle.model import Dataset, Tree, apply, object_at  # noqa: E402
from h5oracle.plain import le, write_plain  # noqa: E402
from h5oracle.reader import Superblock, number_at  # noqa: E402
from h5oracle.script import edit_of  # noqa: E402
from h5oracle.values import TYPES, product  # noqa: E402

UNDEFINED = (1 << 64) - 1
DATASPACE, COMMENT = 1, 13
# So many chunks a node of a chunk tree holds.
NODE = 64
# Where the field of the end of file stands in the superblock.
END_OF_FILE = slice(40, 48)
# So often one array grows, is written and shrinks.
ROUNDS = 2000
# So many chunks need a tree of three levels of nodes.
DEEP = 4500
# A session on one array, behind so many lines of which the usual library has the file.
LONG, APART = 90, 15

# Writes the bytes of the last chunk of an array as they are, cells outside its sizes too. What the library reads of the array is unchanged.
RAW = """
import sys, h5py, numpy
path, size, chunk, fill = sys.argv[1], *map(int, sys.argv[2:])
with h5py.File(path, "w", libver=("earliest", "v108")) as file:
    made = file.create_dataset("c", (size,), "u1", maxshape=(None,), chunks=(chunk,), fillvalue=fill)
    made[:] = numpy.arange(1, size + 1)
    last = size // chunk * chunk
    cells = [k + 1 if k < size else 99 for k in range(last, last + chunk)]
    made.id.write_direct_chunk((last,), bytes(cells))
"""
# An array of 1 to 100, again and again.
WRITE = """
import sys, h5py, numpy
path, size, chunk = sys.argv[1], *map(int, sys.argv[2:])
with h5py.File(path, "w", libver=("earliest", "v108")) as file:
    file.create_dataset("c", data=(numpy.arange(size) % 100 + 1).astype("u1"), maxshape=(None,), chunks=(chunk,), fillvalue=250)
"""
# Reads all cells of an array, lengthens it, and prints them as they are then.
LENGTHEN = """
import sys, h5py
with h5py.File(sys.argv[1], "r+") as file:
    file["c"].resize((int(sys.argv[2]),))
    print(*file["c"][()])
"""


def number_of(reading, path):
    """The number of the array at a path of an image."""
    return object_at(reading.tree, path)


def blocks_of(reading, number):
    """The blocks of an object."""
    return [block for block, owner in zip(reading.blocks, reading.owners) if owner == number]


def body_at(image, path, wanted):
    """Where the body of the one message of a type stands in an array's header."""
    reading, _ = today.opened(image)
    headers = [block for block in blocks_of(reading, number_of(reading, path)) if block[2] in ("header", "continuation")]
    [body] = [at for kind, at, _ in messages(image, headers) if kind == wanted]
    return body


def root_address(image, path):
    """The address of an array's chunk tree, which stands behind the version, the class and the rank of its layout."""
    return number_at(image, body_at(image, path, LAYOUT) + 3, 8)


def node(image, at):
    """Of a node of a chunk tree, its level and how many entries it has."""
    if image[at:at + 5] != b"TREE\1":
        raise AssertionError("no node of a chunk tree")
    return image[at + 5], number_at(image, at + 6, 2)


def size_at(image, path):
    """Where the first size of an array stands in its header."""
    return body_at(image, path, DATASPACE) + 8


def stored_chunks(image):
    """The offsets and the bytes of each chunk that is stored of `/c`."""
    reading, _ = today.opened(image)
    return reading.stored_chunks[number_of(reading, b"/c")]


def drawn_edits(rng, path, sizes, most, count):
    """Lines that write random cells of an array of several chunks and resize it, so that it has these sizes at most. All are accepted."""
    for _ in range(count):
        if 0 in sizes or rng.random() < 0.3:
            sizes = [rng.choice([0, rng.randrange(size + 1), rng.randrange(full + 1), full, full]) for size, full in zip(sizes, most)]
            yield f"resize {path} {','.join(map(str, sizes))}"
            continue
        starts = [rng.randrange(size) for size in sizes]
        strides = [rng.randrange(1, 4) for _ in sizes]
        counts = [rng.randrange(1, 2 + (size - 1 - start) // stride) for size, start, stride in zip(sizes, starts, strides)]
        lists = " ".join(",".join(map(str, each)) for each in (starts, strides, counts, [1] * len(sizes)))
        yield f"write {path} {lists} {','.join(str(rng.randrange(128)) for _ in range(product(counts)))}"


def deep_image():
    """An image of an array `/c` of bytes, in chunks of one, whose tree is as deep as may be; the address of its root; and the first offset
    of the only leaf to which all nodes are full. There are chunks at even offsets; the last of them is the last of that leaf.
    """
    session = today.session_of(empty_image())
    today.answers(session, b"dataset /c u8 4000/inf chunked:1\n")
    image = session.image()
    data, rows, offsets = bytearray(image), [[] for _ in range(DEEPEST + 1)], []

    def made(level, is_full):
        """A node, or a chunk where the level is -1: its first offset, and its address."""
        if level < 0:
            offsets.append(2 * len(offsets))
            data.append(len(offsets) % 251)
            return offsets[-1], len(data) - 1
        below = [made(level - 1, is_full and k == NODE - 1) for k in range(NODE if is_full else 1)]
        rows[level].append((len(data), below))
        data.extend(bytes(24 + (NODE + 1) * 24 + NODE * 8))
        return below[0][0], len(data) - (24 + (NODE + 1) * 24 + NODE * 8)

    root = made(DEEPEST, True)[1]
    for level, row in enumerate(rows):
        for k, (at, below) in enumerate(row):
            left, right = row[k - 1][0] if k else UNDEFINED, row[k + 1][0] if k + 1 < len(row) else UNDEFINED
            end = row[k + 1][1][0][0] if k + 1 < len(row) else 2 * len(offsets)
            text = b"TREE\1" + bytes([level]) + le(len(below), 2) + le(left, 8) + le(right, 8)
            text += b"".join(le(1, 8) + le(offset, 16) + le(child, 8) for offset, child in below) + le(1, 8) + le(end, 16)
            data[at:at + len(text)] = text
    address = body_at(image, b"/c", LAYOUT) + 3
    data[address:address + 8], data[END_OF_FILE] = le(root, 8), le(len(data), 8)
    return bytes(data), root, 2 * len(offsets) - 2 * NODE


def full_image(total, has_maxima):
    """An image of an array `/c` of four bytes in chunks of two, whose header has so many messages, and its Dataspace maxima or none."""
    tree = Tree.root_alone()
    made = Dataset(TYPES["u8"], (4,), (4,), "chunked", (2,), 7)
    made.kept = [(COMMENT, b"")] * (total - 4)
    made.put((3,), 5)
    tree.objects[1], tree.counts[1], tree.objects[0].links[b"c"] = made, 1, ("object", 1)
    image = write_plain(tree, Superblock.fresh())
    # The flags stand behind the version and the rank.
    return image if has_maxima else patched(image, body_at(image, b"/c", DATASPACE) + 2, "00")


class Roots(Judged):
    """The first node of a chunk tree stays the root."""

    def test_one_chunk_after_another(self):
        writes = [f"write /t {k} 1 1 1 {k + 1}" for k in range(NODE + 1)]
        lines = ["dataset /t u8 65/inf chunked:1", *writes, "resize /t 0", "resize /t 3", "write /t 2 1 1 1 9"]
        wanted = [None, *((0, k + 1) for k in range(NODE)), (1, 2), (0, 0), (0, 0), (0, 1)]
        judge, root = Judge(empty_image()), None
        tree = judge.reading.tree.copy()
        for step, there in zip(steps(self.path("e.h5"), empty_image(), [line.encode() for line in lines]), wanted, strict=True):
            with self.subTest(line=step.line):
                self.assertEqual(step.answer, b"ok 0\n")
                apply(tree, edit_of(step.line.split(b" ")), 1)
                self.assertEqual(judge.wrong_with(step, True, True, tree), [])
                address = root_address(step.after, b"/t")
                if there is None:
                    self.assertEqual(address, UNDEFINED)
                    continue
                root = root or address
                self.assertEqual((address, node(step.after, root)), (root, there))

    def test_three_levels_in_any_order(self):
        """Of the cells every seventh is written, seven times, and the array is shrunk in steps."""
        starts = [3, 0, 6, 1, 5, 2, 4]
        lines = [f"dataset /t u8 {DEEP}/inf chunked:1 fill=7"]
        for start in starts:
            cells = range(start, DEEP, 7)
            lines.append(f"write /t {start} 7 {len(cells)} 1 {','.join(str(k % 256) for k in cells)}")
        image = self.assert_in_place(empty_image(), lines)
        root = root_address(image, b"/t")
        self.assertEqual(node(image, root)[0], 2)
        self.assertEqual(h5i("dump", self.written("deep.h5", image), "/t")[1].split()[-DEEP:], [b"%d" % (k % 256) for k in range(DEEP)])
        for lines, level in ((["resize /t 4400", "resize /t 64", f"resize /t {DEEP}"], None), (["resize /t 0"], 0)):
            image = self.assert_in_place(image, lines)
            self.assertEqual(root_address(image, b"/t"), root)
            self.assertIn(level, (None, node(image, root)[0]))
        self.assertEqual(node(image, root), (0, 0))

    def test_two_dimensions_in_any_order(self):
        for seed in range(6):
            edits = drawn_edits(random.Random(f"two dimensions {seed}"), "/t", [3, 4], [45, 12], 40)
            self.assert_in_place(empty_image(), ["dataset /t i16be 3/inf,4/inf chunked:1,2 fill=-2", *edits])


class Beside(Transcripts):
    """What stays of the image."""

    def test_chunks_that_are_made(self):
        path = self.accepted(["dataset /d i32le 3 contiguous", "dataset /c u8 5/inf,4 chunked:2,2 fill=3", "group /g", "attr /g a u8 - 1"])
        before = self.read(path)
        self.accepted(["write /c 0,1 2,1 3,2 1,1 11,12,13,14,15,16"], path)
        after = self.read(path)
        reading, _ = today.opened(before)
        root, kept = number_of(reading, b"/c"), 0
        for (at, length, kind), owner in zip(reading.blocks, reading.owners):
            if owner not in (root, None):
                self.assertEqual(after[at:at + length], before[at:at + length], kind)
                kept += 1
        self.assertGreater(kept, 8)
        self.assertEqual((after[:END_OF_FILE.start], after[END_OF_FILE.stop:96]), (before[:END_OF_FILE.start], before[END_OF_FILE.stop:96]))
        # Six chunks of four bytes were made, and a node of 65 keys and 64 addresses.
        self.assertEqual(len(after) - len(before), 6 * 4 + 24 + 65 * 32 + 64 * 8)
        rows = b"3 11 12 3\n3 3 3 3\n3 13 14 3\n3 3 3 3\n3 15 16 3\n"
        self.assertEqual(h5i("dump", path, "/c"), (0, b"/c dataset u8 {5/inf, 4} chunked {2, 2} fill 3\n" + rows, b""))

    def test_no_room_is_lost(self):
        made = "dataset /t u16be 0/inf,3 chunked:2,2 fill=9"
        once = ["resize /t 5,3", "write /t 0,0 1,1 5,3 1,1 1,2,3,4,5,6,7,8,9,10,11,12,13,14,15", "resize /t 0,3"]
        lengths = []
        for rounds in (1, ROUNDS):
            output, image = image_behind(self.path("e.h5"), empty_image(), today.printed([made] + once * rounds))
            self.assertEqual(output, b"ok 0\n" * (1 + len(once) * rounds))
            lengths.append(len(image))
        self.assertEqual(lengths[0], lengths[1])
        # It is the chunks that take the room.
        self.assertGreater(lengths[0], len(image_behind(self.path("e.h5"), empty_image(), today.printed([made]))[1]))


class Refused(InFolder):
    """Writes for which an image would be too long."""

    def test_it_changes_nothing(self):
        begun = ["dataset /t u8 9/inf chunked:2", "write /t 3 1 3 1 1,2,3", "dataset /q u8 2147483648/inf chunked:1073741824"]
        more = ["write /t 8 1 1 1 9", "resize /t 4", "resize /t 9", "write /t 5 1 4 1 6,7,8,9"]
        path, other = self.path("with.h5"), self.path("without.h5")
        output, image = image_behind(path, empty_image(), today.printed(begun + ["write /q 0 1073741824 2 1 1,2"] + more))
        self.assertEqual(output, b"ok 0\n" * 3 + IMAGE_FULL + b"ok 0\n" * 4)
        self.assertEqual(image, image_behind(other, empty_image(), today.printed(begun + more))[1])

    def test_to_the_byte(self):
        # The block of an array's cells is the last of the image, and so long that the image has these bytes.
        script = b"dataset /c u8 2/inf,3 chunked:1,2\ndataset /d u8 1 contiguous\nrepack\n"
        made = image_behind(self.path("one.h5"), empty_image(), script)[1]
        reading, _ = today.opened(made)
        [cells] = [at for at, _, kind in blocks_of(reading, number_of(reading, b"/d")) if kind == "data"]
        layout = body_at(made, b"/d", LAYOUT)
        self.assertEqual(cells + 1, len(made))
        line = b"write /c 0,1 1,1 2,2 1,1 1,2,3,4"
        bound = edit_bound(reading.tree, Superblock.fresh(), edit_of(line.split(b" ")), 0)
        for length, answer in ((LIMIT - bound, b"ok 0\n"), (LIMIT - bound + 1, IMAGE_FULL)):
            image = made
            for at, value in ((40, length), (size_at(made, b"/d"), length - cells), (layout + 10, length - cells)):
                image = patched(image, at, le(value, 8).hex())
            path = self.written("long.h5", image)
            os.truncate(path, length)
            with self.subTest(length=length):
                self.assertEqual(unwritten(path, line + b"\nunlink /d\n"), (4, answer + b"ok 0\n"))
            os.remove(path)


class Limits(Judged):
    """Trees that are too deep, and headers that are full."""

    def test_a_full_way_to_a_chunk(self):
        image, root, full = deep_image()
        self.assertEqual((today.opened(image)[1], node(image, root)), (None, (DEEPEST, NODE)))
        # Near the end, in the middle and behind the end of the full leaf; and beside a chunk, or many, that find room before it.
        more = ",".join(["7"] * (full + 1))
        refused = [f"write /c {full + 125} 1 1 1 7", f"write /c {full + 61} 1 1 1 7", f"write /c {full + 127} 1 1 1 7",
                   f"write /c 1 {full} 2 1 7,8", f"write /c 1 1 {full + 1} 1 {more}"]
        for line in refused:
            output, after = image_behind(self.path("deep.h5"), image, line.encode() + b"\n")
            self.assertEqual(output, TOO_DEEP)
            self.assertTrue(after == image, line[:40])
        # The leaves before it have room.
        lines = [f"write /c {full - 1} 1 1 1 9", "write /c 1 2 3 1 1,2,3", f"resize /c {full + 2}", "resize /c 4000"]
        lines.append(f"write /c 1 2 {full // 2 + 1} 1 {','.join(['9'] * (full // 2 + 1))}")
        after = self.assert_in_place(image, lines)
        self.assertEqual(root_address(after, b"/c"), root)
        # The session goes on as if the refused writes had not been.
        output, again = image_behind(self.path("deep.h5"), image, today.printed(refused[:2] + lines[:1] + refused[2:] + lines[1:]))
        self.assertEqual(output, TOO_DEEP * 2 + b"ok 0\n" + TOO_DEEP * 3 + b"ok 0\n" * 4)
        self.assertTrue(again == after)

    def test_a_full_header(self):
        """Where its Dataspace has no maxima, an array that is resized needs one message more."""
        for total in (65533, 65534, 65535):
            for has_maxima in (False, True):
                image = full_image(total, has_maxima)
                reading, _ = today.opened(image)
                self.assertEqual((reading.facts[1]["total"], reading.tree.objects[1].has_maxima), (total, has_maxima))
                with self.subTest(total=total, has_maxima=has_maxima):
                    if has_maxima or total == 65533:
                        self.assert_in_place(image, ["resize /c 3", "resize /c 4", "resize /c 0"])
                        continue
                    output, after = image_behind(self.path("full.h5"), image, b"resize /c 3\nresize /c 4\n")
                    self.assertEqual(output, b"refused 28 HeaderFull\n" * 2)
                    self.assertTrue(after == image)

    def test_an_array_without_maxima(self):
        """The sizes from before are its maxima then, as the library reads them."""
        path = self.path("none.h5")
        code = "import sys, h5py, numpy\nwith h5py.File(sys.argv[1], 'w', libver=('earliest', 'v108')) as file:\n" \
            "    file.create_dataset('c', data=numpy.arange(12, dtype='>u2').reshape(4, 3), chunks=(2, 2), fillvalue=9)\n"
        self.assertEqual(library(code, path), (0, b"", b""))
        image = self.assert_in_place(self.read(path), ["resize /c 3,1", "write /c 2,0 1,1 1,1 1,1 77", "resize /c 4,3"])
        told = "import sys, h5py\nwith h5py.File(sys.argv[1]) as file:\n    print(file['c'].maxshape, file['c'][()].tolist())\n"
        self.assertEqual(library(told, self.written("none.h5", image)),
                         (0, b"(4, 3) [[0, 9, 9], [3, 9, 9], [77, 9, 9], [9, 9, 9]]\n", b""))
        self.assertEqual(h5i("run", path, script=b"resize /c 4,4\nresize /c 5,3\n")[1], b"refused 18 AboveMaximum\n" * 2)


class Others(Transcripts):
    """Files in which cells outside of an array's sizes are stored."""

    def assert_extended(self, image, path, sizes, cells):
        """Resized to these sizes in turn, at the end the array has these cells, and all others are the fill."""
        for size in sizes:
            line = f"resize /c {size}"
            self.accepted([line], path)
            self.assertEqual(today.wrong_with(image, self.read(path), line.encode()), [], line)
            image = self.read(path)
        reading, _ = today.opened(image)
        fill = reading.tree.objects[number_of(reading, b"/c")].fill
        wanted = cells + [fill] * (sizes[-1] - len(cells))
        self.assertEqual(h5i("dump", path, "/c")[1].split(b"\n")[-2], b" ".join(b"%d" % cell for cell in wanted))

    def test_cells_of_a_chunk_at_the_edge(self):
        for size, chunk, fill in ((1, 2, 0), (5, 4, 7), (3, 64, 200), (67, 5, 1)):
            path, cells = self.path("raw.h5"), list(range(1, size + 1))
            self.assertEqual(library(RAW, path, str(size), str(chunk), str(fill)), (0, b"", b""))
            image = self.read(path)
            self.assertEqual(stored_chunks(image)[-1][1][-1], 99)
            for sizes in ([size + 1], [size + chunk + 3], [size + 1, size + chunk], [size, size + 8 * chunk]):
                with self.subTest(size=size, chunk=chunk, sizes=sizes):
                    self.assert_extended(image, self.written("c.h5", image), sizes, cells)
            # The library has no more of them, once the array was resized.
            path = self.written("c.h5", image)
            self.accepted([f"resize /c {size}"], path)
            wanted = cells + [fill] * chunk
            self.assertEqual(library(LENGTHEN, path, str(size + chunk)), (0, b" ".join(b"%d" % cell for cell in wanted) + b"\n", b""))

    def test_chunks_outside(self):
        """The size of an array that the library wrote is less in its header: in its tree of two levels any of 90 chunks are outside."""
        for chunk in (1, 2, 5):
            path, cells = self.path("raw.h5"), [k % 100 + 1 for k in range(90 * chunk)]
            self.assertEqual(library(WRITE, path, str(len(cells)), str(chunk)), (0, b"", b""))
            whole = self.read(path)
            at = size_at(whole, b"/c")
            for size in (0, 1, chunk, chunk + 1, 64 * chunk, 89 * chunk, 90 * chunk - 1):
                image = patched(whole, at, slots(size))
                self.assertEqual(len(stored_chunks(image)), 90)
                for sizes in ([8], [size, 90 * chunk], [90 * chunk + 7], [0, size + 3]):
                    with self.subTest(chunk=chunk, size=size, sizes=sizes):
                        self.assert_extended(image, self.written("c.h5", image), sizes, cells[:min(size, *sizes)])


class RandomSessions(Sessions):
    """Sessions that write and resize arrays, with all other edits between them."""

    def assert_writes_and_resizes(self, *words):
        """Nothing is wrong, and many lines write cells or resize an array."""
        made = self.assert_all_right(*words)
        self.assertGreater(made[b"write"], 5 * made.total() // 20)
        self.assertGreater(made[b"resize"], made.total() // 20)

    def test_on_new_files(self):
        self.assert_writes_and_resizes("chunks", CHUNKS, new_image)

    def test_on_files_of_others(self):
        self.assert_writes_and_resizes("chunks", CHUNKS, linked_image)


class Library(Judged):
    """The usual library reads and edits at any moment."""

    def assert_read(self, paths, trees):
        """What the library reads of the files are these trees."""
        for path, tree, text in zip(paths, trees, self.library_texts(paths), strict=True):
            with self.subTest(path=os.path.basename(path)):
                self.assertEqual(text, today.read_by_the_library(tree))

    def at_moments(self, name, lines):
        """The paths of files behind ever more of these lines, and their trees by the reference."""
        paths, trees = [], []
        for moment in range(APART, len(lines) + 1, APART):
            paths.append(self.path(f"{name}-{moment}.h5"))
            session = today.session_of(empty_image())
            wanted = today.answers(session, today.printed(lines[:moment]))[0]
            self.assertEqual(wanted, b"ok 0\n" * moment)
            self.assertEqual(image_behind(paths[-1], empty_image(), today.printed(lines[:moment]))[0], wanted)
            trees.append(session.tree)
        return paths, trees

    def test_at_any_moment(self):
        forms = {"one": ("u8 100/inf chunked:1 fill=7", [100], [200]), "two": ("i16le 2/inf,9 chunked:2,2 fill=-3", [2, 9], [40, 9])}
        for name, (form, sizes, most) in forms.items():
            rng = random.Random(f"moments {name}")
            paths, trees = self.at_moments(name, [f"dataset /{name} {form}", *drawn_edits(rng, f"/{name}", sizes, most, LONG)])
            self.assert_read(paths, trees)
            self.assertEqual(library(EDIT, *paths), (0, b"", b""))
            # Now edits are made where the library has ended, which has made the array longer.
            for path, before in zip(paths, trees):
                image = self.read(path)
                tree = today.opened(image)[0].tree
                self.assertIsNotNone(today.same_tree(tree, before))
                sizes = tree.objects[object_at(tree, f"/{name}".encode())].dims
                image = self.assert_in_place(image, list(drawn_edits(rng, f"/{name}", sizes, [max(each) for each in zip(sizes, most)], 6)))
                self.written(os.path.basename(path), image)
            self.assert_read(paths, [today.opened(self.read(path))[0].tree for path in paths])
