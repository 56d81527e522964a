"""Arrays of every rank and store: in images put together byte by byte, made by scripts, and written by the reference and by the usual library."""

import json
import os

from . import today
from .support import InFolder, empty_image, h5i, library, patched, reference
from .test_foreign_headers import header, message, number

# pylint: disable=wrong-import-order
from h5oracle.reader import open_image  # noqa: E402
import mutate  # noqa: E402

UNDEFINED = "ff" * 8
# Where the dataset's header, its chunk tree's node and its chunks stand in the image of edge chunks.
HEADER, NODE, CHUNKS = 1128, 1272, 3888
# The chunks by their offsets: those at the edge have cells outside, which are 0.
EDGE_CHUNKS = {
    (0, 0): "010203050607", (0, 3): "040000080000",
    (2, 0): "090a0b0d0e0f", (2, 3): "0c0000100000",
    (4, 0): "111213000000", (4, 3): "140000000000",
}
EDGES = b"""/c dataset u8 {5/inf, 4} chunked {2, 3} fill 0
1 2 3 4
5 6 7 8
9 10 11 12
13 14 15 16
17 18 19 20
"""
MAKE_EDGES = b"""dataset /c u8 5/inf,4 chunked:2,3
write /c 0,0 1,1 5,4 1,1 1,2,3,4,5,6,7,8,9,10,11,12,13,14,15,16,17,18,19,20
"""

# Arrays of all forms that the library makes by itself: their sizes, chunks and cells are drawn from the seed. What it read of each is printed.
WRITE = """
import json, random, sys
import h5py, numpy
from h5py import h5d, h5p, h5s, h5t
seed = int(sys.argv[2])
rng = random.Random(seed)
told = {}
with h5py.File(sys.argv[1], "w", libver=("earliest", "v108")) as file:
    for k in range(int(sys.argv[3])):
        kind = rng.choice("|i1 |u1 <i2 >i2 <u2 >u2 <i4 >i4 <u4 >u4 <i8 >i8 <u8 >u8".split())
        info = numpy.iinfo(kind)
        rank = rng.choice([0, 1, 1, 2, 2, 3, 3, 4, 5, 7, 32])
        most = {0: 0, 1: 60, 2: 12, 3: 6, 4: 4, 5: 3, 7: 2, 32: 1}[rank]
        store = rng.choice(["compact", "contiguous", "chunked", "chunked"] if rank else ["compact", "contiguous"])
        shape = tuple(rng.randint(0 if rng.random() < 0.05 else 1, most) for _ in range(rank))
        plist = h5p.create(h5p.DATASET_CREATE)
        maxima = shape
        if store == "chunked":
            maxima = tuple(rng.choice([size, size + 3, None]) for size in shape)
            # The library wants no chunk larger than a maximum that is set.
            largest = 6 if rank < 6 else 1
            chunk = tuple(rng.randint(1, max(1, min(largest, largest if most is None else most))) for most in maxima)
            plist.set_chunk(chunk)
        else:
            plist.set_layout(h5d.COMPACT if store == "compact" else h5d.CONTIGUOUS)
        fill = rng.choice([0, int(info.min), int(info.max)])
        plist.set_fill_value(numpy.array(fill, dtype=kind))
        space = h5s.create(h5s.SCALAR) if not rank else h5s.create_simple(shape, tuple(h5s.UNLIMITED if most is None else most for most in maxima))
        name = f"d{k:03}"
        array = h5py.Dataset(h5d.create(file.id, name.encode(), h5t.py_create(numpy.dtype(kind)), space, dcpl=plist))
        # Some hyperslabs are written, and later ones over earlier ones.
        for _ in range(rng.choice([0, 1, 1, 3, 8])):
            if 0 in shape:
                continue
            slab = []
            for size in shape:
                start = rng.randrange(size)
                step = rng.randint(1, 3)
                slab.append(slice(start, rng.randint(start + 1, size), step))
            slab = tuple(slab)
            part = array[slab]
            values = [rng.choice([int(info.min), int(info.max), rng.randint(int(info.min), int(info.max))]) for _ in range(part.size)]
            array[slab] = numpy.array(values, dtype=kind).reshape(part.shape)
        if store == "chunked" and None in maxima and rng.random() < 0.4:
            # What is cut off and grown again is the fill.
            less = tuple(size if most is not None else max(0, size - 2) for size, most in zip(shape, maxima))
            array.resize(less)
            array.resize(shape)
        told[name] = dict(kind=kind, store=store, shape=shape, maxima=maxima, chunk=array.chunks, fill=fill,
                          values=[int(value) for value in numpy.atleast_1d(array[...]).reshape(-1).tolist()])
print(json.dumps(told))
"""
LIBRARY_FILES = 6
LIBRARY_ARRAYS = 60


def slots(*numbers):
    """Numbers of 8 bytes, as digits."""
    return b"".join(number(each) for each in numbers).hex()


def key(offsets, size):
    """A key of a chunk tree: stored size, filter mask, the offsets and one more."""
    return number(size, 4) + bytes(4) + b"".join(number(offset) for offset in offsets) + bytes(8)


def one_link(name, target, data):
    """The image of one link from the root, to a header that begins the data behind the root's symbol node."""
    image = empty_image() + b"SNOD" + bytes([1, 0]) + number(1, 2) + bytes(320) + data
    for place, digits in (
            (40, slots(len(image))),
            # One child in the group's tree, and its last key: the name, behind the empty one.
            (142, "01"), (168, slots(800)), (176, slots(8)),
            # The free list begins behind the name.
            (696, slots(16)), (720, name.hex() + "00"), (728, slots(1, 72)),
            (808, slots(8, target))):
        image = patched(image, place, digits)
    return image


def edges_image():
    """The plain image of `/c`, of 5 by 4 cells in chunks of 2 by 3."""
    made = header(4, [
        message(1, "0102010000000000" + slots(5, 4) + UNDEFINED + slots(4)),
        message(3, "10000000" + "01000000" + "00000800" + "00000000"),
        message(5, "02030201" + "01000000" + "00" + "00" * 7),
        message(8, "030203" + slots(NODE) + "020000000300000001000000" + "00"),
    ])
    node = b"TREE" + bytes([1, 0]) + number(len(EDGE_CHUNKS), 2) + bytes.fromhex(UNDEFINED * 2)
    for k, offsets in enumerate(EDGE_CHUNKS):
        node += key(offsets, 6) + number(CHUNKS + 6 * k)
    node += key((6, 6), 0)
    return one_link(b"c", HEADER, made + node.ljust(CHUNKS - NODE, b"\0") + bytes.fromhex("".join(EDGE_CHUNKS.values())))


class EdgeChunks(InFolder):
    """Chunks that reach out of the array."""

    def test_the_image_of_the_tables(self):
        image = edges_image()
        self.assertEqual(len(image), 3924)
        path = self.written("edges.h5", image)
        self.assertEqual(h5i("ls", path), (0, b"/ group\n/c dataset u8 {5/inf, 4}\n", b""))
        self.assertEqual(h5i("dump", path, "/c"), (0, EDGES, b""))
        self.assertEqual(h5i("run", path, script=b"ls\ndump /c\n"), (0, b"/ group\n/c dataset u8 {5/inf, 4}\n" + EDGES, b""))
        self.assertEqual(self.read(path), image)

    def test_the_reference_writes_the_same(self):
        path = self.path("reference.h5")
        reference("new", path)
        self.assertEqual(reference("run", path, script=MAKE_EDGES), (0, b"ok 0\nok 0\n", b""))
        self.assertEqual(self.read(path), edges_image())

    def test_chunks_that_are_not_stored(self):
        # The last two chunks are taken out of the tree, and their bytes lie idle.
        image = patched(edges_image(), NODE + 6, "0400")
        path = self.written("fewer.h5", image)
        self.assertEqual(h5i("dump", path, "/c"), (0, EDGES.replace(b"17 18 19 20", b"0 0 0 0"), b""))
        # No tree at all.
        image = patched(edges_image(), image.index(bytes.fromhex("030203" + slots(NODE))) + 3, UNDEFINED)
        path = self.written("none.h5", image)
        head = EDGES.splitlines(keepends=True)[0]
        self.assertEqual(h5i("dump", path, "/c"), (0, head + b"0 0 0 0\n" * 5, b""))

    def test_bytes_outside_the_array_are_not_read(self):
        image = edges_image()
        for chunk, places in (((0, 3), (1, 2, 4, 5)), ((4, 0), (3, 4, 5))):
            for place in places:
                image = patched(image, CHUNKS + 6 * list(EDGE_CHUNKS).index(chunk) + place, "ff")
        path = self.written("outside.h5", image)
        self.assertEqual(h5i("dump", path, "/c"), (0, EDGES, b""))

    def test_refused(self):
        first, entry = NODE + 24, 40
        rows = {
            # The node and its neighbours. Of level 1 it would have a node in the place of a chunk, which is shorter.
            (NODE + 5, "01"): "2 Truncated at 3888", (NODE + 4, "00"): "25 NodeForm at 1272", (NODE, "55"): "25 NodeForm at 1272",
            (NODE + 6, "4100"): "25 NodeForm at 1272", (NODE + 8, "00"): "28 Sibling at 1272", (NODE + 16, "00"): "28 Sibling at 1272",
            # Stored size, filter mask, an offset, and the one behind them.
            (first, "05"): "29 ChunkKey at 1272", (first + 4, "01"): "29 ChunkKey at 1272", (first + 8, "01"): "29 ChunkKey at 1272",
            (first + 24, "01"): "29 ChunkKey at 1272",
            # The second chunk over the first, and the last behind the end.
            (first + 32 + entry, slots(CHUNKS)): "32 Overlap at 3888",
            (first + 5 * entry + 32, slots(3919)): "2 Truncated at 3919",
            # Chunks out of order, and one that is not below the last key.
            (first + entry + 16, "00"): "27 KeyOrder at 1272", (first + 6 * entry + 8, slots(4, 3)): "27 KeyOrder at 1272",
        }
        for change, refusal in rows.items():
            with self.subTest(change=change):
                path = self.written("changed.h5", patched(edges_image(), *change))
                self.assertEqual(reference("check", path)[:2], (3, f"refused {refusal}\n".encode()))
                self.assertEqual(h5i("ls", path), (3, b"", f"h5i: refused {refusal}\n".encode()))

    def test_a_tree_that_is_its_own_child(self):
        # The root has level 1, and its first child is itself.
        image = patched(patched(edges_image(), NODE + 5, "01"), NODE + 24 + 32, slots(NODE))
        path = self.written("own.h5", image)
        text = f"refused 32 Overlap at {NODE}\n".encode()
        self.assertEqual(reference("check", path)[:2], (3, text))
        for words in (("ls", path), ("dump", path, "/c")):
            self.assertEqual(h5i(*words), (3, b"", b"h5i: " + text))


class Written(InFolder):
    """Arrays that the reference writes."""

    def written_by_reference(self, script, name="made.h5"):
        """The path of a file that the reference makes by these lines."""
        path = self.path(name)
        reference("new", path)
        status, output, errors = reference("run", path, script=script)
        self.assertEqual((status, errors), (0, b""), output)
        return path

    def test_scalars_and_arrays_of_no_cells(self):
        path = self.written_by_reference(
            b"dataset /s i64be - contiguous\nwrite /s - - - - -9223372036854775808\ndataset /z u8 0 contiguous\n"
            b"dataset /c i8 - compact fill=-3\ndataset /u u16le - contiguous fill=9\ndataset /m u8 3,0,2 compact\ndataset /n u8 0/inf,4 chunked:2,2\n")
        rows = {
            "/s": b"/s dataset i64be {} contiguous fill 0\n-9223372036854775808\n",
            "/z": b"/z dataset u8 {0} contiguous fill 0\n",
            "/c": b"/c dataset i8 {} compact fill -3\n-3\n",
            "/u": b"/u dataset u16le {} contiguous fill 9\n9\n",
            "/m": b"/m dataset u8 {3, 0, 2} compact fill 0\n",
            "/n": b"/n dataset u8 {0/inf, 4} chunked {2, 2} fill 0\n",
        }
        for word, text in rows.items():
            with self.subTest(word=word):
                self.assertEqual(h5i("dump", path, word), (0, text, b""))
        self.assertIn(bytes.fromhex("8000000000000000"), self.read(path))

    def test_rank_32(self):
        ones = ",".join(["1"] * 31)
        zeros = ones.replace("1", "0")
        path = self.written_by_reference(
            f"dataset /a u8 2,{ones} compact\ndataset /b i16be {ones},3 chunked:{ones},2 fill=-1\n"
            f"write /a 1,{zeros} 1,{ones} 1,{ones} 1,{ones} 7\nwrite /b {zeros},1 {ones},1 {ones},2 {ones},1 -32768,5\n".encode())
        braced = ones.replace(",", ", ")
        rows = {
            "/a": f"/a dataset u8 {{2, {braced}}} compact fill 0\n0\n7\n",
            "/b": f"/b dataset i16be {{{braced}, 3}} chunked {{{braced}, 2}} fill -1\n-1 -32768 5\n",
        }
        for word, text in rows.items():
            self.assertEqual(h5i("dump", path, word), (0, text.encode(), b""))

    def test_edits_beside_arrays_of_other_forms(self):
        edits = (b"group /g\ngroup g\nlink /c /d\nsoft t /s\nattr /c a u8 - 1\nattr / a u8 - 1\nunattr / a\ndataset /e u8 1 contiguous\n"
                 b"dataset /e u8 1 compact\ndataset /g/e u8 1/inf chunked:1\n")
        answers = b"ok 0\nrefused 1 BadPath\n" + b"ok 0\n" * 6 + b"refused 7 AlreadyThere\nok 0\n"
        for store, values in ((b"compact", b"1,2,3"), (b"chunked:2", b"1,2,3"), (b"chunked:2", None)):
            made = b"dataset /c u8 3 " + store + b" fill=9\n"
            if values:
                made += b"write /c 0 1 3 1 " + values + b"\n"
            path = self.written_by_reference(made)
            other = self.written_by_reference(made + edits.replace(b"group g\n", b"").replace(b"dataset /e u8 1 compact\n", b""), "other.h5")
            head = b"dataset u8 {3} " + store.replace(b":2", b" {2}") + b" fill 9\n@a u8 {} 1\n" + (b"1 2 3\n" if values else b"9 9 9\n")
            with self.subTest(made=made):
                self.assertEqual(h5i("run", path, script=edits + b"dump /c\ndump /d\nno line\n"),
                                 (1, answers + b"/c " + head + b"/d " + head + b"bad line\n", b""))
                self.assertEqual(h5i("run", path, script=b"repack\n"), (0, b"ok 0\n", b""))
                self.assertEqual(self.read(path), self.read(other))

    def test_trees_of_several_levels(self):
        for count, level in ((64, 0), (65, 1), (4096, 1), (4097, 2)):
            image = mutate.chunked(count, count + 1)
            with self.subTest(count=count):
                tree = next(at for at, length, kind in open_image(image).blocks if kind == "tree node" and length == 2096 and image[at + 5] == level)
                self.assertEqual(image[tree + 4], 1)
                path = self.written("deep.h5", image)
                text = f"/d dataset u8 {{{count + 1}/inf}} chunked {{1}} fill 0\n{' '.join(['1'] * count)} 0\n"
                self.assertEqual(h5i("dump", path, "/d"), (0, text.encode(), b""))


# Lines that make an array each, and what a dump prints of it.
ONES = ",".join(["1"] * 31)
MADE = {
    "dataset /s i64be - contiguous": "/s dataset i64be {} contiguous fill 0\n0\n",
    "dataset /z u8 0 contiguous": "/z dataset u8 {0} contiguous fill 0\n",
    "dataset /c u8 5/inf,4 chunked:2,3": "/c dataset u8 {5/inf, 4} chunked {2, 3} fill 0\n" + "0 0 0 0\n" * 5,
    "dataset /t i16le - compact fill=-32768": "/t dataset i16le {} compact fill -32768\n-32768\n",
    "dataset /o u16be 2,3 compact fill=513": "/o dataset u16be {2, 3} compact fill 513\n" + "513 513 513\n" * 2,
    "dataset /n u32le 3,0,2 compact": "/n dataset u32le {3, 0, 2} compact fill 0\n",
    "dataset /k i32be 2,2,2 contiguous fill=-2": "/k dataset i32be {2, 2, 2} contiguous fill -2\n" + "-2 -2\n" * 4,
    "dataset /m u64be 0/3,2/2 chunked:3,1 fill=18446744073709551615":
        "/m dataset u64be {0/3, 2} chunked {3, 1} fill 18446744073709551615\n",
    "dataset /w i8 0/0 chunked:7": "/w dataset i8 {0} chunked {7} fill 0\n",
    "dataset /u u8 1099511627776/inf,0 chunked:1073741824,1": "/u dataset u8 {1099511627776/inf, 0} chunked {1073741824, 1} fill 0\n",
    f"dataset /r u8 2,{ONES} compact": f"/r dataset u8 {{2, {ONES.replace(',', ', ')}}} compact fill 0\n0\n0\n",
    f"dataset /v i16be {ONES},3/inf chunked:{ONES},2 fill=-1":
        f"/v dataset i16be {{{ONES.replace(',', ', ')}, 3/inf}} chunked {{{ONES.replace(',', ', ')}, 2}} fill -1\n-1 -1 -1\n",
}


class Made(InFolder):
    """Arrays that lines of scripts make."""

    def assert_made(self, lines, texts):
        """The lines are accepted, the dumps print these texts, and the file is the reference's once it is repacked."""
        path, other = self.new(), self.path("other.h5")
        script = "".join(f"{line}\n" for line in lines)
        answers = "ok 0\n" * len(lines)
        dumps = "".join(f"dump {line.split(' ')[1]}\n" for line in lines)
        self.assertEqual(h5i("run", path, script=(script + dumps).encode()), (0, (answers + "".join(texts)).encode(), b""))
        self.assertEqual(reference("new", other)[0], 0)
        self.assertEqual(reference("run", other, script=script.encode()), (0, answers.encode(), b""))
        self.assertEqual(reference("check", path)[:2], (0, b"ok\n"))
        self.assertEqual(h5i("run", path, script=b"repack\n"), (0, b"ok 0\n", b""))
        self.assertEqual(self.read(path), self.read(other))
        return path

    def test_each_form_alone(self):
        for line, text in MADE.items():
            with self.subTest(line=line):
                path = self.assert_made([line], [text])
                os.remove(path)

    def test_all_forms_in_one_file(self):
        path = self.assert_made(list(MADE), list(MADE.values()))
        for line, text in MADE.items():
            with self.subTest(line=line):
                self.assertEqual(h5i("dump", path, line.split(" ")[1]), (0, text.encode(), b""))

    def test_the_largest_that_fit(self):
        for line in ("dataset /q u8 65524 compact", "dataset /q u16le 32762 compact", "dataset /q u8 1/inf chunked:1073741824",
                     "dataset /q i64be 1/inf chunked:134217728", "dataset /q u8 1099511627776 chunked:1",
                     "dataset /q i8 1 compact fill=127"):
            with self.subTest(line=line):
                path, other = self.new(), self.path("other.h5")
                self.assertEqual(h5i("run", path, script=line.encode() + b"\nrepack\n"), (0, b"ok 0\nok 0\n", b""))
                self.assertEqual(reference("new", other)[0], 0)
                self.assertEqual(reference("run", other, script=line.encode()), (0, b"ok 0\n", b""))
                self.assertEqual(self.read(path), self.read(other))

    def test_of_two_refusals_the_lower_number(self):
        path = self.with_array("/d u8 1 contiguous")
        before = self.stamp(path)
        rows = {
            "/d u8 1 compact": "7 AlreadyThere",
            "/d u8 4 chunked:0": "7 AlreadyThere",
            f"/{'n' * 1024} u8 4 chunked:0": "8 NameTooLong",
            "/q u8 4 chunked:4294967295": "12 BadSpec",
            "/q u8 4/2 compact fill=256": "12 BadSpec",
            "/q u8 1099511627777/inf chunked:1073741825": "19 ChunkTooLarge",
            "/q u8 1099511627777 compact fill=256": "20 CompactTooLarge",
            "/q u8 1099511627777/inf chunked:1 fill=256": "21 TooManyCells",
            "/q u8 1099511627777 contiguous fill=-1": "21 TooManyCells",
            "/q u8 1099511627776 contiguous fill=-1": "23 ValueRange",
        }
        for line, answer in rows.items():
            with self.subTest(line=line[:80]):
                self.assertEqual(h5i("run", path, script=f"dataset {line}\n".encode()), (1, f"refused {answer}\n".encode(), b""))
        self.assertEqual(self.stamp(path), before)


class Library(InFolder):
    """Arrays that the usual library writes, with slabs of cells, and some resized."""

    def type_text(self, kind):
        """TYPE of the library's name of a type."""
        size = int(kind[2:])
        return f"{kind[1]}{8 * size}{'' if size == 1 else 'le' if kind[0] == '<' else 'be'}"

    def text(self, name, thing):
        """The dump of an array, of what the library read of it."""
        sizes = ", ".join(str(size) if size == most else f"{size}/{'inf' if most is None else most}"
                          for size, most in zip(thing["shape"], thing["maxima"], strict=True))
        store = thing["store"] + (f" {{{', '.join(map(str, thing['chunk']))}}}" if thing["chunk"] else "")
        lines = [f"/{name} dataset {self.type_text(thing['kind'])} {{{sizes}}} {store} fill {thing['fill']}"]
        row = thing["shape"][-1] if thing["shape"] else 1
        values = [str(value) for value in thing["values"]]
        return today.printed(lines + [" ".join(values[at:at + row]) for at in range(0, len(values), row or 1)])

    def test_arrays_of_all_forms(self):
        stores = set()
        for seed in range(LIBRARY_FILES):
            path = self.path(f"{seed}.h5")
            status, output, errors = library(WRITE, path, str(seed), str(LIBRARY_ARRAYS))
            self.assertEqual((status, errors), (0, b""))
            told = json.loads(output)
            self.assertEqual(len(told), LIBRARY_ARRAYS)
            for name, thing in told.items():
                with self.subTest(seed=seed, name=name):
                    self.assertEqual(h5i("dump", path, "/" + name), (0, self.text(name, thing), b""))
                    stores.add((thing["store"], len(thing["shape"])))
        self.assertGreater(len(stores), 20)
