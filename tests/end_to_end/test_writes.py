"""Cells that are written, and arrays that are resized: answers, stored bytes, and how long the image is."""

import resource
import subprocess

from . import today
from .support import PROGRAM, h5i, patched
from .test_array_forms import EDGE_CHUNKS, EDGES, MAKE_EDGES, edges_image, slots
from .test_scripts import limited
from .transcripts import Transcripts

# pylint: disable=wrong-import-order
from h5oracle.reader import open_image  # noqa: E402

BOTH_ENDS = ["dataset /d i32le 3 contiguous", "write /d 0 1 3 1 1,-1,2147483647"]
ALL_EDGES = MAKE_EDGES.decode().splitlines()
# In the plain image of one array, `/d`: its first size, and the address of its cells.
SIZE, ADDRESS = 1160, 1226
UNDEFINED = "ff" * 8


def chunks_of(image, number=1):
    """The stored chunks of an array: their cells' bytes by their offsets, as digits."""
    return {offsets: cells.hex() for offsets, cells in open_image(image).stored_chunks[number]}


class Types(Transcripts):
    """One array in a block."""

    def test_both_ends_of_a_type(self):
        path = self.new()
        self.assert_transcript(path, """
            > dataset /d i32le 3 contiguous
            ok 0
            > write /d 0 1 3 1 1,-1,2147483647
            ok 0
            > dump /d
            /d dataset i32le {3} contiguous fill 0
            1 -1 2147483647
            """)
        self.assertEqual(h5i("run", path, script=b"repack\n"), (0, b"ok 0\n", b""))
        image = self.read(path)
        self.assertEqual(len(image), 1260)
        self.assertEqual(image[-12:].hex(), "01000000ffffffffffffff7f")

    def test_the_order_of_bytes(self):
        path = self.accepted(["dataset /u u16be 2 contiguous", "write /u 0 1 2 1 65535,258", "repack"])
        self.assertEqual(self.read(path)[-4:].hex(), "ffff0102")
        self.assertEqual(h5i("dump", path, "/u"), (0, b"/u dataset u16be {2} contiguous fill 0\n65535 258\n", b""))

    def test_a_value_outside_of_the_type(self):
        self.assert_transcript(self.new(), """
            > dataset /b i8 1 contiguous
            ok 0
            > write /b 0 1 1 1 -128
            ok 0
            > write /b 0 1 1 1 128
            refused 23 ValueRange
            > dump /b
            /b dataset i8 {1} contiguous fill 0
            -128
            """)

    def test_a_scalar(self):
        path = self.accepted(["dataset /s i64be - contiguous", "write /s - - - - -9223372036854775808", "repack"])
        self.assertEqual(self.read(path)[-8:].hex(), "8000000000000000")
        self.assertEqual(h5i("dump", path, "/s"), (0, b"/s dataset i64be {} contiguous fill 0\n-9223372036854775808\n", b""))

    def test_the_ends_of_each_type(self):
        for order in ("le", "be"):
            for bits in (8, 16, 32, 64):
                for sign, least, most in (("i", -(1 << bits - 1), (1 << bits - 1) - 1), ("u", 0, (1 << bits) - 1)):
                    name = f"{sign}{bits}{order if bits > 8 else ''}"
                    for store in ("compact", "contiguous", "chunked:2"):
                        lines = [f"dataset /d {name} 3 {store}", f"write /d 0 1 3 1 {least},{most},1"]
                        with self.subTest(lines=lines):
                            path = self.accepted(lines)
                            self.assertEqual(h5i("dump", path, "/d")[1].splitlines()[1], f"{least} {most} 1".encode())
                            rows = {f"write /d 0 1 3 1 5,5,{value}": "refused 23 ValueRange" for value in (least - 1, most + 1)}
                            self.assert_each(path, rows)


class Refused(Transcripts):
    """Writes that change nothing."""

    def test_a_late_value(self):
        path = self.accepted(BOTH_ENDS)
        self.assert_each(path, {"write /d 0 1 3 1 7,8,2147483648": "refused 23 ValueRange"})

    def test_a_late_value_in_any_form(self):
        for store, dims in (("compact", "6"), ("contiguous", "6"), ("chunked:2", "6"), ("chunked:4", "6/inf")):
            lines = [f"dataset /c u8 {dims} {store} fill=7", "write /c 0 1 2 1 1,2"]
            late = "write /c 0 1 6 1 9,9,9,9,9,256"
            with self.subTest(store=store):
                path = self.accepted(lines)
                self.assert_each(path, {late: "refused 23 ValueRange"})
                # Lines behind it go on as if it had not been there.
                other = self.new("other.h5")
                script = "".join(f"{line}\n" for line in [*lines, late, "dump /c", "write /c 5 1 1 1 3"]).encode()
                status, output, _ = h5i("run", other, script=script)
                self.assertEqual((status, output.splitlines()[2:3], output.splitlines()[4:]), (1, [b"refused 23 ValueRange"], [b"1 2 7 7 7 7", b"ok 0"]))
                self.accepted(["write /c 5 1 1 1 3"], path)
                self.assertEqual(self.read(other), self.read(path))

    def test_of_two_refusals_the_lower_number(self):
        path = self.accepted(["dataset /d u8 3 contiguous", "dataset /c u8 5/inf,4 chunked:2,3", "group /g", "soft t /s", "dataset /z u8 - compact"])
        far = 18446744073709551615
        rows = {
            "write d 0 0 1 1 256": "1 BadPath",
            "write //d 0 1 1 1 1": "1 BadPath",
            "write " + "/a" * 65 + " 0 0 1 1 256": "2 PathTooDeep",
            "write /x/y 0 0 1 1 256": "4 NoSuchParent",
            "write /d/y 0 0 1 1 256": "5 NotAGroup",
            "write /s/y 0 0 1 1 256": "5 NotAGroup",
            "write /x 0 0 1 1 256": "6 NotFound",
            "write / 0 0 1 1 256": "9 NotADataset",
            "write /g - - - - 1": "9 NotADataset",
            "write /s 0 1 1 1 1": "9 NotADataset",
            "write /d 0,0 0 1 1 256": "13 RankMismatch",
            "write /d 0 1 1 - 1": "13 RankMismatch",
            "write /d - - - - 1": "13 RankMismatch",
            "write /c 9 0 2 2 1": "13 RankMismatch",
            "write /z 0 1 1 1 1": "13 RankMismatch",
            "write /d 9 0 2 2 256": "14 StrideZero",
            "write /d 9 0 0 0 -": "14 StrideZero",
            "write /d 9 1 2 2 256": "15 BlocksOverlap",
            f"write /d 0 1 {far} {far} 1": "15 BlocksOverlap",
            "write /d 3 1 1 1 256": "16 OutOfExtent",
            "write /d 0 2 2 2 1": "16 OutOfExtent",
            "write /d 0 3 2 1 1,2": "16 OutOfExtent",
            f"write /d {far} {far} 1 {far} 1": "16 OutOfExtent",
            f"write /d 0 {far} {far} 1 1": "16 OutOfExtent",
            "write /c 4,4 1,1 1,1 1,1 9": "16 OutOfExtent",
            "write /d 0 1 3 1 256": "22 ValueCount",
            "write /d 0 1 3 1 1,2,3,256": "22 ValueCount",
            "write /d 0 1 3 1 -": "22 ValueCount",
            "write /d 9 1 0 1 1": "22 ValueCount",
            "write /z - - - - -": "22 ValueCount",
            "write /z - - - - 1,1": "22 ValueCount",
            "write /d 0 1 3 1 1,1,256": "23 ValueRange",
            "write /d 0 1 3 1 -1,1,1": "23 ValueRange",
            "write /z - - - - -170141183460469231731687303715884105728": "23 ValueRange",
        }
        self.assert_each(path, {line: "refused " + answer for line, answer in rows.items()})

    def test_lines_that_are_bad(self):
        path = self.accepted(["dataset /d u8 3 contiguous"])
        lines = ["write /d 0 1 1 1", "write /d 0 1 1 1 1 1", "write /d 0 1 1 1 ", "write /d 0/1 1 1 1 1", "write /d -1 1 1 1 1", "write /d 0 1 1 1 x",
                 "write /d 0 1 1 1 1,", "write /d 18446744073709551616 1 1 1 1", "write /d 0 1 1 1 170141183460469231731687303715884105728",
                 "resize /d", "resize /d 1/inf", "Write /d 0 1 1 1 1"]
        self.assert_each(path, {line: "bad line" for line in lines})

    def test_an_image_that_would_be_too_long(self):
        # Of the block that is not stored, and of two chunks of 1 GiB.
        image = self.read(self.with_array("/d u8 1 contiguous"))
        for cells in (2147483648 - 1247, 1 << 40):
            path = self.written("none.h5", patched(patched(image, SIZE, slots(cells)), ADDRESS, UNDEFINED))
            self.assert_each(path, {"write /d 5 1 1 1 1": "refused 30 ImageFull", "write /d 0 1 2 1 1,256": "refused 23 ValueRange"})
        path = self.accepted(["dataset /q u8 2147483648/inf chunked:1073741824"], self.new("chunks.h5"))
        self.assert_each(path, {"write /q 0 1073741824 2 1 1,2": "refused 30 ImageFull"})

    def test_storage_that_finds_no_memory(self):
        path = self.accepted(["dataset /q u8 1/inf chunked:1073741824"])
        before = self.stamp(path)
        done = subprocess.run([PROGRAM, "run", path], input=b"write /q 0 1 1 1 1\ndump /q\n", preexec_fn=limited(resource.RLIMIT_AS, 1 << 28),
                              capture_output=True, check=False, timeout=60)
        self.assertEqual((done.returncode, done.stdout, done.stderr),
                         (1, b"refused 31 NoMemory\n/q dataset u8 {1/inf} chunked {1073741824} fill 0\n0\n", b""))
        self.assertEqual(self.stamp(path), before)


class Chunks(Transcripts):
    """Arrays in chunks."""

    def test_edge_chunks(self):
        path = self.accepted([*ALL_EDGES, "repack"])
        image = self.read(path)
        self.assertEqual(len(image), 3924)
        self.assertEqual(image, edges_image())
        self.assertEqual(chunks_of(image), EDGE_CHUNKS)
        self.assertEqual(h5i("dump", path, "/c"), (0, EDGES, b""))

    def test_cells_that_are_cut_off_are_gone(self):
        path = self.accepted([*ALL_EDGES, "resize /c 1,1", "resize /c 5,4"])
        wanted = (0, EDGES.splitlines(keepends=True)[0] + b"1 0 0 0\n" + b"0 0 0 0\n" * 4, b"")
        self.assertEqual(h5i("dump", path, "/c"), wanted)
        self.assertEqual(chunks_of(self.read(path)), {(0, 0): "010000000000"})
        self.accepted(["repack"], path)
        self.assertEqual(h5i("dump", path, "/c"), wanted)
        image = self.read(path)
        self.assertEqual(len(image), 3894)
        self.assertEqual(chunks_of(image), {(0, 0): "010000000000"})

    def test_a_tree_of_65_chunks(self):
        path = self.accepted(["dataset /t u8 65/inf chunked:1", "write /t 0 1 65 1 " + ",".join(map(str, range(65))), "repack"])
        image = self.read(path)
        self.assertEqual(len(image), 7609)
        self.assertEqual(image[-65:], bytes(range(65)))
        self.assert_transcript(path, """
            > resize /t 0
            ok 0
            > dump /t
            /t dataset u8 {0/inf} chunked {1} fill 0
            """)
        # Where the chunks and all nodes but the first were stands nothing.
        self.assertEqual(today.wrong_with(image, self.read(path), b"resize /t 0"), [])
        self.accepted(["repack"], path)
        self.assertEqual(len(self.read(path)), 1256)

    def test_one_cell_after_another(self):
        whole = self.accepted(["dataset /t u8 65/inf chunked:1", "write /t 0 1 65 1 " + ",".join(map(str, range(65))), "repack"])
        single = [f"write /t {k * 7 % 65} 1 1 1 {k * 7 % 65}" for k in range(65)]
        other = self.accepted(["dataset /t u8 65/inf chunked:1", *single, "repack"], self.new("other.h5"))
        self.assertEqual(self.read(other), self.read(whole))

    def test_chunks_that_others_left_outside(self):
        # Of the array's one cell, in a chunk with a second one, and a chunk that is outside altogether.
        path = self.accepted(["dataset /c u8 7/inf chunked:2", "write /c 0 1 2 1 1,7", "write /c 6 1 1 1 9", "repack"])
        image = self.read(path)
        [first, last] = [at for at, _, kind in open_image(image).blocks if kind == "chunk"]
        image = patched(patched(patched(image, first, "0107"), last, "0909"), SIZE, slots(1))
        self.assertEqual(chunks_of(image), {(0,): "0107", (6,): "0909"})
        path = self.written("foreign.h5", image)
        self.assert_transcript(path, """
            > dump /c
            /c dataset u8 {1/inf} chunked {2} fill 0
            1
            > resize /c 8
            ok 0
            > dump /c
            /c dataset u8 {8/inf} chunked {2} fill 0
            1 0 0 0 0 0 0 0
            """)
        # The first holds a cell of the old sizes; what was outside of them is the fill, or stored no more.
        self.assertEqual(today.wrong_with(image, self.read(path), b"resize /c 8"), [])
        self.assertEqual(chunks_of(self.read(path)), {(0,): "0100"})

    def test_chunks_are_stored_where_they_are_met(self):
        path = self.accepted(["dataset /c i16be 9/inf,9 chunked:2,4 fill=-2", "write /c 1,3 3,2 2,2 1,1 1,2,3,4"])
        blank = "fffe" * 8
        wanted = {(0, 0): blank[:28] + "0001", (0, 4): blank[:20] + "0002" + blank[24:],
                  (4, 0): blank[:12] + "0003" + blank[16:], (4, 4): blank[:4] + "0004" + blank[8:]}
        self.assertEqual(chunks_of(self.read(path)), wanted)

    def test_resizes_that_are_refused(self):
        path = self.accepted([*BOTH_ENDS, *ALL_EDGES, "dataset /z u8 - compact", "group /g", "soft t /s"])
        rows = {
            "resize c 1": "1 BadPath", "resize " + "/a" * 65 + " 1": "2 PathTooDeep", "resize /x/y 1": "4 NoSuchParent", "resize /c/y 1": "5 NotAGroup",
            "resize /x 1": "6 NotFound", "resize /g 1": "9 NotADataset", "resize /s 1": "9 NotADataset", "resize /c 5": "13 RankMismatch",
            "resize /d 1,1": "13 RankMismatch", "resize /d 4": "17 NotChunked", "resize /d 3": "17 NotChunked", "resize /z -": "17 NotChunked",
            "resize /c 5,5": "18 AboveMaximum", "resize /c 1099511627777,5": "18 AboveMaximum", "resize /c 1099511627776,4": "21 TooManyCells",
            "resize /c 1099511627777,0": "21 TooManyCells",
        }
        self.assert_each(path, {line: "refused " + answer for line, answer in rows.items()})


class Selections(Transcripts):
    """Writes of selections of several forms."""

    def test_nothing_is_selected(self):
        lines = ["dataset /z u8 0 contiguous", "dataset /d i32le 3 contiguous fill=5", "dataset /c u8 5/inf,4 chunked:2,3", "dataset /o u8 2 compact"]
        path = self.accepted(lines)
        before = self.read(path)
        nothing = ["write /z 0 1 0 1 -", "write /z 9 3 2 0 -", "write /d 9 1 0 1 -", "write /d 18446744073709551615 1 0 18446744073709551615 -",
                   "write /c 0,0 1,1 5,0 1,1 -", "write /c 7,7 1,1 1,1 0,1 -", "write /o 2 1 0 0 -"]
        self.accepted(nothing, path)
        self.assertEqual(self.read(path), before)

    def test_a_block_that_is_not_stored(self):
        image = self.read(self.accepted([*BOTH_ENDS, "repack"]))
        path = self.written("none.h5", patched(image, ADDRESS, UNDEFINED))
        self.assert_transcript(path, """
            > dump /d
            /d dataset i32le {3} contiguous fill 0
            0 0 0
            > write /d 1 1 0 1 -
            ok 0
            """)
        self.assertEqual(self.read(path), patched(image, ADDRESS, UNDEFINED))
        self.assert_transcript(path, """
            > write /d 1 1 1 1 5
            ok 0
            > dump /d
            /d dataset i32le {3} contiguous fill 0
            0 5 0
            """)
        # The block stands at the end. Written without gaps, it stands where it stood before.
        wanted = patched(patched(image, ADDRESS, slots(1260)), 40, slots(1272)) + bytes.fromhex("000000000500000000000000")
        self.assertEqual(self.read(path), wanted)
        self.accepted(["repack"], path)
        self.assertEqual(self.read(path), image[:-12] + bytes.fromhex("000000000500000000000000"))

    def test_strides_and_blocks(self):
        head = "/a dataset u8 {5, 7} %s fill 0\n"
        rows = b"0 1 2 0 0 3 4\n0 5 6 0 0 7 8\n0 0 0 0 0 0 0\n0 9 10 0 0 11 12\n0 13 14 0 0 15 16\n"
        for store, text in (("compact", "compact"), ("contiguous", "contiguous"), ("chunked:2,3", "chunked {2, 3}"), ("chunked:5,7", "chunked {5, 7}")):
            path = self.accepted([f"dataset /a u8 5,7 {store}", "write /a 0,1 3,4 2,2 2,2 " + ",".join(map(str, range(1, 17)))])
            with self.subTest(store=store):
                self.assertEqual(h5i("dump", path, "/a"), (0, (head % text).encode() + rows, b""))

    def test_only_the_cells_change(self):
        path = self.accepted([*BOTH_ENDS, *ALL_EDGES, "group /g", "dataset /o u16be 2,2 compact"])
        image = self.read(path)
        chunk = next(at for at, _, kind in open_image(image).blocks if image[at:at + 6].hex() == EDGE_CHUNKS[4, 3] and kind == "chunk")
        data = next(at for at, _, kind in open_image(image).blocks if kind == "data")
        self.accepted(["write /c 4,3 1,1 1,1 1,1 99", "write /d 1 1 1 1 16909060"], path)
        self.assertEqual(self.read(path), patched(patched(image, chunk, "63"), data + 4, "04030201"))
        # The cells of a compact array stand in its header, behind the size of its layout's data.
        compact = image.index(bytes.fromhex("03000800" + "00" * 8)) + 4
        image = self.read(path)
        self.accepted(["write /o 1,0 1,1 1,2 1,1 258,772"], path)
        self.assertEqual(self.read(path), patched(image, compact + 4, "01020304"))


class Lists(Transcripts):
    """Scripts of many lines, and lines of all kinds."""

    def test_nine_names(self):
        path = self.accepted(BOTH_ENDS)
        lines = ["/ group"] + [f"/{name} dataset i32le {{3}}" for name in "defghijkl"]
        script = "".join(f"link /d /{name}\n" for name in "efghijkl") + "ls\nrepack\n"
        self.assertEqual(h5i("run", path, script=script.encode()), (0, b"ok 0\n" * 8 + today.printed(lines) + b"ok 0\n", b""))
        image = self.read(path)
        self.assertEqual(len(image), 1580)
        reading = open_image(image)
        self.assertEqual(reading.tree.counts[1], 9)
        self.assertEqual(sum(kind == "symbol node" for _, _, kind in reading.blocks), 2)
        self.accepted(["write /l 0 1 1 1 4"], path)
        self.assertEqual(h5i("dump", path, "/e"), (0, b"/e dataset i32le {3} contiguous fill 0\n4 -1 2147483647\n", b""))

    def test_soft_links(self):
        self.assert_transcript(self.new(), """
            > soft /nowhere /s
            ok 0
            > ls
            / group
            /s soft /nowhere
            > group /s/x
            refused 5 NotAGroup
            > group /g
            ok 0
            > link /g /h
            refused 10 GroupLink
            > unattr /s a
            refused 6 NotFound
            > unlink /s
            ok 0
            """)

    def test_each_kind_of_refusal(self):
        path = self.accepted([*BOTH_ENDS, *ALL_EDGES])
        rows = {
            "group d": "1 BadPath", "group /": "3 IsRoot", "group /x/y": "4 NoSuchParent", "unlink /x": "6 NotFound",
            "dataset /d u8 1 compact": "7 AlreadyThere", "write / 0 1 1 1 1": "9 NotADataset", "dataset /q u8 4 chunked:0": "12 BadSpec",
            "dataset /q u8 1/18446744073709551615 chunked:1": "12 BadSpec", "attr /c n u8 0,1099511627777 -": "21 TooManyCells",
            "resize /c 5": "13 RankMismatch", "write /c 4,4 1,1 1,1 1,1 9": "16 OutOfExtent", "resize /d 4": "17 NotChunked",
            "resize /c 5,5": "18 AboveMaximum", "dataset /q u8 1/inf chunked:1073741825": "19 ChunkTooLarge",
            "dataset /q u8 65525 compact": "20 CompactTooLarge", "dataset /q u8 1099511627777 chunked:1": "21 TooManyCells",
            "write /c 0,0 1,1 1,1 1,1 1,2": "22 ValueCount", "group " + "/a" * 65: "2 PathTooDeep", "group /" + "n" * 1024: "8 NameTooLong",
            "attr /d big u8 65481 " + ",".join(["1"] * 65481): "24 AttributeTooLarge", "unattr /d big": "25 NoSuchAttribute",
        }
        self.assert_each(path, {line: "refused " + answer for line, answer in rows.items()} | {"grop /x": "bad line"})
        self.accepted(["dataset /q u8 65524 compact", "group /" + "n" * 1023, "attr /d big u8 65480 " + ",".join(["1"] * 65480), "group /g", "group /g/h"], path)
        # A group with a link is unlinked with it.
        self.accepted(["unlink /g"], path)
        self.assert_each(path, {"dump /g": "refused 6 NotFound", "unlink /g/h": "refused 4 NoSuchParent"})
