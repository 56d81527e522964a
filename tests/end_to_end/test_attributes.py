"""Attributes set, replaced, removed and printed, by scripts and between programs."""

import json
import os
import random
import resource
import subprocess

from . import today
from .drawn_images import superblock
from .support import PROGRAM, InFolder, empty_image, h5i, library, patched, reference, run_command

# pylint: disable=wrong-import-order
from h5oracle.foreign import write_foreign  # noqa: E402
from h5oracle.model import Attr, Dataset, Flat, Tree  # noqa: E402
from h5oracle.plain import attribute_body, le, message, write_plain  # noqa: E402
from h5oracle.reader import Superblock, open_image  # noqa: E402
from h5oracle.values import TYPES  # noqa: E402

ARRAY = b"dataset /d i32le 3 contiguous fill=-7\n"
NOTE = b"attr / note u8 2 1,2\n"

# The attributes of the root and of its arrays, each with its name in hexadecimal, type, sizes and values.
READ = """
import json, sys, h5py, numpy
def told(thing):
    names = []
    h5py.h5a.iterate(thing.id, lambda name, *_: names.append(name))
    made = []
    for name in sorted(names):
        attribute = h5py.h5a.open(thing.id, name)
        values = numpy.zeros(attribute.shape, dtype=attribute.dtype)
        if values.size:
            attribute.read(values)
        made.append([name.hex(), attribute.dtype.str, list(attribute.shape), [int(v) for v in values.ravel()]])
    return made
for path in sys.argv[1:]:
    with h5py.File(path, "r") as file:
        print(json.dumps([told(file), {name: told(file[name]) for name in file}]))
"""

ADD = """
import sys, h5py, numpy
with h5py.File(sys.argv[1], "r+", libver=("earliest", "v108")) as file:
    file.attrs.create("added", numpy.array([[1, -2], [3, -4]], dtype=">i2"))
    if "d" in file:
        file["d"].attrs.create("more", 70000, dtype="<u4")
        file["d"][1] = 5
"""

# A file as the library writes it by default, with a comment or times, and so many attributes that a header has continuations.
WRITE = """
import sys, h5py, numpy
path, many = sys.argv[1], int(sys.argv[2])
with h5py.File(path, "w", libver=("earliest", "v108")) as file:
    array = file.create_dataset("line", data=numpy.arange(5, dtype="<i8"), track_times=True)
    h5py.h5o.set_comment(array.id, b"kept as it stands")
    h5py.h5o.set_comment(file.id, b"of the root")
    for k in range(many):
        array.attrs.create("a%03d" % k, numpy.arange(k % 5, dtype=">u2"))
        file.attrs.create("r%03d" % k, k, dtype="i1")
"""

TIME = """
import sys, h5py
with h5py.File(sys.argv[1], "r") as file:
    print(h5py.h5g.get_objinfo(file["line"].id).mtime)
"""


def lines_of(*rows):
    """A script."""
    return b"".join(row + b"\n" for row in rows)


class AsTheReference(InFolder):
    """Scripts that the program and the reference answer alike, with images that are the same tree."""

    def assert_run(self, path, script):
        """The answers are the reference's, and so is the tree; the image has the plain layout behind a `repack`."""
        before = self.read(path)
        session = today.session_of(before)
        wanted, edited = today.answers(session, script)
        self.assertEqual(h5i("run", path, script=script), (today.status_of(wanted), wanted, b""))
        after = self.read(path)
        if edited:
            self.assertIsNone(today.unlike(after, before, script))
        else:
            self.assertEqual(after, before)
        return wanted


class Answers(AsTheReference):
    """Lines of scripts."""

    def assert_rows(self, path, rows):
        """Each line alone is answered so, by the program and by the reference."""
        for line, wanted in rows.items():
            with self.subTest(line=line[:80]):
                self.assertEqual(self.assert_run(path, line + b"\n"), wanted + b"\n")

    def test_one_attribute(self):
        path = self.new()
        self.assertEqual(self.assert_run(path, NOTE), b"ok 0\n")
        self.assertEqual(len(self.read(path)), 888)
        text = b"/ group\n@note u8 {2} 1 2\n"
        self.assertEqual(h5i("dump", path, "/"), (0, text, b""))
        self.assertEqual(h5i("run", path, script=b"dump /\n"), (0, text, b""))
        self.assertEqual(h5i("ls", path), (0, b"/ group\n", b""))

    def test_replaced_and_removed(self):
        path = self.new()
        self.assert_rows(path, {
            NOTE.strip(): b"ok 0",
            b"attr / note i16be 2,1 -1,2": b"ok 0",
            b"dump /": b"/ group\n@note i16be {2, 1} -1 2",
            b"attr / also u8 - 7": b"ok 0",
            b"attr / none u64le 0 -": b"ok 0",
            b"dump / ": b"bad line",
            b"unattr / notes": b"refused 25 NoSuchAttribute",
            b"unattr / note": b"ok 0",
            b"unattr / note ": b"bad line",
            b"unattr / Note": b"refused 25 NoSuchAttribute",
        })
        self.assertEqual(self.assert_run(path, b"unattr / note\ndump /\n"),
                         b"refused 25 NoSuchAttribute\n/ group\n@also u8 {} 7\n@none u64le {0}\n")
        self.assert_run(path, b"unattr / also\nunattr / none\nrepack\n")
        self.assertEqual(self.read(path), empty_image())

    def test_refusals(self):
        path = self.new()
        rows = {
            b"attr / big u8 65480 " + b",".join([b"7"] * 65480): b"ok 0",
            b"attr / big u8 65481 " + b",".join([b"7"] * 65481): b"refused 24 AttributeTooLarge",
            b"attr / seventy u8 70000 -": b"refused 22 ValueCount",
            b"attr / n u8 2 1": b"refused 22 ValueCount",
            b"attr / n u8 2 1,2,3": b"refused 22 ValueCount",
            b"attr / n u8 - -": b"refused 22 ValueCount",
            b"attr / n u8 0 1": b"refused 22 ValueCount",
            b"attr / n u8 2 1,256": b"refused 23 ValueRange",
            b"attr / n i64be 1 9223372036854775808": b"refused 23 ValueRange",
            b"attr / n i64be 1 -9223372036854775809": b"refused 23 ValueRange",
            b"attr / n u64be 1 -1": b"refused 23 ValueRange",
            b"attr / n u64be 1 18446744073709551615": b"ok 0",
            b"attr / \\x00 u8 - 1": b"refused 12 BadSpec",
            b"attr / a\\x00b u8 - 1": b"refused 12 BadSpec",
            b"attr / n u8 " + b",".join([b"1"] * 33) + b" 1": b"refused 12 BadSpec",
            b"attr / n u8 " + b",".join([b"1"] * 32) + b" 1": b"ok 0",
            b"attr / n u8 1099511627777 -": b"refused 21 TooManyCells",
            b"attr / n u8 1099511627777,0 -": b"refused 21 TooManyCells",
            b"attr / n u8 1099511627776 -": b"refused 22 ValueCount",
            b"attr / n u8 1099511627776,0 -": b"ok 0",
            b"attr / " + b"n" * 1023 + b" u8 - 1": b"ok 0",
            b"attr / " + b"n" * 1024 + b" u8 - 1": b"refused 8 NameTooLong",
            b"attr d n u8 - 1": b"refused 1 BadPath",
            b"attr " + b"/a" * 65 + b" n u8 - 1": b"refused 2 PathTooDeep",
            b"attr /x/d n u8 - 1": b"refused 4 NoSuchParent",
            b"attr /d n u8 - 1": b"refused 6 NotFound",
            b"unattr d n": b"refused 1 BadPath",
            b"unattr /d n": b"refused 6 NotFound",
            b"unattr / \\x00": b"refused 25 NoSuchAttribute",
            b"attr / n u8 1/1 1": b"bad line",
            b"attr / n u9 1 1": b"bad line",
            b"attr / n u8 1": b"bad line",
            b"attr / n u8 1 1 1": b"bad line",
            b"attr / n\\x2 u8 1 1": b"bad line",
            b"attr / n u8 18446744073709551616 1": b"bad line",
            b"attr / n u8 1 170141183460469231731687303715884105728": b"bad line",
            b"attr / n u8 1 170141183460469231731687303715884105727": b"refused 23 ValueRange",
            b"unattr /": b"bad line",
        }
        self.assert_rows(path, rows)
        self.assertEqual(h5i("dump", path, "/")[1], reference("dump", path, "/")[1])

    def test_of_two_refusals_the_lower_number(self):
        path = self.new()
        self.assert_rows(path, {
            b"attr /d \\x00 u8 - 1": b"refused 6 NotFound",
            b"attr / " + b"n" * 1023 + b"\\x00 u8 - 1": b"refused 8 NameTooLong",
            b"attr / \\x00 u8 1099511627777 -": b"refused 12 BadSpec",
            b"attr / n u8 3 256": b"refused 22 ValueCount",
            b"attr / n u8 65481 " + b",".join([b"256"] * 65481): b"refused 23 ValueRange",
        })

    def test_attributes_of_an_array(self):
        path = self.with_array()
        self.assert_rows(path, {
            b"attr /d unit i8 - -3": b"ok 0",
            b"attr / unit i8 - 4": b"ok 0",
            b"attr /d/e unit i8 - 4": b"refused 5 NotAGroup",
            b"attr /d scale u32be 2,2 1,2,3,4294967295": b"ok 0",
            b"dump /d": b"/d dataset i32le {3} contiguous fill -7\n@scale u32be {2, 2} 1 2 3 4294967295\n@unit i8 {} -3\n-7 -7 -7",
            b"dump /": b"/ group\n@unit i8 {} 4",
            b"ls": b"/ group\n/d dataset i32le {3}",
            b"dataset /e u8 1 compact": b"ok 0",
            b"unattr /d unit": b"ok 0",
            b"unattr /d unit ": b"bad line",
        })

    def test_an_array_beside_attributes(self):
        path = self.new()
        self.assert_run(path, NOTE)
        self.assertEqual(self.assert_run(path, ARRAY + b"dump /\nls\n"),
                         b"ok 0\n/ group\n@note u8 {2} 1 2\n/ group\n/d dataset i32le {3}\n")
        self.assert_run(path, b"unattr / note\nrepack\n")
        self.assertEqual(self.read(path), self.read(self.with_array(name="other.h5")))

    def test_escapes_and_order(self):
        path = self.new()
        names = [b"b", b"a", b"\\xff", b"\\x01", b"sp\\x20ace", b"back\\x5cslash", b"\\x61\\x62", b"..", b"/", b"A", b"#", b"\\x2f\\x2f"]
        script = lines_of(*(b"attr / " + name + b" u8 - 1" for name in names))
        self.assertEqual(self.assert_run(path, script), b"ok 0\n" * len(names))
        printed = [b"\\x01", b"#", b"..", b"/", b"//", b"A", b"a", b"ab", b"b", b"back\\x5cslash", b"sp\\x20ace", b"\\xff"]
        text = b"/ group\n" + lines_of(*(b"@" + name + b" u8 {} 1" for name in printed))
        self.assertEqual(h5i("dump", path, "/"), (0, text, b""))
        self.assertEqual(self.assert_run(path, b"unattr / \\x62\ndump /\n"), b"ok 0\n" + text.replace(b"@b u8 {} 1\n", b""))

    def test_all_types(self):
        path = self.with_array()
        lines = []
        for name, fixed in TYPES.items():
            bits = 8 * fixed.size
            low = -(1 << bits - 1) if fixed.signed else 0
            for where in ("/", "/d"):
                lines.append(f"attr {where} {name} {name} 3 {low},{low + (1 << bits) - 1},1".encode())
        self.assert_run(path, lines_of(*lines, b"dump /", b"dump /d"))
        self.assertEqual(reference("check", path)[:2], (0, b"ok\n"))

    def test_a_refused_edit_leaves_the_file(self):
        path = self.with_array()
        before = self.stamp(path)
        self.assertEqual(h5i("run", path, script=b"unattr / a\nattr / n u8 1 256\nattr / n u8 1\n")[0], 1)
        self.assertEqual(self.stamp(path), before)

    def test_many_attributes(self):
        path = self.new()
        lines = [b"attr / n%04d u16le 2 %d,%d" % (k * 7919 % 500, k, k + 1) for k in range(500)]
        self.assert_run(path, lines_of(*lines))
        self.assertEqual(self.assert_run(path, b"dump /\n").count(b"\n"), 501)


def with_messages(image, messages):
    """The empty file with these messages behind those of the root's header, the blocks behind it moved along."""
    length = sum(len(each) for each in messages)
    data = bytearray(image[:136] + b"".join(messages) + image[136:])
    for at in (40, 80, 88, 120, 128, 136 + length + 544 + 24):
        data[at:at + 8] = le(int.from_bytes(data[at:at + 8], "little") + length, 8)
    data[98:100] = le(1 + len(messages), 2)
    data[104:108] = le(24 + length, 4)
    return bytes(data)


class Foreign(AsTheReference):
    """Files that others wrote, edited."""

    def test_full_headers(self):
        for nils, answer in ((65531, b"ok 0\n"), (65532, b"ok 0\n"), (65533, b"refused 28 HeaderFull\n"),
                             (65534, b"refused 28 HeaderFull\n")):
            with self.subTest(nils=nils):
                path = self.written("full.h5", with_messages(empty_image(), [message(0, b"")] * nils))
                self.assertEqual(h5i("ls", path), (0, b"/ group\n", b""))
                self.assertEqual(self.assert_run(path, NOTE), answer)

    def test_a_full_header_keeps_its_comments(self):
        path = self.written("full.h5", with_messages(empty_image(), [message(0x0D, b"")] * 65532))
        full = b"refused 28 HeaderFull\n"
        for line, answer in ((NOTE, b"ok 0\n"), (b"attr / b u8 - 1\n", full), (b"attr / note u8 - 1\n", full),
                             (b"unattr / note\n", b"ok 0\n"), (b"attr / b u8 - 1\n", full)):
            self.assertEqual(self.assert_run(path, line), answer)

    def test_a_replaced_attribute_wants_room_too(self):
        note = message(0x0C, attribute_body(Attr(b"note", TYPES["u8"], (), (1,))))
        path = self.written("full.h5", with_messages(empty_image(), [note] + [message(0, b"")] * 65532))
        self.assertEqual(self.assert_run(path, b"attr / note u8 - 2\ndump /\nunattr / notes\nunattr / note\n" + NOTE),
                         b"refused 28 HeaderFull\n/ group\n@note u8 {} 1\nrefused 25 NoSuchAttribute\nok 0\nrefused 28 HeaderFull\n")

    def test_other_k_values_stay(self):
        tree = Tree.root_alone()
        path = self.written("k.h5", write_plain(tree, Superblock(0, 3, 5, 32, 0, 0)))
        self.assert_run(path, NOTE)
        self.assertEqual(self.read(path)[16:20], bytes.fromhex("03000500"))
        self.assert_run(path, ARRAY + b"attr /d a u8 - 1\nunattr / note\n")
        self.assertEqual(self.read(path)[16:20], bytes.fromhex("03000500"))
        self.assertEqual(h5i("dump", path, "/d"), (0, b"/d dataset i32le {3} contiguous fill -7\n@a u8 {} 1\n-7 -7 -7\n", b""))

    def test_odd_layouts(self):
        for seed in range(60):
            rng = random.Random(seed)
            tree = Tree.root_alone()
            made = Dataset(TYPES["i16be"], (4,), (rng.choice([4, 6, None]),), "contiguous", None, -2)
            made.has_maxima = True
            if seed % 3:
                made.flat = Flat(4, TYPES["i16be"], -2, bytes(range(8)))
            tree.objects[1], tree.counts[1] = made, 1
            tree.objects[0].links[b"far"] = ("object", 1)
            for thing in tree.objects.values():
                for name in rng.sample([b"x", b"y", b"z" * 9], rng.randrange(4)):
                    thing.attrs[name] = Attr(name, TYPES["u32be"], (2,), (1, rng.getrandbits(32)))
                thing.kept += [(rng.choice([0x0D, 0x0E, 0x12]), rng.randbytes(8 * rng.randrange(4))) for _ in range(rng.randrange(3))]
            image = write_foreign(tree, rng, superblock(rng, rng.randint(1, 9), rng.randint(1, 9)), wild=0.7)
            with self.subTest(seed=seed):
                path = self.written("odd.h5", image)
                self.assert_run(path, b"attr / y i8 1 -1\ndump /\nunattr /far x\nattr /far new u8 0 -\ndump /far\nunattr / y\n")
                kept = [thing.kept for thing in open_image(self.read(path)).tree.objects.values()]
                self.assertEqual(kept, [thing.kept for thing in tree.objects.values()])

    def test_a_full_image(self):
        cells = 2147483648 - 1248
        image = self.read(self.with_array("/d u8 1 contiguous", "one.h5"))
        for at, number in ((40, 2147483648), (1128 + 32, cells), (1128 + 106, cells)):
            image = patched(image, at, le(number, 8).hex())
        path = self.written("full.h5", image)
        os.truncate(path, 2147483648)
        self.assertEqual(h5i("run", path, script=NOTE + b"attr /d n u8 - 1\nunattr / n\nls\n"),
                         (1, b"refused 30 ImageFull\nrefused 30 ImageFull\nrefused 25 NoSuchAttribute\n"
                          b"/ group\n/d dataset u8 {2147482400}\n", b""))

    def test_an_edit_in_place_that_finds_no_memory_for_another_image(self):
        path = self.with_array("/d u8 67108864 contiguous")
        limit = 150 << 20

        def limited():
            resource.setrlimit(resource.RLIMIT_AS, (limit, limit))

        done = subprocess.run([PROGRAM, "run", path], input=b"group /g\ndump /\n", preexec_fn=limited, capture_output=True, check=False)
        self.assertEqual((done.returncode, done.stdout, done.stderr), (0, b"ok 0\n/ group\n", b""))
        self.assertEqual(reference("check", path)[:2], (0, b"ok\n"))

    def test_bytes_past_the_end_of_file_are_dropped(self):
        path = self.written("long.h5", empty_image() + b"more")
        self.assert_run(path, NOTE)
        self.assertEqual(len(self.read(path)), 888)

    def test_passed_over_bytes_are_written_as_zero(self):
        path = self.written("flags.h5", patched(empty_image(), 20, "ffffffff"))
        self.assert_run(path, NOTE)
        self.assertEqual(self.read(path)[20:24], b"\xff" * 4)
        self.assert_run(path, b"repack\n")
        self.assertEqual(self.read(path)[20:24], bytes(4))


class Library(AsTheReference):
    """Files that go to the usual library and come back."""

    def told(self, path):
        """The attributes of the root and of each array, as the library reads them."""
        status, output, errors = library(READ, path)
        self.assertEqual((status, errors), (0, b""))
        return json.loads(output)

    def assert_same_attributes(self, path):
        """The library reads the attributes that the reference reads."""
        def shown(thing):
            return [[name.hex(), ("|" if a.fixed.size == 1 else ">" if a.fixed.big else "<") + ("i" if a.fixed.signed else "u") + str(a.fixed.size),
                     list(a.dims), list(a.values)] for name, a in sorted(thing.attrs.items())]
        tree = open_image(self.read(path)).tree
        arrays = {name.decode(): shown(tree.objects[number]) for name, (_, number) in tree.objects[0].links.items()}
        self.assertEqual(self.told(path), [shown(tree.objects[0]), arrays])

    def test_the_library_reads_what_was_written(self):
        lines = [NOTE, ARRAY]
        for k, (name, fixed) in enumerate(TYPES.items()):
            low, high = (-(1 << 8 * fixed.size - 1) if fixed.signed else 0), (1 << 8 * fixed.size - fixed.signed) - 1
            where = b"/d" if k % 2 else b"/"
            lines.append(b"attr %s %s %s 2,2 %d,%d,0,1\n" % (where, b"n" * (k + 1), name.encode(), low, high))
            lines.append(b"attr %s s%d %s - %d\n" % (where, k, name.encode(), low))
        path = self.new()
        self.assert_run(path, b"".join(lines))
        self.assert_same_attributes(path)
        text = h5i("dump", path, "/")[1]
        self.assertEqual(text.count(b"\n"), 1 + 15)

    def test_the_library_edits_what_was_written(self):
        for start in (NOTE, NOTE + ARRAY + b"attr /d unit u8 - 3\n"):
            path = self.path("shared.h5")
            self.assertEqual(h5i("new", path), (0, b"", b""))
            self.assert_run(path, start)
            self.assertEqual(library(ADD, path), (0, b"", b""))
            reading, refusal = today.opened(self.read(path))
            self.assertIsNone(refusal)
            text = b"/ group\n@added i16be {2, 2} 1 -2 3 -4\n@note u8 {2} 1 2\n"
            self.assertEqual(h5i("dump", path, "/"), (0, text, b""))
            if b"d" in reading.tree.objects[0].links:
                text = b"/d dataset i32le {3} contiguous fill -7\n@more u32le {} 70000\n@unit u8 {} 3\n-7 5 -7\n"
                self.assertEqual(h5i("dump", path, "/d"), (0, text, b""))
            self.assert_run(path, b"attr / added u8 - 1\nunattr / note\n")
            self.assert_same_attributes(path)

    def kept(self, path):
        """The time that the library reads of the array, after a look at the comments."""
        status, output, errors = run_command("h5dump", "-A", path)
        self.assertEqual((status, errors), (0, b""))
        self.assertEqual([line.strip() for line in output.splitlines() if b"COMMENT" in line],
                         [b'COMMENT "of the root"', b'COMMENT "kept as it stands"'])
        status, output, errors = library(TIME, path)
        self.assertEqual((status, errors), (0, b""))
        self.assertGreater(int(output), 0)
        return output

    def test_files_of_the_library_keep_comments_and_times(self):
        for many in (0, 3, 40):
            with self.subTest(many=many):
                path = self.path(f"{many}.h5")
                self.assertEqual(library(WRITE, path, str(many)), (0, b"", b""))
                self.assertIsNone(today.opened(self.read(path))[1])
                self.assert_same_attributes(path)
                before = self.kept(path)
                script = b"attr / a u8 2 1,2\nattr /line b i32be 1 -5\ndump /\ndump /line\n" + (b"unattr / r002\n" if many else b"")
                answered = self.assert_run(path, script)
                self.assertNotIn(b"refused", answered)
                self.assertEqual(self.kept(path), before)
                self.assert_same_attributes(path)

    def test_files_of_the_corpus(self):
        folder = os.path.join(os.path.dirname(os.path.dirname(os.path.abspath(__file__))), "data")
        for name, where in (("attribute_names", "/"), ("attributes_deleted", "/d"), ("empty", "/")):
            with self.subTest(name=name):
                path = self.written(name, self.read(os.path.join(folder, name + ".h5")))
                self.assert_run(path, f"attr {where} another i8 3 -1,0,1\ndump {where}\n".encode())
                self.assert_same_attributes(path)
