"""Fill values of version 3, and attributes of versions 2 and 3: read, left as they stand by edits in place, and repacked. The body of such an
attribute is copied; a fill value is written in version 2.
"""

import os

from . import today
from .drawn_images import CHUNK_KS
from .support import TOP, InFolder, empty_image, empty_image_1, end_field, h5i, library, patched, reference
from .test_attributes import with_messages
from .test_foreign_headers import header, message, number
from .test_links_in_place import Judged
from .test_repack import EDIT

DATA = os.path.join(TOP, "tests", "data")
ATTRIBUTE, FILL = 12, 5
# Of one byte: a datatype, and a dataspace of one size.
BYTE, ONE = "100000000100000000000800", "01010000000000000100000000000000"
# An attribute n of one byte 5, in version 3 and in version 2.
IN_3 = "030002000c00100000" + "6e00" + BYTE + ONE + "05"
IN_2 = "020002000c001000" + "6e00" + BYTE + ONE + "05" + "00"
# More bytes for the name than it has, of which the usual library reads none.
LONGER = "030005000c00100001" + "6e00780079" + BYTE + ONE + "05" + "00" * 5
SHOWN = b"@n u8 {1} 5\n"
FILL_FORM, ATTRIBUTE_FORM = "20 FillForm at 1128", "22 AttributeForm at 96"

# Copies an array of one file into another.
COPY = """
import sys, h5py
with h5py.File(sys.argv[1], "r+", libver=("earliest", "v108")) as file, h5py.File(sys.argv[2], "r") as source:
    file.copy(source["d"], "copied")
"""

# The body of the fill value of an array of three bytes, which has 16 bytes: the value that cells that are not stored read.
FILLS = {
    "032a010000000700": 7,
    "031a000000000000": 0,
    # Not defined by a value: what follows is not looked at.
    "031a02ffffffffff": 0,
    "0300000000000000": 0,
    "030f": 0,
    # Bits 6 and 7 are not looked at.
    "03ea010000000700": 7,
    "0360010000000700": 7,
    "03c0010000000700": 0,
    # Allocation and writing at any time.
    "0320010000000700": 7,
    "032f01000000ff00": 255,
    # Defined, of no bytes.
    "032a000000000700": 0,
    # Version 2, as before.
    "020102010100000007": 7,
    "020102000100000007": 0,
}
REFUSED_FILLS = ["033a010000000700", "0330", "03f0010000000700", "032a020000000700", "032affffffff0700", "0320000000010700", "042a010000000700",
                 "012a010000000700", "002a010000000700"]

# Bodies of attributes that are read as n, and what is shown of it.
BODIES = {
    IN_3: SHOWN,
    IN_2: SHOWN,
    # Any character set.
    IN_3.replace("10000001", "10000101", 1).replace("0c0010000101", "0c00100001", 1): SHOWN,
    # More bytes than are needed.
    IN_3 + "aa" * 8: SHOWN,
    IN_2[:-2] + "ff" * 9: SHOWN,
    # A name whose first zero ends it; and maxima, which are not shown.
    LONGER: SHOWN,
    "020002000c001800" + "6e00" + BYTE + "0101010000000000" + "0100000000000000" + "ff" * 8 + "05" + "00": SHOWN,
    # A scalar, no values, and others of two bytes with a datatype that takes more than its length.
    "030002000c00080000" + "6e00" + BYTE + "0100000000000000" + "05": b"@n u8 {} 5\n",
    "020002000c001000" + "6e00" + BYTE + "0101000000000000" + "00" * 8 + "0000": b"@n u8 {0}\n",
    "0300020010001000ff" + "6e00" + "100900000200000000001000" + "00000000" + "01010000000000000200000000000000" + "fffe0001" + "00": b"@n i16be {2} -2 1\n",
}
REFUSED_BODIES = [
    # Flags: a datatype or a dataspace that is shared; others.
    "0301" + IN_3[4:], "0302" + IN_3[4:], "0380" + IN_3[4:], "0201" + IN_2[4:], "0202" + IN_2[4:], "02ff" + IN_2[4:],
    # Another version.
    "04" + IN_3[2:], "00" + IN_3[2:],
    # Each of them in the other's form, and the form of version 1, whose parts are padded.
    "02" + IN_3[2:], "03" + IN_2[2:], "010002000c001000" + "6e00" + BYTE + ONE + "0500",
    "020002000c001000" + "6e00" + "00" * 6 + BYTE + "00" * 4 + ONE + "05" + "00" * 7,
    # A name of no bytes, or without its zero; and one that begins with a zero.
    "030000000c00100000" + BYTE + ONE + "050000", "030001000c00100000" + "6e" + BYTE + ONE + "0500", "030002000c00100000" + "0000" + BYTE + ONE + "05",
    # Fewer bytes than the values need, and than the lengths say.
    IN_3.replace(ONE, "01010000000000000200000000000000"), "0300ffff0c00100000" + "6e00" + BYTE + ONE + "05",
    "030002000b00100000" + "6e00" + BYTE + ONE + "05", "030002000c00080000" + "6e00" + BYTE + ONE + "05", "030002000c000700",
    "0300020000000000",
    # A floating-point number of four bytes.
    "030002001400080000" + "6e00" + "112020001f00000004000000000020001708000817f00000"[:40] + "0100000000000000" + "0000803f" + "000000",
]
# Sizes whose product, those of 0 left out, is above the limit; the values are none.
TOO_MANY = "030002000c00180000" + "6e00" + BYTE + "0102000000000000" + number((1 << 40) + 1).hex() + number(0).hex() + "00"


def padded(digits):
    """A body as it stands in its message."""
    body = bytes.fromhex(digits)
    return body + bytes(-len(body) % 8)


def with_attributes(*bodies):
    """The empty file whose root has attributes with these bodies."""
    return with_messages(empty_image(), [message(ATTRIBUTE, padded(body).hex()) for body in bodies])


def refused(refusal):
    """What the program says of a file that is refused so."""
    return 3, b"", f"h5i: refused {refusal}\n".encode()


class Fills(Judged):
    """An array of three bytes at /d, which are not stored."""

    def setUp(self):
        super().setUp()
        # Header at 1128: fill value of 16 bytes at 1200, address of the data at 1226, data of 3 bytes at 1248.
        self.plain = self.read(self.with_array("/d u8 3 contiguous"))
        self.assertEqual((len(self.plain), self.plain[1192:1204].hex()), (1251, "050010000000000002010201"))

    def image(self, digits):
        """The image with this body of the fill value. The data are not stored, and their block is no one's."""
        return patched(patched(self.plain, 1200, digits.ljust(32, "0")), 1226, "ff" * 8)

    def test_cells_that_are_not_stored(self):
        for digits, fill in FILLS.items():
            with self.subTest(digits=digits):
                path = self.written("d.h5", self.image(digits))
                text = b"/d dataset u8 {3} contiguous fill %d\n%d %d %d\n" % (fill, fill, fill, fill)
                self.assertEqual(h5i("dump", path, "/d"), (0, text, b""))
                self.assertEqual(reference("dump", path, "/d"), (0, text, b""))

    def test_repacked(self):
        """The fill value is then of version 2."""
        for digits, fill in FILLS.items():
            with self.subTest(digits=digits):
                path = self.written("d.h5", self.image(digits))
                self.assertEqual(h5i("run", path, script=b"repack\n"), (0, b"ok 0\n", b""))
                after = self.read(path)
                self.assertEqual((len(after), after[1200:1216].hex()), (1248, f"0201020101000000{fill:02x}".ljust(32, "0")))
                self.assertIsNone(today.unlike(after, self.image(digits), b"repack\n"))

    def test_edits_leave_the_message(self):
        for digits in ("032a010000000700", "031a000000000000", "03ea01000000070099", "030a"):
            with self.subTest(digits=digits):
                image = self.image(digits)
                lines = ["attr /d a u8 2 1,2", "write /d 1 1 1 1 9", "link /d /e", "unattr /d a", "write /e 0 1 3 1 1,2,3", "group /g", "unlink /d"]
                after = self.assert_in_place(image, lines)
                self.assertEqual(after[1192:1216], image[1192:1216])

    def test_storage_is_the_fill(self):
        path = self.written("d.h5", self.image("032a010000000700"))
        self.assertEqual(h5i("run", path, script=b"write /d 1 1 1 1 9\ndump /d\n"), (0, b"ok 0\n/d dataset u8 {3} contiguous fill 7\n7 9 7\n", b""))

    def test_refused(self):
        for digits in REFUSED_FILLS:
            with self.subTest(digits=digits):
                image = self.image(digits)
                self.assertEqual(today.opened(image)[1], FILL_FORM)
                self.assertEqual(h5i("ls", self.written("d.h5", image)), refused(FILL_FORM))

    def test_a_body_that_ends_too_soon(self):
        # Of a number of four bytes: 8 bytes are too few, 16 are not.
        for digits, fill in (("032a040000000700", None), ("032a04000000070000000000", 7), ("030a040000000700", 0), ("03", None), ("032a0400", None)):
            block = [message(1, "0101000000000000" + "0300000000000000"), message(3, "10080000040000000000200000000000"), message(FILL, padded(digits).hex()),
                     message(8, "0301" + "ff" * 8 + number(12).hex() + "00" * 6)]
            made = header(4, block)
            image = patched(self.plain, 816, number(len(self.plain)).hex()) + made
            image = patched(image, end_field(image).start, number(len(image)).hex())
            path = self.written("d.h5", image)
            with self.subTest(digits=digits):
                if digits == "03":
                    # Padded it has flags of 0, and no value.
                    fill = 0
                text = f"/d dataset i32le {{3}} contiguous fill {fill}\n{fill} {fill} {fill}\n".encode()
                wanted = refused(f"20 FillForm at {len(self.plain)}") if fill is None else (0, text, b"")
                self.assertEqual(h5i("dump", path, "/d"), wanted)
                self.assertEqual(today.opened(image)[1], None if fill is not None else f"20 FillForm at {len(self.plain)}")

    def test_the_older_message_beside_it(self):
        """The newer one decides, and the older one has its own form all the same."""
        for older, newer, fill in (("0100000009", "032a010000000700", 7), ("0100000009", "031a", 0), ("0200000009", "032a010000000700", None)):
            block = [message(1, "0101000000000000" + "0300000000000000"), message(3, "10000000010000000000080000000000"), message(4, padded(older).hex()),
                     message(FILL, padded(newer).hex()), message(8, "0301" + "ff" * 8 + number(3).hex() + "00" * 6)]
            image = patched(self.plain, 816, number(len(self.plain)).hex()) + header(5, block)
            path = self.written("d.h5", patched(image, end_field(image).start, number(len(image)).hex()))
            text = f"/d dataset u8 {{3}} contiguous fill {fill}\n{fill} {fill} {fill}\n".encode()
            with self.subTest(older=older, newer=newer):
                self.assertEqual(h5i("dump", path, "/d"), refused(f"20 FillForm at {len(self.plain)}") if fill is None else (0, text, b""))


class Attributes(Judged):
    """Attributes of the root, in the empty file."""

    def assert_shown(self, image, text):
        """The program and the reference show these attributes."""
        path = self.written("n.h5", image)
        self.assertEqual(h5i("dump", path, "/"), (0, b"/ group\n" + text, b""))
        self.assertEqual(reference("dump", path, "/"), (0, b"/ group\n" + text, b""))
        return path

    def test_read_and_kept(self):
        for digits, text in BODIES.items():
            with self.subTest(digits=digits):
                image = with_attributes(digits)
                path = self.assert_shown(image, text)
                # It is the plain image already, as the body is copied.
                self.assertEqual(h5i("run", path, script=b"repack\n"), (0, b"ok 0\n", b""))
                self.assertEqual(self.read(path), image)
                self.assertIn(padded(digits), self.read(path))

    def test_refused(self):
        for digits in REFUSED_BODIES:
            with self.subTest(digits=digits):
                image = with_attributes(digits)
                self.assertEqual(today.opened(image)[1], ATTRIBUTE_FORM)
                self.assertEqual(h5i("ls", self.written("n.h5", image)), refused(ATTRIBUTE_FORM))

    def test_too_many_cells(self):
        image = with_attributes(TOO_MANY)
        self.assertEqual(today.opened(image)[1], "34 TooLarge at 96")
        self.assertEqual(h5i("ls", self.written("n.h5", image)), refused("34 TooLarge at 96"))

    def test_one_name_in_two_versions(self):
        for one, other in ((IN_3, IN_2), (IN_2, IN_3), (IN_3, IN_3)):
            with self.subTest(one=one, other=other):
                self.assertEqual(h5i("ls", self.written("n.h5", with_attributes(one, other))), refused("17 DuplicateMessage at 96"))
        # A body that is refused gives no name.
        self.assertEqual(h5i("ls", self.written("n.h5", with_attributes(IN_3, "0301" + IN_3[4:]))), refused(ATTRIBUTE_FORM))

    def test_other_edits_leave_it(self):
        for digits in BODIES:
            with self.subTest(digits=digits):
                image, body = with_attributes(digits), padded(digits)
                place = image.index(body)
                after = self.assert_in_place(image, ["attr / m u8 2 7,8", "group /g", "dataset /d u8 2 compact", "attr / o i16be - 3", "unattr / m", "unlink /g"])
                self.assertEqual(after[place:place + len(body)], body)
                # It stands behind the Symbol Table, and before the attribute that was set; names ascend.
                path = self.written("n.h5", after)
                self.assertEqual(h5i("run", path, script=b"unattr / o\nunlink /d\nrepack\n"), (0, b"ok 0\n" * 3, b""))
                self.assertEqual(self.read(path), image)

    def test_set_anew_it_is_of_version_1(self):
        for digits in (IN_3, IN_2):
            with self.subTest(digits=digits):
                after = self.assert_in_place(with_attributes(digits), ["attr / n u8 1 6"])
                self.assertEqual(today.kept_bodies(today.opened(after)[0].tree.objects[0]), {})
                path = self.assert_shown(after, b"@n u8 {1} 6\n")
                self.assertEqual(h5i("run", path, script=b"repack\n"), (0, b"ok 0\n", b""))
                first = "010002000c001000" + "6e00000000000000" + BYTE + "00000000" + ONE + "06" + "00" * 7
                self.assertEqual(self.read(path), with_attributes(first))

    def test_set_anew_to_the_same_value(self):
        after = self.assert_in_place(with_attributes(IN_3, IN_2.replace("6e00", "6f00")), ["attr / n u8 1 5"])
        self.assertEqual(today.kept_bodies(today.opened(after)[0].tree.objects[0]), {b"o": padded(IN_2.replace("6e00", "6f00"))})

    def test_removed(self):
        for digits in (IN_3, IN_2):
            image = with_attributes(digits)
            after = self.assert_in_place(image, ["unattr / n"])
            # The message is empty then, of type 0.
            self.assertEqual(after, patched(image, 136, "0000"))
            path = self.written("n.h5", after)
            self.assertEqual(h5i("run", path, script=b"unattr / n\nrepack\n"), (1, b"refused 25 NoSuchAttribute\nok 0\n", b""))
            self.assertEqual(self.read(path), empty_image())

    def test_of_an_array(self):
        """Bodies of all versions, in their order by name."""
        plain = self.read(self.with_array("/d u8 3 contiguous"))
        bodies = [IN_3.replace("6e00", "6100"), "010002000c001000" + "6200000000000000" + BYTE + "00000000" + ONE + "0700000000000000", IN_2.replace("6e00", "6300")]
        block = [plain[at:past] for at, past in ((1144, 1168), (1168, 1192), (1192, 1216), (1216, 1248))] + [message(ATTRIBUTE, body) for body in reversed(bodies)]
        image = patched(plain, 816, number(len(plain)).hex()) + header(7, block)
        image = patched(image, end_field(image).start, number(len(image)).hex())
        text = b"/d dataset u8 {3} contiguous fill 0\n@a u8 {1} 5\n@b u8 {1} 7\n@c u8 {1} 5\n0 0 0\n"
        path = self.written("d.h5", image)
        self.assertEqual(h5i("dump", path, "/d"), (0, text, b""))
        self.assertEqual(h5i("run", path, script=b"repack\ndump /d\n"), (0, b"ok 0\n" + text, b""))
        after = self.read(path)
        self.assertEqual(after[1248:1248 + 48 + 64 + 48], b"".join(message(ATTRIBUTE, body) for body in bodies))
        self.assert_in_place(after, ["unattr /d b", "attr /d c u8 1 9", "write /d 0 1 3 1 1,2,3", "link /d /e", "unlink /d", "unattr /e a"])

    def test_the_longest(self):
        """A body of 65528 bytes, which has the values that one of version 1 has no room for."""
        digits = "030002000c00100000" + "6e00" + BYTE + "0101000000000000" + number(65489).hex() + "07" * 65489
        self.assertEqual(len(padded(digits)), 65528)
        path = self.written("n.h5", with_attributes(digits))
        text = b"/ group\n@n u8 {65489}" + b" 7" * 65489 + b"\n"
        self.assertEqual(h5i("run", path, script=b"dump /\nrepack\ndump /\n"), (0, text + b"ok 0\n" + text, b""))
        self.assertEqual(self.read(path), with_attributes(digits))
        # In version 1 its body would have 9 bytes more and padding.
        values = ",".join(["7"] * 65489).encode()
        self.assertEqual(h5i("run", path, script=b"attr / n u8 65489 %s\n" % values), (1, b"refused 24 AttributeTooLarge\n", b""))
        self.assertEqual(self.read(path), with_attributes(digits))


class Library(Judged):
    """The usual library reads bodies that were kept, and its own file with names that are marked as UTF-8."""

    def assert_read(self, path):
        """The library reads what the reference reads; that is returned."""
        reading, refusal = today.opened(self.read(path))
        self.assertIsNone(refusal)
        self.assertEqual(self.library_texts([path]), [today.read_by_the_library(reading.tree)])
        return reading

    def test_it_reads_bodies_that_were_kept(self):
        for digits, text in BODIES.items():
            if digits == LONGER:
                continue
            with self.subTest(digits=digits):
                after = self.assert_in_place(with_attributes(digits), ["attr / m u8 2 7,8", "dataset /d i32le 3 contiguous"])
                path = self.written("n.h5", after)
                self.assertIn(text, self.library_texts([path])[0])
                self.assert_read(path)
                self.assertEqual(h5i("run", path, script=b"repack\n"), (0, b"ok 0\n", b""))
                self.assert_read(path)
                # It takes one such attribute away, and writes others.
                self.assertEqual(library("import sys, h5py\nwith h5py.File(sys.argv[1], 'r+') as file:\n    del file.attrs['n']", path), (0, b"", b""))
                self.assertEqual(h5i("dump", path, "/"), (0, b"/ group\n@m u8 {2} 7 8\n", b""))

    def test_it_reads_fill_values(self):
        plain = self.read(self.with_array("/d u8 3 contiguous"))
        for digits in ("032a010000000700", "0329010000000700"):
            image = patched(patched(plain, 1200, digits.ljust(32, "0")), 1226, "ff" * 8)
            path = self.written("d.h5", image)
            with self.subTest(digits=digits):
                self.assertEqual(self.library_texts([path]), [b"/ group\n/d dataset u8 {3} contiguous fill 7\n7 7 7\n"])
                path = self.written("d.h5", self.assert_in_place(image, ["attr /d a u8 - 1", "write /d 1 1 1 1 9"]))
                self.assertEqual(self.assert_read(path).tree.objects[1].fill, 7)
                self.assertEqual(h5i("run", path, script=b"repack\n"), (0, b"ok 0\n", b""))
                self.assert_read(path)

    def test_its_file(self):
        image = self.read(os.path.join(DATA, "attribute_utf8.h5"))
        names = [name for thing in today.opened(image)[0].tree.objects.values() for name in today.kept_bodies(thing)]
        self.assertGreater(len(names), 0)
        lines = ["attr / plain u8 2 1,2", "attr /d more i64be 2 -1,1", "group /g", "link /d /g/d", "write /d 0 1 1 1 77", "unlink /d", "unattr /g/d more"]
        path = self.written("u.h5", self.assert_in_place(image, lines))
        before = self.assert_read(path)
        self.assertEqual(h5i("run", path, script=b"repack\n"), (0, b"ok 0\n", b""))
        self.assertIsNone(today.same_tree(self.assert_read(path).tree, before.tree))
        self.assertEqual(library(EDIT, path), (0, b"", b""))
        reading = self.assert_read(path)
        for number_of, thing in reading.tree.objects.items():
            for name in today.kept_bodies(thing):
                with self.subTest(object=number_of, name=name):
                    self.assertIn(name, names)

    def test_what_it_copies(self):
        """The library copies an array with such attributes into files of both versions of the superblock."""
        source = self.written("source.h5", self.read(os.path.join(DATA, "attribute_utf8.h5")))
        name = b"\\xd0\\xbd\\xd0\\xbe\\xd0\\xbc\\xd0\\xb5\\xd1\\x80"
        shown = b"@plain i16be {3} 1 -2 3\n@" + name + b" i16be {3} 1 -2 3\n0 1 2\n"
        for image in (empty_image(), *map(empty_image_1, sorted(set(CHUNK_KS)))):
            path = self.written("e.h5", image)
            self.assertEqual(h5i("run", path, script=b"dataset /t u8 3/inf chunked:1\nwrite /t 0 1 3 1 1,2,3\n"), (0, b"ok 0\n" * 2, b""))
            self.assertEqual(library(COPY, path, source), (0, b"", b""))
            self.assertEqual(h5i("dump", path, "/copied"), (0, b"/copied dataset i32le {3} contiguous fill 0\n" + shown, b""))
            tree = today.opened(self.read(path))[0].tree
            self.assertEqual([body[0] for thing in tree.objects.values() for body in today.kept_bodies(thing).values()], [3, 3])
            lines = ["attr /copied a u8 - 1", "resize /t 4", "write /t 3 1 1 1 4", "attr /copied plain u8 - 2", "write /copied 2 1 1 1 -7"]
            path = self.written("e.h5", self.assert_in_place(self.read(path), lines))
            before = self.assert_read(path)
            self.assertEqual(h5i("run", path, script=b"repack\n"), (0, b"ok 0\n", b""))
            self.assertIsNone(today.same_tree(self.assert_read(path).tree, before.tree))
            self.assertEqual(h5i("run", path, script=b"unattr /copied %s\ndump /copied\n" % name),
                             (0, b"ok 0\n/copied dataset i32le {3} contiguous fill 0\n@a u8 {} 1\n@plain u8 {} 2\n0 1 -7\n", b""))
