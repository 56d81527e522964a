"""Headers as other programs write them: put together byte by byte, opened, and edited."""

from .support import InFolder, empty_image, h5i, patched, reference


def number(value, size=8):
    """A number as it stands in a file."""
    return value.to_bytes(size, "little")


def message(kind, digits):
    """A message of this type with this body."""
    body = bytes.fromhex(digits)
    return number(kind, 2) + number(len(body), 2) + bytes(4) + body


def header(total, messages):
    """A header of one reference, with so many messages in all its blocks and these in its first."""
    block = b"".join(messages)
    return bytes([1, 0]) + number(total, 2) + number(1, 4) + number(len(block), 4) + bytes(4) + block


class ForeignHeaders(InFolder):
    """A dataset's header, and a group's in two blocks."""

    def assert_holds(self, path, word, text):
        """The program and the reference dump this text of the file at the path."""
        self.assertEqual(h5i("dump", path, word), (0, text, b""))
        self.assertEqual(reference("dump", path, word), (0, text, b""))

    def test_a_dataset_as_the_library_writes_it(self):
        # Maxima, a fill value that is not defined by a value, a modification time and a NIL message. The header stands behind
        # the data; that of the plain file, at 1128, is left as a gap.
        image = self.read(self.with_array("/d i32le 3 contiguous fill=-7"))
        self.assertEqual(len(image), 1260)
        kept = "0100000078563412"
        new = header(6, [
            message(1, "0101010000000000" + "0300000000000000" + "0300000000000000"),
            message(3, "10080000040000000000200000000000"),
            message(5, "0202020100000000"),
            message(8, "0301" + number(1248).hex() + number(12).hex() + "000000000000"),
            message(18, kept),
            message(0, "00" * 16),
        ])
        entry = image.index(b"SNOD") + 16
        image = patched(image + new, entry, number(1260).hex())
        path = self.written("library.h5", patched(image, 40, number(len(image)).hex()))
        self.assertEqual(reference("check", path)[0], 0)
        self.assertEqual(h5i("ls", path), (0, b"/ group\n/d dataset i32le {3}\n", b""))
        self.assert_holds(path, "/d", b"/d dataset i32le {3} contiguous fill 0\n-7 -7 -7\n")
        self.assertEqual(h5i("run", path, script=b"attr /d unit u8 1 5\n"), (0, b"ok 0\n", b""))
        self.assert_holds(path, "/d", b"/d dataset i32le {3} contiguous fill 0\n@unit u8 {1} 5\n-7 -7 -7\n")
        self.assertIn(message(18, kept), self.read(path))

    def test_a_group_in_two_blocks(self):
        # The Symbol Table, a Continuation and a NIL message stand in the first block, the attribute in the second.
        name = "6e6f746500000000"
        attribute = message(12, "0100" + "0500" + "0c00" + "1000" + name + "10000000010000000000080000000000"
                            + "0101000000000000" + "0200000000000000" + "0708" + "000000000000")
        first = 16 + 24 + 24 + 16
        new = header(4, [
            message(17, "8800000000000000a802000000000000"),
            message(16, number(800 + first).hex() + number(len(attribute)).hex()),
            message(0, "ffffffffffffffff"),
        ])
        self.assertEqual(len(new), first)
        image = patched(empty_image() + new + attribute, 64, number(800).hex())
        whole = patched(image, 40, number(len(image)).hex())
        path = self.written("group.h5", whole)
        self.assertEqual(reference("check", path)[0], 0)
        self.assertEqual(h5i("ls", path), (0, b"/ group\n", b""))
        self.assert_holds(path, "/", b"/ group\n@note u8 {2} 7 8\n")
        # The attribute's message becomes NIL; repacked, the file is the empty one again.
        self.assertEqual(h5i("run", path, script=b"unattr / note\n"), (0, b"ok 0\n", b""))
        self.assertEqual(self.read(path), patched(whole, 800 + first, "0000"))
        self.assertEqual(h5i("run", path, script=b"repack\n"), (0, b"ok 0\n", b""))
        self.assertEqual(self.read(path), empty_image())
