"""Attributes set and removed where the header stands: what else of the image stays, and how much it grows."""

import random

from . import today
from .drawn_images import NAMES, linked_image, paths_of, small_image, word
from .support import InFolder, empty_image, h5i, library
from .test_attributes import with_messages

# pylint: disable=wrong-import-order
from h5oracle.model import Attr  # noqa: E402
from h5oracle.plain import attribute_body, le, message  # noqa: E402
from h5oracle.values import TYPES  # noqa: E402

NIL, COMMENT, ATTRIBUTE, CONTINUATION, SYMBOL_TABLE = 0, 13, 12, 16, 17

ADD = """
import sys, h5py
with h5py.File(sys.argv[1], "r+", libver=("earliest", "v108")) as file:
    file.attrs.create("added", 5, dtype="<u2")
    del file.attrs["one"]
"""


def kinds(image, header=96):
    """The types of the messages of a header, block by block."""
    blocks = [(header + 16, int.from_bytes(image[header + 8:header + 12], "little"))]
    met = []
    for at, length in blocks:
        end = at + length
        while at < end:
            kind, size = int.from_bytes(image[at:at + 2], "little"), int.from_bytes(image[at + 2:at + 4], "little")
            met.append(kind)
            if kind == CONTINUATION:
                blocks.append((int.from_bytes(image[at + 8:at + 16], "little"), int.from_bytes(image[at + 16:at + 24], "little")))
            at += 8 + size
    return met


class InPlace(InFolder):
    """One line at a time, each with the reference's judgement of the two images."""

    def assert_step(self, path, line, answer=b"ok"):
        """The line is answered so; of an accepted one the image holds the tree that it gives, no header moves, no byte changes outside the
        blocks of the object, the end of file field and what no block held, and it grows by no more than the attribute needs."""
        before = self.read(path)
        output = h5i("run", path, script=line + b"\n")[1]
        self.assertTrue(output.startswith(answer), (line, output))
        after = self.read(path)
        if output.startswith(b"ok"):
            self.assertEqual(today.wrong_with(before, after, line), [], line)
        else:
            self.assertEqual(after, before)
        return after

    def test_a_new_block_and_a_nil_message(self):
        path = self.new()
        self.assertEqual(len(self.assert_step(path, b"attr / note u8 2 7,8", b"ok 0")), 888)
        text = b"/ group\n@note u8 {2} 7 8\n"
        self.assertEqual(h5i("dump", path, "/"), (0, text, b""))
        image = self.read(path)
        self.assertEqual((image[98:100], kinds(image)), (le(3, 2), [CONTINUATION, SYMBOL_TABLE, ATTRIBUTE]))
        self.assertEqual((image[120:128], image[128:136]), (le(800, 8), le(88, 8)))
        self.assert_step(path, b"unattr / note", b"ok 0")
        again = self.assert_step(path, b"attr / note u8 2 9,9", b"ok 0")
        self.assertEqual((len(again), again[98:100], kinds(again)), (888, le(3, 2), [CONTINUATION, SYMBOL_TABLE, ATTRIBUTE]))
        self.assertEqual(h5i("run", path, script=b"repack\n")[1], b"ok 0\n")
        self.assertEqual(len(self.read(path)), 864)
        self.assertEqual(h5i("dump", path, "/"), (0, b"/ group\n@note u8 {2} 9 9\n", b""))
        self.assert_step(path, b"unattr / note", b"ok 0")
        self.assert_step(path, b"unattr / note", b"refused 25 NoSuchAttribute")

    def test_nil_messages_of_every_size(self):
        # The body is a multiple of 8 bytes in the header.
        body = -(-len(attribute_body(Attr(b"note", TYPES["u8"], (2,), (7, 8)))) // 8) * 8
        for size in range(0, body + 49, 8):
            with self.subTest(size=size):
                image = with_messages(empty_image(), [message(NIL, bytes(size)), message(COMMENT, b"of me\0\0\0")])
                path = self.written("nil.h5", image)
                after = self.assert_step(path, b"attr / note u8 2 7,8", b"ok 0")
                rest = size - body
                self.assertEqual(len(after) - len(image), 0 if rest >= 0 else 32 + body)
                self.assertEqual(kinds(after), [SYMBOL_TABLE, ATTRIBUTE] + [NIL] * (rest >= 8) + [COMMENT] if rest >= 0
                                 else [CONTINUATION, NIL, COMMENT, SYMBOL_TABLE, ATTRIBUTE])

    def test_totals_at_the_limit(self):
        for total, answer in ((65533, b"ok 0"), (65534, b"refused 28 HeaderFull"), (65535, b"refused 28 HeaderFull")):
            with self.subTest(total=total):
                path = self.written("full.h5", with_messages(empty_image(), [message(COMMENT, b"")] * (total - 1)))
                after = self.assert_step(path, b"attr / note u8 - 1", answer)
                self.assertEqual(int.from_bytes(after[98:100], "little"), 65535 if total == 65533 else total)

    def test_files_of_others(self):
        edited = 0
        for seed in range(120):
            rng = random.Random(seed)
            image = (small_image if seed % 2 else linked_image)(rng)
            reading = today.opened(image)[0]
            if reading is None:
                continue
            path = self.written("odd.h5", image)
            places = ["/"] + [word(place) for place, number in paths_of(reading.tree) if number is not None]
            for _ in range(6):
                where, name = rng.choice(places), word(rng.choice([name for name in NAMES if name != b"/"]))
                line = rng.choice([f"attr {where} {name} u16be 2 1,2", f"attr {where} {name} i8 - -1", f"unattr {where} {name}"]).encode()
                with self.subTest(seed=seed, line=line):
                    edited += h5i("run", path, script=line + b"\n")[1].startswith(b"ok")
                    self.assertEqual(today.wrong_with(image, self.read(path), line), [])
                    image = self.read(path)
        self.assertGreater(edited, 200)

    def test_the_library_edits_what_was_written(self):
        path = self.new()
        for line in (b"attr / one u8 - 1", b"attr / two i16be 2 -1,2", b"unattr / one", b"attr / one u64le 3 1,2,3"):
            self.assert_step(path, line, b"ok 0")
        self.assertEqual(library(ADD, path), (0, b"", b""))
        self.assertEqual(h5i("dump", path, "/"), (0, b"/ group\n@added u16le {} 5\n@two i16be {2} -1 2\n", b""))
        self.assert_step(path, b"attr / added u8 - 9", b"ok 0")
        self.assertEqual(h5i("dump", path, "/"), (0, b"/ group\n@added u8 {} 9\n@two i16be {2} -1 2\n", b""))
