"""Groups, hard links and soft links: made, listed and refused."""

import random

from . import today
from .drawn_images import linked_image
from .support import InFolder, empty_image, h5i, reference

# pylint: disable=wrong-import-order
from h5oracle.model import Dataset, Flat, Tree  # noqa: E402
from h5oracle.plain import write_plain  # noqa: E402
from h5oracle.reader import Superblock, open_image  # noqa: E402
from h5oracle.values import TYPES  # noqa: E402

ARRAY = b"dataset /d i32le 3 contiguous\n"


def with_links(count):
    """The plain image of one array of no cells with so many hard links."""
    tree, fixed = Tree.root_alone(), TYPES["u8"]
    thing = Dataset(fixed, (0,), (0,), "contiguous", None, 0)
    thing.has_maxima, thing.flat = False, Flat(0, fixed, 0, b"")
    tree.objects[1], tree.counts[1] = thing, count
    for k in range(count):
        tree.objects[0].links[b"n%05d" % k] = ("object", 1)
    return write_plain(tree, Superblock(0, 4, 16, 32, 0, 0))


def with_soft_links(count, leaf, internal):
    """The plain image of so many soft links."""
    tree = Tree.root_alone()
    for k in range(count):
        tree.objects[0].links[b"%06d" % k] = ("soft", b"t")
    return write_plain(tree, Superblock(0, leaf, internal, 32, 0, 0))


class Groups(InFolder):
    """Groups and links that are made by lines of scripts."""

    def assert_run(self, path, script, answers, status=0):
        """The script's answers."""
        self.assertEqual(h5i("run", path, script=script), (status, answers, b""))

    def test_hard_links(self):
        path = self.new()
        names = "efghijkl"
        script = ARRAY + "".join(f"link /d /{name}\n" for name in names).encode()
        self.assert_run(path, script, b"ok 0\n" * 9)
        lines = ["/ group"] + [f"/{name} dataset i32le {{3}}" for name in "d" + names]
        self.assertEqual(h5i("ls", path), (0, today.printed(lines), b""))
        self.assertEqual(len(lines), 10)
        reading = open_image(self.read(path))
        self.assertEqual(reading.tree.counts[1], 9)
        self.assertEqual(sum(kind == "symbol node" for _, _, kind in reading.blocks), 2)
        self.assert_run(path, b"repack\n", b"ok 0\n")
        self.assertEqual(len(self.read(path)), 1580)

    def test_two_groups(self):
        path = self.new()
        self.assert_run(path, b"group /g\ngroup /h\nls\n", b"ok 0\nok 0\n/ group\n/g group\n/h group\n")
        self.assertEqual(len(self.read(path)), 2536)

    def test_many_links(self):
        path = self.new()
        script = b"group /g\ndataset /d u8 1 contiguous\n" + b"".join(b"link /d /g/n%03d\n" % k for k in range(300))
        self.assert_run(path, script, b"ok 0\n" * 302)
        image = self.read(path)
        reading = open_image(image)
        group = next(n for n, thing in reading.tree.objects.items() if n and reading.tree.is_group(n))
        self.assertEqual(len(reading.tree.objects[group].links), 300)
        # A symbol node has 8 entries at most, and one that was split 4 at least; a node has 32 of them at most. The root has its own.
        self.assertIn(sum(kind == "symbol node" for _, _, kind in reading.blocks) - 1, range(38, 76))
        nodes = [at for at, _, kind in reading.blocks if image[at:at + 4] == b"TREE"]
        self.assertEqual(max(image[at + 5] for at in nodes), 1)
        lines = ["/ group", "/d dataset u8 {1}", "/g group"] + [f"/g/n{k:03} dataset u8 {{1}}" for k in range(300)]
        self.assertEqual(h5i("ls", path), (0, today.printed(lines), b""))

    def test_depth(self):
        path = self.new()
        groups = b"".join(b"group " + b"/g" * k + b"\n" for k in range(1, 65))
        self.assert_run(path, groups, b"ok 0\n" * 64)
        image = self.read(path)
        for line in (b"group ", b"soft t ", b"link /d "):
            self.assert_run(path, line + b"/g" * 65 + b"\n", b"refused 2 PathTooDeep\n", 1)
        self.assertEqual(self.read(path), image)
        self.assertEqual(h5i("ls", path)[1].count(b"\n"), 65)

    def test_the_last_hard_link(self):
        path = self.written("many.h5", with_links(65534))
        self.assert_run(path, b"link /n00000 /x\nlink /n00000 /y\nlink /x /x\n",
                        b"ok 0\nrefused 26 TooManyLinks\nrefused 7 AlreadyThere\n", 1)
        self.assertEqual(h5i("ls", path)[1].count(b"\n"), 65536)
        path = self.written("most.h5", with_links(65535))
        before = self.stamp(path)
        self.assert_run(path, b"link /n65534 /x\n", b"refused 26 TooManyLinks\n", 1)
        self.assertEqual(self.stamp(path), before)

    def test_the_deepest_tree(self):
        image = with_soft_links(131072, 1, 1)
        path = self.written("deep.h5", image)
        self.assert_run(path, b"soft t /x\ngroup /x\n", b"refused 29 TreeTooDeep\n" * 2, 1)
        self.assertEqual(self.read(path), image)
        path = self.written("deep.h5", with_soft_links(131071, 1, 1))
        self.assert_run(path, b"soft t /x\nsoft t /y\n", b"ok 0\nrefused 29 TreeTooDeep\n", 1)
        self.assertEqual(open_image(self.read(path)).tree.objects[0].links[b"x"], ("soft", b"t"))

    def test_soft_links(self):
        path = self.new()
        self.assert_run(path, b"soft /nowhere /s\nls\ngroup /s/x\ngroup /g\nlink /g /h\nunattr /s a\nattr /s a u8 - 1\nlink /s /t\n"
                        b"soft /s /s\ndump /s\nsoft a\\x20b /g/t\ndump /g/t\n",
                        b"ok 0\n/ group\n/s soft /nowhere\nrefused 5 NotAGroup\nok 0\nrefused 10 GroupLink\nrefused 6 NotFound\n"
                        b"refused 6 NotFound\nrefused 6 NotFound\nrefused 7 AlreadyThere\n/s soft /nowhere\nok 0\n/g/t soft a\\x20b\n", 1)

    def test_refusals_in_a_tree(self):
        path = self.new()
        self.assert_run(path, b"group /g\n" + ARRAY + b"link /d /g/e\nsoft t /g/s\n", b"ok 0\n" * 4)
        rows = {
            b"group g": b"1 BadPath", b"group /": b"3 IsRoot", b"group /x/y": b"4 NoSuchParent", b"group /d/y": b"5 NotAGroup",
            b"group /g/s/y": b"5 NotAGroup", b"group /g": b"7 AlreadyThere", b"group /g/s": b"7 AlreadyThere",
            b"group /g/" + b"n" * 1024: b"8 NameTooLong", b"dataset /g/e u8 1/2 contiguous": b"7 AlreadyThere",
            b"dataset /g/f u8 1/2 contiguous": b"12 BadSpec", b"dataset /x/f u8 1 compact": b"4 NoSuchParent",
            b"link d /x": b"1 BadPath", b"link /d x": b"1 BadPath", b"link x /d": b"1 BadPath",
            b"link " + b"/a" * 65 + b" x": b"1 BadPath", b"link " + b"/a" * 65 + b" /": b"2 PathTooDeep",
            b"link /x/y /": b"3 IsRoot", b"link /x/y /g/s/z": b"4 NoSuchParent", b"link /d/y /x/z": b"4 NoSuchParent",
            b"link /d/y /x": b"5 NotAGroup", b"link /x /g/s/z": b"5 NotAGroup", b"link /x /g": b"6 NotFound", b"link /g/s /g": b"6 NotFound",
            b"link /g /d": b"7 AlreadyThere", b"link /g /" + b"n" * 1024: b"8 NameTooLong", b"link /g /x": b"10 GroupLink",
            b"link / /x": b"10 GroupLink", b"soft \\x00 x": b"1 BadPath", b"soft \\x00 /": b"1 BadPath", b"soft t /": b"3 IsRoot",
            b"soft " + b"t" * 1024 + b" /g/s": b"7 AlreadyThere", b"soft " + b"t" * 1024 + b" /x": b"8 NameTooLong",
            b"soft t /" + b"n" * 1024: b"8 NameTooLong",
        }
        before = self.stamp(path)
        for line, answer in rows.items():
            with self.subTest(line=line[:80]):
                self.assert_run(path, line + b"\n", b"refused " + answer + b"\n", 1)
        self.assertEqual(self.stamp(path), before)

    def test_a_name_of_1023_bytes(self):
        path = self.new()
        name = b"n" * 1023
        self.assert_run(path, b"group /" + name + b"\nsoft " + name + b" /" + name + b"/" + name + b"\n", b"ok 0\nok 0\n")
        self.assertEqual(reference("check", path)[:2], (0, b"ok\n"))

    def test_the_longest_image(self):
        # 800 bytes, a symbol node of 328 and a header of 120 come before the data.
        most = 2147483648 - 1248
        path = self.new()
        self.assert_run(path, b"dataset /d u8 %d contiguous\n" % (most + 1), b"refused 30 ImageFull\n", 1)
        self.assertEqual(self.read(path), empty_image())

    def test_objects_of_others_stay(self):
        """What an edit does not speak of stays, whoever wrote the file and however it is laid out."""
        for k in range(60):
            rng = random.Random(f"edited {k}")
            image = linked_image(rng)
            reading, refusal = today.opened(image)
            with self.subTest(k=k):
                self.assertIsNone(refusal)
                script = (b"group /new\\x20group\nsoft t /new\\x20group/s\ndataset /new\\x20group/d i64be 2 contiguous fill=-9\n"
                          b"dataset /new\\x20group/c u16le 2/inf chunked:3\nattr / n\\xfe u8 - 7\n")
                session = today.session_of(image)
                wanted, _ = today.answers(session, script)
                path = self.written("e.h5", image)
                self.assert_run(path, script, wanted, today.status_of(wanted))
                self.assertIsNone(today.unlike(self.read(path), image, script))
                self.assertEqual(reading.tree.objects.keys() - session.tree.objects.keys(), set())
