"""Groups unlinked whole: what goes with them and what stays, that all they had is given back, what views show then, and what the usual library
makes of what is left.
"""

import json
import os
import random

from . import today
from .drawn_scripts import WHOLE, new_image
from .kept_session import image_behind
from .support import InFolder, empty_image, end_of_file, h5i, library, reference
from .test_corpus import DATA
from .test_creates_in_place import FORMS
from .test_group_scripts import CHANGE, LIST, links_of
from .test_links_in_place import SEEDS, Judged, Sessions, image_of_others, link_count
from .transcripts import Transcripts

# pylint: disable=wrong-import-order
from h5oracle.model import Tree, object_at  # noqa: E402
from h5oracle.script import path_text  # noqa: E402

ROUNDS = 100
# Of a heap eight bytes alone would stay unused, so names of the root that come and go have at least eight letters.
GROUP, ARRAY = "/the_group", "/the_array"
# So many names has the longest path, and so many arrays the widest group.
DEEPEST, WIDEST = 64, 100000
# So many trees drawn at random.
TREES = range(12)
# An image of a random session has fewer bytes.
MOST_BYTES = 60000
# Of a file of the usual library so many groups are unlinked, each in a session of its own.
MOST_GROUPS = 5

# What is made, and what goes with /g.
EACH_KIND = """
> group /g
ok 0
> dataset /g/a u8 2 contiguous
ok 0
> dataset /k u8 2 contiguous
ok 0
> link /k /g/k
ok 0
> group /g/h
ok 0
> soft /x /g/h/s
ok 0
> view /g/a 0 1 2 1
view 0
> view /g/k 0 1 2 1
view 1
> unlink /g
ok 0
> show 0
fault 2 Gone
> show 1
lent 0 0
> ls
/ group
/k dataset u8 {2}
> repack
ok 0
"""
# Takes the link of each path out of the file of the name before it.
DELETE = """
import sys, h5py
for name, path in zip(sys.argv[1::2], sys.argv[2::2]):
    with h5py.File(name, "r+") as file:
        del file[path]
"""


def image_of_few_bytes(rng):
    """An image in a layout drawn at random. Each edit is judged by all bytes of it, and a long one shows no more."""
    while True:
        image = image_of_others(rng)
        if len(image) < MOST_BYTES:
            return image


def counts_of(image):
    """How many hard links an image tells of each array, by the first path to it."""
    tree = today.opened(image)[0].tree
    counts = {}
    for names, (kind, number) in tree.walk():
        if kind == "object" and not tree.is_group(number):
            counts.setdefault(number, (b"/" + b"/".join(names), tree.counts[number]))
    return dict(counts.values())


def group_paths(image):
    """The paths of the groups of an image, but for the root; none of one that is refused."""
    reading, refused = today.opened(image)
    links = [] if refused else reading.tree.walk()
    return [path_text(names) for names, (kind, number) in links if names and kind == "object" and reading.tree.is_group(number)]


def drawn_group_lines(rng, top):
    """Lines that make a group at this path with all kinds of things in it, at any depth, and with names of one array inside and outside of
    it; the paths of all groups are given too, the group itself first.
    """
    groups, arrays, lines, names = [top], [ARRAY], [f"group {top}"], iter(range(1000))
    for _ in range(rng.choice([3, 12, 40])):
        path = f"{rng.choice(groups[-3:] + groups[:1])}/n{next(names)}"
        kind = rng.random()
        if kind < 0.3 and path.count("/") < 9:
            lines.append(f"group {path}")
            groups.append(path)
        elif kind < 0.5:
            lines.append(f"dataset {path} {rng.choice(FORMS)}")
            arrays.append(path)
        elif kind < 0.65:
            # Three chunks, or a hundred, are stored in a tree of one or two levels.
            size = rng.choice([3, 100])
            lines += [f"dataset {path} u8 {size}/inf chunked:1 fill=7", f"write {path} 0 1 {size} 1 {','.join(['9'] * size)}"]
            arrays.append(path)
        elif kind < 0.8:
            lines.append(f"link {rng.choice(arrays)} {path}")
        elif kind < 0.9:
            lines.append(f"link {rng.choice(arrays)} /outside_{next(names)}")
        else:
            lines += [f"soft {rng.choice(arrays)} {path}", f"attr {rng.choice(groups)} {'a' * rng.randrange(1, 30)} u8 40 {','.join(['1'] * 40)}"]
    return lines, groups


class Told(Transcripts):
    """Scripts with their answers."""

    def test_a_group_of_each_kind_of_link(self):
        path = self.new()
        self.assert_transcript(path, EACH_KIND)
        image = self.read(path)
        self.assertEqual((len(image), counts_of(image)), (1250, {b"/k": 1}))

    def test_a_hundred_rounds(self):
        lines = ["dataset /a u8 1000 contiguous", "unlink /a"] * ROUNDS
        for count in range(1, len(lines) + 1):
            output, image = image_behind(self.path("e.h5"), empty_image(), today.printed(lines[:count]))
            self.assertEqual((output, len(image)), (b"ok 0\n" * count, 2248), count)

    def test_a_group_of_no_links_and_the_root(self):
        path = self.accepted(["group /g", "group /g/h", "unlink /g/h", "unlink /g"])
        self.assert_each(path, {"unlink /": "refused 3 IsRoot", "unlink /g": "refused 6 NotFound", "unlink /g/h": "refused 4 NoSuchParent"})

    def test_names_are_free_again(self):
        self.assert_transcript(self.new(), """
            > group /g
            ok 0
            > dataset /g/d u8 2 contiguous fill=3
            ok 0
            > unlink /g
            ok 0
            > dataset /g i16le 1 compact
            ok 0
            > group /g/d
            refused 5 NotAGroup
            > unlink /g
            ok 0
            > group /g
            ok 0
            > dump /g
            /g group
            """)


class Shown(Transcripts):
    """Views of arrays that go, and of arrays that stay."""

    def test_views_of_all_forms(self):
        forms = {"compact": "lent", "contiguous": "lent", "chunked:2": "kept"}
        script, answers = ["group /g", "group /g/h"], ["ok 0"] * 2
        for at, store in enumerate(forms):
            # One of each form has no other name, and one has a name outside of the group.
            for name in (f"a{at}", f"b{at}"):
                script += [f"dataset /g/h/{name} u8 4 {store} fill=5", f"view /g/h/{name} 1 1 2 1"]
                answers += ["ok 0", f"view {len(answers) // 2 - 1}"]
        script += [f"link /g/h/b{at} /kept{at}" for at in range(3)] + ["unlink /g"]
        answers += ["ok 0"] * 4
        for at, lent in enumerate(forms.values()):
            script += [f"show {2 * at}", f"show {2 * at + 1}", f"write /kept{at} 0 1 4 1 1,2,3,4", f"show {2 * at + 1}", f"close {2 * at}", f"show {2 * at}"]
            answers += ["fault 2 Gone", f"{lent} 5 5", "ok 0" if lent == "lent" else "ok 2", f"{lent} 2 3", "closed", "fault 1 NoSuchView"]
        self.assertEqual(h5i("run", self.new(), script=today.printed(script)), (1, today.printed(answers), b""))

    def test_an_array_of_two_groups(self):
        self.assert_transcript(self.new(), """
            > group /g
            ok 0
            > group /h
            ok 0
            > dataset /g/a u8 3 chunked:2 fill=8
            ok 0
            > link /g/a /g/b
            ok 0
            > link /g/a /h/a
            ok 0
            > link /h/a /h/b
            ok 0
            > view /g/b 0 1 3 1
            view 0
            > unlink /g
            ok 0
            > write /h/b 1 1 1 1 9
            ok 1
            > show 0
            kept 8 9 8
            > ls
            / group
            /h group
            /h/a dataset u8 {3}
            /h/b dataset u8 {3}
            > unlink /h
            ok 0
            > show 0
            fault 2 Gone
            > ls
            / group
            """)


class Kept(Judged):
    """Arrays that have names elsewhere."""

    def assert_counted(self, image, line, counts):
        """The line takes a group away. Of the arrays that stay these counts have changed, and no other byte: the image behind it."""
        after = self.assert_in_place(image, [line])
        self.assertEqual(counts_of(after), counts)
        old, new = today.opened(image)[0], today.opened(after)[0]
        headers = {new.table[object_at(new.tree, path)] for path in counts}
        for (at, length, kind), owner in zip(old.blocks, old.owners):
            if owner is not None and old.table[owner] in headers:
                # The number of links stands in bytes 4 to 7 of a header.
                behind = [each[at:at + 4] + each[at + 8:at + length] if at in headers else each[at:at + length] for each in (image, after)]
                self.assertEqual(behind[1], behind[0], f"{kind} at {at}")
        return after

    def test_names_inside_and_outside(self):
        chunks = ["dataset /g/c u16be 5/inf chunked:2 fill=7", "write /g/c 1 1 4 1 1,2,3,4", "attr /g/c unit u8 2 1,2"]
        begun = ["group /g", "group /g/h", "group /g/h/i", "group /o", "dataset /g/a u8 3 contiguous fill=1", *chunks, "dataset /g/h/d i8 - compact",
                 "link /g/a /g/a2", "link /g/a /g/h/a3", "link /g/a /o/a", "link /g/c /g/h/i/c2", "link /g/c /c3", "link /g/c /o/c4", "link /g/h/d /g/h/i/d2",
                 "dataset /e u8 2 contiguous", "link /e /g/h/e2", "soft /g/a /o/s", "soft /o/a /g/h/s", "soft .. /g/h/i/s"]
        image = self.assert_in_place(empty_image(), begun)
        self.assertEqual(counts_of(image), {b"/c3": 4, b"/e": 2, b"/g/a": 4, b"/g/h/d": 2})
        image = self.assert_counted(image, "unlink /g/h", {b"/c3": 3, b"/e": 1, b"/g/a": 3})
        image = self.assert_counted(image, "unlink /g", {b"/c3": 2, b"/e": 1, b"/o/a": 1})
        listed = ["/ group", "/c3 dataset u16be {5/inf}", "/e dataset u8 {2}", "/o group", "/o/a dataset u8 {3}", "/o/c4 dataset u16be {5/inf}", "/o/s soft /g/a"]
        path = self.written("e.h5", image)
        self.assertEqual(h5i("ls", path), (0, today.printed(listed), b""))
        self.assertEqual(h5i("dump", path, "/o/c4")[1].splitlines()[-1], b"7 1 2 3 4")
        self.assert_counted(image, "unlink /o", {b"/c3": 1, b"/e": 1})

    def test_many_names(self):
        """Of an array with as many links as may be, all but one go at once."""
        names = [f"link /d /g/{number}" for number in range(65534)]
        script = ["dataset /d u8 1 contiguous", "group /g", *names, "link /d /e", "unlink /g", "link /d /e", "unlink /d", "ls"]
        answers = ["ok 0"] * (len(names) + 2) + ["refused 26 TooManyLinks"] + ["ok 0"] * 3 + ["/ group", "/e dataset u8 {1}"]
        output, image = image_behind(self.path("e.h5"), empty_image(), today.printed(script))
        self.assertTrue(output == today.printed(answers))
        self.assertEqual(counts_of(image), {b"/e": 1})


class Again(Judged):
    """All that a group had is given back."""

    def assert_taken_again(self, lines, rounds=9):
        """The lines make a group and take it away again: however often they run, they take no more room than the second time did."""
        lengths, least = [], len(image_behind(self.path("e.h5"), empty_image(), today.printed(lines[:1]))[1])
        for count in range(1, rounds + 1):
            output, image = image_behind(self.path("e.h5"), empty_image(), today.printed(lines * count))
            self.assertEqual(set(output.splitlines()), {b"ok 0"})
            self.assertEqual(len(output.splitlines()), count * len(lines))
            lengths.append(len(image))
        self.assertEqual(lengths[1:], lengths[1:2] * (rounds - 1))
        self.assertGreater(lengths[0], least)
        self.assertIsNone(today.same_tree(today.opened(image)[0].tree, Tree.root_alone()))

    def test_all_kinds_of_things(self):
        for seed in TREES:
            lines, _ = drawn_group_lines(random.Random(f"again {seed}"), GROUP)
            outside = [line.split(" ")[2] for line in lines if " /outside" in line]
            with self.subTest(seed=seed):
                self.assert_taken_again([f"dataset {ARRAY} u8 4 contiguous", *lines, *(f"unlink {path}" for path in [GROUP, ARRAY, *outside])])

    def test_as_one_thing_after_another(self):
        """A group that goes whole gives back what it gives where its things go one by one."""
        for seed in TREES:
            lines, _ = drawn_group_lines(random.Random(f"one by one {seed}"), GROUP)
            lines = [line for line in lines if " /outside" not in line]
            made = {line.split(" ")[2 if line.startswith(("link", "soft")) else 1] for line in lines if not line.startswith(("attr", "write"))}
            one_by_one = [f"unlink {path}" for path in sorted(made, reverse=True)]
            again = drawn_group_lines(random.Random(f"then {seed}"), "/later")[0]
            lengths = set()
            for taken in ([f"unlink {GROUP}"], one_by_one):
                output, image = image_behind(self.path("e.h5"), empty_image(), today.printed([f"dataset {ARRAY} u8 1 compact", *lines, *taken, *again]))
                self.assertEqual(set(output.splitlines()), {b"ok 0"})
                lengths.add(len(image))
            with self.subTest(seed=seed):
                self.assertEqual(len(lengths), 1)

    def test_64_names_deep(self):
        groups, deepest = [f"group {GROUP * depth}" for depth in range(1, DEEPEST)], GROUP * DEEPEST
        for last in (f"group {deepest}", f"dataset {deepest} u8 100 contiguous", f"soft t {deepest}"):
            with self.subTest(last=last[:8]):
                self.assert_taken_again([*groups, last, f"unlink {GROUP}"], 3)
        image = image_behind(self.path("e.h5"), empty_image(), today.printed([*groups, f"dataset {deepest} u8 1 compact"]))[1]
        for depth in (1, 2, DEEPEST // 2, DEEPEST - 1, DEEPEST):
            after = self.assert_in_place(image, [f"unlink {GROUP * depth}"])
            self.assertEqual(link_count(today.opened(after)[0].tree), depth - 1)

    def test_many_arrays(self):
        arrays = [f"dataset {GROUP}/{number * 2654435769 % (1 << 32):08x} u8 {number % 9} contiguous" for number in range(WIDEST)]
        script = [f"group {GROUP}", *arrays, f"unlink {GROUP}"]
        lengths = []
        for rounds in (1, 2):
            output, image = image_behind(self.path("e.h5"), empty_image(), today.printed(script * rounds))
            self.assertTrue(output == b"ok 0\n" * len(script) * rounds)
            self.assertIsNone(today.same_tree(today.opened(image)[0].tree, Tree.root_alone()))
            lengths.append(len(image))
        self.assertEqual(lengths[0], lengths[1])
        self.assertGreater(lengths[0], 100 * WIDEST)


class RandomSessions(Sessions):
    """Sessions in which groups at any depth are unlinked whole."""

    def assert_whole(self, *words):
        """Nothing is wrong, and many groups go with links of their own."""
        made = self.assert_all_right(*words)
        self.assertGreater(made[b"whole"], 3 * len(SEEDS))

    def test_on_new_files(self):
        self.assert_whole("whole", WHOLE, new_image)

    def test_on_files_of_others(self):
        self.assert_whole("whole", WHOLE, image_of_few_bytes)


class Others(Judged):
    """Files that the usual library wrote."""

    def test_groups_of_its_files(self):
        judged = 0
        for name in sorted(os.listdir(DATA)):
            if not name.endswith(".h5"):
                continue
            with open(os.path.join(DATA, name), "rb") as file:
                image = file.read()
            for path in group_paths(image)[:MOST_GROUPS]:
                with self.subTest(name=name, path=path):
                    after = self.assert_in_place(image, [f"unlink {path}"])
                    self.assertEqual(len(after), end_of_file(image))
                judged += 1
        self.assertGreater(judged, 30)


class Library(InFolder):
    """The usual library on what is left."""

    def drawn(self, seed):
        """The path of a file with groups drawn at random, which is repacked, and the paths of the groups."""
        lines, groups = drawn_group_lines(random.Random(f"library {seed}"), GROUP)
        path = self.path(f"{seed}.h5")
        output, _ = image_behind(path, empty_image(), today.printed([f"dataset {ARRAY} i16be 4 contiguous fill=-3", *lines, "repack"]))
        self.assertEqual(set(output.splitlines()), {b"ok 0"})
        return path, groups

    def test_it_unlinks_as_the_program(self):
        paths, others = [], []
        for seed in TREES:
            path, groups = self.drawn(seed)
            for at, group in enumerate(groups[:4]):
                others += [self.written(f"{seed}.{at}.theirs.h5", self.read(path)), group]
                paths.append(self.written(f"{seed}.{at}.ours.h5", self.read(path)))
                self.assertEqual(h5i("run", paths[-1], script=f"unlink {group}\n".encode()), (0, b"ok 0\n", b""))
        self.assertEqual(library(DELETE, *others), (0, b"", b""))
        for path, other, text, wanted in zip(paths, others[::2], self.library_texts(paths), self.library_texts(others[::2]), strict=True):
            with self.subTest(path=path):
                self.assertEqual(text, wanted)
                self.assertIsNone(today.same_tree(today.opened(self.read(path))[0].tree, today.opened(self.read(other))[0].tree))

    def test_it_edits_what_is_left(self):
        paths = []
        for seed in TREES:
            path, groups = self.drawn(seed)
            gone = random.Random(f"left {seed}").choice(groups)
            self.assertEqual(h5i("run", path, script=f"unlink {gone}\ngroup {gone}\n".encode()), (0, b"ok 0\n" * 2, b""))
            paths.append(path)
        status, listed, errors = library(LIST, *paths)
        self.assertEqual((status, errors), (0, b""))
        for path, line in zip(paths, listed.splitlines(), strict=True):
            self.assertEqual(json.loads(line), links_of(today.opened(self.read(path))[0].tree))
        self.assertEqual(library(CHANGE, *paths), (0, b"", b""))
        for path in paths:
            # What the library has made goes whole too, but for the array with a second name.
            self.assertEqual(h5i("run", path, script=f"unlink /made\\x20by\nunlink {GROUP}\n".encode()), (0, b"ok 0\n" * 2, b""))
            self.assertEqual(reference("check", path)[:2], (0, b"ok\n"))
            self.assertEqual(h5i("dump", path, "/linked")[1], b"/linked dataset i32le {7} contiguous fill 0\n0 1 2 3 4 5 6\n")
