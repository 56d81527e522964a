"""Objects and links made and taken where their groups stand: after each edit the image holds the reference's tree, and what else of it has changed and
how much it has grown are judged by the reference.
"""

import json
import os
import random
import tempfile
from collections import Counter
from concurrent.futures import ProcessPoolExecutor
from functools import partial

from . import today
from .drawn_groups import RootGroup, drawn_group, loosened
from .drawn_images import IMAGES, linked_image
from .drawn_scripts import LINKS, LineMaker, new_image
from .kept_session import Judge, image_behind, steps
from .support import InFolder, empty_image, end_of_file, h5i, library, patched, reference
from .test_group_scripts import CHANGE, LIST, links_of
from .test_scripts import unwritten

# pylint: disable=wrong-import-order
from h5oracle.foreign import Foreign  # noqa: E402
from h5oracle.growth import link_bound  # noqa: E402
from h5oracle.model import Group, Tree, apply, parent_of  # noqa: E402
from h5oracle.plain import le, write_plain  # noqa: E402
from h5oracle.reader import Superblock, number_at  # noqa: E402
from h5oracle.script import edit_of  # noqa: E402

# So many sessions on new files, and as many on files of others, and lines in each. Behind half of them all links are taken away.
SEEDS = range(max(2, IMAGES // 25))
LINES = 100
DEEPEST = 15
TOO_DEEP, IMAGE_FULL = b"refused 29 TreeTooDeep\n", b"refused 30 ImageFull\n"
LIMIT = 2147483648
# Leaf K and internal K.
KS = [(1, 1), (2, 1), (1, 2), (4, 16)]
# So many names are put in and taken out again, and behind so many of them the usual library has the file.
MANY, APART = 1000, 250
SCATTERED = 4000


class LooseRoot(Foreign):
    """A root group at level 0 with a symbol node for each of two links, and the keys the empty name, m, zz, which no link has."""

    def leaves_of(self, names):
        return [[name] for name in names]

    def keys_of(self, names, spans, leaves):
        return [b"", b"m", b"zz"]


def loose_root(leaf, internal):
    """An image of such a group with soft links a and z."""
    tree = Tree.root_alone()
    tree.objects[0].links = {b"a": ("soft", b"/1"), b"z": ("soft", b"/2")}
    return LooseRoot(tree, Superblock(0, leaf, internal, 32, 0, 0), random.Random(1), wild=0).write()


def image_of_others(rng):
    """An image in a layout drawn at random, whose keys name any text that they may."""
    if rng.random() < 0.5:
        return drawn_group(rng)
    image = linked_image(rng)
    return loosened(image[:end_of_file(image)], rng, rng.choice([0, 0.3, 0.9]))


def drawn_lines(rng, image, kinds, to_the_end):
    """Random lines of these kinds on an image: of each its answer, whether it is an edit, and one in place, and the tree behind it. At the
    end they take all links away, where this is wanted.
    """
    maker = LineMaker(rng, image, kinds | dict(unlink=kinds["unlink"] * rng.choice([0.25, 1, 2])))

    def told(line, ran):
        return line, *ran, maker.is_last_in_place, maker.session.tree.copy()

    for _ in range(LINES):
        yield told(*maker.line())
    if to_the_end:
        for ran in maker.unlink_all():
            yield told(*ran)


def link_count(tree):
    """How many links a tree has."""
    return sum(len(thing.links) for thing in tree.objects.values() if isinstance(thing, Group))


def judged(word, kinds, image_of, seed):
    """What is wrong with a random session, line by line, and how many edits of each kind it makes: those that take several links away count
    as `whole`. The word and the seed draw it.
    """
    rng = random.Random(f"{word} {image_of.__name__} {seed}")
    image = image_of(rng)
    wanted = list(drawn_lines(rng, image, kinds, seed % 2))
    judge, made = Judge(image), Counter()
    with tempfile.TemporaryDirectory() as folder:
        for step, (_, answer, edited, is_in_place, tree) in zip(steps(os.path.join(folder, "e.h5"), image, [line for line, *_ in wanted]), wanted):
            if edited and is_in_place and step.answer == TOO_DEEP:
                # Then the reference's tree has one edit more.
                group = parent_of(judge.reading.tree, edit_of(step.line.split(b" ")).path)
                deep = judge.reading.facts[group]["level"] == DEEPEST and step.before == step.after
                return [] if deep else [(step.line, ["no tree is as deep"])], made
            links = link_count(judge.reading.tree)
            wrong = [] if step.answer == answer else [f"it is answered {step.answer}"]
            wrong += judge.wrong_with(step, edited, is_in_place, tree)
            if wrong:
                return [(step.line, wrong)], made
            made[b"whole" if link_count(tree) < links - 1 else step.line.split(b" ")[0]] += is_in_place
    return [], made


class Sessions(InFolder):
    """Random sessions, each edit of which is judged."""

    def assert_all_right(self, *words):
        """Nothing is wrong in any session that `judged` draws of these words, and many lines are edits: how many of each kind."""
        made = Counter()
        with ProcessPoolExecutor() as pool:
            for seed, (wrong, edits) in zip(SEEDS, pool.map(partial(judged, *words), SEEDS)):
                with self.subTest(seed=seed):
                    self.assertEqual(wrong, [])
                made += edits
        self.assertGreater(made.total(), LINES // 3 * len(SEEDS))
        return made


class RandomSessions(Sessions):
    """Sessions of all edits of links, with attributes and creates between them."""

    def test_on_new_files(self):
        self.assert_all_right("links", LINKS, new_image)

    def test_on_files_of_others(self):
        self.assert_all_right("links", LINKS, image_of_others)


class Judged(InFolder):
    """Scripts whose lines are all accepted."""

    def assert_in_place(self, image, lines):
        """Each line is an edit in place, and rightly made in one session: the image behind the last."""
        judge, after = Judge(image), image
        tree = judge.reading.tree.copy()
        for step in steps(self.path("judged.h5"), image, [line.encode() for line in lines]):
            with self.subTest(line=step.line):
                self.assertEqual(step.answer, b"ok 0\n")
                apply(tree, edit_of(step.line.split(b" ")), max(tree.objects) + 1)
                self.assertEqual(judge.wrong_with(step, True, True, tree), [])
            after = step.after
        return after

    def assert_empty(self, image, root):
        """The root group has no links, and its tree is where it was."""
        group = RootGroup(image)
        self.assertEqual((group.links, group.nodes, group.level, group.entries), ({}, [root], 0, {}))


class LooseKeys(Judged):
    """A root group of others, with keys that no link has."""

    def test_soft_links(self):
        names = ["a", "m", "n", "z", "zzz"]
        for leaf, internal in KS:
            with self.subTest(leaf=leaf, internal=internal):
                image = loose_root(leaf, internal)
                root = RootGroup(image).nodes[0]
                after = self.assert_in_place(image, [f"soft t /{name}" for name in ("m", "n", "zzz")])
                path = self.written("loose.h5", after)
                texts = {"a": "/1", "z": "/2"}
                self.assertEqual(h5i("ls", path)[1], today.printed(["/ group"] + [f"/{name} soft {texts.get(name, 't')}" for name in names]))
                self.assertEqual(RootGroup(after).nodes[0], root)
                self.assert_empty(self.assert_in_place(after, [f"unlink /{name}" for name in names]), root)

    def test_each_order_of_removal(self):
        for seed in range(12):
            rng = random.Random(f"removed {seed}")
            lines, names = [f"soft t /{name}" for name in ("m", "n", "zzz")], ["a", "m", "n", "z", "zzz"]
            rng.shuffle(names)
            image = loose_root(*KS[seed % len(KS)])
            with self.subTest(names=names):
                self.assert_empty(self.assert_in_place(image, lines + [f"unlink /{name}" for name in names]), RootGroup(image).nodes[0])

    def test_groups(self):
        names = ["m", "n", "zzz"]
        for leaf, internal in KS:
            with self.subTest(leaf=leaf, internal=internal):
                image = loose_root(leaf, internal)
                after = self.assert_in_place(image, [f"group /{name}" for name in names])
                lines = ["/ group", "/a soft /1", "/m group", "/n group", "/z soft /2", "/zzz group"]
                self.assertEqual(h5i("ls", self.written("e.h5", after))[1], today.printed(lines))
                root = RootGroup(image).nodes[0]
                self.assertEqual(RootGroup(after).nodes[0], root)
                self.assert_empty(self.assert_in_place(after, [f"unlink /{name}" for name in ("a", "m", "n", "z", "zzz")]), root)


class Blocks(Judged):
    """What an unlink gives back."""

    def assert_taken_again(self, lines, *gone):
        """Behind these lines the objects at these paths are taken away, and links are made in their place: the image keeps its length."""
        output, image = image_behind(self.path("e.h5"), empty_image(), today.printed(["dataset /kept u8 1 compact", *lines]))
        self.assertNotIn(b"refused", output)
        links = [f"link /kept /n{number:02}" for number in range(40)]
        after = self.assert_in_place(image, [*(f"unlink {path}" for path in gone), *links])
        self.assertEqual(len(after), len(image))
        # The same links need more room where nothing was given back.
        self.assertGreater(len(self.assert_in_place(image, links)), len(image))

    def test_a_block_of_cells(self):
        self.assert_taken_again(["dataset /gone u8 4000 contiguous"], "/gone")

    def test_chunks_and_the_nodes_over_them(self):
        # The two nodes of 64 chunks each, and the one above them, have 2096 bytes each.
        cells = ",".join(["1"] * 100)
        self.assert_taken_again(["dataset /gone u8 100/inf chunked:1", f"write /gone 0 1 100 1 {cells}"], "/gone")

    def test_a_header_with_cells(self):
        self.assert_taken_again(["dataset /gone u8 4000 compact"], "/gone")

    def test_a_block_of_attributes(self):
        cells = ",".join(["1"] * 4000)
        output, image = image_behind(self.path("e.h5"), empty_image(), today.printed(["dataset /kept u8 1 compact", "dataset /gone u8 1 compact"]))
        self.assertEqual(output, b"ok 0\n" * 2)
        lines = [f"attr /gone a u8 4000 {cells}", "unlink /gone"]
        links = [f"link /kept /n{number:02}" for number in range(40)]
        self.assertEqual(len(self.assert_in_place(image, lines + links)), len(self.assert_in_place(image, lines[:1])))

    def test_groups(self):
        paths = [f"/group{number}" for number in range(6)]
        self.assert_taken_again([f"group {path}" for path in paths], *paths)

    def test_a_name_that_comes_and_goes(self):
        image = image_behind(self.path("e.h5"), empty_image(), b"dataset /d u8 1 compact\n")[1]
        # Of a heap eight bytes alone would stay unused.
        rounds = ["link /d /of_an_array", "soft /no_short_text /of_a_text", "unlink /of_an_array", "unlink /of_a_text"]
        once = self.assert_in_place(image, rounds)
        output, after = image_behind(self.path("e.h5"), image, today.printed(rounds * 1000))
        self.assertEqual((output, len(after)), (b"ok 0\n" * 4000, len(once)))


class Names(InFolder):
    """Many links."""

    def test_300_names_of_one_array(self):
        names = [f"n{number:03}" for number in range(300)]
        path = self.path("e.h5")
        image = image_behind(path, empty_image(), b"group /g\ndataset /d u8 1 compact\n")[1]
        root = self.tree_of_g(image)
        made = today.printed(f"link /d /g/{name}" for name in names)
        output, image = image_behind(path, image, made)
        reading = today.opened(image)[0]
        group = reading.tree.objects[0].links[b"g"][1]
        self.assertEqual((output, self.tree_of_g(image)), (b"ok 0\n" * 300, root))
        self.assertGreaterEqual(reading.facts[group]["level"], 1)
        self.assertEqual(reading.tree.counts[reading.tree.objects[0].links[b"d"][1]], 301)
        rest, script, answers = set(names), [], []
        for name in [names[number] for pair in zip(range(149, -1, -1), range(150, 300)) for number in pair]:
            rest.remove(name)
            script += [f"unlink /g/{name}", "ls"]
            answers += ["ok 0", "/ group", "/d dataset u8 {1}", "/g group", *(f"/g/{left} dataset u8 {{1}}" for left in sorted(rest))]
        output, image = image_behind(path, image, today.printed(script))
        self.assertEqual(output, today.printed(answers))
        reading = today.opened(image)[0]
        self.assertEqual((reading.facts[group]["level"], reading.tree.objects[group].links), (0, {}))
        self.assertEqual((self.tree_of_g(image), number_at(image, root + 6, 2)), (root, 0))
        self.assertEqual(reading.tree.counts[reading.tree.objects[0].links[b"d"][1]], 1)

    def tree_of_g(self, image):
        """Where the root of the tree of /g stands."""
        reading = today.opened(image)[0]
        group = reading.tree.objects[0].links[b"g"][1]
        return next(at for (at, _, kind), owner in zip(reading.blocks, reading.owners) if owner == group and kind == "tree node")

    def test_in_a_scattered_order(self):
        """The names come in an order that looks like chance, and every second of them goes."""
        path, names = self.new(), [f"{number * 2654435769 % (1 << 32):08x}" for number in range(SCATTERED)]
        script = ["dataset /d u8 1 compact", *(f"link /d /{name}" for name in names), *(f"unlink /{name}" for name in names[::2])]
        self.assertEqual(h5i("run", path, script=today.printed(script)), (0, b"ok 0\n" * len(script), b""))
        reading, refused = today.opened(self.read(path))
        self.assertIsNone(refused)
        links = {b"d": ("object", 1)} | {name.encode(): ("object", 1) for name in names[1::2]}
        self.assertEqual((reading.tree.objects[0].links, reading.tree.counts[1]), (links, 1 + SCATTERED // 2))

    def test_the_library_reads_and_edits_at_any_moment(self):
        rng = random.Random("moments")
        script, names, number = ["dataset /d i16be 2,3 contiguous fill=-2", "group /g"], [], 0
        while len(script) < MANY + 2:
            if names and rng.random() < 0.45:
                script.append(f"unlink /g/{names.pop(rng.randrange(len(names)))}")
                continue
            number += 1
            names.append(f"{rng.randrange(1000)}.{number}")
            script.append(rng.choice([f"link /d /g/{names[-1]}", f"soft /d /g/{names[-1]}"]))
        moments, paths = range(2 + APART, len(script) + 1, APART), []
        for moment in moments:
            output, image = image_behind(self.path(f"{moment}.h5"), empty_image(), today.printed(script[:moment]))
            self.assertEqual(output, b"ok 0\n" * moment)
            paths.append(self.path(f"{moment}.h5"))
            session = today.session_of(empty_image())
            today.answers(session, today.printed(script[:moment]))
            self.assertIsNone(today.same_tree(today.opened(image)[0].tree, session.tree))
        status, listed, errors = library(LIST, *paths)
        self.assertEqual((status, errors), (0, b""))
        for path, line in zip(paths, listed.splitlines(), strict=True):
            self.assertEqual(json.loads(line), links_of(today.opened(self.read(path))[0].tree))
        self.assertEqual(library(CHANGE, *paths), (0, b"", b""))
        for path in paths:
            tree = today.opened(self.read(path))[0].tree
            left = [name.decode() for name in sorted(tree.objects[tree.objects[0].links[b"g"][1]].links)]
            output = h5i("run", path, script=today.printed(f"unlink /g/{name}" for name in left) + b"soft x /made\\x20by/s\n")[1]
            self.assertEqual(output, b"ok 0\n" * (len(left) + 1))
            self.assertEqual(reference("check", path)[:2], (0, b"ok\n"))


class Limits(InFolder):
    """Trees that are too deep, and images that are too long."""

    def test_a_full_way_to_a_name(self):
        tree = Tree.root_alone()
        # All symbol nodes but the last have two names, and all nodes above them two children.
        tree.objects[0].links = {b"%06d" % number: ("soft", b"t") for number in range(131071)}
        image = write_plain(tree, Superblock(0, 1, 1, 32, 0, 0))
        root = RootGroup(image).nodes[0]
        script = ["soft t /!", "group /!", "dataset /! u8 1 contiguous", "soft t /0000045", "unlink /000004", "soft t /0000045", "soft t /!", "soft t /x", "soft t /y", "unlink /131070", "unlink /x"]
        deep = TOO_DEEP.decode().strip()
        answers = [deep] * 4 + ["ok 0", "ok 0", deep, "ok 0", deep, "ok 0", "ok 0"]
        path = self.written("deep.h5", image)
        self.assertEqual(h5i("run", path, script=today.printed(script[:4])), (1, today.printed(answers[:4]), b""))
        self.assertTrue(self.read(path) == image)
        self.assertEqual(h5i("run", path, script=today.printed(script)), (1, today.printed(answers), b""))
        group = RootGroup(self.read(path))
        links = {name: text for name, (_, text) in tree.objects[0].links.items()} | {b"0000045": b"t"}
        del links[b"000004"], links[b"131070"]
        self.assertTrue(group.links == links)
        self.assertEqual((group.nodes[0], group.level), (root, DEEPEST))

    def test_an_image_that_may_grow_too_long(self):
        # A group's segment has 88 bytes. Of a name, and of a text, a multiple of 8 bytes is occupied, with a zero byte.
        longest = LIMIT - link_bound(Superblock.fresh(), 88, 16)
        lines = {b"link /d /e": 8, b"link /d /nine_byte": 16, b"soft t /s": 16, b"soft nine_byte /s": 24, b"link /d /sixteen_bytes_aa": 24}
        made = image_behind(self.path("one.h5"), empty_image(), b"dataset /d u8 1 contiguous\nrepack\n")[1]
        for length, most in ((longest, 16), (longest + 1, 8)):
            image, cells = made, length - 1248
            for at, number in ((40, length), (1128 + 32, cells), (1128 + 106, cells)):
                image = patched(image, at, le(number, 8).hex())
            path = self.written("long.h5", image)
            os.truncate(path, length)
            script, answers = b"", b""
            for line, occupied in lines.items():
                script += line + b"\nunlink /" + line.rpartition(b"/")[2] + b"\n"
                answers += b"ok 0\nok 0\n" if occupied <= most else IMAGE_FULL + b"refused 6 NotFound\n"
            # An unlink is never refused for the length.
            with self.subTest(length=length):
                self.assertEqual(unwritten(path, script + b"unlink /d\nls\n"), (4, answers + b"ok 0\n/ group\n"))
            os.remove(path)
