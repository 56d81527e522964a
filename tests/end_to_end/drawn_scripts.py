"""Lines of scripts drawn at random, by following what the reference answers to them; and the files that the program makes of them."""

import random
from concurrent.futures import ProcessPoolExecutor
from dataclasses import dataclass
from functools import partial

from . import today
from .drawn_groups import LETTERS, link_text
from .drawn_images import CHUNK_KS, linked_image
from .stored_cells import with_cells
from .support import InFolder, empty_image, empty_image_1, h5i

# pylint: disable=wrong-import-order
from h5oracle.model import Dataset, Tree, Write, new_boxes, object_at, refusal  # noqa: E402
from h5oracle.script import BadLine, edit_of, escape, path_text  # noqa: E402
from h5oracle.values import TYPES, product  # noqa: E402
from randscript import Maker  # noqa: E402

# How often each kind of line is drawn where groups and links are made.
GROUPS = dict(group=16, many=24, line=12, link=14, soft=12, attr=8, unattr=3, dump=8, dataset=2, bad=6, note=1, write=1, unlink=1)
# And where arrays of every form are made beside them, and all is repacked at times.
ARRAYS = dict(dataset=30, group=8, many=12, link=10, soft=6, attr=10, unattr=4, dump=12, root=2, ls=1, repack=3, bad=6, note=1, write=1, unlink=1,
              resize=1, view=1)
# Where objects and links are made and taken, and now and then cells are written, and an array resized.
LINKS = dict(near=40, link=14, soft=10, unlink=30, many=8, group=8, line=5, dataset=5, attr=5, unattr=3, bad=3, write=3, resize=1)
# Where cells are written, and arrays resized.
WRITES = dict(dataset=14, write=40, resize=14, dump=14, unlink=3, link=5, soft=2, group=4, attr=4, unattr=2, root=1, ls=1, repack=2, bad=5, note=1)
# Where little else is done, and each edit is judged.
CHUNKS = dict(dataset=12, write=48, resize=26, unlink=5, link=3, soft=2, group=3, attr=3, unattr=2, repack=1, bad=2)
# And where views are open meanwhile.
VIEWS = WRITES | dict(view=16, show=30, close=4, dump=5)
# Where groups of all kinds of things, at any depth, are unlinked whole, and arrays of them are linked elsewhere and viewed.
WHOLE = dict(group=24, many=12, near=8, dataset=12, link=22, soft=5, whole=10, unlink=3, write=12, resize=5, attr=4, unattr=1, view=8, show=14, close=1,
             repack=1, bad=2)
# A chunk of more bytes, which the program takes, would be in each image behind the write that stores it.
LARGE_CHUNK, LARGEST_CHUNK = 1 << 16, 1 << 30
# Where nothing else is done, so that most writes are made in a file as others have laid it out.
CELLS = dict(write=6, dump=1, view=2, show=2)


@dataclass
class Drawn:
    """An image, a script that edits it, and what comes of it by the reference."""

    image: bytes
    script: bytes
    answers: bytes
    tree: Tree
    # The file behind it: the plain image behind a `repack`, else the old one, in both but for stored cells that were written; None where
    # other edits were made since.
    after: bytes | None
    edits: int

    def is_judged(self):
        """Whether the file is edited, and all its bytes are known."""
        return self.edits > 0 and self.after is not None

    def stores(self):
        """How the cells of the arrays are stored, and of how many dimensions they are."""
        return {(thing.store, len(thing.dims)) for thing in self.tree.objects.values() if isinstance(thing, Dataset)}


def new_image(rng):
    """The image of an empty file: as it is made, or with a superblock of version 1."""
    return empty_image() if rng.random() < 0.5 else empty_image_1(rng.choice(CHUNK_KS))


class LineMaker(Maker):
    """Draws lines of some kinds."""

    def __init__(self, rng, image, kinds):
        super().__init__(rng, today.session_of(image))
        self.kinds, self.image = kinds, image
        # The image was repacked, and edits that do more than write stored cells were made since.
        self.repacked = self.set = False
        # The last line was an edit that was made in place.
        self.is_last_in_place = False

    def line(self):
        """The next line, which is also run: the line, its answer, and whether an edit was accepted."""
        kind = self.rng.choices(list(self.kinds), list(self.kinds.values()))[0]
        line = getattr(self, "make_" + kind)()
        return self.run(line.encode("ascii") if isinstance(line, str) else line)

    def run(self, line):
        """Runs a line: the line, its answer, and whether an edit was accepted."""
        edit = self.accepted_edit(line)
        stored = isinstance(edit, Write) and self.are_stored(edit)
        text, edited = today.answers(self.session, line + b"\n")
        self.is_last_in_place = edited and edit is not None
        if self.is_last_in_place:
            self.set |= not stored
        elif edited:
            self.repacked, self.set = True, False
        return line, (text, edited)

    def after(self):
        """The image behind the lines so far, and `None` where edits were made in place that do more than write stored cells."""
        if self.set:
            return None
        return self.session.image() if self.repacked else with_cells(self.image, self.session.tree)

    def accepted_edit(self, line):
        """The edit of a line, if there is one and no rule of the tree refuses it."""
        try:
            edit = edit_of(line.split(b" "))
        except BadLine:
            return None
        return None if edit is None or refusal(self.session.tree, self.session.given, edit) else edit

    def are_stored(self, edit):
        """Whether all cells that the edit writes are stored."""
        thing = self.session.tree.objects[object_at(self.session.tree, edit.path)]
        if thing.store == "chunked":
            return not new_boxes(self.session.tree, edit)
        return thing.flat is not None or not edit.hyper.cells()

    def make_dataset(self):
        """A new array, whose chunks are small, or larger than any may be."""
        while True:
            line = super().make_dataset()
            sizes = line.split(" ")[4].removeprefix("chunked:")
            if sizes[0].isdecimal() and LARGE_CHUNK < 8 * product(map(int, sizes.split(","))) <= 8 * LARGEST_CHUNK:
                continue
            return line

    def make_near(self):
        """A link whose name is near another of its group, to an array or to a text that stands among the names."""
        group = self.group_path()
        names = self.session.tree.objects[object_at(self.session.tree, b"/" + b"/".join(group))].links
        near = self.pick(sorted(names), b"") if self.odd(0.6) else b""
        path = path_text(group + (near + bytes([self.pick(LETTERS)]),))
        target = self.pick(self.links(self.is_dataset))
        if target and self.odd(0.4):
            return f"link {path_text(target[0])} {path}"
        return f"soft {escape(link_text(self.rng))} {path}"

    def is_full(self, link):
        """The link leads to a group that has links."""
        return link[0] == "object" and self.session.tree.is_group(link[1]) and self.session.tree.objects[link[1]].links

    def make_whole(self):
        """unlink of a group that has links, or a new group where there is none"""
        full = self.pick(self.links(self.is_full))
        return f"unlink {path_text(full[0])}" if full else self.make_group()

    def unlink_all(self):
        """Runs lines that take all links away, in any order; few are of groups that have links. What `run` gives of each."""
        while links := self.links():
            bare = [(names, link) for names, link in links if not self.is_full(link)]
            yield self.run(f"unlink {path_text(self.pick(links if self.odd(0.1) else bare)[0])}".encode("ascii"))

    def make_root(self):
        """dump of the root"""
        return "dump /"

    def make_line(self):
        """A contiguous array of one size."""
        fixed = self.pick(TYPES.values())
        fill = f" fill={self.value(fixed)}" if self.odd(0.4) else ""
        return f"dataset {self.new_path()} {fixed.text()} {self.rng.randrange(9)} contiguous{fill}"


def drawn(seed, name, kinds, lines, others=False):
    """A script of so many lines of these kinds. Every other image is an empty file, or none where `others` is true. The rest have a
    layout drawn at random.
    """
    rng = random.Random(f"{name} {seed}")
    return drawn_on(linked_image(rng) if seed % 2 or others else new_image(rng), rng, kinds, lines)


def drawn_on(image, rng, kinds, lines):
    """A script of so many lines of these kinds that edits an image."""
    maker = LineMaker(rng, image, kinds)
    made = [maker.line() for _ in range(lines)]
    edits = sum(edited for _, (_, edited) in made)
    return Drawn(image, b"".join(line + b"\n" for line, _ in made), b"".join(text for _, (text, _) in made), maker.session.tree,
                 maker.after() if edits else image, edits)


class DrawnScripts(InFolder):
    """Scripts that are drawn, run by the program."""

    def assert_right(self, one):
        """The answers, the tree and the bytes of a script's file."""
        path = self.written("e.h5", one.image)
        self.assertEqual(h5i("run", path, script=one.script), (today.status_of(one.answers), one.answers, b""))
        after = self.read(path)
        self.assertTrue(one.after in (None, after))
        reading, refusal = today.opened(after)
        self.assertIsNone(refusal)
        self.assertIsNone(today.same_tree(reading.tree, one.tree))
        self.assertEqual(h5i("ls", path), (0, today.listing(one.tree), b""))

    def assert_all_right(self, seeds, *words, **options):
        """All scripts that `drawn` makes of the seeds and these words: how many edits are accepted, how arrays are stored, and how
        many of the edited files are judged byte by byte.
        """
        edits, stores, judged = 0, set(), 0
        with ProcessPoolExecutor() as pool:
            for seed, one in enumerate(pool.map(partial(drawn_of, words, options), seeds)):
                with self.subTest(seed=seed):
                    self.assert_right(one)
                edits, stores, judged = edits + one.edits, stores | one.stores(), judged + one.is_judged()
        return edits, stores, judged


def drawn_of(words, options, seed):
    """The script that `drawn` makes of a seed and these words."""
    return drawn(seed, *words, **options)
