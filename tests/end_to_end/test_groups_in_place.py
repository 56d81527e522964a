"""Links put into groups and taken out of them where they stand, by calls of the library on images in layouts drawn at random: after each
edit the image is the reference's, and nothing else of it has changed."""

import os
import random
import re

from .drawn_groups import Edits, RootGroup, drawn_group, full_way, group_image, loosened, sparse_group, with_end
from .drawn_images import IMAGES
from .support import TOP, end_field
from .tried import Tried

# pylint: disable=wrong-import-order
from h5oracle.growth import link_bound  # noqa: E402
from h5oracle.values import pad8  # noqa: E402

PROGRAM = os.path.join(TOP, "tests", "calls", "groups.rt.txt")
LIBRARIES = "h5_open h5_group h5_btree h5_space h5_model hex anyhow"
# So many images, and so many edits of each. Behind half of them all links are taken out.
SEEDS = range(max(2, IMAGES // 25))
EDITS = 20
# So many sessions are run by one program, which may not print more than a megabyte.
AT_ONCE = 80
DEEPEST = 15
# Sessions on trees of many empty symbol nodes, where a key between the halves of a node lies outside of those around it above.
SPARSE = (8, 98, 113)
# Bytes up to eight zeros.
RUN = re.compile(rb"[^\0](?:\0{0,7}[^\0])*")


def runs_of(image):
    """The length of an image, and those of its bytes that are not zero, as the program takes them."""
    return " ".join([str(len(image))] + [f"{run.start()}:{run.group().hex()}" for run in RUN.finditer(image)])


def others_of(group):
    """Where bytes stand in an image that are not the group's: the start and the end of each run."""
    at = 0
    for start, length, _ in sorted(group.blocks):
        if at < start:
            yield at, start
        at = start + length
    if at < len(group.image):
        yield at, len(group.image)


class Session:
    """Lines for the program on one image."""

    def __init__(self, name, image, edits, shown=1):
        """The image is shown after each `shown` edits, and at the end."""
        self.name, self.image, self.edits = name, image, edits
        self.lines = [f"open {runs_of(image)}"]
        for at, line in enumerate(edits, 1):
            self.lines += [line, "changes"] if at % shown == 0 or at == len(edits) else [line]


def drawn_session(seed):
    """A session of random edits."""
    rng = random.Random(f"groups {seed}")
    image = drawn_group(rng)
    edits = Edits(rng, image)
    edits.draw(EDITS)
    if seed % 2:
        edits.draw_removals()
    return Session(seed, image, edits.lines)


def sparse_session(seed):
    """A session of random edits on a tree of many empty symbol nodes."""
    rng = random.Random(f"sparse groups {seed}")
    image = sparse_group(rng)
    edits = Edits(rng, image)
    edits.draw(EDITS)
    return Session(f"sparse {seed}", image, edits.lines)


def wide_session(leaf, internal):
    """A session on nodes that may be as wide as they can be. They are zero where they have no entries, so that few bytes change."""
    rng = random.Random(f"wide groups {leaf} {internal}")
    image = loosened(group_image(rng, leaf, internal, 20, 0), rng, 0.5)
    edits = Edits(rng, image)
    edits.draw(EDITS)
    edits.draw_removals()
    return Session(f"leaf K {leaf}, internal K {internal}", image, edits.lines, EDITS)


def rising_session(step):
    """A session on a tree of narrow nodes that rises and falls, twice."""
    rng = random.Random(f"rising groups {step}")
    image = group_image(rng, 1, 1, 0, 0)
    edits = Edits(rng, image)
    for _ in range(2):
        for name in [b"%02d" % number for number in range(30)][::step]:
            edits.insert(name)
        edits.draw_removals()
    return Session(f"rising by {step}", image, edits.lines)


def full_session():
    """A session on a tree in which no way but one is full, which is at the deepest level."""
    rng = random.Random("full groups")
    image = full_way(rng)
    edits = Edits(rng, image)
    for name in (b"ab", b"0", b"zz", b"rr"):
        edits.insert(name)
    edits.unlink(b"b")
    edits.insert(b"aa")
    edits.insert(b"ac")
    edits.draw_removals()
    return Session("full way", image, edits.lines)


class Judge:
    """What a session should have given so far."""

    def __init__(self, test, session):
        self.test, self.first = test, session.image
        self.now = RootGroup(session.image)
        self.root, self.links, self.freed = self.now.nodes[0], dict(self.now.links), set()
        self.levels, self.edits, self.refusals = [self.now.level], 0, 0
        self.changed, self.lengths = False, []
        self.others = list(others_of(self.now))
        self.most = len(session.image)
        # No removal takes these out.
        self.empty = {at for at, entries in self.now.entries.items() if not entries}

    def edit(self, line, answer):
        """An edit was answered so."""
        word, digits, *target = line.split(" ")
        name, there = bytes.fromhex(digits), bytes.fromhex(digits) in self.links
        if answer == "TreeTooDeep" and word != "unlink" and not there:
            self.test.assertEqual(self.levels[-1], DEEPEST)
            self.refusals += 1
            return
        if (word == "unlink") != there:
            self.test.assertEqual(answer, "there" if there else "absent")
            return
        self.test.assertEqual(answer, "ok")
        self.edits, self.changed = self.edits + 1, True
        if word == "unlink":
            del self.links[name]
            return
        self.links[name] = int(target[0]) if word == "hard" else bytes.fromhex(target[0])
        occupied = pad8(len(name) + 1) + (pad8(len(self.links[name]) + 1) if word == "soft" else 0)
        # The segment may be twice as long after each edit.
        heap = max(self.now.heap_size, self.most - len(self.first))
        self.most += link_bound(self.now.reading.superblock, heap, occupied)

    def changes(self, text):
        """Then these bytes of the image had changed."""
        length, *runs = text.split()
        # What is refused changes nothing.
        self.test.assertTrue(self.changed or (int(length), runs) == (len(self.now.image), []), "a refusal changed the image")
        self.changed = False
        before, image = self.now, bytearray(self.now.image.ljust(int(length), b"\0"))
        image[end_field(self.first)] = self.first[end_field(self.first)]
        for run in runs:
            at, digits = run.split(":")
            image[int(at):int(at) + len(digits) // 2] = bytes.fromhex(digits)
        self.now = RootGroup(with_end(bytes(image)))
        self.test.assertEqual(self.now.links, self.links)
        self.levels.append(self.now.level)
        self.lengths.append(len(image))
        self.test.assertEqual(self.now.nodes[0], self.root, "the root moved")
        self.test.assertLessEqual(len(image), self.most)
        self.most = len(image)
        self.assert_kept(image)
        used = self.now.spans()
        self.freed = (self.freed | before.spans()) - used
        self.test.assertEqual(RootGroup(self.now.smudged(self.freed)).links, self.links, "a freed text is still named")

    def assert_kept(self, image):
        """No byte outside of the group's first blocks has changed, and it stands in no other of the first bytes."""
        self.test.assertGreaterEqual(len(image), len(self.first))
        for start, end in self.others:
            self.test.assertEqual(image[start:end], self.first[start:end], f"bytes of others changed between {start} and {end}")
            for at, length, kind in self.now.blocks:
                self.test.assertTrue(at + length <= start or end <= at, f"{kind} at {at} stands elsewhere")

    def end(self):
        """All lines are judged: a group without links is as a new one, but for symbol nodes that were empty at first."""
        if not self.links:
            self.test.assertLessEqual(set(self.now.entries), self.empty)
        if not self.now.entries:
            self.test.assertEqual((self.now.nodes, self.now.level), ([self.root], 0))


class GroupsInPlace(Tried):
    """Runs of a program that calls the library."""

    def test_random_edits(self):
        sessions = [full_session(), wide_session(32767, 1), wide_session(1, 32767)] + [rising_session(step) for step in (1, -1, 7)]
        sessions += [sparse_session(seed) for seed in SPARSE] + [drawn_session(seed) for seed in SEEDS]
        judged = []
        for first in range(0, len(sessions), AT_ONCE):
            judged += self.run_of(sessions[first:first + AT_ONCE])
        self.assertGreater(sum(judge.edits for judge in judged), EDITS * len(SEEDS))
        self.assertTrue(any(max(judge.levels) >= 2 and not judge.links for judge in judged))
        # Of the full way, where a name more would raise the root.
        self.assertGreater(judged[0].refusals, 0)
        for judge in judged[3:6]:
            # What was given back is taken again.
            self.assertEqual(judge.lengths[-1], judge.lengths[len(judge.lengths) // 2 - 1])

    def run_of(self, sessions):
        """The judges of sessions, which the program has run."""
        given = "".join(line + "\n" for session in sessions for line in session.lines)
        with open(PROGRAM, encoding="utf-8") as file:
            status, output, said = self.tried(file.read(), LIBRARIES, given.encode("ascii"))
        self.assertEqual(status, 0, said)
        answers = iter(output.decode("ascii").splitlines())
        judged = [self.judged(session, answers) for session in sessions]
        self.assertIsNone(next(answers, None))
        return judged

    def judged(self, session, answers):
        """The judge of a session, to which these are the next answers."""
        judge = Judge(self, session)
        edit = None
        for line in session.lines[1:]:
            answer = next(answers)
            edit = edit if line == "changes" else line
            with self.subTest(session=session.name, line=edit):
                if line == "changes":
                    judge.changes(answer)
                else:
                    judge.edit(line, answer)
        with self.subTest(session=session.name):
            judge.end()
        return judge
