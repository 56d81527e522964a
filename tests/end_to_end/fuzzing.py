"""Cases drawn at random, by which the library for C is held to the reference: an image, and script lines and edits on it.

A case is drawn from its seed and the files that are given. Its image is one of these files as it is, in another layout, or changed in
a few bytes; where no file is given, it is drawn too. The library opens or refuses it as the reference does. Then lines run on it, and
each is answered as the reference answers it. An edit goes as a line, or by its own call. The cells of each view that is opened are
read as well. An edit in place is judged byte by byte. At the end calls ask what stands at paths, and read arrays. The image opens
again, and holds the reference's tree.
"""

import random

from . import today
from .drawn_images import linked_image, small_image
from .drawn_scripts import ARRAYS, GROUPS, LINKS, VIEWS, WHOLE, WRITES, LineMaker

# pylint: disable=wrong-import-order
from h5oracle.foreign import random_superblock, write_foreign  # noqa: E402
from h5oracle.model import Hyper, object_at, selected  # noqa: E402
from h5oracle.plain import write_plain  # noqa: E402
from h5oracle.script import BadLine, edit_of, hyper_of, unescape  # noqa: E402
from h5oracle.values import OpenFault  # noqa: E402
from mutate import base_image, mutant  # noqa: E402
from randscript import MOODS  # noqa: E402

KINDS = [GROUPS, LINKS, LINKS, WHOLE, WHOLE, ARRAYS, WRITES, VIEWS, VIEWS, *MOODS.values()]
MOST_LINES = 40
# A larger file is taken as it is or changed, but not laid out anew; and its edits in place are judged by their trees alone.
LARGE = 200000
# So many paths are asked for at the end, and an array of so many cells is read.
MOST_PATHS, MOST_CELLS = 12, 4096
# So much of an answer is shown, and so much is told of what is wrong with an edit in place.
SHOWN, TOLD = 200, 3


def relaid(image, rng):
    """The tree of an image in a layout drawn at random; the image itself where it is refused."""
    reading, refusal = today.opened(image)
    if refusal or len(image) > LARGE:
        return image
    if rng.random() < 0.3:
        return write_plain(reading.tree, reading.superblock)
    return write_foreign(reading.tree, rng, random_superblock(rng), wild=rng.random())


def drawn_image(seed, rng, images):
    """The image of a case."""
    if images:
        image = images[seed % len(images)]
        image = relaid(image, rng) if rng.random() < 0.5 else image
    else:
        image = rng.choice([linked_image, small_image, lambda rng: base_image(rng, False), lambda rng: base_image(rng, True)])(rng)
    return mutant(image, rng) if rng.random() < 0.5 else image


def short(found):
    """What was found as it is shown."""
    text = repr(found)
    return text if len(text) <= SHOWN else f"{text[:SHOWN]} and {len(text) - SHOWN} more"


def differ(what, ours, theirs):
    """What differs, with both answers; nothing where they are one."""
    return None if ours == theirs else f"{what}: the library has {short(ours)}, the reference {short(theirs)}"


def status_of(answer):
    """The status of an edit by the call of its own, by its answer as a line."""
    return int(answer.split()[1]) if answer.startswith(b"refused ") else 0


def asked_of(tree, link):
    """What stands at a link: its kind; of a soft link the text; of a group the names of its links, each with a zero byte behind it; of an
    array its form. Of the last two the attributes with their types, sizes and stored bytes.
    """
    if link[0] == "soft":
        return "soft link", link[1]
    thing = tree.objects[link[1]]
    attributes = [(name, attr.fixed, attr.dims, b"".join(map(attr.fixed.encode, attr.values))) for name, attr in sorted(thing.attrs.items())]
    if tree.is_group(link[1]):
        return "group", b"".join(name + b"\0" for name in sorted(thing.links)), attributes
    return "array", thing.fixed, thing.dims, thing.maxima, thing.store, thing.chunk and tuple(thing.chunk), thing.fill, attributes


def whole(thing):
    """The selection of all cells of an array."""
    ones = (1,) * len(thing.dims)
    return Hyper((0,) * len(thing.dims), ones, thing.dims, ones)


class Case:
    """A case: its image, and the lines that were drawn so far."""

    def __init__(self, seed, images):
        self.rng = random.Random(f"fuzz {seed}")
        self.image, self.lines = drawn_image(seed, self.rng, images), []

    def difference(self, library):
        """What the library does otherwise than the reference, or `None`."""
        session, refused = library.opened(self.image)
        try:
            today.reader.open_image(self.image)
        except OpenFault as fault:
            return differ("opening", refused and b"%d at %d" % refused, b"%d at %d" % (fault.number, fault.address))
        if refused:
            return differ("opening", b"%d at %d" % refused, b"a tree")
        try:
            return self.on_lines(session) or self.at_the_end(session, library)
        finally:
            session.close()

    def on_lines(self, session):
        """What is answered otherwise to a line. The case ends without a word at another answer than the reference's where that is in doubt."""
        self.maker = LineMaker(self.rng, self.image, self.rng.choice(KINDS))
        for _ in range(self.rng.randrange(MOST_LINES)):
            before, doubts = session.image(), len(self.maker.session.doubts)
            line, (wanted, edited) = self.maker.line()
            self.lines.append(line)
            found = self.on_line(session, line, wanted)
            if found and len(self.maker.session.doubts) > doubts:
                return None
            found = found or self.on_bytes(before, session, line, edited)
            if found:
                return f"line {len(self.lines)}, {short(line)}: {found}"
        return None

    def on_line(self, session, line, wanted):
        """What is answered otherwise to a line of a script, or to the call of the edit that it has."""
        try:
            edit = None if wanted == b"bad line\n" or self.rng.random() < 0.5 else edit_of(line.split(b" "))
        except BadLine:
            edit = None
        status = None if edit is None else session.edit(edit)
        if status is not None:
            return differ("its call", b"%d" % status, b"%d" % status_of(wanted))
        if line.startswith(b"view ") and not wanted.startswith((b"bad line", b"fault")):
            return self.on_read(session, line, wanted) or differ("its answer", session.run(line + b"\n"), wanted)
        return differ("its answer", session.run(line + b"\n"), wanted)

    def on_read(self, session, line, wanted):
        """What is read otherwise of the cells that a view has been opened of."""
        path, *lists = line.split(b" ")[1:]
        path, hyper, cells = unescape(path), hyper_of(lists), b""
        if wanted.startswith(b"view "):
            fixed = self.maker.session.tree.objects[object_at(self.maker.session.tree, path)].fixed
            cells = b"".join(map(fixed.encode, self.maker.session.show(int(wanted.split()[1]))[2]))
        status, found = session.read(path, hyper, len(cells))
        return differ("its read", b"%d" % status, b"%d" % status_of(wanted)) or differ("its cells", found, cells)

    def on_bytes(self, before, session, line, edited):
        """What an edit in place changed that it may not, and any other line but an edit."""
        after = session.image()
        if not edited:
            return None if after == before else "it has changed the image"
        if self.maker.is_last_in_place and len(before) <= LARGE:
            wrong = today.wrong_with(before, after, line)
            return "; ".join(wrong[:TOLD] + [f"{len(wrong) - TOLD} more"] * (len(wrong) > TOLD)) or None
        return None

    def on_calls(self, session):
        """What is told otherwise of some paths, or read otherwise of the arrays there."""
        tree = self.maker.session.tree
        links = list(tree.walk())
        for names, link in self.rng.sample(links, min(MOST_PATHS, len(links))):
            path = b"/" + b"/".join(names)
            found = differ("what is told", session.asked(path), asked_of(tree, link))
            if not found and link[0] == "object" and not tree.is_group(link[1]) and tree.objects[link[1]].cells() <= MOST_CELLS:
                thing = tree.objects[link[1]]
                cells = b"".join(thing.fixed.encode(thing.cell(index)) for index in selected(whole(thing)))
                found = differ("what is read", session.read(path, whole(thing), len(cells)), (0, cells))
            if found:
                return f"at {short(path)} behind all lines: {found}"
        return None

    def at_the_end(self, session, library):
        """What is wrong behind all lines."""
        wrong = self.on_calls(session)
        if wrong:
            return wrong
        image = session.image()
        reading, refusal = today.opened(image)
        if refusal:
            return f"the image behind all lines is refused: {refusal}"
        unlike = today.same_tree(reading.tree, self.maker.session.tree)
        if unlike:
            return f"the image behind all lines has another tree: {unlike}"
        again, refused = library.opened(image)
        if refused:
            return f"the library refuses its own image: {refused}"
        try:
            return differ("its listing", again.run(b"ls\n"), today.listing(self.maker.session.tree))
        finally:
            again.close()
