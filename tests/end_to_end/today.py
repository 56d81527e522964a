"""The reference implementation, as the tests ask it.

Which images are opened, what is listed and dumped of them, and what is answered to scripts is the reference's own answer.
"""

import os
import sys

from . import support

sys.path.insert(0, os.path.dirname(support.REFERENCE))

# pylint: disable=wrong-import-position
from h5oracle import judge, model, reader  # noqa: E402
from h5oracle.script import attr_line, dump_lines, ls_lines, path_text, run_script, tree_text, unescape  # noqa: E402, F401
from h5oracle.session import Session  # noqa: E402
from h5oracle.values import OpenFault  # noqa: E402

# How lines begin that count as refused.
REFUSED = (b"bad line", b"refused ", b"fault ")


def opened(data):
    """The reading of an image, or what `h5i` says where it is refused: number, name and address."""
    try:
        return reader.open_image(data), None
    except OpenFault as fault:
        return None, str(fault)


def wrong_with(before, after, line):
    """What is wrong with an edit in place by a line of a script: nothing where its list is empty."""
    return judge.step(before, after, line)


def kept_bodies(thing):
    """The bodies of an object's attributes of versions 2 and 3, which are kept as they stand, by name."""
    return {name: attribute.raw for name, attribute in thing.attrs.items() if attribute.raw is not None}


def same_tree(one, other):
    """What differs between two trees, numbers aside, or `None`. The bodies that are kept differ in no byte."""
    unlike = model.same_tree(one, other)
    if unlike:
        return unlike
    for (names, (kind, ours)), (_, (_, theirs)) in zip(one.walk(), other.walk()):
        if kind == "object" and kept_bodies(one.objects[ours]) != kept_bodies(other.objects[theirs]):
            return f"the body of an attribute of {path_text(names)}"
    return None


def printed(lines):
    """Lines as the program prints them."""
    return "".join(line + "\n" for line in lines).encode("ascii")


def listing(tree):
    """What `ls` prints."""
    return printed(ls_lines(tree))


def dump(tree, path):
    """What `dump` prints of a path that leads to something."""
    return printed(dump_lines(tree, path))


def read_by_the_library(tree):
    """What the usual library reads of a file with this tree. It does not tell of kept messages, nor whether contiguous cells are stored."""
    return printed(line for line in tree_text(tree) if line != "not stored" and not line.startswith("%"))


def attributes(thing):
    """The attributes of an object as `dump` prints them."""
    return [attr_line(thing.attrs[name]) for name in sorted(thing.attrs)]


def answers(session, script):
    """The answers to a script, and whether an edit, or `repack`, was accepted."""
    run = run_script(session, script)
    return run.output(), run.edits > 0


def plain_after(image, script):
    """The plain image behind a script that edits this one, or `None` where the file may have another layout: `repack` alone writes a plain
    image, and all edits are made where things stand.
    """
    session = session_of(image)
    plain = image == session.image()
    for line in script.split(b"\n"):
        if answers(session, line + b"\n")[1]:
            plain = line == b"repack"
    return session.image() if plain else None


def unlike(after, image, script):
    """What is wrong with the file behind a script that edits an image: `None` where it is plain and has these bytes, or where it has another
    layout and holds the tree that the reference gives.
    """
    wanted = plain_after(image, script)
    if wanted is not None:
        return None if after == wanted else "other bytes"
    session = session_of(image)
    answers(session, script)
    reading, refused = opened(after)
    return refused or same_tree(reading.tree, session.tree)


def session_of(image):
    """The reference's session on an image."""
    return Session.open(image)


def status_of(output):
    """The status of a run with this output: 1 where a line was refused or bad."""
    return 1 if any(line.startswith(REFUSED) for line in output.splitlines()) else 0
