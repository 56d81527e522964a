"""A script in one session of the program, with the image behind each line; and the judgement of each, of edits byte by byte."""

import re
from dataclasses import dataclass

from . import today
from .support import h5i

FREE = re.compile(b"\1+")


def image_behind(path, image, script):
    """The output of a script that runs on an image in a file of this path, and the image behind it."""
    with open(path, "wb") as file:
        file.write(image)
    _, output, errors = h5i("run", path, script=script)
    if errors:
        raise AssertionError(errors)
    with open(path, "rb") as file:
        return output, file.read()


@dataclass
class Step:
    """A line and its answer, and the images before it and behind it."""

    line: bytes
    answer: bytes
    before: bytes
    after: bytes


def steps(path, image, lines):
    """Each line of a script that runs on an image. A session's free blocks are in no file, so all lines before it run again with each."""
    said, before = b"", image
    for count, line in enumerate(lines, 1):
        output, after = image_behind(path, image, b"".join(each + b"\n" for each in lines[:count]))
        if not output.startswith(said):
            raise AssertionError(f"line {count}: other answers than before")
        yield Step(line, output[len(said):], before, after)
        said, before = output, after


def blocks_of(old, new):
    """The blocks of an image as an edit has taken them, by their addresses: those of a new object that follow each other are one."""
    # A block without bytes, as a Continuation may name, may stand where another begins.
    blocks = sorted((block, owner) for block, owner in zip(new.blocks, new.owners) if block[1] > 0)
    headers = {at for at, _, kind in old.blocks if kind == "header"}
    made = {owner for (at, _, kind), owner in blocks if kind == "header" and at not in headers}
    held, last = {}, None
    for (at, length, kind), owner in blocks:
        if last and owner in made and last[1] == owner and last[0] + held[last[0]][0] == at:
            held[last[0]] = (held[last[0]][0] + length, "a new object")
            continue
        held[at], last = (length, kind), (at, owner)
    return held


class GivenBack:
    """Bytes that a session has given back, and has not taken again."""

    def __init__(self):
        self.free = bytearray()

    def is_repacked(self):
        """The image has the plain layout, and no free byte."""
        self.free = bytearray()

    def edited(self, old, new):
        """What is wrong with where the blocks of an edit stand: at the end, where a free block is as long."""
        free = self.free.ljust(new.superblock.end, b"\0")
        held = blocks_of(old, new)
        for at, (length, _) in held.items():
            free[at:at + length] = bytes(length)
        # These were free before, and still are.
        longest = max((len(run) for run in FREE.findall(free)), default=0)
        wrong = [f"{kind} of {length} bytes stands at the end, and {longest} bytes are free" for at, (length, kind) in held.items()
                 if at >= old.superblock.end and length <= longest]
        for at, length, _ in old.blocks:
            free[at:at + length] = b"\1" * length
        for at, (length, _) in held.items():
            free[at:at + length] = bytes(length)
        self.free = free
        return wrong


class Judge:
    """What is wrong with the steps of a session."""

    def __init__(self, image):
        self.reading, refused = today.opened(image)
        if refused:
            raise AssertionError(refused)
        self.given_back = GivenBack()

    def wrong_with(self, step, edited, in_place, tree):
        """What is wrong with a step. It was to be an edit in place, a `repack` or neither, and to leave this tree."""
        if not edited:
            return [] if step.before == step.after else ["what is no edit has changed the image"]
        old, (self.reading, refused) = self.reading, today.opened(step.after)
        if refused:
            return [refused]
        wrong = today.wrong_with(step.before, step.after, step.line) if in_place else []
        unlike = today.same_tree(self.reading.tree, tree)
        if in_place:
            wrong += self.given_back.edited(old, self.reading)
        else:
            self.given_back.is_repacked()
        return wrong + [unlike] * (unlike is not None)
