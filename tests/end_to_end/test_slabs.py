"""Hyperslabs of arrays of every form, drawn at random: the pieces that the library gives, joined, are the cells that the reference selects."""

import os
import random

from . import today
from .drawn_images import IMAGES, linked_image, paths_of, word
from .support import TOP
from .tried import Tried

# pylint: disable=wrong-import-order
from h5oracle.model import Hyper, selected, view_refusal  # noqa: E402

PROGRAM = os.path.join(TOP, "tests", "calls", "slabs.rt.txt")
LIBRARIES = "h5_file h5_command hex"
FAR = (1 << 64) - 1
MOST_CELLS = 4096
# So many hyperslabs are asked for in all, and so many of one image.
SLABS = 8 * IMAGES
OF_ONE_IMAGE = 50


def axis(rng, size):
    """Start, stride, count and block of one dimension, inside of its size."""
    draw = rng.random()
    if draw < 0.05 or not size:
        # Nothing is selected, wherever that is.
        return rng.choice([(rng.randrange(size + 3), 1, 0, 1), (FAR, FAR, 0, 0), (size, 2, 3, 0)])
    if draw < 0.25:
        return 0, 1, size, 1
    start = rng.randrange(size)
    if draw < 0.4:
        # One block, whose stride leads far past the end.
        return start, rng.choice([size + 7, FAR]), 1, rng.randint(1, size - start)
    block = rng.randint(1, min(3, size - start))
    stride = rng.randint(block, block + 2)
    return start, stride, rng.randint(1, (size - start - block) // stride + 1), block


def draw_slab(rng, sizes):
    """A hyperslab, mostly inside of the sizes."""
    lists = [list(each) for each in zip(*(axis(rng, size) for size in sizes))] or [[], [], [], []]
    if rng.random() < 0.15:
        # A rule is broken, at times.
        at = rng.choice(lists)
        if at and rng.random() < 0.8:
            at[rng.randrange(len(at))] = rng.choice([0, 1, 2, 3, 7, FAR])
        else:
            at[:] = at[:-1] if rng.random() < 0.5 else at + [1]
    return Hyper(*map(tuple, lists))


def line_of(path, hyper):
    """The line that asks for a hyperslab."""
    return " ".join(["view", word(path)] + [",".join(map(str, each)) or "-" for each in hyper.lists()])


def asked():
    """Lines that ask for hyperslabs, behind those with their images; what the reference answers to each; and each array."""
    rng, lines, wanted = random.Random("slabs"), [], []
    while len(wanted) < SLABS:
        image = linked_image(rng)
        reading, _ = today.opened(image)
        tree = reading.tree
        paths = [(path, number) for path, number in paths_of(tree) if number is not None]
        arrays = [(path, number) for path, number in paths if not tree.is_group(number)]
        if not arrays:
            continue
        lines.append("image " + image.hex())
        for _ in range(OF_ONE_IMAGE):
            path, number = rng.choice(arrays if rng.random() < 0.98 else paths)
            thing = tree.objects[number]
            hyper = draw_slab(rng, (3,) if tree.is_group(number) else thing.dims)
            refused = view_refusal(tree, path, hyper)
            if refused is None and hyper.cells() > MOST_CELLS:
                continue
            lines.append(line_of(path, hyper))
            wanted.append((lines[-1], f"refused {refused}" if refused else shown(thing, hyper), thing))
    return lines, wanted


def shown(thing, hyper):
    """The selected cells as they are stored, those that are not as the fill."""
    return b"".join(thing.fixed.encode(thing.cell(index)) for index in selected(hyper))


def joined(line, thing):
    """The bytes of the pieces that the program has printed on a line, or the refusal."""
    if line.startswith("refused "):
        return line
    fill = thing.fixed.encode(thing.fill)
    pieces = [int(piece[1:]) * fill if piece.startswith("*") else bytes.fromhex(piece) for piece in line.split()]
    assert all(pieces), "a piece has no cell"
    return b"".join(pieces)


class Slabs(Tried):
    """One run of a program that asks the library."""

    def test_hyperslabs_of_arrays_of_every_form(self):
        lines, wanted = asked()
        with open(PROGRAM, encoding="utf-8") as file:
            program = file.read()
        status, output, said = self.tried(program, LIBRARIES, "".join(line + "\n" for line in lines).encode("ascii"))
        self.assertEqual(status, 0, said)
        found = output.decode("ascii").splitlines()
        self.assertEqual(len(found), len(wanted))
        kinds = {"selected": 0, "nothing": 0, "refused": 0}
        for line, (asked_for, right, thing) in zip(found, wanted):
            with self.subTest(line=asked_for):
                self.assertEqual(joined(line, thing), right)
            kinds["refused" if isinstance(right, str) else "selected" if right else "nothing"] += 1
        self.assertGreater(min(kinds.values()), SLABS // 20)
