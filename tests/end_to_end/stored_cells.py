"""Where the cells of arrays stand in an image: the image that a write of stored cells leaves, byte by byte."""

from itertools import product

from . import today

# pylint: disable=wrong-import-order
from h5oracle.model import Dataset, place_of  # noqa: E402

LAYOUT = 8


def messages(image, blocks):
    """The messages in these blocks of a header, of which the first begins with the prefix: the type of each, the place and size of its body."""
    for at, length, kind in blocks:
        place, end = at + (16 if kind == "header" else 0), at + length
        while place < end:
            size = int.from_bytes(image[place + 2:place + 4], "little")
            yield int.from_bytes(image[place:place + 2], "little"), place + 8, size
            place += 8 + size


def compact_place(image, blocks):
    """Where the cells of a compact array stand, whose header has these blocks: behind the version, the class and the size of its layout."""
    [body] = [at for kind, at, _ in messages(image, blocks) if kind == LAYOUT]
    return body + 4


def cell_places(image, reading, number):
    """Each stored cell of an array: its index, and where it stands in the image."""
    thing, size = reading.tree.objects[number], reading.tree.objects[number].fixed.size
    own = [block for block, owner in zip(reading.blocks, reading.owners) if owner == number]
    if thing.store == "chunked":
        chunks = [at for at, _, kind in own if kind == "chunk"]
        for (offsets, _), at in zip(reading.stored_chunks[number], chunks, strict=True):
            inside = [range(max(0, min(c, d - o))) for o, c, d in zip(offsets, thing.chunk, thing.dims)]
            for index in product(*inside):
                yield tuple(o + i for o, i in zip(offsets, index)), at + size * place_of(index, thing.chunk)
    elif thing.flat is not None and thing.cells():
        headers = [block for block in own if block[2] in ("header", "continuation")]
        at = compact_place(image, headers) if thing.store == "compact" else next(at for at, _, kind in own if kind == "data")
        for index in product(*map(range, thing.dims)):
            yield index, at + size * place_of(index, thing.dims)


def with_cells(image, tree):
    """The image up to its end of file, with the values of this tree, which differs from its own in stored cells alone, in their places."""
    reading, _ = today.opened(image)
    made = bytearray(image[:reading.superblock.end])
    for number, thing in tree.objects.items():
        if isinstance(thing, Dataset):
            for index, at in cell_places(image, reading, number):
                made[at:at + thing.fixed.size] = thing.fixed.encode(thing.cell(index))
    return bytes(made)
