"""Arrays drawn at random, as the reference holds them."""

from itertools import product

from . import today  # noqa: F401  (makes the reference's modules known)

# pylint: disable=wrong-import-order
from h5oracle.model import Dataset, Flat  # noqa: E402
from h5oracle.values import TYPES  # noqa: E402
from h5oracle.values import product as product_of  # noqa: E402

RANKS = [0, 1, 1, 2, 2, 2, 3, 3, 4, 5, 32]
# By rank, the greatest size that is drawn. Of a higher rank nearly all sizes are 1.
MOST_SIZE = {0: 0, 1: 40, 2: 9, 3: 5, 4: 3, 5: 3}
MOST_CHUNK = 5
STORES = ["compact", "contiguous", "chunked", "chunked"]


def values(rng, fixed, count):
    """Values of a type."""
    bits = 8 * fixed.size
    low = -(1 << bits - 1) if fixed.signed else 0
    return tuple(rng.choice([low, low + (1 << bits) - 1, low + rng.getrandbits(bits)]) for _ in range(count))


def cells(rng, fixed, count):
    """So many values of a type, as they are stored."""
    return b"".join(fixed.encode(value) for value in values(rng, fixed, count))


def draw_sizes(rng):
    """The sizes of an array of some rank, with few cells in all."""
    rank = rng.choice(RANKS)
    if rank not in MOST_SIZE:
        return tuple(2 if rng.random() < 0.1 else 1 for _ in range(rank))
    least = 0 if rng.random() < 0.1 else 1
    return tuple(rng.randint(least, MOST_SIZE[rank]) for _ in range(rank))


def draw_chunk(rng, sizes):
    """The sizes of a chunk, at times larger than the array's."""
    more = 2 if len(sizes) in MOST_SIZE else 0
    return tuple(rng.randint(1, max(1, min(size + more, MOST_CHUNK))) for size in sizes)


def store_chunks(made, rng):
    """Store some of an array's chunks."""
    count = product_of(made.chunk)
    stored = rng.choice([0, 0.3, 0.8, 1])
    for at in product(*(range(0, size, step) for size, step in zip(made.dims, made.chunk))):
        if rng.random() < stored:
            made.chunks[at] = Flat(count, made.fixed, made.fill, cells(rng, made.fixed, count))
    made.clip()


def any_array(rng):
    """An array of some rank and any form, and none, some or all of its cells stored."""
    fixed, sizes = rng.choice(list(TYPES.values())), draw_sizes(rng)
    maxima = tuple(rng.choice([size, size, size + 3, None]) for size in sizes)
    store = rng.choice([store for store in STORES if sizes or store != "chunked"])
    chunk = draw_chunk(rng, sizes) if store == "chunked" else None
    [fill] = values(rng, fixed, 1)
    made = Dataset(fixed, sizes, maxima, store, chunk, fill)
    made.has_maxima = maxima != sizes
    if store == "chunked":
        store_chunks(made, rng)
    elif store == "compact" or rng.random() < 0.8:
        made.flat = Flat(made.cells(), fixed, fill, cells(rng, fixed, made.cells()))
    return made
