"""Times the same work by h5py and by the module h5i, in one process, in turn, and prints the medians with their ratio.

    bench/peers/run python [RUNS [PHASES [PARTS]]]

RUNS is 5 and PHASES are all, as 'bcd', where they are left out. PARTS divides the counts of the phases a, e, f and g. Both keep every
file in memory; what is read is compared. The floor of a phase is the time for copying its cells into fresh memory, in the same run."""

import io
import mmap
import statistics
import sys
import time

import h5i
import h5py
import numpy as np

SIDE = 4096
CELLS = np.arange(SIDE * SIDE, dtype="<i4").reshape(SIDE, SIDE)
STRIDED = np.s_[1:4096:3, 2:4096:5]


def theirs():
    return h5py.File("peers.h5", "w", driver="core", backing_store=False, libver=("earliest", "v108"))


def ours():
    return h5i.File(None, "w")


def big(file, is_written=True):
    made = file.create_dataset("d", (SIDE, SIDE), "<i4", chunks=(64, 64))
    if is_written:
        made[...] = CELLS
    return made


def places(count, most):
    """Pairs of numbers that look like chance."""
    return np.random.RandomState(1).randint(0, most, (count, 2)).tolist()


def image_of(fill):
    """The image of a file that h5py has made and this fills."""
    made = io.BytesIO()
    with h5py.File(made, "w", libver=("earliest", "v108")) as file:
        fill(file)
    return made.getvalue()


def opened(which, image):
    """A file of an image."""
    return h5py.File(io.BytesIO(image), "r+") if which is theirs else h5i.File.frombytes(image)


def arrays(file, count=10000):
    group = file.create_group("g")
    for number in range(count):
        group.create_dataset("d%05d" % number, data=np.arange(10, dtype="<i4"))
    return group


# Each phase gives the work before the clock starts, whose answer the work behind it takes.
def create(file, parts):
    def work():
        assert len(arrays(file, 10000 // parts)) == 10000 // parts

    return work


def write_whole(file, _):
    made = big(file, False)
    return lambda: made.__setitem__(Ellipsis, CELLS)


def read_whole(file, _):
    made = big(file)

    def work():
        assert made[...][-1, -1] == SIDE * SIDE - 1

    return work


def read_strided(file, _):
    made = big(file)

    def work():
        assert made[STRIDED][0, 1] == SIDE + 7

    return work


def write_cells(file, _):
    made, at = big(file), places(10000, SIDE)

    def work():
        for value, (row, column) in enumerate(at):
            made[row, column] = value

    return work


def link(file, parts):
    made, group = file.create_dataset("d", (), "<i4"), file.create_group("g")

    def work():
        for number in range(10000 // parts):
            group["n%05d" % (number * 7919 % 10000)] = made

    return work


def grow(file, parts):
    made = file.create_dataset("d", (100,), "<i4", maxshape=(None,), chunks=(10,))
    values = np.arange(1000, dtype="<i4")

    def work():
        for _ in range(2000 // parts):
            made.resize((1000,))
            made[...] = values
            made.resize((5,))

    return work


def resize(file, parts):
    made = file.create_dataset("d", (100,), "<i4", maxshape=(None,), chunks=(10,))

    def work():
        for turn in range(2000 // parts):
            made.resize((5 if turn % 2 else 1000,))

    return work


def read_small(file, _):
    made = file.create_dataset("d", data=np.arange(1000000, dtype="<i4"))
    at = [place for place, _ in places(20000, 1000000 - 16)]

    def work():
        for place in at:
            assert made[place : place + 16][15] == place + 15

    return work


def attributes(file, _):
    group = file.create_group("g")

    def work():
        for turn in range(2000):
            group.attrs["a%d" % (turn % 50)] = turn
        assert len(group.attrs) == 50

    return work


# These begin with an image, which each opens for itself.
def read_opened(which, image, _):
    def work():
        with opened(which, image) as file:
            assert file["d"][...][-1, -1] == SIDE * SIDE - 1

    return work


def listed(which, image, _):
    def work():
        with opened(which, image) as file:
            assert sum(thing.shape[0] for thing in file["g"].values()) == 100000

    return work


def unlink(which, image, parts):
    file = opened(which, image)

    def work():
        for number in range(5000 // parts):
            del file["g/d%05d" % (number * 7919 % 5000 * 2)]

    return work


BIG = CELLS.nbytes
# Its letter, its name, whether PARTS divides its count, the phase, what its image is made by, and how many bytes it has to move.
PHASES = [
    ("a", "10000 datasets created and written", True, create, None, 0),
    ("b", "64 MB written, in chunks", False, write_whole, None, BIG),
    ("c", "a fifteenth of its cells read, strided", False, read_strided, None, CELLS[STRIDED].nbytes),
    ("c", "64 MB read, in chunks", False, read_whole, None, BIG),
    ("c", "64 MB opened and read", False, read_opened, big, BIG),
    ("d", "10000 single cells written", False, write_cells, None, 0),
    ("e", "10000 hard links made", True, link, None, 0),
    ("e", "10000 datasets opened and listed with their shapes", False, listed, arrays, 0),
    ("f", "2000 times grown, written, shrunk", True, grow, None, 0),
    ("f", "2000 times resized", True, resize, None, 0),
    ("g", "5000 of 10000 datasets unlinked", True, unlink, arrays, 0),
    ("h", "20000 reads of 16 cells", False, read_small, None, 0),
    ("i", "2000 times an attribute set", False, attributes, None, 0),
]


def seconds(work):
    """How long a work takes."""
    start = time.perf_counter()
    work()
    return time.perf_counter() - start


def timed(library, phase, image, parts):
    """How long the work of a phase takes."""
    if image is not None:
        return seconds(phase(library, image, parts))
    file = library()
    spent = seconds(phase(file, parts))
    file.close()
    return spent


def told(times):
    """The median of times, the least and the greatest."""
    return f"{statistics.median(times):.4f} ({min(times):.4f} to {max(times):.4f})"


def main():
    runs = int(sys.argv[1]) if len(sys.argv) > 1 else 5
    wanted = sys.argv[2] if len(sys.argv) > 2 else "abcdefghi"
    parts = int(sys.argv[3]) if len(sys.argv) > 3 else 1
    print(f"| Phase | h5py {h5py.version.version} | h5i | h5py / h5i | floor | h5i / floor |\n|---|---|---|---|---|---|")
    for letter, name, is_divided, phase, fill, size in PHASES:
        if letter not in wanted:
            continue
        image = image_of(fill) if fill else None
        times = {theirs: [], ours: []}
        floors = []
        for _ in range(runs):
            for library in (theirs, ours):
                times[library].append(timed(library, phase, image, parts))
            if size:
                floors.append(seconds(lambda: np.copyto(np.frombuffer(mmap.mmap(-1, size), np.uint8), CELLS.view(np.uint8).reshape(-1)[:size])))
        median, floor = {library: statistics.median(spent) for library, spent in times.items()}, statistics.median(floors or [0])
        less = f", one in {parts} of these" if is_divided and parts > 1 else ""
        low = f"{floor:.4f} | {median[ours] / floor:.2f}" if size else " | "
        print(f"| {letter}: {name}{less} | {told(times[theirs])} | {told(times[ours])} | {median[theirs] / median[ours]:.2f} | {low} |", flush=True)


if __name__ == "__main__":
    main()
