"""The command tests/fuzz: cases side by side, mostly one process for each processor, in which the library stays loaded."""

import argparse
import multiprocessing
import multiprocessing.connection
import os
import signal
import sys
from itertools import count, islice
from time import monotonic

from .fuzzing import Case
from .libh5i import Library
from .support import TOP

# A case that takes longer is passed over; one that is not over after twice the time has broken the library.
SECONDS = 60
LIBRARY = os.path.join(TOP, "build", "libh5i.so")
ABOUT = """Holds the library for C to the reference implementation on cases that are drawn at random: HDF5 files, as they are,
in other layouts or changed in a few bytes, and script lines and edits on them. Each case has a seed. What differs is told with it, and
`--seed N --count 1` with the same files does that case again. The last line is 'N cases, M differences'; the status is 1 where there
is a difference."""


class Slow(Exception):
    """A case takes too long."""


def slow(*_):
    """Ends a case that takes too long."""
    raise Slow


def judged(seed, images, library, keep):
    """What differs in the case of a seed, or `None`, and why it was passed over, or `None`. A case that differs is kept in a folder."""
    signal.alarm(SECONDS)
    try:
        case = Case(seed, images)
        found = case.difference(library)
    except Slow:
        return None, f"it takes more than {SECONDS} seconds"
    except MemoryError:
        return None, "the reference wants more memory"
    finally:
        signal.alarm(0)
    if found and keep:
        for ending, content in ((".h5", case.image), (".txt", b"".join(line + b"\n" for line in case.lines))):
            with open(os.path.join(keep, f"{seed}{ending}"), "wb") as file:
                file.write(content)
    return found, None


def work(pipe, *words):
    """Judges the cases whose seeds come by a pipe, and answers by it, until it is closed."""
    signal.signal(signal.SIGALRM, slow)
    signal.signal(signal.SIGINT, signal.SIG_IGN)
    while True:
        try:
            seed = pipe.recv()
        except EOFError:
            return
        pipe.send(judged(seed, *words))


class Worker:
    """A process that judges one case at a time."""

    def __init__(self, words):
        self.words = words
        self.begin()

    def begin(self):
        """Starts the process."""
        forked = multiprocessing.get_context("fork")
        self.pipe, theirs = forked.Pipe()
        self.process = forked.Process(target=work, args=(theirs, *self.words), daemon=True)
        self.process.start()
        theirs.close()

    def give(self, seed):
        """Gives it a case."""
        self.seed, self.until = seed, monotonic() + 2 * SECONDS
        self.pipe.send(seed)

    def taken(self, is_ready):
        """The verdict on its case, or `None` where it is still at it. A process that broke off or answers no more is started anew."""
        if is_ready:
            try:
                return self.pipe.recv()
            except EOFError:
                self.process.join()
                found = f"the process broke off, with status {self.process.exitcode}"
        elif monotonic() > self.until:
            self.process.kill()
            self.process.join()
            found = f"the library gives no answer in {2 * SECONDS} seconds"
        else:
            return None
        self.pipe.close()
        self.begin()
        return found, None

    def end(self):
        """Ends the process."""
        self.process.kill()
        self.process.join()


def verdicts(seeds, processors, words):
    """The verdict on the case of each seed, as they come: the seed, what differs, and why it was passed over."""
    seeds = iter(seeds)
    free, busy = [Worker(words) for _ in range(processors)], []
    try:
        while True:
            for worker, seed in zip(free, islice(seeds, len(free))):
                worker.give(seed)
                busy.append(worker)
            if not busy:
                return
            ready = multiprocessing.connection.wait([worker.pipe for worker in busy], timeout=1)
            free = []
            for worker in list(busy):
                verdict = worker.taken(worker.pipe in ready)
                if verdict:
                    busy.remove(worker)
                    free.append(worker)
                    yield worker.seed, *verdict
    finally:
        for worker in {*free, *busy}:
            worker.end()


def files_of(words):
    """The paths of the files that words name: files, and all that lie below folders and end as HDF5 files do."""
    for word in words:
        if os.path.isdir(word):
            for parent, folders, files in os.walk(word):
                folders.sort()
                yield from (os.path.join(parent, file) for file in sorted(files) if file.endswith((".h5", ".hdf5", ".he5", ".nc")))
        else:
            yield word


def read(path):
    """The bytes of a file."""
    with open(path, "rb") as file:
        return file.read()


def parser():
    """The words that the command takes."""
    made = argparse.ArgumentParser(prog="tests/fuzz", description=ABOUT, formatter_class=argparse.RawDescriptionHelpFormatter)
    made.add_argument("files", nargs="*", metavar="FILE", help="an HDF5 file, or a folder of them; where there is none, images are drawn")
    made.add_argument("--seed", type=int, default=1, help="the seed of the first case; those of the next ones follow it (1)")
    made.add_argument("--count", type=int, help="how many cases (1000, or no end where there are --minutes)")
    made.add_argument("--minutes", type=float, help="begin no case after so many minutes")
    made.add_argument("--library", default=LIBRARY, metavar="FILE", help="libh5i.so (build/libh5i.so, which bin/build-c makes)")
    made.add_argument("--processors", type=int, default=len(os.sched_getaffinity(0)), metavar="N", help="how many cases at once (all processors)")
    made.add_argument("--keep", metavar="FOLDER", help="where the image and the lines of each case that differs are written")
    return made


def seeds_of(words):
    """The seeds of the cases that are asked for."""
    end = None if words.minutes is None else monotonic() + 60 * words.minutes
    most = words.count if words.count is not None or end is not None else 1000
    for seed in count(words.seed) if most is None else range(words.seed, words.seed + most):
        if end is not None and monotonic() > end:
            return
        yield seed


def main(words, library=None):
    """Runs the command, with a library of its words or with one that stands in for it: its status."""
    words = parser().parse_args(words)
    try:
        library = library or Library(os.path.abspath(words.library))
        paths = list(files_of(words.files))
        images = [read(path) for path in paths]
        if words.keep:
            os.makedirs(words.keep, exist_ok=True)
    except OSError as error:
        print(f"tests/fuzz: {error}", file=sys.stderr)
        return 2
    if words.files and not images:
        print("tests/fuzz: there is no HDF5 file", file=sys.stderr)
        return 2
    cases = differences = 0
    for seed, found, passed in verdicts(seeds_of(words), max(1, words.processors), (images, library, words.keep)):
        cases, differences = cases + (passed is None), differences + (found is not None)
        if found or passed:
            of = f" ({paths[seed % len(paths)]})" if paths else ""
            print(f"seed {seed}{of}: {found or 'passed over, since ' + passed}", flush=True)
    print(f"{cases} cases, {differences} differences")
    return 1 if differences else 0
