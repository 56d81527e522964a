"""Rooms: copies of a crate and of all below it, in which a check disturbs nobody.

A room shares its files with the place that it was made from, by hard links, so it costs next to no time or disk. That
is sound only as long as nobody writes into a file in place. `rt` replaces the files that it keeps in out/ by new ones,
and what this tool changes it writes as a new file."""

import contextlib
import fcntl
import os
import shutil
import subprocess
import threading

from .libraries import KEPT, Libraries
from .repository import crates_below, folder_of
from .verdicts import read_report

SOURCES = ("src", "specs", "proofs", "wrong-bodies")
PARTS = (*SOURCES, "out")
# What a check of several functions that fail may take at most, in seconds.
LIMIT = 3600
# How often a crate is linked without its lock, before the lock is waited for.
TRIES = 3


def listing(folder, parts):
    """The files of a crate that a room takes over, and which file each of them is at this time."""
    found = {}
    for part in parts:
        for at, _, names in os.walk(os.path.join(folder, part)):
            for name in names:
                path = os.path.join(at, name)
                with contextlib.suppress(FileNotFoundError):
                    found[path] = os.stat(path).st_ino
    return found


@contextlib.contextmanager
def quiet(folder):
    """Waits until no `rt` works in the folder of a crate, and lets none begin: it holds a lock on the folder then."""
    held = os.open(folder, os.O_RDONLY)
    try:
        with contextlib.suppress(OSError):
            fcntl.flock(held, fcntl.LOCK_SH)
        yield
    finally:
        os.close(held)


def link_or_copy(source, target):
    """Makes a file the same as another, by a hard link where both lie on one file system."""
    try:
        os.link(source, target)
    except OSError:
        shutil.copy2(source, target)


def link_tree(source, target):
    """Makes a folder the same as another. The folders are new ones, the files are links."""
    shutil.copytree(source, target, symlinks=True, copy_function=link_or_copy)


def write_new(path, text):
    """Writes a file as a new one. Another link to the old file keeps the old text."""
    part = path + ".new"
    with open(part, "w", encoding="utf-8", newline="") as file:
        file.write(text)
    os.replace(part, path)


class Room:
    """A folder with crates.txt and some of the crates of another place. Over built libraries it has one crate alone."""

    def __init__(self, folder, libraries=None):
        self.folder, self.libraries = folder, libraries
        self.crates = {}
        os.makedirs(os.path.join(folder, "crates"))

    def crate(self, name):
        """The folder of a crate in this room."""
        return os.path.join(self.folder, "crates", name)

    def add(self, root, crate, parts=PARTS):
        """Brings in a crate from another place, unless it is here. A run of `rt` above that crate holds its lock for
        long and mostly writes nothing to it: so it is tried without, and only where files came and went meanwhile
        does it wait for such a run to end."""
        if crate.name in self.crates:
            return
        source = folder_of(root, crate.name)
        if not any(self.link(source, crate.name, parts) for _ in range(TRIES)):
            with quiet(source):
                if not self.link(source, crate.name, parts):
                    raise OSError(f"the files of {source} change all the time")
        self.crates[crate.name] = crate
        write_new(os.path.join(self.folder, "crates.txt"), "".join(one.line + "\n" for one in self.crates.values()))

    def copy(self, folder):
        """A room with the same crates, and what was proved of them."""
        room = Room(folder, self.libraries)
        for crate in self.crates.values():
            room.add(self.folder, crate)
        return room

    def link(self, source, name, parts):
        """Links the files of a crate: whether they were the same from the first to the last."""
        shutil.rmtree(self.crate(name), ignore_errors=True)
        before = listing(source, parts)
        os.makedirs(self.crate(name))
        try:
            for part in parts:
                if os.path.isdir(os.path.join(source, part)):
                    link_tree(os.path.join(source, part), os.path.join(self.crate(name), part))
        except (OSError, shutil.Error):
            return False
        return before == listing(source, parts)

    def write(self, name, texts):
        """Writes texts over files of a crate, by their path in it."""
        for path, text in texts.items():
            write_new(os.path.join(self.crate(name), path), text)

    def check(self, name, jobs):
        """Checks a crate, over built libraries or by `rt check`: the exit status, and what the check printed."""
        words = ["rt", "check", "--jobs", str(jobs)]
        if self.libraries:
            os.makedirs(os.path.join(self.crate(name), KEPT), exist_ok=True)
            words = self.libraries.words(name, self.crate(name), jobs)
        how = {"stdin": subprocess.DEVNULL, "stdout": subprocess.PIPE, "stderr": subprocess.STDOUT}
        try:
            ran = subprocess.run(words, cwd=self.crate(name), timeout=LIMIT, errors="replace", check=False, **how)
        except subprocess.TimeoutExpired as error:
            said = error.stdout or b""
            return None, said.decode(errors="replace") if isinstance(said, bytes) else said
        return ran.returncode, ran.stdout

    def remove(self):
        """Takes the room away. What others share with it stays theirs."""
        shutil.rmtree(self.folder, ignore_errors=True)


class Store:
    """The crates as they stand, each proved once in a run, whatever the number of crates above it that are judged. Where the libraries
    below a crate have been built of what stands there, it is checked over these. Else what the repository's own checks have kept
    in out/ is taken over, and what they lack is proved here."""

    def __init__(self, folder, root, crates):
        self.root, self.crates = root, crates
        self.libraries = Libraries(root, crates)
        self.room = Room(folder)
        self.free = threading.Lock()

    def base(self, name, jobs):
        """A room in which a crate has been checked as it stands, with the status and the output of that check."""
        if self.libraries.stand_below(name):
            base = Room(f"{self.room.folder}-{name}", self.libraries)
            base.add(self.root, self.crates[name], SOURCES)
            status, output = base.check(name, jobs)
            if read_report(status, output).proved:
                return base, status, output
            base.remove()
        return self.proved_here(name, jobs)

    def proved_here(self, name, jobs):
        """The same, by `rt check`, which proves the crates below first where they are not proved."""
        with self.free:
            needed = [self.crates[one] for one in [*crates_below(self.crates, name), name]]
            for crate in needed:
                self.room.add(self.root, crate)
            status, output = self.room.check(name, jobs)
            base = Room(f"{self.room.folder}-{name}")
            for crate in needed:
                base.add(self.room.folder, crate)
            return base, status, output
