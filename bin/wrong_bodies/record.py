"""The record of what was judged: a line for each crate with the hash of all that its verdict rests on."""

import contextlib
import fcntl
import hashlib
import os
import re
from dataclasses import dataclass

from .source import HIDDEN

PATH = os.path.join("tests", "wrong-bodies.judged")
# Proofs are no part of it: a wrong body is refused for what the contract says, and no proof makes it right.
PARTS = ("src", "specs", "wrong-bodies")
WORD = re.compile(r"\w+|[^\w\s]")
# The comma that ends a list with a line for each part.
LAST_COMMA = re.compile(r",(?=[ ]*\n\s*[)\]}>])")
LINE = re.compile(r"(\w+) ([0-9a-f]{16,64}) (\d+) refused")


@dataclass(frozen=True)
class Judged:
    """A crate all of whose wrong bodies were refused, when its files had this hash."""

    name: str
    hash: str
    count: int


def words_of(text):
    """The words and signs of a Rattle source, without its comments and however its lines are broken: what the prover reads."""
    words, place = [], 0
    for match in HIDDEN.finditer(text):
        words += WORD.findall(LAST_COMMA.sub("", text[place : match.start()]))
        if not match[0].startswith(("//", "/*")):
            words.append(match[0])
        place = match.end()
    return words + WORD.findall(LAST_COMMA.sub("", text[place:]))


def told_lines(text):
    """The lines of a definition or a proof that are neither empty nor a comment. How they are indented says something."""
    lines = [line.rstrip() for line in text.split("\n")]
    return [line for line in lines if line and not line.lstrip().startswith("--")]


def essence(path, data):
    """What of a file a verdict rests on. A comment, an empty line or a line broken elsewhere changes no verdict."""
    if path.endswith(".rt"):
        return "\n".join(words_of(data.decode("utf-8"))).encode()
    if path.endswith(".antt"):
        return "\n".join(told_lines(data.decode("utf-8"))).encode()
    return data


def hash_of(folder, parts=PARTS):
    """The hash of a crate's sources, definitions and wrong bodies, or of these parts: paths and what counts in them, sorted."""
    paths = []
    for part in parts:
        for at, _, names in os.walk(os.path.join(folder, part)):
            paths += [os.path.relpath(os.path.join(at, name), folder) for name in names]
    total = hashlib.sha256()
    for path in sorted(paths):
        with open(os.path.join(folder, path), "rb") as file:
            data = essence(path, file.read())
        total.update(f"{path}\0{len(data)}\0".encode() + data)
    return total.hexdigest()[:32]


def read_record(root):
    """The lines of the record by the name of the crate. A line of another form counts for nothing."""
    try:
        with open(os.path.join(root, PATH), encoding="utf-8") as file:
            matches = [LINE.fullmatch(line.rstrip("\n")) for line in file]
    except FileNotFoundError:
        return {}
    return {match[1]: Judged(match[1], match[2], int(match[3])) for match in matches if match}


@contextlib.contextmanager
def locked(root):
    """Keeps other judges from the record. The lock is on the folder, since the file itself is replaced."""
    held = os.open(os.path.join(root, os.path.dirname(PATH)), os.O_RDONLY)
    try:
        fcntl.flock(held, fcntl.LOCK_EX)
        yield
    finally:
        os.close(held)


def change_record(root, known, add=None, remove=None):
    """Writes a crate's line or takes it away, and drops the lines of crates that have gone. It reads the record anew
    under the lock, so that two judges keep each other's lines."""
    with locked(root):
        lines = {name: one for name, one in read_record(root).items() if name in known and name != remove}
        if add:
            lines[add.name] = add
        whole = os.path.join(root, PATH)
        with open(whole + ".part", "w", encoding="utf-8") as file:
            for _, one in sorted(lines.items()):
                file.write(f"{one.name} {one.hash} {one.count} refused\n")
        os.replace(whole + ".part", whole)
