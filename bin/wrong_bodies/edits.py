"""Edits: which text of which file they replace by which other."""

import os
import re
from dataclasses import dataclass

# The folder that this tool judges, and the one whose edits the merge gate tries by itself.
JUDGED = "wrong-bodies"
GATE = "must-fail"
NAME = re.compile(r"[A-Za-z0-9_-][A-Za-z0-9_.-]*\.edit")
PARTS = ("src/", "specs/", "proofs/")


class BadEdit(Exception):
    """An edit that cannot be read or applied, with the reason in words."""


@dataclass(frozen=True)
class Pair:
    """A text that stands once in a file, and what replaces it."""

    path: str
    old: str
    new: str


@dataclass(frozen=True)
class Edit:
    """The pairs of an edit file, which is known by its path below the folder of the crate."""

    path: str
    pairs: tuple

    @property
    def name(self):
        """The name of the file alone."""
        return os.path.basename(self.path)


def parse(text):
    """The pairs of an edit's text: lines `file: PATH`, `old: TEXT` and `new: TEXT`. Raises `BadEdit`."""
    path, old, pairs = None, None, []
    for line in text.split("\n"):
        if line.startswith("file: "):
            path = line[len("file: ") :].strip()
            if os.path.normpath(path) != path or not path.startswith(PARTS):
                raise BadEdit("a 'file:' line names no file below src/, specs/ or proofs/")
        elif line.startswith("old: "):
            if old is not None:
                raise BadEdit("an 'old:' line has no 'new:' line")
            old = line[len("old: ") :]
        elif line.startswith("new:"):
            if not path or not old:
                raise BadEdit("a 'new:' line stands before any 'file:' or 'old:' line")
            pairs.append(Pair(path, old, line[len("new:") :].removeprefix(" ")))
            old = None
        elif line.strip():
            raise BadEdit(f"a line is none of 'file:', 'old:' and 'new:': {line[:60]}")
    if old is not None:
        raise BadEdit("an 'old:' line has no 'new:' line")
    if not pairs:
        raise BadEdit("it has no pair of 'old:' and 'new:'")
    return tuple(pairs)


def read_edit(folder, path):
    """The edit of a file below the folder of its crate. Raises `BadEdit`."""
    try:
        with open(os.path.join(folder, path), encoding="utf-8") as file:
            return Edit(path, parse(file.read()))
    except (OSError, UnicodeDecodeError) as error:
        raise BadEdit(f"it cannot be read: {error}") from error


def edit_paths(folder, part=JUDGED):
    """The paths of a crate's edits, sorted, and of what lies beside them and is none."""
    good, bad = [], []
    for at, _, names in os.walk(os.path.join(folder, part)):
        for name in names:
            path = os.path.relpath(os.path.join(at, name), folder)
            if os.path.dirname(path) == part and NAME.fullmatch(name):
                good.append(path)
            elif not name.endswith(".md"):
                bad.append(path)
    return sorted(good), sorted(bad)


def apply(edit, texts, folder):
    """The texts with the edit applied, as a new dictionary by path. Files that `texts` lacks are read from the folder
    of the crate. Each `old:` text must stand once in its file, as the pairs before it leave that. Raises `BadEdit`."""
    changed = dict(texts)
    for pair in edit.pairs:
        if pair.path not in changed:
            try:
                with open(os.path.join(folder, pair.path), encoding="utf-8") as file:
                    changed[pair.path] = file.read()
            except (OSError, UnicodeDecodeError) as error:
                raise BadEdit(f"there is no file {pair.path}") from error
        count = changed[pair.path].count(pair.old)
        if count != 1:
            raise BadEdit(f"an 'old:' text is in {pair.path} {count} times, and not once: {pair.old.strip()[:60]}")
        changed[pair.path] = changed[pair.path].replace(pair.old, pair.new)
    return changed
