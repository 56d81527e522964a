"""The crates of the repository, as crates.txt lists them."""

import os
import re
from dataclasses import dataclass


@dataclass(frozen=True)
class Crate:
    """A crate by its name, with the words of its line and the names of the crates that its line lists."""

    name: str
    line: str
    libraries: tuple


def read_crates(root):
    """The crates of crates.txt by name. A `#` begins a comment, at the head of a line or behind it."""
    crates = {}
    with open(os.path.join(root, "crates.txt"), encoding="utf-8") as file:
        for line in file:
            line = line.partition("#")[0].strip()
            if line:
                head, _, libraries = line.partition(":")
                name = head.split()[0]
                crates[name] = Crate(name, line, tuple(libraries.split()))
    return crates


def crates_below(crates, name):
    """The names of the repository's own crates that a crate stands on, lowest first. Libraries of the kit are left
    out, since crates.txt has no line for them."""
    found = []

    def visit(one):
        for library in crates[one].libraries:
            if library in crates and library not in found:
                visit(library)
                found.append(library)

    visit(name)
    return found


def folder_of(root, name):
    """The folder of a crate: crates/NAME, or NAME where there is no folder crates/."""
    below = os.path.join(root, "crates")
    return os.path.join(below if os.path.isdir(below) else root, name)


def source_files(folder, ending, parts=("src",)):
    """The paths of a crate's files with an ending, below the folder of the crate, sorted."""
    found = []
    for part in parts:
        for at, _, names in os.walk(os.path.join(folder, part)):
            found += [os.path.relpath(os.path.join(at, name), folder) for name in names if name.endswith(ending)]
    return sorted(found)


def read_sources(folder):
    """The text of each Rattle file of a crate, by its path below the crate's folder."""
    texts = {}
    for path in source_files(folder, ".rt"):
        with open(os.path.join(folder, path), encoding="utf-8") as file:
            texts[path] = file.read()
    return texts


def module_of(path):
    """The module that a file below src/ holds, as the names on its path: none for the root of the crate."""
    inner = re.sub(r"(^|/)(lib|main|mod)$", "", path.removeprefix("src/").removesuffix(".rt"))
    return [name for name in inner.split("/") if name]
