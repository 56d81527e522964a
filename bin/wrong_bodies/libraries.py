"""The libraries that the merge gate has built, and the prover's check of a crate over them.

`rt check` proves the crates below anew where `rt ci` alone has run, since `rt ci` leaves its libraries without the sum by which
`rt` knows them again. So bin/test notes, right behind `rt ci`, of which sources they are. As long as these stay, a crate above
is checked over them by the prover itself, in the way in which `rt ci` tries an edit of must-fail."""

import os
import shutil

from .record import hash_of
from .repository import crates_below, folder_of

# What a library is built of: the wrong bodies of its crate are no part of it.
PARTS = ("src", "specs", "proofs")
NOTE = os.path.join("out", "rlib", "sources")
# Where a check keeps what it proved, below the folder of its crate.
KEPT = os.path.join("out", "judged")


def kit():
    """The folder of the toolchain, to which `rt` belongs."""
    found = shutil.which("rt")
    return os.path.dirname(os.path.dirname(os.path.realpath(found))) if found else ""


def library_of(root, name):
    """The library that was built of a crate, a folder."""
    return os.path.join(folder_of(root, name), "out", "rlib", f"{name}.rlib")


def text_of(path):
    """The text of a file, or none where there is no such file."""
    try:
        with open(path, encoding="utf-8") as file:
            return file.read()
    except OSError:
        return ""


def sources_of(root, crate):
    """What a crate's library is built of, in a line: its own files, what it stands on, and the toolchain."""
    return f"{hash_of(folder_of(root, crate.name), PARTS)} {crate.line} {text_of(os.path.join(kit(), 'KIT-ID')).strip()}\n"


class Libraries:
    """The built libraries of a repository."""

    def __init__(self, root, crates):
        self.root, self.crates = root, crates

    def note(self):
        """Notes of each library that it is built of the crate as it stands now. To be called right behind the gate."""
        for crate in self.crates.values():
            if os.path.isdir(library_of(self.root, crate.name)):
                with open(os.path.join(folder_of(self.root, crate.name), NOTE), "w", encoding="utf-8") as file:
                    file.write(sources_of(self.root, crate))

    def stand(self, name):
        """Whether the library of a crate is there, and built of the crate as it stands."""
        noted = text_of(os.path.join(folder_of(self.root, name), NOTE))
        return os.path.isdir(library_of(self.root, name)) and noted == sources_of(self.root, self.crates[name])

    def stand_below(self, name):
        """Whether those of all crates below a crate are."""
        return bool(kit()) and all(self.stand(one) for one in crates_below(self.crates, name))

    def words(self, name, folder, jobs):
        """The call of the prover that checks a crate in this folder, and keeps there what it proved."""
        head = self.crates[name].line.partition(":")[0].split()
        root = next((it for it in ("src/main.rt", "src/lib.rt") if os.path.isfile(os.path.join(folder, it))), "src/lib.rt")
        words = [os.path.join(kit(), "bin", "rattle"), "check", "--crate-name", name, root]
        words += ["--crate-type", "staticlib"] if "staticlib" in head[1:] else []
        for one, place in self.passed(name):
            words += ["--extern", f"{one}={place}"]
        folders = [os.path.join(kit(), "rlibs")]
        folders += [os.path.dirname(library_of(self.root, one)) for one in crates_below(self.crates, name)]
        for one in folders:
            words += ["-L", f"dependency={one}"]
        words += ["--antt-project", os.path.join(kit(), "rattle", "logic", "antt-project.json")]
        words += ["--logic-built", os.path.join(kit(), "logic_built")]
        return [*words, "--incremental", os.path.join(folder, KEPT), "--jobs", str(jobs)]

    def passed(self, name):
        """The libraries that the crate's line names, with where each is, and `std`, which need not be named."""
        named = self.crates[name].libraries
        for one in ("std", *(one for one in named if one not in self.crates)):
            yield one, os.path.join(kit(), "rlibs", f"{one}.rlib")
        for one in named:
            if one in self.crates:
                yield one, library_of(self.root, one)
