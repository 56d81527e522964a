"""The crates and the files of the repository: how many crates, how deep they stand on one another, and what each has."""

import os
import re
import subprocess
import unittest

TOP = os.path.dirname(os.path.dirname(os.path.dirname(os.path.abspath(__file__))))
CRATES = os.path.join(TOP, "crates")

# A check reads all crates below its own, so its time grows with these three.
MOST_CRATES = 31
LONGEST_CHAIN = 14
MOST_PATHS = 6_100
# A longer file of code is better read as two.
MOST_LINES = 600
HANDLES = "Handles allowed: none.\n"
# A crate has one of these folders at least.
PARTS = ("src", "specs", "proofs")
# Folders of one machine. The pattern is put together here, so that this file has no such path itself.
OF_ONE_MACHINE = ("work", "tmp", "farm", "home")
ONE_MACHINE = re.compile(rf"(?<![\w.])/(?:{'|'.join(OF_ONE_MACHINE)})/".encode("ascii"))
# The merge check may name what its machine has.
OF_THE_MERGE_CHECK = ".ci/"


def text_of(path):
    """The text of a file of the repository."""
    with open(os.path.join(TOP, path), encoding="utf-8") as file:
        return file.read()


def listed():
    """The lines of crates.txt in their order: each crate's name, and the libraries that it stands on, which may be the kit's."""
    lines = (line.partition("#")[0].strip() for line in text_of("crates.txt").splitlines())
    # A name may have properties behind it.
    parts = [line.partition(":") for line in lines if line]
    return [(head.split()[0], libraries.split()) for head, _, libraries in parts]


def crates():
    """By crate the crates of the repository that it stands on."""
    names = {name for name, _ in listed()}
    return {name: [it for it in libraries if it in names] for name, libraries in listed()}


def longest_chain(below):
    """The names of a longest chain of crates of which each stands on the next."""
    chains = {}
    for name, libraries in below.items():
        chains[name] = [name] + max((chains[it] for it in libraries), key=len, default=[])
    return max(chains.values(), key=len)


def count_paths(below):
    """How many ways lead down from all crates together: of each, one that ends at it, and those of all that its line names."""
    paths = {}
    for name, libraries in below.items():
        paths[name] = 1 + sum(paths[it] for it in libraries)
    return sum(paths.values())


def tracked_files():
    """The paths of the files that git keeps, as they are now. Whoever owns the folder may not be who runs the tests."""
    done = subprocess.run(["git", "-c", "safe.directory=*", "ls-files", "-z"], cwd=TOP, capture_output=True, check=True)
    paths = [os.fsdecode(path) for path in done.stdout.split(b"\0") if path]
    return [path for path in paths if os.path.isfile(os.path.join(TOP, path))]


def longer_than(lines):
    """The files of code that have more lines, with their lines."""
    counts = {path: text_of(path).count("\n") for path in tracked_files() if path.startswith("crates/") and path.endswith(".rt")}
    return [f"{path}: {count}" for path, count in counts.items() if count > lines]


class Listed(unittest.TestCase):
    """The lines of crates.txt."""

    def test_no_crate_has_two_lines(self):
        names = [name for name, _ in listed()]
        self.assertEqual([name for name in set(names) if names.count(name) > 1], [])

    def test_libraries_stand_before_those_that_use_them(self):
        folders, before, late = set(os.listdir(CRATES)), set(), []
        for name, libraries in listed():
            late += [f"{name} names {it} before its line" for it in libraries if it in folders and it not in before]
            before.add(name)
        self.assertEqual(late, [])

    def test_libraries_are_named_once(self):
        twice = [f"{name}: {it}" for name, libraries in listed() for it in set(libraries) if libraries.count(it) > 1]
        self.assertEqual(twice, [])


class Depth(unittest.TestCase):
    """How many crates there are, and how they stand on one another."""

    def setUp(self):
        self.below = crates()

    def test_crates_are_few(self):
        self.assertLessEqual(len(self.below), MOST_CRATES, "crates in crates.txt")

    def test_the_longest_chain_is_short(self):
        chain = longest_chain(self.below)
        self.assertLessEqual(len(chain), LONGEST_CHAIN, f"crates in the chain {' '.join(chain)}")

    def test_the_ways_down_are_few(self):
        self.assertLessEqual(count_paths(self.below), MOST_PATHS, "ways down from all crates")

    def test_chains_and_paths_are_counted_from_the_lowest(self):
        below = {"a": [], "b": ["a"], "c": ["a", "b"], "d": ["c", "a"]}
        self.assertEqual(longest_chain(below), ["d", "c", "b", "a"])
        # From a there is 1 way, from b 2, from c 1 + 1 + 2, and from d 1 + 4 + 1.
        self.assertEqual(count_paths(below), 1 + 2 + 4 + 6)


class Folders(unittest.TestCase):
    """The folders of crates."""

    # All that lack something are named.
    maxDiff = None

    def test_each_crate_has_its_folder(self):
        lacking = [name for name, _ in listed() if not any(os.path.isdir(os.path.join(CRATES, name, part)) for part in PARTS)]
        self.assertEqual(lacking, [], f"crates of crates.txt with none of the folders {', '.join(PARTS)}")

    def test_each_folder_has_its_line(self):
        # A folder that has only what a check has left is no crate.
        folders = {path.split("/")[1] for path in tracked_files() if path.startswith("crates/")}
        self.assertEqual(sorted(folders - {name for name, _ in listed()}), [], "folders of crates that crates.txt does not name")

    def test_each_crate_says_what_it_is(self):
        lacking = [name for name, _ in listed() if not os.path.isfile(os.path.join(CRATES, name, "README.md"))]
        self.assertEqual(lacking, [], "crates without a README.md")

    def test_files_of_code_are_short(self):
        self.assertEqual(longer_than(MOST_LINES), [], f"files of more than {MOST_LINES} lines")

    def test_longer_files_would_be_found(self):
        self.assertNotEqual(longer_than(10), [])


class Kept(unittest.TestCase):
    """What git keeps."""

    def test_no_handle_is_allowed(self):
        self.assertEqual(text_of("HANDLES"), HANDLES)

    def test_nothing_that_a_check_makes_is_kept(self):
        self.assertEqual([path for path in tracked_files() if "out" in path.split("/")[:-1]], [])

    def test_no_path_of_one_machine_is_kept(self):
        found = []
        for path in tracked_files():
            with open(os.path.join(TOP, path), "rb") as file:
                lines = file.read().split(b"\n")
            if not path.startswith(OF_THE_MERGE_CHECK):
                found += [f"{path}:{at}" for at, line in enumerate(lines, 1) if ONE_MACHINE.search(line)]
        self.assertEqual(found, [])

    def test_a_path_of_one_machine_would_be_found(self):
        for name in OF_ONE_MACHINE:
            self.assertIsNotNone(ONE_MACHINE.search(f"cd /{name}/x".encode("ascii")), name)
            self.assertIsNone(ONE_MACHINE.search(f"cd docs/{name}/x".encode("ascii")), name)
