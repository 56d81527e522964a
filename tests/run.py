"""Runs the tests of the built program and of the repository: tests/run.py [MODULE ..].

Each module of tests/end_to_end and tests/repository runs in a process of its own, as many at once as there are
processors. What a module prints is shown when it has ended. The last line is 'N passed, M failed'.
"""

import os
import re
import subprocess
import sys
import unittest
from concurrent.futures import ThreadPoolExecutor, as_completed
from time import monotonic

HERE = os.path.dirname(os.path.abspath(__file__))
FOLDERS = ("end_to_end", "repository")
# The modules that run longest, the longest first. They begin before the others, so that none is left over at the end.
LONGEST = tuple(f"end_to_end.test_{name}" for name in (
    "fuzz_minute", "hostile_images", "refused_memory", "misuse", "calls", "groups_in_place", "links_in_place", "chunks_in_place", "whole_groups",
    "slabs", "write_scripts", "view_scripts", "group_scripts", "array_scripts", "repack", "odd_layouts", "changed_layouts", "walk", "random_scripts", "changed_plain_images", "array_forms", "corpus",
    "superblock_1", "message_versions",
    "attributes", "groups"))
COUNTS = re.compile(r"(\d+) passed, (\d+) failed")
# Stands before the name of the module that a process runs by itself.
ALONE = "--alone"


def all_modules():
    """The modules of tests, as FOLDER.NAME, in the order in which they begin."""
    found = [f"{folder}.{file[:-3]}" for folder in FOLDERS for file in sorted(os.listdir(os.path.join(HERE, folder)))
             if file.startswith("test_") and file.endswith(".py")]
    return sorted(found, key=lambda module: LONGEST.index(module) if module in LONGEST else len(LONGEST))


def chosen_modules(words):
    """The modules that the words name, as FOLDER.NAME, NAME or a path; all where there is no word."""
    modules = all_modules()
    if not words:
        return modules
    wanted = {os.path.basename(word).removesuffix(".py").rpartition(".")[2] for word in words}
    unknown = wanted - {module.rpartition(".")[2] for module in modules}
    if unknown:
        sys.exit(f"no module of tests is named {', '.join(sorted(unknown))}")
    return [module for module in modules if module.rpartition(".")[2] in wanted]


def run_here(module):
    """Runs the tests of one module in this process: status 0 where none failed. One that has no test fails."""
    tests = unittest.defaultTestLoader.loadTestsFromName(module)
    result = unittest.TextTestRunner(stream=sys.stdout, verbosity=1).run(tests)
    # A test with several failing parts counts once.
    wrong = {getattr(test, "test_case", test).id() for test, _ in result.failures + result.errors}
    unmet = len(wrong) + len(result.unexpectedSuccesses) + len(result.skipped)
    if result.testsRun == 0:
        unmet = max(unmet, 1)
    print(f"{max(result.testsRun - unmet, 0)} passed, {unmet} failed")
    return 1 if unmet else 0


def run_apart(module):
    """Runs one module in a process of its own: what it printed, its counts, and its seconds. One that breaks off counts as failed."""
    begun = monotonic()
    done = subprocess.run([sys.executable, os.path.abspath(__file__), ALONE, module], stdin=subprocess.DEVNULL,
                          stdout=subprocess.PIPE, stderr=subprocess.STDOUT, check=False, text=True, errors="replace")
    seconds = monotonic() - begun
    text, _, last = done.stdout.rstrip("\n").rpartition("\n")
    counts = COUNTS.fullmatch(last)
    if counts and (done.returncode != 0) == (counts[2] != "0"):
        return text, int(counts[1]), int(counts[2]), seconds
    return f"{done.stdout}The module broke off, with status {done.returncode}.", 0, 1, seconds


def main(words):
    """Runs the modules that are named, or all, and prints what each says: status 0 where no test failed."""
    if words[:1] == [ALONE]:
        return run_here(words[1])
    all_passed, all_failed, wrong = 0, 0, []
    with ThreadPoolExecutor(len(os.sched_getaffinity(0))) as pool:
        runs = {pool.submit(run_apart, module): module for module in chosen_modules(words)}
        for run in as_completed(runs):
            module, (text, passed, failed, seconds) = runs[run], run.result()
            print(f"== {'FAILED ' if failed else ''}{module}: {passed} passed, {failed} failed in {seconds:.1f} s\n{text}", flush=True)
            all_passed, all_failed = all_passed + passed, all_failed + failed
            wrong += [module] * bool(failed)
    if wrong:
        print(f"== failed: {', '.join(sorted(wrong))}")
    print(f"{all_passed} passed, {all_failed} failed")
    return 1 if all_failed else 0


if __name__ == "__main__":
    sys.exit(main(sys.argv[1:]))
