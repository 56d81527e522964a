"""The command line."""

import argparse
import os
import sys
import tempfile
import threading
import time
from concurrent.futures import ThreadPoolExecutor

from .edits import edit_paths
from .judge import REFUSED, Judge
from .libraries import Libraries
from .record import Judged, change_record, hash_of, read_record
from .repository import crates_below, folder_of, read_crates
from .rooms import Store
from .texts import look_at_all

ROOT = os.path.dirname(os.path.dirname(os.path.dirname(os.path.realpath(__file__))))
PRINTING = threading.Lock()


def say(line):
    """Prints a line whole, also where several crates are judged side by side."""
    with PRINTING:
        print(line, flush=True)


def arguments(words):
    """What the command line asks for."""
    parser = argparse.ArgumentParser(
        prog="wrong-bodies",
        description="Judges the wrong bodies of crates (crates/NAME/wrong-bodies/*.edit), each of which the prover must"
        " refuse. With no names it judges the crates that have changed since they were last judged. The last line is"
        " 'N passed, M failed'.",
    )
    parser.add_argument("crates", nargs="*", metavar="CRATE", help="judge these, also where the record has them")
    parser.add_argument("--all", action="store_true", help="judge all crates that have wrong bodies")
    parser.add_argument("--texts", action="store_true", help="look over the texts of the edits, and prove nothing")
    parser.add_argument(
        "--note-libraries", action="store_true", help="note that `rt ci` has just built the crates as they stand"
    )
    parser.add_argument("--jobs", type=int, default=0, metavar="N", help="crates side by side (default: up to 4)")
    parser.add_argument("--logs", metavar="DIR", help="keep what the checks print in this folder")
    parser.add_argument("--root", default=ROOT, help=argparse.SUPPRESS)
    return parser.parse_args(words)


def processors():
    """How many processors this process may use."""
    return len(os.sched_getaffinity(0)) if hasattr(os, "sched_getaffinity") else os.cpu_count() or 1


class Run:
    """One run over several crates, with its counts."""

    def __init__(self, root, crates, logs):
        self.root, self.crates, self.logs = root, crates, logs
        self.passed = self.failed = 0

    def count(self, passed, failed):
        """Adds to the counts."""
        with PRINTING:
            self.passed, self.failed = self.passed + passed, self.failed + failed

    def judge(self, store, name, jobs):
        """Judges a crate, tells what became of its edits, and records it where all were refused."""
        began = time.monotonic()
        try:
            judge = Judge(store, name, jobs, self.logs)
            outcomes = judge.judge()
        except Exception as error:  # a crate that cannot be judged must not end the others
            say(f"{name}: NOT JUDGED: {type(error).__name__}: {error}")
            return self.count(0, 1)
        for one in outcomes:
            say(f"{name}/{one.edit}: {one.word}{' ' if one.word == REFUSED else ': '}{one.why}")
        refused = sum(one.word == REFUSED for one in outcomes)
        say(f"{name}: {refused} of {len(outcomes)} refused ({judge.checks} rounds, {time.monotonic() - began:.0f} s)")
        self.count(refused, len(outcomes) - refused)
        return self.record(judge, outcomes, refused)

    def record(self, judge, outcomes, refused):
        """Records a crate all of whose edits were refused, if its files are still those that were judged."""
        if not outcomes or refused < len(outcomes):
            change_record(self.root, self.crates, remove=judge.name)
        elif not judge.is_current(self.root):
            say(f"{judge.name}: not recorded, since its files or its libraries changed meanwhile")
            self.count(0, 1)
        else:
            change_record(self.root, self.crates, add=Judged(judge.name, judge.hash, refused))

    def in_turn(self, store, names):
        """The crates in the order in which they are begun: over built libraries those with the most edits, so that none of
        them is left for last; and then the others, the lowest first, since they prove what those above them need."""

        def turn(name):
            if store.libraries.stand_below(name):
                return 0, -len(edit_paths(folder_of(self.root, name))[0])
            return 1, len(crates_below(self.crates, name))

        return sorted(names, key=turn)

    def judge_all(self, names, side_by_side):
        """Judges crates side by side, each in rooms of its own."""
        jobs = max(1, processors() // max(1, min(side_by_side, len(names))))
        with tempfile.TemporaryDirectory(prefix="wrong-bodies-") as folder:
            store = Store(os.path.join(folder, "store"), self.root, self.crates)
            with ThreadPoolExecutor(side_by_side) as pool:
                ran = [pool.submit(self.judge, store, name, jobs) for name in self.in_turn(store, names)]
                for one in ran:
                    one.result()


def chosen(asked, root, with_edits):
    """The crates to judge, and how many of the others the record has."""
    record = read_record(root)
    if asked.crates:
        return asked.crates, 0
    if asked.all:
        return with_edits, 0
    known = [name for name in with_edits if name in record and record[name].hash == hash_of(folder_of(root, name))]
    return [name for name in with_edits if name not in known], len(known)


def main(words):
    """Runs the command: status 0 only where nothing failed."""
    asked = arguments(words)
    crates = read_crates(asked.root)
    unknown = [name for name in asked.crates if name not in crates]
    for name in unknown:
        say(f"{name}: crates.txt has no such crate")
    asked.crates = [name for name in asked.crates if name in crates]
    if unknown and not asked.crates:
        say(f"0 passed, {len(unknown)} failed")
        return 1
    if asked.note_libraries:
        Libraries(asked.root, crates).note()
        return 0
    if asked.texts:
        passed, failed = look_at_all(asked.root, asked.crates or list(crates), say)
    else:
        passed, failed = judged(asked, crates)
    failed += len(unknown)
    if not passed and not failed:
        say("No crate has an edit to judge.")
        failed = 1
    say(f"{passed} passed, {failed} failed")
    return 1 if failed else 0


def judged(asked, crates):
    """Judges the crates that are asked for: how many edits passed and failed. The record loses the crates that have
    gone, and those that have no wrong bodies any more."""
    if asked.logs:
        os.makedirs(asked.logs, exist_ok=True)
    with_edits = [name for name in crates if any(edit_paths(folder_of(asked.root, name)))]
    change_record(asked.root, with_edits)
    names, known = chosen(asked, asked.root, with_edits)
    if known:
        say(f"{known} crates are as they were when they were last judged.")
    run = Run(asked.root, crates, asked.logs)
    run.count(known, 0)
    if names:
        run.judge_all(names, asked.jobs if asked.jobs > 0 else min(4, processors()))
    return run.passed, run.failed


if __name__ == "__main__":
    sys.exit(main(sys.argv[1:]))
