"""Judges the wrong bodies of one crate: in rounds first, and by themselves where a round says too little."""

import os
import time
from dataclasses import dataclass

from . import verdicts
from .edits import BadEdit, apply, edit_paths, read_edit
from .record import hash_of
from .repository import folder_of, read_sources
from .rounds import Planner, candidate
from .source import scan

REFUSED = "refused"
NOT_REFUSED = "NOT REFUSED"
NOT_JUDGED = "NOT JUDGED"


@dataclass(frozen=True)
class Outcome:
    """What became of one edit, and why."""

    edit: str
    word: str
    why: str


class Judge:
    """Judges a crate in rooms that are made from a base, in which the crate as it stands has been checked."""

    def __init__(self, store, name, jobs, logs=None):
        self.name, self.jobs, self.logs = name, jobs, logs
        self.checks = 0
        self.outcomes = {}
        self.base, status, output = store.base(name, jobs)
        self.as_it_stands = self.log(status, output, {}, "as-it-stands")
        self.folder = self.base.crate(name)
        self.hash = hash_of(self.folder)

    def is_current(self, root):
        """Whether the crate is still what was judged, and stands on libraries that are those it was judged over."""
        same = self.hash == hash_of(folder_of(root, self.name))
        return same and (not self.base.libraries or self.base.libraries.stand_below(self.name))

    def judge(self):
        """An outcome for each of the crate's edits."""
        left = self.read()
        if self.as_it_stands.proved:
            self.run_rounds(left)
        else:
            for one in left:
                self.tell(one, NOT_JUDGED, f"the crate is not proved as it stands: {self.as_it_stands.first[:200]}")
        self.base.remove()
        return [self.outcomes[path] for path in sorted(self.outcomes)]

    def read(self):
        """The edits that can be tried. For each other one the outcome says what is wrong with it."""
        good, bad = edit_paths(self.folder)
        why = "an edit stands right in its folder, and its name is of letters, digits, _, - and . and ends in .edit"
        self.outcomes = {path: Outcome(path, NOT_JUDGED, why) for path in bad}
        self.files = {path: scan(path, text) for path, text in read_sources(self.folder).items()}
        self.planner = Planner(list(self.files.values()), self.folder)
        left = []
        for path in good:
            try:
                edit = read_edit(self.folder, path)
                apply(edit, {}, self.folder)
                left.append(candidate(edit, self.files))
            except BadEdit as error:
                self.outcomes[path] = Outcome(path, NOT_JUDGED, str(error))
        return left

    def run_rounds(self, left):
        """Plans a round and judges it, until no edit is left."""
        while left:
            chosen, texts = self.planner.next_round(left)
            left = [one for one in left if one not in chosen]
            left += self.run_round(chosen, texts)

    def run_round(self, chosen, texts):
        """Judges the edits of a round: those that it says nothing of are given back, for another one. A round that
        says nothing of any is split, and one edit by itself is always settled."""
        report = self.check(texts, f"round-{self.checks}")
        if len(chosen) == 1:
            self.settle(chosen[0], report)
            return []
        if not self.can_be_told_apart(report, chosen):
            return [one for part in self.split(chosen, report) for one in self.retry(part)]
        again = []
        for one in chosen:
            words = {name: report.functions.get(name) for name in self.names(report, one).values()}
            # Beside an edit of a function that it calls, only a goal of its own that is named counts.
            below = self.planner.calls_any(one, chosen)
            failed = [it for it, word in words.items() if word == verdicts.GOAL or word == verdicts.OWN and not below]
            if failed:
                self.tell(one, REFUSED, self.refused_by([name.partition("::")[2] for name in failed], report))
            elif words and set(words.values()) <= {verdicts.OTHERS, verdicts.OWN}:
                again.append(one)
            else:
                self.alone(one)
        return again

    def retry(self, part):
        """Judges a part of a round that was split: the edits that it says nothing of are given back."""
        texts = {}
        for one in part:
            texts = apply(one.edit, texts, self.folder)
        return self.run_round(part, texts)

    def alone(self, one):
        """Tries an edit by itself. A round counts only what fails in the edit's own function: here, as in the merge
        gate, any failure of the crate refuses the edit."""
        texts = apply(one.edit, {}, self.folder)
        self.settle(one, self.check(texts, f"alone-{one.edit.name}"))

    def can_be_told_apart(self, report, chosen):
        """Whether the check of a round reached the prover, read every text, and no function fails by itself but those
        that the edits change. Otherwise an edit acts where it was not looked for."""
        if not report.reached or report.unread:
            return False
        known = {name for one in chosen for name in self.names(report, one).values()}
        known |= {verdicts.matching(report, self.name, it) for one in chosen for it in self.in_cycle(one)}
        return all(any(is_within(name, own) for own in known) for name in report.own_failures())

    def names(self, report, one):
        """The names under which the prover speaks of an edit's functions, by the functions' keys."""
        return {function.key: verdicts.matching(report, self.name, function) for function in one.functions}

    def in_cycle(self, one):
        """The functions that share one proof with an edit's functions."""
        cycle = self.planner.cycle(one)
        return [it for file in self.files.values() for it in file.functions if it.key in cycle]

    def split(self, chosen, report):
        """Parts of a round that could not be judged: the edits at which an error points each by itself, and the rest
        together; where that parts nothing, halves."""
        blamed = [one for one in chosen if any(self.points_at(error, one) for error in report.errors)]
        rest = [one for one in chosen if one not in blamed]
        if blamed and rest:
            return [[one] for one in blamed] + [rest]
        half = len(chosen) // 2
        return [chosen[:half], chosen[half:]]

    def points_at(self, error, one):
        """Whether an error stands in a function of an edit. An edit moves no line: its texts are of one line each."""
        path, line, _ = error
        for function in one.functions:
            file = self.files[function.path]
            if path == function.path and file.line_of(function.at) <= line <= file.line_of(function.end):
                return True
        return False

    def settle(self, one, report):
        """Gives the outcome of an edit that was tried by itself."""
        if not report.reached:
            self.tell(one, NOT_JUDGED, f"its check did not reach the prover: {report.first[:200]}")
        elif report.unread:
            self.tell(one, NOT_JUDGED, f"the prover cannot read the edited text: {report.unread[:200]}")
        elif report.proved:
            self.tell(one, NOT_REFUSED, "the crate is still proved with this edit")
        else:
            self.tell(one, REFUSED, self.refusal(one, report))

    def refusal(self, one, report):
        """Which functions refuse an edit that stands alone."""
        own = [name for name in self.names(report, one).values() if name]
        failed = report.own_failures()
        mine = [name for name in failed if any(is_within(name, it) for it in own)]
        if mine:
            return self.refused_by([name.partition("::")[2] for name in mine], report)
        others = ", ".join(name.partition("::")[2] for name in failed)
        return f"by other functions: {others}" if others else f"by no function: {report.first[:160]}"

    def refused_by(self, names, report):
        """The words for functions that refuse an edit of theirs, by their names without the crate."""
        said = f"by {', '.join(sorted(names))}"
        if all(verdicts.names_alone(report, name) for name in names):
            return said + " (only since its proof names what the edit took away, which says little of the contract)"
        return said

    def tell(self, one, word, why):
        """Keeps an outcome."""
        self.outcomes[one.edit.path] = Outcome(one.edit.path, word, why)

    def check(self, texts, label):
        """Checks the crate with these texts, in a room of its own over what the base keeps."""
        room = self.base.copy(f"{self.base.folder}-{self.name}-{self.checks}")
        self.checks += 1
        try:
            room.write(self.name, texts)
            return self.log(*room.check(self.name, self.jobs), texts, label)
        finally:
            room.remove()

    def log(self, status, output, texts, label):
        """Reads the output of a check, and keeps it where that is wanted."""
        if self.logs:
            with open(os.path.join(self.logs, f"{self.name}-{label}.log"), "w", encoding="utf-8") as file:
                file.write(f"{time.strftime('%H:%M:%S')} status {status}, changed: {' '.join(sorted(texts))}\n{output}")
        return verdicts.read_report(status, output, tuple(texts))


def is_within(name, own):
    """Whether a name is that of a function, or of something inside it, as a closure."""
    return own is not None and (name == own or name.startswith(own + "::"))
