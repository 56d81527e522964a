"""Plans rounds: which edits one copy of a crate can hold at once, so that each is judged by itself."""

from dataclasses import dataclass

from .edits import BadEdit, apply
from .source import calls, reached


@dataclass(frozen=True)
class Candidate:
    """An edit with the functions that it changes. One that also changes something else, such as the value of a
    constant, stands alone: its effect can show in any function."""

    edit: object
    functions: tuple
    stands_alone: bool

    @property
    def keys(self):
        """The keys of its functions."""
        return {function.key for function in self.functions}


def changed_place(text, pair):
    """Where the text of a pair begins to change, and where it ends: what `old:` and `new:` share is no change."""
    start = text.find(pair.old)
    end = start + len(pair.old)
    shortest = min(len(pair.old), len(pair.new))
    head = next((at for at in range(shortest) if pair.old[at] != pair.new[at]), shortest)
    tail = next((at for at in range(shortest - head) if pair.old[-1 - at] != pair.new[-1 - at]), shortest - head)
    return start + head, end - tail


def candidate(edit, files):
    """The edit with its functions. `files` has the scanned sources of the crate by path."""
    functions, alone = {}, False
    for pair in edit.pairs:
        file = files.get(pair.path)
        start, end = changed_place(file.text, pair) if file and pair.old in file.text else (0, 0)
        function = file.function_at(start) if file else None
        if function and function.start <= end <= function.end:
            functions[function.key] = function
        else:
            alone = True
    return Candidate(edit, tuple(functions.values()), alone or not functions)


# So many rounds hold no function beside one that it calls. What is left of long chains of calls then shares rounds.
STRICT = 2


class Planner:
    """Plans the rounds of one crate."""

    def __init__(self, files, folder):
        self.folder = folder
        self.graph = calls(files)
        self.below = {key: reached(self.graph, key) for key in self.graph}
        self.rounds = 0

    def calls_any(self, one, chosen):
        """Whether a function of an edit calls one of another edit, itself or through others."""
        theirs = set().union(*(other.keys for other in chosen if other is not one))
        return any(self.below[mine] & theirs for mine in one.keys)

    def cycle(self, one):
        """The functions that an edit's functions call and that call these: those of a cycle share one proof."""
        return {key for mine in one.keys for key in self.below[mine] if mine in self.below[key]}

    def fits(self, one, chosen):
        """Whether an edit can stand beside others: no function of its and of theirs is the same, and none calls the
        other. In the late rounds one may call the other, unless both do: the functions of a cycle share one proof."""
        for other in chosen:
            up, down = self.calls_any(one, [other]), self.calls_any(other, [one])
            if one.keys & other.keys or up and down or (up or down) and self.rounds <= STRICT:
                return False
        return True

    def heights(self, left):
        """How many rounds at least the edits of a function and of all that it calls need, by the function's key.
        Functions that call each other in a cycle are taken as they come."""
        counts = {}
        for one in left:
            for key in one.keys:
                counts[key] = counts.get(key, 0) + 1
        found = {}

        def height(key, above):
            if key not in found:
                lower = [other for other in counts if other in self.below[key] and other not in above]
                found[key] = counts[key] + max((height(other, above | {key}) for other in lower), default=0)
            return found[key]

        for key in counts:
            height(key, {key})
        return found

    def next_round(self, left):
        """The edits of the next round, out of those that are left, and the texts with them all. Those on top of the
        longest chains of calls go first, so that no chain is left for last. An edit that cannot be applied beside the
        others waits."""
        self.rounds += 1
        heights = self.heights([one for one in left if not one.stands_alone])
        shared = [one for one in left if not one.stands_alone]
        if not shared:
            return [left[0]], apply(left[0].edit, {}, self.folder)
        chosen, texts = [], {}
        for one in sorted(shared, key=lambda one: -max(heights[key] for key in one.keys)):
            if self.fits(one, chosen):
                try:
                    texts = apply(one.edit, texts, self.folder)
                except BadEdit:
                    continue
                chosen.append(one)
        return chosen, texts
