"""Reads Rattle sources as far as edits need: where the bodies of functions and the values of constants lie, which
functions a body names, and what is left of a file when bodies and values are cut out."""

import functools
import re
from dataclasses import dataclass

from .repository import module_of

# Comments, texts and characters.
HIDDEN = re.compile(
    r"""//[^\n]*|/\*.*?\*/|b?r(#*)".*?"\1|b?"(?:\\.|[^"\\])*"|b?'(?:\\(?:x..|u\{[^}]*\}|.)|[^\\'\n])'""", re.S
)
# The end of a text behind which a brace opens a clause.
CLAUSE = re.compile(r"\b(?:requires|ensures|ghost|invariant|decreases)\b\*?(?:\s+[\w-]+)?\s*:?\s*$")
# A clause, a ghost item or an attribute.
CLAUSE_HEAD = re.compile(
    r"\b(?:requires|ensures|invariant|decreases)\b\*?(?:\s+[\w-]+)?\s*(?=\{)|\bghost\b|#!?(?=\[)"
)
ITEM = re.compile(
    r"\bfn\s+(?P<fn>\w+)|\b(?:const|static)\s+(?:mut\s+)?(?P<const>\w+)\s*:"
    r"|\b(?:impl|trait)\b|\bmod\s+(?P<mod>\w+)\s*(?=\{)"
)
# A name in a body, with what stands before it, and whether a call or the end of an argument follows.
NAMED = re.compile(r"(\.|::)?\s*\b([a-z_]\w*)\b(?:\s*(\(|::<)|(?=\s*([,)])))?")
CLOSES = {"(": ")", "[": "]", "{": "}"}


@dataclass(frozen=True)
class Function:
    """A function with a body: its file, the names that lead to it, and where its item begins and its body lies."""

    path: str
    holders: tuple
    name: str
    at: int
    start: int
    end: int
    is_public: bool

    @property
    def key(self):
        """What tells it apart from all others of its crate."""
        return "::".join([*module_of(self.path), *self.holders, self.name])


@dataclass(frozen=True)
class Value:
    """The value of a constant: where it lies."""

    name: str
    start: int
    end: int


@dataclass(frozen=True)
class File:
    """What was found in one file."""

    path: str
    text: str
    bare: str
    functions: tuple
    values: tuple

    def function_at(self, place):
        """The innermost function in whose body a place lies."""
        inside = [one for one in self.functions if one.start <= place < one.end]
        return max(inside, key=lambda one: one.start, default=None)

    def line_of(self, place):
        """The number of the line of a place, from 1."""
        return self.text.count("\n", 0, place) + 1


def blanked(text):
    """The text with comments, strings and characters as blanks, each place where it was."""
    return HIDDEN.sub(lambda match: re.sub(r"[^\n]", " ", match[0]), text)


def closing(bare, start):
    """The place behind the bracket that closes the one at `start`, or the end of the text where none does."""
    opens, closes, depth = bare[start], CLOSES[bare[start]], 0
    for match in re.compile(re.escape(opens) + "|" + re.escape(closes)).finditer(bare, start):
        depth += 1 if match[0] == opens else -1
        if depth == 0:
            return match.end()
    return len(bare)


def body_of(bare, place):
    """Where the body of the function whose name ends at `place` lies, its braces left out, or None where it has none.
    A brace behind the word of a clause holds that clause, and no body."""
    since = place
    while True:
        match = re.compile(r"[(\[{;]").search(bare, place)
        if not match or match[0] == ";":
            return None
        place = closing(bare, match.start())
        if match[0] == "{":
            if not CLAUSE.search(bare, since, match.start()):
                return match.end(), place - 1
            since = place


def holder_of(head):
    """The name that the prover gives the functions of an `impl` or a `trait`: the type, and the trait behind it."""
    head = re.sub(r"\bwhere\b.*", "", head, flags=re.S)
    while re.search(r"<[^<>]*>", head):
        head = re.sub(r"<[^<>]*>", " ", head)
    words = re.match(r"\s*(impl|trait)\b(.*)", head, re.S)
    of_trait, found, of_type = words[2].partition(" for ")
    if words[1] == "trait" or not found:
        return (re.findall(r"\w+", of_trait.partition(":")[0] if words[1] == "trait" else of_trait) or ["?"])[-1]
    ends = [(re.findall(r"\w+", part) or ["?"])[-1] for part in (of_type, of_trait)]
    return "".join(ends)


@functools.lru_cache(maxsize=None)
def scan(path, text):
    """Finds the functions and constants of a file. It keeps what it found, since most edits are of files that others
    change as well."""
    bare, functions, values, holders = blanked(text), [], [], []
    place = 0
    while match := ITEM.search(bare, place):
        place = match.end()
        holders = [one for one in holders if one[1] > match.start()]
        names = tuple(name for name, _ in holders)
        if match["fn"]:
            body = body_of(bare, place)
            if body:
                head = bare[bare.rfind("\n", 0, match.start()) + 1 : match.start()]
                is_public = re.match(r"\s*pub\s", head) is not None
                functions.append(Function(path, names, match["fn"], match.start(), *body, is_public))
        elif match["const"]:
            values += value_of(bare, match)
        elif match["mod"]:
            holders.append((match["mod"], closing(bare, place)))
        elif begins_an_item(bare, match.start()):
            start = bare.find("{", place)
            if start >= 0:
                holders.append((holder_of(bare[match.start() : start]), closing(bare, start)))
                place = start
    return File(path, text, bare, tuple(functions), tuple(values))


def begins_an_item(bare, place):
    """Whether only words such as `pub` stand before a place on its line: an `impl` there is no type of an argument."""
    before = bare[bare.rfind("\n", 0, place) + 1 : place]
    return re.fullmatch(r"\s*(?:(?:pub(?:\([^)]*\))?|unsafe)\s+)*", before) is not None


def value_of(bare, match):
    """The value of the constant of a match, in a list, which is empty where it has none."""
    found = re.compile(r"[^;{]*?(?:\[[^\]]*\][^;{]*?)?=(?!=)").match(bare, match.end())
    if not found:
        return []
    place = found.end()
    while place < len(bare) and bare[place] != ";":
        place = closing(bare, place) if bare[place] in CLOSES else place + 1
    return [Value(match["const"], found.end(), place)]


def clauses_in(file, start, end):
    """The contracts, ghost items and attributes that stand inside a body, as of a closure: they are no code."""
    found, place = [], start
    while match := CLAUSE_HEAD.search(file.bare, place, end):
        place = match.end()
        if match[0].strip() == "ghost":
            place = file.bare.find(";", place, end) + 1 or end
        else:
            opening = re.compile(r"[{\[]").search(file.bare, place, end)
            place = closing(file.bare, opening.start()) if opening else end
        found.append(file.text[match.start() : place])
    return found


def skeleton(file):
    """What is left of a file without the bodies of its functions and the values of its constants. Contracts, types,
    attributes and imports are in it, so an edit that changes it changes more than a body."""
    spans = sorted([(one.start, one.end) for one in file.functions] + [(one.start, one.end) for one in file.values])
    parts, place = [], 0
    for start, end in spans:
        if start >= place:
            parts += [file.text[place:start], *clauses_in(file, start, end)]
            place = end
    return [*parts, file.text[place:]]


def named_in(body, known):
    """The names of functions, out of those known, that a body calls, or hands on as a value. A name of a local
    variable is none."""
    found = set()
    for match in NAMED.finditer(body):
        name = match[2]
        if name in known and (match[3] or match[1] == "::" or not match[1] and match[4]):
            found.add((name, match[1] or ""))
    return found


def calls(files):
    """The functions that each function of a crate may call, by their keys. A name counts for each function that bears
    it, whatever its type. Where this misses a call, as one that an operator stands for, the prover names it, and the
    caller is judged in a later round."""
    named = {}
    for file in files:
        for one in file.functions:
            named.setdefault(one.name, set()).add((one.key, bool(one.holders)))
    graph = {}
    for file in files:
        for one in file.functions:
            words = named_in(file.bare[one.start : one.end], named)
            # Behind a dot stands a method, behind `::` either, and alone a function that no type holds.
            found = graph.setdefault(one.key, set())
            for word, before in words:
                found |= {key for key, held in named[word] if before == "::" or held == (before == ".")}
            found.discard(one.key)
    return graph


def reached(graph, key):
    """All that a function calls, also through others."""
    seen, left = set(), [key]
    while left:
        for one in graph.get(left.pop(), ()):
            if one not in seen:
                seen.add(one)
                left.append(one)
    return seen
