"""Reads what a check printed: whether it reached the prover, and what the prover said of each function."""

import re
from dataclasses import dataclass

LINE = re.compile(r"fn (\S+): (.*)")
# Reasons that lie in another function, which is not proved.
OF_OTHERS = ("it calls ", "it waits for ", "it passes ", "a call of ")
# The reason of a function with a loop of which nothing says why it ends.
NO_END = "expected a measure in "
ERROR = re.compile(r"(?:\./)?(\S+?):(\d+):\d+: error(?:\[[\w-]+\])?: (?:(`[^`]*`): )?(.*)")
# What the prover says of a text that it cannot read, where a statement that is only false reads well.
NOT_READ = re.compile(r"is not in scope|has no field|is no name|operand is missing|expected the end|cannot continue")
# A proof file that names what an edit took away: a refusal that says little of the contract.
ONLY_NAMES = re.compile(r"(?:\./)?proofs/.*(?:has no field|is not in scope|has no `|was not admitted)")
STALE = re.compile(r"Run the lower steps again")

PROVED = "proved"
# A goal of the function's own is not proved, and the line says which.
GOAL = "goal"
OWN = "own"
OTHERS = "others"
UNKNOWN = "unknown"
FAILS = (GOAL, OWN)


@dataclass(frozen=True)
class Report:
    """What a check said. `reached` says that the prover gave a verdict on the crate as a whole, `proved` which.
    `functions` has a word for each function, and `errors` the places and texts of the errors."""

    reached: bool
    proved: bool
    functions: dict
    errors: tuple
    unread: str = ""
    first: str = ""

    def own_failures(self):
        """The functions that are not proved by their own fault."""
        return sorted(name for name, word in self.functions.items() if word in FAILS)


def word_for(said):
    """Whether a function is proved, fails by itself, or is only kept up by others that fail."""
    if said == "proved" or said.startswith("proved "):
        return PROVED
    head, _, rest = said.partition(": ") if said.startswith("no proof: ") else said.partition("; ")
    reasons = [reason for reason in rest.split("; ") if reason]
    if "did not prove" in rest:
        return GOAL
    if head in ("no proof", "not proved") and reasons and all(reason.startswith(OF_OTHERS) for reason in reasons):
        return OTHERS
    if head == "not proved" and not any(reason.startswith(OF_OTHERS) for reason in reasons):
        return OWN
    if head == "no proof" and reasons and all(reason.startswith(NO_END) for reason in reasons):
        return OWN
    return UNKNOWN


def unread_line(lines, changed):
    """The first line in which the prover says that it cannot read a text of src/ or specs/ or a file that an edit
    changed: no contract was tried then."""
    for line in lines:
        match = ERROR.match(line)
        if match and (match[1] in changed or match[1].startswith(("src/", "specs/"))):
            if not match[3] or NOT_READ.search(re.sub(r"`[^`]*`", "", match[4])):
                return line
    return ""


def read_report(status, output, changed=()):
    """Reads the output of a check that ended with this status, of a crate in which these files are changed."""
    lines = output.rstrip("\n").split("\n")
    verdict = next((line for line in reversed(lines) if line.startswith("logic=")), "")
    not_proved = status == 1 and verdict.startswith("logic=not-proved")
    is_proved = status == 0 and verdict.startswith("logic=proved")
    reached = (not_proved or is_proved) and not STALE.search(output)
    functions = {match[1]: word_for(match[2]) for match in map(LINE.fullmatch, lines) if match}
    errors = [(match[1], int(match[2]), line) for line in lines if (match := ERROR.match(line))]
    told = [line for line in lines if re.match(r"(?:note: )?\S+:\d+:\d+:", line)]
    told = [line for line in told if ": error" in line or line.startswith("note: ")] or told
    telling = [line for line in told if not ONLY_NAMES.match(line)]
    first = next(iter(telling), "") or next((line for _, _, line in errors), "")
    said = [line for line in lines if line and not line.startswith(("rt: chose", "so far", "checked "))]
    return Report(
        reached=reached,
        proved=reached and is_proved,
        functions=functions,
        errors=tuple(errors),
        unread=unread_line(lines, changed),
        first=first or next(iter(said), "it printed nothing"),
    )


def names_alone(report, name):
    """Whether a function, by its name without the crate, is refused only since files of its proof name what an edit
    took away, as a variable. That refuses the edit as well, but it says little of the contract."""
    folder = f"proofs/{name.replace('::', '/')}/"
    told = [line for path, _, line in report.errors if path.startswith(folder)]
    return bool(told) and all(ONLY_NAMES.match(line) for line in told)


def matching(report, crate, function):
    """The name under which the prover speaks of a function, or None where it cannot be told."""
    name = f"{crate}::{function.key}"
    if name in report.functions:
        return name
    # The holder of a trait's functions may bear the arguments of the trait too.
    head, ending = name.rsplit("::", 1)
    found = [it for it in report.functions if re.fullmatch(re.escape(head) + r"\w*::" + re.escape(ending), it)]
    if not found and function.holders:
        # A method belongs to the module of its type, wherever its `impl` stands.
        ending = "::".join(["", *function.holders, function.name])
        found = [it for it in report.functions if it.startswith(f"{crate}::") and it.endswith(ending)]
    return found[0] if len(found) == 1 else None
