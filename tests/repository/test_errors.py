"""The doc comment of each public function that answers a `Result` has a section `# Errors`."""

import os
import re
import unittest

from repository import test_crates

# Crates of which a public function has no such section yet. One that is mended is taken from the list.
WITHOUT = ()

FUNCTION = re.compile(r"^ *(?P<shown>pub +)?(?:const +|unsafe +)*fn +(?P<name>\w+)")
# What ends a signature: a clause, the bounds of types, the body, or a function of a trait that has none.
SIGNATURE_ENDS = re.compile(r"^ *(?:requires|ensures|decreases|where|\{)|[{;]\s*$")
ANSWERS_RESULT = re.compile(r"-> *(?:\w+::)*Result\b")
TRAIT = re.compile(r"^pub +(?:unsafe +)?trait\b")


def signature_at(lines, first):
    """The signature of the function that begins in this line."""
    taken = []
    for place in range(first, len(lines)):
        ends = SIGNATURE_ENDS.search(lines[place])
        if place > first and ends and not lines[place].rstrip().endswith(("{", ";")):
            break
        taken.append(lines[place].strip())
        if ends:
            break
    return " ".join(taken)


def comment_above(lines, first):
    """The lines of the doc comment above this line, without their marks. Attributes may stand between."""
    place = first
    while place and lines[place - 1].strip() and not lines[place - 1].strip().startswith("///") and lines[place - 1].strip()[-1] not in "{};":
        place -= 1
    found = []
    while place and lines[place - 1].strip().startswith("///"):
        place -= 1
        found.insert(0, lines[place].strip().removeprefix("///").strip())
    return found


def public_functions(text):
    """The public functions of a file, those of public traits too: each with its signature and its doc comment."""
    lines, in_trait = text.split("\n"), False
    for place, line in enumerate(lines):
        in_trait = bool(TRAIT.match(line)) or (in_trait and not line.startswith("}"))
        function = FUNCTION.match(line)
        if function and (function["shown"] or in_trait):
            yield function["name"], signature_at(lines, place), comment_above(lines, place)


def without_errors(text):
    """The public functions of a file that answer a `Result` and have no section `# Errors`."""
    return [name for name, signature, comment in public_functions(text) if ANSWERS_RESULT.search(signature) and "# Errors" not in comment]


class Finding(unittest.TestCase):
    """How such functions are found."""

    def test_functions_and_their_comments_are_seen(self):
        text = ("/// One.\n///\n/// # Errors\n#[tactic(auto,\n    using(a))]\npub fn one(\n    a: u8,\n) -> Result<(), E>\n    requires { a }\n{\n}\n\n"
                "/// Two.\npub fn two() -> Result<(), E> {\n}\n\n/// Three.\nfn three() -> Result<(), E>\n{\n}\n\n/// Four.\npub fn four() -> Option<E>\n{\n}\n\n"
                "pub trait T {\n    /// Five.\n    fn five() -> fmt::Result;\n}\n\nimpl T for U {\n    fn five() -> fmt::Result {\n    }\n}\n")
        self.assertEqual([name for name, _, _ in public_functions(text)], ["one", "two", "four", "five"])
        self.assertEqual(without_errors(text), ["two", "five"])


class Errors(unittest.TestCase):
    """The doc comments of this repository."""

    maxDiff = None

    def test_each_function_that_may_fail_says_when(self):
        lacking, seen = {}, 0
        for path in test_crates.tracked_files():
            parts = path.split("/")
            if parts[0] != "crates" or parts[2] != "src" or not path.endswith(".rt"):
                continue
            text = test_crates.text_of(path)
            seen += sum(1 for _, signature, _ in public_functions(text) if ANSWERS_RESULT.search(signature))
            lacking.setdefault(parts[1], []).extend(f"{os.path.join(*parts[3:])}: {name}" for name in without_errors(text))
        self.assertGreater(seen, 150)
        self.assertEqual({name: found for name, found in lacking.items() if found and name not in WITHOUT}, {}, "functions without `# Errors`")
        self.assertEqual([name for name in WITHOUT if not lacking.get(name)], [], "crates of WITHOUT that have it everywhere")


if __name__ == "__main__":
    unittest.main()
