"""A word has one meaning: of definitions among crates of which one stands on the other, of code beside definitions and other crates' code."""

import os
import re
import unittest
from collections import namedtuple

from repository import test_crates

KINDS = "abbrev|unfoldable|inline|opaque|alias|record|data"
# A definition begins a line, behind words that say of what kind it is. In a module with parameters it stands further in.
DEFINITION = re.compile(rf"^ *(?:pub +)?(?:{KINDS}) +(?:(?:{KINDS}|pub) +)*([^\W\d][\w'-]*)\s*[(:{{]", re.MULTILINE)
# A law that a file of definitions states with its proof.
LAW = re.compile(r"^pub +([^\W\d][\w'-]*)\s*:", re.MULTILINE)
# A function or a type of code begins a line.
ITEM = re.compile(r"^(?P<shown>pub(?:\([a-z ]+\))? +)?(?:const +|unsafe +)*(?:fn|struct|enum|trait|type) +(?P<name>[A-Za-z_]\w*)", re.MULTILINE)
CITED = re.compile(r"ghost use([^;]*);")

# An item of code: its crate, its name, who sees it ('pub', 'pub(crate)' or nobody else), and the words that its file cites of definitions.
Item = namedtuple("Item", "crate name shown cited")

# Words with two meanings that stand, each with the lower crate and with the one in which it is to get another name when that is next changed.
TWO_DEFINITIONS = {("raw_at", "h5_model", "h5_snod")}
# A word that one crate offers, and the crate in which an item has that name too: for the same of another structure (`write_head`,
# `NodeFault`), for the step above (`list` calls `list`), or for something else (`Step`, `Span`, `fault`).
OFFERED_BESIDE = {
    "h5_types": "write", "h5_shape": "fits", "h5_msg": "write_head", "h5_header": "write_head", "h5_attr": "fault remove_at", "h5_heap": "push_text",
    "h5_snod": "NodeFault insert_at remove_at", "h5_btree": "NodeFault drop_front insert_at keep_front push_rows remove_at tree_node", "h5_group": "check_names tree_node", "h5_chunks": "check_order",
    "h5_layout": "Span", "h5_open": "read_tree", "h5_query": "Step", "h5_repack": "Layout links_of push_type",
    "h5_file": "number_at write_fill", "h5_text": "push_text", "h5_dump": "push_links", "h5_script": "list repack", "h5_cli": "list"}
# Items of code with the name of a definition that their file does not cite: types that are the code's form of what is defined (`Link`,
# `Message`, `Node`), functions that give it by way of another word (`links_at`, `kind_at`), and two meanings (`bytes_of`).
NAMED_AS_DEFINED = {
    "h5_model": "Link", "h5_msg": "SymbolTable", "h5_header": "Message", "h5_heap": "link_span", "h5_btree": "Node Tree place_of",
    "h5_group": "Names group_kind link_in links_at symbol_node symbol_nodes", "h5_layout": "bytes_of", "h5_open": "links_in",
    "h5_query": "Kind array_of kind_at links_of names_at number_at", "h5_repack": "Extent Placed links_of new_links nowhere",
    "h5_edit": "are_maxima is_chunk_large is_store links_in object_at", "h5_file": "Kept place_of", "h5_command": "Command",
    "h5_script": "Outcome"}


def texts(crate, part, ending):
    """The texts of the files in a folder of a crate."""
    for parent, _, files in os.walk(os.path.join(test_crates.CRATES, crate, part)):
        for file in sorted(files):
            if file.endswith(ending):
                with open(os.path.join(parent, file), encoding="utf-8") as text:
                    yield text.read()


def definitions(crate):
    """The names that the specs of a crate define, each as often as it is defined."""
    return [name for text in texts(crate, "specs", ".antt") for name in DEFINITION.findall(text) + LAW.findall(text)]


def items_in(crate, text):
    """The items of code that begin a line of a text."""
    cited = frozenset(word for use in CITED.findall(text) for word in re.findall(r"\w+", use))
    return [Item(crate, match["name"], (match["shown"] or "").strip(), cited) for match in ITEM.finditer(text)]


def all_below(below):
    """By crate all crates that it stands on, directly or not."""
    reached = {}
    for name, libraries in below.items():
        reached[name] = set(libraries).union(*(reached[it] for it in libraries))
    return reached


def shared(words, below):
    """The words that are defined twice in one crate, or in two of which one stands on the other, each with both crates."""
    found = []
    for name, reached in all_below(below).items():
        own = words[name]
        found += [(word, name, name) for word in sorted(set(own)) if own.count(word) > 1]
        found += [(word, it, name) for it in sorted(reached) for word in sorted(set(own) & set(words[it]))]
    return found


def offered_beside(items):
    """The words that one crate offers and with which another crate names an item of its own, each with that crate."""
    offered = {}
    for item in items:
        if item.shown == "pub":
            offered.setdefault(item.name, set()).add(item.crate)
    return {(item.name, item.crate) for item in items if offered.get(item.name, set()) - {item.crate}}


def named_as_defined(items, words, below):
    """The words of code that are a definition's of the same crate or one below it, which their file does not cite, each with the crate.
    What one file alone sees is its own affair."""
    reached = all_below(below)
    return {(item.name, item.crate) for item in items if item.shown and item.name not in item.cited
            and any(item.name in words[it] for it in reached[item.crate] | {item.crate})}


def pairs(known):
    """The words of a list, each with its crate."""
    return {(word, crate) for crate, listed in known.items() for word in listed.split()}


class Finding(unittest.TestCase):
    """How words are found."""

    def test_words_are_shared_upwards_and_not_sideways(self):
        below = {"low": [], "left": ["low"], "right": ["low"], "top": ["left"]}
        words = {"low": ["A", "B", "B"], "left": ["C"], "right": ["C"], "top": ["A"]}
        self.assertEqual(shared(words, below), [("B", "low", "low"), ("A", "low", "top")])

    def test_each_definition_is_seen(self):
        text = "abbrev pub one : ℕ\none = 1\npub record Two (n : ℕ) : Type 0 where\n  pub three : n ≡ 1\n-- data Four : Type 0\n" \
            "unfoldable pub five : ℕ\nmodule {K : Type 0} where\n  abbrev pub six-of : K → ℕ\npub data Seven : Type 0 where\n  Eight : Seven\nabbrev nine : ℕ\n"
        self.assertEqual(DEFINITION.findall(text), ["one", "Two", "five", "six-of", "Seven", "nine"])
        self.assertEqual(LAW.findall("pub ten : one ≡ 1\n  pub field : ℕ\n"), ["ten"])

    def test_code_is_seen(self):
        text = "ghost use Rattle.low.specs.A.{\n    one, two};\npub fn one() {}\nimpl Three {\n    pub fn four() {}\n}\npub(crate) struct Five;\nenum Six {}\n"
        cited = frozenset(("Rattle", "low", "specs", "A", "one", "two"))
        self.assertEqual(items_in("top", text), [Item("top", "one", "pub", cited), Item("top", "Five", "pub(crate)", cited), Item("top", "Six", "", cited)])

    def test_words_of_code_are_compared(self):
        items = [Item("low", "one", "pub", frozenset()), Item("top", "one", "", frozenset()), Item("top", "two", "pub", frozenset()),
                 Item("top", "three", "pub", frozenset(["three"])), Item("low", "four", "pub(crate)", frozenset())]
        self.assertEqual(offered_beside(items), {("one", "top")})
        words = {"low": ["two", "three"], "top": ["four"]}
        self.assertEqual(named_as_defined(items, words, {"low": [], "top": ["low"]}), {("two", "top")})


class Words(unittest.TestCase):
    """The words of this repository. A word of the lists above that is mended is taken from its list."""

    maxDiff = None

    def setUp(self):
        self.below = test_crates.crates()
        self.words = {name: definitions(name) for name in self.below}
        # Names in tests are read where they stand.
        code = [name for name in self.below if not name.endswith("_tests") and name != "h5_tests"]
        self.items = [item for name in code for text in texts(name, "src", ".rt") for item in items_in(name, text)]

    def test_no_definition_has_two_meanings(self):
        self.assertGreater(sum(len(it) for it in self.words.values()), 1_700)
        self.assertEqual(set(shared(self.words, self.below)), TWO_DEFINITIONS)

    def test_what_a_crate_offers_has_its_name_alone(self):
        self.assertGreater(len(self.items), 800)
        self.assertEqual(sorted(offered_beside(self.items)), sorted(pairs(OFFERED_BESIDE)))

    def test_code_with_the_name_of_a_definition_cites_it(self):
        self.assertEqual(sorted(named_as_defined(self.items, self.words, self.below)), sorted(pairs(NAMED_AS_DEFINED)))


if __name__ == "__main__":
    unittest.main()
