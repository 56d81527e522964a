"""docs/TRUST.md lists what the contracts of the headline rest on, as bin/trust finds it in the sources."""

import importlib.machinery
import importlib.util
import os
import sys
import unittest

TOP = os.path.dirname(os.path.dirname(os.path.dirname(os.path.abspath(__file__))))
sys.dont_write_bytecode = True


def loaded():
    """The script bin/trust, as a module."""
    loader = importlib.machinery.SourceFileLoader("trust", os.path.join(TOP, "bin", "trust"))
    module = importlib.util.module_from_spec(importlib.util.spec_from_loader("trust", loader))
    loader.exec_module(module)
    return module


TRUST = loaded()


class Page(unittest.TestCase):
    maxDiff = None

    def test_it_is_current(self):
        with open(os.path.join(TOP, "docs", "TRUST.md"), encoding="utf-8") as page:
            self.assertEqual(TRUST.page(TRUST.Repository()), page.read(), "bin/trust writes it anew")

    def test_a_contract_rests_on_what_its_definitions_name(self):
        repository = TRUST.Repository()
        closures = [{each.name for each in repository.closure(headline)[0]} for headline in TRUST.HEADLINES]
        known = ({"IsDone", "transcript_of", "ReadsAs", "refusal_of", "shows"}, {"Breach", "Reads", "HasTree", "Cause"},
                 {"IsEdited", "IsRefused", "with_edit", "refusal_of", "Edit", "Spec"})
        for names, some in zip(closures, known):
            self.assertLessEqual(some, names)
            self.assertGreater(len(names), 200)


class Reading(unittest.TestCase):
    """How sources are read."""

    def test_definitions(self):
        text = "-- Head.\nuse Rattle.std.specs.Prelude.{ℕ}\n\n-- one\nabbrev pub one : ℕ\none = 1\n\npub record Two (n : ℕ) : Type 0 where\n  pub three : n ≡ 1\n" \
            "module {K : Type 0} where\n  abbrev pub four : K → ℕ\n  four k = 1\nunfoldable pub five : ℕ\nfive = 5\n"
        found = TRUST.cut("low", "specs/A.antt", text)
        self.assertEqual([(each.name, each.lines) for each in found], [("one", 2), ("Two", 2), ("four", 2), ("five", 2)])
        self.assertEqual(TRUST.first_comment(text, "--"), "Head.")

    def test_uses(self):
        uses = TRUST.uses_of("use Rattle.a.specs.B.{c, d as e}\nghost use Rattle.a.specs.F.{\n    g,\n    h};\nuse Rattle.a.specs.declared.i.J.TheVariants as k\n")
        self.assertEqual(dict(uses.names), {"c": {("a", "specs.B", "c")}, "e": {("a", "specs.B", "d")}, "g": {("a", "specs.F", "g")}, "h": {("a", "specs.F", "h")}})
        self.assertEqual(uses.modules, {"k": ("a", "specs.declared.i.J.TheVariants")})


if __name__ == "__main__":
    unittest.main()
