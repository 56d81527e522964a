"""Tests of bin/wrong-bodies on made-up crates, with outputs of real checks: no prover is run."""

import contextlib
import io
import os
import shutil
import sys
import tempfile
import unittest
from unittest import mock

BIN = os.path.join(os.path.dirname(os.path.abspath(__file__)), "..", "..", "bin")
sys.path.insert(0, os.path.abspath(BIN))

from wrong_bodies import command, edits, judge, libraries, record, repository, rooms, rounds, source, texts, verdicts  # noqa: E402

from .wrong_bodies_samples import CHECKED, LIB, NODE, NOT_COMPILED, NO_FIELD, UNREAD


def edit_text(old, new, path="src/lib.rt"):
    """The text of an edit of one pair."""
    return f"file: {path}\nold: {old}\nnew: {new}\n"


class Made(unittest.TestCase):
    """A made-up repository with one crate over another, in a temporary folder."""

    def setUp(self):
        self.root = tempfile.mkdtemp(prefix="wrong-bodies-test-")
        self.addCleanup(shutil.rmtree, self.root)
        self.write("crates.txt", "# comment\nlow: byteorder # the lowest\ntop: low\n")
        self.write("tests/none", "")
        self.write("crates/low/src/lib.rt", "pub fn low() {}\n")
        self.write("crates/top/src/lib.rt", LIB)
        self.write("crates/top/src/node.rt", NODE)
        self.write("crates/top/specs/Sums.antt", "twice x = x + x\n")
        self.folder = os.path.join(self.root, "crates", "top")
        self.files = {path: source.scan(path, text) for path, text in (("src/lib.rt", LIB), ("src/node.rt", NODE))}

    def write(self, path, text):
        """Writes a file of the repository."""
        whole = os.path.join(self.root, path)
        os.makedirs(os.path.dirname(whole), exist_ok=True)
        with open(whole, "w", encoding="utf-8") as file:
            file.write(text)

    def edit(self, name, old, new, path="src/lib.rt"):
        """Writes an edit of the crate `top` and reads it."""
        self.write(f"crates/top/wrong-bodies/{name}.edit", edit_text(old, new, path))
        return edits.read_edit(self.folder, f"wrong-bodies/{name}.edit")

    def fault(self, old, new, path="src/lib.rt"):
        """What the look at the texts says of an edit."""
        return texts.fault_of(self.edit("one", old, new, path), self.folder)

    def run_main(self, *words):
        """Runs the command: its status and what it printed."""
        with contextlib.redirect_stdout(io.StringIO()) as out:
            status = command.main([*words, "--root", self.root])
        return status, out.getvalue()


class Edits(Made):
    def test_reads_pairs_of_several_files(self):
        text = "file: src/a.rt\nold:   x\nnew:   y\nold: z\nnew:\nfile: src/b.rt\nold: u\nnew: v\n"
        wanted = [("src/a.rt", "  x", "  y"), ("src/a.rt", "z", ""), ("src/b.rt", "u", "v")]
        self.assertEqual([(pair.path, pair.old, pair.new) for pair in edits.parse(text)], wanted)

    def test_refuses_what_is_no_edit(self):
        pair = "old: x\nnew: y\n"
        for text in ("", pair, "file: ../x\n" + pair, "file: src/a.rt\nold: x\n", "file: src/a.rt\nwords\n" + pair):
            with self.assertRaises(edits.BadEdit, msg=text):
                edits.parse(text)

    def test_an_old_text_stands_once(self):
        with self.assertRaisesRegex(edits.BadEdit, "2 times"):
            edits.apply(self.edit("two", "four(x)", "x", "src/lib.rt"), {}, self.folder)
        with self.assertRaisesRegex(edits.BadEdit, "0 times"):
            edits.apply(self.edit("none", "five(x)", "x"), {}, self.folder)
        changed = edits.apply(self.edit("one", "    x + x", "    x"), {}, self.folder)
        self.assertEqual(changed, {"src/lib.rt": LIB.replace("    x + x\n", "    x\n")})


class Sources(Made):
    def test_finds_functions_and_values(self):
        keys = [one.key for file in self.files.values() for one in file.functions]
        wanted = ["twice", "four", "eight", "node::Node::len", "node::Node::is_empty", "node::NodeSought::is_behind"]
        self.assertEqual(keys, wanted)
        self.assertEqual([one.name for one in self.files["src/lib.rt"].values], ["MOST"])
        twice = self.files["src/lib.rt"].functions[0]
        self.assertTrue(LIB[twice.start : twice.end].strip().endswith("x + x"))

    def test_reads_calls_but_no_local_names(self):
        graph = source.calls(list(self.files.values()))
        self.assertEqual(graph["four"], {"twice"})
        self.assertEqual(graph["node::Node::is_empty"], {"node::Node::len"})
        self.assertEqual(graph["node::NodeSought::is_behind"], set())
        self.assertEqual(source.reached(graph, "eight"), {"four", "twice"})


class Texts(Made):
    def test_bodies_and_values_may_change(self):
        for old, new in (("    x + x", "    x * x"), ("u16 = 7;", "u16 = 8;"), ("twice(once(x))", "once(x)")):
            self.assertEqual(self.fault(old, new), "", old)
        self.assertEqual(self.fault("self.len() == 0", "self.len() <= 1", "src/node.rt"), "")

    def test_contracts_types_and_definitions_may_not(self):
        for old, new in (
            ("    ensures { result ≡ x + x }", "    ensures { x ≡ x }"),
            ("requires small { x + x ≤ 100 }", ""),
            ("ensures { result ≡ y }", "ensures { y ≡ y }"),
            ("MOST: u16", "MOST: u32"),
            ("unfolding(crate::specs::Sums::twice)", ""),
            ("    x + x", "    x } fn more() {"),
        ):
            self.assertIn("outside of a body", self.fault(old, new), old)
        self.assertIn("outside of a body", self.fault("ghost view = { λ a. a.bytes };", "", "src/node.rt"))
        self.assertIn("outside of a body", self.fault("bytes: &'a [u8],", "bytes: &'a [u16],", "src/node.rt"))
        self.assertIn("a definition", self.fault("twice x = x + x", "twice x = x", "specs/Sums.antt"))

    def test_an_edit_changes_something(self):
        self.assertIn("changes nothing", self.fault("    x + x", "    x + x"))

    def test_counts_edits_of_both_folders(self):
        self.edit("one", "    x + x", "    x")
        self.write("crates/top/must-fail/two.edit", edit_text("four(x) + four(x)", "four(x)"))
        status, said = self.run_main("--texts")
        self.assertEqual((status, said.splitlines()[-1]), (0, "2 passed, 0 failed"))
        self.assertIn("top: public functions with no wrong body (3): four, node::Node::is_empty, node::Node::len", said)
        self.write("crates/top/must-fail/one.edit", edit_text("four(x)", "0"))
        status, said = self.run_main("--texts")
        self.assertEqual((status, said.splitlines()[-1]), (1, "2 passed, 1 failed"))
        self.assertIn("top/must-fail/one.edit: its name is that of wrong-bodies/one.edit too", said)
        self.assertIn("2 times", said)


class Rounds(Made):
    def plan(self, *made):
        """The names of the edits of each round."""
        left = [rounds.candidate(one, self.files) for one in made]
        planner, found = rounds.Planner(list(self.files.values()), self.folder), []
        while left:
            chosen, _ = planner.next_round(left)
            found.append(sorted(one.edit.name.removesuffix(".edit") for one in chosen))
            left = [one for one in left if one not in chosen]
        return found

    def test_a_caller_waits_for_what_it_calls(self):
        low, high = self.edit("low", "    x + x", "    x"), self.edit("high", "four(x) + four(x)", "four(x)")
        other = self.edit("other", "self.len() == 0", "self.len() == 1", "src/node.rt")
        self.assertEqual(self.plan(low, high, other), [["high", "other"], ["low"]])

    def test_one_edit_a_function_and_constants_alone(self):
        one, two = self.edit("one", "    x + x", "    x"), self.edit("two", "_text = ", "_other = ")
        self.assertEqual(self.plan(self.edit("most", "= 7;", "= 8;"), one, two), [["one"], ["two"], ["most"]])

    def test_long_chains_share_the_late_rounds_but_cycles_do_not(self):
        chain = "".join(f"fn f{n}() {{\n    f{n + 1}();\n}}\n" for n in range(6)) + "fn f6() {\n    g();\n}\n"
        text = chain + "fn g() {\n    h();\n}\nfn h() {\n    g() + 1;\n}\n"
        self.write("crates/top/src/lib.rt", text)
        self.files = {"src/lib.rt": source.scan("src/lib.rt", text)}
        made = [self.edit(f"f{n}", f"    f{n + 1}();", "    ();") for n in range(6)]
        made += [self.edit("g", "    h();", "    ();"), self.edit("h", "    g() + 1;", "    ();")]
        self.assertEqual(self.plan(*made), [["f0"], ["f1"], ["f2", "f3", "f4", "f5", "g"], ["h"]])

    def test_places_the_change_and_not_the_text_around(self):
        function = rounds.candidate(self.edit("one", "    twice(twice(once(x)))", "    twice(once(x))"), self.files)
        self.assertEqual((function.keys, function.stands_alone), ({"four"}, False))


class Verdicts(unittest.TestCase):
    def test_tells_own_failures_from_those_of_others(self):
        report = verdicts.read_report(1, CHECKED, ("src/kind.rt",))
        words = {name.removeprefix("h5_btree::"): word for name, word in report.functions.items()}
        self.assertEqual(words["kind::NodeKind::chunks"], verdicts.PROVED)
        self.assertEqual(words["kind::NodeKind::node_length"], verdicts.OTHERS)
        self.assertEqual(words["node::Node::level"], verdicts.OWN)
        for name in ("kind::NodeKind::capacity", "read::read_node_at", "name::SoughtNameSought::is_behind"):
            self.assertEqual(words[name], verdicts.GOAL)
        self.assertTrue(report.reached and not report.proved and not report.unread)

    def test_a_loop_of_which_nothing_says_why_it_ends_is_the_functions_own(self):
        said = "no proof: expected a measure in ./proofs/breach_excludes_reads/Invariants.antt"
        self.assertEqual(verdicts.word_for(said), verdicts.OWN)
        self.assertEqual(verdicts.word_for(f"{said}; antt ended"), verdicts.UNKNOWN)

    def test_words_it_does_not_know_settle_nothing(self):
        for said in ("could not tell", "no proof: antt ended", "no proof: expected answers in ./proofs/X.antt"):
            self.assertEqual(verdicts.word_for(said), verdicts.UNKNOWN, said)
        self.assertEqual(verdicts.word_for("not proved; it waits for the proof of `x`"), verdicts.OTHERS)

    def test_a_check_that_ends_early_reached_nothing(self):
        self.assertFalse(verdicts.read_report(1, NOT_COMPILED).reached)
        self.assertFalse(verdicts.read_report(3, "fn a::b: could not tell\nrattle: no verdict: memory\n").reached)
        self.assertFalse(verdicts.read_report(-9, CHECKED).reached)
        self.assertFalse(verdicts.read_report(None, "").reached)
        self.assertFalse(verdicts.read_report(0, CHECKED).reached)
        self.assertTrue(verdicts.read_report(0, "fn a::b: proved\nlogic=proved functions=1 sum=0\n").proved)

    def test_texts_that_the_prover_cannot_read(self):
        self.assertTrue(verdicts.read_report(1, UNREAD, ("src/node.rt",)).unread)
        report = verdicts.read_report(1, NO_FIELD, ("src/node.rt",))
        self.assertTrue(verdicts.names_alone(report, "node::child_at") and not report.unread)
        self.assertFalse(verdicts.names_alone(report, "node::child"))
        self.assertFalse(verdicts.names_alone(verdicts.read_report(1, CHECKED), "node::Node::level"))

    def test_a_method_goes_by_the_module_of_its_type(self):
        functions = {"top::file::File::push": verdicts.GOAL, "top::file::Part::push": verdicts.PROVED}
        report = verdicts.Report(True, False, functions, ())
        push = source.scan("src/edits.rt", "impl File {\n    pub fn push(&mut self) {\n    }\n}\n").functions[0]
        self.assertEqual(verdicts.matching(report, "top", push), "top::file::File::push")
        two = verdicts.Report(True, False, {**functions, "top::other::File::push": verdicts.PROVED}, ())
        self.assertIsNone(verdicts.matching(two, "top", push))


class Rooms(Made):
    def test_nothing_is_written_through_a_link(self):
        self.write("crates/top/out/incremental/kept", "work")
        room = rooms.Room(os.path.join(self.root, "room"))
        crates = repository.read_crates(self.root)
        for name in ("low", "top"):
            room.add(self.root, crates[name])
        inside = os.path.join(room.crate("top"), "src", "lib.rt")
        kept = os.path.join("out", "incremental", "kept")
        self.assertTrue(os.path.samefile(os.path.join(room.crate("top"), kept), os.path.join(self.folder, kept)))
        room.write("top", {"src/lib.rt": "changed\n"})
        with open(inside, encoding="utf-8") as file:
            self.assertEqual(file.read(), "changed\n")
        with open(os.path.join(self.folder, "src", "lib.rt"), encoding="utf-8") as file:
            self.assertEqual(file.read(), LIB)
        with open(os.path.join(room.folder, "crates.txt"), encoding="utf-8") as file:
            self.assertEqual(file.read(), "low: byteorder\ntop: low\n")
        room.remove()
        self.assertTrue(os.path.exists(os.path.join(self.folder, kept)))

    def test_copies_where_links_fail(self):
        with mock.patch("os.link", side_effect=OSError):
            rooms.link_tree(os.path.join(self.folder, "src"), os.path.join(self.root, "copy"))
        with open(os.path.join(self.root, "copy", "lib.rt"), encoding="utf-8") as file:
            self.assertEqual(file.read(), LIB)


    def test_takes_no_half_of_what_changes_meanwhile(self):
        link, seen = rooms.link_tree, []

        def changing(source_folder, target):
            """Links a folder, and the first time changes a file of it right behind."""
            link(source_folder, target)
            if not seen:
                rooms.write_new(os.path.join(self.folder, "src", "lib.rt"), "changed\n")
            seen.append(target)

        room = rooms.Room(os.path.join(self.root, "room"))
        with mock.patch.object(rooms, "link_tree", changing):
            room.add(self.root, repository.read_crates(self.root)["top"])
        with open(os.path.join(room.crate("top"), "src", "lib.rt"), encoding="utf-8") as file:
            self.assertEqual(file.read(), "changed\n")


class Record(Made):
    def test_writes_replaces_and_drops_lines(self):
        crates = {"top": None, "low": None}
        for name in ("top", "gone"):
            record.change_record(self.root, {**crates, "gone": None}, add=record.Judged(name, "0" * 32, 3))
        self.assertEqual(set(record.read_record(self.root)), {"top", "gone"})
        record.change_record(self.root, crates, add=record.Judged("top", "1" * 32, 4))
        self.assertEqual(record.read_record(self.root), {"top": record.Judged("top", "1" * 32, 4)})
        record.change_record(self.root, crates, remove="top")
        self.assertEqual(record.read_record(self.root), {})

    def test_any_change_but_of_proofs_changes_the_hash(self):
        seen = {record.hash_of(self.folder)}
        for path in ("wrong-bodies/a.edit", "src/new.rt", "specs/Sums.antt"):
            self.write(f"crates/top/{path}", "x")
            seen.add(record.hash_of(self.folder))
        self.assertEqual(len(seen), 4)
        for path in ("proofs/four/Proof.antt", "out/kept"):
            self.write(f"crates/top/{path}", "x")
            self.assertIn(record.hash_of(self.folder), seen)

    def test_comments_and_line_breaks_change_no_hash(self):
        def hashed(path, text):
            """The hash of the crate with this text in a file."""
            self.write(path, text)
            return record.hash_of(self.folder)

        source, law = "crates/top/src/new.rt", "crates/top/specs/Law.antt"
        first = hashed(source, "// One.\nfn one() -> u8\n    ensures { a × b }\n{ 1 }\n")
        self.assertEqual(first, hashed(source, "/// The one.\nfn one()\n-> u8 ensures { a\n × b } { 1 } // 1\n"))
        self.assertNotEqual(first, hashed(source, "fn one() -> u8 ensures { a ⊎ b } { 1 }\n"))
        text = hashed(source, 'const ONE: &str = "a // b";\n')
        self.assertNotEqual(text, hashed(source, 'const ONE: &str = "a //  b";\n'))
        proved = hashed(law, "-- One.\nfn one : A\none = a\n    b\n")
        self.assertEqual(proved, hashed(law, "fn one : A\n\none = a\n    b  \n  -- the end\n"))
        self.assertNotEqual(proved, hashed(law, "fn one : A\none = a\nb\n"))


class Built(Made):
    """Libraries that the gate has built, with a toolchain that is made up."""

    def setUp(self):
        super().setUp()
        self.kit = os.path.join(self.root, "kit")
        self.write("kit/KIT-ID", "kit 1\n")
        played = mock.patch.object(libraries, "kit", return_value=self.kit)
        played.start()
        self.addCleanup(played.stop)
        self.write("crates/low/out/rlib/low.rlib/format", "built")
        self.crates = repository.read_crates(self.root)
        self.built = libraries.Libraries(self.root, self.crates)

    def test_libraries_stand_as_long_as_what_they_are_built_of(self):
        self.assertFalse(self.built.stand_below("top"))
        self.assertEqual(self.run_main("--note-libraries"), (0, ""))
        self.assertTrue(self.built.stand("low") and self.built.stand_below("top"))
        self.assertFalse(self.built.stand("top"))
        self.write("crates/low/wrong-bodies/one.edit", "x")
        self.assertTrue(self.built.stand("low"))
        for path, text in (("kit/KIT-ID", "kit 2\n"), ("crates/low/specs/More.antt", "x = x\n")):
            self.write(path, text)
            self.assertFalse(self.built.stand("low"), path)
            self.built.note()
            self.assertTrue(self.built.stand("low"), path)
        shutil.rmtree(os.path.join(self.root, "crates", "low", "out", "rlib", "low.rlib"))
        self.assertFalse(self.built.stand("low"))

    def test_the_prover_is_called_over_them(self):
        words = self.built.words("top", self.folder, 2)
        self.assertEqual(words[:5], [os.path.join(self.kit, "bin", "rattle"), "check", "--crate-name", "top", "src/lib.rt"])
        passed = [words[k + 1] for k, word in enumerate(words) if word == "--extern"]
        low = os.path.join(self.root, "crates", "low", "out", "rlib", "low.rlib")
        self.assertEqual(passed, [f"std={self.kit}/rlibs/std.rlib", f"low={low}"])
        self.assertIn(f"dependency={os.path.dirname(low)}", words)
        self.assertEqual(words[-4:], ["--incremental", os.path.join(self.folder, "out", "judged"), "--jobs", "2"])

    def test_a_static_library_says_so(self):
        self.write("crates.txt", "low: byteorder\ntop staticlib: low core\n")
        words = libraries.Libraries(self.root, repository.read_crates(self.root)).words("top", self.folder, 1)
        self.assertIn("staticlib", words)
        for one in ("std", "core"):
            self.assertIn(f"{one}={self.kit}/rlibs/{one}.rlib", words)

    def test_a_room_over_them_has_one_crate(self):
        self.built.note()
        with mock.patch.object(rooms.Room, "check", return_value=(0, "logic=proved functions=1 sum=0\n")):
            base, _, _ = rooms.Store(os.path.join(self.root, "store"), self.root, self.crates).base("top", 1)
        self.assertEqual(os.listdir(os.path.join(base.folder, "crates")), ["top"])
        copy = base.copy(os.path.join(self.root, "copy"))
        self.assertEqual((list(copy.crates), copy.libraries), (["top"], base.libraries))

    def test_what_is_not_proved_over_them_is_checked_as_without_them(self):
        self.built.note()
        said = [(2, "error: no such flag\n"), (0, "logic=proved functions=1 sum=0\n")]
        with mock.patch.object(rooms.Room, "check", side_effect=said):
            base, status, _ = rooms.Store(os.path.join(self.root, "store"), self.root, self.crates).base("top", 1)
        self.assertEqual((sorted(base.crates), base.libraries, status), (["low", "top"], None, 0))


class Cycles(Made):
    def test_functions_that_call_each_other_share_a_proof(self):
        text = "fn even(n: u8) -> bool {\n    odd(n - 1)\n}\nfn odd(n: u8) -> bool {\n    even(n - 1)\n}\nfn one() -> bool {\n    even(1)\n}\n"
        file = source.scan("src/lib.rt", text)
        planner = rounds.Planner([file], self.folder)
        even, _, one = (rounds.Candidate(None, (function,), False) for function in file.functions)
        self.assertEqual(planner.cycle(even), {"even", "odd"})
        self.assertEqual(planner.cycle(one), set())


class Judging(Made):
    """The whole way of an edit, with a prover that is played: it refuses each function whose body has changed, unless
    `lax` names it, and does not compile where a text has the word `broken`."""

    def setUp(self):
        super().setUp()
        self.lax, self.checks = set(), 0
        played = mock.patch.object(rooms.Room, "check", self.played())
        played.start()
        self.addCleanup(played.stop)

    def played(self):
        """The check that is played."""

        def check(room, name, _jobs):
            self.checks += 1
            files = [source.scan(path, text) for path, text in repository.read_sources(room.crate(name)).items()]
            for file in files:
                if "broken" in file.text:
                    line = file.line_of(file.text.index("broken"))
                    return 1, f"{file.path}:{line}:5: error[unknown]: nothing is named `broken`\n"
            return self.said(name, files)

        return check

    def said(self, name, files):
        """What a check prints of sources that compile."""
        bodies = {one.key: file.text[one.start : one.end] for file in files for one in file.functions}
        was = {one.key: file.text[one.start : one.end] for file in self.files.values() for one in file.functions}
        failing = {key for key in bodies if bodies[key] != was[key] and key not in self.lax}
        graph, lines = source.calls(files), []
        for key in bodies:
            below = sorted(source.reached(graph, key) & failing)
            word = f"no proof: it calls `{below[0]}`, which is not proved" if below else "proved"
            lines.append(f"fn {name}::{key}: {'not proved' if key in failing else word}")
        lines.append("logic=not-proved" if failing else "logic=proved functions=6 sum=0")
        return int(bool(failing)), "\n".join(lines) + "\n"

    def test_refused_edits_are_recorded(self):
        self.edit("low", "    x + x", "    x")
        self.edit("high", "four(x) + four(x)", "four(x)")
        self.edit("other", "self.len() == 0", "self.len() == 1", "src/node.rt")
        status, said = self.run_main()
        self.assertEqual((status, said.splitlines()[-1], self.checks), (0, "3 passed, 0 failed", 3), said)
        self.assertIn("top/wrong-bodies/low.edit: refused by twice", said)
        status, said = self.run_main()
        self.assertEqual((status, said.splitlines()[-1], self.checks), (0, "1 passed, 0 failed", 3), said)
        self.edit("low", "    x + x", "    x + 1")
        self.assertEqual(self.run_main()[1].splitlines()[-1], "3 passed, 0 failed")
        shutil.rmtree(os.path.join(self.folder, "wrong-bodies"))
        self.assertEqual(self.run_main()[0], 1)
        self.assertEqual(record.read_record(self.root), {})

    def test_a_proved_edit_fails_and_is_not_recorded(self):
        self.lax = {"twice"}
        self.edit("low", "    x + x", "    x")
        self.edit("other", "self.len() == 0", "self.len() == 1", "src/node.rt")
        status, said = self.run_main("top")
        self.assertEqual((status, said.splitlines()[-1]), (1, "1 passed, 1 failed"), said)
        self.assertIn("top/wrong-bodies/low.edit: NOT REFUSED", said)
        self.assertEqual(record.read_record(self.root), {})

    def test_one_that_does_not_compile_spoils_no_other(self):
        self.edit("low", "    x + x", "    broken")
        self.edit("other", "self.len() == 0", "self.len() == 1", "src/node.rt")
        self.edit("third", "key[0] < ", "key[1] < ", "src/node.rt")
        status, said = self.run_main("top")
        self.assertEqual((status, said.splitlines()[-1]), (1, "2 passed, 1 failed"), said)
        self.assertEqual(self.checks, 4)
        self.assertRegex(said, r"low\.edit: NOT JUDGED: its check did not reach the prover: src/lib\.rt:\d+:5: error")

    def test_a_crate_that_changes_meanwhile_is_not_recorded(self):
        self.edit("low", "    x + x", "    x")
        judge_all = judge.Judge.judge

        def changing(one):
            """Judges, and changes the crate behind its back."""
            self.write("crates/top/specs/More.antt", "x = x\n")
            return judge_all(one)

        with mock.patch.object(judge.Judge, "judge", changing):
            status, said = self.run_main("top")
        self.assertEqual((status, said.splitlines()[-1]), (1, "1 passed, 1 failed"), said)
        self.assertEqual(record.read_record(self.root), {})

    def test_a_crate_that_is_not_proved_judges_nothing(self):
        self.files["src/lib.rt"] = source.scan("src/lib.rt", LIB.replace("four(x) + four(x)", "0"))
        self.edit("low", "    x + x", "    x")
        status, said = self.run_main("--all")
        self.assertEqual((status, said.splitlines()[-1]), (1, "0 passed, 1 failed"), said)
        self.assertIn("not proved as it stands", said)

    def test_nothing_to_judge_is_a_failure(self):
        self.assertEqual(self.run_main()[1].splitlines()[-1], "0 passed, 1 failed")
        self.assertIn("no such crate", self.run_main("none")[1])
