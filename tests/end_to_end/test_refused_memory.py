"""Refused memory: scripts run line by line, by the library for C, and each allocation of a run is refused in turn. A line then answers as ever, or
that it is refused for memory and has changed nothing; the lines behind it answer what the reference says of the session as it then stands.
"""

import os
import random
import subprocess
from collections import Counter
from ctypes import byref, c_uint32
from datetime import date
from itertools import count
from unittest import mock

from . import libh5i, today
from .libh5i import CAUSES, About, Opened, Slot, given
from .packed import Packed, is_older
from .refusing import ANSWERED, BROKEN_OFF, NO_MEMORY, NONE, VIEW_ANSWERED, Refusing, Run, Wanted, compiled, number_at, preloaded, shown
from .support import PROGRAM, TOP, InFolder, empty_image, patched, run_command
from .test_refused_images import ALONG_THE_WALK, CHANGES, CUTS

# pylint: disable=wrong-import-order
from h5oracle.model import Hyper, Write  # noqa: E402

DATA = os.path.join(TOP, "tests", "data")
ARRAY = ["dataset /d i32le 3 contiguous", "write /d 0 1 3 1 1,-1,2147483647"]
CHUNKS = ["dataset /c u8 5/inf,4 chunked:2,3", "write /c 0,0 1,1 5,4 1,1 " + ",".join(map(str, range(1, 21)))]
STRIDED = ["dataset /r i16le 8 contiguous", "write /r 0 1 8 1 0,1,2,3,4,5,6,7", "view /r 1 3 2 2", "show 0", "write /r 4 1 1 1 40", "show 0",
           "write /r 3 1 1 1 9", "show 0"]
RENAMED = ["dataset /a u8 3 contiguous", "link /a /b", "view /a 0 2 2 1", "unlink /a", "write /b 0 1 3 1 5,6,7", "show 0"]
NAMES = [f"n{number:03}" for number in range(300)]
# From the middle to both ends.
TAKEN = [name for pair in zip(reversed(NAMES[:150]), NAMES[150:]) for name in pair]
# Scripts on the empty file.
SCRIPTS = {
    "both ends of a type": [*ARRAY, "dump /d"],
    "the high byte first": ["dataset /u u16be 2 contiguous", "write /u 0 1 2 1 65535,258", "dump /u"],
    "a byte": ["dataset /b i8 1 contiguous", "write /b 0 1 1 1 -128", "write /b 0 1 1 1 128", "dump /b"],
    "a value out of range": [*ARRAY, "write /d 0 1 3 1 7,8,2147483648", "dump /d"],
    "nine names": [*ARRAY, *(f"link /d /{name}" for name in "efghijkl"), "ls", "repack", "ls"],
    "chunks": [*CHUNKS, "dump /c"],
    "outside and back": [*CHUNKS, "view /c 4,3 1,1 1,1 1,1", "show 0", "resize /c 1,1", "show 0", "resize /c 5,4", "show 0", "dump /c"],
    "a view with a stride": [*STRIDED, "view /r 0 1 2 2", "view /r 0 0 1 1", "view /r 0 1 1 2", "show 1"],
    "a view goes by the object": [*RENAMED, "unlink /b", "show 0", "dataset /n u8 3 contiguous", "show 0", "close 0", "show 0"],
    "scalars and nothing": ["dataset /s i64be - contiguous", "write /s - - - - -9223372036854775808", "dataset /z u8 0 contiguous", "view /z 0 1 0 1",
                            "view /z 9 1 0 1", "view /s - - - -", "show 0", "show 1", "show 2", "dump /s", "dump /z"],
    "attributes": ["attr / note u8 2 7,8", "dump /", "repack", "dump /", "unattr / note", "unattr / note"],
    "soft links": ["soft /nowhere /s", "ls", "group /s/x", "group /g", "link /g /h", "unattr /s a", "unlink /s", "ls", "unlink /g"],
    "refusals": [*ARRAY, *CHUNKS, "group d", "group /", "group /x/y", "unlink /x", "dataset /d u8 1 compact", "write / 0 1 1 1 1",
                 "dataset /q u8 4 chunked:0", "dataset /q u8 1/18446744073709551615 chunked:1", "attr /c n u8 0,1099511627777 -", "resize /c 5",
                 "write /c 4,4 1,1 1,1 1,1 9", "resize /d 4", "resize /c 5,5", "dataset /q u8 1/inf chunked:1073741825", "dataset /q u8 65525 compact",
                 "dataset /q u8 1099511627777 chunked:1", "write /c 0,0 1,1 1,1 1,1 1,2", "grop /x", "group " + "/x" * 65, "group /" + "n" * 1024, "ls"],
    "greatest sizes": ["dataset /q u8 65524 compact", "group /" + "n" * 1023, "group /g", f"attr /g big u8 65480 {','.join(['1'] * 65480)}",
                       f"attr /g big u8 65481 {','.join(['1'] * 65481)}"],
}
# Files that HDF5's own library wrote: an array with a modification time, and a group whose attributes stand in a block of their own.
FILES = {
    "times_on.h5": ["ls", "repack", "ls"],
    "attribute_names.h5": ["dump /", "attr / new u8 1 5", "unattr / new", "dump /", "repack", "dump /"],
}
MANY_NAMES = ["group /g", "dataset /d u8 1 compact", *(f"link /d /g/{name}" for name in NAMES), *(f"unlink /g/{name}" for name in TAKEN), "ls"]
# A group with all that stands below it, where one of its arrays has a name elsewhere.
WHOLE_GROUP = ["group /g", "dataset /g/a u8 2 contiguous", "dataset /k u8 2 contiguous", "link /k /g/k", "group /g/h", "soft /x /g/h/s",
               "view /g/a 0 1 2 1", "view /g/k 0 1 2 1", "unlink /g", "show 0", "show 1", "ls", "repack"]
# Groups in groups, attributes, and an array with a tree of chunks of two levels, which has a name elsewhere.
DEEP_GROUP = ["group /g", "group /g/h", "group /g/h/i", "dataset /g/h/c u8 70/inf chunked:1 fill=3",
              f"write /g/h/c 0 1 70 1 {','.join(map(str, range(70)))}", "attr /g/h/i unit u8 2 1,2", "dataset /k i16be 3 compact", "link /k /g/h/i/k",
              "link /g/h/c /c", "soft /c /g/h/i/s", "view /g/h/c 0 23 4 1", "view /k 0 1 3 1", "unlink /g/h", "show 0", "show 1", "unlink /c", "show 0",
              "group /g/h", "unlink /g", "ls"]
OUT_OF_MEMORY = 5, b"", b"h5i: out of memory\n"
# So many of the runs of the longest script are made.
DRAWN = 10
# Where it is set, all of them are.
ALL_RUNS = os.environ.get("ALL_RUNS")


def encoded(lines):
    """Lines as bytes."""
    return [line.encode("ascii") for line in lines]


class Edited(Opened):
    """A session that is edited where a line is refused."""

    def run(self, script):
        answer = super().run(script)
        if answer == ANSWERED:
            super().run(b"group /more\n")
        return answer


class Viewed(Opened):
    """A session in which a view is opened where one is refused."""

    def run(self, script):
        answer = super().run(script)
        if answer == VIEW_ANSWERED:
            super().run(script)
        return answer


class Unasked(Opened):
    """A session that refuses a line though there is memory."""

    def run(self, script):
        return ANSWERED if script == b"show 0\n" else super().run(script)


class Kept(Opened):
    """A session that is not given up."""

    def close(self):
        pass


class RefusedMemory(Packed):
    """Runs of scripts."""

    @classmethod
    def setUpClass(cls):
        super().setUpClass()
        cls.refusing = Refusing(cls.archive, cls.folder)

    def assert_run(self, wanted, after):
        """Nothing is wrong with a run: the run."""
        run = Run(self.refusing, wanted, after)
        self.assertIsNone(run.wrong(), f"allocation {after}")
        return run

    def counts_of(self, image, lines):
        """Refuses each allocation of the lines in turn: how often each was told."""
        wanted, told, after = Wanted(image, encoded(lines)), Counter(), 0
        while True:
            run = self.assert_run(wanted, after)
            if not run.was_refused():
                return told
            told[run.how] += 1
            after += 1

    def assert_refused(self, told):
        """Opening was refused, lines were, and runs. An allocation that is asked for in another way then is no refusal; few are."""
        self.assertGreater(min(told["opening"], told[ANSWERED], told[BROKEN_OFF]), 0)
        self.assertLess(told[None], told.total() // 10)

    def test_scripts_on_the_empty_file(self):
        all_told = Counter()
        for name, lines in SCRIPTS.items():
            with self.subTest(name=name):
                told = self.counts_of(empty_image(), lines)
                self.assert_refused(told)
                self.assertEqual(told[VIEW_ANSWERED] > 0, any(line.startswith("view") for line in lines))
                all_told += told
        print(f"{all_told.total()} allocations were refused in turn.")

    def test_cells_that_are_not_stored(self):
        session = self.refusing.opened(empty_image())[0]
        self.assertEqual(session.run(today.printed([*ARRAY, "repack"])), b"ok 0\n" * 3)
        image = patched(session.image(), 1226, "ff" * 8)
        session.close()
        self.assert_refused(self.counts_of(image, ["view /d 0 1 3 1", "show 0", "write /d 1 1 1 1 5", "show 0"]))

    def test_files_of_the_library(self):
        for name, lines in FILES.items():
            with self.subTest(name=name), open(os.path.join(DATA, name), "rb") as file:
                self.assert_refused(self.counts_of(file.read(), lines))

    def test_whole_groups(self):
        # A package of other sources may answer otherwise to its unlink.
        if not is_older():
            for lines in (WHOLE_GROUP, DEEP_GROUP):
                self.assert_refused(self.counts_of(empty_image(), lines))

    def test_many_names(self):
        wanted, rng = Wanted(empty_image(), encoded(MANY_NAMES)), random.Random(f"{date.today()}")
        before = self.refusing.asked_for()
        self.assertIsNone(self.assert_run(wanted, 1 << 40).how)
        places = range(self.refusing.asked_for() - before)
        for after in places if ALL_RUNS else rng.sample(places, DRAWN):
            self.assertTrue(self.assert_run(wanted, after).was_refused(), after)

    def test_each_allocation_of_one_session(self):
        held, session = self.refusing.held(), self.refusing.opened(empty_image())[0]
        theirs = today.session_of(empty_image())
        # The text of answers has grown before, so that a line that has run never lacks room for its own.
        session.run(b"x\n" * 100)
        told = Counter()
        for line in encoded(MANY_NAMES):
            before = session.image()
            for after in count():
                self.refusing.refuse(after)
                answer = session.run(line + b"\n")
                if self.refusing.refuse(NONE) != NONE:
                    break
                self.assertIn(answer, (ANSWERED, BROKEN_OFF), (line, after))
                self.assertTrue(session.image() == before, (line, after))
                told[answer] += 1
            self.assertEqual(answer, today.answers(theirs, line + b"\n")[0], line)
        self.assertIsNone(today.same_tree(today.opened(session.image())[0].tree, theirs.tree))
        session.close()
        self.assertEqual(self.refusing.held(), held)
        self.assertGreater(told.total(), len(MANY_NAMES))

    def test_each_call_of_c(self):
        # Each allocation of calls by their own names, and what leaks, by a program in C.
        program = os.path.join(self.folder, "sweep")
        compiled("-g", "-fsanitize=address", "-Wl,--wrap=malloc,--wrap=realloc", os.path.join(TOP, "bindings", "c", "sweep.c"), self.archive, "-o", program)
        status, output, errors = run_command(program)
        self.assertEqual((status, errors), (0, b""))
        self.assertRegex(output, rb"^\d\d+ allocations were refused in turn; nothing has changed by it\n$")

    def test_what_is_told(self):
        lines = SCRIPTS["a view with a stride"]
        for opened, pattern in ((Edited, "it is refused, and has changed the session"), (Viewed, "it is refused, and has changed the session|answers b'view 1"),
                                (Unasked, "no allocation was refused"), (Kept, "blocks are still held")):
            with self.subTest(opened=opened), mock.patch.object(libh5i, "Opened", opened):
                wanted = Wanted(empty_image(), encoded(lines))
                told = [Run(self.refusing, wanted, after).wrong() for after in range(60)]
                self.assertRegex("\n".join(filter(None, told)), pattern)

    def test_a_session_of_the_empty_file(self):
        slot = Slot()
        for after in count():
            self.refusing.refuse(after)
            status = self.refusing.calls.h5i_create(byref(slot))
            if self.refusing.refuse(NONE) != NONE:
                break
            self.assertEqual((status, slot.is_open), (NO_MEMORY, False))
        self.assertEqual((status, slot.is_open), (0, True))
        session = Opened(self.refusing.calls, slot)
        self.assertEqual(session.image(), empty_image())
        session.close()

    def test_bytes_that_are_refused(self):
        images = {length: (empty_image()[:length], verdict) for length, verdict in CUTS.items()}
        images |= {change: (patched(empty_image(), *change), verdict) for change, verdict in (CHANGES | ALONG_THE_WALK).items()}
        for name, (image, (cause, _, place)) in images.items():
            for after in count():
                self.refusing.refuse(after)
                refusal = self.refusing.opened(image)[1]
                if self.refusing.refuse(NONE) != NONE:
                    break
                self.assertEqual(refusal[0] + CAUSES, NO_MEMORY, (name, after))
            self.assertEqual(refusal, (cause, place), name)

    def test_what_takes_no_memory(self):
        session = self.refusing.opened(empty_image())[0]
        session.run(today.printed([*ARRAY, *CHUNKS, "attr /d a u8 2 1,2", "view /c 0,0 1,1 5,4 1,1", "view /d 0 1 3 1"]))
        before, about, hyper = self.refusing.asked_for(), About(), Hyper((0,), (1,), (3,), (1,))
        self.assertEqual(session.call("stat", *given(b"/c"), byref(about)), 0)
        self.assertEqual(session.call("attribute", *given(b"/d"), *given(b"a"), byref(about)), 0)
        self.assertEqual(session.attribute(b"/d", b"a")[3], b"\1\2")
        self.assertEqual(number_at(session, b"/c"), 2)
        self.assertEqual([shown(session, view)[0] for view in range(3)], [0, 0, 201])
        self.assertEqual((len(session.image()), session.taken("text")[:5]), (len(session.image()), b"ok 0\n"))
        self.assertEqual(session.call("close_view", c_uint32(0)), 0)
        for path, lists in ((b"/d", hyper), (b"/c", Hyper((0, 0), (1, 1), (5, 4), (1, 1)))):
            self.assertEqual(session.read(path, lists, 12 if path == b"/d" else 20)[0], 0)
        self.assertEqual(session.edit(Write(b"/d", hyper, (7, 8, 9))), 0)
        self.assertEqual(self.refusing.asked_for(), before)
        session.close()

    def test_a_write_beside_a_view_of_another_array(self):
        taken = []
        for lines in ([], ["view /c 0,0 1,1 5,4 1,1"]):
            session = self.refusing.opened(empty_image())[0]
            session.run(today.printed([*ARRAY, *CHUNKS, *lines]))
            before = self.refusing.asked_for()
            self.assertEqual(session.edit(Write(b"/d", Hyper((0,), (1,), (3,), (1,)), (7, 8, 9))), 0)
            taken.append(self.refusing.asked_for() - before)
            self.assertEqual(session.run(b"write /d 0 1 3 1 4,5,6\n"), b"ok 0\n")
            session.close()
        self.assertEqual(taken[0], taken[1])


class TheProgram(InFolder):
    """Runs of the program."""

    def setUp(self):
        super().setUp()
        self.places = {"LD_PRELOAD": preloaded(self.folder), "ASKED": self.path("asked")}

    def run_of(self, after, *words, script=b""):
        """The status, output and errors of a run one allocation of which is refused."""
        done = subprocess.run([PROGRAM, *words], input=script, env=self.places | {"REFUSED": str(after)}, capture_output=True, check=False, timeout=60)
        return done.returncode, done.stdout, done.stderr

    def allocations_of(self, *words, **options):
        """What a run gives where no allocation is refused, and how many it asks for."""
        found = self.run_of(NONE, *words, **options)
        return found, range(int(self.read(self.path("asked"))))

    def assert_all_or_none(self, *words):
        """Where an allocation is refused, nothing is printed but that there is no memory, if it is not done as ever. It mostly is not."""
        right, places = self.allocations_of(*words)
        found = [self.run_of(after, *words) for after in places]
        self.assertEqual([one for one in found if one not in (right, OUT_OF_MEMORY)], [])
        self.assertGreater(found.count(OUT_OF_MEMORY), len(found) // 2)
        return right

    def test_words(self):
        self.assertEqual(self.assert_all_or_none()[0], 2)
        self.assertEqual(self.assert_all_or_none("ls")[0], 2)
        self.assertEqual(self.assert_all_or_none("ls", self.path("missing.h5"))[0], 4)
        self.assertEqual(self.assert_all_or_none("dump", self.folder, "/"), (4, b"", f"h5i: cannot read {self.folder}\n".encode()))

    def test_new(self):
        path = self.path("e.h5")
        (status, _, _), places = self.allocations_of("new", path)
        self.assertEqual((status, self.read(path)), (0, empty_image()))
        for after in places:
            self.written("e.h5", b"old")
            found = self.run_of(after, "new", path)
            self.assertIn((found, self.read(path)), (((0, b"", b""), empty_image()), (OUT_OF_MEMORY, b"old")), after)

    def test_a_listing_and_a_dump(self):
        path = self.with_array()
        before = self.stamp(path)
        for words in (("ls", path), ("dump", path, "/d"), ("dump", path, "/missing"), ("ls", self.written("cut.h5", empty_image()[:799])),
                      ("ls", self.written("changed.h5", patched(empty_image(), 136, "00")))):
            with self.subTest(words=words):
                self.assert_all_or_none(*words)
        self.assertEqual(self.stamp(path), before)

    def test_dumps_of_a_script(self):
        path = self.new()
        self.assertEqual(self.run_of(NONE, "run", path, script=today.printed([*ARRAY, *CHUNKS, "attr /c unit u8 2 1,2"])), (0, b"ok 0\n" * 5, b""))
        tree = today.opened(self.read(path))[0].tree
        for array in ("/d", "/c"):
            # Memory is taken before anything is printed, so that a dump is refused as a whole, and the line behind it is run.
            dumped, listed, script = today.dump(tree, array.encode("ascii")), today.listing(tree), today.printed([f"dump {array}", "ls"])
            right, places = self.allocations_of("run", path, script=script)
            self.assertEqual(right, (0, dumped + listed, b""))
            found = Counter(self.run_of(after, "run", path, script=script) for after in places)
            refused = 1, ANSWERED + listed, b""
            self.assertLessEqual(found.keys(), {right, OUT_OF_MEMORY, refused, (1, dumped + ANSWERED, b"")})
            self.assertGreater(found[refused], 0)

    def is_right(self, found, lines):
        """Whether nothing is wrong with a run of a script on a file with the empty image, one allocation of which was refused."""
        (status, output, errors), theirs, edits = found, today.session_of(empty_image()), 0
        after = self.read(self.path("e.h5"))
        if status == 5:
            answers = today.answers(theirs, today.printed(lines))[0]
            return errors == OUT_OF_MEMORY[2] and answers.startswith(output) and after == empty_image()
        refused = False
        for line in encoded(lines):
            told = VIEW_ANSWERED if line.startswith(b"view ") else ANSWERED
            if output.startswith(told):
                output, refused = output.removeprefix(told), True
                continue
            answer, edited = today.answers(theirs, line + b"\n")
            if not output.startswith(answer):
                return False
            output, refused, edits = output.removeprefix(answer), refused or answer.startswith(today.REFUSED), edits + edited
        if output or errors or status != refused:
            return False
        return today.same_tree(today.opened(after)[0].tree, theirs.tree) is None if edits else after == empty_image()

    def test_scripts(self):
        chosen = {name: SCRIPTS[name] for name in ("both ends of a type", "a view with a stride", "a view goes by the object")}
        for name, lines in {**chosen, "a whole group": WHOLE_GROUP, "groups in groups": DEEP_GROUP}.items():
            statuses = Counter()
            path = self.written("e.h5", empty_image())
            _, places = self.allocations_of("run", path, script=today.printed(lines))
            for after in places:
                found = self.run_of(after, "run", self.written("e.h5", empty_image()), script=today.printed(lines))
                with self.subTest(name=name, after=after):
                    self.assertTrue(self.is_right(found, lines), found)
                statuses[found[0]] += 1
            self.assertGreater(min(statuses[5], statuses[1]), 0)
