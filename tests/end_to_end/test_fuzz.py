"""The command tests/fuzz tells what a library does otherwise than the reference. The library is a stand-in here, over the reference."""

import contextlib
import io
import os
import random
import re
import unittest
from unittest import mock

from . import fuzz_command, fuzzing, today
from .support import InFolder, empty_image

# pylint: disable=wrong-import-order
from h5oracle.model import look, names_of, view_refusal  # noqa: E402
from h5oracle.session import Edited  # noqa: E402
from mutate import mutant, patch  # noqa: E402

CASES = 16
KINDS = [dict(resize=12, dump=8, root=2, ls=3, repack=3, note=1)]


class StandIn:
    """A library that answers as the reference, but for what a test makes of it."""

    def opened(self, image):
        """As `Library.opened`."""
        reading, refused = today.opened(image)
        if reading is None:
            number, _, _, place = refused.split()
            return None, (int(number), int(place))
        return StandInSession(self, image), None

    def answer(self, text):
        """What is answered to a line."""
        return text

    def status(self, edit, status):
        """What is answered to an edit by its call."""
        return status

    def told(self, found):
        """What is told of a path."""
        return found


class StandInSession:
    """As `Opened`, but that each edit writes the image anew."""

    def __init__(self, library, image):
        self.library, self.session, self.held = library, today.session_of(image), image[:today.opened(image)[0].superblock.end]

    def run(self, script):
        """The answers to a script."""
        text, edited = today.answers(self.session, script)
        self.held = self.session.image() if edited else self.held
        return self.library.answer(text)

    def edit(self, edit):
        """The status of an edit."""
        made = self.session.edit(edit)
        self.held = self.session.image() if isinstance(made, Edited) else self.held
        return self.library.status(edit, 0 if isinstance(made, Edited) else made)

    def read(self, path, hyper, length):
        """The status and the bytes of a read."""
        number = view_refusal(self.session.tree, path, hyper)
        if number:
            return number, bytes(length)
        view = self.session.open_view(path, hyper)[1]
        cells = self.session.show(view)[2]
        fixed = self.session.tree.objects[self.session.views.pop(view)[0]].fixed
        self.session.next_view -= 1
        return 0, b"".join(map(fixed.encode, cells))

    def asked(self, path):
        """What is told of a path."""
        return self.library.told(fuzzing.asked_of(self.session.tree, look(self.session.tree, names_of(path))[1]))

    def image(self):
        """The bytes of the file."""
        return self.held

    def close(self):
        """Nothing is to be given up."""


class OtherAnswers(StandIn):
    """It names another rule in place of one."""

    def answer(self, text):
        return text.replace(b"refused 6 NotFound", b"refused 4 NoSuchParent")


class OtherStatuses(StandIn):
    """It says of each edit that it is made."""

    def status(self, edit, status):
        return 0


class OtherKinds(StandIn):
    """It tells each group as a soft link."""

    def told(self, found):
        return ("soft link", b"x") if found[0] == "group" else found


class OtherCauses(StandIn):
    """It refuses bytes one byte further on."""

    def opened(self, image):
        session, refused = super().opened(image)
        return session, refused and (refused[0], refused[1] + 1)


class Broken(StandIn):
    """It ends the process where it opens a file that is not empty."""

    def opened(self, image):
        if image != empty_image():
            os._exit(3)
        return super().opened(image)


class Fuzz(InFolder):
    """The command."""

    def fuzz(self, library, *words, kinds=KINDS, judge=lambda *_: []):
        """The status and the lines of a run. No judge minds where the stand-in makes an edit, which is never in place."""
        text = io.StringIO()
        changed = mock.patch.object(fuzzing, "KINDS", kinds), mock.patch.object(today, "wrong_with", judge)
        with contextlib.redirect_stdout(text), contextlib.redirect_stderr(text), changed[0], changed[1]:
            status = fuzz_command.main(list(words), library)
        return status, text.getvalue().splitlines()

    def test_a_library_that_does_as_the_reference(self):
        for words in ((), ("--processors", "1")):
            self.assertEqual(self.fuzz(StandIn(), "--count", str(CASES), *words), (0, [f"{CASES} cases, 0 differences"]))

    def assert_told(self, library, pattern, *words, **options):
        """Differences are told, each with its seed, which gives it again."""
        status, lines = self.fuzz(library, "--count", str(CASES), *words, **options)
        told = [re.match(r"seed (\d+)(?: \(.*\))?: (.*)", line) for line in lines[:-1]]
        self.assertEqual((status, lines[-1]), (1, f"{CASES} cases, {len(told)} differences"))
        self.assertTrue(told and all(one and re.search(pattern, one[2]) for one in told), lines)
        again = self.fuzz(library, "--seed", told[0][1], "--count", "1", *words, **options)
        self.assertEqual(again, (1, [told[0][0], "1 cases, 1 differences"]))
        return [one[1] for one in told]

    def test_another_answer(self):
        kept = self.path("kept")
        seeds = self.assert_told(OtherAnswers(), "the library has b'refused 4 NoSuchParent.*, the reference b'refused 6 NotFound", "--keep", kept)
        self.assertEqual(sorted(os.listdir(kept)), sorted(seed + ending for seed in seeds for ending in (".h5", ".txt")))

    def test_another_status(self):
        self.assert_told(OtherStatuses(), r"its call: the library has b'0', the reference b'\d+'")

    def test_edits_for_which_the_image_is_written_anew(self):
        for word in ("group", "dataset", "soft", "unlink", "write", "resize"):
            with self.subTest(word=word):
                pattern = rf"^line \d+, b.{word} .*: .*( changed| moved|image grew by )"
                self.assert_told(StandIn(), pattern, kinds=[{word: 1}], judge=today.wrong_with)

    def test_what_is_told_otherwise(self):
        self.assert_told(OtherKinds(), r"^at b'/.*' behind all lines: what is told: the library has \('soft link', b'x'\), the reference \('group'")

    def test_mutants_of_files(self):
        self.written("a.h5", empty_image())
        # One that is refused, of which little is read.
        self.written("b.h5", patch(empty_image(), (8, b"\2")))
        self.written("c.txt", b"no file of these")
        self.assert_told(OtherCauses(), r"^opening: the library has b'\d+ at \d+', the reference b'\d+ at \d+'", self.folder)

    def test_a_process_that_breaks_off(self):
        self.assert_told(Broken(), "the process broke off, with status 3")

    def test_what_cannot_be_run(self):
        self.assertEqual(self.fuzz(None, "--library", self.path("none.so"))[0], 2)
        self.assertEqual(self.fuzz(StandIn(), self.path("none.h5"))[0], 2)
        self.assertEqual(self.fuzz(StandIn(), self.folder)[0], 2)

    def test_any_bytes_are_changed(self):
        for base in (b"?", b"no file", empty_image()[:20], patch(empty_image(), (8, b"\2"))):
            made = {mutant(base, random.Random(seed)) for seed in range(20)}
            self.assertGreater(len(made), 10, base)


if __name__ == "__main__":
    unittest.main()
