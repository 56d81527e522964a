"""Edits and views by calls of the library: what each gives, and the image behind it, are the reference's. And what README.md and that of
h5_file show."""

import hashlib
import os
import random

from . import today
from .drawn_images import IMAGES, linked_image
from .drawn_scripts import VIEWS, WHOLE, WRITES, LineMaker
from .support import TOP, empty_image
from .transcripts import Transcripts
from .tried import Tried

PROGRAM = os.path.join(TOP, "tests", "calls", "edits.rt.txt")
LIBRARIES = "h5_file h5_command hex sha2 anyhow"
# So many files, and as many sessions, and lines for each.
SEEDS = range(max(1, IMAGES // 50))
LINES = 60
# Lines of scripts that ask for no call of an edit or a view.
NO_CALLS = {"dump", "root", "ls", "repack", "bad", "note"}
EDITS = {kind: often for kind, often in WRITES.items() if kind not in NO_CALLS}
CALLS = {kind: often for kind, often in VIEWS.items() if kind not in NO_CALLS}
GROUP_CALLS = {kind: often for kind, often in WHOLE.items() if kind not in NO_CALLS}


def called(session, line, text):
    """What the call of a line gives, by the answer of the reference, whose session is as that line has left it."""
    if line.startswith(b"show ") and text.startswith((b"kept", b"lent")):
        number = int(line[5:])
        fixed = session.tree.objects[session.views[number][0]].fixed
        _, _, values = session.show(number)
        return f"{text[:4].decode('ascii')} {fixed.size} " + b"".join(fixed.encode(value) for value in values).hex()
    words = text.decode("ascii").split()
    # Of a refusal the name is left out.
    return " ".join(words[:2])


def asked(seed, word, kinds):
    """Lines for the program, and what it should print."""
    rng = random.Random(f"calls {word} {seed}")
    image = linked_image(rng) if seed % 4 else empty_image()
    maker = LineMaker(rng, image, kinds)
    lines, wanted = [f"{word} {image.hex()}"], []
    while len(wanted) < LINES:
        line, (text, _) = maker.line()
        if text != b"bad line\n":
            lines.append(line.decode("ascii"))
            wanted.append(called(maker.session, line, text))
    after = maker.after()
    # Behind edits in place that do more than write stored cells the layout is not the reference's.
    return lines + ["image"], wanted + [None if after is None else hashlib.sha256(after).hexdigest()]


def shown_lines(heading, *folders):
    """The lines that the README.md of a folder shows under a heading."""
    with open(os.path.join(TOP, *folders, "README.md"), encoding="utf-8") as file:
        part = file.read().split(f"## {heading}\n")[1].split("\n## ")[0]
    return [line[4:] for line in part.splitlines() if line.startswith("    ")]


class Script(Transcripts):
    """The first script of README.md."""

    def test_its_answers(self):
        text = "\n".join(shown_lines("A first session"))
        self.assertIn("> view ", text)
        self.assert_transcript(self.new(), text)


class Calls(Tried):
    """One run of a program that calls the library."""

    def test_edits_and_views(self):
        drawn = [asked(seed, word, kinds) for seed in SEEDS for word, kinds in (("file", EDITS), ("session", CALLS), ("session", GROUP_CALLS))]
        with open(PROGRAM, encoding="utf-8") as file:
            program = file.read()
        lines_of_readme = "\n".join(shown_lines("An example", "crates", "h5_file"))
        self.assertIn("fn odd_cells", lines_of_readme)
        self.assertIn(f"\n{lines_of_readme}\n", program)
        given = "readme\n" + "".join(line + "\n" for lines, _ in drawn for line in lines)
        status, output, said = self.tried(program, LIBRARIES, given.encode("ascii"))
        self.assertEqual(status, 0, said)
        first, *found = output.decode("ascii").splitlines()
        self.assertEqual(first, "5 6 of -7 5 -7 6")
        self.assertEqual(len(found), sum(len(wanted) for _, wanted in drawn))
        kept = 0
        for lines, wanted in drawn:
            for line, right, made in zip(lines[1:], wanted, found):
                with self.subTest(line=line):
                    self.assertIn(right, (None, made))
                kept += right is not None and right.startswith("kept")
            found = found[len(wanted):]
        self.assertGreater(kept, LINES // 20 * len(SEEDS))
