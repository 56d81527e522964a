"""What the program tells of itself: its version, the lines of a script with an example each, and what each refusal means."""

import os
import re
import unittest

from .support import TOP, InFolder, h5i, reference

SCRIPT_PAGE = os.path.join(TOP, "docs", "SCRIPT.md")
FORMAT_PAGE = os.path.join(TOP, "docs", "FORMAT.md")
DEFINITIONS = os.path.join(TOP, "crates", "h5_model", "specs")
# The three lists of refusals: where each is defined, by which definition of numbers and of names, and its head in docs/FORMAT.md.
REFUSALS = (("Faults/OpenFaults.antt", "cause_number cause", "cause_name cause", "Cause"),
            ("Edits/EditFaults.antt", "fault_number fault", "fault_name fault", "Refusal"),
            ("Views/ViewFaults.antt", "view_fault_number fault", "view_fault_name fault", "Fault"))
ENTRY = re.compile(r" +([0-9]+) ([A-Za-z0-9]+): (.*)")
QUOTED = re.compile(r"`([^`]*)`")
EXAMPLE = re.compile(r" +Example: (.*)")
LISTING = r"/.*\n(?:.+\n)*?"


def table():
    """The rows of the table of lines in docs/SCRIPT.md: the cell of lines, and that of their answers."""
    with open(SCRIPT_PAGE, encoding="ascii") as page:
        lines = page.read().split("\n| Line | Answer |\n")[1].splitlines()
    for line in lines[1:]:
        if not line.startswith("|"):
            break
        yield [cell.strip() for cell in line.strip("|").split(" | ")]


def forms():
    """Each form of a line, as its words, and its answer as an expression."""
    for cell, answer in table():
        quoted = [re.escape(text).replace("N", "[0-9]+") for text in QUOTED.findall(answer)]
        values = "(?: -?[0-9]+)*" if "values" in answer else ""
        expected = f"(?:{'|'.join(quoted)}){values}\n" if quoted else LISTING
        for part in cell.split("; "):
            if part.startswith("`"):
                yield QUOTED.match(part).group(1), expected


def help_text(*words):
    """What the program prints where it is asked for help by these words."""
    status, output, errors = h5i(*words)
    assert (status, errors) == (0, b""), (status, errors)
    return output.decode("ascii")


def examples():
    """The example lines of the help."""
    found = (EXAMPLE.fullmatch(line) for line in help_text("help", "run").splitlines())
    return [each.group(1) for each in found if each]


class Version(unittest.TestCase):
    """The program's name and version."""

    def test_version(self):
        for word in ("--version", "-V"):
            with self.subTest(word=word):
                status, output, errors = h5i(word)
                self.assertEqual((status, errors), (0, b""))
                self.assertRegex(output, rb"\Ah5i [0-9]+\.[0-9]+\.[0-9]+\n\Z")

    def test_orders_have_none(self):
        status, output, errors = h5i("ls", "--version")
        self.assertEqual((status, output), (2, b""))
        self.assertTrue(errors.startswith(b"error: "), errors)


class Lines(InFolder):
    """The lines of a script."""

    def test_both_ways_to_ask(self):
        text = help_text("help", "run")
        self.assertEqual(help_text("run", "--help"), text)
        self.assertLessEqual(max(map(len, text.splitlines())), 100)
        # The short help leaves them out, and says where they are.
        self.assertNotIn("Example", help_text("run", "-h"))
        self.assertIn("--help", help_text("run", "-h"))

    def test_each_form_is_named(self):
        text = help_text("help", "run")
        named = {line.strip() for line in text.splitlines()}
        first_words = {line.split(" ")[0] for line in examples()}
        found = list(forms())
        self.assertGreater(len(found), 10)
        for form, _ in found:
            with self.subTest(form=form):
                self.assertIn(form, named)
                self.assertIn(form.split(" ")[0], first_words)
        for cell, _ in table():
            for quoted in QUOTED.findall(cell):
                with self.subTest(quoted=quoted):
                    self.assertIn(quoted.strip(), text)

    def test_the_examples_are_answered_as_the_page_says(self):
        lines = examples()
        answers = {form.split(" ")[0]: answer for form, answer in forms()}
        status, output, errors = h5i("run", self.new(), script="".join(f"{line}\n" for line in lines).encode())
        self.assertEqual((status, errors), (0, b""))
        expected = "".join(answers[line.split(" ")[0]] for line in lines)
        self.assertRegex(output.decode("ascii"), rf"\A{expected}\Z")

    def test_the_examples_are_answered_as_by_the_reference(self):
        script = "".join(f"{line}\n" for line in examples()).encode()
        other = self.path("other.h5")
        self.assertEqual(reference("new", other)[0], 0)
        self.assertEqual(h5i("run", self.new(), script=script), reference("run", other, script=script))


def defined(file, number, name):
    """The numbers and names of a list of refusals, as the definitions have them, in their order."""
    with open(os.path.join(DEFINITIONS, file), encoding="utf-8") as definitions:
        text = definitions.read()
    numbers = re.findall(rf"^{re.escape(number)}\.(\w+) = ([0-9]+)$", text, re.MULTILINE)
    names = dict(re.findall(rf'^{re.escape(name)}\.(\w+) = codes "(\w+)"$', text, re.MULTILINE))
    return [(int(number), names[constructor]) for constructor, number in numbers]


def told():
    """The lists of refusals in the help: of each the number, the name, the rule and the usual reason."""
    lists = []
    for part in help_text("help").partition("\nWhat a refusal means")[2].split("\n\n"):
        joined = re.sub(r"\n     (?! )", " ", part)
        rows = [ENTRY.fullmatch(line) for line in joined.splitlines()]
        if rows and all(rows):
            lists.append([(int(row[1]), row[2], *row[3].split(" Usually: ")) for row in rows])
    return lists


def written(head):
    """A table of refusals in docs/FORMAT.md, as `told` has them."""
    with open(FORMAT_PAGE, encoding="utf-8") as page:
        lines = page.read().partition(f"\n| No. | {head} | The rule | Usually |\n")[2].splitlines()
    rows = []
    for line in lines[1:]:
        if not line.startswith("|"):
            break
        number, name, rule, reason = (cell.strip() for cell in line.strip("|").split(" | "))
        rows.append((int(number), name, rule, reason[0].lower() + reason[1:]))
    return rows


class Refusals(unittest.TestCase):
    """What each refusal means."""

    def test_each_refusal_is_told(self):
        wanted = [defined(*each[:3]) for each in REFUSALS]
        self.assertEqual([len(each) for each in wanted], [36, 30, 5])
        self.assertEqual([[row[:2] for row in each] for each in told()], wanted)

    def test_the_page_says_the_same(self):
        self.assertEqual([written(head) for *_, head in REFUSALS], told())

    def test_lines_are_short(self):
        self.assertLessEqual(max(map(len, help_text("help").splitlines())), 100)

    def test_the_short_help_says_where_they_are(self):
        self.assertNotIn("NotHdf5", help_text("-h"))
        self.assertIn("--help", help_text("-h"))
        self.assertEqual(help_text("--help"), help_text("help"))
