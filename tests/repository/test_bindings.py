"""What the library for C exports is what bindings declares: the same calls with as many parameters, and the same numbers."""

import os
import re
import unittest

TOP = os.path.dirname(os.path.dirname(os.path.dirname(os.path.abspath(__file__))))
# Lists that C passes as a pointer and a length.
MACROS = {"LIBH5I_BYTES": 2, "LIBH5I_LIST": 2, "LIBH5I_SLAB": 8}


def text_of(*parts):
    """The text of a file of the repository."""
    with open(os.path.join(TOP, *parts), encoding="utf-8") as file:
        return file.read()


def parameters(text):
    """The parameters of a list, which is taken apart at commas outside brackets."""
    parts, depth = [""], 0
    for letter in text:
        depth += (letter in "([{<") - (letter in ")]}>")
        if letter == "," and depth == 0:
            parts.append("")
        else:
            parts[-1] += letter
    return [part.strip() for part in parts if part.strip()]


def exported():
    """By call how many parameters C passes: a slice is two, and an allocator none."""
    calls = {}
    folder = os.path.join(TOP, "crates", "h5_c", "src")
    for name in sorted(os.listdir(folder)):
        for call, given in re.findall(r'extern "C" fn (\w+)\((.*?)\)(?: ->|\n)', text_of("crates", "h5_c", "src", name), re.S):
            calls[call] = sum(0 if it.endswith(": Global") else 2 if re.search(r": &(?:mut )?\[", it) else 1 for it in parameters(given))
    return calls


def declared_for_c():
    """The same of the header."""
    header = re.sub(r"/\*.*?\*/", "", text_of("bindings", "c", "h5i.h"), flags=re.S)
    calls = re.findall(r"^(?:h5i_status|void|size_t) (h5i_\w+)\((.*?)\);", header, re.S | re.M)
    return {call: sum(MACROS.get(it.split("(")[0], 1) for it in parameters(given)) for call, given in calls}


def declared_for_rust():
    """The same of the crate for Rust."""
    calls = re.findall(r"pub fn (h5i_\w+)\((.*?)\)(?: ->|;)", text_of("bindings", "rust", "src", "raw.rs"), re.S)
    return {call: len(parameters(given)) for call, given in calls}


def declared_for_python():
    """The same of the module for Python, in which the session is left out, and lists have short names."""
    text = text_of("bindings", "python", "h5i", "_library.py")
    sizes = {"*_TEXT": 2, "*_BYTES": 2, "*_LIST": 2, "*_SLAB": 8}
    calls = re.findall(r'^    \("(\w+)", \[(.*?)\], \w+\),$', text, re.M)
    return {"h5i_" + call: 1 + sum(sizes.get(it, 1) for it in parameters(given)) for call, given in calls}


class Calls(unittest.TestCase):
    def test_the_header_declares_what_is_exported(self):
        self.assertGreater(len(exported()), 20)
        self.assertEqual(declared_for_c(), exported())

    def test_rust_declares_what_is_exported(self):
        self.assertEqual(declared_for_rust(), exported())

    def test_python_declares_what_is_exported(self):
        self.assertEqual(declared_for_python(), exported())


class Numbers(unittest.TestCase):
    def test_the_header_has_the_numbers_of_the_rules(self):
        rules = re.findall(r"EditFault::(\w+) => (\d+),", text_of("crates", "h5_model", "src", "edit_fault.rt"))
        own = re.findall(r"pub const (\w+): u32 = (\d+);", text_of("crates", "h5_c", "src", "status.rt"))
        wanted = {re.sub(r"(?<!^)(?=[A-Z])", "_", name).upper(): int(number) for name, number in rules}
        wanted |= {name: int(number) for name, number in own if name not in ("VIEW_FAULTS", "CAUSES")}
        declared = re.findall(r"^    LIBH5I_(\w+) = (\d+)", text_of("bindings", "c", "h5i.h"), re.M)
        views = {"NO_SUCH_VIEW": 201, "GONE": 202, "OUTSIDE_NOW": 203, "TOO_MANY_VIEWS": 204, "CAUSE": 300}
        self.assertEqual({name: int(number) for name, number in declared}, wanted | views)

    def test_rust_and_python_name_the_rules(self):
        rules = re.findall(r"EditFault::(\w+) => (\d+),", text_of("crates", "h5_model", "src", "edit_fault.rt"))
        faults = dict(re.findall(r'^    (\d+) (\w+) "', text_of("bindings", "rust", "src", "fault.rs"), re.M))
        self.assertEqual({number: name for number, name in faults.items() if int(number) < 100}, {number: name for name, number in rules})
        words = re.search(r"^RULES = \((.*?)\)\.split", text_of("bindings", "python", "h5i", "_library.py"), re.S | re.M)[1]
        listed = " ".join(re.findall(r'"(.*?)"', words)).split()
        # A number that no rule has is a dash in the list.
        self.assertEqual([(name, str(number)) for number, name in enumerate(listed, 1) if name != "-"], rules)

    def test_rust_and_python_name_the_causes(self):
        causes = re.findall(r"Cause::(\w+) => (\d+),", text_of("crates", "h5_model", "src", "open_fault.rt"))
        self.assertEqual([int(number) for _, number in causes], list(range(1, len(causes) + 1)))
        words = re.search(r"^CAUSES = \((.*?)\)\.split", text_of("bindings", "python", "h5i", "_library.py"), re.S | re.M)[1]
        self.assertEqual(" ".join(re.findall(r'"(.*?)"', words)).split(), [name for name, _ in causes])
        words = re.search(r"^const CAUSES: .*? = \[(.*?)\];", text_of("bindings", "rust", "src", "fault.rs"), re.S | re.M)[1]
        self.assertEqual(re.findall(r'"(\w+)"', words), [name for name, _ in causes])


if __name__ == "__main__":
    unittest.main()
