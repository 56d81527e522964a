"""Files that the usual library wrote: listed and dumped as it reads them, or refused for the cause that stands beside them."""

import hashlib
import json
import os

from . import today
from .support import TOP, InFolder, h5i

DATA = os.path.join(TOP, "tests", "data")
# So many paths of one file are dumped; all arrays are.
DUMPS = 40
REFUSED = """array_type committed committed_used compound creation_order dense_attributes enum_bool external_file external_link
    family_driver fletcher float_dataset group_cycle gzip latest latest_later narrow_precision netcdf4 not_hdf5 null_space paged
    reference_count references sizes4 string_attribute three_bytes too_many_cells unicode_name user_block virtual""".split()
# So many dumps are of an array whose values the library tells, and so many of others, whose values that are not stored it does not tell.
TOLD, UNTOLD = 388, 1


def described(name):
    """What the library says of a file."""
    with open(os.path.join(DATA, name + ".json"), encoding="ascii") as file:
        return json.load(file)


def causes():
    """By file, `accepted` or the fault of the reader that was written from the tables alone."""
    with open(os.path.join(DATA, "causes.json"), encoding="ascii") as file:
        return {name: verdicts["with_later_forms"] for name, verdicts in json.load(file).items()}


def type_text(of):
    """TYPE."""
    sign = "i" if of["signed"] else "u"
    return f"{sign}{8 * of['size']}{of['order'] if of['size'] > 1 else ''}"


def sizes_text(of):
    """SIZES."""
    sizes = [str(size) if size == most else f"{size}/{'inf' if most is None else most}"
             for size, most in zip(of["shape"], of["maxshape"], strict=True)]
    return "{" + ", ".join(sizes) + "}"


def attribute_lines(thing):
    """The lines of an object's attributes, whose names stand in the order of their bytes; they show no maxima."""
    return [f"@{a['name']} {type_text(a['type'])} {sizes_text(a | {'maxshape': a['shape']})}" + "".join(f" {v}" for v in a["values"])
            for a in thing["attributes"]]


def line_of(told, link):
    """The line of a link in a list."""
    if link["kind"] == "soft":
        return f"{link['path']} soft {link['text']}"
    thing = told["objects"][link["object"]]
    if thing["kind"] == "group":
        return f"{link['path']} group"
    return f"{link['path']} dataset {type_text(thing['type'])} {sizes_text(thing)}"


def store_text(thing):
    """How an array's cells stand."""
    chunk = " {" + ", ".join(map(str, thing["chunk"])) + "}" if thing["layout"] == "chunked" else ""
    return thing["layout"] + chunk


def heads_of(told, link):
    """The lines of a dump of what a link leads to, but for cells."""
    line = line_of(told, link)
    if link["kind"] == "soft":
        return [line]
    thing = told["objects"][link["object"]]
    if thing["kind"] == "dataset":
        line += f" {store_text(thing)} fill {thing['fill']}"
    return [line] + attribute_lines(thing)


def row_lengths(sizes):
    """How many values stand on each line of cells: a line has a row of the last dimension."""
    if 0 in sizes:
        return []
    last, rows = (sizes[-1] if sizes else 1), 1
    for size in sizes[:-1]:
        rows *= size
    return [last] * rows


def digest(values, signed):
    """The hash of values, each as 8 bytes."""
    return hashlib.sha256(b"".join(value.to_bytes(8, "little", signed=signed) for value in values)).hexdigest()


def is_told(thing):
    """Whether the library tells the values of an array."""
    return thing.get("sha256_wide") is not None


class Corpus(InFolder):
    """Each file of tests/data."""

    maxDiff = None

    def printed(self, path, *words):
        """The lines that the program prints by these words for the file at the path."""
        status, output, errors = h5i(words[0], path, *words[1:])
        self.assertEqual((status, errors), (0, b""), words)
        self.assertTrue(output.endswith(b"\n"), words)
        return output.decode("ascii").splitlines()

    def assert_cells(self, lines, thing):
        """The lines have these values, in rows."""
        rows = [[int(word) for word in line.split(" ")] for line in lines]
        self.assertEqual([len(row) for row in rows], row_lengths(thing["shape"]))
        found = [value for row in rows for value in row]
        if thing.get("values") is not None:
            self.assertEqual(found, thing["values"])
        if is_told(thing):
            self.assertEqual(digest(found, thing["type"]["signed"]), thing["sha256_wide"])

    def assert_dumped(self, path, told, link, tree):
        """What a link leads to is dumped as the library has it, and its values as the reference has them."""
        lines, heads = self.printed(path, "dump", link["path"]), heads_of(told, link)
        self.assertEqual(lines[:len(heads)], heads)
        thing = told["objects"][link["object"]] if link["kind"] != "soft" else {"kind": "soft"}
        if thing["kind"] != "dataset":
            self.assertEqual(len(lines), len(heads))
            return
        self.assert_cells(lines[len(heads):], thing)
        self.assertEqual(today.printed(lines), today.dump(tree, today.unescape(link["path"].encode("ascii"))))
        self.seen["told" if is_told(thing) else "untold"] += 1

    def assert_opened(self, path, told, tree):
        """A file is listed and dumped; of many links that lead to no array some are dumped."""
        links = told.get("links", [])
        self.assertEqual(self.printed(path, "ls"), ["/ group"] + [line_of(told, link) for link in links])
        self.assertEqual(self.printed(path, "dump", "/"), ["/ group"] + attribute_lines(told["objects"][0]))
        arrays = [link for link in links if link["kind"] == "dataset"]
        others = [link for link in links if link["kind"] != "dataset"]
        for each in (arrays, others):
            for link in each[::1 + len(each) // DUMPS]:
                self.assert_dumped(path, told, link, tree)

    def test_each_file(self):
        self.seen, refused = {"told": 0, "untold": 0}, []
        for file, verdict in causes().items():
            with self.subTest(file=file):
                path = os.path.join(DATA, file)
                if verdict == "accepted":
                    reading, refusal = today.opened(self.read(path))
                    self.assertIsNone(refusal)
                    self.assert_opened(path, described(file[:-3]), reading.tree)
                    continue
                refused.append(file)
                status, output, errors = h5i("ls", path)
                self.assertEqual((status, output), (3, b""))
                self.assertRegex(errors.decode("ascii"), rf"\Ah5i: refused [0-9]+ {verdict['cause']} at {verdict['address']}\n\Z")
                self.assertEqual(errors.decode("ascii"), f"h5i: refused {today.opened(self.read(path))[1]}\n")
        self.assertEqual(refused, [f"{name}.h5" for name in REFUSED])
        self.assertEqual(self.seen, {"told": TOLD, "untold": UNTOLD})
