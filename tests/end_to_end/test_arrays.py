"""Arrays of each type and of several sizes, read by the usual library and by the reference."""

import json
import os

from .support import InFolder, h5i, library, reference

# name, the usual library's name, least and greatest value
TYPES = {
    f"{sign}{8 * size}{order if size > 1 else ''}":
        ((mark if size > 1 else "|") + sign + str(size),
         -(1 << 8 * size - 1) if sign == "i" else 0,
         (1 << 8 * size - (sign == "i")) - 1)
    for sign in "iu" for size in (1, 2, 4, 8) for order, mark in (("le", "<"), ("be", ">"))
}
SIZES = (0, 1, 65536)

READ = """
import json, sys, h5py
for path in sys.argv[1:]:
    with h5py.File(path, "r") as file:
        [name] = file
        array = file[name]
        print(json.dumps([name, array.dtype.str, array.shape, array.maxshape, array.chunks,
                          int(array.fillvalue), sorted(set(array[...].tolist()))]))
"""

CHANGE = """
import sys, h5py
with h5py.File(sys.argv[1], "r+") as file:
    file["d"][...] = range(-1, 2)
"""

# Arrays of three cells, all but the second the fill, each with an attribute of one value.
WRITE = """
import json, sys, h5py
with h5py.File(sys.argv[1], "w", libver=("earliest", "v108")) as file:
    for name, (kind, value) in json.loads(sys.argv[2]).items():
        array = file.create_dataset(name, (3,), dtype=kind, fillvalue=value)
        array[1] = 1
        array.attrs.create("value", value, dtype=kind)
"""


class Arrays(InFolder):
    """Files with one array."""

    def test_types_and_sizes(self):
        self.assertEqual(len(TYPES), 14)
        paths, wanted = [], []
        for name, (read_as, least, greatest) in TYPES.items():
            for size in SIZES:
                for fill in (least, greatest):
                    path = self.with_array(f"/d {name} {size} contiguous fill={fill}", f"{len(paths)}.h5")
                    paths.append(path)
                    wanted.append(["d", read_as, [size], [size], None, fill, [fill] if size else []])
                    text = f"/d dataset {name} {{{size}}} contiguous fill {fill}\n".encode()
                    text += b" ".join([str(fill).encode()] * size) + b"\n" if size else b""
                    self.assertEqual(h5i("dump", path, "/d"), (0, text, b""))
                    for limit in (least - 1, greatest + 1):
                        other = self.new("other.h5")
                        script = f"dataset /d {name} {size} contiguous fill={limit}\n".encode()
                        self.assertEqual(h5i("run", other, script=script), (1, b"refused 23 ValueRange\n", b""))
        status, output, errors = library(READ, *paths)
        self.assertEqual((status, errors), (0, b""))
        self.assertEqual([json.loads(line) for line in output.splitlines()], wanted)

    def test_repacked_bytes_are_those_of_the_reference(self):
        for k, name in enumerate(TYPES):
            line = f"/{'n' * (k + 1)} {name} {k} contiguous fill={k}"
            with self.subTest(line=line):
                path, other = self.with_array(line), self.path("other.h5")
                reference("new", other)
                self.assertEqual(reference("run", other, script=f"dataset {line}\n".encode()), (0, b"ok 0\n", b""))
                self.assertEqual(self.read(path), self.read(other))

    def test_names(self):
        names = (b"d", b"n" * 1023, b"...", b"..", b"#x", b"~", b"inf", b"-", b"a\xffb", b"a b", b"\\", b"\n")
        for name in names:
            with self.subTest(name=name):
                text = "".join(chr(b) if 0x21 <= b <= 0x7e and b != 0x5c else f"\\x{b:02x}" for b in name)
                path = self.with_array(f"/{text} u8 2 contiguous")
                self.assertEqual(h5i("ls", path), (0, f"/ group\n/{text} dataset u8 {{2}}\n".encode(), b""))
                self.assertEqual(reference("check", path)[:2], (0, b"ok\n"))
                self.assertEqual(reference("ls", path)[1], h5i("ls", path)[1])

    def test_values_that_the_library_wrote(self):
        path = self.with_array("/d i16be 3 contiguous")
        self.assertEqual(library(CHANGE, path), (0, b"", b""))
        self.assertEqual(h5i("dump", path, "/d"), (0, b"/d dataset i16be {3} contiguous fill 0\n-1 0 1\n", b""))

    def test_fills_and_attributes_that_the_library_wrote(self):
        arrays = {f"{name}_{end}": (read_as, end)
                  for name, (read_as, *ends) in TYPES.items() for end in ends}
        self.assertEqual(len(arrays), 28)
        path = self.path("library.h5")
        self.assertEqual(library(WRITE, path, json.dumps(arrays)), (0, b"", b""))
        for array, (_, end) in arrays.items():
            with self.subTest(array=array):
                name = array.split("_")[0]
                text = f"/{array} dataset {name} {{3}} contiguous fill {end}\n@value {name} {{}} {end}\n{end} 1 {end}\n"
                self.assertEqual(h5i("dump", path, "/" + array), (0, text.encode(), b""))

    def test_a_large_array(self):
        path = self.with_array("/d u8 100000000 contiguous fill=7")
        self.assertEqual(os.path.getsize(path), 1248 + 100000000)
        self.assertEqual(h5i("ls", path), (0, b"/ group\n/d dataset u8 {100000000}\n", b""))
