"""Arrays of very many cells that are not stored: a dump begins at once, and takes little memory."""

import os
import resource
import select
import subprocess
import time

from . import today  # noqa: F401  (makes the reference's modules known)
from .support import PROGRAM, InFolder, h5i
from .test_scripts import limited

# pylint: disable=wrong-import-order
from h5oracle.model import Dataset, Tree  # noqa: E402
from h5oracle.plain import write_plain  # noqa: E402
from h5oracle.reader import Superblock  # noqa: E402
from h5oracle.values import TYPES  # noqa: E402

CELLS = 1 << 40
# So much of a dump is read, within so many seconds, by a process that never takes more memory than this.
MOST_READ = 100_000
MOST_SECONDS = 20
MOST_KIB = 65_536

# By name the sizes, the chunk, where there are chunks, and the cells of the first row that are stored and not the fill.
ARRAYS = {
    "line": ((CELLS,), None, {}),
    "chunks": ((CELLS,), (1024,), {5: 9, 1500: 8}),
    "table": ((1 << 20, 1 << 20), (1, 1024), {0: 9, 1023: 8, 40000: 7}),
    "rows": ((1 << 38, 4), (65536, 4), {3: 9}),
}
FILL = 6


def large_image():
    """The plain image of the arrays."""
    tree = Tree.root_alone()
    for number, (name, (sizes, chunk, others)) in enumerate(ARRAYS.items(), 1):
        made = Dataset(TYPES["u8"], sizes, sizes, "chunked" if chunk else "contiguous", chunk, FILL)
        for at, value in others.items():
            made.put((0,) * (len(sizes) - 1) + (at,), value)
        tree.objects[number], tree.counts[number] = made, 1
        tree.objects[0].links[name.encode("ascii")] = ("object", number)
    return write_plain(tree, Superblock(0, 4, 16, 32, 0, 0))


def braced(sizes):
    """SIZES."""
    return "{" + ", ".join(map(str, sizes)) + "}"


def beginning(name):
    """The first bytes of a dump."""
    sizes, chunk, others = ARRAYS[name]
    store = f"chunked {braced(chunk)}" if chunk else "contiguous"
    head = f"/{name} dataset u8 {braced(sizes)} {store} fill {FILL}\n"
    text, at, size = [head], 0, len(head)
    while size < MOST_READ:
        text.append(f"{others.get(at, FILL)}" + (" " if (at + 1) % sizes[-1] else "\n"))
        at, size = at + 1, size + len(text[-1])
    return "".join(text).encode("ascii")[:MOST_READ]


def most_memory(process):
    """The most memory that a process has taken so far, in KiB."""
    with open(f"/proc/{process.pid}/status", encoding="ascii") as status:
        return next(int(line.split()[1]) for line in status if line.startswith("VmHWM:"))


class LargeArrays(InFolder):
    """Four arrays of 2^40 cells each, of which a few are stored."""

    def setUp(self):
        super().setUp()
        self.file = self.written("large.h5", large_image())
        self.assertLess(os.path.getsize(self.file), 1 << 20)

    def read_some(self, process):
        """The first bytes that a process prints, as far as they come in time."""
        text, begun = b"", time.monotonic()
        while len(text) < MOST_READ:
            left = begun + MOST_SECONDS - time.monotonic()
            if left <= 0 or not select.select([process.stdout], [], [], left)[0]:
                break
            part = os.read(process.stdout.fileno(), MOST_READ - len(text))
            if not part:
                break
            text += part
        return text

    def assert_begins(self, words, name, script_text=None):
        """What is printed by the words begins in time with the dump of the array, and the process is small."""
        source = subprocess.DEVNULL if script_text is None else subprocess.PIPE
        with subprocess.Popen([PROGRAM, *words], stdin=source, stdout=subprocess.PIPE, stderr=subprocess.DEVNULL) as process:
            try:
                if script_text is not None:
                    process.stdin.write(script_text)
                    process.stdin.close()
                text = self.read_some(process)
                memory = most_memory(process)
                self.assertIsNone(process.poll())
            finally:
                process.kill()
        self.assertEqual(text, beginning(name))
        self.assertLess(memory, MOST_KIB)

    def test_listing(self):
        lines = ["/ group"] + [f"/{name} dataset u8 {braced(ARRAYS[name][0])}" for name in sorted(ARRAYS)]
        self.assertEqual(h5i("ls", self.file), (0, "".join(line + "\n" for line in lines).encode("ascii"), b""))

    def test_dumps_begin_at_once(self):
        for name in ARRAYS:
            with self.subTest(name=name):
                self.assert_begins(["dump", self.file, f"/{name}"], name)

    def test_dumps_of_scripts_begin_at_once(self):
        for name in ARRAYS:
            with self.subTest(name=name):
                self.assert_begins(["run", self.file], name, f"dump /{name}\n".encode("ascii"))

    def ended(self, words, script=None):
        """The first bytes that a small process prints, and its status and errors where nobody reads on. Never may it take more memory than
        this.
        """
        source = subprocess.DEVNULL if script is None else subprocess.PIPE
        with subprocess.Popen([PROGRAM, *words], stdin=source, stdout=subprocess.PIPE, stderr=subprocess.PIPE,
                              preexec_fn=limited(resource.RLIMIT_AS, MOST_KIB << 10)) as process:
            try:
                if script is not None:
                    process.stdin.write(script)
                    process.stdin.close()
                text = self.read_some(process)
                process.stdout.close()
                return text, process.wait(MOST_SECONDS), process.stderr.read()
            finally:
                process.kill()

    def test_a_reader_that_ends(self):
        """Where nobody reads on, the dump ends with its failure to print."""
        for name in ARRAYS:
            with self.subTest(name=name):
                self.assertEqual(self.ended(["dump", self.file, f"/{name}"]), (beginning(name), 4, b"h5i: cannot print\n"))

    def test_a_reader_of_a_script_that_ends(self):
        before = self.stamp(self.file)
        for name in ARRAYS:
            with self.subTest(name=name):
                # The edit before it is in no file then.
                script = f"group /new\ndump /{name}\n".encode("ascii")
                self.assertEqual(self.ended(["run", self.file], script), ((b"ok 0\n" + beginning(name))[:MOST_READ], 4, b"h5i: script failed\n"))
        self.assertEqual(self.stamp(self.file), before)
