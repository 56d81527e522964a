"""What `h5i run` answers, which files it writes, and how it ends."""

import os
import resource
import signal
import subprocess

from .support import PROGRAM, InFolder, empty_image, h5i, patched, reference

ARRAY = b"dataset /d i32le 3 contiguous fill=-7\n"
LIMIT = 16777216


def limited(kind, most):
    """Sets a limit of a new process; a write past its limit of file sizes then fails."""
    def set_it():
        signal.signal(signal.SIGXFSZ, signal.SIG_IGN)
        resource.setrlimit(kind, (most, most))
    return set_it


def unwritten(path, script):
    """The status and the answers of a run that would make a file longer than a limit of files' sizes, so that it is not written."""
    done = subprocess.run([PROGRAM, "run", path], input=script, preexec_fn=limited(resource.RLIMIT_FSIZE, 1 << 20),
                          capture_output=True, check=False, timeout=300)
    return done.returncode, done.stdout


class Answers(InFolder):
    """Lines and their answers."""

    def assert_answers(self, path, script, answers, status=0):
        """The script's answers, and the status of the run."""
        self.assertEqual(h5i("run", path, script=script), (status, answers, b""))

    def test_an_array(self):
        path = self.new()
        self.assert_answers(path, ARRAY, b"ok 0\n")
        image = self.read(path)
        # Behind the 800 bytes that were there stand the header, of 120 bytes, and the cells; then the symbol node, of 328.
        self.assertEqual(len(image), 1260)
        self.assertEqual(image[920:932], bytes.fromhex("f9ffffff" * 3))
        self.assert_answers(path, b"dump /d\n", b"/d dataset i32le {3} contiguous fill -7\n-7 -7 -7\n")
        self.assert_answers(path, b"ls\n", b"/ group\n/d dataset i32le {3}\n")
        self.assertEqual(h5i("ls", path), (0, b"/ group\n/d dataset i32le {3}\n", b""))
        self.assertEqual(self.read(path), image)

    def test_refusals_on_the_empty_file(self):
        rows = {
            b"dataset /x/d u8 1 contiguous": b"refused 4 NoSuchParent",
            b"dataset /d u8 1 contiguous fill=256": b"refused 23 ValueRange",
            b"dataset /d i8 1 contiguous fill=-129": b"refused 23 ValueRange",
            b"dataset d u8 1 contiguous": b"refused 1 BadPath",
            b"dataset / u8 1 contiguous": b"refused 3 IsRoot",
            b"dataset /d u8 1/2 contiguous": b"refused 12 BadSpec",
            b"dataset /d u8 1/inf contiguous": b"refused 12 BadSpec",
            b"dataset /d u8 1099511627777 contiguous": b"refused 21 TooManyCells",
            b"dataset /d u8 1099511627776 contiguous": b"refused 30 ImageFull",
            b"dataset /d i64le 268435456 contiguous": b"refused 30 ImageFull",
            b"dataset " + b"/a" * 65 + b" u8 1 contiguous": b"refused 2 PathTooDeep",
            b"dataset /" + b"n" * 1024 + b" u8 1 contiguous": b"refused 8 NameTooLong",
            b"dataset d u8 1 chunked:1 fill=256": b"refused 1 BadPath",
            b"dataset /q u8 4 chunked:0": b"refused 12 BadSpec",
            b"dataset /q u8 4 chunked:1,1": b"refused 12 BadSpec",
            b"dataset /q u8 4 chunked:5": b"refused 12 BadSpec",
            b"dataset /q u8 - chunked:-": b"refused 12 BadSpec",
            b"dataset /q u8 4/3 chunked:1": b"refused 12 BadSpec",
            b"dataset /q u8 1/2 compact": b"refused 12 BadSpec",
            b"dataset /q u8 1/18446744073709551615 chunked:1": b"refused 12 BadSpec",
            b"dataset /q u8 " + b",".join([b"1"] * 33) + b" compact": b"refused 12 BadSpec",
            b"dataset /q u8 1/inf chunked:1073741825": b"refused 19 ChunkTooLarge",
            b"dataset /q i64le 1/inf,1/inf chunked:65536,2049": b"refused 19 ChunkTooLarge",
            b"dataset /q u8 65525 compact": b"refused 20 CompactTooLarge",
            b"dataset /q u16le 32763 compact": b"refused 20 CompactTooLarge",
            b"dataset /q u8 1099511627777 compact": b"refused 20 CompactTooLarge",
            b"dataset /q u8 1099511627777 chunked:1": b"refused 21 TooManyCells",
            b"dataset /q u8 1048576,1048577 chunked:1,1": b"refused 21 TooManyCells",
            b"dataset /q u8 0,1099511627777 contiguous": b"refused 21 TooManyCells",
            b"dataset /q i8 1 compact fill=128": b"refused 23 ValueRange",
            b"dataset /q i8 1/inf chunked:1 fill=-129": b"refused 23 ValueRange",
            b"dump /d": b"refused 6 NotFound",
            b"dump d": b"refused 1 BadPath",
            b"dump /d/e": b"refused 4 NoSuchParent",
            b"dump " + b"/a" * 65: b"refused 2 PathTooDeep",
            b"group g": b"refused 1 BadPath",
            b"group /": b"refused 3 IsRoot",
            b"group /x/y": b"refused 4 NoSuchParent",
            b"link /d /e": b"refused 6 NotFound",
            b"link / /e": b"refused 10 GroupLink",
            b"link / /": b"refused 3 IsRoot",
            b"link /d/e /f": b"refused 4 NoSuchParent",
            b"soft /a\\x00 /s": b"refused 1 BadPath",
            b"soft t /": b"refused 3 IsRoot",
            b"soft " + b"t" * 1024 + b" /s": b"refused 8 NameTooLong",
            b"unlink /x": b"refused 6 NotFound",
            b"unlink /": b"refused 3 IsRoot",
            b"unlink /x/y": b"refused 4 NoSuchParent",
            b"resize /x 1": b"refused 6 NotFound",
            b"resize / 1": b"refused 9 NotADataset",
            b"group": b"bad line",
            b"unlink": b"bad line",
            b"resize /d": b"bad line",
            b"link /d": b"bad line",
            b"soft /s": b"bad line",
            b"repack ": b"bad line",
            b"repack /": b"bad line",
            b"Repack": b"bad line",
            b"write /d 0 1 1 1 5": b"refused 6 NotFound",
            b"view /d 0 1 1 1": b"refused 6 NotFound",
            b"show 0": b"fault 1 NoSuchView",
            b"close 0": b"fault 1 NoSuchView",
            b"dataset /d u8 1": b"bad line",
            b"dataset /d u9 1 contiguous": b"bad line",
            b"dataset /d u8 1 contiguous fill=0x1": b"bad line",
            b"dataset /d u8 18446744073709551616 contiguous": b"bad line",
            b"dataset /d\\x2 u8 1 contiguous": b"bad line",
            b"dataset /d\t u8 1 contiguous": b"bad line",
            b"ls ": b"bad line",
            b" ls": b"bad line",
            b"LS": b"bad line",
            b"ls\r": b"bad line",
        }
        path = self.new()
        before = self.stamp(path)
        for line, answer in rows.items():
            with self.subTest(line=line):
                self.assert_answers(path, line + b"\n", answer + b"\n", 1)
                self.assertEqual(self.stamp(path), before)

    def test_lines_that_are_passed_over(self):
        path = self.new()
        before = self.stamp(path)
        for script in (b"", b"\n", b"\n\n# ls\n#\n", b"#"):
            with self.subTest(script=script):
                self.assert_answers(path, script, b"")
        self.assertEqual(self.stamp(path), before)

    def test_the_last_line_may_lack_its_end(self):
        self.assert_answers(self.new(), ARRAY + b"ls", b"ok 0\n/ group\n/d dataset i32le {3}\n")

    def test_lines_are_answered_in_turn(self):
        self.assert_answers(
            self.new(), b"ls\ndump /d\n" + ARRAY + b"no line\ndump /d\n" + ARRAY,
            b"/ group\nrefused 6 NotFound\nok 0\nbad line\n"
            b"/d dataset i32le {3} contiguous fill -7\n-7 -7 -7\nrefused 7 AlreadyThere\n", 1)

    def test_a_long_line(self):
        path = self.new()
        self.assert_answers(path, b"#" + b"x" * 1048575 + b"\nls\n", b"/ group\n")
        self.assert_answers(path, b"#" + b"x" * 1048576 + b"\nls\n", b"bad line\n/ group\n", 1)

    def test_two_runs(self):
        path = self.new()
        self.assert_answers(path, ARRAY, b"ok 0\n")
        image = self.read(path)
        self.assert_answers(path, ARRAY + b"dump /d\n",
                            b"refused 7 AlreadyThere\n/d dataset i32le {3} contiguous fill -7\n-7 -7 -7\n", 1)
        self.assertEqual(self.read(path), image)

    def test_the_reference_reads_and_writes_the_same(self):
        path, other = self.new(), self.path("other.h5")
        self.assertEqual(reference("new", other)[0], 0)
        self.assert_answers(path, ARRAY + b"repack\n", b"ok 0\n" * 2)
        self.assertEqual(reference("run", other, script=ARRAY), (0, b"ok 0\n", b""))
        self.assertEqual(self.read(path), self.read(other))
        self.assertEqual(reference("same", path, other)[:2], (0, b"same\n"))


class Written(InFolder):
    """When the file is written back, and when it is not."""

    def run_limited(self, path, script, kind, most):
        """A run under a limit: its status, output and errors."""
        done = subprocess.run([PROGRAM, "run", path], input=script, preexec_fn=limited(kind, most),
                              capture_output=True, check=False, timeout=60)
        return done.returncode, done.stdout, done.stderr

    def test_not_where_nothing_was_accepted(self):
        path = self.with_array()
        before = self.stamp(path)
        self.assertEqual(h5i("run", path, script=b"ls\ndump /d\n")[0], 0)
        self.assertEqual(h5i("run", path, script=b"no line\n" + ARRAY)[0], 1)
        self.assertEqual(self.stamp(path), before)

    def test_with_a_refused_line(self):
        path, other = self.new(), self.new("other.h5")
        self.assertEqual(h5i("run", path, script=b"no line\n" + ARRAY + ARRAY),
                         (1, b"bad line\nok 0\nrefused 7 AlreadyThere\n", b""))
        self.assertEqual(h5i("run", other, script=ARRAY), (0, b"ok 0\n", b""))
        self.assertEqual(self.read(path), self.read(other))

    def test_a_script_of_the_greatest_length(self):
        path = self.new()
        script = ARRAY + b"#" * (1 << 20) + b"\n"
        script += b"\n" * (LIMIT - len(script))
        self.assertEqual(h5i("run", path, script=script), (0, b"ok 0\n", b""))
        self.assertEqual(len(self.read(path)), 1260)

    def test_not_where_the_script_is_too_long(self):
        path = self.new()
        before = self.stamp(path)
        script = ARRAY + b"\n" * (LIMIT - len(ARRAY) - 3) + b"ls\nls\n"
        self.assertEqual(h5i("run", path, script=script), (4, b"ok 0\n/ group\n/d dataset i32le {3}\n", b"h5i: script failed\n"))
        # A line that ends behind the limit is not run, and the failure counts more than a refused line.
        script = b"no line\n" + ARRAY + b"\n" * (LIMIT - len(ARRAY) - 10) + b"ls\nls\n"
        self.assertEqual(h5i("run", path, script=script), (4, b"bad line\nok 0\n", b"h5i: script failed\n"))
        self.assertEqual(self.stamp(path), before)

    def test_not_where_an_answer_cannot_be_written(self):
        path = self.new()
        before = self.stamp(path)
        with open("/dev/full", "wb") as full:
            status, _, errors = h5i("run", path, script=ARRAY + b"ls\n", stdout=full)
        self.assertEqual((status, errors), (4, b"h5i: script failed\n"))
        self.assertEqual(self.stamp(path), before)

    def test_not_where_the_script_cannot_be_read(self):
        path = self.new()
        before = self.stamp(path)
        folder = os.open(self.folder, os.O_RDONLY)
        self.addCleanup(os.close, folder)
        done = subprocess.run([PROGRAM, "run", path], stdin=folder, capture_output=True, check=False, timeout=60)
        self.assertEqual((done.returncode, done.stdout, done.stderr), (4, b"", b"h5i: script failed\n"))
        self.assertEqual(self.stamp(path), before)

    def test_not_where_it_cannot_be_opened(self):
        path = self.written("changed.h5", patched(empty_image(), 14, "04"))
        before = self.stamp(path)
        self.assertEqual(h5i("run", path, script=ARRAY), (3, b"", b"h5i: refused 4 FieldSizes at 14\n"))
        self.assertEqual(self.stamp(path), before)

    def test_a_file_that_cannot_be_read(self):
        path = self.path("missing.h5")
        self.assertEqual(h5i("run", path, script=ARRAY), (4, b"", f"h5i: cannot read {path}\n".encode()))
        self.assertFalse(os.path.exists(path))

    def test_a_file_that_cannot_be_written(self):
        path = self.new()
        self.assertEqual(self.run_limited(path, b"no line\n" + ARRAY, resource.RLIMIT_FSIZE, 0),
                         (4, b"bad line\nok 0\n", f"h5i: cannot write {path}\n".encode()))
        path = self.with_array()
        before = self.stamp(path)
        self.assertEqual(self.run_limited(path, b"ls\n", resource.RLIMIT_FSIZE, 0),
                         (0, b"/ group\n/d dataset i32le {3}\n", b""))
        self.assertEqual(self.stamp(path), before)

    def test_an_array_that_finds_no_memory(self):
        path = self.new()
        before = self.stamp(path)
        script = b"dataset /d i64le 134217728 contiguous\nls\n"
        self.assertEqual(self.run_limited(path, script, resource.RLIMIT_AS, 1 << 28),
                         (1, b"refused 31 NoMemory\n/ group\n", b""))
        self.assertEqual(self.stamp(path), before)
