"""Scripts whose reads or whose answers' writes fail, at each read and each write in turn. No error is tried again, of whatever kind."""

import errno
import os
import subprocess

from . import today
from .refusing import FLAGS, compiled
from .support import PROGRAM, InFolder, empty_image

SCRIPT = b"dataset /d i32le 3 contiguous\nwrite /d 0 1 3 1 1,-1,2147483647\ndump /d\n"
FAILED = b"h5i: script failed\n"
# What makes a read or a write fail.
ERRORS = (errno.EINTR, errno.EAGAIN, errno.EIO)
# So many bytes a write takes.
PIECE = 7


class FailingEnds(InFolder):
    """Runs of one script."""

    def setUp(self):
        super().setUp()
        self.streams = self.path("failing.so")
        compiled(*FLAGS, "-o", self.streams, os.path.join(os.path.dirname(os.path.abspath(__file__)), "failing.c"))
        self.answers = today.answers(today.session_of(empty_image()), SCRIPT)[0]

    def run_of(self, **places):
        """The status, output and errors of a run, and the file behind it."""
        path = self.written("e.h5", empty_image())
        given = {"LD_PRELOAD": self.streams} | {name: str(number) for name, number in places.items()}
        done = subprocess.run([PROGRAM, "run", path], input=SCRIPT, env=given, capture_output=True, check=False, timeout=60)
        return done.returncode, done.stdout, done.stderr, self.read(path)

    def test_byte_by_byte(self):
        status, output, errors, after = self.run_of(PIECE=1)
        self.assertEqual((status, output, errors), (0, self.answers, b""))
        self.assertIsNone(today.unlike(after, empty_image(), SCRIPT))

    def test_each_read(self):
        # The last one finds the end.
        for read in range(len(SCRIPT) + 1):
            lines = SCRIPT[:SCRIPT.rfind(b"\n", 0, read) + 1]
            answers = today.answers(today.session_of(empty_image()), lines)[0]
            with self.subTest(read=read):
                self.assertEqual(self.run_of(PIECE=1, READS=read, ERROR=ERRORS[read % len(ERRORS)]), (4, answers, FAILED, empty_image()))

    def test_each_write(self):
        writes = sum(-(-len(answer) // PIECE) for answer in (b"ok 0\n", b"ok 0\n", self.answers[10:]))
        for write in range(writes):
            for number in (*ERRORS, 0):
                with self.subTest(write=write, number=number):
                    status, output, errors, after = self.run_of(PIECE=PIECE, WRITES=write, ERROR=number)
                    self.assertEqual((status, errors, after), (4, FAILED, empty_image()))
                    self.assertTrue(self.answers.startswith(output) and output != self.answers, output)
                    self.assertGreaterEqual(len(output), write)
        # All writes of a run are counted.
        self.assertEqual(self.run_of(PIECE=PIECE, WRITES=writes)[:3], (0, self.answers, b""))
