"""Scripts with their answers, line by line."""

from . import today
from .support import InFolder, h5i


def script_and_answers(text):
    """The lines behind `> `, and those between them."""
    lines = [line.strip() for line in text.strip().splitlines()]
    return today.printed(line[2:] for line in lines if line.startswith("> ")), today.printed(line for line in lines if not line.startswith("> "))


class Transcripts(InFolder):
    """Files on which scripts are run."""

    def assert_transcript(self, path, text):
        """Each line behind `> ` is answered by the lines that follow it."""
        script, answers = script_and_answers(text)
        self.assertEqual(h5i("run", path, script=script), (today.status_of(answers), answers, b""))

    def accepted(self, lines, path=None):
        """The path of a file, a new one where none is named, on which these lines were run, each answered `ok 0`."""
        path = path or self.new()
        self.assertEqual(h5i("run", path, script=today.printed(lines)), (0, b"ok 0\n" * len(lines), b""))
        return path

    def assert_each(self, path, rows):
        """Each line has its answer, in a run of its own and in a script of all of them. All are refused, and change nothing."""
        before = self.stamp(path)
        for line, answer in rows.items():
            with self.subTest(line=line[:80]):
                self.assertEqual(h5i("run", path, script=f"{line}\n".encode()), (1, f"{answer}\n".encode(), b""))
        self.assertEqual(h5i("run", path, script=today.printed(rows)), (1, today.printed(rows.values()), b""))
        self.assertEqual(self.stamp(path), before)
