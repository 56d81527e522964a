"""Views: what they show after each edit, which are lent from the file, how many chunks an edit refreshes in them, and how they are refused."""

from . import today
from .support import h5i, patched
from .test_writes import ADDRESS, ALL_EDGES, BOTH_ENDS, UNDEFINED, chunks_of
from .transcripts import Transcripts

# So many views may be open at once.
MOST_VIEWS = 1024


class Shown(Transcripts):
    """Views of arrays that are written, resized and deleted."""

    def test_a_cell_that_is_cut_off(self):
        path = self.accepted(ALL_EDGES)
        self.assert_transcript(path, """
            > view /c 4,3 1,1 1,1 1,1
            view 0
            > show 0
            kept 20
            > resize /c 1,1
            ok 1
            > show 0
            fault 3 OutsideNow
            > resize /c 5,4
            ok 0
            > show 0
            kept 0
            > dump /c
            /c dataset u8 {5/inf, 4} chunked {2, 3} fill 0
            1 0 0 0
            0 0 0 0
            0 0 0 0
            0 0 0 0
            0 0 0 0
            """)
        self.assertEqual(chunks_of(self.read(path)), {(0, 0): "010000000000"})

    def test_chunks_that_are_met(self):
        self.assert_transcript(self.accepted(ALL_EDGES), """
            > view /c 0,0 1,1 5,4 1,1
            view 0
            > view /c 0,0 2,2 3,2 1,1
            view 1
            > write /c 2,0 1,1 1,4 1,1 51,52,53,54
            ok 3
            > write /c 1,0 1,1 1,4 1,1 9,9,9,9
            ok 3
            > show 1
            kept 1 3 51 53 17 19
            > resize /c 5,3
            ok 3
            > show 0
            fault 3 OutsideNow
            > resize /c 5,4
            ok 0
            > show 0
            kept 1 2 3 0 9 9 9 0 51 52 53 0 13 14 15 0 17 18 19 0
            """)

    def test_runs_of_two_cells(self):
        self.assert_transcript(self.new(), """
            > dataset /r i16le 8 contiguous
            ok 0
            > write /r 0 1 8 1 0,1,2,3,4,5,6,7
            ok 0
            > view /r 1 3 2 2
            view 0
            > show 0
            kept 1 2 4 5
            > write /r 4 1 1 1 40
            ok 1
            > show 0
            kept 1 2 40 5
            > write /r 3 1 1 1 9
            ok 1
            > show 0
            kept 1 2 40 5
            > view /r 0 1 2 2
            refused 15 BlocksOverlap
            > view /r 0 0 1 1
            refused 14 StrideZero
            > view /r 0 1 1 2
            view 1
            > show 1
            lent 0 1
            """)

    def test_a_view_goes_by_the_object(self):
        self.assert_transcript(self.new(), """
            > dataset /a u8 3 contiguous
            ok 0
            > link /a /b
            ok 0
            > view /a 0 2 2 1
            view 0
            > unlink /a
            ok 0
            > write /b 0 1 3 1 5,6,7
            ok 1
            > show 0
            kept 5 7
            > dataset /a u8 3 contiguous fill=9
            ok 0
            > write /a 0 1 3 1 1,2,3
            ok 0
            > show 0
            kept 5 7
            > unlink /a
            ok 0
            > show 0
            kept 5 7
            > unlink /b
            ok 0
            > show 0
            fault 2 Gone
            > dataset /n u8 3 contiguous
            ok 0
            > show 0
            fault 2 Gone
            > dataset /b u8 3 contiguous
            ok 0
            > show 0
            fault 2 Gone
            > repack
            ok 0
            > show 0
            fault 2 Gone
            > close 0
            closed
            > show 0
            fault 1 NoSuchView
            """)

    def test_scalars_and_selections_of_nothing(self):
        path = self.new()
        self.assert_transcript(path, """
            > dataset /s i64be - contiguous
            ok 0
            > write /s - - - - -9223372036854775808
            ok 0
            > dataset /z u8 0 contiguous
            ok 0
            > view /z 0 1 0 1
            view 0
            > view /z 9 1 0 1
            view 1
            > view /s - - - -
            view 2
            > show 0
            kept
            > show 1
            kept
            > show 2
            lent -9223372036854775808
            """)
        self.assertIn(bytes.fromhex("8000000000000000"), self.read(path))

    def test_a_block_that_gets_storage(self):
        image = self.read(self.accepted([*BOTH_ENDS, "repack"]))
        path = self.written("none.h5", patched(image, ADDRESS, UNDEFINED))
        self.assert_transcript(path, """
            > view /d 0 1 3 1
            view 0
            > show 0
            kept 0 0 0
            > write /d 1 1 1 1 5
            ok 0
            > show 0
            lent 0 5 0
            """)

    def test_outside_and_back(self):
        self.assert_transcript(self.new(), """
            > dataset /c i32be 6/inf,4/9 chunked:2,3 fill=-1
            ok 0
            > view /c 0,0 2,1 3,4 1,1
            view 0
            > view /c 0,0 1,1 1,2 1,1
            view 1
            > view /c 5,0 1,1 0,1 1,1
            view 2
            > write /c 0,0 1,1 1,4 1,1 1,2,3,4
            ok 3
            > show 0
            kept 1 2 3 4 -1 -1 -1 -1 -1 -1 -1 -1
            > resize /c 4,9
            ok 2
            > show 0
            fault 3 OutsideNow
            > show 1
            kept 1 2
            > show 2
            kept
            > resize /c 5,9
            ok 0
            > show 0
            kept 1 2 3 4 -1 -1 -1 -1 -1 -1 -1 -1
            > resize /c 5,1
            ok 7
            > show 1
            fault 3 OutsideNow
            > resize /c 0,0
            ok 4
            > show 2
            kept
            > resize /c 9,9
            ok 0
            > show 0
            kept -1 -1 -1 -1 -1 -1 -1 -1 -1 -1 -1 -1
            > show 1
            kept -1 -1
            """)

    def test_chunks_that_were_not_stored(self):
        self.assert_transcript(self.new(), """
            > dataset /c u16le 5/inf,4 chunked:2,3 fill=7
            ok 0
            > view /c 0,0 1,1 5,4 1,1
            view 0
            > view /c 1,1 2,2 2,2 1,1
            view 1
            > write /c 1,2 2,1 2,1 1,2 1,2,3,4
            ok 8
            > show 0
            kept 7 7 7 7 7 7 1 2 7 7 7 7 7 7 3 4 7 7 7 7
            > show 1
            kept 7 2 7 4
            > write /c 4,0 1,1 1,1 1,1 65535
            ok 1
            > show 0
            kept 7 7 7 7 7 7 1 2 7 7 7 7 7 7 3 4 65535 7 7 7
            """)

    def test_edits_of_other_objects(self):
        lines = ["dataset /d i8 4 compact fill=-3", "write /d 1 1 2 1 1,2"]
        shown = "lent -3 1 2 -3"
        others = ["group /g", "dataset /g/e u8 2 contiguous", "link /d /e", "soft t /s", "attr /d a u8 - 1", "unattr /d a", "attr / n u8 2 1,2",
                  "write /g/e 0 1 2 1 1,2", "unlink /e", "unlink /g/e", "unlink /g", "dataset /c u8 1/inf chunked:3", "write /c 0 1 1 1 1", "resize /c 9",
                  "repack"]
        script = [*lines, "view /d 0 1 4 1"] + [line for other in others for line in (other, "show 0")]
        answers = ["ok 0", "ok 0", "view 0"] + ["ok 0", shown] * len(others)
        self.assertEqual(h5i("run", self.new(), script=today.printed(script)), (0, today.printed(answers), b""))

    def test_refused_edits_change_no_view(self):
        lines = [*BOTH_ENDS, *ALL_EDGES, "view /d 0 2 2 1", "view /c 3,1 1,1 2,3 1,1"]
        refused = {"write /d 0 1 3 1 9,9,2147483648": "refused 23 ValueRange", "write /c 4,4 1,1 1,1 1,1 9": "refused 16 OutOfExtent",
                   "resize /c 1,5": "refused 18 AboveMaximum", "unlink /x": "refused 6 NotFound", "resize /d 1": "refused 17 NotChunked",
                   "group /d/x": "refused 5 NotAGroup", "dataset /d u8 1 compact": "refused 7 AlreadyThere", "grop /x": "bad line"}
        shown = ["kept 1 2147483647", "kept 14 15 16 18 19 20"]
        script = lines + [line for each in refused for line in (each, "show 0", "show 1")]
        answers = ["ok 0"] * 4 + ["view 0", "view 1"] + [line for answer in refused.values() for line in (answer, *shown)]
        self.assertEqual(h5i("run", self.new(), script=today.printed(script)), (1, today.printed(answers), b""))

    def test_every_type(self):
        for bits in (8, 16, 32, 64):
            for order in ("le", "be"):
                for sign, least, most in (("i", -(1 << bits - 1), (1 << bits - 1) - 1), ("u", 0, (1 << bits) - 1)):
                    name = f"{sign}{bits}{order if bits > 8 else ''}"
                    script = [f"dataset /d {name} 2,2 chunked:1,2 fill={most}", "view /d 0,0 1,1 2,2 1,1", f"write /d 0,1 1,1 2,1 1,1 {least},1", "show 0"]
                    answers = ["ok 0", "view 0", "ok 2", f"kept {most} {least} {most} 1"]
                    with self.subTest(name=name):
                        self.assertEqual(h5i("run", self.new(), script=today.printed(script)), (0, today.printed(answers), b""))

    def test_a_file_is_not_written_for_views(self):
        path = self.accepted(BOTH_ENDS)
        before = self.stamp(path)
        self.assert_transcript(path, """
            > view /d 0 1 3 1
            view 0
            > show 0
            lent 1 -1 2147483647
            > close 0
            closed
            """)
        # Numbers begin at 0 in each run.
        self.assert_transcript(path, """
            > view /d 2 1 1 1
            view 0
            > show 1
            fault 1 NoSuchView
            """)
        self.assertEqual(self.stamp(path), before)


class Refused(Transcripts):
    """Views that are refused."""

    def test_views_that_are_not_open(self):
        path = self.accepted(BOTH_ENDS)
        rows = {"show 0": "fault 1 NoSuchView", "close 0": "fault 1 NoSuchView", "show 4294967295": "fault 1 NoSuchView",
                "close 4294967295": "fault 1 NoSuchView", "show 00": "fault 1 NoSuchView", "show 4294967296": "bad line", "close 4294967296": "bad line",
                "show": "bad line", "close": "bad line", "show -1": "bad line", "show 0 0": "bad line", "close /d": "bad line", "show 0,1": "bad line",
                "view /d 0 1 1": "bad line", "view /d 0 1 1 1 1": "bad line", "view /d 0/1 1 1 1": "bad line", "view /d 18446744073709551616 1 1 1": "bad line",
                "View /d 0 1 1 1": "bad line"}
        self.assert_each(path, rows)

    def test_in_the_order_of_the_rules(self):
        path = self.accepted(["dataset /d u8 3 contiguous", "dataset /c u8 5/inf,4 chunked:2,3", "group /g", "soft t /s", "dataset /z u8 - compact"])
        far = 18446744073709551615
        rows = {
            "view d 0 0 1 1": "1 BadPath", "view " + "/a" * 65 + " 0 0 1 1": "2 PathTooDeep", "view /x/y 0 0 1 1": "4 NoSuchParent",
            "view /d/y 0 0 1 1": "5 NotAGroup", "view /s/y 0 0 1 1": "5 NotAGroup", "view /x 0 0 1 1": "6 NotFound", "view / 0 0 1 1": "9 NotADataset",
            "view /g - - - -": "9 NotADataset", "view /s 0 0 1 1": "9 NotADataset", "view /d 9,0 0 2 2": "13 RankMismatch", "view /d - - - -": "13 RankMismatch",
            "view /c 9 0 2 2": "13 RankMismatch", "view /z 0 1 1 1": "13 RankMismatch", "view /d 9 0 2 2": "14 StrideZero", "view /d 9 0 0 0": "14 StrideZero",
            "view /d 9 1 2 2": "15 BlocksOverlap", f"view /d 0 1 {far} {far}": "15 BlocksOverlap", "view /d 3 1 1 1": "16 OutOfExtent",
            "view /d 0 2 2 2": "16 OutOfExtent", f"view /d {far} {far} 1 {far}": "16 OutOfExtent", f"view /d 0 {far} {far} 1": "16 OutOfExtent",
            "view /c 4,4 1,1 1,1 1,1": "16 OutOfExtent",
        }
        self.assert_each(path, {line: "refused " + answer for line, answer in rows.items()})

    def test_a_refused_view_takes_no_number(self):
        self.assert_transcript(self.accepted(BOTH_ENDS), """
            > view /d 0 1 4 1
            refused 16 OutOfExtent
            > view /x 0 1 1 1
            refused 6 NotFound
            > view /d 2 1 1 1
            view 0
            > view /d 3 1 1 1
            refused 16 OutOfExtent
            > view /d 0 1 1 1
            view 1
            > show 0
            lent 2147483647
            > show 1
            lent 1
            """)

    def test_as_many_views_as_may_be_open(self):
        opened = [f"view /d {k % 3} 1 1 1" for k in range(MOST_VIEWS)]
        script = ["dataset /d u8 3 compact", "write /d 0 1 3 1 5,6,7", *opened, "view /d 0 1 1 1", "view /x 0 1 1 1", "view /d 3 1 1 1", "close 5", "close 5", "show 5",
                  "view /d 1 1 1 1", "view /d 0 1 1 1", "show 5", "show 1024", "show 1023", "write /d 0 1 3 1 8,9,10", "show 1024", "show 0", "close 0",
                  "close 1024", "view /d 2 1 1 1", "show 1025", "show 1024", "show 0"]
        answers = ["ok 0", "ok 0", *(f"view {k}" for k in range(MOST_VIEWS)), "fault 4 TooManyViews", "refused 6 NotFound", "refused 16 OutOfExtent", "closed",
                   "fault 1 NoSuchView", "fault 1 NoSuchView", "view 1024", "fault 4 TooManyViews", "fault 1 NoSuchView", "lent 6", "lent 5", "ok 0", "lent 9",
                   "lent 8", "closed", "closed", "view 1025", "lent 10", "fault 1 NoSuchView", "fault 1 NoSuchView"]
        self.assertEqual(h5i("run", self.new(), script=today.printed(script)), (1, today.printed(answers), b""))
