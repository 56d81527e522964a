"""Random scripts, whose answers are those of the reference."""

import random
from concurrent.futures import ProcessPoolExecutor

from . import today
from .drawn_images import linked_image
from .drawn_scripts import GROUPS, LineMaker
from .support import InFolder, empty_image, h5i, reference

SEEDS = range(30)
MOST_LINES = 30
ATTRIBUTE_SEEDS = range(50)
MOST_ATTRIBUTE_LINES = 80
OTHERS_SEEDS = range(100)
OTHERS_LINES = 60
TYPES = [f"{sign}{bits}{order}" for sign in "iu" for bits in (8, 16, 32, 64) for order in ("le", "be", "")]
NAMES = ["/d", "/e", "/" + "n" * 1023, "/" + "n" * 1024, "/a\\x20b", "/\\xff\\x00", "/\\xff", "/..", "/.", "/",
         "d", "", "//", "/d/", "/x/d", "/d/e", "/a\\x2", "/a\\X20", "/\\x2fd", "/a\tb", "\\x2fd", "/~!"]
SIZES = ["0", "1", "3", "007", "70", "1/1", "1/2", "1/inf", "1,1", "-", "", "1,", "x", "1/", "-1",
         "18446744073709551616", "18446744073709551615", "1099511627777"]
STORES = ["contiguous"] * 6 + ["compact"] * 3 + ["chunked:1"] * 3 + ["chunked:1,1", "chunked:-", "chunked:", "chunked:4294967296", "Contiguous", ""]
FORMS = ["ls", "ls ", "ls x", "dump", "group /g", "repack", "show 0", "close 1", "unlink /d", "soft a /b", "x", "  ",
         "dataset", "dataset /d", "# note", "", "dump /d /e", "resize /d 1", "attr /d a u8 - 1", "unattr /d a",
         "attr / a u8 2 1", "unattr / a", "dump /"]
# How often each kind of line is drawn where attributes are set and removed.
ATTRIBUTES = dict(attr=40, unattr=14, dump=10, root=6, ls=3, line=6, dataset=2, bad=8, note=1, group=1, write=1, resize=1)


def limits(name):
    """The least and the greatest value of a type, and its neighbours."""
    bits = int("".join(c for c in name if c.isdigit()))
    low, high = (-(1 << bits - 1), (1 << bits - 1) - 1) if name[0] == "i" else (0, (1 << bits) - 1)
    return [low - 1, low, low + 1, -1, 0, 1, high - 1, high, high + 1]


def draw_dataset(rng):
    """A line that may make an array."""
    type_name = rng.choice(TYPES)
    words = ["dataset", rng.choice(NAMES[:3] if rng.random() < 0.3 else NAMES), type_name,
             rng.choice(SIZES[:6] if rng.random() < 0.6 else SIZES), rng.choice(STORES)]
    if rng.random() < 0.6:
        odd = ["", "x", "--1", "-0", "007", 1 << 127, -(1 << 127), (1 << 127) - 1]
        words.append(f"fill={rng.choice(limits(type_name) + odd)}")
    return " ".join(words)


def draw(rng):
    """A line of a script."""
    kind = rng.random()
    if kind < 0.5:
        return draw_dataset(rng)
    if kind < 0.65:
        return "ls"
    if kind < 0.85:
        return "dump " + rng.choice(NAMES)
    return rng.choice(FORMS)


def script_of_others(seed):
    """An image in a layout drawn at random, a script that edits it, and how many edits the reference accepts."""
    rng = random.Random(f"others {seed}")
    image = linked_image(rng)
    maker = LineMaker(rng, image, GROUPS)
    made = [maker.line() for _ in range(OTHERS_LINES)]
    return image, b"".join(line + b"\n" for line, _ in made), sum(edited for _, (_, edited) in made)


class RandomScripts(InFolder):
    """Scripts, mostly on a file that is empty at first."""

    def assert_runs(self, image, script):
        """The program's answers are the reference's, and so is its file, or the tree of one that was not repacked at the end."""
        session = today.session_of(image)
        wanted, edited = today.answers(session, script)
        path = self.written("e.h5", image)
        before = self.stamp(path)
        self.assertEqual(h5i("run", path, script=script), (today.status_of(wanted), wanted, b""))
        if edited:
            self.assertIsNone(today.unlike(self.read(path), image, script))
        else:
            self.assertEqual(self.stamp(path), before)
        return self.read(path)

    def test_scripts(self):
        for seed in SEEDS:
            with self.subTest(seed=seed):
                rng = random.Random(seed)
                lines = [draw(rng) for _ in range(rng.randrange(MOST_LINES))]
                # The last line may lack its end.
                script = "\n".join(lines).encode("latin-1") + (b"\n" if rng.random() < 0.5 else b"")
                self.assert_runs(empty_image(), script)

    def test_scripts_of_attributes(self):
        accepted = 0
        for seed in ATTRIBUTE_SEEDS:
            with self.subTest(seed=seed):
                rng = random.Random(f"attributes {seed}")
                image = empty_image()
                # The second script goes on where the first has ended.
                for _ in range(2):
                    maker = LineMaker(rng, image, ATTRIBUTES)
                    made = [maker.line() for _ in range(rng.randrange(1, MOST_ATTRIBUTE_LINES))]
                    image = self.assert_runs(image, b"".join(line + b"\n" for line, _ in made))
                    accepted += sum(edited for _, (_, edited) in made)
                path, other = self.written("a.h5", image), self.written("b.h5", maker.session.image())
                self.assertEqual(reference("same", path, other)[:2], (0, b"same\n"))
        self.assertGreater(accepted, 10 * len(ATTRIBUTE_SEEDS))

    def test_scripts_on_files_of_others(self):
        accepted = 0
        with ProcessPoolExecutor() as pool:
            for seed, (image, script, edits) in enumerate(pool.map(script_of_others, OTHERS_SEEDS)):
                with self.subTest(seed=seed):
                    self.assert_runs(image, script)
                    accepted += edits
        self.assertGreater(accepted, OTHERS_LINES // 2 * len(OTHERS_SEEDS))
