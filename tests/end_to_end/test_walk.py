"""Images that are opened by the walk or refused along it, as the reference opens or refuses them."""

import os
import random

from . import today
from .drawn_images import IMAGES, Walked, named_images, small_image
from .support import TOP

# pylint: disable=wrong-import-order
from mutate import mutant  # noqa: E402

DATA = os.path.join(TOP, "tests", "data")
# So many small files of the library are opened.
OPENED = 31
MOST_BYTES = 20000


class Walk(Walked):
    """Images written or changed by the reference, and files of the usual library that are changed."""

    def test_crafted_images(self):
        counts = self.assert_told(sorted(named_images().items()))
        self.assertGreater(min(counts.values()), 5)

    def test_changed_images(self):
        def images():
            for k in range(IMAGES):
                rng = random.Random(f"small {k}")
                yield f"m{k}", mutant(small_image(rng), rng)
        counts = self.assert_told(images())
        self.assertGreater(counts["opened"], IMAGES // 10)
        self.assertGreater(counts["refused"], IMAGES // 2)

    def test_changed_files_of_the_library(self):
        opened = []
        for name in sorted(os.listdir(DATA)):
            path = os.path.join(DATA, name)
            if name.endswith(".h5") and os.path.getsize(path) <= MOST_BYTES:
                image = self.read(path)
                opened += [image] * (today.opened(image)[0] is not None)
        self.assertEqual(len(opened), OPENED)

        def images():
            for k in range(IMAGES):
                rng = random.Random(f"library {k}")
                yield f"l{k}", mutant(rng.choice(opened), rng)
        counts = self.assert_told(images())
        self.assertGreater(min(counts.values()), IMAGES // 10)
