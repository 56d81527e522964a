"""Images in layouts drawn at random and changed in a few bytes, that the program opens or refuses as the reference does."""

import random

from .drawn_images import IMAGES, Walked, images_of_mutate, linked_image

# pylint: disable=wrong-import-order
from mutate import mutant  # noqa: E402


class ChangedLayouts(Walked):
    """Images as any writer may lay them out, changed."""

    def test_changed_images_in_odd_layouts(self):
        counts = self.assert_told(images_of_mutate(foreign=True))
        self.assertGreater(min(counts.values()), IMAGES // 10)

    def test_changed_images_of_many_links_and_arrays(self):
        def images():
            for k in range(IMAGES):
                rng = random.Random(f"foreign {k}")
                yield f"o{k}", mutant(linked_image(rng), rng)
        counts = self.assert_told(images())
        self.assertGreater(min(counts.values()), IMAGES // 10)
