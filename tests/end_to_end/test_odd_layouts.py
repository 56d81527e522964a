"""Images in layouts drawn at random, that the program opens as the reference does."""

import random

from .drawn_images import IMAGES, Walked, images_of_mutate, linked_image, small_image


class OddLayouts(Walked):
    """Images as any writer may lay them out."""

    def test_images_in_odd_layouts(self):
        self.assertEqual(self.assert_told(images_of_mutate(valid=True)), {"opened": IMAGES, "refused": 0})

    def test_images_of_links_and_arrays(self):
        def images():
            for k in range(IMAGES):
                rng = random.Random(f"valid {k}")
                yield f"v{k}", linked_image(rng) if k % 2 else small_image(rng)
        self.assertEqual(self.assert_told(images()), {"opened": IMAGES, "refused": 0})
