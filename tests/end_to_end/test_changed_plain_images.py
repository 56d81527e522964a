"""Images in the plain layout that are changed in a few bytes, and that the program opens or refuses as the reference does."""

from .drawn_images import IMAGES, Walked, images_of_mutate


class ChangedPlainImages(Walked):
    """Images without gaps, changed."""

    def test_changed_images(self):
        counts = self.assert_told(images_of_mutate())
        self.assertGreater(min(counts.values()), IMAGES // 10)
