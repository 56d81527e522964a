"""Bytes that are refused: the cause, its number and the address, as the tables of the format say."""

import functools

from .support import InFolder, empty_image, empty_image_1, h5i, patched, reference

# bytes kept of the empty file: number, name, address
CUTS = {
    799: (2, "Truncated", 40),
    95: (2, "Truncated", 0),
    8: (2, "Truncated", 0),
    7: (1, "NotHdf5", 0),
    0: (1, "NotHdf5", 0),
}

# place and bytes: number, name, address
CHANGES = {
    (0, "88"): (1, "NotHdf5", 0),
    (8, "02"): (3, "SuperblockVersion", 8),
    (9, "01"): (3, "SuperblockVersion", 9),
    (10, "01"): (3, "SuperblockVersion", 10),
    (12, "01"): (3, "SuperblockVersion", 12),
    (13, "04"): (4, "FieldSizes", 13),
    (14, "04"): (4, "FieldSizes", 14),
    (24, "01"): (5, "BaseAddress", 24),
    (48, "00"): (6, "Driver", 48),
    (16, "00"): (7, "KRange", 16),
    (17, "80"): (7, "KRange", 16),
    (18, "0000"): (7, "KRange", 18),
    (40, "0100008000000000"): (34, "TooLarge", 40),
    (40, "5f00000000000000"): (2, "Truncated", 40),
    (40, "2103000000000000"): (2, "Truncated", 40),
}

# two rules broken at once: the first along the walk is named
TWO_CHANGES = {
    ((14, "04"), (9, "01")): (3, "SuperblockVersion", 9),
    ((48, "00"), (13, "02")): (4, "FieldSizes", 13),
    ((16, "0000"), (48, "00")): (6, "Driver", 48),
    ((40, "ffffffff00000000"), (16, "0000")): (7, "KRange", 16),
}

# of the empty file with a superblock of version 1: bytes kept
CUTS_1 = {
    803: (2, "Truncated", 44),
    100: (2, "Truncated", 44),
    99: (2, "Truncated", 0),
    96: (2, "Truncated", 0),
    95: (2, "Truncated", 0),
    9: (2, "Truncated", 0),
    8: (2, "Truncated", 0),
    7: (1, "NotHdf5", 0),
}

# place and bytes
CHANGES_1 = {
    (0, "88"): (1, "NotHdf5", 0),
    (8, "02"): (3, "SuperblockVersion", 8),
    (8, "03"): (3, "SuperblockVersion", 8),
    (8, "81"): (3, "SuperblockVersion", 8),
    (9, "01"): (3, "SuperblockVersion", 9),
    (10, "01"): (3, "SuperblockVersion", 10),
    (12, "01"): (3, "SuperblockVersion", 12),
    (13, "04"): (4, "FieldSizes", 13),
    (14, "04"): (4, "FieldSizes", 14),
    (28, "01"): (5, "BaseAddress", 28),
    (35, "80"): (5, "BaseAddress", 28),
    (52, "00"): (6, "Driver", 52),
    (59, "7f"): (6, "Driver", 52),
    (16, "0000"): (7, "KRange", 16),
    (17, "80"): (7, "KRange", 16),
    (18, "0000"): (7, "KRange", 18),
    (19, "80"): (7, "KRange", 18),
    (24, "0000"): (7, "KRange", 24),
    (24, "0080"): (7, "KRange", 24),
    (24, "ffff"): (7, "KRange", 24),
    (44, "0100008000000000"): (34, "TooLarge", 44),
    (51, "80"): (34, "TooLarge", 44),
    (44, "2503000000000000"): (2, "Truncated", 44),
    (44, "6300000000000000"): (2, "Truncated", 44),
    (44, "6000000000000000"): (2, "Truncated", 44),
    # It is the bytes of its superblock, and has no root.
    (44, "6400000000000000"): (2, "Truncated", 100),
    (68, "6000000000000000"): (8, "HeaderVersion", 96),
    (68, "2403000000000000"): (2, "Truncated", 804),
    (124, "6000000000000000"): (32, "Overlap", 96),
}

# two rules broken at once
TWO_CHANGES_1 = {
    ((8, "02"), (28, "01")): (3, "SuperblockVersion", 8),
    ((9, "01"), (14, "04")): (3, "SuperblockVersion", 9),
    ((28, "01"), (14, "04")): (4, "FieldSizes", 14),
    ((52, "00"), (28, "01")): (5, "BaseAddress", 28),
    ((16, "0000"), (52, "00")): (6, "Driver", 52),
    ((24, "0000"), (52, "00")): (6, "Driver", 52),
    ((24, "0000"), (16, "0000")): (7, "KRange", 16),
    ((24, "0080"), (18, "0080")): (7, "KRange", 18),
    ((44, "ffffffff00000000"), (24, "0000")): (7, "KRange", 24),
    ((44, "6300000000000000"), (24, "0080")): (7, "KRange", 24),
    ((44, "6300000000000000"), (100, "02")): (2, "Truncated", 44),
}

# what the walk meets behind the superblock
ALONG_THE_WALK = {
    (64, "ffffffffffffffff"): (2, "Truncated", 18446744073709551615),
    (64, "0000000000000000"): (8, "HeaderVersion", 0),
    (64, "2003000000000000"): (2, "Truncated", 800),
    (96, "02"): (8, "HeaderVersion", 96),
    (98, "02"): (10, "MessageCount", 96),
    (100, "02"): (30, "LinkCount", 96),
    (104, "10"): (9, "MessageSize", 96),
    (112, "00"): (16, "MissingMessage", 96),
    (112, "07"): (14, "ExternalFiles", 96),
    (112, "0a"): (15, "NewStyleGroup", 96),
    (112, "0b"): (13, "Filtered", 96),
    (112, "0c"): (16, "MissingMessage", 96),
    (112, "0f"): (12, "UnknownMessage", 96),
    (114, "0f"): (9, "MessageSize", 96),
    (116, "02"): (11, "SharedMessage", 96),
    (120, "6000000000000000"): (32, "Overlap", 96),
    (136, "00"): (25, "NodeForm", 136),
    (136, "55"): (25, "NodeForm", 136),
    (141, "10"): (25, "NodeForm", 136),
    (144, "fe"): (28, "Sibling", 136),
    (160, "08"): (24, "HeapName", 680),
    (680, "00"): (23, "HeapForm", 680),
    (680, "49"): (23, "HeapForm", 680),
    (688, "07"): (23, "HeapForm", 680),
    (712, "01"): (24, "HeapName", 680),
    (728, "51"): (23, "HeapForm", 680),
}

# bytes that the rules do not look at
PASSED_OVER = ((11, "ff"), (15, "ff"), (20, "ffffffff"), (32, "00"), (56, "ff"), (72, "ffffffff"), (80, "00"), (97, "ff"), (108, "ffffffff"),
               (116, "fd"), (117, "ffffff"), (168, "ff"), (685, "ffffff"))


# bytes that they do not look at in one of version 1
PASSED_OVER_1 = ((11, "ff"), (15, "ff"), (20, "ffffffff"), (24, "0100"), (24, "ff7f"), (26, "ffff"), (36, "00"), (60, "ff"), (76, "ffffffff"),
                 (84, "00"))


class RefusedImages(InFolder):
    """Changes to the empty file."""

    def assert_refused(self, image, number, name, address):
        """The program and the reference refuse the image by this cause at this address."""
        path = self.written("changed.h5", image)
        text = f"refused {number} {name} at {address}\n".encode()
        self.assertEqual(h5i("ls", path), (3, b"", b"h5i: " + text))
        self.assertEqual(h5i("run", path, script=b"ls\n"), (3, b"", b"h5i: " + text))
        status, output, errors = reference("check", path)
        self.assertEqual((status, output + errors), (3, text))
        self.assertEqual(self.read(path), image)

    def test_cuts(self):
        for length, verdict in CUTS.items():
            with self.subTest(length=length):
                self.assert_refused(empty_image()[:length], *verdict)

    def test_changes(self):
        for change, verdict in CHANGES.items():
            with self.subTest(change=change):
                self.assert_refused(patched(empty_image(), *change), *verdict)

    def assert_the_first(self, image, rows):
        """Of two changes to an image the first fault is named."""
        for changes, verdict in rows.items():
            with self.subTest(changes=changes):
                self.assert_refused(functools.reduce(lambda before, change: patched(before, *change), changes, image), *verdict)

    def test_the_first_of_two_is_named(self):
        self.assert_the_first(empty_image(), TWO_CHANGES)

    def test_the_first_of_two_in_version_1(self):
        self.assert_the_first(empty_image_1(), TWO_CHANGES_1)

    def test_cuts_of_version_1(self):
        for length, verdict in CUTS_1.items():
            with self.subTest(length=length):
                self.assert_refused(empty_image_1()[:length], *verdict)

    def test_changes_of_version_1(self):
        for change, verdict in CHANGES_1.items():
            with self.subTest(change=change):
                self.assert_refused(patched(empty_image_1(), *change), *verdict)

    def test_another_version_with_96_bytes(self):
        # Of a version that is not read only the bytes of version 0 are wanted.
        self.assert_refused(patched(empty_image(), 8, "02")[:96], 3, "SuperblockVersion", 8)
        self.assert_refused(patched(empty_image(), 8, "02")[:95], 2, "Truncated", 0)
        # Taken for the other version, the fields of an image stand at other places.
        self.assert_refused(patched(empty_image(), 8, "01"), 5, "BaseAddress", 28)
        self.assert_refused(patched(empty_image_1(), 8, "00"), 5, "BaseAddress", 24)

    def test_along_the_walk(self):
        for change, verdict in ALONG_THE_WALK.items():
            with self.subTest(change=change):
                self.assert_refused(patched(empty_image(), *change), *verdict)

    def test_what_is_passed_over_is_no_fault(self):
        for image, changes in ((empty_image(), PASSED_OVER), (empty_image_1(), PASSED_OVER_1)):
            for change in changes:
                with self.subTest(change=change, length=len(image)):
                    path = self.written("changed.h5", patched(image, *change))
                    self.assertEqual(reference("check", path)[0], 0)
                    self.assertEqual(h5i("ls", path), (0, b"/ group\n", b""))
