"""What `h5i dump` prints of a path, and how it ends."""

from .support import InFolder, empty_image, h5i, patched, reference


class Dump(InFolder):
    """One array, and paths to it and beside it."""

    def test_an_array(self):
        path = self.with_array()
        text = b"/d dataset i32le {3} contiguous fill -7\n-7 -7 -7\n"
        before = self.stamp(path)
        self.assertEqual(h5i("dump", path, "/d"), (0, text, b""))
        self.assertEqual(reference("dump", path, "/d"), (0, text, b""))
        self.assertEqual(self.stamp(path), before)

    def test_the_root(self):
        for path in (self.new(), self.with_array(name="d.h5")):
            self.assertEqual(h5i("dump", path, "/"), (0, b"/ group\n", b""))

    def test_an_array_without_cells(self):
        path = self.with_array("/none u16be 0 contiguous fill=9")
        self.assertEqual(h5i("dump", path, "/none"), (0, b"/none dataset u16be {0} contiguous fill 9\n", b""))

    def test_values_that_are_not_the_fill(self):
        path = self.with_array()
        image = self.read(path)
        image = image[:-12] + bytes.fromhex("00000080" "ffffff7f" "01000000")
        path = self.written("changed.h5", image)
        text = b"/d dataset i32le {3} contiguous fill -7\n-2147483648 2147483647 1\n"
        self.assertEqual(h5i("dump", path, "/d"), (0, text, b""))
        self.assertEqual(reference("dump", path, "/d"), (0, text, b""))

    def test_escapes(self):
        path = self.with_array("/a\\x20\\x5c\\xff\\x64 u8 1 contiguous")
        text = b"/a\\x20\\x5c\\xffd dataset u8 {1} contiguous fill 0\n0\n"
        for word in ("/a\\x20\\x5c\\xffd", "/\\x61\\x20\\x5c\\xff\\x64", "\\x2fa\\x20\\x5c\\xffd"):
            with self.subTest(word=word):
                self.assertEqual(h5i("dump", path, word), (0, text, b""))
                self.assertEqual(reference("dump", path, word), (0, text, b""))
        self.assertEqual(h5i("ls", path), (0, b"/ group\n/a\\x20\\x5c\\xffd dataset u8 {1}\n", b""))

    def test_refused_paths(self):
        rows = {
            "d": "1 BadPath",
            "": "1 BadPath",
            "//": "1 BadPath",
            "/d/": "1 BadPath",
            "/.": "1 BadPath",
            "/a\\x00": "1 BadPath",
            # bytes that may not stand as they are, and escapes that are none
            "/a b": "1 BadPath",
            "/a\tb": "1 BadPath",
            "/a\x7f": "1 BadPath",
            "/\u00e9": "1 BadPath",
            "/d\\": "1 BadPath",
            "/d\\x2": "1 BadPath",
            "/d\\x2G": "1 BadPath",
            "/d\\x6C": "1 BadPath",
            "/d\\n": "1 BadPath",
            "/a" * 65: "2 PathTooDeep",
            "/a/b": "4 NoSuchParent",
            "/d/b": "5 NotAGroup",
            "/a": "6 NotFound",
            "/dd": "6 NotFound",
            "/D": "6 NotFound",
        }
        path = self.with_array()
        before = self.stamp(path)
        for word, refusal in rows.items():
            with self.subTest(word=word):
                self.assertEqual(h5i("dump", path, word), (1, f"refused {refusal}\n".encode(), b""))
                self.assertEqual(reference("dump", path, word), (1, f"refused {refusal}\n".encode(), b""))
        self.assertEqual(self.stamp(path), before)

    def test_the_file_is_looked_at_before_the_path(self):
        missing = self.path("missing.h5")
        self.assertEqual(h5i("dump", missing, "a b"), (4, b"", f"h5i: cannot read {missing}\n".encode()))
        path = self.written("changed.h5", patched(empty_image(), 14, "04"))
        self.assertEqual(h5i("dump", path, "a b"), (3, b"", b"h5i: refused 4 FieldSizes at 14\n"))

    def test_output_that_cannot_be_written(self):
        path = self.with_array()
        for word in ("/d", "/", "/missing", "a b"):
            with self.subTest(word=word), open("/dev/full", "wb") as full:
                status, _, errors = h5i("dump", path, word, stdout=full)
                self.assertEqual((status, errors), (4, b"h5i: cannot print\n"))
