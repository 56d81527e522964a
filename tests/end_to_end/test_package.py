"""The packages in dist: made again they are the same, and they install without the toolchain."""

import functools
import hashlib
import os
import shutil
import subprocess
import tempfile
import unittest

from .support import PROGRAM, TOP, InFolder, run_command

DIST = os.path.join(TOP, "dist")
# What installing may call. Neither the toolchain nor Python is among them.
COMMANDS = ("bash", "cat", "cp", "dirname", "dpkg-deb", "id", "mkdir", "mktemp", "realpath", "rm", "sha256sum", "tar", "uname")
FILES = ["usr/bin/h5i", "usr/share/doc/h5i/built-from", "usr/share/doc/h5i/copyright", "usr/share/man/man1/h5i.1"]
LIBRARY = ("libh5i.a", "libh5i.so")
MODULE = os.path.join(TOP, "bindings", "python", "h5i")
# The files of the packages that are of the library, and what each is beside the library itself.
FOR_C = {
    "usr/include/h5i.h": os.path.join(TOP, "bindings", "c", "h5i.h"),
    "usr/share/doc/libh5i-dev/examples/demo.c": os.path.join(TOP, "bindings", "c", "demo.c"),
}
FOR_PYTHON = {
    f"usr/lib/python3/dist-packages/h5i/{file}": os.path.join(MODULE, file)
    for file in sorted(os.listdir(MODULE)) if file == "py.typed" or file.endswith(".py")
}


def files_below(folder):
    """The paths of the files below a folder."""
    return sorted(os.path.relpath(os.path.join(parent, file), folder) for parent, _, files in os.walk(folder) for file in files)


def bytes_of(*parts):
    """The bytes of a file."""
    with open(os.path.join(*parts), "rb") as file:
        return file.read()


def package_in(folder, name="h5i"):
    """The file of a package in a folder."""
    found, = (file for file in os.listdir(folder) if file.startswith(name + "_") and file.endswith("_amd64.deb"))
    return found


@functools.cache
def sources_of(crate):
    """What bin/sources says of a crate."""
    return run_command(os.path.join(TOP, "bin", "sources"), crate)[1]


def sources(package, crate):
    """The lines of SOURCES of a package that is made of the sources as they are."""
    return b"".join(package.encode() + b" " + line for line in sources_of(crate).splitlines(keepends=True))


class Made(InFolder):
    """Tests with packages that are made of the program under test, and of a stand-in for the library, which takes long to build."""

    def library(self):
        """The folder of the stand-in."""
        folder = self.path("library")
        os.makedirs(folder, exist_ok=True)
        for file in LIBRARY:
            self.written(os.path.join("library", file), file.encode() * 1000)
        return folder

    def made(self, name, *words):
        """The folder in which packages are made, all three where no words say of what."""
        folder = self.path(name)
        words = words or ("--program", PROGRAM, "--library", self.library())
        status, _, errors = run_command(os.path.join(TOP, "bin", "package"), *words, "--to", folder)
        self.assertEqual((status, errors), (0, b""))
        return folder

    def unpacked(self, folder, name):
        """The folder into which a package of a folder is unpacked."""
        there = self.path(f"unpacked-{name}")
        self.assertEqual(run_command("dpkg-deb", "--extract", os.path.join(folder, package_in(folder, name)), there), (0, b"", b""))
        return there


class Package(Made):
    """What is packed."""

    def test_the_same_parts_give_the_same_bytes(self):
        one = self.made("one")
        two = self.made("two", "--program", PROGRAM)
        self.assertEqual(files_below(two), ["SHA256SUMS", "SOURCES", package_in(two)])
        # What is made of the library alone leaves the other package as it is.
        self.made("two", "--library", self.library())
        self.assertEqual(files_below(one), ["SHA256SUMS", "SOURCES", *(package_in(one, name) for name in ("h5i", "libh5i-dev", "python3-h5i"))])
        for file in files_below(one):
            self.assertEqual(bytes_of(one, file), bytes_of(two, file), file)

    def test_its_files(self):
        folder = self.made("dist")
        unpacked = self.unpacked(folder, "h5i")
        self.assertEqual(files_below(unpacked), FILES)
        self.assertEqual(bytes_of(unpacked, "usr/bin/h5i"), bytes_of(PROGRAM))
        self.assertEqual(bytes_of(folder, "SOURCES"), sources("h5i", "h5i") + sources("libh5i-dev", "h5_c") + sources("python3-h5i", "h5_c"))
        for name in ("h5i", "libh5i-dev", "python3-h5i"):
            listed = run_command("dpkg-deb", "--contents", os.path.join(folder, package_in(folder, name)))[1].decode("ascii").splitlines()
            self.assertEqual({line.split()[1] for line in listed}, {"root/root"})
            self.assertLessEqual({line.split()[0] for line in listed}, {"drwxr-xr-x", "-rw-r--r--", "-rwxr-xr-x"})
        version = run_command(os.path.join(unpacked, "usr/bin/h5i"), "--version")[1].decode("ascii").split()[1]
        for name in ("h5i", "libh5i-dev", "python3-h5i"):
            self.assertEqual(package_in(folder, name), f"{name}_{version}_amd64.deb")

    def test_the_files_of_the_library(self):
        folder, library = self.made("dist"), self.library()
        for name, files, own in (("libh5i-dev", FOR_C, "usr/lib/x86_64-linux-gnu"), ("python3-h5i", FOR_PYTHON, "usr/lib/python3/dist-packages/h5i")):
            unpacked = self.unpacked(folder, name)
            parts = {f"{own}/{file}": os.path.join(library, file) for file in LIBRARY if name == "libh5i-dev" or file == "libh5i.so"} | files
            documents = [f"usr/share/doc/{name}/built-from", f"usr/share/doc/{name}/copyright"]
            self.assertEqual(files_below(unpacked), sorted([*parts, *documents]))
            for file, part in parts.items():
                self.assertEqual(bytes_of(unpacked, file), bytes_of(part), file)


class Kept(Made):
    """The packages in dist."""

    def setUp(self):
        super().setUp()
        for name in ("h5i", "libh5i-dev", "python3-h5i"):
            self.assertTrue(any(file.startswith(name + "_") for file in os.listdir(DIST)),
                            f"there is no package {name} in dist: bin/package makes it of what bin/build and bin/build-c have built")

    def test_their_sums_are_right(self):
        packages = [package_in(DIST, name) for name in ("h5i", "libh5i-dev", "python3-h5i")]
        self.assertEqual(files_below(DIST), ["SHA256SUMS", "SOURCES", *packages])
        sums = "".join(f"{hashlib.sha256(bytes_of(DIST, package)).hexdigest()}  {package}\n" for package in packages)
        self.assertEqual(bytes_of(DIST, "SHA256SUMS"), sums.encode("ascii"))

    def assert_made_again(self, crate, names, *words):
        """Packages in dist are, byte for byte, what their parts and the sources give, if they are of the sources as they are."""
        there = bytes_of(DIST, "SOURCES")
        if not all(sources(name, crate) in there for name in names):
            print(f"The sources are newer than {' and '.join(names)} in dist; what behaves otherwise, bin/package makes anew.")
            return
        folder = self.made("again", *words)
        for name in names:
            self.assertEqual(package_in(folder, name), package_in(DIST, name))
            self.assertTrue(bytes_of(folder, package_in(folder, name)) == bytes_of(DIST, package_in(DIST, name)),
                            f"{name} in dist is not what its sources give: bin/package makes it anew")

    def test_the_program_is_what_these_sources_give(self):
        self.assert_made_again("h5i", ["h5i"], "--program", PROGRAM)

    def test_the_library_is_packed_as_these_sources_say(self):
        # No test builds the library. So it is taken from its package, and what it was built from is known by the sum of its sources.
        library = os.path.join(self.unpacked(DIST, "libh5i-dev"), "usr/lib/x86_64-linux-gnu")
        self.assert_made_again("h5_c", ["libh5i-dev", "python3-h5i"], "--library", library)


class Installed(Made):
    """What bin/install does, in a folder that has its files alone, with few commands on the path."""

    @classmethod
    def setUpClass(cls):
        folder = tempfile.TemporaryDirectory()
        cls.addClassCleanup(folder.cleanup)
        maker = cls()
        maker.folder = folder.name
        cls.all_made = maker.made("dist")

    def setUp(self):
        super().setUp()
        self.top = self.path("top")
        for script in ("install", "first-session"):
            os.makedirs(os.path.join(self.top, "bin"), exist_ok=True)
            shutil.copy(os.path.join(TOP, "bin", script), os.path.join(self.top, "bin", script))
        shutil.copytree(self.all_made, os.path.join(self.top, "dist"))
        os.mkdir(self.path("path"))
        for command in COMMANDS:
            os.symlink(shutil.which(command), self.path(os.path.join("path", command)))

    def install(self, *words):
        """Runs bin/install: its status, output and errors."""
        places = {"PATH": self.path("path"), "HOME": self.path("home")}
        done = subprocess.run([os.path.join(self.top, "bin", "install"), *words], env=places, capture_output=True, check=False, timeout=60)
        return done.returncode, done.stdout.decode("ascii"), done.stderr.decode("ascii")

    def test_below_a_prefix(self):
        prefix = self.path("here/and there")
        status, output, errors = self.install("--prefix", prefix)
        self.assertEqual((status, errors), (0, ""))
        self.assertTrue(output.startswith(f"Installed {prefix}/bin/h5i."), output)
        self.assertIn("$ h5i dump e.h5 /d\n/d dataset i32le {3} contiguous fill -7\n@unit u8 {2} 109 115\n-7 -7 -7\n", output)
        self.assertIn(f'export PATH="{prefix}/bin:$PATH"\n', output)
        self.assertEqual(files_below(prefix), sorted(file.removeprefix("usr/") for file in FILES))

    def test_packages_that_are_named(self):
        prefix = self.path("prefix")
        status, output, errors = self.install("--prefix", prefix, "libh5i-dev", "python3-h5i")
        self.assertEqual((status, errors), (0, ""))
        self.assertIn(f"cc -I{prefix}/include program.c {prefix}/lib/x86_64-linux-gnu/libh5i.a\n", output)
        self.assertIn(f'export PYTHONPATH="{prefix}/lib/python3/dist-packages"', output)
        found = files_below(prefix)
        for file in (*FOR_C, *FOR_PYTHON, "usr/lib/python3/dist-packages/h5i/libh5i.so"):
            self.assertIn(file.removeprefix("usr/"), found)
        self.assertNotIn("bin/h5i", found)

    def test_a_package_that_was_changed_is_not_installed(self):
        with open(os.path.join(self.top, "dist", package_in(os.path.join(self.top, "dist"))), "r+b") as package:
            package.seek(1000)
            package.write(b"?")
        status, output, errors = self.install("--prefix", self.path("prefix"))
        self.assertNotEqual(status, 0)
        self.assertNotIn("Installed", output)
        self.assertIn("WARNING: 1 computed checksum did NOT match", errors)
        self.assertFalse(os.path.exists(self.path("prefix")))

    def test_other_words(self):
        for words in (("--prefix",), ("--prefix", ""), ("--where", "x"), ("x",), ("h5i", "--prefix", "x")):
            with self.subTest(words=words):
                self.assertEqual(self.install(*words), (2, "", "usage: bin/install [--prefix DIR] [h5i] [libh5i-dev] [python3-h5i]\n"))


if __name__ == "__main__":
    unittest.main()
