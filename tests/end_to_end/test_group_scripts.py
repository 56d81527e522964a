"""Random scripts of groups and links: their answers and files are those of the reference, and the usual library reads and edits the files."""

import functools
import json
import os
import random
from concurrent.futures import ProcessPoolExecutor
from itertools import pairwise

from . import today
from .drawn_scripts import GROUPS, LineMaker
from .support import InFolder, empty_image, h5i, library, reference
from .test_attributes_in_place import NIL, kinds


GROUP_SEEDS = range(200)
GROUP_LINES = 300
# So many files the library lists and edits in one run.
AT_ONCE = 20

# Each link's path and where it leads, as the usual library lists them.
LIST = """
import json, os, sys, h5py
from h5py import h5g, h5l, h5o
for name in sys.argv[1:]:
    with h5py.File(name, "r") as file:
        links, groups = [], [("", file["/"].id)]
        while groups:
            at, group = groups.pop()
            # Names are bytes here: not all are UTF-8.
            for key in group:
                path = at + "/" + os.fsdecode(key)
                if group.links.get_info(key).type == h5l.TYPE_SOFT:
                    links.append([path, "soft", os.fsdecode(group.links.get_val(key))])
                    continue
                there = h5o.open(group, key)
                if isinstance(there, h5g.GroupID):
                    links.append([path, "group", None])
                    groups.append((path, there))
                else:
                    links.append([path, "dataset", list(there.shape)])
        print(json.dumps(sorted(links)))
"""

CHANGE = """
import sys, h5py
for name in sys.argv[1:]:
    with h5py.File(name, "r+") as file:
        group = file.create_group("made by/the library")
        for k in range(40):
            group.create_dataset(f"d{k:02}", data=list(range(k)), dtype="<i4")
        file["linked"] = group["d07"]
        file["soft"] = h5py.SoftLink("/made by")
"""


def links_of(tree):
    """The links of a tree as the usual library lists them."""
    def below(number, path):
        for name, (kind, target) in tree.objects[number].links.items():
            here = path + "/" + os.fsdecode(name)
            if kind == "soft":
                yield [here, "soft", os.fsdecode(target)]
            elif tree.is_group(target):
                yield [here, "group", None]
                yield from below(target, here)
            else:
                yield [here, "dataset", list(tree.objects[target].dims)]
    return sorted(below(0, ""))


def has_neighbouring_nils(image):
    """Whether a NIL message of the root's header stands right behind another one."""
    return (NIL, NIL) in pairwise(kinds(image))


def script_of_groups(seed):
    """A script that makes groups, arrays and links, what the reference answers to it, and its file: how many edits it accepts."""
    maker = LineMaker(random.Random(f"groups {seed}"), empty_image(), GROUPS)
    made = [maker.line() for _ in range(GROUP_LINES)]
    script = b"".join(line + b"\n" for line, _ in made)
    return script, b"".join(text for _, (text, _) in made), maker.session.tree, sum(edited for _, (_, edited) in made)


@functools.cache
def scripts():
    """By seed such a script, what the reference answers to it, its file, and how many edits it accepts."""
    with ProcessPoolExecutor() as pool:
        return list(pool.map(script_of_groups, GROUP_SEEDS))


class GroupScripts(InFolder):
    """Long scripts on a file that is empty at first."""

    def test_answers_and_files(self):
        accepted = 0
        for seed, (script, wanted, tree, edits) in enumerate(scripts()):
            with self.subTest(seed=seed):
                path = self.new(f"{seed}.h5")
                self.assertEqual(h5i("run", path, script=script), (today.status_of(wanted), wanted, b""))
                self.assertIsNone(today.unlike(self.read(path), empty_image(), script))
                self.assertEqual(h5i("ls", path), (0, today.listing(tree), b""))
                accepted += edits
        self.assertGreater(accepted, GROUP_LINES // 2 * len(GROUP_SEEDS))


class Library(InFolder):
    """Files of groups and links that the usual library lists and edits."""

    def assert_edited(self, path):
        """The file that the library has edited is opened and edited again."""
        reading, refusal = today.opened(self.read(path))
        self.assertIsNone(refusal)
        self.assertEqual(h5i("ls", path), (0, today.listing(reading.tree), b""))
        self.assertIn(b"/made\\x20by/the\\x20library/d39 dataset i32le {39}\n", today.listing(reading.tree))
        self.assertEqual(h5i("run", path, script=b"group /after\nsoft x /made\\x20by/s\n")[:2], (0, b"ok 0\nok 0\n"))
        self.assertEqual(reference("check", path)[:2], (0, b"ok\n"))

    def repacked_for_the_library(self, path):
        """The library joins NIL messages that are neighbours, and leaves the total of messages in the header's prefix as it was, so that the
        header is no longer as the format says. A file with such messages is repacked.
        """
        if has_neighbouring_nils(self.read(path)):
            self.assertEqual(h5i("run", path, script=b"repack\n"), (0, b"ok 0\n", b""))

    def assert_listed_and_edited(self, made):
        """The files of some scripts: made, listed and edited by the library, and edited again."""
        paths = []
        for seed, (script, answers, _, _) in made:
            paths.append(self.new(f"{seed}.h5"))
            self.assertEqual(h5i("run", paths[-1], script=script)[1], answers)
        status, output, errors = library(LIST, *paths)
        self.assertEqual((status, errors), (0, b""))
        for (seed, (_, _, tree, _)), line in zip(made, output.splitlines(), strict=True):
            with self.subTest(seed=seed):
                self.assertEqual(json.loads(line), links_of(tree))
        for path in paths:
            self.repacked_for_the_library(path)
        self.assertEqual(library(CHANGE, *paths), (0, b"", b""))
        for path in paths:
            with self.subTest(path=path):
                self.assert_edited(path)

    def test_files_are_listed_edited_and_opened_again(self):
        made = list(enumerate(scripts()))
        for begun in range(0, len(made), AT_ONCE):
            self.assert_listed_and_edited(made[begun:begun + AT_ONCE])
