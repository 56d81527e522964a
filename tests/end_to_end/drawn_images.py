"""Images drawn at random, or crafted, and what the program should print of each, by the reference."""

import argparse
import functools
import os
from concurrent.futures import ThreadPoolExecutor
from dataclasses import replace

from . import today
from .drawn_arrays import any_array, values
from .support import InFolder, h5i

# pylint: disable=wrong-import-order
from h5oracle.foreign import write_foreign  # noqa: E402
from h5oracle.model import Attr, Group, Tree  # noqa: E402
from h5oracle.plain import dataspace_body, datatype_body, le, write_plain  # noqa: E402
from h5oracle.reader import Superblock, open_image  # noqa: E402
from h5oracle.values import TYPES  # noqa: E402
import mutate  # noqa: E402

NAMES = [b"a", b"b", b"note", b"sp ace", b"back\\slash", b"\xff\xfe", b"/", b".", b"a" * 7, b"a" * 8, b"long" * 60]
AT_ONCE = 8
# So many images of each kind are drawn; by hand it may be more.
IMAGES = int(os.environ.get("IMAGES", "500"))
# An array with more cells is listed, not dumped: what is not stored may have any size.
MOST_CELLS = 4096
# So many paths of one image are dumped.
DUMPS = 6
# K values of chunk trees. A node has room for twice as many chunks.
CHUNK_KS = [1, 1, 2, 3, 32, 40]


def superblock(rng, leaf, internal):
    """A superblock of either version with these K values of groups. One of version 1 has a K of chunk trees, often a small one."""
    version = rng.randrange(2)
    return Superblock(version, leaf, internal, rng.choice(CHUNK_KS) if version else 32, 0, 0)


def kept_body(attribute, rng):
    """A body of version 2 or 3 of an attribute, as its message has it: padded, with bytes that are not looked at."""
    version, name, space = rng.choice([2, 3]), attribute.name + b"\0", dataspace_body(attribute.dims)
    parts = [name, datatype_body(attribute.fixed), space]
    body = bytes([version, 0]) + b"".join(le(len(part), 2) for part in parts) + rng.randbytes(version - 2) + b"".join(parts)
    body += b"".join(map(attribute.fixed.encode, attribute.values))
    return body + rng.randbytes(-len(body) % 8)


def add_messages(thing, rng):
    """Give an object attributes and kept messages."""
    for name in rng.sample(NAMES, rng.choice([0, 1, 1, 2, 3, 6])):
        fixed = rng.choice(list(TYPES.values()))
        dims = tuple(rng.randrange(4) for _ in range(rng.choice([0, 1, 1, 2, 3])))
        count = 1
        for size in dims:
            count *= size
        made = Attr(name, fixed, dims, values(rng, fixed, count))
        thing.attrs[name] = replace(made, raw=kept_body(made, rng)) if rng.random() < 0.3 else made
    for _ in range(rng.choice([0, 0, 1, 2])):
        thing.kept.append((rng.choice([0x0D, 0x0E, 0x12]), rng.randbytes(8 * rng.randrange(3))))


def small_image(rng):
    """An image with one link at most, to an array of any form, and attributes, in a layout drawn at random."""
    tree = Tree.root_alone()
    add_messages(tree.objects[0], rng)
    if rng.random() < 0.75:
        tree.objects[1], tree.counts[1] = any_array(rng), 1
        tree.objects[0].links[rng.choice([b"d", b"..", b"n" * 90, b"\xff"])] = ("object", 1)
        add_messages(tree.objects[1], rng)
    sup = superblock(rng, *rng.choice([(4, 16), (4, 16), (1, 1), (2, 3)]))
    if rng.random() < 0.5:
        return write_plain(tree, sup)
    return write_foreign(tree, rng, sup, wild=rng.random())


def link_name(rng):
    """A name that a link may have."""
    while True:
        name = rng.choice([b"l%d" % rng.randrange(100), rng.randbytes(1 + rng.randrange(20)), b"n" * (1 + rng.randrange(90))])
        name = name.replace(b"/", b"_").replace(b"\0", b"-")
        if name != b".":
            return name


def linked_tree(rng):
    """A tree of groups, arrays of any form, soft links, and several hard links to an array, drawn at random."""
    tree = Tree.root_alone()
    add_messages(tree.objects[0], rng)
    groups, arrays = [0], []
    for _ in range(rng.choice([2, 5, 12, 40, 120])):
        links = tree.objects[rng.choice(groups[-3:] + groups[:1])].links
        name, drawn, number = link_name(rng), rng.random(), len(tree.objects)
        if name in links:
            continue
        if drawn < 0.2:
            links[name] = ("soft", rng.choice([b"/a", b"x" * rng.randrange(1, 30), b"../up"]))
        elif drawn < 0.4 and arrays:
            links[name] = ("object", rng.choice(arrays))
            tree.counts[links[name][1]] += 1
        else:
            links[name] = ("object", number)
            tree.objects[number], tree.counts[number] = (Group() if drawn < 0.65 else any_array(rng)), 1
            add_messages(tree.objects[number], rng)
            (groups if drawn < 0.65 else arrays).append(number)
    return tree


def linked_image(rng):
    """An image of such a tree, in a layout drawn at random."""
    sup = superblock(rng, *rng.choice([(4, 16), (4, 16), (1, 1), (1, 2), (2, 3)]))
    if rng.random() < 0.2:
        return write_plain(linked_tree(rng), sup)
    return write_foreign(linked_tree(rng), rng, sup, wild=rng.random())


def images_of_mutate(foreign=False, valid=False):
    """The first images that mutate.py makes by these words, each with its name."""
    return mutate.images(argparse.Namespace(seed=1, count=IMAGES, base=None, foreign=foreign, valid=valid, crafted=False))


def paths_of(tree, number=0, path=b""):
    """Each path of a tree, with its object's number or `None`."""
    for name, (kind, target) in sorted(tree.objects[number].links.items()):
        here = path + b"/" + name
        yield here, target if kind == "object" else None
        if kind == "object" and tree.is_group(target):
            yield from paths_of(tree, target, here)


def word(path):
    """A path as a word of the command line."""
    return "".join("/" if byte == 0x2F else f"\\x{byte:02x}" for byte in path)


@functools.cache
def named_images():
    """The reference's crafted images, and some of one link, by name."""
    images = mutate.crafted()
    for at, image in enumerate((images["attributes"], images["kept-twice"])):
        leaf = next(place for place, _, kind in open_image(image).blocks if kind == "symbol node")
        header = next(place for place, _, kind in reversed(open_image(image).blocks) if kind == "header")
        images[f"one-link-to-root-{at}"] = mutate.patch(image, (leaf + 16, le(96, 8)))
        images[f"one-soft-link-{at}"] = mutate.patch(image, (leaf + 24, le(2, 4)))
        images[f"one-link-two-entries-{at}"] = mutate.patch(image, (leaf + 6, le(2, 2)))
        images[f"root-counted-twice-{at}"] = mutate.patch(image, (100, le(2, 4)))
        images[f"array-counted-twice-{at}"] = mutate.patch(image, (header + 4, le(2, 4)))
        images[f"both-counted-twice-{at}"] = mutate.patch(image, (100, le(2, 4)), (header + 4, le(2, 4)))
        images[f"array-not-counted-{at}"] = mutate.patch(image, (header + 4, le(0, 4)))
        images[f"array-of-rank-0-{at}"] = mutate.patch(image, (header + 25, b"\0"), (header + 26, b"\0"))
        images[f"array-header-is-tree-{at}"] = mutate.patch(image, (leaf + 16, le(136, 8)))
        images[f"array-header-past-end-{at}"] = mutate.patch(image, (leaf + 16, le(len(image), 8)))
        images[f"data-in-the-heap-{at}"] = mutate.patch(image, (header + 98, le(712, 8)))
        images[f"data-past-end-{at}"] = mutate.patch(image, (header + 98, le(len(image) - 2, 8)))
    # With 64 chunks to a node: trees of two and of three levels.
    images["chunk-tree-of-2-levels"] = mutate.chunked(200)
    images["chunk-tree-of-3-levels"] = mutate.chunked(4100)
    return images


def told(image):
    """What the program should print of an image, by the reference: the status, output and errors of `ls` and of dumps.

    Of an image that is refused there is the listing alone.
    """
    reading, refusal = today.opened(image)
    if reading is None:
        return {("ls",): (3, b"", f"h5i: refused {refusal}\n".encode())}
    tree = reading.tree
    wanted = {("ls",): (0, today.listing(tree), b""), ("dump", "/"): (0, today.dump(tree, b"/"), b"")}
    paths = list(paths_of(tree))
    for path, number in paths[::1 + len(paths) // DUMPS]:
        if number is None or tree.is_group(number) or tree.objects[number].cells() <= MOST_CELLS:
            wanted["dump", word(path)] = (0, today.dump(tree, path), b"")
    return wanted


class Walked(InFolder):
    """Images written or changed by the reference."""

    def found(self, item):
        """A name, what the reference tells and what the program prints."""
        name, image = item
        wanted = told(image)
        path = self.written(name, image)
        made = {words: h5i(words[0], path, *words[1:]) for words in wanted}
        os.remove(path)
        return name, wanted, made

    def assert_told(self, images):
        """The program opens or refuses all images as the reference does; the counts of both."""
        counts = {"opened": 0, "refused": 0}
        with ThreadPoolExecutor(AT_ONCE) as pool:
            for name, wanted, made in pool.map(self.found, images):
                with self.subTest(name=name):
                    self.assertEqual(made, wanted)
                status, _, _ = wanted["ls",]
                counts["refused" if status else "opened"] += 1
        return counts
