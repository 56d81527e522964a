"""Root groups as any writer may lay them out, drawn at random, with edits of their links; and where such a group stands in an image."""

from . import today
from .drawn_images import linked_image, superblock
from .support import end_field, end_of_file

# pylint: disable=wrong-import-order
from h5oracle.foreign import Foreign, write_foreign  # noqa: E402
from h5oracle.model import Dataset, Flat, Tree  # noqa: E402
from h5oracle.plain import le  # noqa: E402
from h5oracle.reader import Superblock, number_at  # noqa: E402
from h5oracle.values import TYPES, pad8  # noqa: E402

# Leaf K and internal K.
KS = [(1, 1), (1, 1), (1, 2), (2, 1), (2, 2), (3, 5), (1, 16), (16, 1), (4, 16), (16, 16)]
LETTERS = b"abmz!~\xff"
SOFT = 2


class RootGroup:
    """The root group of an image, as the reference reads it, and where it stands."""

    def __init__(self, image):
        self.image = image
        self.reading, self.refused = today.opened(image)
        if self.refused:
            raise AssertionError(self.refused)
        # A group's blocks are its own, and its header's.
        self.blocks = [block for block, owner in zip(self.reading.blocks, self.reading.owners)
                       if owner == 0 and block[2] not in ("header", "continuation")]
        self.nodes = [at for at, _, kind in self.blocks if kind == "tree node"]
        [self.heap] = [at for at, _, kind in self.blocks if kind == "heap header"]
        [(self.segment, self.heap_size)] = [(at, size) for at, size, kind in self.blocks if kind == "heap segment"]
        symbol_nodes = [at for at, _, kind in self.blocks if kind == "symbol node"]
        self.entries = {at: list(self.read_entries(at)) for at in symbol_nodes}

    def number(self, at, size=8):
        """The number at a place."""
        return number_at(self.image, at, size)

    def text(self, offset):
        """The text at an offset of the heap."""
        start = self.segment + offset
        return self.image[start:self.image.index(b"\0", start)]

    def read_entries(self, at):
        """The entries of a symbol node: the offset of each name, and that of a soft link's text or `None`."""
        for place in range(at + 8, at + 8 + 40 * self.number(at + 6, 2), 40):
            yield self.number(place), self.number(place + 24, 4) if self.number(place + 16, 4) == SOFT else None

    @property
    def offsets(self):
        """The offset of each name and of each soft link's text."""
        return [offset for entries in self.entries.values() for entry in entries for offset in entry if offset is not None]

    @property
    def level(self):
        """The level of the root of its tree."""
        return self.image[self.nodes[0] + 5]

    @property
    def links(self):
        """Each link by its name: the text of a soft link, or the address of an object's header."""
        return {name: target if kind == "soft" else self.reading.table[target]
                for name, (kind, target) in self.reading.tree.objects[0].links.items()}

    def keys(self, node):
        """The place of each key of a node."""
        return range(node + 24, node + 25 + 16 * self.number(node + 6, 2), 16)

    def children(self, node):
        """The address of each child of a node."""
        return [self.number(place + 8) for place in self.keys(node)[:-1]]

    def names_below(self, at):
        """The names below a node or in a symbol node."""
        if at in self.entries:
            return [self.text(name) for name, _ in self.entries[at]]
        return [name for child in self.children(at) for name in self.names_below(child)]

    def spans(self):
        """The offsets of the 8 bytes each that names and texts of links occupy in the heap."""
        return {cell for offset in self.offsets for cell in range(offset, offset + pad8(len(self.text(offset)) + 1), 8)}

    def free_blocks(self):
        """Each free block of the heap: its offset and its length."""
        offset = self.number(self.heap + 16)
        while offset not in (1, (1 << 64) - 1):
            place = self.segment + offset
            yield offset, self.number(place + 8)
            offset = self.number(place)

    def smudged(self, freed):
        """The image with 0xff in the free blocks of the heap, but for what they say of themselves, and in these freed spans."""
        cells, heads = set(freed), set()
        for offset, length in self.free_blocks():
            cells.update(range(offset + 16, offset + length - length % 8, 8))
            heads.update((offset, offset + 8))
        image = bytearray(self.image)
        for cell in cells - heads:
            image[self.segment + cell:self.segment + cell + 8] = b"\xff" * 8
        return bytes(image)


def with_end(image):
    """The image whose end of file field says its length, which is not the group's to write."""
    field = end_field(image)
    return image[:field.start] + le(len(image), 8) + image[field.stop:]


def link_name(rng):
    """A name of few letters, or of many."""
    if rng.random() < 0.7:
        return bytes(rng.choice(LETTERS) for _ in range(rng.randrange(1, 4)))
    return bytes(rng.choice(b"abcdefghijklmnopqrstuvwxyz ") for _ in range(rng.randrange(1, 9)))


def link_text(rng):
    """A text for a soft link, which sorts among the names."""
    return rng.choice([b"", b"", link_name(rng)]) + link_name(rng) * rng.choice([1, 1, 1, 6])


def small_array():
    """An array that stands in its header."""
    made = Dataset(TYPES["u8"], (), (), "compact", None, 0)
    made.flat = Flat(1, TYPES["u8"], 0)
    return made


def group_tree(rng, most):
    """A tree of a root with soft links, and with links to arrays that have no other."""
    tree = Tree.root_alone()
    links = tree.objects[0].links
    for _ in range(rng.choice([0, 1, 2, 5, most // 4, most // 2, most])):
        links[link_name(rng)] = ("soft", link_text(rng))
    for number in range(1, 1 + rng.randrange(4)):
        name = link_name(rng)
        while name in links:
            name += b"+"
        links[name] = ("object", number)
        tree.objects[number], tree.counts[number] = small_array(), 1
    return tree


def group_image(rng, leaf, internal, most, wild):
    """An image of such a tree, in a layout drawn at random: a plain one where `wild` is 0."""
    image = write_foreign(group_tree(rng, most), rng, superblock(rng, leaf, internal), wild=wild)
    # Bytes behind the end of file are no part of the image.
    return image[:end_of_file(image)]


def drawn_group(rng):
    """An image of a root group with links of its own or among all kinds of objects; its keys name any text that they may."""
    if rng.random() < 0.2:
        image = linked_image(rng)
        image = image[:end_of_file(image)]
    else:
        image = group_image(rng, *rng.choice(KS), 40, rng.choice([0.2, 0.6, 1.0]))
    return loosened(image, rng, rng.choice([0, 0.3, 0.9]))


def may_stand(group, node, at, texts):
    """The offsets of those texts to which a node's key may be set, where all else stays."""
    places, children = group.keys(node), group.children(node)
    before = [group.text(group.number(places[at - 1]))] + group.names_below(children[at - 1]) if at else [b""]
    behind = group.names_below(children[at]) if at < len(children) else []
    following = [group.text(group.number(places[at + 1]))] if at < len(children) else []
    return [offset for text, offset in texts if max(before) <= text and all(text < name for name in behind) and all(text <= key for key in following)]


def loosened(image, rng, chance):
    """The image with keys of its root group set to offsets of any texts of the heap, of names and of soft links, that may stand there."""
    group = RootGroup(image)
    texts = [(b"", 0)] + [(group.text(offset), offset) for offset in group.offsets]
    for node in group.nodes if chance else []:
        for at, place in enumerate(group.keys(node)):
            fit = may_stand(group, node, at, texts)
            if fit and rng.random() < chance:
                group.image = group.image[:place] + le(rng.choice(fit), 8) + group.image[place + 8:]
    return group.image


class SparseLeaves(Foreign):
    """A layout where half of the symbol nodes have no entries."""

    def leaves_of(self, names):
        names, made = list(names), []
        while names:
            count = self.rng.choice([0, 0, 1, 2])
            made.append(names[:count])
            names = names[count:]
        return made


def sparse_group(rng):
    """An image of a few soft links in such a layout, with narrow nodes, whose keys name any text that they may."""
    tree = Tree.root_alone()
    for _ in range(rng.randrange(2, 12)):
        tree.objects[0].links[link_name(rng)] = ("soft", link_text(rng))
    image = SparseLeaves(tree, Superblock(0, 1, 1, 32, 0, 0), rng, wild=0.2).write()
    return loosened(image[:end_of_file(image)], rng, 0.9)


class FullWay(Foreign):
    """The deepest tree, where the way to the first names has full nodes alone, and all others have one child."""

    def leaves_of(self, names):
        return [names[:2]] + [[name] for name in names[2:]]

    def parts(self, row, room):
        return [row[:2]] + [[child] for child in row[2:]]


def full_way(rng):
    """An image of such a tree, whose links are soft and have the names a, b, and so on."""
    tree = Tree.root_alone()
    for letter in range(ord("a"), ord("a") + 18):
        tree.objects[0].links[bytes([letter])] = ("soft", b"of " + bytes([letter]))
    return FullWay(tree, Superblock(0, 1, 1, 32, 0, 0), rng, wild=0).write()


class Edits:
    """Lines that edit the root group of an image, drawn at random; all are taken to be accepted."""

    def __init__(self, rng, image):
        self.rng, self.lines = rng, []
        group = RootGroup(image)
        self.links = dict(group.links)
        tree = group.reading.tree
        # An array that has no other link may go and come again; of others the count of links would be wrong.
        self.movable = {group.reading.table[number] for number, count in tree.counts.items() if count == 1 and number and not tree.is_group(number)}
        self.gone = set()

    def unlinked(self):
        """The names of links that may go."""
        return sorted(name for name, target in self.links.items() if isinstance(target, bytes) or target in self.movable)

    def unlink(self, name):
        """Takes a link out."""
        target = self.links.pop(name)
        if target in self.movable:
            self.gone.add(target)
        self.lines.append(f"unlink {name.hex()}")

    def insert(self, name):
        """Puts a soft link in, or one to an array that has none."""
        if self.gone and self.rng.random() < 0.4:
            self.links[name] = header = self.rng.choice(sorted(self.gone))
            self.gone.remove(header)
            self.lines.append(f"hard {name.hex()} {header}")
        else:
            self.links[name] = text = link_text(self.rng)
            self.lines.append(f"soft {name.hex()} {text.hex()}")

    def draw(self, count):
        """Draws so many edits, with more insertions or more removals."""
        lean = self.rng.choice([0.3, 0.5, 0.8])
        while count:
            names = self.unlinked()
            if names and self.rng.random() < lean:
                self.unlink(self.rng.choice(names))
                count -= 1
                continue
            near = self.rng.choice(names) if names and self.rng.random() < 0.4 else b""
            name = near + bytes([self.rng.choice(LETTERS)]) if near else link_name(self.rng)
            if name not in self.links:
                self.insert(name)
                count -= 1

    def draw_removals(self):
        """Takes out all links that may go, in any order."""
        names = self.unlinked()
        self.rng.shuffle(names)
        for name in names:
            self.unlink(name)
