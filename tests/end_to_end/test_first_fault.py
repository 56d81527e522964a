"""Images that break several rules: the fault that is named is the first along the walk of docs/FORMAT.md.

Of each image the changes stand in the order of the walk, each with the refusal that it alone brings. Of any two of them the refusal of the earlier
one is named. The refusals are those of docs/FORMAT.md, and the reference names the same ones.
"""

import functools
import threading
from concurrent.futures import ThreadPoolExecutor
from itertools import combinations

from . import today
from .support import InFolder, empty_image, empty_image_1, h5i, patched

# pylint: disable=wrong-import-order
from h5oracle.model import Attr, Dataset, Flat, Group, Tree  # noqa: E402
from h5oracle.plain import le, write_plain  # noqa: E402
from h5oracle.reader import Superblock  # noqa: E402
from h5oracle.values import TYPES  # noqa: E402
from mutate import groups_deep, linked_names  # noqa: E402

AT_ONCE = 8
# One cell more than an array may have.
MANY = le((1 << 40) + 1, 8).hex()


def array():
    """A contiguous array of one cell of 8 bytes, which is stored."""
    made = Dataset(TYPES["i64le"], (1,), (1,), "contiguous", None, 0)
    made.flat = Flat(1, made.fixed, 0)
    return made


def noted(thing, **sizes):
    """The object with attributes of these sizes, of one byte a cell."""
    for name, dims in sizes.items():
        thing.attrs[name.encode("ascii")] = Attr(name.encode("ascii"), TYPES["u8"], dims, () if 0 in dims else (1,))
    return thing


def image_of(links, root=None, leaf_k=4, internal_k=16):
    """The plain image of a root that has these links to new objects. A group stands as the links in it, a soft link as its text."""
    tree = Tree.root_alone()
    tree.objects[0] = root or Group()

    def add(group, its_links):
        for name, target in its_links.items():
            if isinstance(target, bytes):
                group.links[name.encode("ascii")] = ("soft", target)
                continue
            number, thing = len(tree.objects), Group() if isinstance(target, dict) else target
            tree.objects[number], tree.counts[number] = thing, 1
            group.links[name.encode("ascii")] = ("object", number)
            if isinstance(target, dict):
                add(thing, target)
    add(tree.objects[0], links)
    return write_plain(tree, Superblock(0, leaf_k, internal_k, 32, 0, 0))


def chunks():
    """An array of 66 chunks of a cell each. A node has room for 64."""
    made = Dataset(TYPES["u8"], (66,), (None,), "chunked", (1,), 0)
    for place in range(66):
        made.put((place,), 1)
    return made


def two_arrays():
    """/d with three attributes, the first of which has no cells, and /e."""
    return image_of({"d": noted(array(), a=(0, 1), b=(1,), c=(1,)), "e": array()})


def body_of_version(version, name):
    """The body of an attribute of this version, 2 or 3, of one byte."""
    body = bytes([version, 0]) + bytes.fromhex("02000c001000" + "00" * (version - 2)) + name + b"\0"
    return (body + bytes.fromhex("100000000100000000000800" + "01010000000000000100000000000000" + "01")).ljust(40, b"\0")


def versions():
    """/d with a fill value of version 3, an attribute of version 2 and two of version 3."""
    made = array()
    for name, version in ((b"a", 2), (b"b", 3), (b"c", 3)):
        made.attrs[name] = Attr(name, TYPES["u8"], (1,), (1,), body_of_version(version, name))
    return patched(image_of({"d": made}), 1200, "032a08000000" + "00" * 10)


def often_linked():
    """An array with 65536 links, and /z behind them by name."""
    tree = linked_names(*(b"%06d" % k for k in range(65536)))
    tree.objects[2], tree.counts[2] = array(), 1
    tree.objects[0].links[b"z"] = ("object", 2)
    return write_plain(tree, Superblock.fresh())


def turned(image):
    """The image of two arrays whose first header has its messages the other way round."""
    places = (1144, 1168, 1192, 1216, 1248, 1312, 1376, 1440)
    messages = [image[at:past] for at, past in zip(places, places[1:])]
    return image[:1144] + b"".join(reversed(messages)) + image[1440:]


# By name an image, and its length, which shows that its blocks stand where the changes below expect them.
IMAGES = {
    "empty": (empty_image, 800),
    # With a superblock of version 1: root at 100, tree 140, heap 684, segment 716.
    "empty 1": (empty_image_1, 804),
    # Root at 96, tree 136, heap 680, segment 712, symbol node 800. Header of /d at 1128: dataspace 1144, datatype 1168, fill 1192, layout 1216,
    # attributes 1248, 1312, 1376; data 1440. Header of /e at 1448, data 1568.
    "arrays": (two_arrays, 1576),
    # Header of /d: attributes c 1144, b 1208, a 1272, layout 1336, fill 1368, datatype 1392, dataspace 1416.
    "turned": (lambda: turned(two_arrays()), 1576),
    # Each name is that of the other array.
    "crossed": (lambda: patched(patched(two_arrays(), 816, "a805"), 856, "6804"), 1576),
    # Root at 96 with its attribute at 136; tree 200, heap 744, segment 776.
    "noted root": (lambda: image_of({}, noted(Group(), a=(1,))), 864),
    # Heap 680, segment 712 with a name and a text for each link from 8 on, symbol node 800 with entries at 808, 848, 888.
    "soft links": (lambda: image_of({"a": b"/x", "b": b"/y", "c": b"/z"}), 1128),
    # Root node 136; below it 200 over 328 and 392, and 264 over 456 and 520. Heap 584, segment 616; symbol nodes of two names each at 880, 968 and
    # so on.
    "three levels": (lambda: image_of({f"n{k:02}": b"/x" for k in range(16)}, leaf_k=1, internal_k=1), 1584),
    # Header of /d at 1128: dataspace 1144, datatype 1176, fill 1200, layout 1224. Root node 1256 over 3352 with 64 chunks and 5448 with two. Chunks
    # 7544 to 7609. Header of /e at 7610, data 7730.
    "chunks": (lambda: image_of({"d": chunks(), "e": array()}), 7738),
    # /g at 1128: tree 1168, heap 1712, symbol node 1832; /g/x 2160, data 2280. /h at 2288, /i at 2992.
    "groups": (lambda: image_of({"g": {"x": array()}, "h": {}, "i": {}}), 3696),
    # A group has 1032 bytes. The symbol node of the link with 65 names on its way stands at 66848, the group that it leads to at 67176.
    "deep": (lambda: groups_deep(65), 67880),
    "cut": (lambda: empty_image()[:95], 95),
    "cut 1": (lambda: empty_image_1()[:99], 99),
    # Header of /d at 1128: fill value of version 3 at 1192, layout 1216, attributes of version 2 at 1248 and of version 3 at 1296 and 1344; data 1392.
    "versions": (versions, 1400),
    # Behind the names the header of the array with so many links at 3357024, and that of /z at 3357147.
    "65536 names": (often_linked, 3357275),
}

# By image what is changed, in the order of the walk: the refusal of each, and its places and bytes.
ALONG_THE_WALK = {
    "empty": {
        "signature": ("1 NotHdf5 at 0", (0, "88")),
        "version of the superblock": ("3 SuperblockVersion at 8", (8, "02")),
        "version of free space": ("3 SuperblockVersion at 9", (9, "01")),
        "version of the root entry": ("3 SuperblockVersion at 10", (10, "01")),
        "version of shared headers": ("3 SuperblockVersion at 12", (12, "01")),
        "bytes of an offset": ("4 FieldSizes at 13", (13, "04")),
        "bytes of a length": ("4 FieldSizes at 14", (14, "04")),
        "base address": ("5 BaseAddress at 24", (24, "01")),
        "driver": ("6 Driver at 48", (48, "00")),
        "leaf K": ("7 KRange at 16", (16, "0000")),
        "internal K": ("7 KRange at 18", (18, "0080")),
        "end of file past the bytes": ("2 Truncated at 40", (40, "2103")),
        "header's version": ("8 HeaderVersion at 96", (96, "02")),
        "first block past the end": ("2 Truncated at 96", (104, "ffff")),
        "message's size": ("9 MessageSize at 96", (114, "0f")),
        "shared flag": ("11 SharedMessage at 96", (116, "02")),
        "message's type": ("12 UnknownMessage at 96", (112, "0f")),
        "count of messages": ("10 MessageCount at 96", (98, "02")),
        "no message": ("16 MissingMessage at 96", (112, "00")),
        "heap past the end": ("2 Truncated at 792", (128, "1803")),
        "heap's signature": ("23 HeapForm at 680", (680, "49")),
        "segment of 7 bytes": ("23 HeapForm at 680", (688, "07")),
        "segment past the end": ("2 Truncated at 776", (704, "0803")),
        "free list": ("23 HeapForm at 680", (696, "04")),
        "root node past the end": ("2 Truncated at 784", (120, "1003")),
        "node's signature": ("25 NodeForm at 136", (136, "00")),
        "neighbour": ("28 Sibling at 136", (144, "fe")),
        "key": ("24 HeapName at 680", (160, "04")),
        "reference count": ("30 LinkCount at 96", (100, "02")),
    },
    "empty 1": {
        "signature": ("1 NotHdf5 at 0", (0, "88")),
        "version of the superblock": ("3 SuperblockVersion at 8", (8, "02")),
        "version of free space": ("3 SuperblockVersion at 9", (9, "01")),
        "version of the root entry": ("3 SuperblockVersion at 10", (10, "01")),
        "version of shared headers": ("3 SuperblockVersion at 12", (12, "01")),
        "bytes of an offset": ("4 FieldSizes at 13", (13, "04")),
        "bytes of a length": ("4 FieldSizes at 14", (14, "04")),
        "base address": ("5 BaseAddress at 28", (28, "01")),
        "driver": ("6 Driver at 52", (52, "00")),
        "leaf K": ("7 KRange at 16", (16, "0000")),
        "internal K": ("7 KRange at 18", (18, "0080")),
        "chunk K": ("7 KRange at 24", (24, "0000")),
        "end of file past the limit": ("34 TooLarge at 44", (50, "01")),
        "end of file past the bytes": ("2 Truncated at 44", (44, "2503")),
        "header's version": ("8 HeaderVersion at 100", (100, "02")),
        "first block past the end": ("2 Truncated at 100", (108, "ffff")),
        "message's size": ("9 MessageSize at 100", (118, "0f")),
        "heap past the end": ("2 Truncated at 796", (132, "1c03")),
        "heap's signature": ("23 HeapForm at 684", (684, "49")),
        "root node past the end": ("2 Truncated at 788", (124, "1403")),
        "node's signature": ("25 NodeForm at 140", (140, "00")),
        "reference count": ("30 LinkCount at 100", (104, "02")),
    },
    "versions": {
        "shared flag of the last message": ("11 SharedMessage at 1128", (1348, "02")),
        "two attributes of one name": ("17 DuplicateMessage at 1128", (1361, "61")),
        "datatype": ("19 DatatypeForm at 1128", (1176, "11")),
        "fill": ("20 FillForm at 1128", (1201, "30")),
        "layout": ("21 LayoutForm at 1128", (1224, "04")),
        "flags of the second attribute": ("22 AttributeForm at 1128", (1305, "01")),
    },
    "arrays": {
        "header's prefix past the end": ("2 Truncated at 1568", (816, "2006")),
        "header's version": ("8 HeaderVersion at 1128", (1128, "02")),
        "first block past the end": ("2 Truncated at 1128", (1136, "ffff")),
        "type of the first message": ("12 UnknownMessage at 1128", (1144, "0f")),
        "size of the third message": ("9 MessageSize at 1128", (1194, "0f")),
        "shared flag of the third message": ("11 SharedMessage at 1128", (1196, "02")),
        "filters for the third message": ("13 Filtered at 1128", (1192, "0b")),
        "shared flag of the last message": ("11 SharedMessage at 1128", (1380, "02")),
        "type of the last message": ("12 UnknownMessage at 1128", (1376, "0f")),
        "further block past the end": ("2 Truncated at 1570", (1312, "10"), (1320, "22060000000000001000000000000000")),
        "count of messages": ("10 MessageCount at 1128", (1130, "08")),
        "no layout": ("16 MissingMessage at 1128", (1216, "00")),
        "two dataspaces": ("17 DuplicateMessage at 1128", (1192, "01")),
        "two attributes of one name": ("17 DuplicateMessage at 1128", (1392, "61")),
        "dataspace": ("18 DataspaceForm at 1128", (1152, "02")),
        "cells": ("34 TooLarge at 1128", (1160, MANY)),
        "datatype": ("19 DatatypeForm at 1128", (1176, "11")),
        "fill": ("20 FillForm at 1128", (1200, "04")),
        "layout": ("21 LayoutForm at 1128", (1224, "04")),
        "second attribute": ("22 AttributeForm at 1128", (1320, "04")),
        "data past the end": ("2 Truncated at 1572", (1226, "2406")),
        "version of the second array's header": ("8 HeaderVersion at 1448", (1448, "02")),
        "data of the second array": ("32 Overlap at 1440", (1546, "a005")),
        "reference count of the root": ("30 LinkCount at 96", (100, "02")),
        "reference count of the first array": ("30 LinkCount at 1128", (1132, "02")),
        "reference count of the second array": ("30 LinkCount at 1448", (1452, "00")),
    },
    "turned": {
        "dataspace": ("18 DataspaceForm at 1128", (1424, "02")),
        "datatype": ("19 DatatypeForm at 1128", (1400, "11")),
        "fill": ("20 FillForm at 1128", (1376, "04")),
        "layout": ("21 LayoutForm at 1128", (1344, "04")),
        "attribute that stands first": ("22 AttributeForm at 1128", (1152, "04")),
        "cells of the attribute that stands last": ("34 TooLarge at 1128", (1328, MANY)),
    },
    "crossed": {
        "version of the header of /d": ("8 HeaderVersion at 1448", (1448, "02")),
        "version of the header of /e": ("8 HeaderVersion at 1128", (1128, "02")),
        "reference count of the root": ("30 LinkCount at 96", (100, "02")),
        "reference count of /d": ("30 LinkCount at 1448", (1452, "02")),
        "reference count of /e": ("30 LinkCount at 1128", (1132, "02")),
    },
    "noted root": {
        "attribute of unknown type": ("12 UnknownMessage at 96", (136, "0f")),
        "a dataset's message in a group": ("17 DuplicateMessage at 96", (136, "01")),
        "attribute": ("22 AttributeForm at 96", (144, "04")),
        "short symbol table": ("23 HeapForm at 96", (98, "03"), (114, "08"), (128, "00" * 8)),
        "heap's signature": ("23 HeapForm at 744", (744, "49")),
        "node's signature": ("25 NodeForm at 200", (200, "00")),
    },
    "soft links": {
        "segment past the end": ("2 Truncated at 1072", (704, "3004")),
        "free list": ("23 HeapForm at 680", (696, "04")),
        "node's form": ("25 NodeForm at 136", (140, "01")),
        "symbol node past the end": ("2 Truncated at 1120", (168, "6004")),
        "type of the last entry": ("25 NodeForm at 800", (904, "03")),
        "neighbour": ("28 Sibling at 136", (152, "fe")),
        "first name": ("24 HeapName at 680", (808, "04")),
        "first name is a dot": ("35 BadName at 680", (720, "2e")),
        "first text": ("24 HeapName at 680", (832, "14")),
        "second name is a slash": ("35 BadName at 680", (736, "2f")),
        "one text for two links": ("24 HeapName at 680", (912, "20")),
        "names do not ascend": ("26 NameOrder at 800", (736, "64")),
        "key below a name": ("27 KeyOrder at 136", (176, "18")),
        "reference count": ("30 LinkCount at 96", (100, "02")),
    },
    "three levels": {
        "root node's level": ("25 NodeForm at 136", (141, "10")),
        "first symbol node": ("25 NodeForm at 880", (880, "00")),
        "second symbol node past the end": ("2 Truncated at 1500", (376, "dc05")),
        "second node of level 0": ("25 NodeForm at 392", (392, "00")),
        "third symbol node": ("25 NodeForm at 1056", (1056, "00")),
        "second node of level 1": ("25 NodeForm at 264", (264, "00")),
        "third node of level 0": ("25 NodeForm at 456", (461, "01")),
        "fifth symbol node": ("25 NodeForm at 1232", (1238, "03")),
        "neighbour of the root node": ("28 Sibling at 136", (144, "fe")),
        "neighbour of the second node of level 1": ("28 Sibling at 264", (272, "c9")),
        "neighbour of the first node of level 0": ("28 Sibling at 328", (344, "89")),
        "neighbour of the last node of level 0": ("28 Sibling at 520", (528, "c9")),
        "first name": ("24 HeapName at 584", (888, "04")),
        "second name is empty": ("35 BadName at 584", (640, "000000")),
        "third name": ("24 HeapName at 584", (976, "2c")),
        "key of the root node": ("24 HeapName at 584", (160, "04")),
        "fourth name as the third": ("26 NameOrder at 968", (674, "32")),
        "last name as the one before": ("26 NameOrder at 1496", (866, "34")),
        "key of the root node below a name": ("27 KeyOrder at 136", (176, "68")),
        "key of the first node of level 1": ("27 KeyOrder at 200", (240, "28")),
        "key of the first node of level 0": ("27 KeyOrder at 328", (368, "08")),
        "key of the second node of level 0": ("27 KeyOrder at 392", (432, "48")),
        "key of the second node of level 1": ("27 KeyOrder at 264", (304, "a8")),
        "reference count": ("30 LinkCount at 96", (100, "02")),
    },
    "chunks": {
        "layout": ("21 LayoutForm at 1128", (1232, "04")),
        "root node past the end": ("2 Truncated at 7700", (1235, "141e")),
        "root node's type": ("25 NodeForm at 1256", (1260, "00")),
        "signature of the first node": ("25 NodeForm at 3352", (3352, "00")),
        "mask of the first chunk": ("29 ChunkKey at 3352", (3380, "01")),
        "first chunk past the end": ("2 Truncated at 7738", (3400, "3a1e")),
        "second chunk on the first": ("32 Overlap at 7544", (3432, "781d")),
        "last offset of the third chunk": ("29 ChunkKey at 3352", (3456, "01")),
        "third chunk past the end": ("2 Truncated at 7740", (3464, "3c1e")),
        "level of the second node": ("25 NodeForm at 5448", (5453, "01")),
        "size of its last chunk": ("29 ChunkKey at 5448", (5504, "02")),
        "its last chunk on the header": ("32 Overlap at 1128", (5528, "6804")),
        "neighbour of the root node": ("28 Sibling at 1256", (1264, "fe")),
        "neighbour of the first node": ("28 Sibling at 3352", (3368, "49")),
        "neighbour of the second node": ("28 Sibling at 5448", (5456, "19")),
        "fifth chunk where the fourth is": ("27 KeyOrder at 3352", (3512, "03")),
        "last chunk where the one before is": ("27 KeyOrder at 5448", (5512, "40")),
        "key of the root node not above a chunk": ("27 KeyOrder at 1256", (1320, "3f")),
        "last key not above the last chunk": ("27 KeyOrder at 5448", (5544, "41")),
        "version of the second array's header": ("8 HeaderVersion at 7610", (7610, "02")),
        "reference count of the first array": ("30 LinkCount at 1128", (1132, "02")),
    },
    "groups": {
        "key of the root": ("27 KeyOrder at 136", (176, "08")),
        "version of the first group's header": ("8 HeaderVersion at 1128", (1128, "02")),
        "its heap": ("23 HeapForm at 1712", (1712, "49")),
        "its neighbour": ("28 Sibling at 1168", (1176, "fe")),
        "its link to the root": ("31 GroupLinkedTwice at 96", (1848, "6000")),
        "version of its array's header": ("8 HeaderVersion at 2160", (2160, "02")),
        "data of its array past the end": ("2 Truncated at 3692", (2258, "6c0e")),
        "second link to the first group": ("31 GroupLinkedTwice at 1128", (856, "6804")),
        "version of the second group's header": ("8 HeaderVersion at 2288", (2288, "02")),
        "node of the second group": ("25 NodeForm at 2328", (2328, "00")),
        "third link to the first group": ("31 GroupLinkedTwice at 1128", (896, "6804")),
        "version of the third group's header": ("8 HeaderVersion at 2992", (2992, "02")),
        "reference count of the root": ("30 LinkCount at 96", (100, "02")),
        "reference count of the first group": ("30 LinkCount at 1128", (1132, "02")),
        "reference count of its array": ("30 LinkCount at 2160", (2164, "02")),
        "reference count of the second group": ("30 LinkCount at 2288", (2292, "02")),
    },
}

# What breaks two rules at one place: the image, the refusal, and places and bytes. The rule that is broken too stands behind.
AT_ONE_PLACE = {
    "fewer bytes than a signature and a superblock": ("cut", "1 NotHdf5 at 0", (0, "88")),  # Truncated
    "fewer bytes than a superblock of another version": ("cut", "2 Truncated at 0", (8, "02")),  # SuperblockVersion
    "fewer bytes than a superblock of version 1": ("cut 1", "2 Truncated at 0", (9, "01")),  # SuperblockVersion
    "the same without a signature": ("cut 1", "1 NotHdf5 at 0", (0, "88")),  # Truncated
    "attribute of version 3 with flags, which give it no name": ("versions", "22 AttributeForm at 1128", (1305, "01"), (1313, "61")),  # DuplicateMessage
    "header's prefix past the end, of another version": ("empty", "2 Truncated at 792", (64, "1803")),  # HeaderVersion
    "header on a symbol node, without messages": ("arrays", "32 Overlap at 804", (816, "2403")),  # MessageCount
    "a datatype for the dataspace": ("arrays", "16 MissingMessage at 1128", (1144, "03")),  # DuplicateMessage
    "attribute of a form that gives it no name": ("arrays", "22 AttributeForm at 1128", (1392, "61"), (1384, "04")),  # DuplicateMessage
    "attribute without room for too many cells": ("arrays", "22 AttributeForm at 1128", (1360, MANY)),  # TooLarge
    "maximum below too many cells": ("chunks", "18 DataspaceForm at 1128", (1160, MANY), (1168, "01" + "00" * 7)),  # TooLarge
    "heap on the root's header": ("empty", "32 Overlap at 96", (128, "6000")),  # HeapForm
    "root node on the root's header": ("empty", "32 Overlap at 128", (120, "8000")),  # NodeForm
    "symbol node on the root node": ("soft links", "32 Overlap at 136", (168, "8800")),  # NodeForm
    "root node of chunks on a header": ("chunks", "32 Overlap at 1128", (1235, "6804")),  # NodeForm
    "deep link to a header of another version": ("deep", "33 TooDeep at 66848", (67176, "02")),  # HeaderVersion
    "deep link to the root": ("deep", "33 TooDeep at 66848", (66864, "600000")),  # GroupLinkedTwice
    "many links to a header of another version": ("65536 names", "8 HeaderVersion at 3357024", (3357024, "02")),  # TooLarge
    "many links that are not counted": ("65536 names", "34 TooLarge at 3357024", (3357028, "00")),  # LinkCount
    "many links before one to a header of another version": ("65536 names", "34 TooLarge at 3357024", (3357147, "02")),  # HeaderVersion
}


@functools.cache
def image_named(name):
    """The bytes of an image."""
    return IMAGES[name][0]()


def changed(image, changes):
    """The image with places and bytes written."""
    return functools.reduce(lambda before, change: patched(before, *change), changes, image)


def bytes_of(changes):
    """The places of all bytes that are written."""
    return {at + k for at, digits in changes for k in range(len(digits) // 2)}


def pairs_of(faults):
    """Of each two faults that change no byte both: their names, the refusal of the first, and the changes of both."""
    for (first, (refusal, *changes)), (second, (_, *more)) in combinations(faults.items(), 2):
        if bytes_of(changes).isdisjoint(bytes_of(more)):
            yield (first, second), refusal, changes + more


class FirstFault(InFolder):
    """Images with one fault, and with two."""

    def refusals(self, image):
        """What the program and the reference say of an image that is refused."""
        path = self.written(f"{threading.get_ident()}.h5", image)
        return h5i("ls", path), today.opened(image)

    def assert_refused(self, rows):
        """The program and the reference refuse each image so: of each row its names, the refusal, and the image with its changes."""
        rows = [(names, refusal, changed(image_named(names[0]), changes)) for names, refusal, changes in rows]
        with ThreadPoolExecutor(AT_ONCE) as pool:
            for (names, refusal, _), found in zip(rows, pool.map(self.refusals, (image for _, _, image in rows))):
                with self.subTest(names=names):
                    self.assertEqual(found, ((3, b"", f"h5i: refused {refusal}\n".encode()), (None, refusal)))

    def test_the_images(self):
        for name, (_, length) in IMAGES.items():
            with self.subTest(image=name):
                self.assertEqual(len(image_named(name)), length)
                if name in ALONG_THE_WALK:
                    self.assertIsNone(today.opened(image_named(name))[1])

    def test_one_fault(self):
        for name, faults in ALONG_THE_WALK.items():
            self.assert_refused(((name, fault), refusal, changes) for fault, (refusal, *changes) in faults.items())

    def test_the_earlier_of_two(self):
        for name, faults in ALONG_THE_WALK.items():
            self.assert_refused(((name, *pair), refusal, changes) for pair, refusal, changes in pairs_of(faults))

    def test_two_at_one_place(self):
        self.assert_refused(((name, fault), refusal, changes) for fault, (name, refusal, *changes) in AT_ONE_PLACE.items())
