"""The calls of libh5i (bindings/c/h5i.h) by ctypes, and what their statuses mean."""

from __future__ import annotations

import ctypes as c
import os
from pathlib import Path

import numpy as np

__all__ = ["About", "NotAFile", "Refused", "Type", "check", "library", "type_of", "dtype_of"]

# The refusals of edits, paths and selections by their numbers, from 1 on, and the faults of views, from 201 on. No refusal has number 11.
RULES = (
    "BadPath PathTooDeep IsRoot NoSuchParent NotAGroup NotFound AlreadyThere NameTooLong NotADataset GroupLink - "
    "BadSpec RankMismatch StrideZero BlocksOverlap OutOfExtent NotChunked AboveMaximum ChunkTooLarge CompactTooLarge "
    "TooManyCells ValueCount ValueRange AttributeTooLarge NoSuchAttribute TooManyLinks TooManyObjects HeaderFull "
    "TreeTooDeep ImageFull NoMemory"
).split()
# The causes for which bytes are no file, by their numbers, from 301 on.
CAUSES = (
    "NotHdf5 Truncated SuperblockVersion FieldSizes BaseAddress Driver KRange HeaderVersion MessageSize MessageCount "
    "SharedMessage UnknownMessage Filtered ExternalFiles NewStyleGroup MissingMessage DuplicateMessage DataspaceForm "
    "DatatypeForm FillForm LayoutForm AttributeForm HeapForm HeapName NodeForm NameOrder KeyOrder Sibling ChunkKey LinkCount "
    "GroupLinkedTwice Overlap TooDeep TooLarge BadName NoMemory"
).split()
CALLS = {100: "WrongState", 101: "WrongRoom", 102: "NoSuchType", 103: "ScriptTooLong", 104: "NotASoftLink"}
VIEWS = {201: "NoSuchView", 202: "Gone", 203: "OutsideNow", 204: "TooManyViews"}
NO_MEMORY = 31
CAUSE = 300
UNLIMITED = 2**64 - 1
GROUP, ARRAY, SOFT_LINK = 1, 2, 3
COMPACT, CONTIGUOUS, CHUNKED = 1, 2, 3


class Session(c.Structure):
    """A session's place. All zeros are a closed one."""

    _fields_ = [("is_open", c.c_bool), ("at", c.c_void_p)]


class Type(c.Structure):
    """A type of whole numbers."""

    _fields_ = [("size", c.c_uint8), ("is_signed", c.c_bool), ("is_big", c.c_bool)]


class About(c.Structure):
    """What stands at a path."""

    _fields_ = [
        ("kind", c.c_uint32),
        ("storage", c.c_uint32),
        ("rank", c.c_uint32),
        ("type", Type),
        ("fill", c.c_uint8 * 8),
        ("dims", c.c_uint64 * 32),
        ("maxima", c.c_uint64 * 32),
        ("chunks", c.c_uint64 * 32),
    ]


class Refused(ValueError):
    """The library refuses a call, by the name of the rule. Nothing has changed."""

    def __init__(self, rule: str, what: str) -> None:
        super().__init__(f"{rule}: {what}" if what else rule)
        self.rule = rule


class NotAFile(OSError):
    """Bytes are no file that the library reads, by the name of the cause (docs/FORMAT.md)."""

    def __init__(self, rule: str, what: str) -> None:
        super().__init__(f"{rule}: {what}")
        self.rule = rule


class NotFound(Refused, KeyError):
    """Nothing of this name is there."""

    __str__ = ValueError.__str__


def _load() -> c.CDLL:
    """The library that H5I_LIBRARY names, else the one beside this file, else the system's."""
    beside = Path(__file__).with_name("libh5i.so")
    return c.CDLL(os.environ.get("H5I_LIBRARY") or (str(beside) if beside.exists() else "libh5i.so"))


library = _load()

_SESSION, _SIZE, _STATUS, _ROOM = c.POINTER(Session), c.c_size_t, c.c_uint32, c.c_void_p
_TEXT = [c.c_char_p, _SIZE]
_BYTES = [c.c_void_p, _SIZE]
_LIST = [c.c_void_p, _SIZE]
_SLAB = _LIST * 4
for _name, _arguments, _result in (
    ("create", [], _STATUS),
    ("open", [*_BYTES, c.POINTER(c.c_uint64)], _STATUS),
    ("close", [], None),
    ("image_length", [], _SIZE),
    ("image", [_ROOM, _SIZE], _STATUS),
    ("run", [*_TEXT], _STATUS),
    ("text_length", [], _SIZE),
    ("text", [_ROOM, _SIZE], _STATUS),
    ("stat", [*_TEXT, c.POINTER(About)], _STATUS),
    ("number", [*_TEXT, c.POINTER(c.c_uint32)], _STATUS),
    ("list", [*_TEXT], _STATUS),
    ("link_text", [*_TEXT], _STATUS),
    ("attributes", [*_TEXT], _STATUS),
    ("attribute", [*_TEXT, *_TEXT, c.POINTER(About)], _STATUS),
    ("attribute_values", [*_TEXT, *_TEXT, _ROOM, _SIZE], _STATUS),
    ("read", [*_TEXT, *_SLAB, _ROOM, _SIZE], _STATUS),
    ("create_group", [*_TEXT], _STATUS),
    ("create_array", [*_TEXT, Type, *_LIST, *_LIST, c.c_uint32, *_LIST, *_BYTES], _STATUS),
    ("hard_link", [*_TEXT, *_TEXT], _STATUS),
    ("soft_link", [*_TEXT, *_TEXT], _STATUS),
    ("unlink", [*_TEXT], _STATUS),
    ("set_attribute", [*_TEXT, *_TEXT, Type, *_LIST, *_BYTES], _STATUS),
    ("remove_attribute", [*_TEXT, *_TEXT], _STATUS),
    ("write", [*_TEXT, *_SLAB, Type, *_BYTES], _STATUS),
    ("resize", [*_TEXT, *_LIST], _STATUS),
    ("repack", [], _STATUS),
    ("open_view", [*_TEXT, *_SLAB, c.POINTER(c.c_uint32)], _STATUS),
    ("shown_length", [c.c_uint32, c.POINTER(_SIZE)], _STATUS),
    ("show", [c.c_uint32, _ROOM, _SIZE], _STATUS),
    ("close_view", [c.c_uint32], _STATUS),
):
    _call = getattr(library, "h5i_" + _name)
    _call.argtypes, _call.restype = [_SESSION, *_arguments], _result


def check(status: int, what: bytes | str = "") -> None:
    """Raises what a status means, if it is not 'done'."""
    if status == 0:
        return
    if status == NO_MEMORY:
        raise MemoryError("libh5i: memory was refused")
    text = what.decode(errors="backslashreplace") if isinstance(what, bytes) else what
    if status <= len(RULES):
        rule = RULES[status - 1]
        if rule in ("NotFound", "NoSuchParent", "NoSuchAttribute"):
            raise NotFound(rule, text)
        raise Refused(rule, text)
    if status > CAUSE:
        raise NotAFile(CAUSES[status - CAUSE - 1], text)
    rule = CALLS.get(status) or VIEWS.get(status) or f"status {status}"
    if rule == "WrongState":
        raise ValueError("the file is closed")
    raise Refused(rule, text)


def type_of(dtype: np.dtype) -> Type:
    """The library's type of a numpy type of whole numbers."""
    if dtype.kind not in "iu" or dtype.itemsize not in (1, 2, 4, 8):
        raise TypeError(f"whole numbers of 1, 2, 4 or 8 bytes, and not {dtype}")
    return Type(dtype.itemsize, dtype.kind == "i", dtype.itemsize > 1 and dtype.str[0] == ">")


def dtype_of(of: Type) -> np.dtype:
    """The numpy type of one of the library's."""
    return np.dtype(f"{'>' if of.is_big else '<'}{'i' if of.is_signed else 'u'}{of.size}")
