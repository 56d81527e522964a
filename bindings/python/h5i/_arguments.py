"""What callers give, as the library takes it: names, paths, lists and values."""

from __future__ import annotations

import numbers
import operator
from array import array
from typing import Any

import numpy as np
import numpy.typing as npt

from ._library import Refused, type_of

__all__ = ["as_bytes", "as_list", "as_sizes", "as_text", "below", "guessed_chunks", "whole"]

# As many bytes as a chunk has at most, where its sizes are not given.
MOST_GUESSED = 1 << 16


def as_bytes(name: str | bytes) -> bytes:
    """A name as its bytes. Bytes that are no text are those of os.fsdecode."""
    return name if isinstance(name, bytes) else name.encode("utf-8", "surrogateescape")


def as_text(name: bytes) -> str:
    """Bytes as a name."""
    return name.decode("utf-8", "surrogateescape")


def below(path: bytes, name: str | bytes) -> bytes:
    """The path of a name below a group; a name that begins with '/' is a path of its own, as in h5py."""
    name = as_bytes(name).rstrip(b"/")
    if name.startswith(b"/") or not name:
        return name or b"/"
    return path.rstrip(b"/") + b"/" + name


def as_sizes(sizes: Any) -> tuple[Any, ...]:
    """Sizes as a tuple; a number is the size of one dimension."""
    return (operator.index(sizes),) if isinstance(sizes, numbers.Integral) else tuple(sizes)


def as_list(items: Any, code: str = "Q") -> tuple[array, int, int]:
    """Numbers as a list of the library's, of 8 bytes each, or of 4 with the code 'I': what keeps them, their address and how many they are."""
    try:
        kept = array(code, items)
    except OverflowError:
        most = 2 ** (8 * array(code).itemsize) - 1
        raise ValueError(f"a size is a number from 0 to {most}, and not one of {list(items)}") from None
    return kept, *kept.buffer_info()


def whole(data: npt.ArrayLike, dtype: npt.DTypeLike | None) -> np.ndarray:
    """Data as an array of whole numbers; a value that is none of the type is refused, and not wrapped."""
    given = np.asarray(data)
    if given.dtype.kind == "b" or (given.size == 0 and given.dtype.kind == "f"):
        given = given.astype(np.int8)
    if given.dtype.kind == "O" and all(isinstance(value, numbers.Integral) for value in given.flat):
        raise Refused("ValueRange", "a value is one of no type of at most 8 bytes")
    if given.dtype.kind not in "iu":
        raise TypeError(f"whole numbers, and not {given.dtype}")
    if dtype is None or np.dtype(dtype) == given.dtype:
        return given
    type_of(np.dtype(dtype))
    made = given.astype(dtype)
    if not np.array_equal(made, given):
        raise Refused("ValueRange", f"a value is not one of {np.dtype(dtype)}")
    return made


def guessed_chunks(shape: tuple[int, ...], limits: tuple[int | None, ...], size: int) -> tuple[int, ...]:
    """Sizes of a chunk of at most 64 KB for an array of values of so many bytes, none above what the array may have."""
    sizes = [min(max(n, 1024 if most is None else 1), most or 1 << 20) for n, most in zip(shape, limits)]
    while size * int(np.prod(sizes, dtype=object)) > MOST_GUESSED:
        longest = sizes.index(max(sizes))
        sizes[longest] = (sizes[longest] + 1) // 2
    return tuple(sizes)
