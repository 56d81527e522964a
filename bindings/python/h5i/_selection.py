"""numpy's basic indexing as the four lists of a hyperslab."""

from __future__ import annotations

import operator
from array import array
from types import EllipsisType

import numpy as np

__all__ = ["Index", "Selection"]

Index = int | slice | EllipsisType | tuple["int | slice | EllipsisType", ...]


class Selection:
    """What an index selects of an array of these sizes.

    `shape` is the shape of what is selected, in which an axis of an integer is left out. `lists` has start, stride,
    count and block, one behind another, in the memory that the library reads them from.
    """

    __slots__ = ("lists", "shape")

    def __init__(self, key: Index, sizes: tuple[int, ...]) -> None:
        parts = key if isinstance(key, tuple) else (key,)
        wide = [at for at, part in enumerate(parts) if part is Ellipsis]
        if len(wide) > 1:
            raise IndexError("an index has one '...' at most")
        missing = len(sizes) - (len(parts) - len(wide))
        if missing < 0:
            raise IndexError(f"an index of {len(parts) - len(wide)} axes, and the array has {len(sizes)}")
        at = wide[0] if wide else len(parts)
        parts = parts[:at] + (slice(None),) * missing + parts[at + 1 :]
        starts, strides, counts, shape = [], [], [], []
        for part, size in zip(parts, sizes):
            if isinstance(part, slice):
                start, stop, step = part.indices(size)
                if step < 1:
                    raise IndexError("a step is 1 at least")
                count = len(range(start, stop, step))
                shape.append(count)
                starts.append(start if count else 0)
                # Without a second place no step is taken, and one of any length is allowed.
                strides.append(step if count > 1 else 1)
                counts.append(count)
            else:
                if isinstance(part, (bool, np.bool_)) or not hasattr(part, "__index__"):
                    raise TypeError(f"an index has integers, slices and '...', and not {part!r}")
                place = operator.index(part)
                if not -size <= place < size:
                    raise IndexError(f"{place} is outside an axis of {size}")
                starts.append(place % size)
                strides.append(1)
                counts.append(1)
        self.lists = array("Q", [*starts, *strides, *counts, *[1] * len(sizes)])
        self.shape = tuple(shape)

    def arguments(self) -> tuple[int, ...]:
        """The four lists, as addresses and lengths."""
        first, count = self.lists.buffer_info()
        rank, step = count // 4, self.lists.itemsize * (count // 4)
        return first, rank, first + step, rank, first + 2 * step, rank, first + 3 * step, rank
