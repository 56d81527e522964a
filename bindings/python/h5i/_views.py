"""Live views."""

from __future__ import annotations

import ctypes as c
from collections.abc import Iterator
from typing import TYPE_CHECKING, Any

import numpy as np
import numpy.typing as npt

from ._library import library
from ._selection import Index, Selection

if TYPE_CHECKING:
    from ._objects import Dataset

__all__ = ["View", "Viewer"]


class Viewer:
    """What `dataset.view` is: an index of it opens a view."""

    def __init__(self, of: Dataset) -> None:
        self._of = of

    def __getitem__(self, key: Index) -> View:
        return View(self._of, key)


class View:
    """Selected cells of an array as each edit leaves them. `view[...]` reads them.

    It stays with the array, whatever becomes of its path. It shows nothing (`Refused`) while one of its cells is outside the array, and
    once the array was deleted. `close`, the end of a `with`, or the end of the object itself gives its memory back.
    """

    _is_open = False

    def __init__(self, of: Dataset, key: Index) -> None:
        selected = Selection(key, of.shape)
        self._file, self.shape, self.dtype = of._file, selected.shape, of.dtype
        number = c.c_uint32()
        self._file._do(library.h5i_open_view, of._path, len(of._path), *selected.arguments(), number)
        self.number, self._is_open = number.value, True

    @property
    def ndim(self) -> int:
        """How many dimensions there are."""
        return len(self.shape)

    @property
    def size(self) -> int:
        """How many cells there are."""
        return int(np.prod(self.shape, dtype=object))

    def __len__(self) -> int:
        if not self.shape:
            raise TypeError("a scalar has no length")
        return self.shape[0]

    def __getitem__(self, key: Any) -> Any:
        return self.__array__()[key]

    def __iter__(self) -> Iterator[Any]:
        """What it shows now, by the first dimension."""
        return iter(self.__array__())

    def __array__(self, dtype: npt.DTypeLike | None = None, copy: bool | None = None) -> np.ndarray:
        if copy is False:
            raise ValueError("the cells are copied out of the file")
        room = np.empty(self.shape, self.dtype)
        self._file._do(library.h5i_show, self.number, room.ctypes.data, room.nbytes)
        return room if dtype is None else room.astype(dtype, copy=False)

    def close(self) -> None:
        """Closes the view. A closed view stays closed, and shows nothing."""
        if self._is_open:
            self._is_open = False
            if self._file:
                self._file._do(library.h5i_close_view, self.number)

    def __del__(self) -> None:
        self.close()

    def __enter__(self) -> View:
        return self

    def __exit__(self, *_: object) -> None:
        self.close()

    def __bool__(self) -> bool:
        return self._is_open and bool(self._file)

    def __repr__(self) -> str:
        return f"<h5i view of shape {self.shape}, type {self.dtype.str!r}>" if self else "<closed h5i view>"
