"""Groups, datasets and attributes."""

from __future__ import annotations

import ctypes as c
from collections.abc import Callable, Iterator, MutableMapping
from typing import TYPE_CHECKING, Any

import numpy as np
import numpy.typing as npt

from . import _library
from ._arguments import as_bytes, as_list, as_sizes, as_text, below, guessed_chunks, whole
from ._library import About, Refused, dtype_of, library, type_of
from ._selection import Index, Selection
from ._views import Viewer

if TYPE_CHECKING:
    from ._file import File

__all__ = ["AttributeManager", "Dataset", "Group", "SoftLink"]


class _Object:
    """What stands at a path of a file. It goes by the path, and not by what has stood there."""

    def __init__(self, file: File, path: bytes) -> None:
        self._file, self._path = file, path

    @property
    def file(self) -> File:
        """The file."""
        return self._file

    @property
    def name(self) -> str:
        """The path."""
        return as_text(self._path)

    @property
    def parent(self) -> Group:
        """The group in which the last name of the path stands; of the root the root."""
        return Group(self._file, self._path.rpartition(b"/")[0] or b"/")

    def __eq__(self, other: object) -> bool:
        return isinstance(other, _Object) and self._file is other._file and self._number() == other._number()

    def __hash__(self) -> int:
        return hash((id(self._file), self._number()))

    def __bool__(self) -> bool:
        """Whether the file is open."""
        return bool(self._file)

    def _number(self) -> int:
        number = c.c_uint32()
        self._file._do(library.h5i_number, self._path, len(self._path), number)
        return number.value

    @property
    def attrs(self) -> AttributeManager:
        """The attributes."""
        return AttributeManager(self._file, self._path)

    def _told(self) -> str:
        raise NotImplementedError

    def __repr__(self) -> str:
        kind = type(self).__name__.lower()
        if not self:
            return f"<closed h5i {kind}>"
        try:
            return f"<h5i {kind} {self.name!r} {self._told()}>"
        except Refused as refused:
            return f"<h5i {kind} {self.name!r}, which is not there ({refused.rule})>"


class SoftLink:
    """A soft link: a name with a path, which is never followed."""

    def __init__(self, path: str) -> None:
        self.path = path

    def __eq__(self, other: object) -> bool:
        return isinstance(other, SoftLink) and self.path == other.path

    def __hash__(self) -> int:
        return hash(self.path)

    def __repr__(self) -> str:
        return f"<h5i soft link to {self.path!r}>"


class AttributeManager(MutableMapping[str, Any]):
    """The attributes of an object: arrays of whole numbers by their names."""

    def __init__(self, file: File, path: bytes) -> None:
        self._file, self._path = file, path

    def _about(self, word: bytes) -> About:
        about = About()
        self._file._do(library.h5i_attribute, self._path, len(self._path), word, len(word), about)
        return about

    def __getitem__(self, name: str | bytes) -> Any:
        word = as_bytes(name)
        about = self._about(word)
        room = np.empty(about.dims[: about.rank], dtype_of(about.type))
        where = (self._path, len(self._path), word, len(word), room.ctypes.data, room.nbytes)
        self._file._do(library.h5i_attribute_values, *where)
        return room[()]

    def __setitem__(self, name: str | bytes, values: npt.ArrayLike) -> None:
        self.create(name, values)

    def create(
        self, name: str | bytes, data: npt.ArrayLike, shape: int | tuple[int, ...] | None = None, dtype: npt.DTypeLike | None = None
    ) -> None:
        """Sets an attribute, of the type and sizes of the data or of others, in place of one with the same name."""
        word, array = as_bytes(name), whole(data, dtype)
        array = np.ascontiguousarray(array).reshape(np.shape(data) if shape is None else as_sizes(shape))
        dims, at, rank = as_list(array.shape)
        where = (self._path, len(self._path), word, len(word))
        self._file._edit(library.h5i_set_attribute, *where, type_of(array.dtype), at, rank, array.ctypes.data, array.nbytes)

    def modify(self, name: str | bytes, value: npt.ArrayLike) -> None:
        """Sets an attribute to a value, in the type that it has if it is there."""
        self.create(name, value, dtype=dtype_of(self._about(as_bytes(name)).type) if name in self else None)

    def __delitem__(self, name: str | bytes) -> None:
        word = as_bytes(name)
        self._file._edit(library.h5i_remove_attribute, self._path, len(self._path), word, len(word))

    def __iter__(self) -> Iterator[str]:
        return iter([as_text(name) for name in self._file._names(library.h5i_attributes, self._path)])

    def __len__(self) -> int:
        return len(self._file._names(library.h5i_attributes, self._path))

    def __contains__(self, name: object) -> bool:
        return isinstance(name, (str, bytes)) and as_bytes(name) in self._file._names(library.h5i_attributes, self._path)

    def __repr__(self) -> str:
        return f"<h5i attributes of {as_text(self._path)!r}>" if self._file else "<closed h5i attributes>"


class Group(_Object, MutableMapping[str, Any]):
    """A group: groups, datasets and soft links by their names, in ascending order of their bytes."""

    def __getitem__(self, name: str | bytes) -> Group | Dataset | SoftLink:
        return self._file._at(below(self._path, name))

    def get(self, name: str | bytes, default: Any = None) -> Any:
        """What stands there, or the default where nothing does."""
        return self[name] if name in self else default

    def __setitem__(self, name: str | bytes, what: Dataset | SoftLink | npt.ArrayLike) -> None:
        """Makes a soft link, a second name of a dataset of this file, or a new dataset with these values."""
        path = below(self._path, name)
        if isinstance(what, SoftLink):
            text = as_bytes(what.path)
            self._file._edit(library.h5i_soft_link, text, len(text), path, len(path))
        elif isinstance(what, _Object):
            if what._file is not self._file:
                raise ValueError(f"{what.name!r} stands in another file; its values are {what.name!r}[...]")
            self._file._edit(library.h5i_hard_link, what._path, len(what._path), path, len(path))
        else:
            self.create_dataset(name, data=what)

    def __delitem__(self, name: str | bytes) -> None:
        """Takes the name away; of a group all that it holds. A dataset goes with its last name, and the views of it end then."""
        path = below(self._path, name)
        self._file._edit(library.h5i_unlink, path, len(path))

    def __contains__(self, name: object) -> bool:
        if not isinstance(name, (str, bytes)):
            return False
        try:
            self._file._stat(below(self._path, name))
        except Refused:
            return False
        return True

    def __iter__(self) -> Iterator[str]:
        return iter([as_text(name) for name in self._file._names(library.h5i_list, self._path)])

    def __len__(self) -> int:
        return len(self._file._names(library.h5i_list, self._path))

    def visititems(self, call: Callable[[str, Group | Dataset], Any]) -> Any:
        """Calls with the name and the object for all that stands below, each object once, until a call answers other than None."""
        seen, left = {self._number()}, [(name, self) for name in reversed(list(self))]
        while left:
            name, group = left.pop()
            found = group[name.rpartition("/")[2]]
            if isinstance(found, SoftLink) or found._number() in seen:
                continue
            seen.add(found._number())
            answer = call(name, found)
            if answer is not None:
                return answer
            if isinstance(found, Group):
                left += [(f"{name}/{inner}", found) for inner in reversed(list(found))]
        return None

    def visit(self, call: Callable[[str], Any]) -> Any:
        """As `visititems`, with the name alone."""
        return self.visititems(lambda name, _: call(name))

    def create_group(self, name: str | bytes) -> Group:
        """Creates an empty group, and the groups above it that are missing."""
        path = below(self._path, name)
        with self._file._parents(path):
            self._file._edit(library.h5i_create_group, path, len(path))
        return Group(self._file, path)

    def require_group(self, name: str | bytes) -> Group:
        """The group of this name, which is created if nothing is there."""
        found = self[name] if name in self else self.create_group(name)
        if not isinstance(found, Group):
            raise TypeError(f"{name!r} is no group")
        return found

    def create_dataset(
        self,
        name: str | bytes,
        shape: int | tuple[int, ...] | None = None,
        dtype: npt.DTypeLike | None = None,
        data: npt.ArrayLike | None = None,
        chunks: int | tuple[int, ...] | bool | None = None,
        maxshape: int | tuple[int | None, ...] | None = None,
        fillvalue: int | None = None,
        compact: bool = False,
    ) -> Dataset:
        """Creates an array, with the groups above it that are missing.

        Its type is `dtype`, or that of the data, or int32. It is in chunks where `chunks` has their sizes or is true, or where it may grow
        (`maxshape`, in which None is unlimited); in its header where it is `compact`; else in one block. Where no data are given, each cell
        is `fillvalue`, or 0.
        """
        values = None if data is None else whole(data, dtype)
        if values is None and shape is None:
            raise TypeError("a shape or data is needed")
        shape = as_sizes(values.shape if shape is None else shape)  # type: ignore[union-attr]
        if values is not None and values.shape != shape:
            values = values.reshape(shape)
        kind = np.dtype(dtype if dtype is not None else np.int32 if values is None else values.dtype)
        limits = shape if maxshape is None else as_sizes(maxshape)
        storage, sizes = _library.COMPACT if compact else _library.CONTIGUOUS, ()
        if limits != shape or (chunks is not None and chunks is not False):
            if compact or chunks is False:
                raise ValueError("an array that may grow is in chunks, and one in chunks is not compact")
            storage = _library.CHUNKED
            sizes = guessed_chunks(shape, limits, kind.itemsize) if chunks is None or chunks is True else as_sizes(chunks)
        made = self._created(below(self._path, name), kind, shape, limits, storage, sizes, whole(fillvalue or 0, kind))
        if values is not None and values.size:
            made[...] = values
        return made

    def _created(self, path: bytes, kind: np.dtype, shape: Any, limits: Any, storage: int, sizes: Any, fill: np.ndarray) -> Dataset:
        cell = type_of(kind)
        dims, dims_at, rank = as_list(shape)
        maxima, maxima_at, maxima_count = as_list([_library.UNLIMITED if n is None else n for n in limits])
        parts, parts_at, parts_count = as_list(sizes, "I")
        with self._file._parents(path):
            self._file._edit(
                library.h5i_create_array, path, len(path), cell, dims_at, rank, maxima_at, maxima_count,
                storage, parts_at, parts_count, fill.ctypes.data, fill.nbytes,
            )  # fmt: skip
        return Dataset(self._file, path)

    def require_dataset(self, name: str | bytes, shape: int | tuple[int, ...], dtype: npt.DTypeLike, **more: Any) -> Dataset:
        """The dataset of this name, shape and type, which is created, with what more `create_dataset` takes, if nothing is there."""
        found = self[name] if name in self else self.create_dataset(name, shape, dtype, **more)
        if not isinstance(found, Dataset) or found.shape != as_sizes(shape) or found.dtype != np.dtype(dtype):
            raise TypeError(f"{name!r} is no dataset of shape {as_sizes(shape)} and type {np.dtype(dtype)}")
        return found

    def _told(self) -> str:
        return f"({len(self)} members)"


class Dataset(_Object):
    """An array of whole numbers. `dataset[1:3, ::2]` reads into a new numpy array, and can be assigned to."""

    @property
    def _about(self) -> About:
        return self._file._stat(self._path)

    @property
    def shape(self) -> tuple[int, ...]:
        """The sizes. To set them is to resize."""
        about = self._about
        return tuple(about.dims[: about.rank])

    @shape.setter
    def shape(self, sizes: int | tuple[int, ...]) -> None:
        self.resize(sizes)

    @property
    def maxshape(self) -> tuple[int | None, ...]:
        """The largest sizes; None is unlimited."""
        about = self._about
        return tuple(None if n == _library.UNLIMITED else n for n in about.maxima[: about.rank])

    @property
    def chunks(self) -> tuple[int, ...] | None:
        """The sizes of a chunk, or None where the array is not in chunks."""
        about = self._about
        return tuple(about.chunks[: about.rank]) if about.storage == _library.CHUNKED else None

    @property
    def dtype(self) -> np.dtype:
        """The type of a cell."""
        return dtype_of(self._about.type)

    @property
    def fillvalue(self) -> np.integer:
        """The value of a cell that was never written."""
        about = self._about
        return np.frombuffer(bytes(about.fill)[: about.type.size], dtype_of(about.type))[0]

    @property
    def ndim(self) -> int:
        """How many dimensions there are."""
        return self._about.rank

    @property
    def size(self) -> int:
        """How many cells there are."""
        return int(np.prod(self.shape, dtype=object))

    @property
    def nbytes(self) -> int:
        """How many bytes its cells have."""
        return self.size * self.dtype.itemsize

    def __len__(self) -> int:
        if not self.ndim:
            raise TypeError("a scalar has no length")
        return self.shape[0]

    def __iter__(self) -> Iterator[Any]:
        """Its parts by the first dimension, each read when it comes."""
        return (self[place] for place in range(len(self)))

    def __getitem__(self, key: Index) -> Any:
        about = self._about
        selected = Selection(key, tuple(about.dims[: about.rank]))
        room = np.empty(selected.shape, dtype_of(about.type))
        self._read(selected, room)
        return room if selected.shape or key is Ellipsis else room[()]

    def read_direct(self, dest: np.ndarray, source_sel: Index | None = None, dest_sel: Any = None) -> None:
        """Reads into an array of yours, or into what is selected of it: at once if that has the type of the cells, their shape and C order."""
        selected = Selection(... if source_sel is None else source_sel, self.shape)
        room = dest if dest_sel is None else dest[dest_sel]
        fits = isinstance(room, np.ndarray) and np.shares_memory(room, dest) and room.flags.c_contiguous and room.flags.writeable
        if fits and room.dtype == self.dtype and room.shape == selected.shape:
            self._read(selected, room)
        else:
            read = np.empty(selected.shape, self.dtype)
            self._read(selected, read)
            dest[... if dest_sel is None else dest_sel] = read

    def write_direct(self, source: np.ndarray, source_sel: Any = None, dest_sel: Index | None = None) -> None:
        """Writes an array of yours, or what is selected of it."""
        self[... if dest_sel is None else dest_sel] = source if source_sel is None else source[source_sel]

    def _read(self, selected: Selection, room: np.ndarray) -> None:
        where = (self._path, len(self._path), *selected.arguments(), room.ctypes.data, room.nbytes)
        self._file._do(library.h5i_read, *where)

    def __array__(self, dtype: npt.DTypeLike | None = None, copy: bool | None = None) -> np.ndarray:
        if copy is False:
            raise ValueError("the cells are copied out of the file")
        cells = self[...]
        return cells if dtype is None else cells.astype(dtype, copy=False)

    def __setitem__(self, key: Index, values: npt.ArrayLike) -> None:
        selected = Selection(key, self.shape)
        array = whole(values, None)
        # Sizes of 1 in front may be more than are selected, as in numpy.
        while array.ndim > len(selected.shape) and array.shape[0] == 1:
            array = array[0]
        array = np.ascontiguousarray(np.broadcast_to(array, selected.shape))
        where = (self._path, len(self._path), *selected.arguments())
        self._file._edit(library.h5i_write, *where, type_of(array.dtype), array.ctypes.data, array.nbytes)

    def resize(self, size: int | tuple[int, ...], axis: int | None = None) -> None:
        """Gives the array other sizes, or another size along one axis."""
        sizes = as_sizes(size)
        if axis is not None:
            (along,), sizes = sizes, self.shape
            if not -len(sizes) <= axis < len(sizes):
                raise ValueError(f"there is no axis {axis}")
            sizes = (*sizes[: axis % len(sizes)], along, *sizes[axis % len(sizes) + 1 :])
        dims, at, rank = as_list(sizes)
        self._file._edit(library.h5i_resize, self._path, len(self._path), at, rank)

    @property
    def view(self) -> Viewer:
        """`dataset.view[1:3, ::2]` is a live view of these cells."""
        return Viewer(self)

    def _told(self) -> str:
        return f"of shape {self.shape}, type {self.dtype.str!r}"
