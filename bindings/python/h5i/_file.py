"""Files."""

from __future__ import annotations

import atexit
import ctypes as c
import os
import tempfile
import weakref
from collections.abc import Iterator
from contextlib import contextmanager
from typing import Any

import numpy as np

from . import _library
from ._arguments import as_bytes, as_text
from ._library import About, check, library
from ._objects import Dataset, Group, SoftLink

__all__ = ["File"]

MODES = ("r", "r+", "w", "w-", "x", "a")


class File(Group):
    """A file, which is its root group as well.

    `mode` is 'r' to read, 'r+' to read and edit, 'w' for a new file in place of what is there, 'x' or 'w-' for a new file where nothing is,
    and 'a' for 'r+' where something is, else 'x'. A name of None, with 'w', is a file in memory alone. A file that an edit has changed is
    written to its place by `flush` and `close`, at the end of a `with`, and when Python ends.
    """

    def __init__(self, name: str | bytes | os.PathLike[Any] | None, mode: str = "r") -> None:
        if mode not in MODES:
            raise ValueError(f"no such mode: {mode!r}; there are {', '.join(MODES)}")
        if name is None and mode != "w":
            raise ValueError("a file in memory is new: its mode is 'w'")
        self._begin(None if name is None else os.fsdecode(name), mode)
        exists = self.filename is not None and os.path.exists(self.filename)
        if mode in ("x", "w-") and exists:
            raise FileExistsError(self.filename)
        if mode in ("w", "w-", "x") or (mode == "a" and not exists):
            check(library.h5i_create(self._session))
            self._is_changed = True
        else:
            self._open(np.fromfile(self.filename, np.uint8))

    def _begin(self, name: str | None, mode: str) -> None:
        self._path, self._session, self.filename, self._is_changed = b"/", _library.Session(), name, False
        self.mode = "r" if mode == "r" else "r+"
        _open_files[id(self)] = self

    @property
    def _file(self) -> File:  # type: ignore[override]
        # No field, so that a file that nobody holds ends at once.
        return self

    def _open(self, image: np.ndarray) -> None:
        place = c.c_uint64()
        status = library.h5i_open(self._session, image.ctypes.data, image.size, place)
        check(status, f"at byte {place.value} of {self.filename or 'the image'}")

    @classmethod
    def frombytes(cls, image: bytes | bytearray | memoryview, mode: str = "r+") -> File:
        """The file that these bytes are, in memory. They are copied."""
        if mode not in ("r", "r+"):
            raise ValueError(f"no such mode for bytes: {mode!r}")
        self = cls.__new__(cls)
        self._begin(None, mode)
        self._open(np.frombuffer(image, np.uint8))
        return self

    def tobytes(self) -> bytes:
        """The bytes of the file."""
        return self._image().tobytes()

    def _image(self) -> np.ndarray:
        room = np.empty(library.h5i_image_length(self._session), np.uint8)
        self._do(library.h5i_image, room.ctypes.data, room.size)
        return room

    def flush(self) -> None:
        """Writes the file to its place, if an edit has changed it: whole, and then in the place of the old one."""
        if not self._is_changed or self.filename is None or self.mode == "r":
            return
        image, place = self._image(), os.path.realpath(self.filename)
        with tempfile.NamedTemporaryFile(dir=os.path.dirname(place), prefix=".h5i-", delete=False) as out:
            try:
                image.tofile(out)
                out.flush()
                os.fsync(out.fileno())
                if os.path.exists(place):
                    os.chmod(out.name, os.stat(place).st_mode & 0o7777)
                else:
                    mask = os.umask(0)
                    os.umask(mask)
                    os.chmod(out.name, 0o666 & ~mask)
                os.replace(out.name, place)
            except BaseException:
                os.unlink(out.name)
                raise
        self._is_changed = False

    def close(self) -> None:
        """Writes the file to its place, if an edit has changed it, and gives its memory up. A closed file stays closed."""
        if self._session.is_open:
            self.flush()
            library.h5i_close(self._session)

    def __del__(self) -> None:
        if getattr(self, "_session", None) is not None:
            self.close()

    def __enter__(self) -> File:
        return self

    def __exit__(self, *_: object) -> None:
        self.close()

    def __bool__(self) -> bool:
        return bool(self._session.is_open)

    def run(self, script: str | bytes) -> str:
        """Runs lines of a script (docs/SCRIPT.md), and gives their answers. A line that is refused raises nothing: its answer says so."""
        self._may_edit()
        text = as_bytes(script)
        check(library.h5i_run(self._session, text, len(text)))
        self._is_changed = True
        return as_text(self._take_text())

    def repack(self) -> None:
        """Writes the image anew, without bytes that nothing uses."""
        self._edit(library.h5i_repack)

    def __repr__(self) -> str:
        return f"<h5i file {self.filename or 'in memory'!r} (mode {self.mode})>" if self else "<closed h5i file>"

    # ---- calls of the library

    def _do(self, call: Any, *arguments: Any) -> None:
        status = call(self._session, *arguments)
        if status:
            check(status, next((it for it in arguments if isinstance(it, bytes)), b""))

    def _may_edit(self) -> None:
        if not self:
            raise ValueError("the file is closed")
        if self.mode == "r":
            raise OSError("the file was opened to be read")

    def _edit(self, call: Any, *arguments: Any) -> None:
        self._may_edit()
        self._do(call, *arguments)
        self._is_changed = True

    def _take_text(self) -> bytes:
        room = c.create_string_buffer(library.h5i_text_length(self._session))
        self._do(library.h5i_text, room, len(room))
        return room.raw

    def _names(self, call: Any, path: bytes) -> list[bytes]:
        self._do(call, path, len(path))
        return self._take_text().split(b"\0")[:-1]

    def _stat(self, path: bytes) -> About:
        about = About()
        self._do(library.h5i_stat, path, len(path), about)
        return about

    def _at(self, path: bytes) -> Group | Dataset | SoftLink:
        kind = self._stat(path).kind
        if kind == _library.GROUP:
            return Group(self, path)
        if kind == _library.ARRAY:
            return Dataset(self, path)
        self._do(library.h5i_link_text, path, len(path))
        return SoftLink(as_text(self._take_text()))

    @contextmanager
    def _parents(self, path: bytes) -> Iterator[None]:
        """Makes the groups above a path that are missing, for what is made below them: where that fails they go again."""
        self._may_edit()
        names, made = path.split(b"/")[1:-1], []
        try:
            for depth in range(1, len(names) + 1):
                above = b"/" + b"/".join(names[:depth])
                status = library.h5i_create_group(self._session, above, len(above))
                if _library.RULES[status - 1 : status] != ["AlreadyThere"]:
                    check(status, above)
                    made.append(above)
                    self._is_changed = True
            yield
        except BaseException:
            for above in reversed(made):
                library.h5i_unlink(self._session, above, len(above))
            raise


_open_files: weakref.WeakValueDictionary[int, File] = weakref.WeakValueDictionary()


@atexit.register
def _close_all() -> None:
    for file in list(_open_files.values()):
        file.close()
