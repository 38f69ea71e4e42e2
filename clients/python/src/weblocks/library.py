"""The shared library with the engine of scripts, by `ctypes`: a world, a line at a time."""

from __future__ import annotations

import ctypes
import os
from pathlib import Path
from types import TracebackType
from typing import Any

from .errors import Error

VARIABLE = "WEBLOCKS_LIBRARY"
"""The environment's variable that names the library's file, where it isn't beside the package."""

IN_REPOSITORY = ("clients/c/out/libweblocks.so", "dist/libweblocks-x86_64-linux-gnu.so")
"""Where the library is in the repository: as it was built last, and as it is shipped."""

NAME = "libweblocks.so"
SONAME = "libweblocks.so.1"
LONGEST_LINE = 65_536
"""The most bytes of a line."""

_MEMORY, _SPENT, _NO_BOOKS, _TOO_LONG, _LINE_FEED = 1, 2, 3, 5, 6


class MissingLibrary(Error, OSError):
    """The shared library isn't found, or is another file than it should be."""


def load(path: str | os.PathLike[str] | None = None) -> ctypes.CDLL:
    """Loads the library: of this path, or from where `find` finds it.

    Raises MissingLibrary, which says where to have it from.
    """
    place = find() if path is None else os.fspath(path)
    try:
        library = ctypes.CDLL(place)
        return _typed(library)
    except (OSError, AttributeError) as error:
        raise MissingLibrary(
            f"the library of weblocks can't be loaded ({error}): the repository has it as {IN_REPOSITORY[1]}, and "
            f"clients/c/build there builds it; put it beside the package as {NAME}, or its path into {VARIABLE}"
        ) from error


def find() -> str:
    """Where the library is: beside the package, or where WEBLOCKS_LIBRARY says, or in the repository, where the package
    is in there, or else by its name on the loader's path."""
    here = Path(__file__).resolve()
    beside, named = here.with_name(NAME), os.environ.get(VARIABLE)
    if beside.exists() or named:
        return str(beside) if beside.exists() else str(named)
    if here.parts[-5:-1] == ("clients", "python", "src", "weblocks"):
        for name in IN_REPOSITORY:
            if (here.parents[4] / name).exists():
                return str(here.parents[4] / name)
    return SONAME


def _typed(library: ctypes.CDLL) -> ctypes.CDLL:
    """The library with the types of its functions."""
    # Those of weblocks_answer are made in their types once for each world, which saves converting them at each call.
    library.weblocks_new.argtypes = [ctypes.c_char_p, ctypes.c_int, ctypes.c_void_p]
    library.weblocks_free.argtypes = [ctypes.c_void_p]
    library.weblocks_free.restype = None
    return library


class World:
    """One world: all its origins and agents. It takes messages as lines of `weblocks run`, and is for one thread.

    `seed` is sixteen bytes by which its tables spread names; no reply shows it. They come from the system where none
    are given. With `keep_books` it keeps its lines, for `audit`. It is ended by `close`, or as a context.
    """

    def __init__(
        self,
        *,
        seed: bytes | None = None,
        keep_books: bool = False,
        library: str | os.PathLike[str] | None = None,
    ) -> None:
        if seed is not None and len(seed) != 16:
            raise ValueError(f"a seed has 16 bytes, not {len(seed)}")
        self._library = load(library)
        # Where the library says where a reply is, and how long: a slice of the pointer copies the bytes out.
        self._reply: Any = ctypes.POINTER(ctypes.c_char)()
        self._length = ctypes.c_size_t()
        self._handle = ctypes.c_void_p()
        if self._library.weblocks_new(seed or os.urandom(16), keep_books, ctypes.byref(self._handle)):
            raise MemoryError("there is no memory for a world")
        self._rooms = (ctypes.byref(self._reply), ctypes.byref(self._length))
        # What a call with a line needs, to be had in one look-up; the last is for the line's length.
        call, size = self._library.weblocks_answer, ctypes.c_size_t()
        self._parts = (call, self._handle, *self._rooms, self._reply, self._length, size)

    def answer(self, line: bytes) -> bytes:
        """The reply to a line, both without LF.

        Raises ValueError for a line with an LF or with more than 65,536 bytes, and MemoryError where memory is wanting,
        now or before. A ValueError leaves the world as it was.
        """
        call, handle, to_reply, to_length, reply, length, size = self._parts
        if not isinstance(line, bytes):
            raise TypeError(f"a line is bytes, not {type(line).__name__}")
        size.value = len(line)
        if code := call(handle, line, size, to_reply, to_length):
            raise self._error(code)
        said: bytes = reply[: length.value]
        return said

    def audit(self) -> bytes:
        """The lines that `weblocks audit` writes for a file of the lines so far.

        Raises ValueError where the world keeps no books, and MemoryError.
        """
        if code := self._library.weblocks_audit(self._handle, *self._rooms):
            raise self._error(code)
        said: bytes = self._reply[: self._length.value]
        return said

    def close(self) -> None:
        """Ends the world. May be called again."""
        handle = ctypes.c_void_p(self._handle.value)
        self._handle.value = None
        self._library.weblocks_free(handle)

    def __enter__(self) -> World:
        return self

    def __exit__(
        self, kind: type[BaseException] | None, error: BaseException | None, trace: TracebackType | None
    ) -> None:
        self.close()

    def __del__(self) -> None:
        if hasattr(self, "_handle"):
            self.close()

    def _error(self, code: int) -> Exception:
        if code in (_MEMORY, _SPENT):
            return MemoryError("the world was refused memory, and is spent")
        if code == _NO_BOOKS:
            return ValueError("the world keeps no books: make it with keep_books=True")
        if code == _TOO_LONG:
            return ValueError(f"a line has at most {LONGEST_LINE} bytes")
        if code == _LINE_FEED:
            return ValueError("a line has no LF")
        return ValueError("the world was closed")
