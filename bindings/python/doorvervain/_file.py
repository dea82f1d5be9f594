"""File objects over a volume or a frozen tree."""
from __future__ import annotations

import errno
import io
import operator
import os
from typing import IO, TYPE_CHECKING, Any, Optional, Union, cast

from ._core import Lock
from ._path import StrPath, os_error, plain

if TYPE_CHECKING:
    from ._volume import Tree, Volume

# How many bytes a buffered file asks for at once.
_BUFFER = 1 << 16


class File(io.RawIOBase):
    """A file that is open, without a buffer. It names its path, and has a place of its own.

    Threads may share it: a call that reads, writes or seeks has the place alone, and an append holds the volume's lock throughout.
    """

    def __init__(self, tree: "Tree", path: StrPath, mode: str = "r") -> None:
        """`mode` is one of r, w, x and a, with or without +."""
        action, updating = mode[0], "+" in mode
        self.name = self._path = plain(path)
        self._tree = tree
        self._reads = action == "r" or updating
        self._writes = action != "r" or updating
        self._appends = action == "a"
        self._at = 0
        self._place_lock = Lock()
        if self._writes and not hasattr(tree, "write"):
            raise os_error(errno.EROFS, path)
        self._begin(action)

    @property
    def mode(self) -> str:
        """The mode, as files of the system return it."""
        if self._appends:
            return "ab+" if self._reads else "ab"
        if self._writes:
            return "rb+" if self._reads else "wb"
        return "rb"

    @property
    def size(self) -> int:
        """How many bytes the file has now."""
        return self._tree.stat(self._path).size

    def _begin(self, action: str) -> None:
        tree = cast("Volume", self._tree)
        if action == "w":
            tree._empty(self._path)
        elif action == "x":
            tree.create(self._path)
        elif action == "a":
            # (no other thread creates or unlinks the file in between)
            with tree._lock:
                if not tree.exists(self._path):
                    tree.create(self._path)
                self._at = self._size_of_file()
        else:
            self._size_of_file()

    def _size_of_file(self) -> int:
        """How many bytes the file has. A directory is an error."""
        stat = self._tree.stat(self._path)
        if stat.is_dir:
            raise os_error(errno.EISDIR, self._path)
        return stat.size

    def readable(self) -> bool:
        """Whether it can be read."""
        self._check()
        return self._reads

    def writable(self) -> bool:
        """Whether it can be written."""
        self._check()
        return self._writes

    def seekable(self) -> bool:
        """Files can be sought in."""
        self._check()
        return True

    def _check(self) -> None:
        if self.closed:
            raise ValueError("I/O operation on closed file")

    def _check_reads(self) -> None:
        self._check()
        if not self._reads:
            raise io.UnsupportedOperation("not readable")

    def _check_writes(self) -> "Volume":
        self._check()
        if not self._writes:
            raise io.UnsupportedOperation("not writable")
        return cast("Volume", self._tree)

    def readinto(self, buffer: Any) -> int:
        """Reads into a buffer as many bytes as it holds and the file has."""
        self._check_reads()
        view = memoryview(buffer).cast("B")
        data = self._read_on(len(view))
        view[: len(data)] = data
        return len(data)

    def readall(self) -> bytes:
        """Reads all bytes from its place on."""
        self._check_reads()
        return self._read_on(-1)

    def _read_on(self, size: int) -> bytes:
        """Reads at most so many bytes from its place on, or all, and moves the place behind them."""
        with self._place_lock:
            data = self._tree.read(self._path, size, self._at)
            self._at += len(data)
        return data

    def write(self, data: Any) -> int:
        """Writes all bytes at its position, or at the file's end if it appends."""
        volume = self._check_writes()
        with self._place_lock, volume._lock:
            if self._appends:
                self._at = volume.stat(self._path).size
            count = volume.write(self._path, data, self._at)
            self._at += count
        return count

    def seek(self, offset: int, whence: int = os.SEEK_SET) -> int:
        """Moves its place, from the front, from the place itself or from the file's end."""
        self._check()
        with self._place_lock:
            if whence == os.SEEK_SET:
                base = 0
            elif whence == os.SEEK_CUR:
                base = self._at
            elif whence == os.SEEK_END:
                base = self._tree.stat(self._path).size
            else:
                raise ValueError(f"invalid whence: {whence}")
            at = base + operator.index(offset)
            if at < 0:
                raise os_error(errno.EINVAL, self._path, "an offset is not negative")
            self._at = at
            return at

    def tell(self) -> int:
        """Its place."""
        self._check()
        return self._at

    def truncate(self, size: Optional[int] = None) -> int:
        """Cuts the file to so many bytes, or to its place, or lengthens it by zeros. The place stays."""
        volume = self._check_writes()
        to = self._at if size is None else size
        volume.truncate(self._path, to)
        return to

    def __repr__(self) -> str:
        if self.closed:
            return f"<{type(self).__name__} [closed]>"
        return f"<{type(self).__name__} name={self.name!r} mode={self.mode!r}>"


def open_file(
    tree: "Tree",
    path: StrPath,
    mode: str,
    buffering: int = -1,
    encoding: Optional[str] = None,
    errors: Optional[str] = None,
    newline: Optional[str] = None,
) -> IO[Any]:
    """A file object of the mode that the builtin `open` takes: raw, buffered, or of text over a buffer."""
    letters = set(mode)
    if letters - set("rwxab+t") or len(mode) > len(letters):
        raise ValueError(f"invalid mode: {mode!r}")
    actions = [letter for letter in "rwxa" if letter in letters]
    if len(actions) != 1:
        raise ValueError("must have exactly one of create/read/write/append mode")
    binary = "b" in letters
    if binary and "t" in letters:
        raise ValueError("can't have text and binary mode at once")
    if binary and (encoding is not None or errors is not None or newline is not None):
        raise ValueError("binary mode takes no encoding, errors or newline argument")
    if buffering == 0 and not binary:
        raise ValueError("can't have unbuffered text I/O")
    raw = File(tree, path, actions[0] + ("+" if "+" in letters else ""))
    if buffering == 0:
        return cast(IO[Any], raw)
    buffer = _buffered(raw, buffering if buffering > 1 else _BUFFER)
    if binary:
        return buffer
    text = io.TextIOWrapper(buffer, encoding or "utf-8", errors, newline, line_buffering=buffering == 1)
    text.mode = mode  # type: ignore[misc]
    return text


def _buffered(raw: File, size: int) -> Union[io.BufferedRandom, io.BufferedWriter, io.BufferedReader]:
    if raw.readable() and raw.writable():
        return io.BufferedRandom(raw, size)
    return io.BufferedWriter(raw, size) if raw.writable() else io.BufferedReader(raw, size)
