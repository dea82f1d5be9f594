"""Volumes and frozen trees.

A volume has a read-write lock, which its calls take by themselves. It is reentrant: a method that makes two calls, as an
append, holds it alone throughout. A fork and a frozen tree have locks of their own.
"""
from __future__ import annotations

import contextlib
import copy
import errno
import io
import time
from io import BufferedRandom, BufferedReader, BufferedWriter, TextIOWrapper
from types import TracebackType
from typing import (
    TYPE_CHECKING, Any, BinaryIO, Callable, Dict, Iterator, List, Literal, NamedTuple, Optional, Tuple, Type, TypeVar, Union, overload,
)

from . import _core, _host
from ._file import File, open_file
from ._path import HostPath, Path, StrPath, below, find, os_error, text_of

if TYPE_CHECKING:
    from _typeshed import OpenBinaryMode, OpenBinaryModeReading, OpenBinaryModeUpdating, OpenBinaryModeWriting, OpenTextMode


class Shape(NamedTuple):
    """The shape of a volume's trees, which changes no result, only time."""

    fanout: int
    pending: int
    leaf: int


USUAL = Shape(16, 256, 256)
"""The default shape."""
LARGE = Shape(64, 1024, 1024)
"""The shape for a volume of many entries that is kept for long."""

T = TypeVar("T", bound="Tree")
V = TypeVar("V", bound="Volume")


class Tree(_core.Tree):
    """What a volume and a frozen tree have in common: the read-only calls."""

    def __enter__(self: T) -> T:
        return self

    def __exit__(
        self,
        kind: Optional[Type[BaseException]],
        error: Optional[BaseException],
        trace: Optional[TracebackType],
    ) -> None:
        self.close()

    def path(self, *segments: StrPath) -> Path:
        """A path of this tree, with the methods of `pathlib.Path`: of the segments, which are joined; of none it is the root.

        >>> volume = Volume()
        >>> volume.path("/notes").mkdir()
        >>> (volume.path("/notes") / "today").write_text("rain")
        4
        >>> volume.freeze().path("/notes", "today").read_text()
        'rain'
        """
        return Path(self, *segments)

    def read_bytes(self, path: StrPath) -> bytes:
        """All bytes of a file."""
        return self.read(path)

    def read_text(
        self, path: StrPath, encoding: Optional[str] = None, errors: Optional[str] = None, newline: Optional[str] = None
    ) -> str:
        """The text of a file: UTF-8 if no encoding is given. Line ends are read as `open` reads them. Bytes that are not
        text of the encoding are a UnicodeDecodeError."""
        with self.open(path, "r", -1, encoding, errors, newline) as file:
            return file.read()

    def glob(self, pattern: str) -> List[str]:
        """The paths that match a pattern, which begins with a slash: `*`, `?` and `[..]` match within a name, which may begin
        with a dot, and `**` any number of directories; behind a last `**` also files. A pattern that ends with a slash matches
        only directories. One that begins without a slash is an `OSError` with EINVAL.

        >>> volume = Volume()
        >>> volume.makedirs("/a/b")
        >>> volume.touch("/a/x.txt"); volume.touch("/a/b/y.txt")
        >>> volume.glob("/a/*"), volume.glob("/**/*.txt")
        (['/a/b', '/a/x.txt'], ['/a/x.txt', '/a/b/y.txt'])
        """
        if not pattern.startswith("/"):
            raise os_error(errno.EINVAL, pattern, "a pattern begins with '/'")
        return list(find(self, "/", pattern[1:]))

    def export_tree(self, host_path: HostPath, path: StrPath = "/") -> None:
        """Copies what is in the directory `path` into a directory of the system, which is created, or is there and empty:
        else an `OSError` with ENOTEMPTY. Entries keep their mtime, as far as the system's files have it, and get the
        permissions of new ones; holes stay holes. What was copied before an error stays."""
        with _host.paths_as(host_path):
            _host.export_tree(self, host_path, path)

    def walk(self, top: StrPath = "/") -> Iterator[Tuple[str, List[str], List[str]]]:
        """Each directory from `top` on with the names of its directories and files, as `os.walk` yields them from the top
        down. A name that is removed from the first list is not walked into.

        >>> volume = Volume()
        >>> volume.makedirs("/a/b")
        >>> volume.create("/a/x")
        >>> list(volume.walk())
        [('/', ['a'], []), ('/a', ['b'], ['x']), ('/a/b', [], [])]
        """
        waiting = [text_of(top)]
        while waiting:
            path = waiting.pop()
            entries = self.scandir(path)
            folders = [entry.name for entry in entries if entry.is_dir()]
            files = [entry.name for entry in entries if entry.is_file()]
            yield path, folders, files
            waiting += [below(path, folder) for folder in reversed(folders)]

    @overload
    def open(
        self, path: StrPath, mode: "OpenTextMode" = "r", buffering: int = -1, encoding: Optional[str] = None,
        errors: Optional[str] = None, newline: Optional[str] = None,
    ) -> TextIOWrapper: ...
    @overload
    def open(
        self, path: StrPath, mode: "OpenBinaryMode", buffering: Literal[0], encoding: None = None, errors: None = None,
        newline: None = None,
    ) -> File: ...
    @overload
    def open(
        self, path: StrPath, mode: "OpenBinaryModeUpdating", buffering: Literal[-1, 1] = -1, encoding: None = None,
        errors: None = None, newline: None = None,
    ) -> BufferedRandom: ...
    @overload
    def open(
        self, path: StrPath, mode: "OpenBinaryModeWriting", buffering: Literal[-1, 1] = -1, encoding: None = None,
        errors: None = None, newline: None = None,
    ) -> BufferedWriter: ...
    @overload
    def open(
        self, path: StrPath, mode: "OpenBinaryModeReading", buffering: Literal[-1, 1] = -1, encoding: None = None,
        errors: None = None, newline: None = None,
    ) -> BufferedReader: ...
    @overload
    def open(
        self, path: StrPath, mode: "OpenBinaryMode", buffering: int = -1, encoding: None = None, errors: None = None,
        newline: None = None,
    ) -> Union[File, BinaryIO]: ...
    @overload
    def open(
        self, path: StrPath, mode: str, buffering: int = -1, encoding: Optional[str] = None, errors: Optional[str] = None,
        newline: Optional[str] = None,
    ) -> Any: ...
    def open(
        self, path: StrPath, mode: str = "r", buffering: int = -1, encoding: Optional[str] = None,
        errors: Optional[str] = None, newline: Optional[str] = None,
    ) -> Any:
        """A file object, as the builtin `open` returns it. Text is UTF-8 if no encoding is given.

        It refers to its path: after the file is renamed or unlinked, its calls use what is at the path then, or fail.

        >>> volume = Volume()
        >>> with volume.open("/lines", "w") as file:
        ...     _ = file.write("one\\ntwo\\n")
        >>> [line for line in volume.open("/lines")]
        ['one\\n', 'two\\n']
        """
        return open_file(self, path, mode, buffering, encoding, errors, newline)


class Volume(Tree, _core.Volume):
    """A tree of directories and files in memory, with snapshots.

    A path begins with a slash, and has no empty name, `.` or `..`. A change has the timestamp `at`; if none is
    given, that of the clock, in nanoseconds since 1970. An error is an `OSError` of the subclass that Python has for its
    number, and then nothing has changed. `makedirs`, `copy` and `import_tree` make many changes, and leave those before the one
    that failed.

    A pickle of a volume has its tree as an image, its shape and its clock, and no snapshots. `copy.copy` and `copy.deepcopy`
    give a fork.

    >>> volume = Volume()
    >>> volume.mkdir("/a/b")
    Traceback (most recent call last):
        ...
    FileNotFoundError: [Errno 2] No such file or directory: '/a/b'
    """

    def __init__(self, *, shape: Tuple[int, int, int] = USUAL, clock: Callable[[], int] = time.time_ns) -> None:
        super().__init__(shape=shape, clock=clock)

    @classmethod
    def load(
        cls: Type[V], text: Union[bytes, str], *, shape: Tuple[int, int, int] = USUAL, clock: Callable[[], int] = time.time_ns
    ) -> V:
        """Loads a volume from an image, without snapshots. A text that is not an image is a `BadImage`.

        >>> Volume.load("D / 5\\nF /x 3 7\\nb 0 616263\\n").read("/x")
        b'abc'
        """
        raw = text.encode("utf-8", "surrogateescape") if isinstance(text, str) else bytes(text)
        volume = cls.__new__(cls)
        volume._load(raw, shape, clock)
        return volume

    def makedirs(self, path: StrPath, exist_ok: bool = False, *, at: Optional[int] = None) -> None:
        """Creates a directory, and those above it that do not exist."""
        whole = text_of(path)
        with self._lock:
            cut = whole.find("/", 1)
            while cut > 0:
                if not self.exists(whole[:cut]):
                    self.mkdir(whole[:cut], at=at)
                cut = whole.find("/", cut + 1)
            try:
                self.mkdir(path, at=at)
            except FileExistsError:
                if not (exist_ok and self.is_dir(path)):
                    raise

    def write_text(
        self,
        path: StrPath,
        data: str,
        encoding: Optional[str] = None,
        errors: Optional[str] = None,
        newline: Optional[str] = None,
        *,
        at: Optional[int] = None,
    ) -> int:
        """Replaces the content of a file, which is created if it does not exist, by a text: in UTF-8 if no encoding is given.
        Line ends are written as `open` writes them. Returns how many characters.

        >>> volume = Volume()
        >>> volume.write_text("/x", "föhn"), volume.read("/x"), volume.read_text("/x")
        (4, b'f\xc3\xb6hn', 'föhn')
        """
        if not isinstance(data, str):
            raise TypeError(f"data must be str, not {type(data).__name__}")
        raw = io.BytesIO()
        text = io.TextIOWrapper(raw, encoding or "utf-8", errors, newline)
        count = text.write(data)
        text.flush()
        self.write_bytes(path, raw.getvalue(), at=at)
        return count

    def remove(self, path: StrPath, *, at: Optional[int] = None) -> None:
        """The same as `unlink`."""
        self.unlink(path, at=at)

    def touch(self, path: StrPath, exist_ok: bool = True, *, at: Optional[int] = None) -> None:
        """Creates an empty file, or gives the file or directory that exists the timestamp. Without `exist_ok` one that exists
        is a FileExistsError."""
        with self._lock:
            try:
                self.create(path, at=at)
            except FileExistsError:
                if not exist_ok:
                    raise
                self.utime(path, at=at)

    def copy(self, old: StrPath, new: StrPath, *, at: Optional[int] = None) -> None:
        """Copies a file, which replaces a file at the new path; or a directory with everything below it to a new path that
        does not exist. A directory is not copied below itself: that is an `OSError` with EINVAL. Copies have the timestamp
        `at`. The bytes are copied: a frozen tree or a fork shares them instead.

        >>> volume = Volume()
        >>> volume.makedirs("/a/b")
        >>> _ = volume.write_text("/a/b/x", "rain")
        >>> volume.copy("/a", "/c")
        >>> volume.read_text("/c/b/x")
        'rain'
        """
        source, target = text_of(old), text_of(new)
        with self._lock:
            if self.stat(source).is_file:
                self._copy_file(source, target, at)
                return
            if target.startswith(below(source, "")):
                raise OSError(errno.EINVAL, "a directory is not copied below itself", source, None, target)
            self.mkdir(target, at=at)
            for folder, folders, files in self.walk(source):
                there = target + folder[len(source) :]
                for name in folders:
                    self.mkdir(below(there, name), at=at)
                for name in files:
                    self._copy_file(below(folder, name), below(there, name), at)

    def _copy_file(self, source: str, target: str, at: Optional[int]) -> None:
        """Copies a file, unless it is the same."""
        if source == target:
            return
        size = self.stat(source).size
        self._empty(target, at=at)
        for offset, piece in _host.pieces(self, source):
            self.write(target, piece, offset, at=at)
        self.truncate(target, size, at=at)

    def import_tree(self, host_path: HostPath, path: StrPath = "/", *, skip_special: bool = False) -> List[str]:
        """Copies what is in a directory of the system into the directory `path`, which is created if it does not exist, with
        those above it. A file replaces a file there, and directories are merged. Files and directories keep their mtime (none
        is before 1970); several links to a file become files of their own; owners, permissions and extended attributes are
        left out.

        Symbolic links, pipes, sockets and devices have no place in a volume. Each is an `OSError` with ENOTSUP before
        anything is copied, or with `skip_special` is left out. Returns the paths on the system that were left out. No link is
        followed out of the directory; only `host_path` itself may be one. A name or path that is too long for a volume is an
        `OSError` with ENAMETOOLONG, and then what was copied before it stays.
        """
        with _host.paths_as(host_path):
            return _host.import_tree(self, host_path, path, skip_special)

    def export_tree(self, host_path: HostPath, path: StrPath = "/") -> None:
        """As of a frozen tree: later changes of the volume are not copied."""
        with self.freeze() as tree:
            tree.export_tree(host_path, path)

    def __copy__(self) -> "Volume":
        other = type(self).__new__(type(self))
        other._fork_of(self, None)
        other.__dict__.update(self.__dict__)
        return other

    def __deepcopy__(self, memo: Dict[int, Any]) -> "Volume":
        memo[id(self)] = other = self.__copy__()
        other.__dict__.update(copy.deepcopy(self.__dict__, memo))
        return other

    def __reduce__(self) -> Tuple[Any, ...]:
        return _volume_of, (type(self), self.image(), self._shape, self._clock), self.__dict__ or None

    def freeze(self) -> "Frozen":
        """Freezes the current tree, which later changes do not affect."""
        return Frozen(self)

    def fork(self, *, clock: Optional[Callable[[], int]] = None) -> "Volume":
        """A volume of its own with the current tree, the same shape and the same clock if none is given, in constant time and
        without snapshots. Later changes of one do not affect the other, and other threads may use it at the same time.

        >>> volume = Volume()
        >>> fork = volume.fork()
        >>> fork.create("/x")
        >>> fork.listdir(), volume.listdir()
        (['x'], [])
        """
        return _forked(self, clock)

    @contextlib.contextmanager
    def transaction(self) -> Iterator[None]:
        """Makes a `with` block a transaction: its changes are kept at its end, and undone if an exception leaves it, which is
        raised again.

        The block sees its changes, and so do other threads, whose own changes belong to the transaction too: a thread that
        should not take part gets a fork. While it is open, another transaction, taking, dropping and restoring a snapshot,
        restoring a frozen tree, `apply_delta` and `apply_edits` are an `OSError` with EBUSY, and `compact` does nothing. Forks
        and frozen trees have the changes so far.

        >>> volume = Volume()
        >>> with volume.transaction():
        ...     volume.create("/x")
        ...     volume.mkdir("/x")
        Traceback (most recent call last):
            ...
        FileExistsError: [Errno 17] File exists: '/x'
        >>> volume.listdir()
        []
        """
        self.begin()
        try:
            yield
        except BaseException:
            self.rollback()
            raise
        self.commit()

    def open_snapshot(self, name: Union[str, bytes]) -> "Frozen":
        """Opens a snapshot for reading."""
        return Frozen(self, name)

    def image(self) -> bytes:
        """The image of the tree, without snapshots: text that `Volume.load` accepts.

        >>> volume = Volume(clock=lambda: 0)
        >>> _ = volume.write_bytes("/x", b"abc")
        >>> volume.image()
        b'D / 0\\nF /x 3 0\\nb 0 616263\\n'
        """
        with self.freeze() as tree:
            return tree.image()


class Frozen(Tree, _core.Frozen):
    """A frozen tree: later changes of its volume do not affect it, nor does the volume's close. It is the volume's tree, or
    that of a snapshot if one is named.

    >>> volume = Volume()
    >>> volume.create("/x")
    >>> with volume.freeze() as tree:
    ...     volume.unlink("/x")
    ...     tree.listdir(), volume.listdir()
    (['x'], [])

    A pickle has the tree as an image. `copy.copy` and `copy.deepcopy` give the same tree, which is closed by itself.
    """

    def fork(self, *, clock: Optional[Callable[[], int]] = None) -> Volume:
        """A volume of its own with this tree and its shape, in constant time and without snapshots. Later changes of it do not
        affect the tree. Its clock is the system's if none is given."""
        return _forked(self, clock)

    def __copy__(self) -> "Frozen":
        with self.fork() as volume:
            other = _frozen_from(type(self), volume)
        other.__dict__.update(self.__dict__)
        return other

    def __deepcopy__(self, memo: Dict[int, Any]) -> "Frozen":
        memo[id(self)] = other = self.__copy__()
        other.__dict__.update(copy.deepcopy(self.__dict__, memo))
        return other

    def __reduce__(self) -> Tuple[Any, ...]:
        return _frozen_of, (type(self), self.image(), self._shape), self.__dict__ or None


def _forked(tree: Tree, clock: Optional[Callable[[], int]]) -> Volume:
    volume = Volume.__new__(Volume)
    volume._fork_of(tree, clock)
    return volume


def _volume_of(kind: Type[Volume], image: bytes, shape: Tuple[int, int, int], clock: Callable[[], int]) -> Volume:
    """The volume of a pickle."""
    return kind.load(image, shape=shape, clock=clock)


def _frozen_from(kind: Type[Frozen], volume: Volume) -> Frozen:
    """The frozen tree of a volume, of a subclass that may have an `__init__` of its own."""
    tree = kind.__new__(kind)
    Frozen.__init__(tree, volume)
    return tree


def _frozen_of(kind: Type[Frozen], image: bytes, shape: Tuple[int, int, int]) -> Frozen:
    """The frozen tree of a pickle."""
    with Volume.load(image, shape=shape) as volume:
        return _frozen_from(kind, volume)
