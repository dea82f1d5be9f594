"""Paths of a tree: as text, as objects that read and write, and those that match a pattern."""
from __future__ import annotations

import errno
import os
import re
from fnmatch import translate
from functools import total_ordering
from io import BufferedRandom, BufferedReader, BufferedWriter, TextIOWrapper
from pathlib import PurePosixPath
from typing import (
    TYPE_CHECKING, Any, BinaryIO, Callable, Iterator, List, Literal, Optional, Pattern, Sequence, Tuple, Union, cast, overload,
)

if TYPE_CHECKING:
    from _typeshed import (
        OpenBinaryMode, OpenBinaryModeReading, OpenBinaryModeUpdating, OpenBinaryModeWriting, OpenTextMode, ReadableBuffer,
    )

    from ._file import File
    from ._types import Stat
    from ._volume import Tree, Volume

HostPath = Union[str, bytes, "os.PathLike[str]", "os.PathLike[bytes]"]
StrPath = Union[HostPath, "Path"]


def plain(path: StrPath) -> Union[str, bytes]:
    """A path as `str` or `bytes`: a `Path` by its text, all else by `os.fspath`."""
    return str(path) if isinstance(path, Path) else os.fspath(path)


def text_of(path: StrPath) -> str:
    """A path as `str`: bytes are UTF-8, and those that are no text stand for lone surrogates."""
    given = plain(path)
    return given if isinstance(given, str) else given.decode("utf-8", "surrogateescape")


def below(folder: str, name: str) -> str:
    """The path of a name in a directory."""
    return folder + name if folder.endswith("/") else f"{folder}/{name}"


def os_error(number: int, path: StrPath, text: Optional[str] = None) -> OSError:
    """The `OSError` of an error number and a path, with the system's text if none is given."""
    return OSError(number, text or os.strerror(number), plain(path))


@total_ordering
class Path:
    """A path of a volume, a frozen tree or a snapshot, with the methods of `pathlib.Path`: `volume.path("/notes") / "x"`.

    Its pure methods are those of `pathlib.PurePosixPath`, except `as_uri`, as no address leads into a volume. Those that read
    are calls of its tree, and raise what these raise. Those that write raise an `OSError` with EROFS if the tree is frozen. Two
    are equal if their text and their tree are the same. Calls of a tree take it in place of text. It is no `os.PathLike`, so
    that `open(path)` or `shutil.rmtree(path)` is a TypeError rather than a call of the system with the same text.

    >>> from doorvervain import Volume
    >>> notes = Volume().path("/notes")
    >>> (notes / "old").mkdir(parents=True)
    >>> (notes / "today.txt").write_text("rain")
    4
    >>> [path.name for path in notes.iterdir()], notes.joinpath("today.txt").read_text()
    (['old', 'today.txt'], 'rain')
    """

    __slots__ = ("_tree", "_pure")

    def __init__(self, tree: "Tree", *segments: StrPath) -> None:
        """The segments are joined as `PurePosixPath` does it, and none are the root. A relative path is an `OSError` with
        EINVAL."""
        pure = PurePosixPath(*map(text_of, segments or ("/",)))
        if not pure.is_absolute():
            raise os_error(errno.EINVAL, str(pure), "a path begins with '/'")
        self._tree = tree
        # (two slashes at the front are kept apart by POSIX, and are one here)
        self._pure = pure if pure.root == "/" else PurePosixPath("/", *pure.parts[1:])

    # ---- pure

    def __str__(self) -> str:
        return str(self._pure)

    def __repr__(self) -> str:
        return f"{type(self).__name__}({str(self)!r})"

    def __bytes__(self) -> bytes:
        return str(self).encode("utf-8", "surrogateescape")

    def __eq__(self, other: object) -> bool:
        return isinstance(other, Path) and self._tree is other._tree and self._pure == other._pure

    def __lt__(self, other: object) -> bool:
        if not isinstance(other, Path) or self._tree is not other._tree:
            return NotImplemented
        return self._pure < other._pure

    def __hash__(self) -> int:
        return hash((id(self._tree), self._pure))

    def __truediv__(self, segment: StrPath) -> "Path":
        return self.joinpath(segment)

    def __rtruediv__(self, segment: Union[str, PurePosixPath]) -> "Path":
        return self.with_segments(segment, self)

    def with_segments(self, *segments: StrPath) -> "Path":
        """The path of these segments in the same tree."""
        return type(self)(self._tree, *segments)

    def joinpath(self, *segments: StrPath) -> "Path":
        """The path with the segments behind it; one that begins with a slash starts again from the root."""
        return self.with_segments(self._pure, *segments)

    @property
    def parts(self) -> Tuple[str, ...]:
        """The root and the names."""
        return self._pure.parts

    @property
    def drive(self) -> str:
        """Always empty."""
        return ""

    @property
    def root(self) -> str:
        """Always a slash."""
        return "/"

    @property
    def anchor(self) -> str:
        """Always a slash."""
        return "/"

    @property
    def name(self) -> str:
        """The last name; empty for the root."""
        return self._pure.name

    @property
    def suffix(self) -> str:
        """The end of the name from its last dot on, or nothing."""
        return self._pure.suffix

    @property
    def suffixes(self) -> List[str]:
        """The ends of the name, split at each dot."""
        return self._pure.suffixes

    @property
    def stem(self) -> str:
        """The name without its suffix."""
        return self._pure.stem

    @property
    def parent(self) -> "Path":
        """The directory that it is in; for the root itself."""
        return self.with_segments(self._pure.parent)

    @property
    def parents(self) -> Sequence["Path"]:
        """The directories above it, the nearest first."""
        return tuple(map(self.with_segments, self._pure.parents))

    def as_posix(self) -> str:
        """Its text."""
        return str(self)

    def is_absolute(self) -> bool:
        """Always true."""
        return True

    def is_reserved(self) -> bool:
        """Always false."""
        return False

    def is_relative_to(self, *other: StrPath) -> bool:
        """Whether it is the other path, or below it."""
        return self._pure.is_relative_to(PurePosixPath(*map(text_of, other)))

    def relative_to(self, *other: StrPath) -> PurePosixPath:
        """The way from the other path to this one, which is of no tree. A ValueError if it is not below the other."""
        return self._pure.relative_to(PurePosixPath(*map(text_of, other)))

    def match(self, pattern: str) -> bool:
        """Whether it matches a pattern, from its end on if that is relative."""
        return self._pure.match(pattern)

    def full_match(self, pattern: str) -> bool:
        """Whether all of it matches a pattern, in which `**` stands for any number of names."""
        return _matches(_split(pattern), ["/", *self._pure.parts[1:]])

    def with_name(self, name: str) -> "Path":
        """The path with another last name."""
        return self.with_segments(self._pure.with_name(name))

    def with_stem(self, stem: str) -> "Path":
        """The path with another stem."""
        return self.with_segments(self._pure.with_stem(stem))

    def with_suffix(self, suffix: str) -> "Path":
        """The path with another suffix, or none."""
        return self.with_segments(self._pure.with_suffix(suffix))

    def absolute(self) -> "Path":
        """Itself."""
        return self

    def resolve(self, strict: bool = False) -> "Path":
        """The path without `..`: each takes the name before it away, as there are no links. With `strict` it has to exist."""
        names: List[str] = []
        for name in self._pure.parts[1:]:
            if name != "..":
                names.append(name)
            elif names:
                names.pop()
        resolved = self.with_segments("/", *names)
        if strict:
            resolved.stat()
        return resolved

    # ---- reading

    def stat(self, *, follow_symlinks: bool = True) -> "Stat":
        """Its kind, size and mtime, also under the names of `os.stat_result`: `st_size`, `st_mtime`, `st_mode`."""
        return self._tree.stat(self)

    def lstat(self) -> "Stat":
        """The same as `stat`."""
        return self.stat()

    def exists(self, *, follow_symlinks: bool = True) -> bool:
        """Whether it exists."""
        return self._tree.exists(self)

    def is_dir(self, *, follow_symlinks: bool = True) -> bool:
        """Whether it is a directory."""
        return self._tree.is_dir(self)

    def is_file(self, *, follow_symlinks: bool = True) -> bool:
        """Whether it is a file."""
        return self._tree.is_file(self)

    def is_symlink(self) -> bool:
        """Always false."""
        return False

    def samefile(self, other: Union[str, PurePosixPath, "Path"]) -> bool:
        """Whether both exist and are the same entry."""
        there = other if isinstance(other, Path) else self.with_segments(other)
        return self.resolve(strict=True) == there.resolve(strict=True)

    def read_bytes(self) -> bytes:
        """All bytes of the file."""
        return self._tree.read_bytes(self)

    def read_text(self, encoding: Optional[str] = None, errors: Optional[str] = None, newline: Optional[str] = None) -> str:
        """The text of the file: UTF-8 if no encoding is given. Line ends are read as `open` reads them."""
        return self._tree.read_text(self, encoding, errors, newline)

    def iterdir(self) -> Iterator["Path"]:
        """The paths in the directory, in the order of their names' bytes."""
        return iter([self / name for name in self._tree.listdir(self)])

    def glob(self, pattern: str) -> Iterator["Path"]:
        """The paths below it that match a relative pattern: `*`, `?` and `[..]` within a name, which may begin with a dot, and
        `**` for any number of directories; behind a last `**` also files. A pattern that ends with a slash matches only
        directories. An absolute pattern is a NotImplementedError, and an empty one a ValueError."""
        if not pattern:
            raise ValueError(f"unacceptable pattern: {pattern!r}")
        if pattern.startswith("/"):
            raise NotImplementedError("absolute patterns are for volume.glob()")
        return map(self.with_segments, find(self._tree, str(self), pattern))

    def rglob(self, pattern: str) -> Iterator["Path"]:
        """As `glob` with `**/` before the pattern."""
        return self.glob("**/" + pattern)

    def walk(
        self,
        top_down: bool = True,
        on_error: Optional[Callable[[OSError], object]] = None,
        follow_symlinks: bool = False,
    ) -> Iterator[Tuple["Path", List[str], List[str]]]:
        """Each directory from here on with the names of its directories and files: above those below it, when a name that is
        removed from the first list is not walked into, or after them. An error of a listing is handed to `on_error`, or
        ignored."""
        try:
            entries = self._tree.scandir(self)
        except OSError as error:
            if on_error is not None:
                on_error(error)
            return
        folders = [entry.name for entry in entries if entry.is_dir()]
        files = [entry.name for entry in entries if entry.is_file()]
        if top_down:
            yield self, folders, files
        for name in folders:
            yield from (self / name).walk(top_down, on_error)
        if not top_down:
            yield self, folders, files

    @overload
    def open(
        self, mode: "OpenTextMode" = "r", buffering: int = -1, encoding: Optional[str] = None,
        errors: Optional[str] = None, newline: Optional[str] = None,
    ) -> TextIOWrapper: ...
    @overload
    def open(
        self, mode: "OpenBinaryMode", buffering: Literal[0], encoding: None = None, errors: None = None, newline: None = None
    ) -> "File": ...
    @overload
    def open(
        self, mode: "OpenBinaryModeUpdating", buffering: Literal[-1, 1] = -1, encoding: None = None, errors: None = None,
        newline: None = None,
    ) -> BufferedRandom: ...
    @overload
    def open(
        self, mode: "OpenBinaryModeWriting", buffering: Literal[-1, 1] = -1, encoding: None = None, errors: None = None,
        newline: None = None,
    ) -> BufferedWriter: ...
    @overload
    def open(
        self, mode: "OpenBinaryModeReading", buffering: Literal[-1, 1] = -1, encoding: None = None, errors: None = None,
        newline: None = None,
    ) -> BufferedReader: ...
    @overload
    def open(
        self, mode: "OpenBinaryMode", buffering: int = -1, encoding: None = None, errors: None = None, newline: None = None
    ) -> Union["File", BinaryIO]: ...
    @overload
    def open(
        self, mode: str, buffering: int = -1, encoding: Optional[str] = None, errors: Optional[str] = None,
        newline: Optional[str] = None,
    ) -> Any: ...
    def open(
        self, mode: str = "r", buffering: int = -1, encoding: Optional[str] = None, errors: Optional[str] = None,
        newline: Optional[str] = None,
    ) -> Any:
        """A file object, as the builtin `open` returns it. Text is UTF-8 if no encoding is given."""
        return self._tree.open(self, mode, buffering, encoding, errors, newline)

    # ---- writing

    def _volume(self) -> "Volume":
        """Its tree, which has to be a volume."""
        if not hasattr(self._tree, "write"):
            raise os_error(errno.EROFS, self)
        return cast("Volume", self._tree)

    def write_bytes(self, data: "ReadableBuffer") -> int:
        """Replaces the content of the file, which is created if it does not exist. Returns how many bytes."""
        return self._volume().write_bytes(self, data)

    def write_text(
        self, data: str, encoding: Optional[str] = None, errors: Optional[str] = None, newline: Optional[str] = None
    ) -> int:
        """Replaces the content of the file by a text, in UTF-8 if no encoding is given. Returns how many characters."""
        return self._volume().write_text(self, data, encoding, errors, newline)

    def touch(self, mode: int = 0o666, exist_ok: bool = True) -> None:
        """Creates an empty file, or gives what exists the clock's timestamp. No mode is stored."""
        self._volume().touch(self, exist_ok)

    def mkdir(self, mode: int = 0o777, parents: bool = False, exist_ok: bool = False) -> None:
        """Creates the directory, and with `parents` those above it. No mode is stored."""
        volume = self._volume()
        if parents:
            volume.makedirs(self, exist_ok)
            return
        try:
            volume.mkdir(self)
        except FileExistsError:
            if not (exist_ok and self.is_dir()):
                raise

    def unlink(self, missing_ok: bool = False) -> None:
        """Removes the file."""
        try:
            self._volume().unlink(self)
        except FileNotFoundError:
            if not missing_ok:
                raise

    def rmdir(self) -> None:
        """Removes the empty directory."""
        self._volume().rmdir(self)

    def rmtree(self) -> None:
        """Removes it with everything below it, as `shutil.rmtree` cannot."""
        self._volume().rmtree(self)

    def rename(self, target: StrPath) -> "Path":
        """Moves it, with everything below it, to an absolute path, which is returned. A file replaces a file there, and a
        directory an empty directory."""
        new = self.with_segments(target)
        self._volume().rename(self, new)
        return new

    def replace(self, target: StrPath) -> "Path":
        """The same as `rename`."""
        return self.rename(target)

    def copy(self, target: StrPath) -> "Path":
        """Copies it, with everything below it, to an absolute path, which is returned, as `Volume.copy` does."""
        new = self.with_segments(target)
        self._volume().copy(self, new)
        return new


# ---- patterns

_MAGIC = re.compile(r"[*?\[]")


def _split(pattern: str) -> List[str]:
    """The names of a pattern, behind a slash if it begins with one. Of `**` that follow each other one is left."""
    names: List[str] = ["/"] if pattern.startswith("/") else []
    for name in pattern.split("/"):
        if name not in ("", ".") and not (name == "**" and names[-1:] == ["**"]):
            names.append(name)
    return names


def _compiled(name: str) -> Pattern[str]:
    return re.compile(translate(name))


def _matches(pattern: List[str], names: List[str]) -> bool:
    """Whether all names match all of a pattern."""
    if not pattern:
        return not names
    if pattern[0] == "**":
        return any(_matches(pattern[1:], names[place:]) for place in range(len(names) + 1))
    return bool(names) and _compiled(pattern[0]).match(names[0]) is not None and _matches(pattern[1:], names[1:])


def find(tree: "Tree", top: str, pattern: str) -> Iterator[str]:
    """The paths below `top` that match a relative pattern, each once, in the order of a walk."""
    names = _split(pattern)
    found = _find(tree, top, names, pattern.endswith("/")) if tree.is_dir(top) else iter(())
    return found if names.count("**") < 2 else iter(dict.fromkeys(found))


def _find(tree: "Tree", path: str, names: List[str], folders_only: bool) -> Iterator[str]:
    if not names:
        yield path
    elif names[0] == "**":
        yield from _find_any(tree, path, names[1:], folders_only)
    elif _MAGIC.search(names[0]):
        fits = _compiled(names[0]).match
        needs_folder = len(names) > 1 or folders_only
        for entry in _entries(tree, path):
            if fits(entry.name) and (entry.is_dir or not needs_folder):
                yield from _find(tree, below(path, entry.name), names[1:], folders_only)
    else:
        there = below(path, names[0])
        if _is_there(tree, there, len(names) > 1 or folders_only):
            yield from _find(tree, there, names[1:], folders_only)


def _find_any(tree: "Tree", path: str, names: List[str], folders_only: bool) -> Iterator[str]:
    """What `**` before the names matches: they are looked for here, and in each directory below."""
    yield from _find(tree, path, names, folders_only)
    for entry in _entries(tree, path):
        there = below(path, entry.name)
        if entry.is_dir:
            yield from _find_any(tree, there, names, folders_only)
        elif not names and not folders_only:
            yield there


def _is_there(tree: "Tree", path: str, needs_folder: bool) -> bool:
    """Whether an entry exists, and is a directory if it has to be one. No entry has a path that is too long."""
    try:
        return tree.is_dir(path) if needs_folder else tree.exists(path)
    except OSError as error:
        if error.errno != errno.ENAMETOOLONG:
            raise
        return False


def _entries(tree: "Tree", path: str) -> List[Any]:
    """The entries of a directory; none if it is a file or does not exist."""
    try:
        return list(tree.scandir(path))
    except (FileNotFoundError, NotADirectoryError):
        return []
