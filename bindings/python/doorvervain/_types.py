"""Results and exceptions of the calls of a volume."""
from __future__ import annotations

import errno
import stat
from typing import Any, NamedTuple, Tuple


class Flag(int):
    """A truth value that may also be called, as the methods of `os.DirEntry` are. It equals `True` or `False`."""

    __slots__ = ()

    def __call__(self) -> bool:
        return bool(self)

    def __repr__(self) -> str:
        return repr(bool(self))

    __str__ = __repr__


# The two that exist.
YES, NO = Flag(1), Flag(0)


class Stat(NamedTuple):
    """An entry: whether it is a directory, its size in bytes (0 for a directory), and its mtime, in nanoseconds if the clock is
    the system's. `st_mode`, `st_size`, `st_mtime` and `st_mtime_ns` are the same as `os.stat_result` has it; the mode tells
    the kind, and all permissions, since none are stored.

    >>> Stat(False, 3, 1_500_000_000).st_mtime
    1.5
    """

    is_dir: bool
    size: int
    modified: int

    @property
    def is_file(self) -> bool:
        """Whether it is a file."""
        return not self.is_dir

    @property
    def st_mode(self) -> int:
        """The kind, for `stat.S_ISDIR` and `stat.S_ISREG`, and all permissions."""
        return stat.S_IFDIR | 0o777 if self.is_dir else stat.S_IFREG | 0o666

    @property
    def st_size(self) -> int:
        """The size in bytes; 0 for a directory."""
        return self.size

    @property
    def st_mtime(self) -> float:
        """The mtime in seconds."""
        return self.modified / 1_000_000_000

    @property
    def st_mtime_ns(self) -> int:
        """The mtime in nanoseconds."""
        return self.modified


class Entry(NamedTuple):
    """An entry of a directory: its name, and whether it is a directory. As in `os.DirEntry`, `is_dir()` is a call; without
    the parentheses it is the same truth value.

    >>> folder = Entry("d", YES)
    >>> folder.is_dir(), folder.is_file(), folder == ("d", True)
    (True, False, True)
    """

    name: str
    is_dir: Flag

    def is_file(self) -> bool:
        """Whether it is a file."""
        return not self.is_dir

    def is_symlink(self) -> bool:
        """Whether it is a symbolic link: there are none."""
        return False


class BadImage(OSError):
    """A text that is not an image. `line` is its first bad line."""

    def __init__(self, line: int) -> None:
        super().__init__(errno.EINVAL, f"no image, from line {line} on")
        self.line = line

    def __reduce__(self) -> Tuple[Any, ...]:
        return type(self), (self.line,)


class BadDelta(OSError):
    """A text that is not a delta, or not one of edits. `line` is its first bad line, or 0 if the result would not be a tree."""

    def __init__(self, line: int) -> None:
        super().__init__(errno.EINVAL, f"no delta, from line {line} on" if line else "delta that makes no tree")
        self.line = line

    def __reduce__(self) -> Tuple[Any, ...]:
        return type(self), (self.line,)
