"""Directories of the system: copied into a volume, and out of a tree.

Names are bytes on the system, and are taken as they are, whatever the locale.
"""
from __future__ import annotations

import errno
import os
import stat
from contextlib import contextmanager
from typing import TYPE_CHECKING, Iterator, List, NamedTuple, NoReturn, Tuple

from ._path import HostPath, StrPath, below, os_error, text_of

if TYPE_CHECKING:
    from ._volume import Tree, Volume

# How many bytes are copied at once.
_PIECE = 1 << 20

_KINDS = {
    stat.S_IFLNK: "a symbolic link",
    stat.S_IFIFO: "a pipe",
    stat.S_IFSOCK: "a socket",
    stat.S_IFCHR: "a device",
    stat.S_IFBLK: "a device",
}


def pieces(tree: "Tree", path: StrPath) -> Iterator[Tuple[int, bytes]]:
    """The bytes of a file that are stored, in pieces with their offsets; all others are zeros."""
    offset, size = 0, tree.stat(path).size
    while offset < size:
        start, end = tree._next_extent(path, offset)
        for offset in range(start, end, _PIECE):
            yield offset, tree.read(path, min(_PIECE, end - offset), offset)
        offset = end


@contextmanager
def paths_as(host_path: HostPath) -> Iterator[None]:
    """An error of the system names its path as `str`, unless the directory was given as bytes."""
    try:
        yield
    except OSError as error:
        if isinstance(error.filename, bytes) and not isinstance(os.fspath(host_path), bytes):
            error.filename = os.fsdecode(error.filename)
        raise


# ---- into a volume


class _Folder(NamedTuple):
    """A directory of the system while it is walked: its path, from the top on and whole, the open directory, and the state of
    its entries."""

    inside: str
    host: bytes
    opened: int
    entries: List[Tuple[bytes, os.stat_result]]


def _raise(error: OSError) -> NoReturn:
    raise error


def _folders(top: bytes) -> Iterator[_Folder]:
    """The directories of a tree, from the top down. No symbolic link is followed."""
    for host, names, others, opened in os.fwalk(top, onerror=_raise, follow_symlinks=False):
        entries = [(name, os.stat(name, dir_fd=opened, follow_symlinks=False)) for name in sorted(names + others)]
        yield _Folder(text_of(host[len(top) :]), host, opened, entries)
        names[:] = [name for name, state in entries if stat.S_ISDIR(state.st_mode)]


def _special(top: bytes, skips: bool) -> List[str]:
    """The entries that are neither directories nor files; the first is an error unless they are skipped."""
    found = []
    for folder in _folders(top):
        for name, state in folder.entries:
            if stat.S_ISDIR(state.st_mode) or stat.S_ISREG(state.st_mode):
                continue
            kind = _KINDS.get(stat.S_IFMT(state.st_mode), "a special file")
            host = os.path.join(folder.host, name)
            if not skips:
                raise os_error(errno.ENOTSUP, os.fsdecode(host), f"{kind} has no place in a volume")
            found.append(os.fsdecode(host))
    return found


def _mtime(state: os.stat_result) -> int:
    """An mtime as a volume has it: none is before 1970."""
    return max(state.st_mtime_ns, 0)


def _import_file(volume: "Volume", path: str, folder: _Folder, name: bytes) -> None:
    flags = os.O_RDONLY | os.O_NOFOLLOW | os.O_NONBLOCK
    with open(name, "rb", buffering=0, opener=lambda it, _: os.open(it, flags, dir_fd=folder.opened)) as file:
        state = os.fstat(file.fileno())
        if not stat.S_ISREG(state.st_mode):
            raise os_error(errno.ENOTSUP, name, "it is no longer a file")
        volume._empty(path)
        offset = 0
        while True:
            piece = file.read(_PIECE)
            if not piece:
                break
            if piece.count(0) < len(piece):
                volume.write(path, piece, offset)
            offset += len(piece)
        volume.truncate(path, offset, at=_mtime(state))


def import_tree(volume: "Volume", host_path: HostPath, path: StrPath, skip_special: bool) -> List[str]:
    """What `Volume.import_tree` does."""
    top = os.path.realpath(os.fsencode(host_path))
    if not stat.S_ISDIR(os.stat(top).st_mode):
        raise os_error(errno.ENOTDIR, host_path)
    skipped = _special(top, skip_special)
    start = text_of(path)
    volume.makedirs(start, exist_ok=True)
    times = []
    for folder in _folders(top):
        at = below(start, folder.inside.lstrip("/")) if folder.inside else start
        if not volume.is_dir(at):
            volume.mkdir(at)
        times.append((at, _mtime(os.fstat(folder.opened))))
        for name, state in folder.entries:
            if stat.S_ISREG(state.st_mode):
                _import_one(volume, below(at, text_of(name)), folder, name)
    # Later, since each entry that is created changes its directory.
    for at, mtime in times:
        volume.utime(at, at=mtime)
    return skipped


def _import_one(volume: "Volume", path: str, folder: _Folder, name: bytes) -> None:
    """Imports a file; an error of the system names all of its path."""
    try:
        _import_file(volume, path, folder, name)
    except OSError as error:
        if error.filename != name:
            raise
        raise os_error(error.errno or 0, os.fsdecode(os.path.join(folder.host, name)), error.strerror) from None


# ---- out of a tree


def _export_file(tree: "Tree", path: str, host: bytes) -> None:
    state = tree.stat(path)
    with open(os.open(host, os.O_WRONLY | os.O_CREAT | os.O_EXCL | os.O_NOFOLLOW, 0o666), "wb", buffering=0) as file:
        for offset, piece in pieces(tree, path):
            rest = memoryview(piece)
            while rest:
                count = os.pwrite(file.fileno(), rest, offset)
                rest, offset = rest[count:], offset + count
        file.truncate(state.size)
        os.utime(file.fileno(), ns=(state.modified, state.modified))


def export_tree(tree: "Tree", host_path: HostPath, path: StrPath) -> None:
    """What `Tree.export_tree` does, of a tree that nothing changes meanwhile."""
    start, top = text_of(path), os.fsencode(host_path)
    if not tree.stat(start).is_dir:
        raise os_error(errno.ENOTDIR, path)
    if not os.path.isdir(top):
        os.mkdir(top)
    elif os.listdir(top):
        raise os_error(errno.ENOTEMPTY, host_path)
    times = []
    for folder, folders, files in tree.walk(start):
        host = top + folder[len(start.rstrip("/")) :].encode("utf-8", "surrogateescape")
        for name in folders:
            os.mkdir(os.path.join(host, name.encode("utf-8", "surrogateescape")))
        for name in files:
            _export_file(tree, below(folder, name), os.path.join(host, name.encode("utf-8", "surrogateescape")))
        times.append((host, tree.stat(folder).modified))
    for host, mtime in times:
        os.utime(host, ns=(mtime, mtime))
