"""A file system of `fsspec`, under the name `doorvervain`.

>>> import fsspec
>>> files = fsspec.filesystem("doorvervain", name="example")
>>> files.pipe("/data/one.csv", b"a,b")
>>> files.cat("/data/one.csv")
b'a,b'
>>> files.volume.snapshot("first")
>>> files.rm("/data", recursive=True)
>>> files.volume.restore("first")
>>> files.find("/")
['/data/one.csv']

File systems of one `name` share one volume in the process, as those of `memory` share theirs.
"""
from __future__ import annotations

import errno
import io
import threading
from datetime import datetime, timezone
from glob import has_magic
from typing import Any, Dict, List, Optional, Union

from fsspec import AbstractFileSystem

from ._file import File
from ._path import os_error
from ._types import Entry
from ._volume import Volume

_volumes: Dict[str, Volume] = {}
_lock = threading.Lock()


def _shared(name: str) -> Volume:
    """The volume of that name, which is made when it is first asked for."""
    with _lock:
        volume = _volumes.get(name)
        if volume is None or volume.closed:
            volume = _volumes[name] = Volume()
        return volume


class DoorvervainFileSystem(AbstractFileSystem):
    """Files in a volume.

    `volume` is the volume; where there is none, that of `name`. `auto_mkdir` says whether a file that is written has the
    directories above it made.
    """

    protocol = "doorvervain"
    root_marker = "/"

    def __init__(
        self, volume: Optional[Volume] = None, name: str = "", auto_mkdir: bool = True, **options: Any
    ) -> None:
        super().__init__(**options)
        self.volume = volume if volume is not None else _shared(name)
        self.auto_mkdir = auto_mkdir

    @classmethod
    def _strip_protocol(cls, path: Any) -> Any:
        if type(path) is str and path[:1] == "/" and path[-1] != "/" and "//" not in path:
            return path
        if isinstance(path, list):
            return [cls._strip_protocol(it) for it in path]
        path = str(path)
        if path.startswith("doorvervain:"):
            path = path[12:]
        return "/" + "/".join(part for part in path.split("/") if part)

    def _info(self, path: str) -> Dict[str, Any]:
        stat = self.volume.stat(path)
        return {
            "name": path,
            "size": stat.size,
            "type": "directory" if stat.is_dir else "file",
            "modified": stat.modified,
        }

    def info(self, path: str, **kwargs: Any) -> Dict[str, Any]:
        """The entry at a path; `modified` is its mtime."""
        path = self._strip_protocol(path)
        try:
            return self._info(path)
        except NotADirectoryError:
            raise FileNotFoundError(path) from None

    def exists(self, path: str, **kwargs: Any) -> bool:
        """Whether a path exists."""
        return self.volume.exists(self._strip_protocol(path))

    def isdir(self, path: str) -> bool:
        """Whether a path is a directory."""
        return self.volume.is_dir(self._strip_protocol(path))

    def isfile(self, path: str) -> bool:
        """Whether a path is a file."""
        return self.volume.is_file(self._strip_protocol(path))

    def ls(self, path: str, detail: bool = True, **kwargs: Any) -> List[Any]:
        """The entries of a directory, or a file by itself."""
        path = self._strip_protocol(path)
        # (no other thread removes an entry before it is asked for)
        with self.volume._lock:
            if self.volume.is_file(path):
                return [self._info(path)] if detail else [path]
            try:
                entries: List[Entry] = self.volume.scandir(path)
            except NotADirectoryError:
                raise FileNotFoundError(path) from None
            before = "/" if path == "/" else path + "/"
            names = [before + entry.name for entry in entries]
            return [self._info(name) for name in names] if detail else names

    def mkdir(self, path: str, create_parents: bool = True, **kwargs: Any) -> None:
        """Makes a directory."""
        path = self._strip_protocol(path)
        if create_parents:
            self.volume.makedirs(path)
        else:
            self.volume.mkdir(path)

    def makedirs(self, path: str, exist_ok: bool = False) -> None:
        """Makes a directory and those above it."""
        self.volume.makedirs(self._strip_protocol(path), exist_ok)

    def rmdir(self, path: str) -> None:
        """Takes an empty directory out."""
        self.volume.rmdir(self._strip_protocol(path))

    def rm_file(self, path: str) -> None:
        """Takes a file out."""
        self.volume.unlink(self._strip_protocol(path))

    def _rm(self, path: str) -> None:
        self.rm_file(path)

    def rm(self, path: Union[str, List[str]], recursive: bool = False, maxdepth: Optional[int] = None) -> None:
        """Takes files out; with `recursive` directories with all below them, each by one call."""
        if maxdepth is not None:
            super().rm(path, recursive=recursive, maxdepth=maxdepth)
            return
        for given in path if isinstance(path, list) else [path]:
            given = self._strip_protocol(given)
            found = self.glob(given) if has_magic(given) else [given]
            if not found:
                raise FileNotFoundError(given)
            for one in found:
                self._take_out(one, recursive)

    def _take_out(self, path: str, recursive: bool) -> None:
        if not self.volume.is_dir(path):
            self.volume.unlink(path)
        elif not recursive:
            self.volume.rmdir(path)
        elif path == "/":
            for name in self.volume.listdir("/"):
                self.volume.rmtree("/" + name)
        else:
            self.volume.rmtree(path)

    def _above(self, path: str) -> None:
        """Makes the directories above a path."""
        above = self._parent(path)
        if above != "/":
            self.volume.makedirs(above, exist_ok=True)

    def pipe_file(self, path: str, value: Any, **kwargs: Any) -> None:
        """Makes a file hold these bytes and no others."""
        path = self._strip_protocol(path)
        if kwargs.get("mode") == "create":
            self._made(path, self.volume.create)
        try:
            self.volume.write_bytes(path, value)
        except FileNotFoundError:
            if not self.auto_mkdir:
                raise
            self._above(path)
            self.volume.write_bytes(path, value)

    def _made(self, path: str, make: Any) -> Any:
        """What `make` gives for the path, with the directories above it made where that is asked for."""
        try:
            return make(path)
        except FileNotFoundError:
            if not self.auto_mkdir:
                raise
        self._above(path)
        return make(path)

    def cat_file(self, path: str, start: Optional[int] = None, end: Optional[int] = None, **kwargs: Any) -> bytes:
        """The bytes of a file, or those from `start` up to `end`; negative places count from its end."""
        path = self._strip_protocol(path)
        if start is None and end is None:
            return self.volume.read(path)
        with self.volume._lock:
            length = self.volume.stat(path).size
            first, last, _ = slice(start, end).indices(length)
            return self.volume.read(path, max(last - first, 0), first)

    def cp_file(self, path1: str, path2: str, **kwargs: Any) -> None:
        """Copies a file, or makes a directory as the first one is."""
        path1, path2 = self._strip_protocol(path1), self._strip_protocol(path2)
        if self.volume.is_dir(path1):
            self.volume.makedirs(path2, exist_ok=True)
        elif path1 != path2:
            self.pipe_file(path2, self.volume.read(path1))

    def mv(self, path1: str, path2: str, recursive: bool = False, maxdepth: Optional[int] = None, **kwargs: Any) -> None:
        """Moves a file, or a directory with all below it, by one call; onto a directory, into it."""
        path1, path2 = self._strip_protocol(path1), self._strip_protocol(path2)
        if path1 == path2:
            return
        if self.volume.is_dir(path2):
            path2 = f"{path2.rstrip('/')}/{path1.rsplit('/', 1)[-1]}"
        # (no directory is made for what does not exist)
        self.info(path1)
        self._made(path2, lambda to: self.volume.rename(path1, to))

    def touch(self, path: str, truncate: bool = True, **kwargs: Any) -> None:
        """Creates an empty file; an existing one is truncated, or only gets the timestamp."""
        path = self._strip_protocol(path)
        if truncate or not self.volume.exists(path):
            self._made(path, self.volume._empty)
        else:
            self.volume.utime(path)

    def created(self, path: str) -> datetime:
        """The mtime: a time of creation is not stored."""
        return self.modified(path)

    def modified(self, path: str) -> datetime:
        """When a path was last changed."""
        at = self.info(path)["modified"]
        return datetime.fromtimestamp(at / 1e9, tz=timezone.utc)

    def sign(self, path: str, expiration: int = 100, **kwargs: Any) -> str:
        """There is no link to what is in memory."""
        raise NotImplementedError("what is in memory has no link")

    def _open(
        self,
        path: str,
        mode: str = "rb",
        block_size: Optional[int] = None,
        autocommit: bool = True,
        cache_options: Any = None,
        **kwargs: Any,
    ) -> Any:
        path = self._strip_protocol(path)
        plain = mode.replace("b", "").replace("t", "")
        if plain == "r":
            return _Reader(File(self.volume, path))
        if not autocommit:
            return _Pending(self, path, plain)
        raw = File(self.volume, path, plain) if plain == "r+" else self._made(path, lambda to: File(self.volume, to, plain))
        return io.BufferedRandom(raw) if "+" in plain else io.BufferedWriter(raw)


class _Reader(io.BufferedReader):
    """A file that is read, with what fsspec asks of its files beside."""

    raw: File

    @property
    def size(self) -> int:
        """How many bytes the file has."""
        return self.raw.size


class _Pending(io.BufferedWriter):
    """A file of a transaction: it is written beside its path, and put there when all are committed."""

    def __init__(self, files: DoorvervainFileSystem, path: str, mode: str) -> None:
        self._files = files
        self._to = path
        self._beside = f"{path}.{id(self):x}.pending"
        if mode.startswith("x") and files.volume.exists(path):
            raise os_error(errno.EEXIST, path)
        if mode.startswith("a") and files.volume.exists(path):
            files.volume.write_bytes(self._beside, files.volume.read(path))
        super().__init__(files._made(self._beside, lambda to: File(files.volume, to, mode[0])))

    def commit(self) -> None:
        """Puts the file at its path."""
        self.close()
        self._files.volume.rename(self._beside, self._to)

    def discard(self) -> None:
        """Takes the file away."""
        self.close()
        self._files.volume.unlink(self._beside)
