"""A file system of PyFilesystem2 (`fs`), under `doorvervain://`.

>>> import fs
>>> files = fs.open_fs("doorvervain://")
>>> files.writetext("notes.txt", "rain")
>>> files.volume.snapshot("monday")
>>> files.remove("notes.txt")
>>> files.volume.restore("monday")
>>> files.readtext("notes.txt")
'rain'
"""
from __future__ import annotations

import errno
from datetime import datetime
from typing import Any, BinaryIO, Callable, Collection, Dict, Iterator, List, Mapping, Optional, Tuple, Union, cast

from fs import errors
from fs.base import FS
from fs.enums import ResourceType
from fs.info import Info
from fs.mode import Mode, validate_open_mode
from fs.opener import Opener
from fs.path import abspath, basename, isbase, normpath
from fs.permissions import Permissions
from fs.subfs import SubFS

from ._file import open_file
from ._types import Stat
from ._volume import Volume

# The exceptions for an error number if a file was expected, and if a directory was.
_OF_FILES = {
    errno.ENOENT: errors.ResourceNotFound,
    errno.ENOTDIR: errors.ResourceNotFound,
    errno.EISDIR: errors.FileExpected,
    errno.EPERM: errors.FileExpected,
    errno.EEXIST: errors.FileExists,
    errno.EFBIG: errors.InsufficientStorage,
    errno.ENOMEM: errors.InsufficientStorage,
    errno.EINVAL: errors.InvalidPath,
    errno.ENAMETOOLONG: errors.InvalidPath,
}
_OF_DIRECTORIES = {
    **_OF_FILES,
    errno.ENOTDIR: errors.DirectoryExpected,
    errno.EEXIST: errors.DirectoryExists,
    errno.ENOTEMPTY: errors.DirectoryNotEmpty,
    errno.EBUSY: errors.RemoveRootError,
}


def _fs_error(error: OSError, path: str, names: Mapping[int, Any] = _OF_FILES) -> Exception:
    """An error as an exception of PyFilesystem2."""
    return cast(Exception, names.get(error.errno or 0, errors.OperationFailed)(path=path))


class DoorvervainFS(FS):
    """Files in a volume, which is closed with the file system where that made it."""

    _meta = {
        "case_insensitive": False,
        "invalid_path_chars": "\0",
        "network": False,
        "read_only": False,
        "supports_mtime": True,
        "supports_rename": False,
        "thread_safe": True,
        "unicode_paths": True,
        "virtual": False,
    }

    def __init__(self, volume: Optional[Volume] = None) -> None:
        self._owns = volume is None
        self.volume = Volume() if volume is None else volume
        super().__init__()

    def __repr__(self) -> str:
        return "DoorvervainFS()"

    def __str__(self) -> str:
        return "<doorvervainfs>"

    def close(self) -> None:
        """Closes the file system."""
        if not self._closed and self._owns:
            self.volume.close()
        super().close()

    def validatepath(self, path: str) -> str:
        """The path from the root on, without what a volume does not take."""
        self.check()
        if isinstance(path, bytes):
            raise TypeError("paths must be str (not bytes)")
        if "\0" in path:
            raise errors.InvalidCharsInPath(path)
        return abspath(normpath(path))

    def getinfo(self, path: str, namespaces: Optional[Collection[str]] = None) -> Info:
        """What is known of a path."""
        at = self.validatepath(path)
        try:
            stat = self.volume.stat(at)
        except OSError as error:
            raise _fs_error(error, path) from None
        return Info(_raw(basename(at), stat, namespaces or ()))

    def exists(self, path: str) -> bool:
        """Whether a path exists."""
        return self._is(self.volume.exists, path)

    def isdir(self, path: str) -> bool:
        """Whether a path is a directory."""
        return self._is(self.volume.is_dir, path)

    def isfile(self, path: str) -> bool:
        """Whether a path is a file."""
        return self._is(self.volume.is_file, path)

    def _is(self, asks: Callable[[str], bool], path: str) -> bool:
        """What a call that asks about a path answers."""
        at = self.validatepath(path)
        try:
            return asks(at)
        except OSError as error:
            raise _fs_error(error, path) from None

    def listdir(self, path: str) -> List[str]:
        """The names in a directory."""
        at = self.validatepath(path)
        try:
            return self.volume.listdir(at)
        except OSError as error:
            raise _fs_error(error, path, _OF_DIRECTORIES) from None

    def scandir(
        self, path: str, namespaces: Optional[Collection[str]] = None, page: Optional[Tuple[int, int]] = None
    ) -> Iterator[Info]:
        """What is known of each entry of a directory."""
        at = self.validatepath(path)
        with self.volume._lock:
            try:
                entries = self.volume.scandir(at)
            except OSError as error:
                raise _fs_error(error, path, _OF_DIRECTORIES) from None
            if page is not None:
                entries = entries[page[0] : page[1]]
            if not namespaces:
                infos = [Info({"basic": {"name": entry.name, "is_dir": entry.is_dir()}}) for entry in entries]
            else:
                before = "/" if at == "/" else at + "/"
                infos = [
                    Info(_raw(entry.name, self.volume.stat(before + entry.name), namespaces)) for entry in entries
                ]
        return iter(infos)

    def makedir(
        self, path: str, permissions: Optional[Permissions] = None, recreate: bool = False
    ) -> SubFS["DoorvervainFS"]:
        """Makes a directory."""
        at = self.validatepath(path)
        try:
            self.volume.mkdir(at)
        except FileExistsError:
            if not recreate:
                raise errors.DirectoryExists(path) from None
        except NotADirectoryError:
            raise errors.ResourceNotFound(path) from None
        except OSError as error:
            raise _fs_error(error, path, _OF_DIRECTORIES) from None
        return cast("SubFS[DoorvervainFS]", self.opendir(path))

    def open(
        self,
        path: str,
        mode: str = "r",
        buffering: int = -1,
        encoding: Optional[str] = None,
        errors: Optional[str] = None,
        newline: Optional[str] = "",
        **options: Any,
    ) -> Any:
        """A file object of the mode that `io.open` takes."""
        validate_open_mode(mode)
        if "b" in mode:
            return self._opened(path, mode, buffering)
        return self._opened(path, mode, buffering, encoding or "utf-8", errors, newline)

    def openbin(self, path: str, mode: str = "r", buffering: int = -1, **options: Any) -> BinaryIO:
        """A file object of bytes."""
        binary = Mode(mode)
        binary.validate_bin()
        return cast(BinaryIO, self._opened(path, binary.to_platform_bin(), buffering))

    def _opened(self, path: str, mode: str, buffering: int, *text: Optional[str]) -> Any:
        at = self.validatepath(path)
        try:
            return open_file(self.volume, at, mode, buffering, *text)
        except FileExistsError:
            # The root exists too, and is not a file.
            raise (errors.FileExpected if at == "/" else errors.FileExists)(path) from None
        except OSError as error:
            raise _fs_error(error, path) from None

    def create(self, path: str, wipe: bool = False) -> bool:
        """Makes an empty file, or with `wipe` empties the one that is there: whether it did."""
        at = self.validatepath(path)
        try:
            if wipe:
                self.volume._empty(at)
            else:
                self.volume.create(at)
        except FileExistsError:
            return False
        except OSError as error:
            raise _fs_error(error, path) from None
        return True

    def readbytes(self, path: str) -> bytes:
        """All bytes of a file."""
        at = self.validatepath(path)
        try:
            return self.volume.read(at)
        except OSError as error:
            raise _fs_error(error, path) from None

    def writebytes(self, path: str, contents: bytes) -> None:
        """Makes a file hold these bytes and no others."""
        if not isinstance(contents, bytes):
            raise TypeError("contents must be bytes")
        at = self.validatepath(path)
        try:
            self.volume.write_bytes(at, contents)
        except OSError as error:
            raise _fs_error(error, path) from None

    def remove(self, path: str) -> None:
        """Takes a file out."""
        at = self.validatepath(path)
        try:
            self.volume.unlink(at)
        except OSError as error:
            raise _fs_error(error, path) from None

    def removedir(self, path: str) -> None:
        """Takes an empty directory out."""
        at = self.validatepath(path)
        try:
            self.volume.rmdir(at)
        except OSError as error:
            raise _fs_error(error, path, _OF_DIRECTORIES) from None

    def removetree(self, dir_path: str) -> None:
        """Takes a directory out with all below it, by one call; of the root, what it holds."""
        at = self.validatepath(dir_path)
        with self.volume._lock:
            try:
                names = self.volume.listdir(at) if at == "/" else []
                if not self.volume.stat(at).is_dir:
                    raise errors.DirectoryExpected(dir_path)
                for below in [at] if at != "/" else ["/" + name for name in names]:
                    self.volume.rmtree(below)
            except OSError as error:
                raise _fs_error(error, dir_path, _OF_DIRECTORIES) from None

    def move(self, src_path: str, dst_path: str, overwrite: bool = False, preserve_time: bool = False) -> None:
        """Moves a file, by one call. It keeps its mtime."""
        old, new = self.validatepath(src_path), self.validatepath(dst_path)
        with self.volume._lock:
            if not overwrite and self.exists(dst_path):
                raise errors.DestinationExists(dst_path)
            try:
                if self.volume.stat(old).is_dir:
                    raise errors.FileExpected(src_path)
                self.volume.rename(old, new)
            except OSError as error:
                is_there = self.volume.exists(old)
                raise _fs_error(error, dst_path if is_there else src_path) from None

    def movedir(self, src_path: str, dst_path: str, create: bool = False, preserve_time: bool = False) -> None:
        """Moves a directory with everything below it: by one call if its new path does not exist, and else into the
        directory there."""
        old, new = self.validatepath(src_path), self.validatepath(dst_path)
        with self.volume._lock:
            if create and old != new and not isbase(old, new) and self.isdir(src_path):
                if not self.exists(dst_path) and self.volume.is_dir(new.rsplit("/", 1)[0] or "/"):
                    try:
                        self.volume.rename(old, new)
                    except OSError as error:
                        raise _fs_error(error, dst_path) from None
                    return
        super().movedir(src_path, dst_path, create=create, preserve_time=preserve_time)

    def setinfo(self, path: str, info: Mapping[str, Mapping[str, object]]) -> None:
        """Sets the mtime of a file or directory. Nothing else can be set."""
        at = self.validatepath(path)
        modified: Any = info.get("details", {}).get("modified")
        with self.volume._lock:
            try:
                if modified is None:
                    self.volume.stat(at)
                else:
                    self.volume.utime(at, at=_timestamp_of(modified))
            except OSError as error:
                raise _fs_error(error, path) from None


def _timestamp_of(modified: Union[float, datetime]) -> int:
    """Nanoseconds of a time in seconds since 1970, to the microsecond."""
    seconds = modified.timestamp() if isinstance(modified, datetime) else modified
    return max(round(seconds * 1_000_000), 0) * 1000


def _raw(name: str, stat: Stat, namespaces: Collection[str]) -> Dict[str, Dict[str, object]]:
    """What is known of an entry, as `Info` has it."""
    infos: Dict[str, Dict[str, object]] = {"basic": {"name": name, "is_dir": stat.is_dir}}
    if "details" in namespaces:
        infos["details"] = {
            "_write": [] if stat.is_dir else ["modified"],
            "type": int(ResourceType.directory if stat.is_dir else ResourceType.file),
            "size": stat.size,
            # A quotient of whole numbers is rounded once.
            "modified": stat.modified / 1_000_000_000,
        }
    return infos


class DoorvervainOpener(Opener):
    """Opens `doorvervain://`: each time a file system of its own, as `mem://` does."""

    protocols = ["doorvervain"]

    def open_fs(self, fs_url: str, parse_result: Any, writeable: bool, create: bool, cwd: str) -> DoorvervainFS:
        """A file system over a new volume."""
        return DoorvervainFS()
