"""What can be seen of a tree: of each entry its attributes, its bytes, and which other names it has."""
import hashlib
import os
import stat
from pathlib import Path
from typing import NamedTuple


class Seen(NamedTuple):
    mode: int
    user: int
    group: int
    modified: int
    names: int
    first_name: bytes  # of those that lead to the same file
    device: int
    bytes: bytes
    extended: dict[str, bytes]


def extended_of(path: bytes) -> dict[str, bytes]:
    names = os.listxattr(path, follow_symlinks=False)
    return {name: os.getxattr(path, name, follow_symlinks=False) for name in names if name.startswith("user.")}


def bytes_of(path: bytes, mode: int) -> bytes:
    """A target, the checksum of a file, or the names of a directory."""
    if stat.S_ISLNK(mode):
        return os.readlink(path)
    if stat.S_ISREG(mode):
        with open(path, "rb") as file:
            return hashlib.file_digest(file, "sha256").digest()
    return b"\0".join(sorted(os.listdir(path))) if stat.S_ISDIR(mode) else b""


def look(path: bytes, name: bytes, first: dict[int, bytes]) -> Seen:
    reported = os.lstat(path)
    is_directory = stat.S_ISDIR(reported.st_mode)
    device = reported.st_rdev if stat.S_ISCHR(reported.st_mode) or stat.S_ISBLK(reported.st_mode) else 0
    return Seen(reported.st_mode, reported.st_uid, reported.st_gid, reported.st_mtime_ns, 0 if is_directory else reported.st_nlink,
                first.setdefault(reported.st_ino, name), device, bytes_of(path, reported.st_mode), extended_of(path))


def paths_below(top: bytes, prefix: bytes = b"") -> list[bytes]:
    out = [] if prefix else [b"."]
    for folder, folders, files in os.walk(top):
        if folder == top:
            folders[:], files = ([name for name in some if name.startswith(prefix)] for some in (folders, files))
        out += [os.path.relpath(os.path.join(folder, name), top) for name in folders + files]
    return sorted(out)


def seen(top: Path | str | bytes, prefix: bytes = b"") -> dict[bytes, Seen]:
    """By the path from the top: of all names in it, or of those that begin with a prefix, and not of the top."""
    top, first = os.fsencode(top), {}
    return {path: look(os.path.join(top, path), path, first) for path in paths_below(top, prefix)}


def alike(one: dict[bytes, Seen], other: dict[bytes, Seen]) -> None:
    """Ends by an AssertionError that tells the first entries that differ."""
    differ = [path for path in sorted(one.keys() | other.keys()) if one.get(path) != other.get(path)]
    assert not differ, "\n".join(f"{path}:\n  {one.get(path)}\n  {other.get(path)}" for path in differ[:5])
