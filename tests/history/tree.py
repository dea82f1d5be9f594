"""A plain model of calls on paths: what each does and is answered, case by case as docs/PROFILE.md has it.

The tree is cut into *areas*: `/a0` with all below it, `/a1`, and so on. A call on paths names paths of one area alone, and neither
reads nor changes another. The root is always there; its mtime is not asked for.
"""
from functools import lru_cache

# Of which bytes of a file reads tell, and what stands behind an area's path in those of its places that looks tell of.
OFFSET, COUNT = 4_080, 40
PLACES = ("", "/d", "/e", "/f", "/d/f", "/d/g", "/e/f", "/e/g")
GREATEST = 1 << 40
# The answers of calls that are done and tell nothing, and of two that are refused.
DONE, GONE, STANDS = "ok", "ENOENT", "EEXIST"

# What stands at a path: a file's bytes, or none of a directory; and the mtime.
Entry = tuple[bytes | None, int]


class Area:
    """What stands at the paths of an area. Its entries are never changed."""

    __slots__ = ("entries", "sum", "seen")

    def __init__(self, entries: dict[str, Entry]) -> None:
        self.entries = entries
        # The hash and the picture, once they were asked for.
        self.sum: int | None = None
        self.seen: str | None = None

    def __hash__(self) -> int:
        if self.sum is None:
            self.sum = hash(frozenset(self.entries.items()))
        return self.sum

    def __eq__(self, other: object) -> bool:
        return self is other or isinstance(other, Area) and hash(self) == hash(other) and self.entries == other.entries


EMPTY = Area({})


@lru_cache(None)
def above(path: str) -> tuple[str, ...]:
    """The directories above a path, the root left out: the highest first."""
    names = path.split("/")[1:-1]
    return tuple("/" + "/".join(names[: number + 1]) for number in range(len(names)))


def parent(path: str) -> str:
    return path.rpartition("/")[0]


def parent_fault(entries: dict[str, Entry], path: str) -> str | None:
    """Why nothing can stand at a path; none where its parent is a directory."""
    for directory in above(path):
        entry = entries.get(directory)
        if entry is None:
            return GONE
        if entry[0] is not None:
            return "ENOTDIR"
    return None


def path_fault(entries: dict[str, Entry], path: str) -> str | None:
    """Why nothing stands at a path."""
    return parent_fault(entries, path) or (None if path in entries else GONE)


def below(entries: dict[str, Entry], path: str) -> list[str]:
    """The paths of all that stands below a path."""
    return [it for it in entries if it.startswith(path + "/")]


def touched(entries: dict[str, Entry], path: str, at: int) -> None:
    """Gives the directory above a path an mtime."""
    if directory := parent(path):
        entries[directory] = (None, at)


def make(area: Area, path: str, content: bytes | None, at: int) -> tuple[str, Area]:
    fault = parent_fault(area.entries, path) or (STANDS if path in area.entries else None)
    if fault:
        return fault, area
    new = {**area.entries, path: (content, at)}
    touched(new, path, at)
    return DONE, Area(new)


def do_mkdir(area: Area, at: int, path: str) -> tuple[str, Area]:
    return make(area, path, None, at)


def do_create(area: Area, at: int, path: str) -> tuple[str, Area]:
    return make(area, path, b"", at)


def file_fault(entries: dict[str, Entry], path: str) -> str | None:
    """Why no file stands at a path."""
    return path_fault(entries, path) or ("EISDIR" if entries[path][0] is None else None)


def do_write(area: Area, at: int, path: str, offset: str, text: str) -> tuple[str, Area]:
    first, written = int(offset), bytes.fromhex(text)
    fault = file_fault(area.entries, path)
    if fault:
        return fault, area
    if not written:
        return "count 0", area
    if first + len(written) > GREATEST:
        return "EFBIG", area
    old = area.entries[path][0].ljust(first, b"\0")
    new = old[:first] + written + old[first + len(written) :]
    return f"count {len(written)}", Area({**area.entries, path: (new, at)})


def do_truncate(area: Area, at: int, path: str, length: str) -> tuple[str, Area]:
    fault = file_fault(area.entries, path) or ("EFBIG" if int(length) > GREATEST else None)
    if fault:
        return fault, area
    new = area.entries[path][0][: int(length)].ljust(int(length), b"\0")
    return DONE, Area({**area.entries, path: (new, at)})


def removed(area: Area, path: str, at: int) -> tuple[str, Area]:
    """A path is removed with all below it."""
    new = {it: entry for it, entry in area.entries.items() if it != path and not it.startswith(path + "/")}
    touched(new, path, at)
    return DONE, Area(new)


def do_unlink(area: Area, at: int, path: str) -> tuple[str, Area]:
    fault = path_fault(area.entries, path) or ("EPERM" if area.entries[path][0] is None else None)
    return (fault, area) if fault else removed(area, path, at)


def do_rmdir(area: Area, at: int, path: str) -> tuple[str, Area]:
    fault = path_fault(area.entries, path) or ("ENOTDIR" if area.entries[path][0] is not None else None)
    fault = fault or ("ENOTEMPTY" if below(area.entries, path) else None)
    return (fault, area) if fault else removed(area, path, at)


def do_rmtree(area: Area, at: int, path: str) -> tuple[str, Area]:
    fault = path_fault(area.entries, path)
    return (fault, area) if fault else removed(area, path, at)


def rename_fault(entries: dict[str, Entry], old: str, new: str) -> str | None:
    """Why what stands at a path cannot be moved to another one."""
    is_directory = entries[old][0] is None
    if is_directory and new.startswith(old + "/"):
        return "EINVAL"
    fault = parent_fault(entries, new)
    if fault or new not in entries:
        return fault
    replaces_directory = entries[new][0] is None
    if replaces_directory != is_directory:
        return "EISDIR" if replaces_directory else "ENOTDIR"
    return "ENOTEMPTY" if replaces_directory and below(entries, new) else None


def do_rename(area: Area, at: int, old: str, new: str) -> tuple[str, Area]:
    entries = area.entries
    fault = path_fault(entries, old)
    if fault or old == new:
        return fault or DONE, area
    fault = rename_fault(entries, old, new)
    if fault:
        return fault, area
    moved = {new + it[len(old) :]: entries[it] for it in [old, *below(entries, old)]}
    left = {it: entry for it, entry in entries.items() if it != old and not it.startswith(old + "/")} | moved
    touched(left, old, at)
    touched(left, new, at)
    return DONE, Area(left)


def do_read(area: Area, at: int, path: str) -> tuple[str, Area]:
    fault = file_fault(area.entries, path)
    return fault or "bytes " + area.entries[path][0][OFFSET : OFFSET + COUNT].hex(), area


def do_stat(area: Area, at: int, path: str) -> tuple[str, Area]:
    fault = path_fault(area.entries, path)
    if fault:
        return fault, area
    content, mtime = area.entries[path]
    return f"dir 0 {mtime}" if content is None else f"file {len(content)} {mtime}", area


def names_of(entries: dict[str, Entry], path: str) -> str:
    """The listing of a directory."""
    found = sorted(it for it in entries if parent(it) == path)
    return " ".join(["names", *(("d:" if entries[it][0] is None else "f:") + it[len(path) + 1 :] for it in found)])


def do_readdir(area: Area, at: int, path: str) -> tuple[str, Area]:
    fault = path_fault(area.entries, path) or ("ENOTDIR" if area.entries[path][0] is not None else None)
    return fault or names_of(area.entries, path), area


CALLS = {
    "mkdir": do_mkdir,
    "create": do_create,
    "write": do_write,
    "truncate": do_truncate,
    "unlink": do_unlink,
    "rmdir": do_rmdir,
    "rename": do_rename,
    "rmtree": do_rmtree,
    "read": do_read,
    "stat": do_stat,
    "readdir": do_readdir,
}


def do(area: Area, at: int, kind: str, words: tuple[str, ...]) -> tuple[str, Area]:
    """Does a call of this kind, with these words, at a timestamp: what it is answered, and what it leaves of the area."""
    return CALLS[kind](area, at, *words)


def picture(area: Area, number: int) -> str:
    """What a look tells of an area: of each place what stands there, and a file's bytes or a directory's entries."""
    if area.seen is None:
        area.seen = ",".join(picture_at(area, f"/a{number}{it}") for it in PLACES)
    return area.seen


def picture_at(area: Area, path: str) -> str:
    stat, _ = do_stat(area, 0, path)
    more = {"dir": do_readdir, "file": do_read}.get(stat.split()[0])
    return f" {stat} {more(area, 0, path)[0]}" if more else f" {stat}"


def root_entry(area: Area, number: int) -> str:
    """What the listing of the root tells of an area: a letter, or nothing where there is none."""
    entry = area.entries.get(f"/a{number}")
    return "" if entry is None else "d" if entry[0] is None else "f"
