"""Trees that do one kind of call wrongly: no order explains what clients of one are answered, once it shows."""
from collections.abc import Callable

import tree
from generate import Tree, pictures
from order import DONE, Area, Call

# What a call is answered and leaves of an area, of a call that is answered and leaves this.
OnPaths = Callable[[Area, Call, str, Area], tuple[str, Area]]


def without(area: Area, path: str) -> Area:
    return Area({it: entry for it, entry in area.entries.items() if it != path})


def with_content(area: Area, path: str, content: bytes, at: int) -> Area:
    return Area({**area.entries, path: (content, at)})


def forgets(area: Area, call: Call, answer: str, left: Area) -> tuple[str, Area]:
    """It answers, and changes nothing."""
    return answer, area


def create_empties(area: Area, call: Call, answer: str, left: Area) -> tuple[str, Area]:
    """It empties a file that stands."""
    path = call.words[0]
    is_file = path in area.entries and area.entries[path][0] is not None
    return (DONE, with_content(area, path, b"", call.begin)) if is_file else (answer, left)


def write_loses_patches(area: Area, call: Call, answer: str, left: Area) -> tuple[str, Area]:
    """Of several patches of a file the last one stays."""
    path = call.words[0]
    if left is area:
        return answer, left
    content, offset = left.entries[path][0], int(call.words[1])
    return answer, with_content(left, path, bytes(offset) + content[offset : offset + 8] + bytes(len(content) - offset - 8), call.begin)


def write_stays_in_block(area: Area, call: Call, answer: str, left: Area) -> tuple[str, Area]:
    """It leaves the second block as it was."""
    path = call.words[0]
    if left is area:
        return answer, left
    content, old = left.entries[path][0], area.entries[path][0]
    return answer, with_content(left, path, content[:4096] + old[4096:].ljust(len(content) - 4096, b"\0"), call.begin)


def truncate_keeps_bytes(area: Area, call: Call, answer: str, left: Area) -> tuple[str, Area]:
    """It keeps the bytes behind the new end for the next that lengthens the file."""
    path = call.words[0]
    if left is area:
        return answer, left
    old, length = area.entries[path][0], int(call.words[1])
    return answer, with_content(left, path, old.ljust(length, b"\0"), call.begin)


def rmdir_takes_all(area: Area, call: Call, answer: str, left: Area) -> tuple[str, Area]:
    """It removes a directory with all below it."""
    return tree.do_rmtree(area, call.begin, *call.words) if answer == "ENOTEMPTY" else (answer, left)


def rename_copies(area: Area, call: Call, answer: str, left: Area) -> tuple[str, Area]:
    """It leaves the old path as it was."""
    old = call.words[0]
    return answer, left if left is area else Area({**left.entries, old: area.entries[old]})


def rename_leaves_what_is_below(area: Area, call: Call, answer: str, left: Area) -> tuple[str, Area]:
    """It moves a directory without its entries."""
    new = call.words[1]
    return answer, left if left is area else Area({it: entry for it, entry in left.entries.items() if not it.startswith(f"{new}/")})


def rename_keeps_what_it_replaces(area: Area, call: Call, answer: str, left: Area) -> tuple[str, Area]:
    """The bytes of the file that it replaces stay."""
    new = call.words[1]
    is_file = left is not area and area.entries.get(new, (None,))[0] is not None
    return answer, with_content(left, new, area.entries[new][0], left.entries[new][1]) if is_file else left


def rmtree_removes_one(area: Area, call: Call, answer: str, left: Area) -> tuple[str, Area]:
    """What is below stays, and is there again once the directory is made anew."""
    return answer, left if left is area else Area(without(area, call.words[0]).entries | left.entries)


def read_is_cut(area: Area, call: Call, answer: str, left: Area) -> tuple[str, Area]:
    """It does not see the last byte."""
    return answer[:-2] if answer.startswith("bytes ") and len(answer) > 6 else answer, left


def stat_is_old(area: Area, call: Call, answer: str, left: Area) -> tuple[str, Area]:
    """It tells of an mtime that no call had."""
    kind, *words = answer.split()
    return f"{kind} {words[0]} {int(words[1]) + 1}" if words else answer, left


def readdir_lacks_one(area: Area, call: Call, answer: str, left: Area) -> tuple[str, Area]:
    """It does not see the last entry."""
    return answer.rpartition(" ")[0] if answer.startswith("names ") else answer, left


def on_paths(kind: str, fault: OnPaths) -> type[Tree]:
    """A tree that does calls of this kind so."""

    class Faulty(Tree):
        def do_on_paths(self, area: Area, call: Call) -> tuple[str, Area]:
            answer, left = super().do_on_paths(area, call)
            return fault(area, call, answer, left) if call.kind == kind else (answer, left)

    return Faulty


class SnapshotGoesOn(Tree):
    """What a snapshot keeps of the first area is what stands there when it is asked."""

    def do_whole(self, kind: str, at: int) -> tuple[str, tuple[str, ...]]:
        if kind in ("look", "restore") and at in self.kept:
            self.kept[at] = (self.areas[0], *self.kept[at][1:])
        return super().do_whole(kind, at)


class RestoreLeavesOne(Tree):
    """A restore does not bring the last area back."""

    def do_whole(self, kind: str, at: int) -> tuple[str, tuple[str, ...]]:
        last = self.areas[-1]
        reported = super().do_whole(kind, at)
        if kind == "restore":
            self.areas = (*self.areas[:-1], last)
        return reported


class DropLeaves(Tree):
    """A dropped snapshot is there."""

    def do_whole(self, kind: str, at: int) -> tuple[str, tuple[str, ...]]:
        return (DONE, ()) if kind == "drop_snapshot" and at in self.kept else super().do_whole(kind, at)


class SnapshotReplaces(Tree):
    """A snapshot of a name that stands replaces what it kept."""

    def do_whole(self, kind: str, at: int) -> tuple[str, tuple[str, ...]]:
        if kind == "snapshot":
            self.kept.pop(at, None)
        return super().do_whole(kind, at)


class ScanIsTorn(Tree):
    """A scan sees the last area as the scan before it did."""

    def do_whole(self, kind: str, at: int) -> tuple[str, tuple[str, ...]]:
        if kind != "scan":
            return super().do_whole(kind, at)
        now, old = pictures(self.areas), getattr(self, "old", ())
        self.old = now
        return DONE, (*now[:-1], *old[-1:]) if old else now


class ListLacksOne(Tree):
    """The listing of the root lacks the last area."""

    def do_whole(self, kind: str, at: int) -> tuple[str, tuple[str, ...]]:
        answer, seen = super().do_whole(kind, at)
        return answer, (*seen[:-1], "") if kind == "list" else seen


TREES: dict[str, type[Tree]] = {
    **{f"{kind}_forgets": on_paths(kind, forgets) for kind in ("mkdir", "create", "write", "truncate", "unlink", "rmdir", "rename", "rmtree")},
    **{
        fault.__name__: on_paths(fault.__name__.split("_")[0], fault)
        for fault in (
            create_empties,
            write_loses_patches,
            write_stays_in_block,
            truncate_keeps_bytes,
            rmdir_takes_all,
            rename_copies,
            rename_leaves_what_is_below,
            rename_keeps_what_it_replaces,
            rmtree_removes_one,
            read_is_cut,
            stat_is_old,
            readdir_lacks_one,
        )
    },
    "snapshot_goes_on": SnapshotGoesOn,
    "snapshot_replaces": SnapshotReplaces,
    "restore_leaves_one": RestoreLeavesOne,
    "drop_leaves": DropLeaves,
    "scan_is_torn": ScanIsTorn,
    "list_lacks_one": ListLacksOne,
}
