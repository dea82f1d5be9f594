"""Faults that are planted in a log which one order explains: each is such that none explains it any more.

Most change the answer of a call that no other one of its area overlaps, and between which and the one before it in the area no restore
can come: what that one left is then known (`Planter.runs`). Begins are timestamps, and no two calls have the same one; so what a look
tells of an area it can tell again only behind a restore, once a call has changed something there.
"""
import random
import re
from bisect import bisect_left
from collections.abc import Callable, Iterator

from order import DONE, ON_TREES, STANDS, Call, Log
from tree import COUNT, OFFSET

# Calls, each with the one to be put in its place.
Pairs = Iterator[tuple[Call, Call]]
CHANGING = frozenset(("mkdir", "create", "write", "truncate", "unlink", "rmdir", "rename", "rmtree"))
# An mtime as a look tells it.
MTIME = re.compile(r"(?:dir|file) \d+ (\d+)")


# What looks are answered where something is there.
THERE = {"stat": "dir 0 1", "read": "bytes ", "readdir": "names"}


def articled(kind: str) -> str:
    return f"an {kind}" if kind == "unlink" else f"a {kind}"


def is_done(call: Call) -> bool:
    return call.answer == DONE or call.answer.startswith("count ")


class Planter:
    """Finds the calls of a log in which a fault can be planted, in an order that looks random."""

    def __init__(self, log: Log, seed: int) -> None:
        self.log = log
        self.in_order = sorted(log.calls)
        self.calls = list(self.in_order)
        random.Random(seed).shuffle(self.calls)
        self.restores = [it for it in self.in_order if it.kind == "restore" and it.answer == DONE]
        self.changes = [it for it in self.in_order if it.kind in CHANGING and is_done(it)]
        self.begins = {it.begin: it for it in self.in_order}

    def of_kind(self, kind: str) -> Iterator[Call]:
        return (it for it in self.calls if it.kind == kind)

    def may_restore(self, begin: int, end: int, but: Call | None = None) -> bool:
        """Whether a restore may have its place between two moments."""
        return any(it.begin < end and begin < it.end and it is not but for it in self.restores)

    def runs(self, count: int) -> Iterator[tuple[Call, ...]]:
        """So many calls on paths of one area, one behind the other, with no other beside or between them, and no restore."""
        found = []
        for number in range(self.log.areas):
            calls = [it for it in self.in_order if it.kind not in ON_TREES and it.at == number]
            last = -1
            for place in range(len(calls) - count + 1):
                run = calls[place : place + count]
                behind = calls[place + count].begin if place + count < len(calls) else run[-1].end + 1
                is_alone = last < run[0].begin and all(a.end < b.begin for a, b in zip(run, run[1:])) and run[-1].end < behind
                if is_alone and not self.may_restore(run[0].begin, run[-1].end):
                    found.append(tuple(run))
                last = max(last, calls[place].end)
        random.Random(len(self.calls)).shuffle(found)
        return iter(found)

    def changed_between(self, area: int, begin: int, end: int) -> Call | None:
        """A call that changed something in an area between two moments."""
        first = bisect_left(self.changes, (begin,))
        last = bisect_left(self.changes, (end,))
        return next((it for it in self.changes[first:last] if it.at == area and it.end < end), None)

    def next_of(self, call: Call, kind: str) -> Call | None:
        """The client's next call, if it is of this kind and was done."""
        found = min((it for it in self.log.calls if it.client == call.client and it.begin > call.end), default=None)
        return found if found and found.kind == kind and found.answer == DONE else None

    def seen_before(self, area: int, moment: int) -> Iterator[tuple[str, Call]]:
        """What scans that ended before a moment saw of an area, and the scans."""
        return ((it.seen[area], it) for it in reversed(self.in_order) if it.kind == "scan" and it.end < moment)

    def old_picture(self, area: int, begin: int, end: int) -> str | None:
        """What an area was like, and surely no more from one moment to another."""
        for picture, scan in self.seen_before(area, begin):
            if self.may_restore(scan.begin, end):
                return None
            if self.changed_between(area, scan.end, begin):
                return picture
        return None

    def may_name(self, name: int, begin: int, end: int, *kinds: str) -> bool:
        """Whether a call of these kinds on the name of a snapshot may have its place between two moments."""
        return any(it.kind in kinds and it.at == name and it.answer == DONE and it.begin < end and begin < it.end for it in self.in_order)


def replaced(call: Call, answer: str) -> tuple[Call, Call]:
    return call, call._replace(answer=answer)


def seen(call: Call, area: int, picture: str) -> tuple[Call, Call]:
    """The call that saw something else of an area."""
    return call, call._replace(seen=(*call.seen[:area], picture, *call.seen[area + 1 :]))


def unwritten(it: Planter) -> Pairs:
    """A read has bytes that nobody wrote."""
    for call in it.of_kind("read"):
        if call.answer.startswith("bytes ") and len(call.answer) > 22:
            yield replaced(call, call.answer[:6] + "ff" * 8 + call.answer[22:])


def from_later(it: Planter) -> Pairs:
    """A read has the bytes of a write that began once it had ended."""
    for call in it.of_kind("read"):
        later = (write for write in it.changes if write.kind == "write" and write.words[0] == call.words[0] and write.begin > call.end)
        for write in later if call.answer.startswith("bytes ") else ():
            yield replaced(call, with_bytes(call.answer, int(write.words[1]), write.words[2]))


def with_bytes(answer: str, offset: int, written: str) -> str:
    """What is read where these bytes were written too."""
    old, place = bytes.fromhex(answer[6:]), offset - OFFSET
    new = bytes.fromhex(written)
    return "bytes " + (old.ljust(place, b"\0")[:place] + new + old[place + len(new) :])[:COUNT].hex()


def old_mtime(kind: str) -> Callable[[Planter], Pairs]:
    """A stat behind a call of this kind tells of another mtime."""

    def find(it: Planter) -> Pairs:
        for call, stat in it.runs(2):
            if call.kind == kind and is_done(call) and stat.kind == "stat" and stat.words[0] == call.words[0]:
                yield replaced(stat, stat.answer.replace(f" {call.begin}", f" {call.begin - 1}"))

    find.__doc__ = f"A stat behind {articled(kind)} tells of another mtime."
    return find


def other_length(it: Planter) -> Pairs:
    """A stat behind a truncate tells of another length."""
    for call, stat in it.runs(2):
        if call.kind == "truncate" and call.answer == DONE and stat.kind == "stat" and stat.words[0] == call.words[0]:
            yield replaced(stat, f"file {int(call.words[1]) + 1} {call.begin}")


def gone_stays(kind: str) -> Callable[[Planter], Pairs]:
    """A path that a call of this kind removed is there for the next call."""

    def find(it: Planter) -> Pairs:
        for call, look in it.runs(2):
            is_removed = call.kind == kind and call.answer == DONE and (kind != "rename" or call.words[0] != call.words[1])
            if is_removed and look.kind in THERE and look.words[0] == call.words[0]:
                yield replaced(look, THERE[look.kind])

    find.__doc__ = f"A path that {articled(kind)} removed is there."
    return find


def made_misses(kind: str, word: int) -> Callable[[Planter], Pairs]:
    """A path to which a call of this kind made or moved something is not there for the next call."""

    def find(it: Planter) -> Pairs:
        for call, look in it.runs(2):
            if call.kind == kind and is_done(call) and look.kind in THERE and look.words[0] == call.words[word]:
                if not look.answer.startswith("E"):
                    yield replaced(look, "ENOENT")

    find.__doc__ = f"A path of a {kind} is not there behind it."
    return find


def lost_patch(it: Planter) -> Pairs:
    """Of two patches of one file that do not touch a read behind both has the second alone."""
    for first, second, read in it.runs(3):
        if (first.kind, second.kind, read.kind) == ("write", "write", "read") and first.words[0] == second.words[0] == read.words[0]:
            places = int(first.words[1]), int(second.words[1])
            if is_done(first) and is_done(second) and abs(places[0] - places[1]) > 8:
                yield replaced(read, with_bytes(read.answer, places[0], "00" * 8))


def not_cut(it: Planter) -> Pairs:
    """A read behind a truncate has a byte more than the file."""
    for call, read in it.runs(2):
        if call.kind == "truncate" and call.answer == DONE and read.kind == "read" and read.words == call.words[:1]:
            yield replaced(read, read.answer + "00")


def listed_short(it: Planter) -> Pairs:
    """A listing behind a mkdir or create lacks what was made."""
    for call, listing in it.runs(2):
        directory, _, name = call.words[0].rpartition("/")
        if call.kind in ("mkdir", "create") and call.answer == DONE and listing.kind == "readdir" and listing.words[0] == directory:
            left = [word for word in listing.answer.split() if word[2:] != name]
            yield replaced(listing, " ".join(left))


def listed_long(it: Planter) -> Pairs:
    """A listing behind an unlink, rmdir, rmtree or rename has what was removed."""
    for call, listing in it.runs(2):
        directory, _, name = call.words[0].rpartition("/")
        if call.kind in ("unlink", "rmdir", "rmtree", "rename") and call.answer == DONE and call.words[0] != call.words[-1] * (len(call.words) > 1):
            if listing.kind == "readdir" and listing.words[0] == directory and listing.answer.startswith("names"):
                words = [*listing.answer.split()[1:], f"f:{name}"]
                yield replaced(listing, " ".join(["names", *sorted(words, key=lambda word: word[2:])]))


def made_twice(it: Planter) -> Pairs:
    """A file is made that stands."""
    for call, create in it.runs(2):
        if call.kind == "write" and is_done(call) and create.kind == "create" and create.words[0] == call.words[0]:
            yield replaced(create, DONE)


def removed_full(it: Planter) -> Pairs:
    """A directory is removed that is not empty."""
    for call, rmdir in it.runs(2):
        above = call.words[0].rpartition("/")[0]
        if call.kind in ("write", "create") and is_done(call) and rmdir.kind == "rmdir" and rmdir.words[0] == above:
            yield replaced(rmdir, DONE)


def torn_scan(it: Planter) -> Pairs:
    """A scan sees one area as it was before the scan began."""
    for call in it.of_kind("scan"):
        for area in range(it.log.areas):
            picture = it.old_picture(area, call.begin, call.end)
            if picture is not None:
                yield seen(call, area, picture)


def torn_snapshot(it: Planter) -> Pairs:
    """A look sees one area as it was before the snapshot was kept."""
    for kept in it.of_kind("snapshot"):
        look = it.next_of(kept, "look") if kept.answer == DONE else None
        if look and not it.may_name(kept.at, kept.begin, look.end, "drop_snapshot"):
            for area in range(it.log.areas):
                picture = it.old_picture(area, kept.begin, kept.end)
                if picture is not None:
                    yield seen(look, area, picture)


def is_taken_away(it: Planter, restore: Call, picture: str) -> bool:
    """Whether a picture has the mtime of a call that ended before a restore, and began once the snapshot had been kept."""
    kept = [call.end for call in it.in_order if call.kind == "snapshot" and call.answer == DONE and call.at == restore.at and call.begin < restore.end]
    stamps = (it.begins.get(int(stamp)) for stamp in MTIME.findall(picture))
    return any(call and kept and call.begin > max(kept) and call.end < restore.begin for call in stamps)


def left_by_restore(it: Planter) -> Pairs:
    """A scan behind a restore sees an area as it was before, which the restore has to take away."""
    for restore in it.of_kind("restore"):
        scan = it.next_of(restore, "scan") if restore.answer == DONE else None
        for area in range(it.log.areas if scan else 0):
            for picture, before in it.seen_before(area, restore.begin):
                if it.may_restore(before.begin, scan.end, but=restore):
                    break
                if is_taken_away(it, restore, picture):
                    yield seen(scan, area, picture)


def kept_twice(it: Planter) -> Pairs:
    """A snapshot is taken under a name that stands."""
    for kept in it.of_kind("snapshot"):
        again = min((call for call in it.log.calls if call.kind == "snapshot" and call.at == kept.at and call.begin > kept.end), default=None)
        if kept.answer == DONE and again and again.answer == STANDS and not it.may_name(kept.at, kept.begin, again.end, "drop_snapshot"):
            yield replaced(again, DONE)


def drop_stays(it: Planter) -> Pairs:
    """A snapshot that was dropped is restored."""
    for dropped in it.of_kind("drop_snapshot"):
        after = min((call for call in it.log.calls if call.kind == "restore" and call.at == dropped.at and call.begin > dropped.end), default=None)
        if dropped.answer == DONE and after and not it.may_name(dropped.at, dropped.begin, after.end, "snapshot"):
            yield replaced(after, DONE)


def area_unlisted(it: Planter) -> Pairs:
    """A listing of the root lacks an area that a scan saw before, and that nothing can have removed since."""
    for call in it.of_kind("list"):
        for area in range(it.log.areas if call.seen else 0):
            for picture, scan in it.seen_before(area, call.begin):
                kinds = ("rmtree", "rmdir", "unlink")
                ends = any(r.kind in kinds and r.words[0] == f"/a{area}" and r.begin < call.end and scan.begin < r.end for r in it.changes)
                if picture.startswith(" dir") and not ends and not it.may_restore(scan.begin, call.end):
                    yield seen(call, area, "")
                break


KINDS: tuple[Callable[[Planter], Pairs], ...] = (
    unwritten,
    from_later,
    lost_patch,
    not_cut,
    other_length,
    *(old_mtime(kind) for kind in ("mkdir", "create", "write", "truncate")),
    *(made_misses(kind, 0) for kind in ("mkdir", "create", "write", "truncate")),
    made_misses("rename", 1),
    *(gone_stays(kind) for kind in ("unlink", "rmdir", "rmtree", "rename")),
    listed_short,
    listed_long,
    made_twice,
    removed_full,
    torn_scan,
    torn_snapshot,
    left_by_restore,
    kept_twice,
    drop_stays,
    area_unlisted,
)


def plant(log: Log, kind: Callable[[Planter], Pairs], seed: int) -> Log | None:
    """The log with a fault of a kind; none where there is no place for one."""
    found = next(kind(Planter(log, seed)), None)
    if found is None:
        return None
    old, new = found
    return log._replace(calls=[new if it is old else it for it in log.calls])
