"""Logs as `benches history` prints them: `BEGIN END CLIENT CALL : ANSWER`, a line a call, below a line of what there is."""
import sys
from collections.abc import Iterable
from functools import lru_cache
from typing import NamedTuple

from order import ON_TREES, Broken, Call, Log
from tree import DONE


class Turns(NamedTuple):
    """How many turns flushers made, how many of these installed a job, and for how many it was stale."""

    made: int
    installed: int
    stale: int


@lru_cache(None)
def area_of(path: str) -> int:
    """The number of a path's area."""
    name = path.split("/")[1]
    if name[:1] != "a" or not name[1:].isdigit():
        raise Broken(f"no path of an area: {path}")
    return int(name[1:])


def listed(answer: str, areas: int) -> tuple[str, ...]:
    """What a listing of the root tells of each area; nothing where it is no listing in order."""
    words = answer.split()[1:]
    kinds = {word[2:]: word[0] for word in words}
    names = [word[2:] for word in words]
    known = {f"a{number}" for number in range(areas)}
    is_right = names == sorted(set(names)) and known.issuperset(names) and all(word[:2] in ("d:", "f:") for word in words)
    return tuple(kinds.get(f"a{number}", "") for number in range(areas)) if is_right else ()


def call_of(line: str, areas: int) -> Call:
    """The call that a line tells."""
    asked, _, answer = line.rstrip("\n").partition(" : ")
    begin, end, client, kind, *words = asked.split()
    stamps = (int(begin), int(end), int(client))
    if answer.startswith(";"):
        seen = tuple(map(sys.intern, answer.split(";")[1:]))
        return Call(*stamps, sys.intern(kind), int(words[0]), (), DONE, seen)
    if kind == "readdir" and words == ["/"]:
        seen = listed(answer, areas) if answer.startswith("names") else ()
        return Call(*stamps, "list", 0, (), DONE if seen else answer, seen)
    if kind in ON_TREES:
        return Call(*stamps, sys.intern(kind), int(words[0]), (), answer)
    return Call(*stamps, sys.intern(kind), area_of(words[0]), tuple(words), sys.intern(answer))


def read(lines: Iterable[str]) -> tuple[Log, Turns]:
    """The log, and what flushers did beside it."""
    lines = iter(lines)
    calls = []
    first = next(lines, "").split()
    if len(first) != 4 or first[0] != "history":
        raise Broken("the log does not begin as one")
    clients, areas, names = map(int, first[1:])
    for line in lines:
        if line.startswith("turns "):
            return Log(calls, clients, areas, names), Turns(*map(int, line.split()[1:]))
        calls.append(call_of(line, areas))
    raise Broken("the log ends before its last line")


def reported(call: Call) -> str:
    """A call in words."""
    place = " ".join(call.words) if call.words else "/" if call.kind == "list" else f"{call.at}"
    return f"client {call.client}, from {call.begin} to {call.end}: {call.kind} {place}: {call.answer}"
