"""Whether one order explains a log of calls on a shared tree, with snapshots and restores of the whole tree between.

**The question.** Each call has a begin and an end by a clock that all clients share: an atomic counter, fetched before the call and once
it is answered, so that all begins and ends stand in one order. A log is explained where each call can be given a place between its begin
and its end, so that the calls, done one by one in the order of their places, get the answers that they got. The tree is cut into areas
(tree.py, which says what a call on paths does). A snapshot keeps all areas, a restore brings all back, a scan reads all of the live
tree, a look all of a snapshot, and a listing of the root which areas there are.

**How it is answered.** One sweep over the clock keeps all that the orders so far can have left, no more and no less: so a log is refused
just where no order explains it. A *state* of an area is what stands in it, what snapshots keep of it, and which of the calls that wait at
it have their place already. As long as no call on the whole tree comes between, areas know nothing of one another. So what many orders
leave is kept as one *group*: a set of states for each area, any choice of which is left by one of the orders, and beside it what all of
these orders share: which calls on the whole tree have their place, and which snapshots stand. A call on paths is placed as late as may
be, when it ends, behind each choice of those that wait there. A call on the whole tree is tried before each end while it waits, which
gives one more group each time; calls on paths that wait then come before it or not, area by area. What a call was answered strikes states
out; a group with no state left for some area is gone; of groups that are alike one is kept. Where no group is left, no order explains the
log (Wing and Gong's search, made just in time as by Lowe, with the areas apart).

**What it takes.** At most one call of each client waits at a time, so an area has few states, and mostly one. The groups that a call on
the whole tree adds are struck out by the next answers that tell them apart. So the sweep takes about as long as the log is. Where more
than `MOST` groups stand it gives up, and says so: that is no alarm.

**What it does not find.** What no answer tells: a wrong byte that nobody reads, or one in a place where another order explains it too.
A call that names paths of two areas: none is made. What the clock hides: fetching it orders the threads' memory more than they would be
ordered by themselves. Calls that do not end; refused memory; how long a call took, or who came first.
"""
from bisect import bisect
from collections.abc import Iterable, Iterator
from typing import NamedTuple

import tree
from tree import DONE, EMPTY, GONE, STANDS, Area

# How many groups may stand at once.
MOST = 20_000

# What stands in an area, a bit for each client whose call there has its place, and what each snapshot keeps of the area: nothing where
# there is no snapshot of the name.
State = tuple[Area, int, tuple[Area | None, ...]]
States = tuple[State, ...]


class Call(NamedTuple):
    """A call: `at` is the number of its area or of its snapshot's name, `words` are its paths and numbers; `seen` is what it saw of each
    area, where it sees all. Its timestamp is its begin."""

    begin: int
    end: int
    client: int
    kind: str
    at: int
    words: tuple[str, ...]
    answer: str
    seen: tuple[str, ...] = ()


class Log(NamedTuple):
    """Calls in any order, and how many clients, areas and names of snapshots there are. At first nothing stands anywhere."""

    calls: list[Call]
    clients: int
    areas: int
    names: int


class Undecided(Exception):
    """More groups stood at once than may be."""


class Broken(Exception):
    """What is there is no log."""


ON_TREES = frozenset(("snapshot", "drop_snapshot", "restore", "look", "scan", "list"))
# Those that name no snapshot.
ON_LIVE = frozenset(("scan", "list"))
# Those that change the live tree or its snapshots.
CHANGES = frozenset(("snapshot", "drop_snapshot", "restore"))


def after(call: Call, area: Area) -> Area | None:
    """What a call leaves of an area; none where it would not have been answered as it was."""
    answer, left = tree.do(area, call.begin, call.kind, call.words)
    return left if answer == call.answer else None


def is_apart(call: Call) -> bool:
    """Whether no call on paths can tell if this one, on the whole tree, came before it or behind."""
    return call.kind in ("drop_snapshot", "look") or call.answer != DONE


def placed_some(states: Iterable[State], waiting: dict[int, Call]) -> set[State]:
    """What comes of the states where any of the calls that wait at the area, or none, are placed in any order."""
    found = set(states)
    todo = list(found)
    while todo:
        area, placed, kept = todo.pop()
        for bit, call in waiting.items():
            left = None if placed & bit else after(call, area)
            if left is not None and (state := (left, placed | bit, kept)) not in found:
                found.add(state)
                todo.append(state)
    return found


def ended(states: States, waiting: dict[int, Call], bit: int) -> States:
    """What is left of the states where the call of a client ends, which waits with these at the area."""
    call = waiting[bit]
    if len(states) == 1 and len(waiting) == 1 and not states[0][1]:
        area, _, kept = states[0]
        left = after(call, area)
        return () if left is None else states if left is area else ((left, 0, kept),)
    found = {(area, placed ^ bit, kept) for area, placed, kept in states if placed & bit}
    others = {other: it for other, it in waiting.items() if other != bit}
    for area, placed, kept in placed_some((it for it in states if not it[1] & bit), others):
        left = after(call, area)
        if left is not None:
            found.add((left, placed, kept))
    return unlike(found)


def changed(call: Call, states: States) -> States:
    """What a call that changes the whole tree or its snapshots makes of the states of an area."""
    return unlike(changed_one(call, (it,))[0] for it in states)


def changed_one(call: Call, states: States) -> States:
    """The same of one state."""
    kind, name = call.kind, call.at
    area, placed, kept = states[0]
    old = kept[name]
    if kind == "restore":
        return states if area is old else ((old, placed, kept),)
    new = area if kind == "snapshot" else None
    return states if new is old else ((area, placed, (*kept[:name], new, *kept[name + 1 :])),)


def unlike(states: Iterable[State]) -> States:
    """Each of the states once, in an order that depends on no more than them, unless two have the same hash."""
    found = set(states)
    return tuple(found) if len(found) == 1 else tuple(sorted(found, key=hash))


class Group:
    """What orders leave that placed the same calls on the whole tree: states of each area, any choice of which is left by one of them."""

    __slots__ = ("placed", "standing", "areas", "sum")

    def __init__(self, placed: int, standing: int, areas: list[States]) -> None:
        # A bit for each client whose call on the whole tree has its place, and one for each snapshot that stands.
        self.placed = placed
        self.standing = standing
        self.areas = areas
        # A sum over the areas, once it was asked for: groups that are alike have the same.
        self.sum: int | None = None

    def put(self, area: int, states: States) -> None:
        """Other states of an area."""
        if self.sum is not None:
            self.sum += hash((area, states)) - hash((area, self.areas[area]))
        self.areas[area] = states

    def key(self) -> tuple[int, int, int]:
        """What is the same of groups that are alike."""
        if self.sum is None:
            self.sum = sum(map(hash, enumerate(self.areas)))
        return self.placed, self.standing, self.sum

    def is_like(self, other: "Group") -> bool:
        return self.areas == other.areas


class Sweep:
    """What all orders of the calls so far can have left."""

    def __init__(self, log: Log) -> None:
        first: States = ((EMPTY, 0, (None,) * log.names),)
        self.groups = [Group(0, 0, [first] * log.areas)]
        # The calls that wait, by their client's bit: whose they are, those at each area, and those on the whole tree.
        self.waiting = 0
        self.at_areas: list[dict[int, Call]] = [{} for _ in range(log.areas)]
        self.on_trees: dict[int, Call] = {}
        # The areas at which calls wait, with how many.
        self.busy: dict[int, int] = {}
        # Which of the calls on the whole tree began since they were tried last.
        self.fresh = 0
        self.greatest = 1

    def begin(self, call: Call) -> None:
        bit = 1 << call.client
        if self.waiting & bit:
            raise Broken(f"client {call.client} makes two calls at once, from {call.begin} on")
        self.waiting |= bit
        if call.kind in ON_TREES:
            self.on_trees[bit] = call
            self.fresh |= bit
        else:
            self.at_areas[call.at][bit] = call
            self.busy[call.at] = self.busy.get(call.at, 0) + 1

    def end(self, call: Call) -> bool:
        """A call ends. Whether some order is left that explains all so far."""
        if self.on_trees:
            self.spread(call)
        bit = 1 << call.client
        self.waiting ^= bit
        if call.kind in ON_TREES:
            del self.on_trees[bit]
            self.groups = [group for group in self.groups if group.placed & bit]
            for group in self.groups:
                group.placed ^= bit
        else:
            self.end_at_area(call.at, bit)
        if len(self.groups) > 1:
            self.groups = self.unlike(self.groups)
        return bool(self.groups)

    def end_at_area(self, area: int, bit: int) -> None:
        waiting = self.at_areas[area]
        left = []
        for group in self.groups:
            old = group.areas[area]
            new = ended(old, waiting, bit)
            if new:
                if new is not old:
                    group.put(area, new)
                left.append(group)
        self.groups = left
        del waiting[bit]
        self.busy[area] -= 1
        if not self.busy[area]:
            del self.busy[area]

    @staticmethod
    def unlike(groups: Iterable[Group]) -> list[Group]:
        """Of the groups that are alike the first."""
        known: dict[tuple[int, int, int], list[Group]] = {}
        found = []
        for group in groups:
            alike = known.setdefault(group.key(), [])
            if not any(map(group.is_like, alike)):
                alike.append(group)
                found.append(group)
        return found

    def spread(self, ending: Call) -> None:
        """Adds the groups in which calls on the whole tree that wait are placed before the end of a call, any of them in any order."""
        todo = [more for group in self.groups for more in self.placed_next(group, ending, self.fresh)]
        while todo:
            self.groups = self.unlike(self.groups + todo)
            self.greatest = max(self.greatest, len(self.groups))
            if len(self.groups) > MOST:
                raise Undecided
            known = set(map(id, self.groups))
            todo = [more for group in todo if id(group) in known for more in self.placed_next(group, ending, -1)]
        self.fresh = 0

    def placed_next(self, group: Group, ending: Call, fresh: int) -> Iterator[Group]:
        """The groups that come of this one where one more call on the whole tree is placed.

        One that is apart from calls on paths is tried as early as may be: where it is fresh, and behind each other that is placed.
        """
        waiting = [(bit, call) for bit, call in self.on_trees.items() if not group.placed & bit]
        for bit, call in waiting:
            if is_apart(call) and not fresh & bit:
                continue
            # (where others may still come between nothing is known of the end)
            if len(waiting) == 1 and not self.leads_on(group, call, ending):
                continue
            more = self.placed(group, bit, call)
            if more is not None:
                yield more

    def leads_on(self, group: Group, call: Call, ending: Call) -> bool:
        """Whether something is left at the area of the call that ends, where a call that changes the tree or its snapshots comes before."""
        if call.answer != DONE or call.kind not in CHANGES or ending.kind in ON_TREES:
            return True
        if call.kind == "restore" and not group.standing & 1 << call.at:
            return False
        states = changed(call, self.choices(group, ending.at))
        return bool(ended(states, self.at_areas[ending.at], 1 << ending.client))

    def placed(self, group: Group, bit: int, call: Call) -> Group | None:
        """The group that comes of this one where a call on the whole tree is placed; none where it was answered otherwise."""
        stands = call.kind in ON_LIVE or bool(group.standing & 1 << call.at)
        if call.answer != DONE:
            wanted = STANDS if call.kind == "snapshot" else GONE
            is_right = call.answer == wanted and call.kind not in ON_LIVE and stands == (call.kind == "snapshot")
            return Group(group.placed | bit, group.standing, list(group.areas)) if is_right else None
        if stands == (call.kind == "snapshot"):
            return None
        areas = self.left(group, call)
        standing = group.standing ^ (1 << call.at if call.kind in ("snapshot", "drop_snapshot") else 0)
        return None if areas is None else Group(group.placed | bit, standing, areas)

    def left(self, group: Group, call: Call) -> list[States] | None:
        """What is left of each area where a call on the whole tree is done; none where it saw something else."""
        areas = list(group.areas)
        if not is_apart(call):
            for area in self.busy:
                areas[area] = self.choices(group, area)
        if call.seen and not see(call, areas):
            return None
        if call.kind in CHANGES:
            return [changed_one(call, it) if len(it) == 1 else changed(call, it) for it in areas]
        return areas

    def choices(self, group: Group, area: int) -> States:
        """The states of an area where some of the calls that wait there come before a call on the whole tree."""
        return unlike(placed_some(group.areas[area], self.at_areas[area]))


def seen_of(call: Call, state: State, number: int) -> str:
    """What a call sees of the area of a number."""
    if call.kind == "list":
        return tree.root_entry(state[0], number)
    return tree.picture(state[2][call.at] if call.kind == "look" else state[0], number)


def see(call: Call, areas: list[States]) -> bool:
    """Leaves those states of each area in which a call saw what it did; whether there are some."""
    for number, seen in enumerate(call.seen):
        states = areas[number]
        left = tuple(it for it in states if seen_of(call, it, number) == seen)
        if not left:
            return False
        if len(left) < len(states):
            areas[number] = left
    return True


def foreseen(calls: list[Call]) -> Iterator[Call]:
    """The calls; one that keeps all areas has what it sees from the first look behind it, where no drop can come between.

    So where it waits for long it is not tried at moments at which the tree was another.
    """
    looks = sorted(it for it in calls if it.kind == "look" and it.seen)
    drops = [it for it in calls if it.kind == "drop_snapshot" and it.answer == DONE]
    for call in calls:
        if call.kind == "snapshot" and call.answer == DONE:
            look = next((it for it in looks[bisect(looks, (call.end,)) :] if it.at == call.at), None)
            if look and not any(it.at == call.at and call.begin < it.end and it.begin < look.end for it in drops):
                call = call._replace(seen=look.seen)
        yield call


def check(log: Log, call: Call) -> None:
    """A call is one of this log: its numbers are in their ranges, its paths in its area, and it saw all areas or none."""
    on_tree = call.kind in ON_TREES
    prefix = f"/a{call.at}/"
    is_right = 0 <= call.at < (log.names if on_tree else log.areas) and (on_tree or call.kind in tree.CALLS)
    is_right &= on_tree or all(f"{it}/".startswith(prefix) for it in call.words if it.startswith("/"))
    is_right &= 0 <= call.begin < call.end < 2 * len(log.calls) and 0 <= call.client < log.clients
    sees = call.kind in ("look", "scan", "list") and call.answer == DONE
    if not is_right or len(call.seen) != sees * log.areas:
        raise Broken(f"no call of this log: {call}")


def in_turn(log: Log) -> list[Call]:
    """The call that begins or ends at each moment of the clock."""
    turns: list[Call | None] = [None] * (2 * len(log.calls))
    for call in log.calls:
        check(log, call)
    for call in foreseen(log.calls):
        for moment in (call.begin, call.end):
            if turns[moment] is not None:
                raise Broken(f"moment {moment} is that of two")
            turns[moment] = call
    return turns


class Verdict(NamedTuple):
    """The call at whose end no order is left, or none where an order explains all; and how many groups stood at once at most."""

    fault: Call | None
    greatest: int


def judge(log: Log) -> Verdict:
    """Whether one order explains the calls of a log."""
    sweep = Sweep(log)
    for moment, call in enumerate(in_turn(log)):
        if moment == call.begin:
            sweep.begin(call)
        elif not sweep.end(call):
            return Verdict(call, sweep.greatest)
    return Verdict(None, sweep.greatest)
