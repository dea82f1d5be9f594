"""Made histories: such as an atomic tree gives, such as look random, and a plain search that tells whether one order explains a small one."""
import random
from typing import NamedTuple

import tree
from order import DONE, EMPTY, GONE, ON_TREES, STANDS, Area, Call, Log

ON_SNAPSHOTS = ("snapshot", "drop_snapshot", "restore", "look")
KINDS = (*tree.CALLS, *ON_SNAPSHOTS, "scan", "list")
# Where writes and truncates go: marks of eight bytes overlap, and two lie over the end of a block.
OFFSETS, LENGTHS = (4_080, 4_085, 4_090, 4_095, 4_100), (0, 4_080, 4_087, 4_094, 4_110)
DIRECTORIES, LEAVES = tree.PLACES[:3], tree.PLACES[3:]
# Between which places things are moved: none then has entries where looks do not tell of them.
MOVES = [(one, other) for one in LEAVES for other in LEAVES + DIRECTORIES] + [("/d", "/e"), ("/e", "/d"), ("", "/f")] * 8


class Tree:
    """What stands in all areas, and what snapshots keep of them: the calls done one by one."""

    def __init__(self, areas: int) -> None:
        self.areas = (EMPTY,) * areas
        self.kept: dict[int, tuple[Area, ...]] = {}

    def copy(self) -> "Tree":
        other = Tree(0)
        other.areas, other.kept = self.areas, dict(self.kept)
        return other

    def state(self) -> tuple:
        return self.areas, tuple(sorted(self.kept.items(), key=lambda it: it[0]))

    def do(self, call: Call) -> tuple[str, tuple[str, ...]]:
        """Does a call: what it is answered, and what it sees of each area."""
        if call.kind in ON_TREES:
            return self.do_whole(call.kind, call.at)
        answer, left = self.do_on_paths(self.areas[call.at], call)
        self.areas = (*self.areas[: call.at], left, *self.areas[call.at + 1 :])
        return answer, ()

    def do_on_paths(self, area: Area, call: Call) -> tuple[str, Area]:
        return tree.do(area, call.begin, call.kind, call.words)

    def do_whole(self, kind: str, at: int) -> tuple[str, tuple[str, ...]]:
        if kind == "scan":
            return DONE, pictures(self.areas)
        if kind == "list":
            return DONE, tuple(tree.root_entry(it, number) for number, it in enumerate(self.areas))
        if kind == "snapshot":
            if at in self.kept:
                return STANDS, ()
            self.kept[at] = self.areas
            return DONE, ()
        if at not in self.kept:
            return GONE, ()
        if kind == "look":
            return DONE, pictures(self.kept[at])
        if kind == "drop_snapshot":
            del self.kept[at]
        else:
            self.areas = self.kept[at]
        return DONE, ()


def pictures(areas: tuple[Area, ...]) -> tuple[str, ...]:
    return tuple(tree.picture(it, number) for number, it in enumerate(areas))


def is_explained(log: Log) -> bool:
    """Whether one order explains a small log, by a search through all orders."""
    known = set()

    def search(left: tuple[Call, ...], now: Tree) -> bool:
        if not left:
            return True
        if (left, now.state()) in known:
            return False
        known.add((left, now.state()))
        first_end = min(call.end for call in left)
        for number, call in enumerate(left):
            if call.begin < first_end:
                other = now.copy()
                if other.do(call) == (call.answer, call.seen):
                    if search(left[:number] + left[number + 1 :], other):
                        return True
        return False

    return search(tuple(log.calls), Tree(log.areas))


class Shape(NamedTuple):
    """How a history is made: so many calls in all; `weights` are those of the kinds, and `slow` says how long calls wait."""

    calls: int
    clients: int
    areas: int
    names: int
    weights: tuple[int, ...]
    slow: float
    # In how many places of an area there are calls.
    places: int = len(tree.PLACES)


class Maker:
    """Makes a history: clients begin calls, have them done by one tree, and end them, at moments that look random."""

    def __init__(self, shape: Shape, seed: int, tree_of=Tree) -> None:
        self.shape = shape
        self.numbers = random.Random(seed)
        self.tree = tree_of(shape.areas)
        self.marks = 0
        self.moment = 0
        self.calls: list[Call] = []
        # The last call of each client.
        self.last: dict[int, Call] = {}
        # What each client waits for, and what it is answered and sees once it has an answer.
        self.waiting: dict[int, tuple[Call, tuple | None]] = {}

    def place(self, first: tuple[str, ...], then: tuple[str, ...]) -> str:
        """A place, mostly one of the first."""
        places = first if self.numbers.random() < 0.9 else then
        return self.numbers.choice([it for it in places if it in tree.PLACES[: self.shape.places]] or [""])

    def words(self, kind: str, area: str) -> tuple[str, ...]:
        """The words of a call on paths."""
        if kind == "rename":
            moves = [it for it in MOVES if set(it) <= set(tree.PLACES[: self.shape.places])]
            return tuple(area + it for it in self.numbers.choice(moves or [("", "")]))
        if kind in ("mkdir", "rmdir", "rmtree", "readdir") or kind == "stat" and self.numbers.random() < 0.5:
            return (area + self.place(DIRECTORIES, LEAVES),)
        path = area + self.place(LEAVES, DIRECTORIES)
        if kind == "write":
            self.marks += 1
            return path, f"{self.numbers.choice(OFFSETS)}", f"{self.marks:016x}"
        return (path, f"{self.numbers.choice(LENGTHS)}") if kind == "truncate" else (path,)

    def chosen(self, client: int) -> tuple[str, int, tuple[str, ...]]:
        """A client's next call: often behind one that keeps or restores all areas one that sees them."""
        last = self.last.get(client)
        if last and last.kind in ("snapshot", "restore") and self.numbers.random() < 0.8:
            return ("look", last.at, ()) if last.kind == "snapshot" else ("scan", 0, ())
        kind = self.numbers.choices(KINDS, self.shape.weights)[0]
        if kind in ON_TREES:
            return kind, self.numbers.randrange(self.shape.names) if kind in ON_SNAPSHOTS else 0, ()
        area = self.numbers.randrange(self.shape.areas)
        return kind, area, self.words(kind, f"/a{area}")

    def begin(self, client: int) -> None:
        kind, at, words = self.chosen(client)
        self.last[client] = Call(self.moment, 0, client, kind, at, words, "")
        self.waiting[client] = (self.last[client], None)
        self.moment += 1

    def go_on(self, client: int) -> None:
        """A client's next doing."""
        call, reported = self.waiting.get(client, (None, None))
        if call is None:
            if len(self.calls) + len(self.waiting) < self.shape.calls:
                self.begin(client)
        elif reported is None:
            self.waiting[client] = (call, self.tree.do(call))
        else:
            del self.waiting[client]
            self.calls.append(call._replace(end=self.moment, answer=reported[0], seen=reported[1]))
            self.moment += 1

    def log(self) -> Log:
        shape = self.shape
        while len(self.calls) < shape.calls:
            client = self.numbers.randrange(shape.clients)
            # (a slow client is woken less often while it waits)
            if client not in self.waiting or self.numbers.random() >= shape.slow * (client % 3 == 0):
                self.go_on(client)
        return Log(self.calls, shape.clients, shape.areas, shape.names)


def made(shape: Shape, seed: int, tree_of=Tree) -> Log:
    """A history that one order explains, where the tree is no other than `Tree`."""
    return Maker(shape, seed, tree_of).log()


def changed(log: Log, seed: int) -> Log:
    """The history with one answer or one thing that was seen changed, which mostly no order explains any more."""
    numbers = random.Random(seed)
    calls = list(log.calls)
    number = numbers.randrange(len(calls))
    call = calls[number]
    others = [it for it in calls if it.kind == call.kind]
    if call.seen and numbers.random() < 0.7:
        area = numbers.randrange(log.areas)
        seen = numbers.choice(others).seen or call.seen
        calls[number] = call._replace(seen=(*call.seen[:area], seen[area], *call.seen[area + 1 :]))
    elif call.kind in ON_TREES:
        other = numbers.choice(others)
        calls[number] = call._replace(answer=other.answer, seen=other.seen)
    else:
        answers = [it.answer for it in calls if it.kind not in ON_TREES] + ["ok", "ENOENT", "EEXIST", "ENOTEMPTY"]
        calls[number] = call._replace(answer=numbers.choice(answers))
    return log._replace(calls=calls)
