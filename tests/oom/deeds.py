"""What tests/oom/library asks of the static library: calls with what they write and return, and what stands before and after them."""
import ctypes
import sys
from collections.abc import Callable
from pathlib import Path

sys.path.insert(0, str(Path(__file__).resolve().parents[1] / "library"))
import calls  # noqa: E402
from calls import ENOMEM, SMALL, Pointer, ask, given_up  # noqa: E402

NAMES = (b"s", b"t", b"u")
# What buffers and results have before a call.
FILLED = 0x63
CAPACITY = 1 << 17


class Wrong(Exception):
    """What a call did that it must not do."""


def need(holds: bool, why: str) -> None:
    if not holds:
        raise Wrong(why)


class Heap(ctypes.Structure):
    """What `failing_heap.c` is told, and counts."""

    _fields_ = [(name, ctypes.c_long) for name in ("wanted", "seen", "asked", "refused", "blocks")]

    @classmethod
    def of_library(cls) -> "Heap":
        return cls.in_dll(calls.library, "failing_heap")


def number_of(size: int = 8) -> ctypes.c_uint64 | ctypes.c_uint8:
    """A result that is no 0 before a call."""
    return (ctypes.c_uint64 if size == 8 else ctypes.c_uint8)(FILLED)


BUFFER = ctypes.create_string_buffer(CAPACITY)


def text_of(name: str, *words) -> bytes | int:
    """The bytes that a call writes, or the number of its error."""
    size = ctypes.c_size_t()
    return ask(name, *words, BUFFER, size) or ctypes.string_at(BUFFER, size.value)


class Deed:
    """A call, whose results are told once it has ended. One that fails has written nothing, and its results are 0."""

    def __init__(self, name: str, *words):
        self.name, self.words = name, words

    def prepare(self, _world: "World") -> None:
        """Before the call, with memory."""

    def call(self, world: "World") -> int:
        return ask(self.name, world.fs, *(world.at(it) if isinstance(it, str) else it for it in self.words))

    def told(self, _world: "World", number: int):
        """The answer."""
        return number


class Numbers(Deed):
    """A call that returns numbers of these many bytes besides."""

    def __init__(self, name: str, *words, sizes: tuple[int, ...] = (8,), at: str = ""):
        super().__init__(name, *words)
        self.sizes, self.at = sizes, at

    def call(self, world):
        self.results = [number_of(it) for it in self.sizes]
        return ask(self.name, world.at(self.at), *self.words, *self.results)

    def told(self, _world, number):
        values = [it.value for it in self.results]
        need(not number or not any(values), f"results of an error are {values}")
        return number, *values


class Text(Deed):
    """A call that writes a text, at a volume, at another tree, or at none."""

    def __init__(self, name: str, *words, at: str | None = "", capacity: int = CAPACITY):
        super().__init__(name, *words)
        self.at, self.capacity = at, capacity

    def prepare(self, _world):
        self.out = ctypes.create_string_buffer(bytes([FILLED]) * self.capacity, self.capacity)
        self.size = ctypes.c_size_t(FILLED)

    def call(self, world):
        where = () if self.at is None else (world.at(self.at),)
        return ask(self.name, *where, *self.words, self.out, self.size)

    def told(self, _world, number):
        size = self.size.value
        need(not number or not size, f"the size of an error is {size}")
        text = self.out.raw
        need(text.count(FILLED, size) == len(text) - size, "bytes behind the text were written")
        return number, text[:size]


class Made(Deed):
    """A call that makes a volume or a frozen tree, which is closed then."""

    def __init__(self, name: str, *words, at: str | None = "", shows: Callable | None = None, lines: bool = False):
        super().__init__(name, *words)
        self.at, self.shows, self.lines = at, shows or image_of_volume, lines

    def call(self, world):
        self.made = Pointer()
        self.made.ptr = FILLED
        self.line = [number_of()] if self.lines else []
        where = () if self.at is None else (world.at(self.at),)
        return ask(self.name, *where, *self.words, *self.line, self.made)

    def told(self, _world, number):
        line = [it.value for it in self.line]
        if number:
            need(not self.made.ptr, "what could not be made is not closed")
            return number, line
        shown = self.shows(self.made)
        return number, line, shown


def image_of_tree(tree: Pointer) -> bytes:
    text = text_of("image", tree)
    given_up("frozen_close", tree)
    return text


def tree_of(fs: Pointer, name: bytes | None = None) -> Pointer | int:
    """The live tree, or that of a snapshot, or why there is none."""
    tree = Pointer()
    number = ask("freeze", fs, tree) if name is None else ask("open_snapshot", fs, name, tree)
    return number or tree


def image_at(fs: Pointer, name: bytes | None = None) -> bytes | int:
    tree = tree_of(fs, name)
    return tree if isinstance(tree, int) else image_of_tree(tree)


def image_of_volume(fs: Pointer) -> bytes:
    text = image_at(fs)
    given_up("close", fs)
    return text


class Handed(Deed):
    """A text that is handed out in pieces. A piece that fails is asked for once more."""

    kind = ""

    def prepare(self, _world):
        self.printer, self.text, self.failed = Pointer(), b"", 0

    def begin(self, world: "World") -> int:
        return ask(f"{self.kind}_begin", world.fs, *self.words, self.printer)

    def next(self) -> int:
        out, size = ctypes.create_string_buffer(bytes([FILLED]) * 1_000, 1_000), ctypes.c_size_t(FILLED)
        number = ask(f"{self.kind}_next", self.printer, out, size)
        if number:
            self.failed += 1
            need(self.failed == 1 and not size.value and not out.raw.strip(bytes([FILLED])), "a piece that failed left something")
            return 1
        self.text += out.raw[: size.value]
        return size.value

    def call(self, world):
        number = self.begin(world)
        while not number and self.next():
            pass
        return number

    def told(self, _world, number):
        need(not number or not self.printer.ptr, "a printer that could not begin is not closed")
        if self.printer.ptr:
            given_up(f"{self.kind}_end", self.printer)
        return number, self.text


class Printed(Handed):
    """An image that is printed in pieces."""

    kind = "print"

    def prepare(self, world):
        super().prepare(world)
        self.tree = tree_of(world.fs)

    def begin(self, _world):
        return ask("print_begin", ctypes.c_void_p(self.tree.ptr), ctypes.byref(self.printer))


class Edits(Handed):
    """Edits between two trees that are printed in pieces."""

    kind = "edits"


class Pieces(Deed):
    """A text that is loaded in pieces. Behind an error each later call has the same."""

    def __init__(self, text: bytes, size: int, shape: tuple[int, ...] = SMALL):
        super().__init__("load_begin", *shape)
        self.pieces = [text[it : it + size] for it in range(0, len(text), size)]

    def call(self, _world):
        loader, line, self.made = Pointer(), number_of(), Pointer()
        self.lines = []
        number = ask(self.name, *self.words, loader)
        if number:
            need(not loader.ptr, "a loader that could not begin is not closed")
            return number
        told = []
        for piece in self.pieces:
            told.append(ask("load_feed", loader, piece, line))
        told.append(ask("load_finish", ctypes.c_void_p(loader.ptr), ctypes.byref(line), ctypes.byref(self.made)))
        failed = next((it for it, number in enumerate(told) if number), len(told) - 1)
        need(set(told[failed:]) == {told[failed]} and not any(told[:failed]), f"behind an error there are {set(told)}")
        self.line = line.value
        return told[-1]

    def told(self, _world, number):
        need(not number or not self.made.ptr, "what could not be loaded is not closed")
        return (number,) if number else (number, image_of_volume(self.made))


class Steps(Deed):
    """Steps of compaction: how many were done."""

    def __init__(self, count: int = 1):
        super().__init__("compact", count)

    def call(self, world):
        self.count = ask(self.name, world.fs, *self.words)
        return 0

    def told(self, _world, _number):
        return self.count


class Transaction(Deed):
    """Lines that are done whole: where one fails the tree is again what it was at the beginning, for which no memory is asked."""

    def __init__(self, *lines: str):
        super().__init__("freeze")
        self.deeds = [deed_of(it, 7) for it in lines]

    def call(self, world):
        tree = Pointer()
        begun = ask(self.name, world.fs, tree)
        if begun:
            return begun
        number = next((number for number in (it.call(world) for it in self.deeds) if number), 0)
        if number:
            world.heap.wanted = -1
            need(ask("restore_frozen", world.fs, tree) == 0, "it is not undone")
        given_up("frozen_close", tree)
        return number


class Applied(Deed):
    """Bodies of a log that are applied, each a change. Those before the one that fails are done; the others are applied once more."""

    def __init__(self, bodies: list[bytes]):
        super().__init__("wal_apply")
        self.bodies = bodies

    def call(self, world):
        done, first = ctypes.c_size_t(FILLED), b"".join(self.bodies)
        number = ask(self.name, world.fs, first, ctypes.byref(done))
        if number and world.heap.refused:
            need(number == ENOMEM, f"it fails by {number}")
            number = ask(self.name, world.fs, b"".join(self.bodies[done.value :]), ctypes.byref(done))
        return number


class Replayed(Deed):
    """A log that is replayed. What is behind the change that fails is applied and replayed once more."""

    def __init__(self, salt: bytes, number: int, records: list[tuple[bytes, list[bytes]]]):
        super().__init__("wal_salted_replay")
        self.salt, self.number, self.records = salt, number, records

    def replay(self, world, first: int) -> tuple[int, int, int]:
        log, counts = b"".join(it[0] for it in self.records[first:]), [ctypes.c_size_t(FILLED) for _ in range(3)]
        number = ask(self.name, world.fs, log, self.salt, self.number + first, *map(ctypes.byref, counts))
        records, done, size = (it.value for it in counts)
        need(size == sum(len(it[0]) for it in self.records[first : first + records]), "the size is that of other records")
        return number, records, done

    def call(self, world):
        number, records, done = self.replay(world, 0)
        if not number or not world.heap.refused:
            return number
        need(number == ENOMEM, f"it fails by {number}")
        rest = b"".join(self.records[records][1][done:])
        return ask("wal_apply", world.fs, rest, ctypes.byref(ctypes.c_size_t())) or self.replay(world, records + 1)[0]


class Delta(Deed):
    """The delta to a snapshot is applied to the live tree."""

    def prepare(self, world):
        self.text = text_of("delta", world.fs, b"", *self.words)

    def call(self, world):
        self.line = number_of()
        return ask(self.name, world.fs, self.text, self.line)

    def told(self, _world, number):
        return number, self.line.value


class AppliedEdits(Delta):
    """The edits to a snapshot are applied to the live tree."""

    def prepare(self, world):
        edits = Edits("edits", b"", *self.words)
        edits.prepare(world)
        number = edits.call(world)
        _, self.text = edits.told(world, number)


def hexed(word: str) -> bytes:
    return b"" if word == "-" else bytes.fromhex(word)


# How many words of a line are paths or names; the others are numbers.
TEXTS = {"rename": 2}
CHANGED = ("mkdir", "create", "unlink", "rmdir", "rmtree", "rename", "truncate", "set_mtime", "punch")


def deed_of(line: str, at: int, where: str = "") -> Deed:
    """The call of a line of a script, at a moment."""
    name, *words = line.split()
    paths = [it.encode() for it in words[: TEXTS.get(name, 1)]]
    numbers = words[len(paths) :]
    if name == "write":
        return Deed(name, paths[0], int(numbers[0]), hexed(numbers[1]), at)
    if name in CHANGED:
        return Deed(name, *paths, *map(int, numbers), at)
    if name in ("snapshot", "drop", "restore"):
        return Deed("drop_snapshot" if name == "drop" else name, *paths)
    prefix = "frozen_" if where else ""
    if name == "stat":
        return Numbers(f"{prefix}stat", *paths, sizes=(1, 8, 8), at=where)
    if name == "read":
        return Text(f"{prefix}read", *paths, int(numbers[0]), at=where, capacity=int(numbers[1]))
    return Text(f"{prefix}readdir", *paths, at=where)


class World:
    """A small volume behind an opening, with a step behind each line, and trees and forks of it."""

    def __init__(self, opening: tuple[str, ...]):
        self.heap, self.fs, self.others = Heap.of_library(), Pointer(), {}
        need(ask("open", *SMALL, self.fs) == 0, "no volume")
        for line in opening:
            deed = deed_of(line, 0)
            deed.prepare(self)
            need(deed.call(self) == 0, f"the opening fails at {line}")
            ask("compact", self.fs, 1)

    def at(self, name: str) -> Pointer:
        return self.others[name] if name else self.fs

    def keep(self, name: str, tree: Pointer) -> None:
        self.others[name] = tree

    def state(self) -> dict:
        """All that can be seen."""
        blocks = self.heap.blocks
        names = tuple(text_of("snapshot_name", self.fs, it) for it in range(4))
        kept = tuple(image_at(self.fs, it) for it in NAMES)
        others = {name: text_of("image", it) if name != "fork" else image_at(it) for name, it in self.others.items()}
        live = image_at(self.fs)
        need(self.heap.blocks == blocks, "what is looked at takes memory")
        return {"live": live, "names": names, "kept": kept, "others": others}

    def form(self) -> tuple[int, int, int]:
        """How many steps a fork of the volume does until it rests, and how often and for how much memory these ask."""
        fork, seen, asked = Pointer(), self.heap.seen, self.heap.asked
        need(ask("fork", self.fs, fork) == 0, "no fork")
        steps = ask("compact", fork, 100_000)
        given_up("close", fork)
        return steps, self.heap.seen - seen, self.heap.asked - asked

    def save(self) -> None:
        calls.library.heap_save()
        self.saved = {name: it.ptr for name, it in self.others.items()} | {"": self.fs.ptr}

    def restore(self) -> None:
        calls.library.heap_restore()
        for name, at in self.saved.items():
            self.at(name).ptr = at

    def end(self) -> None:
        for name, it in self.others.items():
            given_up("close" if name == "fork" else "frozen_close", it)
        given_up("close", self.fs)
