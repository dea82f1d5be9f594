"""The scenes: what each one is called, what stands before it, what is asked, and how it is judged.

A scene runs `oom` with its words and its opening on standard input, or the whole of `betr`. `free` ones must do as ever with every
request refused; of the others each request is refused once. Of those of lists nothing is refused: their requests are counted. What
the C library can be asked is in library_scenes.py.
"""
import dataclasses
from collections.abc import Callable


@dataclasses.dataclass(frozen=True)
class Scene:
    """A scene of a group."""

    group: str
    words: tuple[str, ...]
    opening: tuple[str, ...]
    # How it is judged: `call`, `script`, `run`, `count` or `more`.
    judged: str = "call"
    # Whether it takes no memory, so that it does as ever with every request refused.
    free: bool = False
    # What the first answers begin with where nothing is refused.
    wanted: tuple[str, ...] = ()
    # How many requests it makes at most, if that is said.
    most: int | None = None
    # What is printed behind a deed on lists of so many messages of a kind.
    left: Callable[[int], tuple[str, ...]] = lambda _: ()
    # How many messages of a kind the deed's long lists have, and how many requests are then too many.
    many: int = 2_048
    too_many: int = 512
    # The lines behind a script whose requests are counted.
    lines: tuple[str, ...] = ()

    @property
    def name(self) -> str:
        return " ".join((self.group, *(word if len(word) < 60 else word[:60] + ".." for word in self.words)))


def hexed(length: int) -> str:
    """So many bytes in hexadecimal, none of them zero."""
    return "".join(f"{number % 251 + 1:02x}" for number in range(length))


FILES = ("mkdir /d", *(f"create /d/f{number:03}" for number in range(300)))
# The script of 303 lines, with two snapshots: one of 300 files, and one of the directory without them.
BASE = (*FILES, "snapshot s", "rmtree /d", "mkdir /d", "snapshot t")
# Behind it a file over three blocks, one to be replaced, and a directory with 100 files below.
WITH_FILES = (
    *BASE,
    "create /f",
    f"write /f 0 {hexed(10_000)}",
    "create /h",
    "write /h 4090 6162636465666768",
    "mkdir /e",
    *(f"create /e/f{number:02}" for number in range(100)),
)
# A file of many blocks, so that the tree of the blocks is deep, too.
WITH_BLOCKS = (*WITH_FILES, "create /b", *(f"write /b {number * 4_096} {number + 1:02x}" for number in range(120)))
# Steps without lines that change anything.
REST = ("stat /",)
# The same with a tree of the blocks of two levels, of which jobs can be taken; and with leaves of blocks that are nearly empty.
WITH_SETTLED_BLOCKS = (*WITH_BLOCKS, *(f"write /b {number * 4_096} {number % 250 + 1:02x}" for number in range(120, 300)), *REST * 600)
# A covered subtree waits.
WITH_COVERED = (*WITH_SETTLED_BLOCKS, "rmtree /e")
WITH_DEEP_BLOCKS = (*WITH_SETTLED_BLOCKS, *(f"write /b {number * 4_096} 61" for number in range(120)))
WITH_FEW_BLOCKS = (*WITH_SETTLED_BLOCKS, "truncate /b 1", *REST * 3)
# Four names of the greatest length below one another.
LONG = "".join(f"/{letter * 254}" for letter in "wxyz")
WITH_CHAIN = (*BASE, "mkdir /a", *("mkdir /a" + LONG[: 255 * count] for count in range(1, 5)))

DONE = (
    "mkdir /x",
    "mkdir /d/x",
    "create /x",
    "create /e/x",
    "write /f 100 616263",
    f"write /f 2000 {hexed(10_000)}",
    "write /f 50000 61",
    "write /h 0 -",
    "truncate /f 5000",
    "truncate /f 20000",
    "truncate /f 0",
    "truncate /f 10000",
    "unlink /f",
    "unlink /e/f50",
    "rmdir /d",
    "rename /f /g",
    "rename /f /h",
    "rename /e /g",
    "rename /e /d",
    "rename /e /d/e",
    "rename /f /f",
    "rmtree /e",
    "rmtree /f",
    "read /f 0 10000",
    "read /f 4090 100",
    "read /f 20000 5",
    "stat /",
    "stat /f",
    "stat /e/f99",
    "readdir /",
    "readdir /e",
    "readdir /d",
)

REFUSED = (
    ("mkdir /d", "EEXIST"),
    ("mkdir /f", "EEXIST"),
    ("mkdir /v/x", "ENOENT"),
    ("mkdir /f/x", "ENOTDIR"),
    ("create /f", "EEXIST"),
    ("create /v/x", "ENOENT"),
    ("create /f/x", "ENOTDIR"),
    ("write /v 0 61", "ENOENT"),
    ("write /d 0 61", "EISDIR"),
    ("write /f/x 0 61", "ENOTDIR"),
    ("write /f 1099511627776 61", "EFBIG"),
    ("truncate /v 0", "ENOENT"),
    ("truncate /d 0", "EISDIR"),
    ("truncate /f/x 0", "ENOTDIR"),
    ("truncate /f 1099511627777", "EFBIG"),
    ("unlink /v", "ENOENT"),
    ("unlink /d", "EPERM"),
    ("unlink /f/x", "ENOTDIR"),
    ("rmdir /v", "ENOENT"),
    ("rmdir /e", "ENOTEMPTY"),
    ("rmdir /f", "ENOTDIR"),
    ("rmdir /", "EBUSY"),
    ("rename /v /x", "ENOENT"),
    ("rename /f /v/x", "ENOENT"),
    ("rename /f /h/x", "ENOTDIR"),
    ("rename /e /e/x", "EINVAL"),
    ("rename /f /d", "EISDIR"),
    ("rename /e /f", "ENOTDIR"),
    ("rename /d /e", "ENOTEMPTY"),
    ("rmtree /v", "ENOENT"),
    ("rmtree /", "EBUSY"),
    ("read /v 0 5", "ENOENT"),
    ("read /d 0 5", "EISDIR"),
    ("stat /v", "ENOENT"),
    ("stat /f/x", "ENOTDIR"),
    ("readdir /v", "ENOENT"),
    ("readdir /f", "ENOTDIR"),
)

SNAPSHOTS = ("snapshot u", "restore s", "restore t")
# Events between taking and finishing a job, by the names that `oom` knows.
BESIDE = (
    "mkdir /x",
    "write /f",
    "truncate /f",
    "rename /f /h",
    "rename /e /g",
    "rmtree /e",
    "unlink /h",
    "mkdir /d",
    "snapshot u",
    "restore s",
    "drop s",
)
OF_BLOCKS = ("write /f", "truncate /f", "rename /f /h", "unlink /h")
# Ten events of all kinds.
EVENTS = (
    "mkdir /x",
    "take meta 0",
    "create /x/y",
    "write /x/y",
    "finish 0",
    "snapshot u",
    "meta root_up",
    "drop s",
    "restore t",
    "rmtree /x",
)
LOOKS = ("read@v /f 0 10000", "stat@v /f", "stat@s /d/f150", "readdir@v /e", "readdir@s /d", "stat@s /v", "read@s /d 0 5")
# Lines of all kinds behind a few files.
FEW_FILES = ("create /f", f"write /f 0 {hexed(10_000)}", "mkdir /e", *(f"create /e/f{number:02}" for number in range(20)))
SCRIPT = (
    "at 9",
    "mkdir /x",
    "create /x/y",
    "at 8",
    "write /x/y 4090 6162636465666768",
    "read /x/y 4088 6",
    "snapshot u",
    "rename /x /z",
    "stat@u /x/y",
    "rmtree /e",
    "truncate /f 4000",
    "restore u",
    "drop u",
    "stat /x/y",
)
# Steps that can be done, and behind which opening. A root is raised before it is to be lowered.
STEPS = (
    ("meta flush_inner", WITH_BLOCKS),
    ("block flush_inner", WITH_DEEP_BLOCKS),
    ("block flush_leaf", WITH_BLOCKS),
    ("meta split_inner", WITH_BLOCKS),
    ("block merge_leaves", WITH_FEW_BLOCKS),
    ("meta merge_inner", WITH_BLOCKS),
    ("meta root_up", WITH_BLOCKS),
    ("block root_up", WITH_SETTLED_BLOCKS),
    ("meta drop_covered", WITH_COVERED),
)
LOWERED = (("meta", WITH_BLOCKS), ("block", WITH_DEEP_BLOCKS))
# The kinds of steps that have a slot.
AT_SLOTS = ("flush_inner", "flush_leaf", "split_inner", "merge_leaves", "merge_inner", "drop_covered")
# A script of 200 lines with one line of answer each, for a whole run.
WHOLE = tuple(
    line
    for number in range(40)
    for line in (
        f"mkdir /d{number}",
        f"create /d{number}/f",
        f"write /d{number}/f {number * 1_000} {hexed(number + 1)}",
        f"rename /d{number}/f /f{number}" if number % 3 else f"rmtree /d{number}",
        f"stat /f{number}",
    )
)
# An image of version 1, and the same with moments.
FIRST_IMAGE = ("d /", "f /a 9000", f"b 0 {hexed(4_096)}", f"b 2 {hexed(808)}", "d /b", *(f"f /b/f{number:02} 5" for number in range(40)), "d /c")
IMAGE = tuple(line if line.startswith("b ") else f"{line[0].upper()}{line[1:]} {number}" for number, line in enumerate(FIRST_IMAGE))
SMALL = ("--fanout", "4", "--pending", "4", "--leaf", "4", "--steps", "1", "--image")
# Deeds on lists, and what they leave of so many messages of a kind: the messages of each list, and the range-deletes among them.
DEEDS = (
    ("cut", lambda count: (f"front {count + 1} {count // 2 + 1}", f"back {count} {count // 2}")),
    ("cut_tail", lambda count: (f"front {3 * count // 2} {count}", f"back {3 * count // 2} {count}")),
    ("join", lambda count: (f"joined {2 * count} {count}",)),
    ("join_tails", lambda count: (f"joined {3 * count} {2 * count}",)),
    ("sink", lambda count: ("left 0 0", f"to {2 * count - 2} {count - 2}")),
    ("take", lambda count: ("copied 7 sunk 1", f"left {count} 0", f"to {count + 2} 0")),
)


def event(group: str, name: str, opening: tuple[str, ...], wanted: str, most: int | None = None) -> Scene:
    """A run of one event."""
    return Scene(group, ("run", name), opening, wanted=(wanted,), most=most)


def events(group: str, names: tuple[str, ...], opening: tuple[str, ...], *wanted: str) -> Scene:
    """A run of several events, each of which is done or lacks memory."""
    return Scene(group, ("run", *names), opening, judged="run", wanted=wanted)


def planting():
    for words in (("/x", "d"), ("/x", "5000"), ("/e/x", "d"), ("/", "d")):
        yield Scene("planting", ("plant", *words), WITH_FILES, wanted=("Ok",))
    for words, fault in ((("/", "5000"), "EEXIST"), (("/d", "d"), "EEXIST"), (("/v/x", "d"), "ENOENT"), (("/f/x", "d"), "ENOTDIR"), (("/x", "1099511627777"), "EFBIG")):
        yield Scene("planting", ("plant", *words), WITH_FILES, wanted=(f"Err({fault})",))


def scripts():
    yield Scene("scripts", ("betr", *SMALL), (*FEW_FILES, *SCRIPT), judged="script")
    yield events("scripts", EVENTS, WITH_FILES, "Done", "Taken")
    yield Scene("whole runs", ("betr", *SMALL), WHOLE, judged="script")
    yield Scene("whole runs", ("betr", "--explain", *SMALL), WHOLE, judged="script")
    yield Scene("whole runs", ("betr", "--load", "IMAGE", *SMALL), WHOLE[:10], judged="script")
    yield Scene("whole runs", ("betr", "--load", "IMAGE", "--flushers", "2", "--strict", "--explain", *SMALL), (), judged="script")
    yield Scene("whole runs", ("betr", "--help"), (), judged="script")
    yield Scene("whole runs", ("betr", "--version"), (), judged="script")
    yield Scene("whole runs", ("betr", "--fanout", "3"), (), judged="script")


def jobs():
    for index, opening in (("meta", WITH_BLOCKS), ("block", WITH_DEEP_BLOCKS)):
        take = f"take {index} 0"
        yield event("jobs", take, opening, "Taken")
        # What cannot be built or installed for want of memory is finished again.
        yield events("jobs", (take, "finish 0", "finish 0"), opening, "Taken", "Installed", "NotThere")
        yield events("jobs", (take, "restore s", "finish 0"), opening, "Taken", "Ok", "Stale")
        # Only the lists of the run take memory.
        yield event("jobs", f"take {index} none", opening, "NotThere", most=2)
        yield Scene("measures", ("free", index), opening, free=True, wanted=("count",))
    for name in BESIDE:
        yield events("calls beside jobs", ("take meta 0", name, "finish 0"), WITH_BLOCKS, "Taken")
    for name in OF_BLOCKS:
        yield events("calls beside jobs", ("take block 0", name, "finish 0"), WITH_DEEP_BLOCKS, "Taken")


def steps():
    for name, opening in STEPS:
        yield event("steps", name, opening, "Did")
    for index, opening in LOWERED:
        yield events("steps", (f"{index} root_up", f"{index} root_down"), opening, "Did", "Did")
    for kind in AT_SLOTS:
        for index in ("meta", "block"):
            yield event("steps", f"{index} {kind} none", WITH_BLOCKS, "NotThere", most=1)
    # The same on nodes that a snapshot shares.
    for name, opening in STEPS:
        yield events("steps behind a snapshot", ("snapshot u", name), opening, "Ok", "Did")


def engines():
    yield Scene("engines", ("room",), WITH_FILES, wanted=("made",))
    yield Scene("engines", ("engine",), WITH_FILES, wanted=("opened",))
    yield Scene("engines", ("flusher",), WITH_FILES, wanted=("made",))
    for line in (*DONE, *SNAPSHOTS):
        yield Scene("clients", ("client", line), WITH_FILES)
    for line, fault in REFUSED[:4]:
        yield Scene("clients", ("client", line), WITH_FILES, wanted=(f"Fault({fault})",))
    yield Scene("clients", ("client", "drop s"), WITH_FILES, wanted=("Ok",))
    yield Scene("clients", ("client_transact",), WITH_FILES, wanted=("Done",))
    yield Scene("clients", ("client_freeze",), WITH_FILES, wanted=("tree",))
    yield Scene("clients", ("client_frozen", "s"), WITH_FILES, wanted=("tree",))
    yield Scene("clients", ("client_frozen", "v"), WITH_FILES, wanted=("Fault(ENOENT)",))
    yield Scene("clients", ("client_made",), WITH_FILES, free=True, wanted=("made 0",))
    yield Scene("engines", ("close",), WITH_FILES, wanted=("closed",))
    yield Scene("flushers", ("turn", "0"), WITH_BLOCKS, wanted=("Installed",))
    yield Scene("flushers", ("turn", "0"), ("mkdir /x", "mkdir /y"), wanted=("Idle",))
    yield Scene("flushers", ("turn", "0"), (), wanted=("Stepped(Did",))
    yield Scene("flushers", ("turn", "3"), (), wanted=("Idle",))
    yield Scene("flushers", ("stale_turn", "s"), WITH_BLOCKS, wanted=("Stale",))


def lists():
    for deed, left in DEEDS:
        yield Scene("lists", ("list_costs", deed), (), judged="count", left=left)
    # A copy is a pointer for each row, and a row has 64 messages.
    copied = Scene("lists", ("list_costs", "copy"), (), judged="count", left=lambda count: (f"copy {count} 0",))
    yield dataclasses.replace(copied, many=65_536, too_many=1_024)
    # The first change behind a snapshot copies no message that waits in the root.
    waiting = ("mkdir /d", *(f"create /d/f{number:05}" for number in range(65_536)))
    yield Scene("lists", ("betr",), waiting, judged="more", lines=("snapshot s", "write /d/f00000 0 61"), too_many=2_000)
    # A patch is put among the layers that wait for its block, without a copy of them: three requests a line, not six.
    layers = ("create /f", *(f"write /f {64 * place} 61" for place in range(60)))
    patches = tuple(f"write /f {64 * place + 32} 62" for place in range(60))
    yield Scene("lists", ("betr",), layers, judged="more", lines=patches, too_many=240)


def all_scenes():
    """All of them, the small ones first."""
    yield Scene("small calls", ("small",), (), free=True)
    for some in (lists, planting, scripts, jobs, steps, engines):
        yield from some()
