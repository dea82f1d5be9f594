"""The scenes of tests/oom/library: what each is called, what stands before it, and what is asked of the static library.

`free` ones must do as ever with every request refused; of the others each request is refused once.
"""
import dataclasses
from collections.abc import Callable

from deeds import (
    SMALL,
    Applied,
    AppliedEdits,
    Deed,
    Delta,
    Edits,
    Made,
    Numbers,
    Pieces,
    Pointer,
    Printed,
    Replayed,
    Steps,
    Text,
    Transaction,
    World,
    calls,
    deed_of,
    image_of_tree,
    need,
)
from log_by_hand import EDITS, EDITS_BODY, FIRST, FIRST_BODY, SALT, SECOND_BODY, record
from records import FRONT, RECORDS
from scenes import (
    BASE,
    DONE,
    FIRST_IMAGE,
    IMAGE,
    LOOKS,
    REFUSED,
    SNAPSHOTS,
    WITH_BLOCKS,
    WITH_CHAIN,
    WITH_COVERED,
    WITH_DEEP_BLOCKS,
    WITH_FEW_BLOCKS,
    WITH_FILES,
)

AT = 7
ERRORS = calls.ERRORS


def nothing(_world: World) -> None:
    """Nothing is made behind the opening."""


@dataclasses.dataclass(frozen=True)
class Scene:
    """A call behind an opening."""

    group: str
    name: str
    deed: Deed
    opening: tuple[str, ...] = WITH_FILES
    # The number of the answer where nothing is refused, if it is one.
    wanted: int | None = 0
    # Whether it takes no memory, so that it does as ever with every request refused.
    free: bool = False
    # What is made behind the opening.
    arrange: Callable[[World], None] = nothing
    # Whether it is a step of compaction, behind which the next follows until so many requests were refused.
    compacts: bool = False
    most: int = 250

    @property
    def title(self) -> str:
        return f"{self.group} {self.name if len(self.name) < 60 else self.name[:60] + '..'}"


def stands(name: str, *words) -> Callable[[World], None]:
    """Makes a frozen tree or a fork, which stands beside the volume from then on."""

    def arrange(world: World) -> None:
        made = Pointer()
        need(calls.ask(name, world.fs, *words, made) == 0, f"no {name}")
        world.keep("fork" if name == "fork" else "tree", made)

    return arrange


def both(world: World) -> None:
    """They share the lists of pending messages."""
    calls.ask("make_sharable", world.fs)
    stands("freeze")(world)
    stands("fork")(world)


def file_calls():
    for line in DONE:
        yield Scene("calls", line, deed_of(line, AT))
    for line, fault in REFUSED:
        yield Scene("refusals of calls", line, deed_of(line, AT), wanted=ERRORS[fault])
    yield Scene("calls", "rename /a /b", deed_of("rename /a /b", AT), WITH_CHAIN)
    yield Scene("refusals of calls", "rename /a /abcd", deed_of("rename /a /abcd", AT), WITH_CHAIN, wanted=calls.ENAMETOOLONG)
    for line in ("punch /f 5000 5000", "punch /f 0 9000", "set_mtime /f", "set_mtime /e/f50"):
        yield Scene("calls", line, deed_of(line, AT))
    for name, words in (("h", (b"/f", 100, b"/h", 50, 5_000)), ("f", (b"/f", 0, b"/f", 8_192, 9_000)), ("f on", (b"/f", 1, b"/f", 4_095, 100))):
        yield Scene("calls", f"copy to /{name}", Numbers("copy_range", *words, AT))
    for name in (b"/f", b"/h"):
        yield Scene("calls", f"next extent of {name.decode()}", Numbers("next_extent", name, 0, sizes=(8, 8)))


def beside():
    """Calls on nodes that a frozen tree and a fork share."""
    for line in (*DONE, *SNAPSHOTS, "drop s"):
        yield Scene("calls beside a frozen tree and a fork", line, deed_of(line, AT), arrange=both)
    yield Scene("transactions", "lines", Transaction("mkdir /x", "create /x/y", "write /x/y 4090 6162636465666768", "rename /x /z"))
    yield Scene("transactions", "lines over shared nodes", Transaction("rmtree /e", "unlink /f", "rename /h /e"), arrange=both)


def logs():
    first, second = [FIRST_BODY], [SECOND_BODY[:52], SECOND_BODY[52:]]
    yield Scene("logs", "body of a write", Text("wal_write", b"/f", 4_090, b"0123456789", AT, at=None), ())
    yield Scene("logs", "body of a copy", Text("wal_copy_range", b"/f", 4_096, b"/g", 8_193, 3, AT, at=None), ())
    yield Scene("logs", "body of edits", Text("wal_edits", EDITS, at=None), ())
    yield Scene("logs", "body of a rename", Text("wal_rename", b"/e", b"/g", AT, at=None), ())
    yield Scene("logs", "body of no path", Text("wal_mkdir", b"d", AT, at=None), (), wanted=calls.EINVAL)
    yield Scene("logs", "body of a snapshot", Text("wal_snapshot", b"s", at=None), ())
    yield Scene("logs", "frame", Text("wal_salted_frame", SALT, FIRST, SECOND_BODY, at=None), ())
    yield Scene("logs", "dump", Text("wal_dump", SECOND_BODY, at=None), ())
    yield Scene("logs", "apply", Applied([*first, *second]))
    yield Scene("logs", "apply edits", Applied([*first, EDITS_BODY]))
    for salt in (b"", SALT):
        records = [(record(salt, FIRST + it, b"".join(bodies)), bodies) for it, bodies in enumerate((first, second))]
        yield Scene("logs", f"replay with {len(salt)} bytes of salt", Replayed(salt, FIRST, records))


def attribute_records():
    fields, extended, lines = RECORDS[2]
    for name in ("dir", "path"):
        yield Scene("attribute records", name, Text(f"attr_{name}", b"/e/f50", at=None), ())
    yield Scene("attribute records", "encode", Text("attr_encode", calls.Attributes(**fields), extended, at=None), ())
    yield Scene("attribute records", "decode", Text("attr_decode", FRONT + lines, calls.Attributes(), at=None), ())


def snapshots():
    for line in SNAPSHOTS:
        yield Scene("snapshots", line, deed_of(line, AT))
    yield Scene("snapshots", "drop s", deed_of("drop s", AT), free=True)
    for line, fault in (("snapshot s", "EEXIST"), ("drop v", "ENOENT"), ("restore v", "ENOENT")):
        yield Scene("snapshots", line, deed_of(line, AT), free=True, wanted=ERRORS[fault])
    for number, size in ((0, 0), (1, 0), (2, calls.ENOENT)):
        yield Scene("snapshots", f"name {number}", Text("snapshot_name", number), wanted=size)


def trees():
    yield Scene("trees", "freeze", Made("freeze", shows=image_of_tree))
    yield Scene("trees", "fork", Made("fork"))
    yield Scene("trees", "the snapshot s", Made("open_snapshot", b"s", shows=image_of_tree))
    yield Scene("trees", "the snapshot v", Made("open_snapshot", b"v", shows=image_of_tree), free=True, wanted=calls.ENOENT)
    for line in (*LOOKS, "stat@s /"):
        word, _, rest = line.partition(" ")
        verb, name = word.split("@")
        arrange = stands("freeze") if name == "v" else stands("open_snapshot", name.encode())
        yield Scene("trees", line, deed_of(f"{verb} {rest}", AT, "tree"), wanted=None, free=line == "stat@s /", arrange=arrange)
    yield Scene("trees", "extent", Numbers("frozen_next_extent", b"/f", 0, sizes=(8, 8), at="tree"), arrange=stands("freeze"))
    yield Scene("trees", "image", Text("image", at="tree"), arrange=stands("freeze"))
    yield Scene("trees", "pieces of an image", Printed("print_begin"))
    yield Scene("trees", "fork of a tree", Made("frozen_fork", at="tree"), arrange=stands("open_snapshot", b"s"))


def texts():
    for name, text in (("1", FIRST_IMAGE), ("2", IMAGE)):
        whole = "".join(f"{line}\n" for line in text).encode()
        yield Scene("images", f"load {name}", Made("load", *SMALL, whole, at=None, lines=True))
        yield Scene("images", f"load {name} in pieces", Pieces(whole, 1_000))
    yield Scene("images", "bad shape", Made("load", 3, 4, 4, whole, at=None, lines=True), free=True, wanted=calls.EINVAL)
    yield Scene("images", "bad line", Made("load", *SMALL, whole + b"x\n", at=None, lines=True), wanted=calls.EINVAL)
    yield Scene("images", "a volume", Made("open", *SMALL, at=None), ())
    yield Scene("deltas", "between snapshots", Text("delta", b"s", b"t"))
    yield Scene("deltas", "apply", Delta("apply_delta", b"s"), wanted=None)
    yield Scene("deltas", "paths between snapshots", Text("changed_paths", b"s", b"t"))
    yield Scene("deltas", "paths since a snapshot", Text("changed_paths", b"s", b""))
    yield Scene("edits", "between snapshots", Edits("edits", b"s", b"t"))
    yield Scene("edits", "since a snapshot", Edits("edits", b"s", b""))
    yield Scene("edits", "of no snapshot", Edits("edits", b"s", b"v"), wanted=calls.ENOENT)
    yield Scene("edits", "apply", AppliedEdits("apply_edits", b"s"))
    yield Scene("edits", "apply beside a frozen tree and a fork", AppliedEdits("apply_edits", b"t"), arrange=both)


def compaction():
    openings = {"few": BASE, "files": WITH_FILES, "blocks": WITH_BLOCKS, "deep blocks": WITH_DEEP_BLOCKS, "few blocks": WITH_FEW_BLOCKS, "covered": WITH_COVERED}
    for name, opening in openings.items():
        yield Scene("compaction", name, Steps(), opening, wanted=None, compacts=True)
        yield Scene("compaction beside a frozen tree and a fork", name, Steps(), opening, wanted=None, compacts=True, arrange=both)


def all_scenes() -> list[Scene]:
    return [it for some in (file_calls, beside, snapshots, trees, texts, logs, attribute_records, compaction) for it in some()]
