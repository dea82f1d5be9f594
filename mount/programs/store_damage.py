"""Stores of which one file is damaged: what a start says, and what it shows.

Each of the stores has files that were made one after the other, with a sync behind each, and a snapshot. So a tree that is shown is
right exactly if it has the first of these files with their bytes; and one that has not all of them is not shown in silence.
ROUNDS is how many damages of each kind are tried of a file; the heavy run is `ROUNDS=200`.
"""
import itertools
import os
import re
import shutil
import subprocess
import time
from collections.abc import Iterator
from pathlib import Path
from typing import NamedTuple

from own_mount import MOUNT, Mount, case, run_cases
from own_store import WORKS, digest, due_once_it_stands, end_well, kill, reported, snapshot, store_mount, sync

ROUNDS, FILES, TAKEN, NEVER = int(os.environ.get("ROUNDS", "4")), 12, 4, ("--log-size", "1G")
HEADER, MARKER = 152, 56
MISSING, EMPTIED, OTHERS = WHOLE_FILES = "missing", "emptied", "that of another store"


class Made(NamedTuple):
    """A store as its mount left it."""
    store: Path
    shown: int  # files that a start shows


def contents(number: int) -> bytes:
    return f"file {number} ".encode() * (20 + number * 30)


def add(mount, first: int, last: int) -> None:
    for number in range(first, last):
        if number == TAKEN:
            snapshot(mount, "taken")
        (mount.point / f"file{number:02}").write_bytes(contents(number))
        sync(mount.point)


def leave(mount, ends_well: bool) -> None:
    (end_well if ends_well else kill)(mount)


def stands(mount):
    assert mount.stands, mount.said()
    return mount


def wait_for(folder: Path, name: str, is_there: bool = True) -> None:
    ends = time.monotonic() + 60
    while (folder / "store" / name).exists() != is_there:
        assert time.monotonic() < ends, sorted(os.listdir(folder / "store"))
        time.sleep(0.0005)


def make_log_alone(folder: Path, ends_well: bool) -> None:
    mount = stands(store_mount(folder, *NEVER))
    add(mount, 0, FILES)
    leave(mount, ends_well)


def make_checkpoint(folder: Path, ends_well: bool) -> None:
    mount = stands(store_mount(folder, *NEVER))
    add(mount, 0, FILES - 3)
    end_well(mount)
    mount = stands(store_mount(folder, "--log-size", "1K"))
    sync(mount.point)
    wait_for(folder, "tree.1.sum")
    wait_for(folder, "log.0", False)
    kill(mount)
    mount = stands(store_mount(folder, *NEVER))
    add(mount, FILES - 3, FILES)
    leave(mount, ends_well)


def make_two_logs(folder: Path, ends_well: bool) -> None:
    """The image between them was not written to its end."""
    mount = stands(store_mount(folder, *NEVER))
    (mount.point / "large").write_bytes(WORKS.randbytes(1 << 20))
    (mount.point / "large").unlink()
    add(mount, 0, FILES - 3)
    (mount.point / ".snapshots/large").mkdir()
    end_well(mount)
    while True:
        mount = stands(store_mount(folder, *due_once_it_stands(folder)))
        sync(mount.point)
        wait_for(folder, "log.1")
        kill(mount)
        mount = stands(store_mount(folder, *NEVER))
        if (folder / "store/log.1").exists() and not (folder / "store/tree.1.sum").exists():
            break
        end_well(mount)
        shutil.rmtree(folder / "store")
        return make_two_logs(folder, ends_well)
    (mount.point / ".snapshots/large").rmdir()
    add(mount, FILES - 3, FILES)
    leave(mount, ends_well)


def make(folder: Path, kind, ends_well: bool, name: str) -> Made:
    shutil.rmtree(folder / "store", ignore_errors=True)
    kind(folder, ends_well)
    (folder / "store").rename(folder / name)
    return Made(folder / name, FILES)


def records_in(log: bytes) -> Iterator[int]:
    """Where the records of a log end."""
    at = 0
    while log[at:at + 6] == b"dvlog ":
        at += MARKER + int.from_bytes(log[at + 16:at + 24], "little")
        yield at


def cuts(name: str, whole: bytes) -> Iterator[int]:
    places = {place + by for place in records_in(whole) for by in (-1, 0, 1)} if name.startswith("log.") else set()
    places |= set(WORKS.sample(range(len(whole)), min(ROUNDS, len(whole))))
    places = sorted(it for it in places if 0 < it < len(whole))
    yield from WORKS.sample(places, min(3 * ROUNDS, len(places)))


def damages(name: str, whole: bytes, other: bytes | None) -> Iterator[tuple[str, bytes | None]]:
    """What becomes of a file, in words; none: it is missing."""
    yield MISSING, None
    yield EMPTIED, b""
    for at in cuts(name, whole):
        yield f"cut at {at} of {len(whole)}", whole[:at]
    for at in WORKS.sample(range(len(whole)), min(3 * ROUNDS, len(whole))):
        yield f"changed at {at}", whole[:at] + bytes([whole[at] ^ 1 << WORKS.randrange(8)]) + whole[at + 1:]
    yield "lengthened", whole + b"x"
    if other not in (None, whole):
        yield OTHERS, other


def seen(top: Path) -> dict[str, bytes]:
    return {it.name: it.read_bytes() for it in top.iterdir()}


def first_files(count: int) -> dict[str, bytes]:
    return {f"file{number:02}": contents(number) for number in range(count)}


def shown(mount, lacks_snapshots: bool = False, are_known: bool = True) -> int:
    """How many of the first files a mount has: they are right, and so is the snapshot, unless the snapshots are not known to be.
    One more file may have no bytes yet."""
    live = seen(mount.point)
    live.pop("large", None)
    count = len(live)
    if count and not live[max(live)]:
        del live[max(live)]
        count -= 1
    assert live == first_files(count), sorted(live)
    if not are_known:
        return count
    taken = os.listdir(mount.point / ".snapshots")
    assert taken in ([], ["taken"], ["large"], ["taken", "large"], ["large", "taken"]), taken
    assert "taken" in taken or count <= TAKEN or lacks_snapshots, (count, taken)
    if "taken" in taken:
        assert seen(mount.point / ".snapshots/taken") == first_files(TAKEN)
    return count


def rescued(folder: Path, name: str, what: str) -> int:
    """Of a store that is refused a new one is made: how many of the first files it has. The old one is only read."""
    new, before = folder / "new", {it.name: digest(it) for it in (folder / "store").iterdir()}
    shutil.rmtree(new, ignore_errors=True)
    done = subprocess.run([MOUNT, "--rescue", new, folder / "store"], capture_output=True, text=True)
    assert done.returncode == 3 and done.stderr.strip() and "a part of the store" in done.stdout, (name, what, done)
    assert {it.name: digest(it) for it in (folder / "store").iterdir()} == before, (name, what)
    mount = Mount(folder, "--store", new, *NEVER, name="rescued")
    try:
        assert mount.stands and not reported(mount), (name, what, mount.said())
        unknown = re.findall(r"(tree|snapshots)\.\d+: it is taken as it is", done.stderr)
        if "tree" in unknown:
            assert not name.startswith("snapshots"), (name, what, done.stderr)
            return len(seen(mount.point))
        return shown(mount, name.startswith("snapshots") or "snapshots" in done.stderr, "snapshots" not in unknown)
    except AssertionError as fault:
        raise AssertionError(name, what, done.stderr, mount.said()) from fault
    finally:
        mount.end()


def try_damage(folder: Path, made: Made, name: str, what: str, damaged: bytes | None) -> bool:
    """Whether the start was refused."""
    shutil.rmtree(folder / "store", ignore_errors=True)
    shutil.copytree(made.store, folder / "store")
    (folder / "store").chmod(0o700)
    if damaged is None:
        (folder / "store" / name).unlink()
    else:
        (folder / "store" / name).write_bytes(damaged)
    before = {it.name: digest(it) for it in (folder / "store").iterdir()}
    mount = store_mount(folder, *NEVER)
    if not mount.stands:
        assert reported(mount), (name, what)
        assert {it.name: digest(it) for it in (folder / "store").iterdir()} == before, (name, what)
        count = rescued(folder, name, what)
        # Which of two files is that of another store is not known: so the log is left out.
        assert count == made.shown or not name.endswith((".sum", "lock")) or what == OTHERS, (name, what, count)
        return True
    try:
        assert what not in WHOLE_FILES or name == "lock", (name, what, "is not refused")
        count = shown(mount)
        assert count == made.shown or reported(mount), (name, what, count, "in silence")
        assert count == made.shown or name != "lock", (name, what, count)
    except AssertionError as fault:
        raise AssertionError(name, what, mount.said()) from fault
    finally:
        mount.end()
    return False


def damage_each(folder: Path, made: Made, other: Made) -> None:
    refused = tried = 0
    for file in sorted(made.store.iterdir()):
        if not file.stat().st_size:
            continue
        alike = other.store / file.name
        for what, damaged in damages(file.name, file.read_bytes(), alike.read_bytes() if alike.exists() else None):
            refused += try_damage(folder, made, file.name, what, damaged)
            tried += 1
    print(f"{made.store.name}: of {tried} damages {refused} are refused")


def damage_kind(folder: Path, kind) -> None:
    for ends_well in (True, False):
        made = make(folder, kind, ends_well, f"{kind.__name__}-{'ended' if ends_well else 'killed'}")
        assert not try_damage(folder, made, "lock", "nothing", (made.store / "lock").read_bytes())
        other = make(folder, kind, ends_well, "other") if not (folder / "other").exists() else Made(folder / "other", FILES)
        damage_each(folder, made, other)


@case
def a_log_alone(folder: Path):
    damage_kind(folder, make_log_alone)


@case
def a_checkpoint_and_its_log(folder: Path):
    damage_kind(folder, make_checkpoint)


@case
def two_logs(folder: Path):
    damage_kind(folder, make_two_logs)


@case
def files_of_an_earlier_number(folder: Path):
    """A file stands under the name of a later one."""
    first = make(folder, make_log_alone, True, "first").store
    made = make(folder, make_checkpoint, True, "made")
    for old, new in (("tree.0", "tree.1"), ("tree.0.sum", "tree.1.sum"), ("log.0", "log.1")):
        assert try_damage(folder, made, new, f"that is {old}", (first / old).read_bytes()), new


STAGES = [(6, True), (7, True), (8, False), (8, True), (9, True), (10, True), (11, False), (11, False)]
WITH_CHECKPOINT = 3


def make_stages(folder: Path) -> list[Made]:
    """A store as each of its mounts left it, which had so many files then, and ended or was killed. One wrote a checkpoint."""
    made, before = [], 0
    for number, (count, ends_well) in enumerate(STAGES):
        mount = stands(store_mount(folder, *(("--log-size", "1K") if number == WITH_CHECKPOINT else NEVER)))
        add(mount, before, count)
        if number == WITH_CHECKPOINT:
            sync(mount.point)
            wait_for(folder, "log.0", False)
        leave(mount, ends_well)
        shutil.copytree(folder / "store", folder / f"stage{number}")
        made.append(Made(folder / f"stage{number}", count))
        before = count
    shutil.rmtree(folder / "store")
    return made


def kind_of(name: str) -> str:
    return "".join(it for it in name if not it.isdigit())


@case
def files_as_they_were_at_an_earlier_end(folder: Path):
    made, tried, refused = make_stages(folder), 0, 0
    for now, store in enumerate(made):
        for file, then in itertools.product(sorted(store.store.iterdir()), range(now)):
            for old in made[then].store.iterdir():
                if kind_of(old.name) == kind_of(file.name) and old.read_bytes() != file.read_bytes():
                    what = f"that is {old.name} as it was {now - then} mounts before"
                    is_refused = try_damage(folder, store, file.name, what, old.read_bytes())
                    lacks_files = file.name.startswith("log.") and made[then].shown < store.shown
                    assert is_refused or not lacks_files or not STAGES[now][1], (now, then, file.name, "is not refused")
                    refused += is_refused
                    tried += 1
    print(f"of {tried} older files {refused} are refused")


def rescue_whole(folder: Path, store: Path) -> Path:
    new = folder / f"rescued-{store.name}"
    subprocess.run([MOUNT, "--rescue", new, store], check=True, capture_output=True)
    return new


@case
def a_tree_that_is_changed_is_not_shown_where_its_checksums_are_missing(folder: Path):
    """Its number may be 0, with all files in it."""
    with_snapshot = make(folder, make_checkpoint, True, "snapshot").store
    mount = stands(store_mount(folder, *NEVER))
    add(mount, 0, TAKEN)
    end_well(mount)
    for store in (with_snapshot, rescue_whole(folder, with_snapshot), rescue_whole(folder, folder / "store")):
        tree = max(store.glob("tree.*[0-9]"))
        tree.write_bytes(tree.read_bytes().replace(b"file ".hex().encode(), b"File ".hex().encode()))
        tree.with_name(f"{tree.name}.sum").unlink()
        mount = Mount(folder, "--store", store, *NEVER)
        assert not mount.stands and ".sum is missing" in mount.said(), mount.said()


@case
def a_log_that_was_left_whole_is_not_cut_in_silence(folder: Path):
    """Behind a clean end a record that is missing is told from one that was not synced."""
    made = make(folder, make_log_alone, True, "made")
    whole = (made.store / "log.0").read_bytes()
    for at in list(records_in(whole))[:-3]:
        assert try_damage(folder, made, "log.0", f"cut at {at}", whole[:at]), at


@case
def an_end_is_distinguished_from_a_kill(folder: Path):
    for ends_well in (True, False):
        make_log_alone(folder, ends_well)
        mount = stands(store_mount(folder, *NEVER))
        assert ("its mount did not end well" in mount.said()) != ends_well, mount.said()
        end_well(mount)
        mount = stands(store_mount(folder, *NEVER))
        assert not reported(mount), mount.said()
        end_well(mount)
        shutil.rmtree(folder / "store")


@case
def a_start_that_changes_nothing_leaves_each_file_as_it_was(folder: Path):
    make_checkpoint(folder, True)
    before = {it.name: digest(it) for it in (folder / "store").iterdir()}
    for _ in range(2):
        end_well(stands(store_mount(folder, *NEVER)))
        assert {it.name: digest(it) for it in (folder / "store").iterdir()} == before


@case
def a_rescue_has_all_before_the_first_damage(folder: Path):
    """Of a log of which each record but the marks of its end is damaged in turn: how many whole ones come after is told."""
    made, counts = make(folder, make_log_alone, True, "made"), []
    log = made.store / "log.0"
    whole, ends = log.read_bytes(), list(records_in(log.read_bytes()))
    for number, at in enumerate(ends[:-3], start=1):
        log.write_bytes(whole[:at + 30] + bytes([whole[at + 30] ^ 1]) + whole[at + 31:])
        done = subprocess.run([MOUNT, "--rescue", folder / f"new{number}", made.store], capture_output=True, text=True)
        left = re.search("log.0: ([0-9]+) whole records behind that are left", done.stderr)
        assert done.returncode == 3 and f"record {number}, at byte {at}, was on the disk" in done.stderr, done
        assert left and int(left[1]) == len(ends) - number - 1, (number, done)
        mount = stands(Mount(folder, "--store", folder / f"new{number}", *NEVER))
        counts.append(shown(mount))
        end_well(mount)
    assert counts == sorted(counts) and set(counts) == set(range(FILES)), counts


@case
def a_rescue_of_a_whole_store_has_all(folder: Path):
    make_checkpoint(folder, True)
    command = [MOUNT, "--rescue", folder / "new", folder / "store"]
    done = subprocess.run(command, capture_output=True, text=True)
    assert done.returncode == 0 and not done.stderr and "all of the store" in done.stdout, done
    mount = stands(Mount(folder, "--store", folder / "new", *NEVER))
    assert shown(mount) == FILES
    assert subprocess.run(command, capture_output=True).returncode == 1
    end_well(mount)
    mount = stands(store_mount(folder, *NEVER))
    done = subprocess.run([MOUNT, "--rescue", folder / "other", folder / "store"], capture_output=True, text=True)
    assert done.returncode == 1 and "a mount has this store" in done.stderr, done
    end_well(mount)


run_cases()
