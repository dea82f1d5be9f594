"""Images of a store in which snapshots stand: what is kept, behind kills and on full disks, and what is told."""
import errno
import hashlib
import os
import random
import re
import shutil
import subprocess
import sys
import time
from collections.abc import Callable, Iterator
from pathlib import Path
from typing import NamedTuple

from cases import refused as not_made
from edits_text import EditedImage
from failing_disk import FailingDisk
from kept import restore
from mixed_trees import change, change_at_random, make, reported
from own_mount import MOUNT, Mount, case, run_cases
from own_store import KILLS, WORKS, due_once_it_stands, end_well, first_files, kill, logs, on_small_disk, snapshot, store_mount, sync, write_sums
from seen import alike, seen
from store_speed import Held, fill, measure_image, memory_of

SECONDS, TRIES, MEBIBYTE, LONGEST, MORE, MOST = 30, 3, 1 << 20, 0.05, 1.15, 64
AT_ONCE, NEVER = ("--log-size", "1K"), ("--log-size", "1G")


class State(NamedTuple):
    """All that is seen of a tree."""
    reported: list[str]
    seen: dict


def state(top: Path) -> State:
    return State(reported(top), seen(top))


def same(one: State, other: State) -> None:
    assert one.reported == other.reported, set(one.reported) ^ set(other.reported)
    alike(one.seen, other.seen)


def states(mount: Mount) -> dict[str, State]:
    """Of each snapshot by its name, and of the live tree by none."""
    names = os.listdir(mount.point / ".snapshots")
    return {"": state(mount.point)} | {name: state(mount.point / ".snapshots" / name) for name in names}


def all_same(one: dict[str, State], other: dict[str, State]) -> None:
    assert one.keys() == other.keys()
    for name in one:
        same(one[name], other[name])


def files(folder: Path) -> set[str]:
    return set(os.listdir(folder / "store"))


def image_files(number: int) -> set[str]:
    return {"lock", f"log.{number}", f"tree.{number}", f"snapshots.{number}", f"tree.{number}.sum"}


def wait_until(is_so: Callable[[], bool]) -> bool:
    ends = time.monotonic() + SECONDS
    while not is_so() and time.monotonic() < ends:
        time.sleep(0.0005)
    return is_so()


def stands(mount: Mount) -> Mount:
    assert mount.stands, mount.said()
    return mount


def write_image(folder: Path, mount: Mount, number: int) -> None:
    """An image is due: a sync asks for it."""
    sync(mount.point)
    assert wait_until(lambda: files(folder) == image_files(number)), (sorted(files(folder)), mount.said())


def make_trees(mount: Mount) -> None:
    """Three that differ, of which two are snapshots."""
    make(mount.point)
    (mount.point / "name of\nlines").write_text("text")
    snapshot(mount, "the_first-1")
    change(mount.point)
    snapshot(mount, "2nd")
    shutil.rmtree(mount.point / "folder")
    (mount.point / "sparse").write_text("short")
    (mount.point / "last").write_bytes(WORKS.randbytes(100_000))


def three_trees(folder: Path) -> dict[str, State]:
    """A store that has them in a log alone."""
    mount = stands(store_mount(folder, *NEVER))
    make_trees(mount)
    out = states(mount)
    end_well(mount)
    assert files(folder) == first_files()
    return out


def has(folder: Path, wanted: dict[str, State], *options) -> None:
    mount = stands(store_mount(folder, *options))
    all_same(states(mount), wanted)
    end_well(mount)


# ---- what an image has


@case
def an_image_has_snapshots(folder: Path):
    wanted = three_trees(folder)
    mount = stands(store_mount(folder, *AT_ONCE))
    write_image(folder, mount, 1)
    all_same(states(mount), wanted)
    end_well(mount)
    assert files(folder) == image_files(1)
    has(folder, wanted, *NEVER)
    for name in ("the_first-1", "2nd"):
        mount = stands(store_mount(folder, *NEVER))
        restore(mount, name)
        same(state(mount.point), wanted[name])
        end_well(mount)


@case
def what_comes_behind_it_does_too(folder: Path):
    wanted = three_trees(folder)
    mount = stands(store_mount(folder, *AT_ONCE))
    write_image(folder, mount, 1)
    (mount.point / ".snapshots/the_first-1").rmdir()
    (mount.point / "later").write_text("later")
    snapshot(mount, "later")
    (mount.point / "last").unlink()
    snapshot(mount, "the_first-1")
    sync(mount.point)
    found = states(mount)
    same(found["2nd"], wanted["2nd"])
    kill(mount)
    mount = stands(store_mount(folder, *NEVER))
    all_same(states(mount), found)
    kill(mount)
    has(folder, found, *NEVER)


def make_many(mount: Mount, names: str) -> None:
    for name in names:
        (mount.point / name).write_bytes(WORKS.randbytes(30_000))
        (mount.point / "shared").write_bytes(name.encode() * 9000)
        snapshot(mount, name)


def next_image(folder: Path, mount: Mount, number: int, wanted: set[str]) -> None:
    """Writes until an image is whole."""
    while f"tree.{number}" not in files(folder):
        (mount.point / "written").write_bytes(WORKS.randbytes(50_000))
        sync(mount.point)
        time.sleep(0.05)
    assert wait_until(lambda: files(folder) == wanted), (sorted(files(folder)), mount.said())


@case
def each_image_has_those_that_stand(folder: Path):
    """Where the one before has the text of a snapshot, it is copied."""
    mount = stands(store_mount(folder, "--log-size", "200K"))
    make_many(mount, "abcdef")
    next_image(folder, mount, 1, image_files(1))
    first = texts(folder, 1)
    for name in "bd":
        (mount.point / ".snapshots" / name).rmdir()
    make_many(mount, "gb")
    next_image(folder, mount, 2, image_files(2))
    second = texts(folder, 2)
    assert [name for name, _ in first] == list("fedcba") and [name for name, _ in second] == list("bgfeca")
    assert dict(first)["e"] == dict(second)["e"] and dict(first)["c"] != dict(second)["c"]
    (mount.point / ".snapshots/e").rmdir()
    next_image(folder, mount, 3, image_files(3))
    wanted = states(mount)
    kill(mount)
    has(folder, wanted)
    mount = stands(store_mount(folder, *AT_ONCE))
    last = max(int(name.split(".")[1]) for name in files(folder) if name.startswith("tree."))  # a start may write one
    for name in "bgfca":
        (mount.point / ".snapshots" / name).rmdir()
    next_image(folder, mount, last + 1, image_files(last + 1) - {f"snapshots.{last + 1}"})
    wanted = states(mount)
    kill(mount)
    has(folder, wanted)


@case
def sixty_four_snapshots_hold_an_image_up(folder: Path):
    mount = stands(store_mount(folder, *NEVER))
    (mount.point / "file").write_text("file" * 1000)
    for i in range(MOST):
        snapshot(mount, f"s{i}")
    end_well(mount)
    mount = stands(store_mount(folder, *AT_ONCE))
    not_made(errno.ENOSPC, snapshot, mount, "more")
    (mount.point / "file").write_text("file" * 2000)
    before = sum(it.stat().st_size for it in logs(folder))
    sync(mount.point)
    time.sleep(1)
    assert files(folder) == first_files() and sum(it.stat().st_size for it in logs(folder)) > before
    (mount.point / ".snapshots/s9").rmdir()
    write_image(folder, mount, 1)
    snapshot(mount, "s9")
    wanted = states(mount)
    assert len(wanted) == MOST + 1
    kill(mount)
    has(folder, wanted)


@case
def what_an_image_left_that_got_no_name_belongs_to_no_other(folder: Path):
    mount = stands(store_mount(folder, *NEVER))
    (mount.point / "file").write_text("file" * 1000)
    wanted = states(mount)
    end_well(mount)
    for name in ("snapshots.1", "snapshots.1.sum", "snapshots.1.part"):
        (folder / "store" / name).write_text("left")
    mount = stands(store_mount(folder, *AT_ONCE))
    sync(mount.point)
    assert wait_until(lambda: files(folder) == {"lock", "log.1", "tree.1", "tree.1.sum"}), sorted(files(folder))
    kill(mount)
    has(folder, wanted)


# ---- its text


def texts(folder: Path, number: int) -> list[tuple[str, list[bytes]]]:
    """The snapshots of a file, each with the lines of its text."""
    out = []
    for line in (folder / f"store/snapshots.{number}").read_bytes().splitlines(keepends=True):
        if line.startswith(b"snapshot "):
            out.append((line.split()[1].decode(), []))
        else:
            out[-1][1].append(line)
    return out


def image_lines(folder: Path, number: int) -> list[bytes]:
    return (folder / f"store/tree.{number}").read_bytes().splitlines(keepends=True)


@case
def its_texts_are_differences_one_of_the_other(folder: Path):
    wanted = three_trees(folder)
    mount = stands(store_mount(folder, *AT_ONCE))
    write_image(folder, mount, 1)
    end_well(mount)
    image, size = EditedImage(image_lines(folder, 1)), 0
    for name, text in texts(folder, 1):
        image.apply(text)
        (folder / "image").write_bytes(b"".join(image.lines()))
        mount = stands(Mount(folder, "--load", folder / "image", "--trust-attributes"))
        same(state(mount.point), wanted[name])
        end_well(mount)
        size += sum(map(len, text))
    assert sorted(name for name, _ in texts(folder, 1)) == ["2nd", "the_first-1"]
    print(f"{size} bytes of texts beside an image of {(folder / 'store/tree.1').stat().st_size}")


@case
def they_are_those_that_the_library_prints(folder: Path):
    works, names = random.Random(65), ["a", "a-b", "a b", "a\x01", "a.b", "\xe9"]
    mount = stands(store_mount(folder, *NEVER))
    for i in range(12):
        for _ in range(30):
            change_at_random(works, mount.point, names)
        snapshot(mount, f"s{i:02}")
    end_well(mount)
    mount = stands(store_mount(folder, *AT_ONCE))
    write_image(folder, mount, 1)
    printed = texts(folder, 1)
    assert [name for name, _ in printed] == [f"s{i:02}" for i in reversed(range(12))]
    assert printed[0][1] == [b"delta 2\n", b"end\n"]
    for (before, _), (name, text) in zip(printed, printed[1:]):
        sent = subprocess.run([MOUNT, "--send", before, name, mount.point], stdout=subprocess.PIPE, check=True).stdout
        assert sent == b"".join(text), (before, name)
    end_well(mount)


# ---- texts of format 1, as earlier releases wrote them


def in_format_1(old: list[bytes], new: list[bytes]) -> bytes:
    """The difference between two images: their lines that are the same in front stay, and all others go and come."""
    same = next((i for i, (one, other) in enumerate(zip(old, new)) if one != other), min(len(old), len(new)))
    heading = b"delta 1 %s\n" % hashlib.sha256(b"".join(old)).hexdigest().encode()
    stay, go = (b"%s %d\n" % (word, count) if count else b"" for word, count in ((b"=", same), (b"-", len(old) - same)))
    return heading + stay + go + b"".join(b"+ " + line for line in new[same:]) + b"end\n"


def write_in_format_1(folder: Path, number: int, which: set[int]) -> None:
    """The texts with these indexes become such ones."""
    image, out = EditedImage(image_lines(folder, number)), b""
    for index, (name, text) in enumerate(texts(folder, number)):
        old = image.lines()
        image.apply(text)
        out += b"snapshot %s\n" % name.encode() + (in_format_1(old, image.lines()) if index in which else b"".join(text))
    (folder / f"store/snapshots.{number}").write_bytes(out)
    write_sums(folder / "store", number)


@case
def texts_of_format_1_are_read(folder: Path):
    wanted = three_trees(folder)
    mount = stands(store_mount(folder, *AT_ONCE))
    write_image(folder, mount, 1)
    end_well(mount)
    file = folder / "store/snapshots.1"
    whole = file.read_bytes()
    for which in ({0}, {1}, {0, 1}):
        write_in_format_1(folder, 1, which)
        assert file.read_bytes().count(b"delta 1 ") == len(which)
        has(folder, wanted, *NEVER)
        file.write_bytes(whole)
    write_in_format_1(folder, 1, {0, 1})
    mount = stands(store_mount(folder, *AT_ONCE))
    (mount.point / "more").write_bytes(WORKS.randbytes(8 * MEBIBYTE))
    write_image(folder, mount, 2)
    wanted[""] = state(mount.point)
    end_well(mount)
    assert b"delta 1 " not in (folder / "store/snapshots.2").read_bytes()
    has(folder, wanted, *NEVER)


@case
def damage_of_texts_of_format_1_is_reported(folder: Path):
    three_trees(folder)
    mount = stands(store_mount(folder, *AT_ONCE))
    write_image(folder, mount, 1)
    end_well(mount)
    write_in_format_1(folder, 1, {0, 1})
    file = folder / "store/snapshots.1"
    whole = file.read_bytes()
    for damaged in (whole.replace(b"\ndelta 1 ", b"\ndelta 1 0", 1), re.sub(rb"\ndelta 1 ....", b"\ndelta 1 0000", whole, 1),
                    whole.replace(b"\n+ ", b"\n* ", 1), whole.replace(b"\n+ ", b"\n- 1\n+ ", 1)):
        file.write_bytes(damaged)
        write_sums(folder / "store", 1)
        refused(folder, "snapshots.1: the snapshot .* is not made: ")


# ---- kills


class Kill(NamedTuple):
    """At which moment of an image its mount was killed."""
    has_tree_part: bool
    has_snapshots_part: bool
    has_snapshots: bool
    has_tree: bool


def moment(folder: Path) -> Kill:
    names = files(folder)
    return Kill("tree.1.part" in names, "snapshots.1.part" in names, "snapshots.1" in names, "tree.1.sum" in names)


def large_trees(folder: Path) -> dict[str, State]:
    """What takes a while to be written, most of it for snapshots."""
    mount = stands(store_mount(folder, *NEVER))
    make_trees(mount)
    for name in ("one", "two", "three"):
        for i in range(6):
            (mount.point / f"large{i}").write_bytes(WORKS.randbytes(MEBIBYTE))
        snapshot(mount, name)
        for i in range(5):
            (mount.point / f"large{i}").unlink()
    out = states(mount)
    end_well(mount)
    (folder / "store").rename(folder / "whole")
    return out


def again(folder: Path) -> None:
    """The store is as it was before an image."""
    shutil.rmtree(folder / "store", ignore_errors=True)
    shutil.copytree(folder / "whole", folder / "store")
    (folder / "store").chmod(0o700)


def work_for(mount: Mount, seconds: float) -> int:
    """Makes files while an image is written: how many of them are kept."""
    ends, kept = time.monotonic() + seconds, 0
    while time.monotonic() < ends:
        (mount.point / f"kept{kept}").write_text(str(kept))
        sync(mount.point)
        kept += 1
    return kept


def check_kept(mount: Mount, kept: int, wanted: dict[str, State]) -> None:
    for i in range(kept):
        assert (mount.point / f"kept{i}").read_text() == str(i)
        (mount.point / f"kept{i}").unlink()
    (mount.point / f"kept{kept}").unlink(missing_ok=True)
    found = states(mount)
    for name in wanted.keys() - {""}:
        same(found[name], wanted[name])
    # The root has another time of modification.
    alike({path: it for path, it in found[""].seen.items() if path != b"."},
          {path: it for path, it in wanted[""].seen.items() if path != b"."})
    assert found.keys() == wanted.keys()


def seconds_of_image(folder: Path) -> float:
    again(folder)
    mount, began = stands(store_mount(folder, *due_once_it_stands(folder))), time.monotonic()
    write_image(folder, mount, 1)
    took = time.monotonic() - began
    end_well(mount)
    return took


@case
def kills_take_no_snapshot(folder: Path):
    wanted, kills = large_trees(folder), []
    took = seconds_of_image(folder)
    for _ in range(KILLS):
        again(folder)
        mount = stands(store_mount(folder, *due_once_it_stands(folder)))
        sync(mount.point)
        kept = work_for(mount, WORKS.uniform(0, 1.5 * took))
        kill(mount)
        kills.append(moment(folder))
        mount = stands(store_mount(folder, *NEVER))
        check_kept(mount, kept, wanted)
        end_well(mount)
        assert not [name for name in files(folder) if name.endswith(".part")]
    within = [sum(getattr(it, name) for it in kills) for name in Kill._fields]
    print(f"the image took {took:.2f} s; of {KILLS} kills {dict(zip(Kill._fields, within))}")
    assert within[1] > KILLS // 5, kills


def kill_at(folder: Path, is_so: Callable[[Kill], bool]) -> Kill:
    """Kills the mount of a new store as soon as its image is at a moment."""
    again(folder)
    mount = stands(store_mount(folder, *due_once_it_stands(folder)))
    sync(mount.point)
    assert wait_until(lambda: is_so(moment(folder)))
    kill(mount)
    return moment(folder)


@case
def nor_do_those_between_the_two_names(folder: Path):
    """The snapshots stand before the checksums do; an image that lacks them is written once more, with another number."""
    wanted, between = large_trees(folder), 0
    for _ in range(KILLS):
        killed = kill_at(folder, lambda it: it.has_snapshots or it.has_tree)
        assert killed.has_snapshots
        between += not killed.has_tree
        has(folder, wanted, *NEVER)
        if between == 1 and not killed.has_tree:
            mount = stands(store_mount(folder, *due_once_it_stands(folder)))
            write_image(folder, mount, 2)
            end_well(mount)
            has(folder, wanted)
    print(f"{between} of {KILLS} kills came between the two names")


@case
def an_unmount_ends_it(folder: Path):
    wanted = large_trees(folder)
    again(folder)
    mount = stands(store_mount(folder, *due_once_it_stands(folder)))
    sync(mount.point)
    assert wait_until(lambda: moment(folder).has_snapshots_part)
    end_well(mount)
    print("the image was", "whole before its mount ended" if moment(folder).has_tree else "cut short")
    has(folder, wanted)


@case
def snapshots_come_and_go_meanwhile(folder: Path):
    wanted = large_trees(folder)
    again(folder)
    mount = stands(store_mount(folder, *due_once_it_stands(folder)))
    sync(mount.point)
    assert wait_until(lambda: moment(folder).has_snapshots_part)
    for name in ("one", "three", "2nd"):
        (mount.point / ".snapshots" / name).rmdir()
        wanted.pop(name)
    assert moment(folder).has_snapshots_part
    wanted["meanwhile"] = state(snapshot(mount, "meanwhile"))
    restore(mount, "two")
    wanted[""] = state(mount.point)
    write_image(folder, mount, 1)
    same(wanted[""], wanted["two"])
    kill(mount)
    has(folder, wanted)


# ---- damage


def refused(folder: Path, words: str) -> None:
    """A start is, and nothing is written."""
    before = {it.name: it.read_bytes() for it in (folder / "store").iterdir()}
    mount = store_mount(folder, *AT_ONCE)
    assert not mount.stands and re.search(words, mount.said()), mount.said()
    assert {it.name: it.read_bytes() for it in (folder / "store").iterdir()} == before


def damages(whole: bytes) -> Iterator[bytes]:
    for _ in range(20):
        at = WORKS.randrange(len(whole))
        yield whole[:at] + bytes([whole[at] ^ 1 << WORKS.randrange(8)]) + whole[at + 1:]
        yield whole[:at]
    yield whole + b"x"


@case
def what_is_damaged_is_reported(folder: Path):
    wanted = three_trees(folder)
    mount = stands(store_mount(folder, *AT_ONCE))
    write_image(folder, mount, 1)
    end_well(mount)
    file = folder / "store/snapshots.1"
    whole = file.read_bytes()
    for damaged in damages(whole):
        file.write_bytes(damaged)
        refused(folder, "snapshots.1: it was cut or changed")
    file.write_bytes(whole)
    has(folder, wanted)


@case
def and_so_it_is_where_the_checksum_is_right(folder: Path):
    wanted = three_trees(folder)
    mount = stands(store_mount(folder, *AT_ONCE))
    write_image(folder, mount, 1)
    end_well(mount)
    file, reported_sum = folder / "store/snapshots.1", folder / "store/tree.1.sum"
    whole, sum_of_whole = file.read_bytes(), reported_sum.read_bytes()
    some = b"snapshot 2nd\n"
    front, back = whole.split(some)
    no_tree = (b"delta 2\n+ F /zzz/zzz 3 4\nend\n", b"delta 2\n+ F /zzz 3 4\nb /zzz 0 - 01020304\nend\n")
    names = (b"snapshot the_first-1\n", b"snapshot a/b\n", b"snapshot \n", b"snapshot " + b"x" * 65 + b"\n")
    lines_changed = (whole.replace(b"delta 2\n", b"delta 3\n", 1), whole.replace(b"\n+ ", b"\n+ x", 1),
                     front.replace(b"\n+ ", b"\n- F /zzz 0 0\n+ ", 1) + some + back)
    cut = (whole[:-1], whole[:-5], whole + b"x", front + some, some + back, some + back + front)
    for damaged in (*cut, *(front + name + back for name in names), *lines_changed,
                    *(front + some + text for text in no_tree)):
        file.write_bytes(damaged)
        write_sums(folder / "store", 1)
        refused(folder, "snapshots.1: the snapshot .* is not made: ")
    file.write_bytes(whole)
    reported_sum.unlink()
    refused(folder, "tree.1.sum is missing")
    reported_sum.write_bytes(sum_of_whole)
    file.unlink()
    refused(folder, "snapshots.1 is missing")
    file.write_bytes(whole)
    has(folder, wanted)


# ---- disks


def write_some(mount: Mount, size: int, is_enough: Callable[[], bool]) -> None:
    """Requests are answered, and what they write is kept, until something is so."""
    for _ in range(400):
        (mount.point / "some").write_bytes(WORKS.randbytes(size))
        sync(mount.point)
        if is_enough():
            return
        time.sleep(0.01)
    raise AssertionError(mount.said())


def fill_disk(folder: Path, disk: Path) -> None:
    mount = stands(Mount(folder, "--store", disk / "store", *NEVER))
    (mount.point / "large").write_bytes(WORKS.randbytes(8 * MEBIBYTE))
    snapshot(mount, "large")
    (mount.point / "large").unlink()
    end_well(mount)
    (disk / "other").write_bytes(bytes(12 * MEBIBYTE))
    mount = stands(Mount(folder, "--store", disk / "store", "--log-size", "1M"))
    write_some(mount, 1000, lambda: "is not written" in mount.said())
    assert "tree.1 is not written: No space left on device" in mount.said(), mount.said()
    assert not [name for name in os.listdir(disk / "store") if name.startswith(("tree", "snapshots")) and ".0" not in name]
    (disk / "other").unlink()
    write_some(mount, 100_000, lambda: any(disk.glob("store/tree.[1-9]*.sum")) and not any(disk.glob("store/*.part")))
    assert "refused" not in mount.said(), mount.said()
    wanted = states(mount)
    kill(mount)
    mount = stands(Mount(folder, "--store", disk / "store"))
    all_same(states(mount), wanted)
    end_well(mount)


@case
def a_full_disk_takes_another_image(folder: Path):
    on_small_disk(folder, lambda disk: fill_disk(folder, disk))


@case
def a_disk_that_fails_takes_another_image(folder: Path):
    disk = FailingDisk(folder)
    mount = stands(store_mount(folder, "--log-size", "100K", environment=disk.environment))
    (mount.point / "file").write_text("file")
    snapshot(mount, "one")
    disk.fail("snapshots")
    write_some(mount, 10_000, lambda: "is not written: Input/output error" in mount.said())
    assert wait_until(lambda: not [it for it in files(folder) - first_files() if it.startswith(("tree", "snapshots"))])
    disk.mend()
    write_some(mount, 10_000, lambda: any(folder.glob("store/tree.[1-9]*.sum")))
    assert "refused" not in mount.said(), mount.said()
    wanted = states(mount)
    kill(mount)
    has(folder, wanted)


# ---- how long it takes


def hold_up(folder: Path, count: int) -> Held:
    """What an image of some MiB holds up that has two snapshots, of which each has other bytes in all of them."""
    shutil.rmtree(folder / "store", ignore_errors=True)
    mount = stands(store_mount(folder, "--log-size", f"{3 * count + 60}M"))
    for name in ("one", "two"):
        fill(mount.point, count)
        snapshot(mount, name)
    held = measure_image(mount.point, folder / "store", mount.process.pid, count)
    print(f"two snapshots, {count} MiB of changes in each: {held}")
    assert any(folder.glob("store/snapshots.*")) and wait_until(lambda: [it.name for it in logs(folder)] == ["log.1"])
    end_well(mount)
    return held


def is_quick(held: Held, count: int) -> bool:
    """The text of a difference is in memory until it is written: two digits for each byte that has changed."""
    return held.longest < LONGEST + 2 * held.quiet and held.most < MORE * (held.before + 2 * count / 1024)


@case
def an_image_holds_nothing_up(folder: Path):
    """On a busy machine a write may take longer by itself: so one of three images has to be quick. Of a build with
    sanitizers neither time nor memory is judged."""
    sanitized = "sanitized" in MOUNT
    count = 20 if sanitized else 200
    tries = (hold_up(folder, count) for _ in range(TRIES))
    assert any(sanitized or is_quick(held, count) for held in tries)
    began = time.monotonic()
    mount = stands(store_mount(folder))
    took, most = time.monotonic() - began, memory_of(mount.process.pid)
    print(f"a start with them took {took:.1f} s, and {most:.2f} GiB at most")
    sys.stdout.flush()
    assert set(os.listdir(mount.point / ".snapshots")) == {"one", "two"}
    end_well(mount)


run_cases()
