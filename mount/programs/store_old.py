"""Stores of releases 0.1 and 0.2 (old_stores.tar.xz): a start reads them by the rules of these, says so, and writes them anew.

OLD_MOUNT, where it is set, is a doorvervain-mount of such a release, which has to refuse what this one wrote.
"""
import os
import shutil
import subprocess
import tarfile
import time
from pathlib import Path

from own_mount import MOUNT, Mount, case, run_cases
from own_store import PROGRAMS, digest, end_well, kill, logs, reported, store_mount, sync

OLD_MOUNT, WARNING, NEVER = os.environ.get("OLD_MOUNT"), "is of release 0.2 or before", ("--log-size", "1G")
STORES, COUNT = PROGRAMS / "old_stores.tar.xz", 12
WITH_SNAPSHOT = "0.1.0/checkpoint-snapshot-killed"


def all_stores() -> list[str]:
    """Their names in the archive: RELEASE/log-snapshot-killed and so on."""
    with tarfile.open(STORES) as archive:
        return [it.name.removeprefix("./") for it in archive if it.isdir() and "-" in it.name]


def unpack(folder: Path, name: str) -> None:
    subprocess.run(["tar", "-xJf", STORES, "-C", folder, "--no-same-owner", f"./{name}"], check=True)
    (folder / name).rename(folder / "store")


def names(folder: Path) -> dict[str, str]:
    return {it.name: it.read_text() for it in folder.iterdir()}


def files(count: int) -> dict[str, str]:
    return {f"file{i}": f"file {i}\n" for i in range(count)}


def check(mount, name: str) -> None:
    assert mount.stands, mount.said()
    assert names(mount.point) == files(COUNT)
    assert os.listdir(mount.point / ".snapshots") == (["taken"] if "snapshot" in name else [])
    assert "snapshot" not in name or names(mount.point / ".snapshots/taken") == files(4)
    assert os.getxattr(mount.point / "file1", "user.color") == b"blue"


def wait_for_sum(folder: Path, number: int) -> None:
    ends = time.monotonic() + 60
    while not (folder / f"store/tree.{number}.sum").exists() or (folder / f"store/log.{number - 1}").exists():
        assert time.monotonic() < ends, sorted(os.listdir(folder / "store"))
        time.sleep(0.01)


def is_new(folder: Path, number: int) -> bool:
    log, stated = (folder / f"store/log.{number}").read_bytes(), (folder / f"store/tree.{number}.sum").read_text()
    return log.startswith(b"dvlog 2\n") and stated.startswith("doorvervain checkpoint 2\n")


def digests(folder: Path) -> dict[str, str]:
    return {it.name: digest(it) for it in (folder / "store").iterdir() if it.is_file()}


def old_refuses(folder: Path) -> None:
    """A program of an older release writes nothing into the store."""
    if not OLD_MOUNT:
        return
    before = digests(folder)
    (folder / "old").mkdir(exist_ok=True)
    done = subprocess.run([OLD_MOUNT, "--store", folder / "store", folder / "old"], capture_output=True, text=True)
    assert done.returncode and done.stderr, done
    assert digests(folder) == before, done.stderr
    print("the older program:", done.stderr.strip().split(": ", 2)[-1])


def read_and_write_anew(folder: Path, name: str) -> None:
    unpack(folder, name)
    number = 2 if "checkpoint" in name else 1
    mount = store_mount(folder)
    check(mount, name)
    assert mount.said().count(WARNING) == 1, mount.said()
    if name != WITH_SNAPSHOT:
        sync(mount.point)  # behind which it is written at once, and else some seconds later
    wait_for_sum(folder, number)
    (mount.point / "later").write_text("later")
    (mount.point / "later").unlink()
    end_well(mount)
    assert is_new(folder, number) and [it.name for it in logs(folder)] == [f"log.{number}"]
    mount = store_mount(folder)
    check(mount, name)
    end_well(mount)
    assert not reported(mount), mount.said()
    old_refuses(folder)
    shutil.rmtree(folder / "store")


@case
def each_is_read_and_written_anew(folder: Path):
    stores = all_stores()
    for name in stores:
        read_and_write_anew(folder, name)
    print(f"{len(stores)} stores")


def kill_on_the_way(folder: Path, name: str, seconds: float) -> None:
    unpack(folder, name)
    mount = store_mount(folder, *NEVER)
    check(mount, name)
    (mount.point / "later").write_text("later")
    sync(mount.point)
    (mount.point / "later").unlink()
    sync(mount.point)
    time.sleep(seconds)
    kill(mount)
    old_refuses(folder) if any(is_salted(it) for it in logs(folder)) else None
    mount = store_mount(folder)
    check(mount, name)
    end_well(mount)
    shutil.rmtree(folder / "store")


@case
def each_is_killed_on_the_way(folder: Path):
    """Until an image is whole, the old files count; a log of the new form may follow one of the old."""
    for name in all_stores():
        kill_on_the_way(folder, name, 0)
    for seconds in (0.5, 4.9, 5.02, 5.04, 5.1):
        kill_on_the_way(folder, WITH_SNAPSHOT, seconds)


def is_salted(log: Path) -> bool:
    return log.read_bytes().startswith(b"dvlog 2\n")


@case
def a_log_of_the_new_form_behind_one_of_the_old(folder: Path):
    """The image between them is not written: its name is taken by a folder."""
    unpack(folder, WITH_SNAPSHOT)
    (folder / "store/tree.2.part").mkdir()
    (folder / "store/tree.2.part/x").touch()
    mount = store_mount(folder)
    check(mount, WITH_SNAPSHOT)
    ends = time.monotonic() + 60
    while not (folder / "store/log.2").exists():
        assert time.monotonic() < ends
        time.sleep(0.01)
    time.sleep(0.2)
    (mount.point / "later").write_text("later")
    sync(mount.point)
    kill(mount)
    assert [is_salted(it) for it in logs(folder)] == [False, True]
    old_refuses(folder)
    shutil.copytree(folder / "store", folder / "whole")
    log = folder / "store/log.1"
    log.write_bytes(log.read_bytes()[:-56])
    mount = store_mount(folder)
    assert not mount.stands and "log.1: record" in mount.said(), mount.said()
    shutil.rmtree(folder / "store")
    (folder / "whole").rename(folder / "store")
    shutil.rmtree(folder / "store/tree.2.part")
    mount = store_mount(folder)
    assert mount.stands and (mount.point / "later").read_text() == "later", mount.said()
    (mount.point / "later").unlink()
    check(mount, WITH_SNAPSHOT)
    wait_for_sum(folder, 3)
    end_well(mount)


@case
def an_old_image_without_a_checksum_is_refused(folder: Path):
    unpack(folder, WITH_SNAPSHOT)
    (folder / "store/tree.1.sum").unlink()
    mount = store_mount(folder)
    assert not mount.stands and "tree.1.sum is missing" in mount.said(), mount.said()


@case
def an_older_program_refuses_a_new_store(folder: Path):
    mount = store_mount(folder, *NEVER)
    (mount.point / "file").write_text("file")
    end_well(mount)
    old_refuses(folder)
    for name in ("tree.0", "tree.0.sum"):
        (folder / "store" / name).unlink()
    old_refuses(folder)


run_cases()
