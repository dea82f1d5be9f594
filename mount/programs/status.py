"""What --status and df -i tell of a mount, held against what is seen of it."""
import os
import subprocess
import time
from pathlib import Path

from own_mount import MOUNT, Mount, case, run_cases
from own_store import end_well, status_of, store_mount, sync

LARGE = 200 << 20
SECONDS_TO_RETURN = 10


def names_in(top: Path) -> int:
    return sum(len(folders) + len(files) for _, folders, files in os.walk(top))


def counted_right(mount: Mount) -> None:
    reported, seen = os.statvfs(mount.point), names_in(mount.point)
    assert status_of(mount)["files"] == reported.f_files - reported.f_ffree == seen, (status_of(mount), reported, seen)


def change_all(top: Path) -> None:
    """Each call that adds, removes or replaces a name, and some that fail."""
    (top / "folder/below").mkdir(parents=True)
    for i in range(50):
        (top / f"folder/file{i}").write_bytes(b"x" * i)
    os.link(top / "folder/file1", top / "other")
    os.link(top / "folder/file1", top / "third")
    os.symlink("file1", top / "soft")
    os.mkfifo(top / "fifo")
    os.rename(top / "folder/file2", top / "folder/file3")
    os.rename(top / "third", top / "folder/file4")
    os.rename(top / "folder", top / "moved")
    os.rename(top / "moved/below", top / "below")
    (top / "none").mkdir()
    os.rename(top / "none", top / "below")
    os.unlink(top / "other")
    os.rmdir(top / "below")
    with open(top / "held", "w"):
        os.unlink(top / "held")
    for call in (lambda: os.mkdir(top / "moved"), lambda: os.rmdir(top / "moved"), lambda: os.unlink(top / "none")):
        try:
            call()
        except OSError:
            continue
        raise AssertionError("not refused")


@case
def names_are_counted(folder: Path):
    mount = Mount(folder, "--image", folder / "image")
    counted_right(mount)
    change_all(mount.point)
    counted_right(mount)
    (mount.point / ".snapshots/one").mkdir()
    for path in (mount.point / "moved").iterdir():
        path.unlink()
    counted_right(mount)
    assert status_of(mount)["snapshots"] == ["one"]
    subprocess.run([MOUNT, "--restore", "one", mount.point], check=True)
    counted_right(mount)
    assert mount.end() == 0, mount.said()
    mount = Mount(folder, "--load", folder / "image")
    counted_right(mount)
    assert mount.end() == 0, mount.said()


@case
def a_difference_is_counted(folder: Path):
    mount, other = Mount(folder), Mount(folder, name="other")
    for each in (mount, other):
        (each.point / ".snapshots/none").mkdir()
    change_all(mount.point)
    sent = subprocess.run([MOUNT, "--send", "none", mount.point], stdout=subprocess.PIPE, check=True).stdout
    subprocess.run([MOUNT, "--receive", other.point], input=sent, check=True)
    counted_right(other)
    assert status_of(other)["files"] == status_of(mount)["files"]
    assert (mount.end(), other.end()) == (0, 0)


@case
def a_store_tells_its_log(folder: Path):
    mount = store_mount(folder)
    change_all(mount.point)
    (mount.point / "bytes").write_bytes(os.urandom(1 << 20))
    sync(mount.point / "bytes")
    reported = status_of(mount)["store"]
    assert 1 << 20 < reported["log"] < 2 << 20 and reported["pending"] == 0 and not reported["refuses"], reported
    assert reported["last_sync"] < 5, reported
    (mount.point / ".snapshots/one").mkdir()
    (mount.point / "bytes").unlink()
    end_well(mount)
    mount = store_mount(folder)
    counted_right(mount)
    subprocess.run([MOUNT, "--restore", "one", mount.point], check=True)
    assert (mount.point / "bytes").exists()
    counted_right(mount)
    assert "log " in subprocess.run([MOUNT, "--status", mount.point], stdout=subprocess.PIPE, text=True, check=True).stdout
    end_well(mount)


@case
def what_is_not_synced_waits_and_syncfs_brings_none_of_it_onto_the_disk(folder: Path):
    """Each five seconds all is synced: so it is tried more than once."""
    mount, pending = store_mount(folder), []
    for number in range(5):
        (mount.point / f"file{number}").write_text("text")
        before = status_of(mount)["store"]["pending"]
        subprocess.run(["sync", "--file-system", mount.point], check=True)
        pending.append((before, status_of(mount)["store"]["pending"]))
        sync(mount.point)
        assert status_of(mount)["store"]["pending"] == 0
    assert any(before == behind > 0 for before, behind in pending), pending
    assert status_of(mount)["store"]["last_sync"] < 5
    end_well(mount)


@case
def a_limit_is_reported(folder: Path):
    mount = Mount(folder, "--size", "64M")
    before = status_of(mount)
    (mount.point / "file").write_bytes(bytes(range(256)) * 40960)
    after = status_of(mount)
    assert before["size"] == 64 << 20 and after["memory"] - before["memory"] > 10 << 20, (before, after)
    assert mount.end() == 0, mount.said()


def resident(mount: Mount) -> int:
    return int(Path(f"/proc/{mount.process.pid}/statm").read_text().split()[1]) * os.sysconf("SC_PAGE_SIZE")


@case
def memory_returns_behind_a_removal(folder: Path):
    if "sanitized" in MOUNT:
        return
    mount = Mount(folder)
    empty = resident(mount)
    (mount.point / "many").mkdir()
    for i in range(LARGE // 10000):
        (mount.point / f"many/{i}").write_bytes(os.urandom(10000))
    (mount.point / "kept").write_text("kept")
    full = resident(mount)
    assert full - empty > LARGE, (empty, full)
    for path in (mount.point / "many").iterdir():
        path.unlink()
    removed = resident(mount)
    time.sleep(SECONDS_TO_RETURN)
    print(f"resident MiB: empty {empty >> 20}, full {full >> 20}, removed {removed >> 20}, idle {resident(mount) >> 20}")
    assert resident(mount) < empty + LARGE // 10, (empty, full, removed, resident(mount))
    assert (mount.point / "kept").read_text() == "kept"
    assert mount.end() == 0, mount.said()


run_cases()
