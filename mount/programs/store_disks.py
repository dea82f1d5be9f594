"""What a store keeps where the disk below it loses power, fails, or is full."""
import errno
import os
import re
import resource
import shutil
import socket
import subprocess
import threading
import time
from collections.abc import Callable
from pathlib import Path

from failing_disk import FailingDisk
from own_mount import MOUNT, Mount, case, run_cases
from own_store import (KILLS, WORKS, end_well, find_state, kill, kill_at_chance, logs, names_after, on_small_disk,
                       snapshot, status_of, store_mount, sync)

FIVE_SECONDS, A_WHILE = 5, 5


def refused(number: int, call: Callable, *words) -> None:
    try:
        call(*words)
    except OSError as fault:
        assert fault.errno == number, fault
    else:
        raise AssertionError(f"{call} was done")


def cut_power_often(folder: Path, *options) -> None:
    number, first = WORKS.randrange(1 << 30), 0
    for _ in range(KILLS):
        shutil.rmtree(folder / "synced", ignore_errors=True)
        disk = FailingDisk(folder)
        for log in logs(folder):
            (disk.synced / log.name).write_text(str(len(log.read_bytes().rstrip(b"\0"))))
        mount = store_mount(folder, *options, environment=disk.environment)
        kill_at_chance(folder, mount, number, first, bool(options))
        disk.lose_power(folder)
        first = find_state(folder, number, first, *options)


@case
def a_loss_of_power_takes_nothing_that_was_synced(folder: Path):
    cut_power_often(folder)


@case
def nor_one_while_images_are_written(folder: Path):
    cut_power_often(folder, "--log-size", "20K")


@case
def nor_one_while_they_are_written_with_snapshots(folder: Path):
    mount = store_mount(folder)
    (mount.point / "file").write_bytes(WORKS.randbytes(20000))
    snapshots = {name: snapshot(mount, name) for name in ("one", "two")}
    (mount.point / "file").write_text("later")
    wanted = {name: (path / "file").read_bytes() for name, path in snapshots.items()}
    end_well(mount)
    cut_power_often(folder, "--log-size", "20K")
    assert list((folder / "store").glob("snapshots.*[0-9]"))
    mount = store_mount(folder)
    assert {name: (path / "file").read_bytes() for name, path in snapshots.items()} == wanted
    end_well(mount)


def write_and(behind: Callable[[Mount], object]) -> Callable[[Mount], None]:
    def by(mount: Mount) -> None:
        (mount.point / "file").write_text("file")
        behind(mount)
    return by


def sync_data(mount: Mount) -> None:
    opened = os.open(mount.point / "file", os.O_WRONLY)
    os.fdatasync(opened)
    os.close(opened)


def receive(text: bytes) -> Callable[[Mount], None]:
    return lambda mount: subprocess.run([MOUNT, "--receive", mount.point], input=text, check=True)


def difference(folder: Path) -> bytes:
    """What makes a tree of one file of an empty one."""
    mount = Mount(folder, name="other")
    snapshot(mount, "none")
    (mount.point / "file").write_text("file")
    text = subprocess.run([MOUNT, "--send", "none", mount.point], stdout=subprocess.PIPE, check=True).stdout
    end_well(mount)
    return text


def outlives_a_loss_of_power(folder: Path, by: Callable[[Mount], None], *options) -> None:
    """The file that something has made."""
    disk = FailingDisk(folder)
    mount = store_mount(folder, *options, environment=disk.environment)
    by(mount)
    kill(mount)
    disk.lose_power(folder)
    again = store_mount(folder)
    assert again.stands and (again.point / "file").read_text() == "file", again.said()
    end_well(again)
    shutil.rmtree(folder / "store")
    shutil.rmtree(disk.synced)


@case
def each_kind_of_sync_brings_what_was_answered_onto_the_disk(folder: Path):
    outlives_a_loss_of_power(folder, write_and(lambda mount: sync(mount.point / "file")))
    outlives_a_loss_of_power(folder, write_and(sync_data))
    outlives_a_loss_of_power(folder, write_and(end_well))
    outlives_a_loss_of_power(folder, write_and(lambda mount: None), "--sync")
    outlives_a_loss_of_power(folder, receive(difference(folder)))


@case
def what_is_not_synced_is_on_the_disk_after_five_seconds(folder: Path):
    outlives_a_loss_of_power(folder, write_and(lambda mount: time.sleep(FIVE_SECONDS + 1)))


def write_when_it_may(path: Path) -> None:
    """Changes are refused until an image is whole."""
    for _ in range(300):
        try:
            path.write_text(path.name)
            return
        except OSError as fault:
            assert fault.errno == errno.EIO, fault
            time.sleep(0.1)
    raise AssertionError("changes are refused still")


def fail_and_mend(folder: Path, what: str) -> None:
    disk = FailingDisk(folder)
    mount = store_mount(folder, environment=disk.environment)
    (mount.point / "kept").write_text("kept")
    sync(mount.point)
    taken = snapshot(mount, "taken")
    held = os.open(mount.point / "held", os.O_CREAT | os.O_WRONLY)
    other = os.open(mount.point / "other", os.O_CREAT | os.O_WRONLY)
    os.write(held, b"held")
    disk.fail(what)
    refused(errno.EIO, os.fsync, held)
    refused(errno.EIO, os.fsync, held)
    refused(errno.EIO, (mount.point / "later").write_text, "later")
    refused(errno.EIO, os.write, held, b"more")
    refused(errno.EIO, snapshot, mount, "another")
    taken.rmdir()
    assert (mount.point / "held").read_text() == "held" and status_of(mount)["store"]["refuses"]
    disk.mend()
    mended = time.monotonic()
    write_when_it_may(mount.point / "later")
    assert time.monotonic() - mended < FIVE_SECONDS + A_WHILE and not status_of(mount)["store"]["refuses"]
    sync(mount.point)
    os.fsync(held)
    refused(errno.EIO, os.fsync, other)
    os.fsync(other)
    kill(mount)
    again = store_mount(folder)
    assert {it.name: it.read_text() for it in again.point.iterdir()} == {
        "kept": "kept", "held": "held", "other": "", "later": "later"}
    end_well(again)


@case
def a_disk_whose_syncs_fail_is_reported_until_an_image_is_whole(folder: Path):
    fail_and_mend(folder, "sync")


@case
def a_disk_whose_writes_fail_is_reported_until_an_image_is_whole(folder: Path):
    fail_and_mend(folder, "write")


def removed_before_writes_fail(mount: Mount, disk: FailingDisk, path: Path) -> bool:
    """Whether a file that the kernel still knows was removed before the mount saw that the disk fails, as it then has."""
    reported, end = mount.said().count("is not written"), time.monotonic() + 60
    try:
        with (mount.point / "large").open("wb", buffering=0) as large:
            large.write(bytes(7 << 17))
            disk.fail("write")
            large.write(bytes(1 << 17))
            path.unlink()
            while mount.said().count("is not written") == reported:
                assert time.monotonic() < end, mount.said()
                time.sleep(0.01)
            return True
    except OSError as fault:
        assert fault.errno == errno.EIO, fault
        return False


@case
def reads_go_on_where_the_disk_fails_behind_a_removal(folder: Path):
    disk = FailingDisk(folder)
    mount = store_mount(folder, environment=disk.environment)
    (mount.point / "kept").write_text("kept")
    gone = mount.point / "gone"
    for tried in range(20):
        write_when_it_may(gone)
        sync(mount.point)
        held = os.open(gone, os.O_PATH)
        if removed_before_writes_fail(mount, disk, gone):
            break
        disk.mend()
        os.close(held)
        write_when_it_may(mount.point / "large")
    assert (mount.point / "kept").read_text() == "kept"
    assert sorted(os.listdir(mount.point)) == ["kept", "large"]
    refused(errno.EIO, (mount.point / "later").write_text, "later")
    os.close(held)
    disk.mend()
    write_when_it_may(mount.point / "later")
    sync(mount.point)
    kill(mount)
    assert names_after(folder) == {"kept", "large", "later"}


@case
def the_bytes_of_a_file_without_a_name_go_where_the_disk_fails_before_it_is_closed(folder: Path):
    disk = FailingDisk(folder)
    mount = store_mount(folder, environment=disk.environment)
    with (mount.point / "file").open("wb", buffering=0) as file:
        file.write(b"file")
        (mount.point / "file").unlink()
        disk.fail("sync")
        refused(errno.EIO, sync, mount.point)
    disk.mend()
    write_when_it_may(mount.point / "later")
    image = next((folder / "store").glob("tree.*[1-9]")).read_bytes()
    assert b"F /later " not in image and b" /.doorvervain/unlinked/" not in image, image
    end_well(mount)


def bytes_and_size(file: int) -> tuple[bytes, int]:
    """The kernel has both then: the size is asked for behind the read, which is an access."""
    return os.pread(file, 100, 0), os.fstat(file).st_size


def seen_behind_a_failed_sync(folder: Path, what: str) -> None:
    """Of a file that is open, where the tree became another one."""
    disk = FailingDisk(folder)
    mount = store_mount(folder, "--sync", environment=disk.environment)
    for name in ("one", "another"):
        (mount.point / "file").write_text(name)
        snapshot(mount, name)
    sent = subprocess.run([MOUNT, "--send", "another", "one", mount.point], stdout=subprocess.PIPE, check=True).stdout
    with (mount.point / "file").open("rb", buffering=0) as file:
        assert bytes_and_size(file.fileno()) == (b"another", 7)
        disk.fail("sync")
        words = ["--restore", "one"] if what == "restore" else ["--receive"]
        done = subprocess.run([MOUNT, *words, mount.point], input=sent, stderr=subprocess.DEVNULL)
        assert done.returncode == 1, done
        assert bytes_and_size(file.fileno()) == (b"one", 3)
    disk.mend()
    end_well(mount)
    again = store_mount(folder)
    assert (again.point / "file").read_text() == "one"
    end_well(again)


@case
def an_open_file_is_that_of_a_restored_tree_that_was_not_synced(folder: Path):
    seen_behind_a_failed_sync(folder, "restore")


@case
def an_open_file_is_that_of_a_received_tree_that_was_not_synced(folder: Path):
    seen_behind_a_failed_sync(folder, "receive")


@case
def a_long_start_says_what_it_is_at(folder: Path):
    mount = store_mount(folder)
    (mount.point / "file").write_text("file")
    sync(mount.point)
    kill(mount)
    disk = FailingDisk(folder, 2500)
    mount = store_mount(folder, environment=disk.environment)
    assert mount.stands and re.search("replays log 0, [0-9]+ of [0-9]+ MB, after 2 s\n", mount.said()), mount.said()
    seconds = re.findall(" MB, after ([0-9]+) s\n", mount.said())
    assert seconds[:3] == ["2", "4", "6"], mount.said()
    end_well(mount)


@case
def what_a_log_loses_while_an_image_is_written_takes_another_image(folder: Path):
    disk = FailingDisk(folder)
    mount = store_mount(folder, "--log-size", "40M", environment=disk.environment)
    (mount.point / "large").write_bytes(os.urandom(48 << 20))
    sync(mount.point)
    while not list((folder / "store").glob("tree.*.part")):
        time.sleep(0.001)
    held = os.open(mount.point / "held", os.O_CREAT | os.O_WRONLY)
    os.write(held, b"held")
    disk.fail("log")
    refused(errno.EIO, os.fsync, held)
    disk.mend()
    assert list((folder / "store").glob("tree.*.part")), "the image was whole before its log failed"
    write_when_it_may(mount.point / "later")
    sync(mount.point)
    kill(mount)
    again = store_mount(folder)
    assert again.stands, again.said()
    assert (again.point / "held").read_text() == "held" and (again.point / "later").read_text() == "later"
    end_well(again)


@case
def a_sync_in_time_that_fails_is_reported_at_the_next_fsync(folder: Path):
    disk = FailingDisk(folder)
    mount = store_mount(folder, environment=disk.environment)
    held = os.open(mount.point / "held", os.O_CREAT | os.O_WRONLY)
    os.write(held, b"held")
    disk.fail("sync")
    time.sleep(6)
    disk.mend()
    time.sleep(7)
    refused(errno.EIO, os.fsync, held)
    os.fsync(held)
    os.close(held)
    end_well(mount)
    assert names_after(folder) == {"held"}


class Syslog(threading.Thread):
    """What is told to syslog. All is read at once, since who tells something waits for room; other mounts may do so too."""

    def __init__(self):
        super().__init__(daemon=True)
        self.socket, self.reported = socket.socket(socket.AF_UNIX, socket.SOCK_DGRAM), []
        self.socket.bind("/dev/log")

    def run(self) -> None:
        while True:
            self.reported.append(self.socket.recv(4096))

    def waits_for(self, words: bytes) -> bool:
        ends = time.monotonic() + 20
        while not any(words in it for it in self.reported) and time.monotonic() < ends:
            time.sleep(0.01)
        return any(words in it for it in self.reported)


@case
def in_the_background_it_is_reported_to_syslog(folder: Path):
    if os.getuid() or os.path.lexists("/dev/log"):
        return
    disk, point, syslog = FailingDisk(folder), folder / "mnt", Syslog()
    point.mkdir()
    syslog.start()
    try:
        subprocess.run([MOUNT, "--store", folder / "store", point], check=True, env=os.environ | disk.environment)
        (point / "file").write_text("abc")
        disk.fail("sync")
        refused(errno.EIO, sync, point)
        disk.mend()
        assert syslog.waits_for(b"changes are refused"), syslog.reported
        subprocess.run([MOUNT, "--unmount", point], check=True)
    finally:
        os.unlink("/dev/log")
    assert names_after(folder) == {"file"}


@case
def a_disk_that_fails_at_the_end_is_reported(folder: Path):
    disk = FailingDisk(folder)
    mount = store_mount(folder, environment=disk.environment)
    (mount.point / "kept").write_text("kept")
    sync(mount.point)
    (mount.point / "lost").write_text("lost")
    disk.fail("write")
    assert mount.end() == 1
    assert "may be lost" in mount.said()
    again = store_mount(folder)
    assert (again.point / "kept").read_text() == "kept"
    assert set(os.listdir(again.point)) <= {"kept", "lost"}
    end_well(again)


def fill_disk(folder: Path, disk: Path) -> None:
    mount, kept = Mount(folder, "--store", disk / "store"), []
    for i in range(400):
        try:
            with (mount.point / f"file{i}").open("wb") as file:
                file.write(bytes([i % 251]) * 200000)
                file.flush()
                os.fsync(file.fileno())
            kept.append(i)
        except OSError as fault:
            assert fault.errno in (errno.EIO, errno.ENOSPC), fault
    assert 30 < len(kept) < 200, len(kept)
    for i in kept:
        assert (mount.point / f"file{i}").read_bytes() == bytes([i % 251]) * 200000
    assert mount.end() == 1 and "may be lost" in mount.said()
    again = Mount(folder, "--store", disk / "store")
    assert again.stands, again.said()
    for i in kept:
        assert (again.point / f"file{i}").read_bytes() == bytes([i % 251]) * 200000
    again.end()


@case
def a_full_disk_is_reported_and_keeps_what_was_synced(folder: Path):
    on_small_disk(folder, lambda disk: fill_disk(folder, disk))


@case
def a_disk_that_has_room_again_is_used_again(folder: Path):
    def work(disk: Path) -> None:
        (disk / "other").write_bytes(bytes(24 << 20))
        mount = Mount(folder, "--store", disk / "store")
        refused(errno.EIO, lambda: [(mount.point / f"file{i}").write_bytes(bytes([i]) * 500000) and sync(mount.point)
                                    for i in range(100)])
        names = set(os.listdir(mount.point))
        (disk / "other").unlink()
        write_when_it_may(mount.point / "later")
        sync(mount.point)
        kill(mount)
        again = Mount(folder, "--store", disk / "store")
        assert set(os.listdir(again.point)) == names | {"later"}
        end_well(again)

    on_small_disk(folder, work)


def take_all_room(file: Path) -> None:
    with file.open("wb", buffering=0) as out:
        for size in (1 << 20, 4096):
            try:
                while True:
                    out.write(bytes(size))
            except OSError as fault:
                assert fault.errno == errno.ENOSPC, fault


@case
def a_disk_that_is_full_at_the_end_is_reported(folder: Path):
    def work(disk: Path) -> None:
        mount = Mount(folder, "--store", disk / "store")
        (mount.point / "kept").write_text("kept")
        end_well(mount)
        mount = Mount(folder, "--store", disk / "store")
        take_all_room(disk / "other")
        (mount.point / "lost").write_bytes(os.urandom(500_000))
        assert mount.end() == 1 and "may be lost" in mount.said(), mount.said()
        (disk / "other").unlink()
        again = Mount(folder, "--store", disk / "store")
        assert (again.point / "kept").read_text() == "kept" and set(os.listdir(again.point)) <= {"kept", "lost"}
        end_well(again)

    on_small_disk(folder, work)


@case
def a_limit_of_the_size_of_files_is_an_error_and_no_end(folder: Path):
    mount = store_mount(folder)
    (mount.point / "file").write_bytes(WORKS.randbytes(1 << 20))
    sync(mount.point / "file")
    resource.prlimit(mount.process.pid, resource.RLIMIT_FSIZE, (1200 << 10, resource.RLIM_INFINITY))
    (mount.point / "large").write_bytes(WORKS.randbytes(500_000))
    refused(errno.EIO, sync, mount.point / "large")
    assert len((mount.point / "file").read_bytes()) == 1 << 20 and mount.process.poll() is None
    resource.prlimit(mount.process.pid, resource.RLIMIT_FSIZE, (resource.RLIM_INFINITY, resource.RLIM_INFINITY))
    end = time.monotonic() + 60
    while time.monotonic() < end:
        try:
            (mount.point / "later").write_text("later")
            break
        except OSError as fault:
            assert fault.errno == errno.EIO, fault
            time.sleep(0.5)
    sync(mount.point / "later")
    end_well(mount)
    mount = store_mount(folder)
    assert (mount.point / "later").read_text() == "later" and (mount.point / "large").stat().st_size == 500_000
    end_well(mount)


run_cases()
