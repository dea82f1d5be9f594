"""Snapshots and restores where many entries have attributes, in mounts of its own: what they take is printed."""
import os
import stat
import time
from pathlib import Path

from kept import restore
from own_mount import Mount, case, run_cases

MANY, FOLDERS, TRIES = 100_000, 100, 30
LONGEST, MOST_TIMES = 0.002, 3  # of a snapshot, in seconds; of one of many entries against one of ten


def path_of(mount: Mount, number: int) -> Path:
    return mount.point / f"folder{number % FOLDERS}/file{number}"


def make(mount: Mount, count: int) -> float:
    """Files with modes of their own, each tenth of them with an extended attribute: the seconds that it takes."""
    began = time.perf_counter()
    for number in range(min(count, FOLDERS)):
        (mount.point / f"folder{number}").mkdir(mode=0o750)
    for number in range(count):
        file = os.open(path_of(mount, number), os.O_CREAT | os.O_WRONLY, mode_of(number))
        if number % 10 == 0:
            os.setxattr(file, "user.number", b"%d" % number)
        os.close(file)
    return time.perf_counter() - began


def mode_of(number: int) -> int:
    return 0o600 | number % 0o37


def is_as_made(path: Path, number: int) -> bool:
    extended = [os.getxattr(path, name) for name in os.listxattr(path)]
    return (stat.S_IMODE(path.stat().st_mode), extended) == (mode_of(number), [] if number % 10 else [b"%d" % number])


def time_snapshots(mount: Mount) -> float:
    """The least seconds of one."""
    least = 1e9
    for number in range(TRIES):
        name = mount.point / f".snapshots/try{number}"
        began = time.perf_counter()
        os.mkdir(name)
        least = min(least, time.perf_counter() - began)
        os.rmdir(name)
    return least


@case
def a_snapshot_of_many_takes_as_long_as_one_of_ten(folder: Path):
    os.umask(0)
    seconds = {}
    for count in (10, MANY):
        mount = Mount(folder)
        made = make(mount, count)
        seconds[count] = time_snapshots(mount)
        print(f"{count} entries: made in {made:.2f} s, a snapshot takes {seconds[count] * 1e6:.0f} us")
        if count < MANY:
            assert mount.end() == 0, mount.said()
    try_restore(mount)
    assert mount.end() == 0, mount.said()
    times = seconds[MANY] / seconds[10]
    print(f"a snapshot of {MANY} entries takes {times:.2f} times as long as one of 10")
    assert seconds[MANY] < LONGEST and times < MOST_TIMES, seconds


def try_restore(mount: Mount) -> None:
    os.mkdir(mount.point / ".snapshots/made")
    for number in range(0, MANY, 97):
        path = path_of(mount, number)
        if number % 3 == 0:
            path.unlink()
        else:
            os.chmod(path, 0o711)
            os.setxattr(path, "user.number", b"changed")
    os.rename(mount.point / "folder7", mount.point / "moved")
    began = time.perf_counter()
    restore(mount, "made")
    print(f"a restore takes {time.perf_counter() - began:.2f} s")
    for number in (*range(0, MANY, 97), *range(7, MANY, FOLDERS * 10)):
        assert is_as_made(path_of(mount, number), number), number
    assert len(os.listdir(mount.point)) == FOLDERS
    os.rmdir(mount.point / ".snapshots/made")


run_cases()
