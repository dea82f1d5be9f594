"""A mount of 64 MiB that is filled."""
import errno
import os
import random
import subprocess
import time
from pathlib import Path

from cases import refused
from own_mount import Mount, case, run_cases
from seen import alike, seen

SIZE, PIECE = 64 << 20, os.urandom(1 << 20)


def fill(folder: Path, most: int = 1000) -> int:
    """Writes files of 1 MiB until there is no room: how many."""
    for i in range(most):
        try:
            (folder / f"file{i}").write_bytes(PIECE)
        except OSError as fault:
            assert fault.errno == errno.ENOSPC, fault
            (folder / f"file{i}").unlink(missing_ok=True)
            return i
    return most


def punch(path: Path, offset: int, count: int) -> None:
    words = ["--punch-hole", "--offset", str(offset), "--length", str(count)]
    subprocess.run(["fallocate", *words, path], check=True)


@case
def growth_is_refused_and_removal_is_not(folder: Path):
    mount = Mount(folder, "--size", "64M")
    empty = os.statvfs(mount.point)
    assert empty.f_blocks * empty.f_frsize == SIZE and empty.f_bavail < empty.f_bfree
    count = fill(mount.point)
    assert 40 <= count < 57, count
    full = os.statvfs(mount.point)
    assert full.f_bavail * full.f_frsize < 4 << 20 <= full.f_bfree * full.f_frsize, full
    assert len(os.listdir(mount.point)) == count
    assert all((mount.point / f"file{i}").read_bytes() == PIECE for i in range(count))
    for i in range(count):
        (mount.point / f"file{i}").unlink()
    assert fill(mount.point, count - 2) == count - 2
    assert mount.end() == 0, mount.said()


@case
def one_large_file_is_taken_away_while_it_is_read(folder: Path):
    mount = Mount(folder, "--size", "64M")
    with open(mount.point / "large", "w+b", buffering=0) as file:
        try:
            while True:
                file.write(PIECE)
        except OSError as fault:
            assert fault.errno == errno.ENOSPC
        count = os.stat(mount.point / "large").st_size >> 20
        (mount.point / "large").unlink()
        assert all(os.pread(file.fileno(), 1 << 20, i << 20) == PIECE for i in range(count))
    time.sleep(1)  # The kernel says some requests later that it forgets the file.
    assert fill(mount.point, count * 3 // 4) == count * 3 // 4
    assert mount.end() == 0, mount.said()


def fill_one(path: Path) -> int:
    """Writes one file until there is no room: how long it is."""
    with open(path, "wb", buffering=0) as file:
        try:
            while True:
                file.write(PIECE[:4096])
        except OSError as fault:
            assert fault.errno == errno.ENOSPC, fault
        return file.tell()


@case
def a_full_file_is_cut_and_punched(folder: Path):
    mount = Mount(folder, "--size", "16M")
    for _ in range(20):
        path, other = mount.point / "one", mount.point / "other"
        size = fill_one(path)
        assert size > 8 << 20
        punch(path, 1 << 20, 2 << 20)
        os.truncate(path, size // 2 + 1)
        punch(path, 100, size)
        assert path.read_bytes() == PIECE[:100] + bytes(size // 2 - 99)
        fill_one(other)
        os.truncate(path, 5)
        os.truncate(other, 0)
        assert path.read_bytes() == PIECE[:5]
    assert mount.end() == 0, mount.said()


@case
def all_that_grows_is_refused_at_last(folder: Path):
    mount = Mount(folder, "--size", "16M")
    (mount.point / "one").touch()
    calls = {
        "mkdir": lambda i: os.mkdir(mount.point / f"folder{i}"),
        "create": lambda i: (mount.point / f"name{i}").touch(exist_ok=False),
        "setxattr": lambda i: os.setxattr(mount.point / "one", f"user.{i}", bytes(60000)),
    }
    for name, call in calls.items():
        for i in range(200000):
            try:
                call(i)
            except OSError as fault:
                assert fault.errno == errno.ENOSPC, (name, fault)
                break
        else:
            raise AssertionError(name)
    for i in range(100):
        os.rmdir(mount.point / f"folder{i}")
    assert mount.end() == 0, mount.said()


def change_at_random(top: Path, chance: random.Random) -> None:
    """A call that takes several steps of the tree."""
    one, other = (top / f"file{chance.randrange(40)}" for _ in range(2))
    calls = [
        lambda: os.link(one, top / f"link{chance.randrange(10**9)}"),
        lambda: os.symlink("t" * 3000, top / f"soft{chance.randrange(10**9)}"),
        lambda: os.chmod(one, chance.choice((0o600, 0o640, 0o644))),
        lambda: os.setxattr(one, "user.a", bytes(chance.randrange(30_000))),
        lambda: os.rename(one, other),
        lambda: os.mkfifo(top / f"fifo{chance.randrange(10**9)}"),
    ]
    chance.choice(calls)()


@case
def what_is_refused_changes_nothing(folder: Path):
    mount, chance, refusals = Mount(folder, "--size", "16M", "--image", folder / "image"), random.Random(1), 0
    for i in range(40):
        (mount.point / f"file{i}").write_bytes(b"%d" % i * 1000)
    fill_one(mount.point / "large")
    while refusals < 25:
        before = seen(mount.point) if refusals else {}
        try:
            change_at_random(mount.point, chance)
        except OSError as fault:
            assert fault.errno in (errno.ENOSPC, errno.ENOENT), fault
            if before and fault.errno == errno.ENOSPC:
                alike(seen(mount.point), before)
            refusals += fault.errno == errno.ENOSPC
    for path in mount.point.iterdir():
        path.unlink()
    assert mount.end() == 0, mount.said()
    assert "F " not in (folder / "image").read_text()


run_cases()
