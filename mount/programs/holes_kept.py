"""Holes in an image and in a snapshot, in mounts of its own."""
import os
import subprocess
from pathlib import Path

from kept import outlives, restore
from own_mount import Mount, case, run_cases

MIB = 1 << 20


def make_tree(top: Path) -> None:
    for number in range(10):
        with open(top / f"file{number}", "wb") as file:
            file.truncate(number * 2**30)
            for at in range(number):
                os.pwrite(file.fileno(), os.urandom(5000), at * 2**29)


def punch(path: Path) -> None:
    subprocess.run(["fallocate", "--punch-hole", "--offset", "0", "--length", "1GiB", path], check=True)


def runs(path: Path) -> list[tuple[int, int]]:
    out, at = [], 0
    with open(path, "rb") as file:
        while True:
            try:
                begin = os.lseek(file.fileno(), at, os.SEEK_DATA)
            except OSError:
                return out
            at = os.lseek(file.fileno(), begin, os.SEEK_HOLE)
            out.append((begin, at))


@case
def a_snapshot_has_its_own_holes(folder: Path):
    mount = Mount(folder, "--image", folder / "image")
    make_tree(mount.point)
    path, snapshot = mount.point / "file5", mount.point / ".snapshots/s"
    before = runs(path)
    os.mkdir(snapshot)
    assert runs(snapshot / "file5") == before and len(before) == 5
    blocks = path.stat().st_blocks
    punch(path)
    assert path.stat().st_blocks < blocks == (snapshot / "file5").stat().st_blocks
    assert len(runs(path)) == 3 and runs(snapshot / "file5") == before
    with open(path, "rb") as file:
        assert file.read(MIB) == bytes(MIB)
    restore(mount, "s")
    assert runs(path) == before and path.stat().st_blocks == blocks
    assert mount.end() == 0, mount.said()
    assert (folder / "image").stat().st_size < MIB
    mount = Mount(folder, "--load", folder / "image")
    assert runs(mount.point / "file5") == before and (mount.point / "file5").stat().st_blocks == blocks
    assert mount.end() == 0, mount.said()


@case
def small_files_with_holes(folder: Path):
    def make(top: Path) -> None:
        for number in range(50):
            with open(top / f"file{number}", "wb") as file:
                file.truncate(number * 10_000)
                for at in range(0, number, 3):
                    os.pwrite(file.fileno(), os.urandom(5000), at * 9000)

    def change(top: Path) -> None:
        for number in range(1, 50):
            punch(top / f"file{number}")
            os.truncate(top / f"file{number}", number * 20_000)

    outlives(folder, make, change)


run_cases()
