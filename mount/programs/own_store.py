"""Mounts with a store, for the cases of `store`, `store_snapshots`, `store_disks`, `store_programs` and `store_large`."""
import hashlib
import json
import os
import random
import re
import subprocess
import sys
import time
from collections.abc import Callable
from pathlib import Path

import store_states
from own_mount import MOUNT, Mount

PROGRAMS = Path(__file__).resolve().parent
KILLS, WORKS = 30, random.Random(58)


def store_mount(folder: Path, *options, **named) -> Mount:
    return Mount(folder, "--store", folder / "store", *options, **named)


def end_well(mount: Mount) -> None:
    assert mount.end() == 0, mount.said()


def snapshot(mount: Mount, name: str) -> Path:
    path = mount.point / ".snapshots" / name
    path.mkdir()
    return path


def sync(path: Path) -> None:
    opened = os.open(path, os.O_RDONLY)
    try:
        os.fsync(opened)
    finally:
        os.close(opened)


def status_of(mount: Mount) -> dict:
    return json.loads(subprocess.run([MOUNT, "--status", mount.point, "--json"], stdout=subprocess.PIPE, check=True).stdout)


def reported(mount: Mount) -> str:
    """What a mount has said, but what a long start is at: on a machine that does much else each may be long."""
    return "".join(line for line in mount.said().splitlines(keepends=True) if not re.search(", after [0-9]+ s$", line))


def kill(mount: Mount) -> None:
    mount.process.kill()
    mount.process.wait()
    mount.clear()


def logs(folder: Path) -> list[Path]:
    return sorted((folder / "store").glob("log.*[0-9]"), key=lambda it: int(it.suffix[1:]))


def first_files() -> set[str]:
    """Those of a store that has written no checkpoint since it began."""
    return {"lock", "log.0", "tree.0", "tree.0.sum"}


def digest(file: Path) -> str:
    return hashlib.sha256(file.read_bytes()).hexdigest()


def write_sums(store: Path, number: int) -> None:
    """Makes the file of checksums that of the files as they are: the log is the one that it has named."""
    file = store / f"tree.{number}.sum"
    log = next(line for line in file.read_text().splitlines() if line.startswith("log "))
    snapshots = store / f"snapshots.{number}"
    stated = f"{digest(snapshots)}  {snapshots.name}" if snapshots.exists() else f"no {snapshots.name}"
    text = f"doorvervain checkpoint 2\n{digest(store / f'tree.{number}')}  tree.{number}\n{stated}\n{log}\n"
    file.write_text(f"{text}end {hashlib.sha256(text.encode()).hexdigest()}\n")


def due_once_it_stands(folder: Path) -> tuple[str, str]:
    """Options by which a mount of a store that ended well writes a checkpoint at once, but not before it stands."""
    return "--log-size", str(sum(it.stat().st_size for it in logs(folder)) * 2 // 3)


def writes_image(folder: Path) -> bool:
    """Whether an image is under way, or was when its mount was killed."""
    return any(name.endswith(".part") for name in os.listdir(folder / "store"))


def fill(mount: Mount, count: int) -> None:
    for i in range(count):
        (mount.point / f"file{i}").write_bytes(bytes([i % 251]) * (10 + i))


def names_after(folder: Path) -> set[str]:
    again = store_mount(folder)
    assert again.stands, again.said()
    names = set(os.listdir(again.point))
    end_well(again)
    return names


def on_small_disk(folder: Path, work: Callable[[Path], None]) -> None:
    """Gives a folder on a disk of 32 MiB, which root alone can make."""
    if os.getuid():
        return
    disk = folder / "disk"
    disk.mkdir()
    subprocess.run(["mount", "-t", "tmpfs", "-o", "size=32M,mode=700", "none", disk], check=True)
    try:
        work(disk)
    finally:
        subprocess.run(["umount", "-l", disk], check=True)


# ---- a program that changes a folder of the mount until that is killed


def notes_of(file: Path) -> tuple[int, int]:
    """How many steps were answered, and how many of them are kept."""
    stated = {"done": 0, "kept": 0}
    for line in file.read_text().splitlines() if file.exists() else []:
        word, count = line.split()
        stated[word] = max(stated[word], int(count))
    return stated["done"], stated["kept"]


def state_of(seen: dict, number: int, least: int, most: int) -> int | None:
    """Behind which of these steps a folder is as it is seen."""
    if least == 0 and not seen:
        return 0
    for count, (_, model) in enumerate(store_states.steps(number), start=1):
        if count > most:
            return None
        if count >= least and model.reported() == seen:
            return count
    return None


def wait_for_image(folder: Path) -> None:
    """Until the store writes one, and three seconds at most."""
    ends = time.monotonic() + 3
    while not writes_image(folder) and time.monotonic() < ends:
        time.sleep(0.0002)


def kill_at_chance(folder: Path, mount: Mount, number: int, first: int, in_image: bool) -> None:
    """Kills the mount while a program changes it, which notes what was answered; or while it writes an image too."""
    words = [sys.executable, "-B", PROGRAMS / "store_states.py", mount.point / "states", str(number), folder / "notes"]
    (mount.point / "states").mkdir(exist_ok=True)
    sync(mount.point)
    with subprocess.Popen([*words, str(first)], stderr=subprocess.DEVNULL) as works:
        time.sleep(WORKS.uniform(0.02, 1.0))
        if in_image:
            wait_for_image(folder)
        kill(mount)
        works.wait()


def find_state(folder: Path, number: int, first: int, *options) -> int:
    """Behind which step the folder is in a mount that comes after a kill: none that was synced is missing."""
    again, notes = store_mount(folder, *options), folder / "notes"
    assert again.stands, again.said()
    (done, kept), seen = notes_of(notes), store_states.seen(again.point / "states")
    found = state_of(seen, number, max(kept, first), max(done + 1, first))
    assert found is not None, (number, first, kept, done, sorted(seen))
    end_well(again)
    notes.unlink(missing_ok=True)
    return found
