"""What a store costs, for mount/speed: synced writes, and how long an image holds requests up."""
import os
import threading
import time
from pathlib import Path
from typing import NamedTuple

BLOCK, SYNCED, MEBIBYTE, MEBIBYTES_BEFORE = bytes(range(256)) * 16, 200, 1 << 20, 40


def time_synced(folder: Path) -> dict[str, float]:
    """Microseconds of a write that is synced, by the name of its row."""
    file = os.open(folder / "synced", os.O_CREAT | os.O_WRONLY)
    rows = {name: time_row(lambda number: write_synced(file, number)) for name in
            ("append 4 KiB, fsync", "write 4 KiB over, fsync")}
    os.close(file)
    os.unlink(folder / "synced")
    return rows | {"create, write 4 KiB, fsync": time_row(lambda number: create_synced(folder / f"synced{number}"))}


def time_row(call) -> float:
    began = time.perf_counter()
    for number in range(SYNCED):
        call(number)
    return (time.perf_counter() - began) * 1e6 / SYNCED


def write_synced(file: int, number: int) -> None:
    os.pwrite(file, BLOCK, number * len(BLOCK))
    os.fsync(file)


def create_synced(path: Path) -> None:
    file = os.open(path, os.O_CREAT | os.O_EXCL | os.O_WRONLY)
    write_synced(file, 0)
    os.close(file)


class Probe(threading.Thread):
    """Makes small requests, and notes how long the longest took."""

    def __init__(self, folder: Path):
        super().__init__()
        self.folder, self.ends, self.longest, self.count = folder, False, 0.0, 0

    def run(self) -> None:
        file = os.open(self.folder / "probe", os.O_CREAT | os.O_WRONLY)
        while not self.ends:
            began = time.perf_counter()
            os.pwrite(file, b"probe", 0)
            self.longest = max(self.longest, time.perf_counter() - began)
            self.count += 1
            time.sleep(0.001)
        os.close(file)


def has_part(store: Path) -> bool:
    return any(store.glob("tree.*.part"))


def memory_of(process: int) -> float:
    """The most memory that a process has had, in GiB."""
    for line in Path(f"/proc/{process}/status").read_text().splitlines():
        if line.startswith("VmHWM"):
            return int(line.split()[1]) / 2**20
    return 0


def probe_for(folder: Path, until, meanwhile=lambda: None) -> tuple[float, int]:
    probe = Probe(folder)
    probe.start()
    while not until():
        meanwhile()
        time.sleep(0.02)
    probe.ends = True
    probe.join()
    return probe.longest, probe.count


def fill(folder: Path, mebibytes: int, first: int = 0) -> None:
    for number in range(first, first + mebibytes):
        (folder / f"file{number}").write_bytes(os.urandom(MEBIBYTE))


class Filling:
    """Fills a mount slowly until its store writes an image, and tells when that is over."""

    def __init__(self, mount: Path, store: Path, first: int):
        self.mount, self.store, self.next, self.began = mount, store, first, 0.0

    def is_over(self) -> bool:
        if has_part(self.store):
            self.began = self.began or time.monotonic()
            return False
        return self.began > 0

    def go_on(self) -> None:
        if not self.began:
            fill(self.mount, 1, self.next)
            self.next += 1


class Held(NamedTuple):
    """What an image held up: seconds but for the count and the memory, which is in GiB."""
    image: float
    longest: float  # of small writes from before the image begins until behind its end
    count: int
    quiet: float  # the longest of those in ten seconds before
    before: float
    most: float

    def __str__(self) -> str:
        return (f"the image took {self.image:.1f} s; of {self.count} small writes meanwhile the longest took"
                f" {self.longest * 1e3:.1f} ms, and {self.quiet * 1e3:.1f} ms of those before; the most memory was"
                f" {self.most:.2f} GiB, and {self.before:.2f} before")


def measure_image(mount: Path, store: Path, process: int, mebibytes: int) -> Held:
    """Fills a mount whose store writes an image behind a little more, and tells what the image held up."""
    fill(mount, mebibytes + MEBIBYTES_BEFORE)
    time.sleep(6)
    before, ends = memory_of(process), time.monotonic() + 10
    quiet, _ = probe_for(mount, lambda: time.monotonic() > ends)
    filling = Filling(mount, store, mebibytes + MEBIBYTES_BEFORE)
    longest, count = probe_for(mount, filling.is_over, filling.go_on)
    return Held(time.monotonic() - filling.began, longest, count, quiet, before, memory_of(process))
