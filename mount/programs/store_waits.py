"""A store on a disk whose syncs take long: who waits for it, and who does not."""
import os
import threading
import time
from collections.abc import Callable
from pathlib import Path

from failing_disk import FailingDisk
from own_mount import Mount, case, run_cases
from own_store import end_well, kill, store_mount

DELAY, SECONDS, WRITERS, BLOCK = 0.2, 2.0, 8, bytes(range(256)) * 16
MEBIBYTE = bytes(1 << 20)
OPENED: list[int] = []


def slow_mount(folder: Path, *options) -> Mount:
    disk = FailingDisk(folder, int(DELAY * 1000))
    mount = store_mount(folder, *options, environment=disk.environment)
    assert mount.stands, mount.said()
    return mount


class Worker(threading.Thread):
    """Does something again and again, and counts how often it was done."""

    def __init__(self, work: Callable[[int], None]):
        super().__init__()
        self.work, self.done, self.ends = work, 0, False
        self.fault: OSError | None = None

    def run(self) -> None:
        try:
            while not self.ends:
                self.work(self.done)
                self.done += 1
        except OSError as fault:
            self.fault = fault


def run_workers(works: list[Callable[[int], None]]) -> list[Worker]:
    workers = [Worker(work) for work in works]
    for worker in workers:
        worker.start()
    return workers


def open_new(path: Path) -> int:
    """It is open until the workers have ended."""
    OPENED.append(os.open(path, os.O_CREAT | os.O_WRONLY))
    return OPENED[-1]


def join_workers(workers: list[Worker]) -> None:
    for worker in workers:
        worker.ends = True
    for worker in workers:
        worker.join()
    while OPENED:
        try:
            os.close(OPENED.pop())
        except OSError:
            pass


def end_workers(workers: list[Worker]) -> int:
    join_workers(workers)
    assert not any(worker.fault for worker in workers)
    return sum(worker.done for worker in workers)


def appender(path: Path) -> Callable[[int], None]:
    opened = open_new(path)

    def append(number: int) -> None:
        os.pwrite(opened, BLOCK, number * len(BLOCK))
        os.fsync(opened)
    return append


def waited_for_processor(mount: Mount) -> float:
    """The seconds that the thread that serves requests was ready to run, on a machine that does much else."""
    process = mount.process.pid
    return int(Path(f"/proc/{process}/task/{process}/schedstat").read_text().split()[1]) / 1e9


def looks_up_freely(mount: Mount) -> bool:
    """Whether less than half of the time of many look-ups is spent in those that take about as long as a sync."""
    held, number, ends = waited_for_processor(mount), 0, time.monotonic() + SECONDS
    while time.monotonic() < ends:
        began = time.monotonic()
        assert not (mount.point / f"absent{number}").exists()
        took, number = time.monotonic() - began, number + 1
        held += took if took > 0.75 * DELAY else 0
    return held - waited_for_processor(mount) < SECONDS / 2


@case
def a_look_up_waits_for_no_sync(folder: Path):
    mount = slow_mount(folder)
    workers = run_workers([appender(mount.point / "log")])
    is_free = looks_up_freely(mount)
    assert end_workers(workers) >= 2
    assert is_free
    end_well(mount)


@case
def writers_share_a_sync(folder: Path):
    mount = slow_mount(folder)
    workers = run_workers([appender(mount.point / f"log{number}") for number in range(WRITERS)])
    time.sleep(SECONDS)
    syncs = end_workers(workers)
    assert syncs > 3 * SECONDS / DELAY, syncs
    end_well(mount)


@case
def with_sync_a_change_waits_and_a_look_up_does_not(folder: Path):
    mount = slow_mount(folder, "--sync")
    places = [mount.point / f"place{number}" for number in range(WRITERS)]
    for place in places:
        place.mkdir()
    # Each in a directory of its own: the kernel has one change at a time made in each.
    workers = run_workers([lambda number, place=place: (place / str(number)).mkdir() for place in places])
    is_free = looks_up_freely(mount)
    made = end_workers(workers)
    assert is_free
    assert 2 * SECONDS / DELAY < made <= WRITERS * (SECONDS / DELAY + 3), made
    end_well(mount)


@case
def a_look_up_waits_for_no_room(folder: Path):
    """Writes wait until those before them are on their way to the disk, since a sync keeps that busy."""
    mount = slow_mount(folder)

    def fill(path: Path) -> Callable[[int], None]:
        opened = open_new(path)
        return lambda number: os.pwrite(opened, MEBIBYTE, number % 8 << 20) and None
    workers = run_workers([fill(mount.point / f"large{number}") for number in range(2)] + [appender(mount.point / "log")])
    is_free = looks_up_freely(mount)
    end_workers(workers)
    assert is_free
    end_well(mount)


def read_numbers(path: Path) -> int:
    """Of a file of numbers that rise, how many there are."""
    words = path.read_text().split() if path.exists() else []
    assert words == [f"{number:08}" for number in range(len(words))], path
    return len(words)


def writes_numbers(path: Path, answered: list[int], at: int) -> Callable[[int], None]:
    opened = open_new(path)

    def write(number: int) -> None:
        os.pwrite(opened, b"%08d\n" % number, 9 * number)
        os.fsync(opened)
        answered[at] = number + 1
    return write


def kill_under_load(folder: Path, milliseconds: int) -> None:
    disk, answered = FailingDisk(folder, milliseconds), [0] * WRITERS
    mount = store_mount(folder, environment=disk.environment)
    works = [writes_numbers(mount.point / f"numbers{at}", answered, at) for at in range(WRITERS)]
    workers = run_workers(works)
    time.sleep(0.7)
    kill(mount)
    join_workers(workers)
    again = store_mount(folder)
    assert again.stands, again.said()
    for at in range(WRITERS):
        assert read_numbers(again.point / f"numbers{at}") >= answered[at]
    assert sum(answered)
    end_well(again)


@case
def what_was_synced_is_there_after_a_kill_while_others_wait(folder: Path):
    kill_under_load(folder, int(DELAY * 1000))


@case
def and_on_a_disk_that_is_quick(folder: Path):
    kill_under_load(folder, 0)


@case
def an_end_waits_for_those_that_wait(folder: Path):
    mount = slow_mount(folder)
    workers = run_workers([appender(mount.point / f"log{number}") for number in range(WRITERS)])
    time.sleep(DELAY)
    mount.process.terminate()
    assert mount.process.wait(30) == 0, mount.said()
    join_workers(workers)


run_cases()
