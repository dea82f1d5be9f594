"""A look-up waits for no long request of another program: 99 in 100 take at most 5 ms more than alone.

On a machine that does much else a row may be measured again, four times at most, beside what look-ups take alone then.
"""
from collections.abc import Callable
from pathlib import Path

import latency_speed
from failing_disk import FailingDisk
from latency_speed import Beside, Times
from own_mount import MOUNT, Mount, case, run_cases
from own_store import end_well

MORE, TRIES = 5.0, 4


def is_soon(alone: Callable[[], Times], row: Callable[[], Times]) -> bool:
    found = []
    while not found or (len(found) < TRIES and found[-1][1].most > found[-1][0].most + MORE):
        found.append((alone(), row()))
    print(*found[-1], flush=True)
    return found[-1][1].most <= found[-1][0].most + MORE


@case
def beside_requests_for_many_files(folder: Path):
    mount = Mount(folder)
    many = Beside(Path(MOUNT), folder, mount)
    many.fill()
    late = [name for name, row in many.rows.items() if not is_soon(many.alone, row)]
    assert not late, late
    end_well(mount)


@case
def beside_syncs(folder: Path):
    disk = FailingDisk(folder, latency_speed.DELAY)
    mount = Mount(folder, "--store", folder / "store", environment=disk.environment)
    alone = Beside(Path(MOUNT), folder, mount).alone
    assert is_soon(alone, lambda: latency_speed.beside_syncs(mount, folder))
    end_well(mount)


@case
def beside_a_checkpoint(folder: Path):
    mount = Mount(folder, "--store", folder / "large", "--log-size", latency_speed.log_size())
    alone = Beside(Path(MOUNT), folder, mount).alone
    times = latency_speed.beside_checkpoint(mount, folder / "large")
    assert times.most <= alone().most + MORE, times
    end_well(mount)


run_cases()
