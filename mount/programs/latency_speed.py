"""How long a look-up takes beside long requests of others: for mount/speed, and for the program `latency`.

A look-up of a new name, which the kernel asks the mount for, is due every 5 ms. Its time counts from when it was due:
so a request that holds the mount up for a second counts as two hundred look-ups, and not as one. Root has the mount and
the look-ups scheduled before all else that the machine does.
"""
import os
import subprocess
import sys
import time
from collections.abc import Callable
from itertools import count
from pathlib import Path
from typing import NamedTuple

FILES, CHANGED, NAMES, DELAY, MEBIBYTES, MORE = 20_000, 10_000, 100_000, 200, 1024, 40
SECONDS, PERIOD = 5.0, 0.005
PROGRAMS = Path(__file__).resolve().parent
# What is done beside, again and again until a file stands.
LIST = "os.listdir(sys.argv[2])"
SYNC = "os.write(file, b'x'); os.fsync(file)"
RUN = "subprocess.run(sys.argv[2:], check=True, stdout=subprocess.DEVNULL)"
KNOWN = "[os.stat(entry.path) for entry in os.scandir(sys.argv[2])]; subprocess.run(sys.argv[3:], check=True)"
# Of 64 MiB, past the kernel's cache.
OPEN = """file = os.open(sys.argv[2], os.O_CREAT | os.O_RDWR | os.O_DIRECT)
data, number = mmap.mmap(-1, 1 << 20), 0
data.write(os.urandom(1 << 20))"""
WRITE = "os.pwritev(file, [data], (number := (number + 1) % 64) << 20)"
READ = "assert os.preadv(file, [data], (number := (number + 1) % 64) << 20) == 1 << 20"
RECEIVE = "[subprocess.run(sys.argv[4:], stdin=open(text), check=True) for text in sys.argv[2:4]]"
DROP = """os.mkdir(sys.argv[2] + '/.snapshots/large'); os.mkdir(sys.argv[2] + '/.snapshots/other')
    for number in range(4): open(sys.argv[2] + f'/large/{number}', 'wb').write(os.urandom(1 << 24))
    os.rmdir(sys.argv[2] + '/.snapshots/other'); os.rmdir(sys.argv[2] + '/.snapshots/large')"""
NUMBERS = count()


def schedule_first(process: int) -> None:
    """Each thread of a process, and what it starts."""
    if os.getuid() == 0:
        for thread in os.listdir(f"/proc/{process}/task"):
            os.sched_setscheduler(int(thread), os.SCHED_RR, os.sched_param(1))


def schedule_as_others() -> None:
    if os.getuid() == 0:
        os.sched_setscheduler(0, os.SCHED_OTHER, os.sched_param(0))


class Times(NamedTuple):
    """Of look-ups, in milliseconds: the middle one, that of 99 in 100, and the longest."""
    median: float
    most: float
    longest: float
    count: int

    def __str__(self) -> str:
        return f"{self.median:>10.2f}{self.most:>10.2f}{self.longest:>10.2f}{self.count:>10,}"


def look_ups(top: Path, goes_on: Callable[[], bool]) -> Times:
    schedule_first(os.getpid())
    times, due = [], time.perf_counter()
    while goes_on():
        (top / f"none{next(NUMBERS)}").exists()
        times.append(time.perf_counter() - due)
        due += PERIOD
        time.sleep(max(0.0, due - time.perf_counter()))
    schedule_as_others()
    times.sort()
    some = (times[len(times) // 2], times[len(times) * 99 // 100], times[-1])
    return Times(*(seconds * 1e3 for seconds in some), len(times))


def for_some_seconds() -> Callable[[], bool]:
    end = time.monotonic() + SECONDS
    return lambda: time.monotonic() < end


def beside(top: Path, stop: Path, code: str, *words, first: str = "") -> Times:
    """The times of look-ups while another program does something again and again."""
    loop = f"import mmap, os, subprocess, sys\n{first}\nwhile not os.path.exists(sys.argv[1]):\n    {code}"
    stop.unlink(missing_ok=True)
    with subprocess.Popen([sys.executable, "-c", loop, stop, *map(str, words)]) as process:
        times = look_ups(top, for_some_seconds())
        stop.touch()
        assert process.wait() == 0, (code, words)
    return times


def fill(top: Path) -> None:
    for name in ("files", "names", "large"):
        (top / name).mkdir()
    for number in range(FILES):
        (top / f"files/{number}").write_bytes(os.urandom(4096))
    for number in range(NAMES):
        os.close(os.open(top / f"names/{number}", os.O_CREAT | os.O_WRONLY))
    (top / ".snapshots/one").mkdir()
    for number in range(CHANGED):
        (top / f"files/{number}").write_text("another")
    (top / ".snapshots/two").mkdir()


class Beside:
    """A mount that has many files, and what others ask it for."""

    def __init__(self, program: Path, work: Path, mount):
        self.program, self.top, self.stop, self.process = program, mount.point, work / "stop", mount.process.pid
        self.texts = work / "to-one", work / "to-two"
        self.rows = {
            f"a listing of {NAMES:,} names": self.listing, f"a restore of {FILES + NAMES:,} files": self.restore,
            f"a send of {FILES + NAMES:,} files": self.send, "the drop of a snapshot of 64 MiB": self.drop,
            f"a receive of {CHANGED:,} changed files": self.receive, "writes of 1 MiB": self.write,
            "reads of 1 MiB": self.read}

    def fill(self) -> None:
        fill(self.top)
        for text, names in zip(self.texts, (("two", "one"), ("one", "two"))):
            with text.open("wb") as file:
                subprocess.run([self.program, "--send", *names, self.top], stdout=file, check=True)
        schedule_first(self.process)

    def alone(self) -> Times:
        return look_ups(self.top, for_some_seconds())

    def listing(self) -> Times:
        return beside(self.top, self.stop, LIST, self.top / "names")

    def restore(self) -> Times:
        """The kernel knows all names of the larger directory, each time."""
        return beside(self.top, self.stop, KNOWN, self.top / "names", self.program, "--restore", "one", self.top)

    def send(self) -> Times:
        return beside(self.top, self.stop, RUN, self.program, "--send", "one", self.top)

    def drop(self) -> Times:
        return beside(self.top, self.stop, DROP, self.top)

    def receive(self) -> Times:
        """Forth and back."""
        subprocess.run([self.program, "--restore", "two", self.top], check=True)
        return beside(self.top, self.stop, RECEIVE, *self.texts, self.program, "--receive", self.top)

    def write(self) -> Times:
        return beside(self.top, self.stop, WRITE, self.top / "bytes", first=OPEN)

    def read(self) -> Times:
        """Those were written."""
        return beside(self.top, self.stop, READ, self.top / "bytes", first=OPEN)


def beside_syncs(mount, work: Path) -> Times:
    """The disk of the mount's store is a slow one."""
    schedule_first(mount.process.pid)
    opens = "file = os.open(sys.argv[2], os.O_CREAT | os.O_WRONLY)"
    return beside(mount.point, work / "stop", SYNC, mount.point / "file", first=opens)


def log_size() -> str:
    """With it a store writes a checkpoint behind the last of so many files of a MiB, and not before."""
    return f"{MEBIBYTES + MORE // 2}M"


def beside_checkpoint(mount, store: Path) -> Times:
    from store_speed import fill as fill_mebibytes, has_part
    fill_mebibytes(mount.point, MEBIBYTES)
    time.sleep(6)  # all of it is in the log
    number = MEBIBYTES
    while not has_part(store):
        fill_mebibytes(mount.point, 1, number)
        number += 1
    schedule_first(mount.process.pid)
    return look_ups(mount.point, lambda: has_part(store))


def measure_latency(program: Path, work: Path) -> None:
    os.environ["MOUNT"] = str(program)
    from failing_disk import FailingDisk
    from own_mount import Mount
    print(f"{'look-ups, ms, beside':<36}{'median':>10}{'99 in 100':>10}{'longest':>10}{'count':>10}")
    mount = Mount(work)
    many = Beside(program, work, mount)
    many.fill()
    for name, times in ({"nothing": many.alone} | many.rows).items():
        print(f"{name:<36}{times()}", flush=True)
    mount.end()
    disk = FailingDisk(work, DELAY)
    mount = Mount(work, "--store", work / "store", environment=disk.environment)
    print(f"{f'syncs that take {DELAY} ms':<36}{beside_syncs(mount, work)}", flush=True)
    mount.end()
    mount = Mount(work, "--store", work / "large", "--log-size", log_size())
    print(f"{f'a checkpoint of {MEBIBYTES} MiB':<36}{beside_checkpoint(mount, work / 'large')}")
    mount.end()
