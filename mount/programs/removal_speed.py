"""What removals cost, for mount/speed: in a large directory beside a small one, and of a git repository beside bindfs.

What was removed before, and how many entries a directory has, should make no call dearer. The files have mode 755, so
each has a record.
"""
import os
import random
import shutil
import subprocess
import time
from collections.abc import Callable
from pathlib import Path

SMALL, LARGE, SMALL_DIRECTORIES, ROUNDS, SOURCES = 50, 12_000, 40, 3, 6_000
COMMIT = ["-c", "user.name=a", "-c", "user.email=a@b", "-c", "gc.auto=0"]


def make_file(path: Path) -> None:
    os.close(os.open(path, os.O_CREAT | os.O_EXCL | os.O_WRONLY, 0o755))


def make_directory(path: Path) -> None:
    os.mkdir(path, 0o700)


def rename(path: Path) -> None:
    os.rename(path, path.with_name(f"to{path.name}"))


CALLS: list[tuple[str, Callable[[Path], None], Callable[[Path], None]]] = [
    ("unlink", make_file, os.unlink), ("rename", make_file, rename), ("rmdir", make_directory, os.rmdir)]


def time_directory(directory: Path, count: int, make, call, is_random: bool) -> float:
    """Microseconds of a call for each entry of a new directory."""
    directory.mkdir()
    paths = [directory / f"{number:06}" for number in range(count)]
    for path in paths:
        make(path)
    if is_random:
        random.Random(count).shuffle(paths)
    began = time.perf_counter()
    for path in paths:
        call(path)
    took = (time.perf_counter() - began) * 1e6 / count
    shutil.rmtree(directory)
    return took


def time_calls(folder: Path) -> dict[str, dict[str, float]]:
    """The least of some rounds, by the call and the directory."""
    least: dict[str, dict[str, float]] = {}
    for name, make, call in CALLS:
        rows = least[name] = {}
        for _ in range(ROUNDS):
            small = [time_directory(folder / "small", SMALL, make, call, False) for _ in range(SMALL_DIRECTORIES)]
            times = {f"{SMALL}": sum(small) / len(small)}
            times[f"{LARGE:,} in order"] = time_directory(folder / "large", LARGE, make, call, False)
            times[f"{LARGE:,} at random"] = time_directory(folder / "large", LARGE, make, call, True)
            rows |= {of: min(took, rows.get(of, took)) for of, took in times.items()}
    return least


def show_calls(least: dict[str, dict[str, float]]) -> None:
    print("microseconds of a call in a directory of entries with records, and the quotient to the smallest")
    for name, rows in least.items():
        first = next(iter(rows.values()))
        print(f"{name:<10}" + ", ".join(f"{of}: {took:.1f} ({took / first:.2f})" for of, took in rows.items()))


def git(folder: Path, *words: str) -> None:
    subprocess.run(["git", *COMMIT, "-C", folder, *words], check=True)


def make_repository(folder: Path) -> None:
    """Some thousand small files in 280 directories, with a commit that has an object for each."""
    lines = random.Random(7)
    for number in range(SOURCES):
        path = folder / f"part{number % 40}" / f"sub{number % 7}" / f"{number}.c"
        path.parent.mkdir(parents=True, exist_ok=True)
        path.write_text("".join(f"{number} {lines.random()}\n" for _ in range(lines.randrange(1, 60))))
    git(folder, "init", "-q")
    git(folder, "add", "-A")
    git(folder, "commit", "-qm", "first")


def copy_by_clone(repository: Path, to: Path) -> None:
    subprocess.run(["git", "clone", "-q", "--no-hardlinks", repository, to], check=True)


def copy_by_commit(repository: Path, to: Path) -> None:
    """The objects are made there: git makes each under another name, and links it."""
    shutil.copytree(repository, to, ignore=shutil.ignore_patterns(".git"))
    git(to, "init", "-q")
    git(to, "add", "-A")
    git(to, "commit", "-qm", "first")


def processor_seconds(process: int) -> float:
    fields = Path(f"/proc/{process}/stat").read_text().rsplit(")", 1)[1].split()
    return (int(fields[11]) + int(fields[12])) / os.sysconf("SC_CLK_TCK")


def time_removal(repository: Path, folder: Path, process: int, copy) -> float:
    """Seconds of the processor that `rm -r` of a copy takes in the process that serves the folder."""
    copy(repository, folder / "copy")
    time.sleep(0.3)
    before = processor_seconds(process)
    subprocess.run(["rm", "-r", folder / "copy"], check=True)
    time.sleep(0.1)
    return processor_seconds(process) - before


def serve(words: list, point: Path) -> subprocess.Popen:
    point.mkdir(exist_ok=True)
    process = subprocess.Popen([*words, point])
    while not os.path.ismount(point):
        time.sleep(0.01)
    return process


def measure_removals(program: Path, memory: Path, work: Path) -> None:
    """Both sides in turn; the least time of each counts."""
    make_repository(work / "repository")
    (memory / "under").mkdir()
    sides = {"library": serve([program, "--foreground"], work / "removals"),
             "bindfs": serve(["bindfs", "-f", memory / "under"], work / "bindfs")}
    points = {"library": work / "removals", "bindfs": work / "bindfs"}
    try:
        show_calls(time_calls(points["library"]))
        for name, copy in (("a git clone", copy_by_clone), ("a git commit", copy_by_commit)):
            rounds = [{side: time_removal(work / "repository", points[side], process.pid, copy)
                       for side, process in sides.items()} for _ in range(ROUNDS)]
            times = {side: min(one[side] for one in rounds) for side in sides}
            print(f"rm -r of {name}, {2 * SOURCES:,} files, processor time: library {times['library']:.2f} s, "
                  f"bindfs {times['bindfs']:.2f} s ({times['library'] / times['bindfs']:.2f})")
    finally:
        for side, process in sides.items():
            subprocess.run(["fusermount3", "-u", points[side]], check=True)
            process.wait()
