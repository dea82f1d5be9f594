#!/usr/bin/env python3
"""Makes the scripts of the workloads: bench/scripts.py WORKLOAD N [prepare | work] prints one.

Each workload has lines that prepare, and lines of the work itself; what a run takes for the work is what it takes for
both less what it takes for the first alone. The same N gives the same lines. Each line that changes something has a
moment of its own, by an `at` line before it; a workload whose name ends in -once has one moment for all lines. The suffixes
-19 and -55 mean that all files are below a path of that many bytes, and -50 that each directory has 50 files.
"""
import random
import sys
from functools import lru_cache
from pathlib import Path
from typing import Callable, Iterator, NamedTuple

DIRECTORIES = 1_000
FILES_OF_WRITES = 1_000
LISTINGS = 10_000
ROUNDS = 1_000
PIECE = 28 * 1_024
BLOCK = 4_096
SPAN = 65_536 - 16
# Paths of 19 and of 55 bytes, below which files have the first bytes of their keys in common.
DEEP = "/usr/lib/python3.11"
DEEPER = "/usr/lib/python3.11/site-packages/numpy/core/tests/data"
# How many of the directories are subdirectories of the same one, in the workload of subtrees.
SUBDIRECTORIES = 10
# How many files a small directory has, for comparison with one that has all of them.
SMALL = 50
PACKAGES = Path(__file__).resolve().parent / "packages.txt"
CHANGES = {"mkdir", "create", "write", "truncate", "unlink", "rmdir", "rmtree", "rename"}
# The clock when a script is prepared and when its work begins, in nanoseconds, and how long a call takes by it.
PREPARED, BEGUN, TICK = 1_800_000_000_000_000_000, 1_800_000_100_000_000_000, 1_009

Lines = Iterator[str]


def clocked(lines: Lines, first: int) -> Lines:
    """The lines, with the moment before each that changes something."""
    for moment, line in enumerate(lines):
        if line.split(" ", 1)[0] in CHANGES:
            yield f"at {first + TICK * moment}"
        yield line


class Workload(NamedTuple):
    """What it is; n in a whole run and in a quick one; its lines; the options that are a part of the work; and whether
    moments rise."""

    text: str
    size: int
    quick: int
    prepare: Callable[[int], Lines]
    work: Callable[[int], Lines]
    options: tuple[str, ...] = ()
    has_clock: bool = True

    def before(self, size: int) -> Lines:
        """The lines that prepare."""
        return clocked(self.prepare(size), PREPARED) if self.has_clock else self.prepare(size)

    def itself(self, size: int) -> Lines:
        """The lines of the work."""
        return clocked(self.work(size), BEGUN) if self.has_clock else self.work(size)

    def once(self) -> "Workload":
        """The same at one moment."""
        return self._replace(text=f"{self.text}, at one moment", has_clock=False)


def nothing(_size: int) -> Lines:
    yield from ()


def directories(above: str = "") -> Lines:
    for number in range(DIRECTORIES):
        yield f"mkdir {above}/d{number}"


def path(number: int, above: str = "") -> str:
    """A file; neighbours in number lie in different directories."""
    return f"{above}/d{number % DIRECTORIES}/f{number // DIRECTORIES}"


def creates(size: int, above: str = "") -> Lines:
    for number in range(size):
        yield f"create {path(number, above)}"


def shuffled_creates(size: int) -> Lines:
    numbers = list(range(size))
    random.Random(size).shuffle(numbers)
    for number in numbers:
        yield f"create {path(number)}"


def files(size: int) -> Lines:
    yield from directories()
    yield from creates(size)


def stats(size: int, above: str = "") -> Lines:
    numbers = random.Random(size)
    for _ in range(size):
        yield f"stat {path(numbers.randrange(size), above)}"


def above_and_itself(directory: str) -> list[str]:
    """The directories on the way to a directory, and the directory, the highest first."""
    names = directory.split("/")
    return ["/".join(names[:count]) for count in range(2, len(names) + 1)]


def deep_directories(above: str) -> Lines:
    for directory in above_and_itself(above):
        yield f"mkdir {directory}"
    yield from directories(above)


def deep_files(size: int, above: str) -> Lines:
    yield from deep_directories(above)
    yield from creates(size, above)


def few_files(_size: int) -> Lines:
    yield from files(FILES_OF_WRITES)


def small_writes(size: int) -> Lines:
    numbers = random.Random(size)
    for _ in range(size):
        place = f"{path(numbers.randrange(FILES_OF_WRITES))} {numbers.randrange(SPAN)}"
        yield f"write {place} {numbers.randbytes(16).hex()}"


def long_file(_size: int) -> Lines:
    yield "create /long"


def long_writes(size: int) -> Lines:
    rest = random.Random(size).randbytes(BLOCK - 8).hex()
    for number in range(size):
        first = number * (PIECE // BLOCK)
        blocks = range(first, first + PIECE // BLOCK)
        yield f"write /long {number * PIECE} " + "".join(f"{block:016x}{rest}" for block in blocks)


def long_written(size: int) -> Lines:
    yield from long_file(size)
    yield from long_writes(size)


def long_reads(size: int) -> Lines:
    for number in range(size):
        yield f"read /long {number * PIECE} {PIECE}"


def made_again(size: int) -> Lines:
    for number in range(size):
        yield f"unlink {path(number)}"
        yield f"create {path(number)}"


def one_directory(size: int) -> Lines:
    yield "mkdir /one"
    for number in range(size):
        yield f"create /one/f{number}"


def rmtree(_size: int) -> Lines:
    yield "rmtree /one"


def filled(size: int) -> Lines:
    yield from one_directory(size)
    for number in range(size):
        yield f"write /one/f{number} 0 {'b5' * 100}"


def rename(_size: int) -> Lines:
    yield "rename /one /other"


def snapshots(size: int) -> Lines:
    numbers = random.Random(size)
    for _ in range(ROUNDS):
        yield "snapshot kept"
        for _ in range(10):
            yield f"write {path(numbers.randrange(size))} 0 {numbers.randbytes(16).hex()}"
        yield "restore kept"
        yield "drop kept"


def readdirs(_size: int) -> Lines:
    for number in range(LISTINGS):
        yield f"readdir /d{number % DIRECTORIES}"


def subdirectory(number: int) -> str:
    return f"/d{number // SUBDIRECTORIES}/s{number % SUBDIRECTORIES}"


def files_of_subdirectories(size: int) -> Lines:
    """Files, all in subdirectories of the directories that are listed."""
    for number in range(DIRECTORIES):
        if number % SUBDIRECTORIES == 0:
            yield f"mkdir /d{number // SUBDIRECTORIES}"
        yield f"mkdir {subdirectory(number)}"
    for number in range(size):
        yield f"create {subdirectory(number % DIRECTORIES)}/f{number // DIRECTORIES}"


def readdirs_above(_size: int) -> Lines:
    """Listings of the directories that have subdirectories."""
    for number in range(LISTINGS):
        yield f"readdir /d{number % (DIRECTORIES // SUBDIRECTORIES)}"


@lru_cache(maxsize=None)
def packages() -> list[str]:
    """The lines that make the tree of bench/packages.txt."""
    lines, known, directory = [], {""}, ""
    for line in PACKAGES.read_text().splitlines():
        if line.startswith("# "):
            continue
        if not line.endswith("/"):
            lines.append(f"create {directory}/{line}")
            continue
        directory = line[:-1]
        for each in above_and_itself(directory):
            if each not in known:
                known.add(each)
                lines.append(f"mkdir {each}")
    return lines


def package_creates(size: int) -> Lines:
    """The first lines that make the tree. After the last, they come again for a copy of it, below a directory of its own."""
    made = packages()
    for number in range(size):
        copy, place = divmod(number, len(made))
        if copy > 0 and place == 0:
            yield f"mkdir /copy{copy}"
        command, name = made[place].split(" ")
        yield f"{command} /copy{copy}{name}" if copy > 0 else made[place]


def package_stats(size: int) -> Lines:
    paths = [line.split(" ")[1] for line in package_creates(size)]
    random.Random(size).shuffle(paths)
    for name in paths:
        yield f"stat {name}"


def package_readdirs(size: int) -> Lines:
    yield "readdir /"
    for line in package_creates(size):
        command, name = line.split(" ")
        if command == "mkdir":
            yield f"readdir {name}"


def numbered(number: int, width: int) -> str:
    """A file, if each directory has `width` of them; names of a directory are in the order of numbers."""
    return f"/w{number // width}/f{number % width:06}"


def numbered_files(size: int, width: int) -> Lines:
    for first in range(0, size, width):
        yield f"mkdir /w{first // width}"
    numbers = list(range(size))
    random.Random(size).shuffle(numbers)
    for number in numbers:
        yield f"create {numbered(number, width)}"


def numbered_readdirs(size: int, width: int) -> Lines:
    """Listings of the directories, in turn."""
    for number in range(LISTINGS):
        yield f"readdir /w{number % (size // width)}"


def replaces(size: int, width: int) -> Lines:
    """For half of the files: a new one is made, and renamed over the old one."""
    for number in random.Random(size).sample(range(size), size // 2):
        name = numbered(number, width)
        yield f"create {name}.new"
        yield f"rename {name}.new {name}"


def replaced_files(size: int, width: int) -> Lines:
    yield from numbered_files(size, width)
    yield from replaces(size, width)


def removals(size: int, width: int, is_shuffled: bool = False, has_failures: bool = False) -> Lines:
    """One directory after the other: its files are unlinked, and it is removed. With failures, an rmdir that fails with
    ENOTEMPTY comes before each unlink of a 50th file."""
    for first in range(0, size, width):
        directory = f"/w{first // width}"
        numbers = list(range(first, min(first + width, size)))
        if is_shuffled:
            random.Random(first).shuffle(numbers)
        for number in numbers:
            if has_failures and number % SMALL == SMALL - 1:
                yield f"rmdir {directory}"
            yield f"unlink {numbered(number, width)}"
        yield f"rmdir {directory}"


# What words are chosen from; those early in a list come more often.
MIXED_WORDS = {
    "path": ["/a", "/a/x", "/a/x/y", "/b", "/b/x", "/a-b", "/a-b/x", "/c", "/c/d", "/%20", "/%20/%ff", "/%20/%",
             "/a/x/y/z", "/", "a", "", "/b/", "/b/.", "/b/%00", "/c/" + "/".join(["p" * 200] * 4), "/" + "n" * 255,
             "/" + "n" * 256, "/b/" + "/".join(["p" * 200] * 5)],
    "number": ["0", "15", "4095", "4096", "9000", "1048576", "1048577", "1099511627775", "1099511627777", "007", "",
               "18446744073709551615", "18446744073709551616"],
    "bytes": ["a5" * 20, "5A" * 5_000, "00", "-", "0", "zz", ""],
    "name": [*(f"s{number}" for number in range(99)), "", "/", "x" * 64, "x" * 65],
}
# The words that follow a command, and how often it comes.
MIXED_COMMANDS = {
    "mkdir": (["path"], 12), "create": (["path"], 12), "write": (["path", "number", "bytes"], 20),
    "truncate": (["path", "number"], 6), "unlink": (["path"], 3), "rmdir": (["path"], 2), "rmtree": (["path"], 1),
    "rename": (["path", "path"], 8), "read": (["path", "number", "number"], 12), "stat": (["path"], 8),
    "readdir": (["path"], 8), "snapshot": (["name"], 8), "drop": (["name"], 2), "restore": (["name"], 1),
    "read@": (["path", "number", "number"], 4), "stat@": (["path"], 2), "readdir@": (["path"], 2),
    "mkdir@": (["path"], 1), "none": (["path"], 1),
}


def mixed(size: int) -> Lines:
    """All calls, on few paths, and lines that are none."""
    numbers = random.Random(size)
    weights = [weight for _, weight in MIXED_COMMANDS.values()]

    def word(kind: str) -> str:
        words = MIXED_WORDS[kind]
        return words[min(numbers.randrange(len(words)), numbers.randrange(len(words)))]

    for number, command in enumerate(numbers.choices(list(MIXED_COMMANDS), weights, k=size)):
        words = [command + word("name") if command.endswith("@") else command]
        words += map(word, MIXED_COMMANDS[command][0])
        if number % 100 == 99:
            words = numbers.choice([["# a note"], [""], ["#" * 65_537], [*words, "more"]])
        yield " ".join(words)


WORKLOADS = {
    "mixed": Workload("all calls, with every fault", 50_000, 5_000, nothing, mixed, ("--image",)),
    "create": Workload(f"creates in {DIRECTORIES:,} directories", 50_000, 2_000, lambda _: directories(), creates),
    "random": Workload("creates in random order", 50_000, 2_000, lambda _: directories(), shuffled_creates),
    "stat": Workload("stats in random order, of as many files", 50_000, 2_000, files, stats),
    "small": Workload(f"writes of 16 bytes in {FILES_OF_WRITES:,} files", 50_000, 2_000, few_files, small_writes),
    "scattered": Workload("the same, up to 62 to each block", 250_000, 10_000, few_files, small_writes),
    "write": Workload("writes of 28 KiB, one after the other", 2_341, 40, long_file, long_writes),
    "read": Workload("reads of the same", 2_341, 40, long_written, long_reads),
    "again": Workload("files unlinked and made again", 10_000, 1_000, files, made_again),
    "rmtree": Workload("rmtree of files", 25_000, 5_000, one_directory, rmtree),
    "rename": Workload("rename of a directory of files", 2_500, 250, filled, rename),
    "snapshot": Workload(f"{ROUNDS:,} rounds of snapshot, writes, restore, drop; files", 2_500, 50, files, snapshots),
    "readdir": Workload(f"{LISTINGS:,} readdirs, of files in all", 25_000, 1_000, files, readdirs),
    "image": Workload("an image of files of 100 bytes printed", 5_000, 500, filled, nothing, ("--image",)),
    "load": Workload("an image of files of 100 bytes loaded", 5_000, 500, nothing, nothing, ("--load",)),
}
WORKLOADS |= {f"{name}-once": WORKLOADS[name].once() for name in ("create", "small", "again")}


def deep(above: str) -> dict[str, Workload]:
    """The creates and stats of the workloads of these names, below a path."""
    length = len(above)
    return {
        f"create-{length}": Workload(
            f"creates below a path of {length} bytes, in {DIRECTORIES:,} directories",
            50_000,
            2_000,
            lambda _: deep_directories(above),
            lambda size: creates(size, above),
        ),
        f"stat-{length}": Workload(
            f"stats below a path of {length} bytes, in random order",
            50_000,
            2_000,
            lambda size: deep_files(size, above),
            lambda size: stats(size, above),
        ),
    }


def removal(suffix: str, where: str, width: int | None) -> dict[str, Workload]:
    """The changes of files in directories of one width, by the number of files in all; without a width, in one directory."""

    def at(lines: Callable[..., Lines], **options: bool) -> Callable[[int], Lines]:
        return lambda size: lines(size, width or size, **options)

    made, replaced = at(numbered_files), at(replaced_files)
    unlink, shuffled = at(removals), at(removals, is_shuffled=True)
    failing = at(removals, has_failures=True)
    workloads = {
        "replace": Workload(f"half of the files {where} replaced by rename", 10_000, 500, made, at(replaces)),
        "unlink": Workload(f"files {where} unlinked by name, and rmdir", 10_000, 500, replaced, unlink),
        "unlink-random": Workload(f"files {where} unlinked in random order, and rmdir", 10_000, 500, replaced, shuffled),
        "notempty": Workload(f"the same by name, an rmdir that fails every {SMALL} files", 2_500, 500, replaced, failing),
    }
    return {name + suffix: workload for name, workload in workloads.items()}


WORKLOADS |= deep(DEEP) | deep(DEEPER)
WORKLOADS |= {
    "packages": Workload("the tree of Debian packages made", 12_500, 1_000, nothing, package_creates),
    "packages-stat": Workload("stats of all of that, in random order", 12_500, 1_000, package_creates, package_stats),
    "packages-readdir": Workload("a readdir of each of its directories", 12_500, 1_000, package_creates, package_readdirs),
    "subtrees": Workload(
        f"{LISTINGS:,} readdirs of {SUBDIRECTORIES} subdirectories each, of files in all",
        25_000,
        1_000,
        files_of_subdirectories,
        readdirs_above,
    ),
}
WORKLOADS[f"readdir-{SMALL}"] = Workload(
    f"{LISTINGS:,} readdirs of {SMALL} names each, of files in all",
    25_000,
    1_000,
    lambda size: numbered_files(size, SMALL),
    lambda size: numbered_readdirs(size, SMALL),
)
WORKLOADS |= removal("", "of one directory", None)
WORKLOADS |= removal(f"-{SMALL}", f"of directories of {SMALL}", SMALL)


def main() -> None:
    if len(sys.argv) < 3 or sys.argv[1] not in WORKLOADS:
        sys.exit(f"usage: bench/scripts.py WORKLOAD N [prepare | work]; a workload is one of: {' '.join(WORKLOADS)}")
    workload, size, part = WORKLOADS[sys.argv[1]], int(sys.argv[2]), sys.argv[3:]
    if part != ["work"]:
        sys.stdout.writelines(f"{line}\n" for line in workload.before(size))
    if part != ["prepare"]:
        sys.stdout.writelines(f"{line}\n" for line in workload.itself(size))


if __name__ == "__main__":
    main()
