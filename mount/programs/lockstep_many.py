"""Random calls by several processes at once, on the folder that this is started in.

Each of them has a folder of its own, then names of its own in one folder: either is in lockstep with a plain folder in
memory, as in lockstep.py. Then all have the same names. There an answer depends on the others: each call is done or
refused as on a plain folder, and in the end all that is seen of the tree fits together.
"""
import errno
import multiprocessing
import os
import random
import shutil
import stat
import sys
import tempfile
import time
from collections import Counter
from collections.abc import Callable, Iterator
from pathlib import Path

from lockstep import CALLS, Calls, Side, answer, run, reported
from seen import Seen, alike, paths_below, seen

PROCESSES, SECONDS = 8, 15
PLAIN = "/dev/shm"
# Shorter ones than those of lockstep.py: no call makes a path that is too long for the mount.
NAMES = [b"a", b"b", b"c", b"\x01", b"\x01a", b"long name " * 5]
# What a plain folder refuses such calls with.
REFUSALS = {errno.errorcode[number] for number in (
    errno.ENOENT, errno.EEXIST, errno.ENOTDIR, errno.EISDIR, errno.ENOTEMPTY, errno.EINVAL, errno.EPERM, errno.EBUSY,
    errno.ELOOP, errno.ENODATA, errno.ENXIO, errno.ESPIPE, errno.ENAMETOOLONG)}


class SomeNames(Side):
    """The names in a folder that stands, of those that begin with a prefix."""

    def __init__(self, tree: Path, prefix: bytes):
        self.top, self.mounted, self.files, self.tree, self.prefix = tree.parent, False, {}, os.fsencode(tree), prefix

    def reported(self) -> dict[bytes, Seen]:
        return reported(self.tree, self.prefix)

    def remove_all(self) -> None:
        for name in os.listdir(self.tree):
            if name.startswith(self.prefix):
                remove(self.at(name))


def remove(path: bytes) -> None:
    shutil.rmtree(path) if os.path.isdir(path) and not os.path.islink(path) else os.unlink(path)


def let_go(sides: list[Side]) -> None:
    for side in sides:
        for slot in list(side.files):
            side.let_go(slot)


def seeds(number: int) -> Iterator[int]:
    """Those of a process, until the time is over."""
    ends = time.monotonic() + SECONDS
    while time.monotonic() < ends:
        yield number
        number += PROCESSES


def own_folder(number: int) -> None:
    for seed in seeds(number):
        with tempfile.TemporaryDirectory(dir=PLAIN) as plain, tempfile.TemporaryDirectory(dir=".") as judged:
            sides = [Side(Path(judged).absolute(), False), Side(Path(plain), False)]
            run(seed, sides, Calls(seed, False, NAMES))
            let_go(sides)


def one_folder(number: int) -> None:
    prefix = b"%d" % number
    for seed in seeds(number):
        with tempfile.TemporaryDirectory(dir=PLAIN) as plain:
            sides = [SomeNames(Path("one").absolute(), prefix), SomeNames(Path(plain), prefix)]
            # No link leads to the folder that others have too.
            run(seed, sides, Calls(seed, False, [prefix + name for name in NAMES], prefix))
            let_go(sides)
            sides[0].remove_all()


def same_names(number: int) -> None:
    ends, side, calls = time.monotonic() + SECONDS, SomeNames(Path("same").absolute(), b""), Calls(number, False, NAMES)
    refused: Counter = Counter()
    while time.monotonic() < ends:
        kind, *words = calls.next()
        said = answer(side, kind, words)
        if isinstance(said, str):
            refused[said] += 1
    let_go([side])
    assert set(refused) <= REFUSALS, refused


def fits_together(top: bytes) -> None:
    """Each name that is listed is there, and each file has as many names as it says."""
    names: Counter = Counter()
    for path in paths_below(top):
        names[os.lstat(os.path.join(top, path)).st_ino] += 1
    for path in paths_below(top):
        found = os.lstat(os.path.join(top, path))
        assert stat.S_ISDIR(found.st_mode) or found.st_nlink == names[found.st_ino], (path, found, names[found.st_ino])
    alike(seen(top), seen(top))


def by_all(work: Callable[[int], None]) -> None:
    processes = [multiprocessing.Process(target=work, args=(number,)) for number in range(PROCESSES)]
    for process in processes:
        process.start()
    for process in processes:
        process.join()
    failed = [process.exitcode for process in processes if process.exitcode]
    assert not failed, (work.__name__, failed)


def main() -> None:
    os.umask(0o022)
    by_all(own_folder)
    os.mkdir("one")
    by_all(one_folder)
    assert os.listdir("one") == []
    os.rmdir("one")
    os.mkdir("same")
    by_all(same_names)
    fits_together(b"same")
    shutil.rmtree("same")
    print(f"{PROCESSES} processes worked at once for three times {SECONDS} seconds")


if __name__ == "__main__":
    main()
