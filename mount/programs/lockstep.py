"""Random calls on two folders in lockstep: the one that it is started in, and a plain one in memory.

Seeds are named as arguments; no more of them begin once SECONDS have passed. Each answer is compared, and after each
COMPARED calls all that can be seen of both trees: after each one, if the environment has EACH. Where the folder is on
a mount, snapshots are taken and restored: on the plain side they are copies.
"""
import ctypes
import errno
import os
import random
import shutil
import subprocess
import sys
import tempfile
import time
from pathlib import Path

from seen import Seen, alike, seen

CALLS, SECONDS, SLOTS, SNAPSHOTS = 2500, 50, 6, 4
COMPARED = 1 if "EACH" in os.environ else 60
MNT, BY_HAND = os.environ.get("MNT", ""), 10**18
NAMES = [b"a", b"b", b"c", b"\x01", b"\x01a", b"long name " * 20]
C = ctypes.CDLL(None, use_errno=True)


class Side:
    """A folder with its open files and its snapshots; paths are below `tree`."""

    def __init__(self, top: Path, mounted: bool):
        self.top, self.mounted, self.files = top, mounted, {}
        self.tree = os.fsencode(top / "tree")
        os.mkdir(self.tree)

    def at(self, path: bytes) -> bytes:
        return os.path.join(self.tree, path)

    def stat(self, path: bytes):
        reported = os.lstat(self.at(path))
        return reported.st_mode, reported.st_uid, reported.st_gid

    def read(self, path: bytes):
        with open(os.open(self.at(path), os.O_RDONLY | os.O_NONBLOCK), "rb") as file:
            return file.read() if os.path.isfile(file.fileno()) else None

    def make(self, path: bytes, mode: int):
        os.close(os.open(self.at(path), os.O_CREAT | os.O_EXCL | os.O_WRONLY, mode))

    def write(self, path: bytes, offset: int, data: bytes, flags: int):
        file = os.open(self.at(path), os.O_WRONLY | os.O_NONBLOCK | flags)
        try:
            return os.pwrite(file, data, offset)
        finally:
            os.close(file)

    def truncate(self, path: bytes, length: int):
        """To another length: it is open whether the time of one that has it is changed."""
        if os.path.isfile(self.at(path)) and os.stat(self.at(path)).st_size != length:
            os.truncate(self.at(path), length)

    def punch(self, path: bytes, offset: int, count: int):
        file = os.open(self.at(path), os.O_WRONLY | os.O_NONBLOCK)
        try:
            # Behind the end there is nothing to punch, and it is open whether that is a change.
            if offset < os.fstat(file).st_size and C.fallocate(file, 3, ctypes.c_long(offset), ctypes.c_long(count)):
                raise OSError(ctypes.get_errno(), "fallocate")
        finally:
            os.close(file)

    def mkdir(self, path: bytes, mode: int):
        os.mkdir(self.at(path), mode)

    def unlink(self, path: bytes):
        os.unlink(self.at(path))

    def rmdir(self, path: bytes):
        os.rmdir(self.at(path))

    def remove_tree(self, path: bytes):
        if os.path.isdir(self.at(path)) and not os.path.islink(self.at(path)):
            shutil.rmtree(self.at(path))

    def rename(self, path: bytes, to: bytes):
        os.rename(self.at(path), self.at(to))

    def link(self, path: bytes, to: bytes):
        os.link(self.at(path), self.at(to), follow_symlinks=False)

    def symlink(self, target: bytes, path: bytes):
        os.symlink(target, self.at(path))

    def readlink(self, path: bytes):
        return os.readlink(self.at(path))

    def mkfifo(self, path: bytes, mode: int):
        os.mkfifo(self.at(path), mode)

    def chmod(self, path: bytes, mode: int):
        os.chmod(self.at(path), mode)

    def chown(self, path: bytes, user: int, group: int):
        os.lchown(self.at(path), user, group)

    def utime(self, path: bytes, modified: int):
        os.utime(self.at(path), ns=(5, modified), follow_symlinks=False)

    def set_extended(self, path: bytes, name: str, value: bytes, flags: int):
        os.setxattr(self.at(path), name, value, flags, follow_symlinks=False)

    def remove_extended(self, path: bytes, name: str):
        os.removexattr(self.at(path), name, follow_symlinks=False)

    def listdir(self, path: bytes):
        return sorted(os.listdir(self.at(path)))

    def hold(self, path: bytes, slot: int, flags: int):
        self.let_go(slot)
        if os.path.isfile(self.at(path)) or not os.path.lexists(self.at(path)):
            self.files[slot] = os.open(self.at(path), os.O_RDWR | flags, 0o640)

    def let_go(self, slot: int):
        if slot in self.files:
            os.close(self.files.pop(slot))

    def held_write(self, slot: int, offset: int, data: bytes):
        return os.pwrite(self.files[slot], data, offset) if slot in self.files else None

    def held_copy(self, slot: int, other: int, offset: int, to: int, count: int):
        if slot not in self.files or other not in self.files:
            return None
        done, source, target = 0, self.files[slot], self.files[other]
        while part := os.copy_file_range(source, target, count - done, offset + done, to + done):
            done += part
        return done

    def held_read(self, slot: int):
        return os.pread(self.files[slot], 1 << 20, 0) if slot in self.files else None

    def held_stat(self, slot: int):
        if slot not in self.files:
            return None
        reported = os.fstat(self.files[slot])
        return reported.st_mode, reported.st_nlink, reported.st_size, reported.st_uid, sorted(os.listxattr(self.files[slot]))

    def held_set(self, slot: int, mode: int, modified: int):
        if slot in self.files:
            os.fchmod(self.files[slot], mode)
            os.setxattr(self.files[slot], "user.held", b"%d" % mode)
            os.utime(self.files[slot], ns=(5, modified))

    def held_truncate(self, slot: int, length: int):
        if slot in self.files and os.fstat(self.files[slot]).st_size != length:
            os.ftruncate(self.files[slot], length)

    def place(self, name: str) -> Path:
        return Path(MNT) / ".snapshots" / name if self.mounted else self.top / f"snapshot {name}"

    def snapshot(self, name: str):
        if self.place(name).exists():
            self.drop(name)
        if self.mounted:
            os.mkdir(self.place(name))
        else:
            copy(self.tree, self.place(name))

    def drop(self, name: str):
        if self.place(name).exists():
            os.rmdir(self.place(name)) if self.mounted else shutil.rmtree(self.place(name))

    def restore(self, name: str):
        for slot in range(SLOTS):
            self.let_go(slot)
        if not self.place(name).exists():
            return
        if self.mounted:
            subprocess.run([os.environ["MOUNT"], "--restore", name, MNT], check=True)
        else:
            shutil.rmtree(self.tree)
            copy(self.place(name), self.tree)

    def seen_in(self, name: str) -> dict[bytes, Seen]:
        """What is seen of a snapshot."""
        if not self.place(name).exists():
            return {}
        inner = Path(os.fsdecode(self.tree)).relative_to(MNT) if self.mounted else "."
        return reported(self.place(name) / inner)

    def reported(self) -> dict[bytes, Seen]:
        return reported(self.tree)


def copy(tree, to) -> None:
    subprocess.run(["cp", "-a", "--sparse=always", tree, to], check=True)


def reported(tree, prefix: bytes = b"") -> dict[bytes, Seen]:
    """A time that nobody set by hand is any."""
    return {path: each if each.modified < BY_HAND else each._replace(modified=BY_HAND)
            for path, each in seen(tree, prefix).items()}


class Calls:
    """Calls that look random: a method of a side, and its arguments."""

    def __init__(self, seed: int, snapshots: bool = bool(MNT), names: list[bytes] = NAMES, here: bytes = b"."):
        self.chance, self.paths, self.names, self.here = random.Random(seed), names[:1], names, here
        self.kinds = {name.removeprefix("draw_"): getattr(self, name) for name in dir(self) if name.startswith("draw_")}
        often = ("make", "write", "rename", "link", "chmod", "mkdir", "symlink", "hold", "held_write", "set_extended")
        self.bag = [*self.kinds, *often * 3] + (["snapshot", "restore"] if snapshots else [])
        self.bag = [kind for kind in self.bag for _ in range(1 if kind == "remove_tree" else 8)]

    def next(self):
        kind = self.chance.choice(self.bag)
        if kind in ("snapshot", "restore", "drop"):
            return (kind, str(self.chance.randrange(SNAPSHOTS))) if self.chance.random() < 0.2 else ("listdir", b".")
        return kind, *self.kinds[kind]()

    def path(self) -> bytes:
        """Mostly one of those that calls were about last."""
        if self.chance.random() < 0.65:
            return self.chance.choice(self.paths)
        names = self.chance.choices(self.names, k=self.chance.choice((1, 1, 2, 2, 3)))
        self.paths = [*self.paths[-25:], b"/".join(names)]
        return self.paths[-1]

    def mode(self) -> int:
        return self.chance.choice((0o644, 0o755, 0o600, 0o4755, 0o2770, 0o1777, 0o7777, 0o400)) | 0o400

    def size(self) -> int:
        return self.chance.choice((0, 1, 5, 4095, 4096, 4097, 9000, 30_000, 200_000))

    def data(self) -> bytes:
        return self.chance.randbytes(self.chance.choice((1, 10, 4096, 5000, 20_000)))

    def slot(self) -> int:
        return self.chance.randrange(SLOTS)

    def moment(self) -> int:
        return self.chance.randrange(BY_HAND)

    def extended(self) -> str:
        return f"user.{self.chance.choice('abc')}"

    def draw_stat(self):
        return (self.path(),)

    draw_read = draw_unlink = draw_rmdir = draw_remove_tree = draw_readlink = draw_listdir = draw_stat

    def draw_make(self):
        return self.path(), self.mode()

    draw_mkdir = draw_mkfifo = draw_chmod = draw_make

    def draw_write(self):
        return self.path(), self.size(), self.data(), self.chance.choice((0, 0, 0, os.O_TRUNC))

    def draw_truncate(self):
        return self.path(), self.size()

    def draw_punch(self):
        return self.path(), self.size(), self.size() + 1

    def draw_rename(self):
        return self.path(), self.path()

    draw_link = draw_rename

    def draw_symlink(self):
        return self.chance.choice((self.path(), b"../" + self.path(), self.here, b"none", b"t" * 3000)), self.path()

    def draw_chown(self):
        return self.path(), *((self.chance.randrange(3), self.chance.randrange(3)) if os.getuid() == 0 else (-1, -1))

    def draw_utime(self):
        return self.path(), self.moment()

    def draw_set_extended(self):
        value = self.chance.randbytes(self.chance.choice((0, 1, 100, 3000)))
        return self.path(), self.extended(), value, self.chance.choice((0, 0, os.XATTR_CREATE, os.XATTR_REPLACE))

    def draw_remove_extended(self):
        return self.path(), self.extended()

    def draw_hold(self):
        return self.path(), self.slot(), self.chance.choice((0, os.O_CREAT, os.O_TRUNC))

    def draw_let_go(self):
        return (self.slot(),)

    draw_held_read = draw_held_stat = draw_let_go

    def draw_held_write(self):
        return self.slot(), self.size(), self.data()

    def draw_held_copy(self):
        return self.slot(), self.slot(), self.size(), self.size(), self.size()

    def draw_held_set(self):
        return self.slot(), self.mode(), self.moment()

    def draw_held_truncate(self):
        return self.slot(), self.size()


def answer(side: Side, kind: str, words):
    try:
        return getattr(side, kind)(*words)
    except OSError as fault:
        return errno.errorcode[fault.errno]


def run(seed: int, sides: list[Side], calls: Calls) -> int:
    done = 0
    for number in range(CALLS):
        kind, *words = calls.next()
        answers = [answer(side, kind, words) for side in sides]
        assert answers[0] == answers[1], f"seed {seed}, call {number}: {kind} {words}: {answers}"
        done += not isinstance(answers[0], str)
        if number % COMPARED == COMPARED - 1 or kind == "restore":
            compare(sides, f"seed {seed}, call {number}, {kind} {words}")
    return done


def compare(sides: list[Side], where: str) -> None:
    try:
        alike(*(side.reported() for side in sides))
        for name in map(str, range(SNAPSHOTS)):
            alike(*(side.seen_in(name) for side in sides))
    except AssertionError as fault:
        raise AssertionError(f"{where}: {fault}") from None


def main() -> None:
    os.umask(0o022)
    ends, calls = time.monotonic() + SECONDS, 0
    seeds = [int(word) for word in sys.argv[1:]]
    for seed in seeds:
        if time.monotonic() > ends:
            break
        with tempfile.TemporaryDirectory(dir="/dev/shm") as plain, tempfile.TemporaryDirectory(dir=".") as judged:
            sides = [Side(Path(judged).absolute(), bool(MNT)), Side(Path(plain), False)]
            calls += run(seed, sides, Calls(seed))
            for side in sides:
                for slot in range(SLOTS):
                    side.let_go(slot)
                for name in map(str, range(SNAPSHOTS)):
                    side.drop(name)
    print(f"{calls} calls were done alike, with seeds {seeds[0]} to {seed}")


if __name__ == "__main__":
    main()
