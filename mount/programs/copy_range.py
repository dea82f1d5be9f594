"""copy_file_range(2) on mounts of its own: beside tmpfs, and what no other file system does, as to share what is copied."""
import errno
import os
import random
import signal
import subprocess
import sys
import tempfile
import time
from collections.abc import Callable
from pathlib import Path

from cases import CAPABILITY, refused
from kept import restore
from own_mount import MOUNT, Mount, case, run_cases
from own_store import end_well, kill, snapshot, status_of, store_mount, sync

BLOCK, MIB, LARGE = 4096, 1 << 20, 1 << 30
CALLS, COMPARED, SEEDS, KILLS = 200, 20, 3, 6
WITHOUT_FSETID = ("setpriv", "--inh-caps=-fsetid", "--bounding-set=-fsetid")


def copy(source: int, target: int, offset: int, to: int, count: int) -> int:
    """Until all is copied, or the source's end has come: how many bytes."""
    done = 0
    while done < count:
        part = os.copy_file_range(source, target, count - done, offset + done, to + done)
        if not part:
            break
        done += part
    return done


def copy_all(source: Path, target: Path) -> None:
    with source.open("rb") as one, target.open("wb") as other:
        size = os.fstat(one.fileno()).st_size
        assert copy(one.fileno(), other.fileno(), 0, 0, size) == size


def answer(call: Callable, *words):
    try:
        return call(*words)
    except OSError as fault:
        return errno.errorcode[fault.errno]


def in_memory() -> tempfile.TemporaryDirectory:
    return tempfile.TemporaryDirectory(dir="/dev/shm")


# ---- beside tmpfs


class Side:
    """Files by number, of which some have a second name, and one has none any more."""

    FILES = 6

    def __init__(self, top: Path):
        self.top = top
        top.mkdir(exist_ok=True)
        self.files = [os.open(top / str(i), os.O_RDWR | os.O_CREAT, 0o644) for i in range(self.FILES)]
        os.link(top / "0", top / "link")
        self.files.append(os.open(top / "link", os.O_RDWR))
        os.unlink(top / "1")

    def copy(self, source: int, target: int, offset: int, to: int, count: int) -> int:
        return copy(self.files[source], self.files[target], offset, to, count)

    def write(self, file: int, data: bytes, offset: int) -> int:
        return os.pwrite(self.files[file], data, offset)

    def cut(self, file: int, size: int) -> None:
        os.ftruncate(self.files[file], size)

    def punch(self, file: int, offset: int, count: int) -> int:
        words = ["fallocate", "--punch-hole", "--offset", str(offset), "--length", str(count), f"/proc/self/fd/{self.files[file]}"]
        return subprocess.run(words, pass_fds=self.files).returncode

    def read(self, file: int) -> bytes:
        return os.pread(self.files[file], 8 * MIB, 0)

    def read_all(self) -> list[bytes]:
        return [self.read(file) for file in range(len(self.files))]

    def close(self) -> None:
        for file in self.files:
            os.close(file)


def place(chance: random.Random) -> int:
    whole = BLOCK * chance.randrange(0, 200)
    return whole + chance.choice([0, 0, 0, 1, 17, BLOCK - 1, chance.randrange(BLOCK)])


def draw_copy(chance: random.Random) -> tuple:
    """Both places are where a block begins, or as far into one, or neither."""
    offset, to = place(chance), place(chance)
    if chance.random() < 0.6:
        to = to // BLOCK * BLOCK + offset % BLOCK
    count = chance.choice([place(chance), chance.randrange(1, 9000), MIB])
    return "copy", chance.randrange(7), chance.randrange(7), offset, to, count


def draw(chance: random.Random) -> tuple:
    file = chance.randrange(7)
    match chance.randrange(12):
        case 0 | 1:
            return "write", file, chance.randbytes(chance.randrange(1, 300_000)), place(chance)
        case 2:
            return "cut", file, place(chance)
        case 3:
            return "punch", file, place(chance), place(chance) + 1
    return draw_copy(chance)


def run_random(sides: list[Side], chance: random.Random, calls: int) -> int:
    done = 0
    for number in range(calls):
        kind, *words = draw(chance)
        answers = [answer(getattr(side, kind), *words) for side in sides]
        where = (number, kind, [word for word in words if not isinstance(word, bytes)])
        assert answers[0] == answers[1], (where, answers)
        changed = words[1] if kind == "copy" else words[0]
        one, other = (side.read_all() if number % COMPARED == 0 else [side.read(changed)] for side in sides)
        assert one == other, (where, [i for i, data in enumerate(one) if data != other[i]])
        done += kind == "copy" and isinstance(answers[0], int) and answers[0] > 0
    return done


def random_copies(point: Path, seed: int, calls: int = CALLS) -> list[bytes]:
    """What the files have then."""
    with in_memory() as memory:
        sides = [Side(point), Side(Path(memory) / "plain")]
        done = run_random(sides, random.Random(seed), calls)
        found = sides[0].read_all()
        assert found == sides[1].read_all()
        for side in sides:
            side.close()
    print(f"seed {seed}: {done} copies were done as on tmpfs")
    return found


@case
def random_copies_beside_tmpfs(folder: Path):
    mount = Mount(folder)
    for seed in range(SEEDS):
        random_copies(mount.point / str(seed), seed)
    end_well(mount)


@case
def in_a_log_of_calls_they_are_writes(folder: Path):
    """No line of a script copies bytes."""
    mount = Mount(folder, "--trace", folder / "calls")
    random_copies(mount.point / "files", 7, 40)
    end_well(mount)


@case
def a_snapshot_keeps_what_it_has(folder: Path):
    mount = Mount(folder)
    before = random_copies(mount.point / "files", 1)
    kept = snapshot(mount, "kept") / "files"
    files = [mount.point / "files" / name for name in "0234"]
    for number, file in enumerate(files):
        copy_all(files[number - 1], file)
        with file.open("ab") as end:
            end.write(b"more")
    named = {"0": 0, "2": 2, "3": 3, "4": 4, "5": 5, "link": 6}
    assert all((kept / name).read_bytes() == before[number] for name, number in named.items())
    copy_all(kept / "3", mount.point / "again")  # of another tree: that is read and written
    assert (mount.point / "again").read_bytes() == before[3]
    end_well(mount)


# ---- attributes, holes, faults


def with_bits(top: Path, command: tuple[str, ...]) -> list:
    """What is left of set-user bits and a capability behind a copy, with a program in front that takes a right away."""
    left, program = [], "import os, sys; a, b = (os.open(it, os.O_RDWR) for it in sys.argv[1:]); os.copy_file_range(a, b, 9)"
    for mode in (0o6755, 0o6745, 0o2644, 0o4711):
        source, target = top / "source", top / f"{mode:o}.{bool(command)}"
        source.write_bytes(b"x" * 9)
        target.write_bytes(b"y" * 20)
        os.setxattr(target, "security.capability", CAPABILITY)
        target.chmod(mode)
        subprocess.run([*command, sys.executable, "-c", program, source, target], check=True)
        left.append((oct(target.stat().st_mode), os.listxattr(target), target.read_bytes()))
    return left


@case
def set_user_bits_go(folder: Path):
    if os.getuid():
        return
    mount = Mount(folder)
    with in_memory() as plain:
        for command in ((), WITHOUT_FSETID):
            assert with_bits(mount.point, command) == with_bits(Path(plain), command), command
    end_well(mount)


@case
def times_are_those_of_a_read_and_a_write(folder: Path):
    mount = Mount(folder)
    source, target = mount.point / "source", mount.point / "target"
    source.write_bytes(b"x" * 5 * BLOCK)
    target.write_bytes(b"")
    for file in (source, target):
        os.utime(file, ns=(5, 7))
    before = [file.stat() for file in (source, target)]
    with source.open("rb") as one, target.open("r+b") as other:
        assert copy(one.fileno(), other.fileno(), 0, 0, 2 * BLOCK) == 2 * BLOCK
        now = [file.stat() for file in (source, target)]
        assert copy(one.fileno(), other.fileno(), 5 * BLOCK, 0, BLOCK) == 0
    assert now[0].st_mtime_ns == before[0].st_mtime_ns == 7 and now[0].st_ctime_ns == before[0].st_ctime_ns
    assert now[0].st_atime_ns > before[0].st_ctime_ns
    assert now[1].st_mtime_ns == now[1].st_ctime_ns > before[1].st_ctime_ns and now[1].st_size == 2 * BLOCK
    assert target.stat() == now[1]
    end_well(mount)


def runs(file: Path) -> list[tuple[int, int]]:
    with file.open("rb") as opened:
        out, at, size = [], 0, os.fstat(opened.fileno()).st_size
        while (begin := answer(os.lseek, opened.fileno(), at, os.SEEK_DATA)) != "ENXIO":
            at = os.lseek(opened.fileno(), begin, os.SEEK_HOLE)
            out.append((begin, at))
            if at == size:
                break
    return out


@case
def holes_stay_holes(folder: Path):
    mount = Mount(folder)
    source, target, other = (mount.point / name for name in ("source", "target", "other"))
    with source.open("wb") as file:
        os.truncate(source, 300 * MIB)
        for at in (3 * MIB, 120 * MIB):
            os.pwrite(file.fileno(), os.urandom(100 * BLOCK), at)
    target.write_bytes(b"x" * 5 * MIB)
    with source.open("rb") as one, target.open("r+b") as two:
        assert copy(one.fileno(), two.fileno(), 0, 0, 300 * MIB) == 300 * MIB
    subprocess.run(["cp", "--reflink=auto", source, other], check=True)
    for it in (target, other):
        assert runs(it) == runs(source) and it.stat().st_blocks == source.stat().st_blocks == 200 * BLOCK // 512
        assert subprocess.run(["cmp", source, it]).returncode == 0
    end_well(mount)


@case
def what_is_stored_is_counted(folder: Path):
    """After a restore it is counted anew."""
    mount = Mount(folder)
    random_copies(mount.point / "files", 3, 150)
    blocks = {it.name: it.stat().st_blocks for it in (mount.point / "files").iterdir()}
    snapshot(mount, "now")
    (mount.point / "more").write_bytes(b"x")
    restore(mount, "now")
    counted = {it.name: it.stat().st_blocks for it in (mount.point / "files").iterdir()}
    assert blocks == counted, (blocks, counted)
    end_well(mount)


@case
def faults_are_those_of_linux(folder: Path):
    mount = Mount(folder)
    with in_memory() as plain:
        assert faults(mount.point) == faults(Path(plain))
    (mount.point / "kept").write_bytes(b"x" * BLOCK)
    kept = snapshot(mount, "one") / "kept"
    refused(errno.EROFS, os.open, kept, os.O_RDWR)
    end_well(mount)


def faults(top: Path) -> list:
    file = os.open(top / "file", os.O_RDWR | os.O_CREAT)
    os.pwrite(file, b"x" * 10 * BLOCK, 0)
    reads, writes, adds = (os.open(top / "file", how) for how in (os.O_RDONLY, os.O_WRONLY, os.O_WRONLY | os.O_APPEND))
    directory = os.open(top, os.O_RDONLY)
    asked = [(file, file, BLOCK, 0, 1), (file, file, BLOCK, 0, BLOCK - 1), (file, file, 2 * BLOCK, 0, 9 * BLOCK),
             (file, file, 2 * BLOCK, 10 * BLOCK, 2 * BLOCK), (writes, file, 1, 0, 20), (file, reads, 1, 0, 20),
             (file, adds, 1, 0, 20), (directory, file, 1, 0, 20), (file, file, 1, 2**20, 0), (file, file, 1, 2**20, 2**40)]
    found = [answer(os.copy_file_range, one, other, count, offset, to) for one, other, count, offset, to in asked]
    for it in (file, reads, writes, adds, directory):
        os.close(it)
    return [*found, (top / "file").read_bytes()]


# ---- a store


@case
def a_store_keeps_them(folder: Path):
    mount = store_mount(folder)
    random_copies(mount.point / "files", 2)
    snapshot(mount, "kept")
    names = sorted(it.name for it in (mount.point / "files").iterdir())
    found = [(mount.point / "files" / name).read_bytes() for name in names]
    end_well(mount)
    dumped = subprocess.run([MOUNT, "--dump-log", folder / "store"], capture_output=True)
    assert dumped.returncode == 0 and b"\n# copy /files/" in dumped.stdout, dumped.stderr
    for options in ((), ("--log-size", "1M"), ()):
        mount = store_mount(folder, *options)
        assert mount.stands, mount.said()
        for top in (mount.point, mount.point / ".snapshots/kept"):
            assert [(top / "files" / name).read_bytes() for name in names] == found
        end_well(mount)


def make_copies(source: Path, notes: Path) -> None:
    """Copies with fsync, until it is killed: each says which of them are on the disk."""
    data = source.read_bytes()
    for number in range(1, 1_000_000):
        to = source.parent / f"copy{number}"
        copy_all(source, to)
        with to.open("r+b") as file, source.open("rb") as again:
            copy(again.fileno(), file.fileno(), 5, len(data) + number, 3 * BLOCK)
            if number % 3 == 0:
                os.fsync(file.fileno())
                notes.write_text(str(number))
        if number > 10:
            (source.parent / f"copy{number - 10}").unlink()


@case
def a_kill_loses_none_that_was_synced(folder: Path):
    source, notes, chance = folder / "mnt/source", folder / "notes", random.Random(83)
    mount = store_mount(folder, "--log-size", "1M")
    source.write_bytes(data := os.urandom(2 * MIB + 77))
    sync(mount.point)
    for _ in range(KILLS):
        with subprocess.Popen([sys.executable, "-B", __file__, "copies", source, notes], stderr=subprocess.DEVNULL) as works:
            time.sleep(chance.uniform(0.2, 1.5))
            kill(mount)
            works.wait()
        mount = store_mount(folder, "--log-size", "1M")
        assert mount.stands, mount.said()
        assert source.read_bytes() == data
        kept = int(notes.read_text()) if notes.exists() else 0
        for number in range(max(1, kept - 8), kept + 1):
            expected = data + bytes(number) + data[5:5 + 3 * BLOCK]
            assert (mount.point / f"copy{number}").read_bytes() == expected, (number, kept)
        print(f"{kept} copies were synced before a kill")
        for it in mount.point.glob("copy*"):
            it.unlink()
        notes.unlink(missing_ok=True)
    end_well(mount)


# ---- much


def copy_much(mount: Mount) -> None:
    """1 GiB by cp: the mount's memory grows by less than a tenth of that."""
    source, target = mount.point / "much", mount.point / "copied"
    with source.open("wb") as file:
        for _ in range(LARGE // (16 * MIB)):
            file.write(os.urandom(16 * MIB))
    sync(mount.point)
    before, began = status_of(mount)["memory"], time.monotonic()
    subprocess.run(["cp", "--reflink=auto", source, target], check=True)
    seconds = time.monotonic() - began
    grown = status_of(mount)["memory"] - before
    print(f"cp of 1 GiB: {seconds:.2f} s, and {grown / MIB:.1f} MiB more", flush=True)
    assert grown < LARGE // 10, grown
    assert subprocess.run(["cmp", source, target]).returncode == 0


@case
def no_byte_of_much_is_copied(folder: Path):
    mount = Mount(folder)
    copy_much(mount)
    end_well(mount)


@case
def no_byte_of_much_is_copied_with_a_store(folder: Path):
    mount = store_mount(folder, "--log-size", "2G")
    copy_much(mount)
    assert status_of(mount)["store"]["log"] < LARGE * 11 // 10
    end_well(mount)
    again = store_mount(folder)
    assert again.stands, again.said()
    assert subprocess.run(["cmp", again.point / "much", again.point / "copied"]).returncode == 0
    end_well(again)


if sys.argv[1:2] == ["copies"]:
    signal.signal(signal.SIGPIPE, signal.SIG_DFL)
    make_copies(Path(sys.argv[2]), Path(sys.argv[3]))
run_cases()
