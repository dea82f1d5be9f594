"""What read_store.py finds in a store is what a mount of it shows: behind random changes, ends, kills and checkpoints."""
import os
import random
import subprocess
from pathlib import Path

from own_mount import case, run_cases
from own_store import WORKS, end_well, kill, store_mount, sync
from read_store import Damaged, Store

NAMES, ROUNDS = ["a", "b", "dir", "a b", "x%41", "dir/c", "dir/d", "dir/sub", "dir/sub/e"], int(os.environ.get("ROUNDS", "6"))


def shown(top: Path) -> dict[bytes, bytes | None]:
    tree = {b"/": None}
    for folder, folders, files in os.walk(os.fsencode(top)):
        for name in folders + files:
            path = os.path.join(folder, name)
            tree[path[len(os.fsencode(top)):]] = None if name in folders else Path(os.fsdecode(path)).read_bytes()
    return tree


def found(tree: dict) -> dict[bytes, bytes | None]:
    return {path: data if data is None else bytes(data) for path, data in tree.items() if not path.startswith(b"/.doorvervain")}


def punch(path: Path, works: random.Random) -> None:
    subprocess.run(["fallocate", "-p", "-o", str(works.randrange(9000)), "-l", str(works.randrange(1, 9000)), path], check=True)


def copy(path: Path, other: Path, works: random.Random) -> None:
    offset, target = (works.choice([4096 * works.randrange(8), works.randrange(30000)]) for _ in range(2))
    with path.open("rb", buffering=0) as source, other.open("r+b", buffering=0) as new:
        os.copy_file_range(source.fileno(), new.fileno(), works.randrange(1, 20000), offset, target)


def change(works: random.Random, top: Path) -> None:
    path, other = (top / works.choice(NAMES) for _ in range(2))
    what = works.choice(["write"] * 6 + ["mkdir", "unlink", "rmdir", "rename", "rename", "truncate", "punch", "copy", "chmod", "snap"])
    try:
        if what == "write":
            file = os.open(path, os.O_WRONLY | os.O_CREAT)
            os.pwrite(file, works.randbytes(works.randrange(20000)), works.randrange(30000))
            os.close(file)
        elif what == "snap":
            snapshot = top / ".snapshots" / works.choice("xyz")
            snapshot.rmdir() if snapshot.exists() else snapshot.mkdir()
        else:
            {"mkdir": path.mkdir, "unlink": path.unlink, "rmdir": path.rmdir, "rename": lambda: path.rename(other),
             "truncate": lambda: os.truncate(path, works.randrange(40000)), "punch": lambda: punch(path, works),
             "copy": lambda: copy(path, other, works),
             "chmod": lambda: path.chmod(0o600)}[what]()
    except (OSError, subprocess.CalledProcessError):
        pass


def is_refused(store: Path) -> bool:
    try:
        Store(store)
    except Damaged:
        return True
    return False


def same(folder: Path, mount) -> None:
    """The store is read as its mount left it."""
    store = Store(folder / "whole")
    assert found(store.tree) == shown(mount.point)
    names = os.listdir(mount.point / ".snapshots")
    assert sorted(names) == sorted(it.decode() for it in store.snapshots)
    for name in names:
        assert found(store.snapshots[name.encode()]) == shown(mount.point / ".snapshots" / name), name


@case
def a_reader_finds_what_a_mount_shows(folder: Path):
    for number in range(ROUNDS):
        mount = store_mount(folder, "--log-size", WORKS.choice(["1K", "100K", "1G"]))
        assert mount.stands, mount.said()
        for _ in range(60):
            change(WORKS, mount.point)
        sync(mount.point)
        (end_well if number % 2 else kill)(mount)
        subprocess.run(["rm", "-rf", folder / "whole"], check=True)
        subprocess.run(["cp", "-a", folder / "store", folder / "whole"], check=True)
        mount = store_mount(folder, "--log-size", "1G")
        same(folder, mount)
        end_well(mount)


@case
def it_refuses_what_a_mount_refuses(folder: Path):
    mount = store_mount(folder)
    for _ in range(40):
        change(WORKS, mount.point)
    end_well(mount)
    log = folder / "store/log.0"
    whole = log.read_bytes()
    for at in WORKS.sample(range(len(whole) - 56), 20):
        log.write_bytes(whole[:at] + bytes([whole[at] ^ 4]) + whole[at + 1:])
        assert is_refused(folder / "store"), at


@case
def it_refuses_a_log_as_it_was_at_an_earlier_end(folder: Path):
    logs = []
    for number in range(3):
        mount = store_mount(folder)
        (mount.point / f"file{number}").touch()
        end_well(mount)
        logs.append((folder / "store/log.0").read_bytes())
    for log in logs:
        (folder / "store/log.0").write_bytes(log)
        assert is_refused(folder / "store") == (log != logs[-1])


run_cases()
