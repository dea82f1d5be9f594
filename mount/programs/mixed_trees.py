"""Trees with entries of many kinds, what changes them, and whether two are alike."""
import os
import random
import shutil
import subprocess
from pathlib import Path

from seen import alike, seen

PIPE_BUFFER = 1 << 16
REPORTED = r"%p %y %m %U %G %T@ %s %n %l\n"


def make(top: Path) -> None:
    """Entries of many kinds, with attributes that are not the usual ones."""
    for name in ("folder/below", "empty", "odd \n\x01"):
        (top / name).mkdir(parents=True)
    for i in range(20):
        file = top / f"folder/file{i}"
        file.write_bytes(bytes([i + 1]) * (700 * i))
        os.link(file, top / f"folder/below/hard{i}")
        os.symlink(f"../file{i}", top / f"folder/below/soft{i}")
        os.setxattr(file, "user.number", str(i).encode() * 3)
        file.chmod(0o4000 + 0o21 * i)
        if os.getuid() == 0:
            os.chown(file, i, i + 1)
        os.utime(file, ns=(i * 10**17 + i, i * 10**16 + i))
    os.symlink("none", top / "dangling")
    os.mkfifo(top / "fifo", 0o640)
    (top / "sparse").write_bytes(b"x")
    os.truncate(top / "sparse", 20 << 20)
    (top / "large").write_bytes(random.Random(5).randbytes(4 * PIPE_BUFFER))
    os.setxattr(top / "empty", "user.empty", b"")
    (top / "empty").chmod(0o2750)
    for name in ("empty", "folder/below", "folder"):
        os.utime(top / name, ns=(10**18, 10**18 + 789))


def change(top: Path) -> None:
    """What comes, goes, moves, gets other bytes or attributes, or becomes of another kind."""
    shutil.rmtree(top / "folder/below")
    (top / "folder/below").write_text("a file")
    (top / "folder/file1").rename(top / "moved")
    os.link(top / "folder/file2", top / "second")
    os.removexattr(top / "folder/file3", "user.number")
    (top / "folder/file4").unlink()
    (top / "folder/file4").mkdir()
    (top / "odd \n\x01/more").mkdir()
    (top / "odd \n\x01").rename(top / "odd2")
    os.truncate(top / "folder/file5", 100)
    with (top / "sparse").open("r+b") as sparse:
        sparse.seek(9_999_999)
        sparse.write(b"y")
    with (top / "large").open("r+b") as large:
        large.seek(5000)
        large.write(bytes(9000))
    os.utime(top / "fifo", ns=(0, 5))
    (top / "empty").chmod(0o700)


def change_at_random(works: random.Random, top: Path, names: list[str]) -> None:
    path, other = (top.joinpath(*works.choices(names, k=works.randrange(1, 3))) for _ in range(2))
    calls = [
        lambda: path.mkdir(),
        lambda: path.write_bytes(works.randbytes(works.randrange(9000))),
        lambda: os.truncate(path, works.randrange(30000)),
        lambda: path.unlink(),
        lambda: shutil.rmtree(path),
        lambda: path.rename(other),
        lambda: os.link(path, other),
        lambda: os.symlink(other, path),
        lambda: path.chmod(works.randrange(0o100, 0o777) | 0o700),
        lambda: os.setxattr(path, "user.a", works.randbytes(works.randrange(9))),
        lambda: os.utime(path, ns=(1, works.randrange(1 << 60))),
    ]
    try:
        works.choice(calls)()
    except OSError:
        pass


def reported(top: Path) -> list[str]:
    """All that find(1) tells of a tree."""
    listed = subprocess.run(["find", ".", "-printf", REPORTED], cwd=top, stdout=subprocess.PIPE, check=True).stdout
    return sorted(listed.decode(errors="surrogateescape").splitlines())


def same(one: Path, other: Path) -> None:
    assert reported(one) == reported(other), set(reported(one)) ^ set(reported(other))
    alike(seen(one), seen(other))
