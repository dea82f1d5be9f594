"""Links, fifos, sockets and devices in an image and in a snapshot, in mounts of its own."""
import os
import socket
import stat
from pathlib import Path

from kept import outlives
from own_mount import case, run_cases


def make_tree(top: Path) -> None:
    for folder in (top, top / "folder", top / "folder/\x01"):
        folder.mkdir(exist_ok=True)
        for number, target in enumerate((b"none", b"folder", b"loop5", b"t" * 4095, b"\xff \n", b"/tmp")):
            os.symlink(target, os.fsencode(folder / f"loop{number}"))
        os.utime(folder / "loop0", ns=(5, 7), follow_symlinks=False)
        os.mkfifo(folder / "fifo", 0o601)
        with socket.socket(socket.AF_UNIX) as bound:
            os.chdir(folder)
            bound.bind("socket")
            os.chdir("/")
        if os.getuid() == 0:
            os.mknod(folder / "null", stat.S_IFCHR | 0o666, os.makedev(1, 3))
            os.mknod(folder / "block", stat.S_IFBLK | 0o600, os.makedev(4095, 2**20 - 1))
            os.lchown(folder / "loop1", 3, 4)


def change_tree(top: Path) -> None:
    for name in ("loop0", "loop1", "fifo", "socket"):
        (top / name).unlink()
        (top / name).write_text("a file now")
    os.rename(top / "folder/loop2", top / "folder/loop3")
    os.symlink("another", top / "folder/loop2")
    os.rename(top / "folder/\x01", top / "folder/fifos")


@case
def a_tree_of_all_kinds(folder: Path):
    outlives(folder, make_tree, change_tree)


run_cases()
