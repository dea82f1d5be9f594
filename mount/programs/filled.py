"""Fills a mount of 16 MiB, for its log: nothing that is refused for want of memory may stand there as done."""
import ctypes
import errno
import os
from collections.abc import Callable

from cases import put

C = ctypes.CDLL(None, use_errno=True)
ZERO = 16
PIECE = os.urandom(4096)


def zero(file: int, offset: int, count: int) -> None:
    if C.fallocate(file, ZERO, ctypes.c_long(offset), ctypes.c_long(count)):
        raise OSError(ctypes.get_errno(), os.strerror(ctypes.get_errno()))


def until_full(call: Callable[[int], object]) -> int:
    """Calls with 0, 1 and so on until there is no room: the number that was refused."""
    number = 0
    while True:
        try:
            call(number)
        except OSError as fault:
            assert fault.errno == errno.ENOSPC, fault
            return number
        number += 1


def fill(top: str) -> None:
    os.makedirs(top)
    put(f"{top}/one", PIECE)
    file = os.open(f"{top}/large", os.O_CREAT | os.O_RDWR)
    count = until_full(lambda i: os.pwrite(file, PIECE, i * 4096))
    calls = [lambda i: zero(file, i * 8192 % (count * 4096) + 100, 5000), lambda i: os.mkdir(f"{top}/folder{i}"),
             lambda i: os.symlink("t" * 3000, f"{top}/soft{i}"), lambda i: os.link(f"{top}/one", f"{top}/hard{i}"),
             lambda i: os.setxattr(f"{top}/one", f"user.{i}", PIECE)]
    for call in calls:
        until_full(call)
    os.truncate(f"{top}/large", count * 2048 + 5)
    until_full(lambda i: put(f"{top}/new{i}", PIECE))
    os.close(file)


for name in ("first", "second"):
    fill(name)
    for path in sorted(os.listdir(name)):
        (os.rmdir if path.startswith("folder") else os.unlink)(f"{name}/{path}")
