"""Holes of files in the folder that it is started in: found, made, counted, and what bytes are read afterwards."""
import ctypes
import errno
import mmap
import os
import random
import subprocess

from cases import MNT, case, get, mount_case, put, refused, run_cases

KEEP_SIZE, PUNCH, COLLAPSE, ZERO, INSERT = 1, 2, 8, 16, 32
KIB, MIB = 1024, 1 << 20
C = ctypes.CDLL(None, use_errno=True)


def allocate(file: int, mode: int, offset: int, count: int) -> None:
    if C.fallocate(file, mode, ctypes.c_long(offset), ctypes.c_long(count)):
        raise OSError(ctypes.get_errno(), os.strerror(ctypes.get_errno()))


def punch(file: int, offset: int, count: int) -> None:
    allocate(file, PUNCH | KEEP_SIZE, offset, count)


def opened(name: str = "file") -> int:
    return os.open(name, os.O_CREAT | os.O_RDWR, 0o644)


def runs(file: int) -> list[tuple[int, int]]:
    """The runs of data, by SEEK_DATA and SEEK_HOLE."""
    out, size, at = [], os.fstat(file).st_size, 0
    while at < size:
        try:
            begin = os.lseek(file, at, os.SEEK_DATA)
        except OSError as fault:
            assert fault.errno == errno.ENXIO, fault
            break
        at = os.lseek(file, begin, os.SEEK_HOLE)
        assert begin < at <= size
        out.append((begin, at))
    return out


def stored(name: str = "file") -> int:
    return int(subprocess.run(["du", "-B1", name], capture_output=True, text=True, check=True).stdout.split()[0])


def zeroes(file: int, mode: int, offset: int, count: int) -> bool:
    """ZERO, where the file system has it: tmpfs does not."""
    try:
        allocate(file, ZERO | mode, offset, count)
        return True
    except OSError as fault:
        assert fault.errno == errno.EOPNOTSUPP and not MNT, fault
        return False


@case
def data_and_holes_are_found():
    file = opened()
    for at in (0, 256 * KIB, MIB):
        os.pwrite(file, b"x" * 8 * KIB, at)
    os.ftruncate(file, 2 * MIB)
    assert runs(file) == [(at, at + 8 * KIB) for at in (0, 256 * KIB, MIB)], runs(file)
    places = {(0, os.SEEK_DATA): 0, (0, os.SEEK_HOLE): 8 * KIB, (5, os.SEEK_DATA): 5, (5, os.SEEK_HOLE): 8 * KIB,
              (8 * KIB, os.SEEK_DATA): 256 * KIB, (8 * KIB, os.SEEK_HOLE): 8 * KIB,
              (9 * KIB + 7, os.SEEK_HOLE): 9 * KIB + 7, (9 * KIB + 7, os.SEEK_DATA): 256 * KIB,
              (2 * MIB - 1, os.SEEK_HOLE): 2 * MIB - 1}
    for (offset, what), place in places.items():
        assert os.lseek(file, offset, what) == place, (offset, what)
    for what in (os.SEEK_DATA, os.SEEK_HOLE):
        refused(errno.ENXIO, os.lseek, file, 2 * MIB, what)
        refused(errno.ENXIO, os.lseek, file, 2**50, what)
    refused(errno.ENXIO, os.lseek, file, 2 * MIB - 1, os.SEEK_DATA)
    os.close(file)


@case
def the_end_of_a_file_is_a_hole():
    for size in (0, 1, 4095, 4096, 4097, 3 * MIB + 5):
        file = opened()
        os.ftruncate(file, 0)
        os.pwrite(file, b"x" * size, 0)
        assert runs(file) == ([(0, size)] if size else []), (size, runs(file))
        if size:
            assert os.lseek(file, size - 1, os.SEEK_HOLE) == size
        refused(errno.ENXIO, os.lseek, file, size, os.SEEK_HOLE)
        os.close(file)


@case
def a_hole_is_punched():
    file, shadow = opened(), bytearray(os.urandom(MIB + 77))
    os.pwrite(file, shadow, 0)
    for offset, count in ((0, 4096), (8192, 65536), (100_001, 50_000), (300_000, 1), (300_010, 4095), (MIB, 5000),
                          (MIB + 76, 1), (MIB + 77, 100), (2 * MIB, MIB), (500 * KIB, 100 * KIB)):
        punch(file, offset, count)
        end = min(offset + count, len(shadow))
        shadow[offset:end] = bytes(max(0, end - offset))
        assert os.pread(file, 2 * MIB, 0) == shadow, (offset, count)
    assert os.fstat(file).st_size == MIB + 77
    assert os.lseek(file, 500 * KIB, os.SEEK_DATA) == 600 * KIB
    assert os.lseek(file, 400 * KIB, os.SEEK_HOLE) == 500 * KIB
    punch(file, 0, 2**40)
    assert runs(file) == [] and get("file") == bytes(MIB + 77) and stored() == 0
    os.close(file)


@case
def a_hole_behind_which_nothing_is_left():
    """It goes past the end of the file, whose last block is shorter than others."""
    for size, offset in ((77, 0), (4096, 0), (5000, 4096), (MIB + 77, 3 * KIB), (MIB + 77, MIB + 5), (MIB, MIB - 1)):
        put("file", b"x" * size)
        file = opened()
        punch(file, offset, MIB)
        punch(file, offset + 1, 2 * MIB)
        kept = (offset + 4095) // 4096 * 4096
        assert get("file") == b"x" * offset + bytes(size - offset) and os.fstat(file).st_size == size
        assert stored() == kept and all(end <= kept for _, end in runs(file)), (size, offset, stored(), runs(file))
        os.close(file)


@mount_case
def a_hole_up_to_the_very_end():
    """tmpfs keeps a last page that is shorter than others."""
    for size, offset, mode in ((77, 0, PUNCH | KEEP_SIZE), (5000, 4096, PUNCH | KEEP_SIZE), (MIB + 77, 3 * KIB, ZERO),
                               (5000, 2 * KIB, ZERO | KEEP_SIZE)):
        put("file", b"x" * size)
        file = opened()
        allocate(file, mode, offset, size - offset)
        assert get("file") == b"x" * offset + bytes(size - offset)
        assert stored() == (offset + 4095) // 4096 * 4096, (size, offset, stored())
        os.close(file)


@case
def a_hole_is_read_through_what_was_read_before():
    put("file", b"x" * MIB)
    file, other = opened(), opened()
    with mmap.mmap(other, MIB) as memory:
        assert memory[:] == b"x" * MIB
        punch(file, 100 * KIB + 1, 300 * KIB)
        expected = b"x" * (100 * KIB + 1) + bytes(300 * KIB) + b"x" * (MIB - 400 * KIB - 1)
        assert os.pread(other, MIB, 0) == expected == memory[:]
        memory[200 * KIB] = 1
        memory.flush()
    assert os.pread(file, 3, 200 * KIB - 1) == b"\0\x01\0"
    os.close(file)
    os.close(other)


@case
def a_range_is_made_zero():
    file, shadow = opened(), bytearray(os.urandom(200_000))
    os.pwrite(file, shadow, 0)
    for offset, count in ((0, 4096), (5000, 20_000), (40_960, 40_960), (199_999, 1)):
        if not zeroes(file, 0, offset, count):
            return
        shadow[offset : offset + count] = bytes(count)
        assert get("file") == shadow, (offset, count)
    assert zeroes(file, KEEP_SIZE, 199_000, 10_000) and os.fstat(file).st_size == 200_000
    shadow[199_000:] = bytes(1000)
    assert get("file") == shadow
    assert zeroes(file, 0, 190_000, 110_000) and os.fstat(file).st_size == 300_000
    assert get("file") == shadow[:190_000] + bytes(110_000)
    os.close(file)


@case
def room_is_asked_for():
    put("file", b"abc")
    file = opened()
    allocate(file, KEEP_SIZE, 0, MIB)
    assert os.fstat(file).st_size == 3 and get("file") == b"abc"
    allocate(file, 0, 0, 2)
    assert get("file") == b"abc"
    allocate(file, 0, 1, 9999)
    assert get("file") == b"abc" + bytes(9997)
    os.ftruncate(file, 2)
    os.ftruncate(file, 5000)
    assert get("file") == b"ab" + bytes(4998)
    os.close(file)


@case
def what_fallocate_refuses():
    put("file", b"abc")
    file = opened()
    for mode in (COLLAPSE, INSERT, PUNCH):
        try:
            allocate(file, mode, 0, 4096)
        except OSError as fault:
            assert fault.errno in (errno.EOPNOTSUPP, errno.EINVAL), fault
        else:
            raise AssertionError(mode)
    refused(errno.EINVAL, allocate, file, 0, 0, 0)
    refused(errno.EINVAL, allocate, file, PUNCH | KEEP_SIZE, -1, 5)
    reads = os.open("file", os.O_RDONLY)
    refused(errno.EBADF, punch, reads, 0, 1)
    assert get("file") == b"abc"
    os.close(file)
    os.close(reads)


@case
def what_is_stored_is_reported():
    file = opened()
    assert stored() == 0
    os.ftruncate(file, 2**33)
    assert stored() == 0
    os.pwrite(file, b"x" * MIB, 2**32)
    assert stored() == MIB
    os.pwrite(file, b"x", 2**31)
    assert stored() == MIB + 4096
    punch(file, 2**32, MIB // 2)
    assert stored() == MIB // 2 + 4096
    os.ftruncate(file, 2**31 + 1)
    assert 1 <= stored() <= 4096
    os.rename("file", "moved")
    os.link("moved", "file")
    assert stored("moved") == stored("file") == stored(".") - os.lstat(".").st_blocks * 512 > 0
    os.ftruncate(file, 0)
    assert stored() == 0
    os.close(file)


@case
def copies_keep_holes():
    file = opened()
    os.ftruncate(file, 64 * MIB)
    for at in (3 * MIB, 40 * MIB):
        os.pwrite(file, os.urandom(100_000), at)
    for words in (["--sparse=always"], ["--sparse=auto"], ["-a"]):
        subprocess.run(["cp", *words, "file", "copy"], check=True)
        assert get("copy") == get("file") and stored("copy") <= MIB, (words, stored("copy"))
        os.unlink("copy")
    subprocess.run(["tar", "-Scf", "tar", "file"], check=True)
    assert os.stat("tar").st_size < MIB
    expected = get("file")
    os.unlink("file")
    subprocess.run(["tar", "-xf", "tar"], check=True)
    assert get("file") == expected and stored() <= MIB
    os.close(file)


@case
def zeros_are_dug_out():
    put("file", os.urandom(MIB) + bytes(4 * MIB) + os.urandom(MIB))
    expected = get("file")
    subprocess.run(["fallocate", "--dig-holes", "file"], check=True)
    assert get("file") == expected and stored() == 2 * MIB, stored()
    subprocess.run(["fallocate", "--punch-hole", "--offset", "0", "--length", "1MiB", "file"], check=True)
    assert get("file") == bytes(5 * MIB) + expected[5 * MIB :] and stored() == MIB


def change_at_random(file: int, shadow: bytearray, chance: random.Random) -> bytearray:
    offset, count, what = chance.randrange(600_000), chance.randrange(1, 90_000), chance.randrange(6)
    if what == 0:
        os.ftruncate(file, offset)
        return shadow[:offset] + bytes(max(0, offset - len(shadow)))
    if what <= 3:
        data = chance.randbytes(count) if what < 3 else bytes(count)
        os.pwrite(file, data, offset)
        shadow += bytes(max(0, offset + count - len(shadow)))
        shadow[offset : offset + count] = data
        return shadow
    if what == 4:
        offset, count = offset // 4096 * 4096, count // 4096 * 4096 + 4096
    punch(file, offset, count)
    end = min(offset + count, len(shadow))
    shadow[offset:end] = bytes(max(0, end - offset))
    return shadow


@case
def random_holes_beside_a_shadow():
    for seed in range(4):
        chance, shadow, file = random.Random(seed), bytearray(), opened()
        os.ftruncate(file, 0)
        for _ in range(250):
            shadow = change_at_random(file, shadow, chance)
            assert os.pread(file, MIB, 0) == shadow, seed
            end = 0
            for begin, next_end in runs(file):
                assert not any(shadow[end:begin]), (seed, end, begin)
                end = next_end
            assert not any(shadow[end:]), (seed, end)
            assert os.fstat(file).st_blocks * 512 <= len(shadow) + 4095
        os.close(file)


run_cases()
