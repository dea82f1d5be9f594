"""Functions of Python's `os` in the folder that it is started in."""
import ctypes
import errno
import fcntl
import mmap
import os
import random
import shutil
import stat
import subprocess
import sys
import tempfile
import threading
import traceback

from cases import case, get, put, refused, run_cases


@case
def folders_are_made_and_taken_away():
    os.mkdir("one")
    os.makedirs("a/b/c")
    refused(errno.EEXIST, os.mkdir, "a")
    refused(errno.ENOENT, os.mkdir, "none/x")
    os.removedirs("a/b/c")
    os.rmdir("one")
    refused(errno.ENOENT, os.rmdir, "one")


@case
def bytes_are_written_and_read():
    put("file", b"0123456789")
    with open("file", "ab") as file:
        file.write(b"AB")
    with open("file", "r+b") as file:
        file.seek(3)
        file.write(b"xyz")
        file.seek(20)
        file.write(b"!")
        file.truncate(25)
    assert get("file") == b"012xyz6789AB" + bytes(8) + b"!" + bytes(4)
    os.truncate("file", 2)
    assert get("file") == b"01"


@case
def ways_to_open():
    os.close(os.open("file", os.O_CREAT | os.O_EXCL | os.O_WRONLY))
    refused(errno.EEXIST, os.open, "file", os.O_CREAT | os.O_EXCL | os.O_WRONLY)
    put("file", b"abc")
    os.close(os.open("file", os.O_WRONLY | os.O_TRUNC))
    assert get("file") == b""
    refused(errno.ENOTDIR, os.open, "file", os.O_RDONLY | os.O_DIRECTORY)
    refused(errno.EISDIR, os.open, ".", os.O_WRONLY)


@case
def renames():
    put("x", b"x")
    put("y", b"y")
    os.rename("x", "y")
    assert get("y") == b"x"
    os.makedirs("folder/below")
    put("folder/below/file", b"f")
    refused(errno.EINVAL, os.rename, "folder", "folder/below/g")
    refused(errno.EISDIR, os.rename, "y", "folder")
    refused(errno.ENOTDIR, os.rename, "folder", "y")
    refused(errno.ENOENT, os.rename, "none", "z")
    os.mkdir("empty")
    os.rename("folder", "empty")
    assert get("empty/below/file") == b"f"
    os.mkdir("other")
    refused(errno.ENOTEMPTY, os.rename, "other", "empty")


@case
def kinds_that_do_not_fit():
    os.mkdir("folder")
    put("folder/file", b"")
    refused(errno.EISDIR, os.unlink, "folder")
    refused(errno.ENOTDIR, os.rmdir, "folder/file")
    refused(errno.ENOTEMPTY, os.rmdir, "folder")
    refused(errno.ENOTDIR, os.stat, "folder/file/x")


@case
def an_unlinked_file_lives_while_it_is_open():
    os.mkdir("folder")
    with open("folder/file", "w+b") as file:
        file.write(b"abc")
        file.flush()
        os.unlink("folder/file")
        refused(errno.ENOENT, os.stat, "folder/file")
        os.rmdir("folder")
        file.write(b"def")
        file.seek(0)
        assert file.read() == b"abcdef"
        reported = os.fstat(file.fileno())
        assert (reported.st_nlink, reported.st_size) == (0, 6), reported
        assert os.listdir(".") == []


@case
def a_replaced_file_lives_while_it_is_open():
    put("old", b"old")
    put("new", b"new")
    with open("old", "rb") as file:
        os.rename("new", "old")
        assert file.read() == b"old"
        assert get("old") == b"new"


@case
def a_file_is_open_while_its_folder_is_renamed():
    os.makedirs("one/two")
    with open("one/two/file", "wb", buffering=0) as file:
        file.write(b"abc")
        os.rename("one", "three")
        file.write(b"def")
    assert get("three/two/file") == b"abcdef"


@case
def an_unlinked_file_is_looked_at_by_its_descriptor():
    put("file", b"abc")
    file = os.open("file", os.O_PATH)
    os.unlink("file")
    put("file", b"another")
    reported = os.fstat(file)
    assert (reported.st_nlink, reported.st_size) == (0, 3), reported
    assert get(f"/proc/self/fd/{file}") == b"abc"
    os.close(file)
    assert get("file") == b"another"


@case
def a_listing_goes_on_behind_names_that_are_gone():
    os.mkdir("folder")
    names = [f"{i:04}" for i in range(1200)]
    for name in names:
        put(f"folder/{name}")
    gone = names[300:900]
    with os.scandir("folder") as listing:
        found = [next(listing).name]
        for name in gone:
            os.unlink(f"folder/{name}")
        found += [entry.name for entry in listing]
    assert len(found) == len(set(found)) and set(found) >= set(names) - set(gone), len(found)


def modified(name: str) -> str:
    """The time of modification as the file system has it, whatever the kernel knows."""
    command = ["stat", "--cached=never", "-c", "%.9Y", name]
    return subprocess.run(command, capture_output=True, text=True, check=True).stdout.strip()


@case
def a_new_file_keeps_its_time():
    for name in ("new", "new"):
        file = os.open(name, os.O_CREAT | os.O_TRUNC | os.O_WRONLY, 0o644)
        reported = os.fstat(file).st_mtime_ns
        os.close(file)
        assert modified(name) == f"{reported // 10**9}.{reported % 10**9:09}"


@case
def a_file_that_is_opened_to_be_read_is_cut():
    put("file", b"abc")
    os.close(os.open("file", os.O_RDONLY | os.O_TRUNC))
    assert (get("file"), os.stat("file").st_size) == (b"", 0)


@case
def a_folder_hands_its_group_on():
    os.mkdir("folder")
    if os.getuid() == 0:
        os.chown("folder", 0, 1)
    os.chmod("folder", 0o2775)
    put("folder/file", b"")
    os.mkdir("folder/below")
    group = os.stat("folder").st_gid
    assert [os.stat(f"folder/{name}").st_gid for name in ("file", "below")] == [group, group]
    assert os.stat("folder/below").st_mode & stat.S_ISGID
    assert not os.stat("folder/file").st_mode & stat.S_ISGID
    put("folder/below/file", b"")
    assert os.stat("folder/below/file").st_gid == group


@case
def attributes_are_kept():
    put("file", b"")
    os.chmod("file", 0o640)
    os.utime("file", ns=(5_000_000_001, 7_000_000_002))
    if os.getuid() == 0:
        os.chown("file", 1, 2)
    os.rename("file", "moved")
    reported = os.stat("moved")
    assert stat.S_IMODE(reported.st_mode) == 0o640
    assert (reported.st_atime_ns, reported.st_mtime_ns) == (5_000_000_001, 7_000_000_002)
    assert os.getuid() or (reported.st_uid, reported.st_gid) == (1, 2)
    put("moved", b"b")
    assert os.stat("moved").st_mtime > 1e9


@case
def a_folder_changes_with_its_names():
    os.mkdir("folder")
    os.utime("folder", (5, 7))
    put("folder/file", b"")
    assert os.stat("folder").st_mtime > 1e9
    os.utime("folder", (5, 7))
    os.remove("folder/file")
    assert os.stat("folder").st_mtime > 1e9


@case
def extended_attributes():
    put("file", b"")
    os.setxattr("file", "user.one", b"1")
    os.setxattr("file", "user.two", bytes(1000))
    refused(errno.EEXIST, os.setxattr, "file", "user.one", b"2", os.XATTR_CREATE)
    assert sorted(os.listxattr("file")) == ["user.one", "user.two"]
    assert os.getxattr("file", "user.two") == bytes(1000)
    os.removexattr("file", "user.two")
    refused(errno.ENODATA, os.getxattr, "file", "user.two")
    os.rename("file", "moved")
    assert os.getxattr("moved", "user.one") == b"1"


@case
def a_thousand_names():
    for i in range(1000):
        put(f"{i:04}", b"")
    assert sorted(os.listdir(".")) == [f"{i:04}" for i in range(1000)]
    assert all(entry.is_file() and entry.stat().st_size == 0 for entry in os.scandir("."))


@case
def numbers_in_a_listing_are_those_of_the_files():
    for i in range(1500):
        put(f"a rather long name of a file, so that pages are many: {i:04}", b"")
    for _ in range(2):
        reported = {entry.name: entry.inode() for entry in os.scandir(".")}
        assert reported == {name: os.stat(name).st_ino for name in reported}
    assert len(reported) == 1500


def names_from(folder: int, place: int) -> list[bytes]:
    """The names of the first page of a listing from a place on."""
    page, names, at = ctypes.create_string_buffer(1 << 16), [], 0
    os.lseek(folder, place, os.SEEK_SET)
    count = ctypes.CDLL(None).getdents64(folder, page, len(page))
    assert count >= 0
    while at < count:
        length = int.from_bytes(page.raw[at + 16 : at + 18], sys.byteorder)
        names.append(page.raw[at + 19 : at + length].split(b"\0")[0])
        at += length
    return names


@case
def any_place_in_a_listing():
    names = {b"q%d" % i + b"x" * i for i in range(20)}
    for name in names:
        put(name, b"")
    folder = os.open(".", os.O_RDONLY)
    assert set(names_from(folder, 0)) == names | {b".", b".."}
    size = sum(len(name) + 2 for name in names) + 2
    for place in [*range(size + 10), 2**31, 2**62]:
        assert set(names_from(folder, place)) <= names | {b".", b".."}, place
    os.close(folder)


@case
def bytes_in_names():
    for name in (b"a b", b"%41", b"\xff\xfe", b"tab\tline\n", b"-", b"#", b"@", b"q" * 255):
        put(name, name)
        assert get(name) == name
        assert os.listdir(b".") == [name]
        os.remove(name)
    refused(errno.ENAMETOOLONG, put, b"q" * 256, b"")


@case
def long_paths():
    name = "d" * 200
    os.makedirs("/".join([name] * 4))
    os.chdir("/".join([name] * 4))
    refused(errno.ENAMETOOLONG, os.mkdir, "e" * 250)
    os.chdir("../../../..")


@case
def locks():
    with open("file", "w") as one, open("file", "w") as two:
        fcntl.flock(one, fcntl.LOCK_EX)
        refused(errno.EAGAIN, fcntl.flock, two, fcntl.LOCK_EX | fcntl.LOCK_NB)
        fcntl.flock(one, fcntl.LOCK_UN)
        fcntl.flock(two, fcntl.LOCK_EX)
        fcntl.lockf(one, fcntl.LOCK_EX)


@case
def mapped_memory():
    put("file", bytes(10000))
    with open("file", "r+b") as file, mmap.mmap(file.fileno(), 0) as memory:
        memory[4090:4100] = b"0123456789"
        memory.flush()
    assert get("file")[4085:4105] == bytes(5) + b"0123456789" + bytes(5)


@case
def calls_of_linux():
    with open("one", "w+b") as one, open("two", "w+b") as two:
        one.write(b"abc" * 1000)
        one.flush()
        os.fsync(one.fileno())
        os.fdatasync(one.fileno())
        os.posix_fallocate(one.fileno(), 0, 5000)
        assert os.stat("one").st_size == 5000
        assert os.copy_file_range(one.fileno(), two.fileno(), 3000, 0) == 3000
    assert get("two") == b"abc" * 1000
    shutil.copyfile("two", "three")
    assert get("three") == get("two")
    assert os.statvfs(".").f_namemax == 255


@case
def the_greatest_file():
    put("file", b"")
    os.truncate("file", 2**40)
    refused(errno.EFBIG, os.truncate, "file", 2**40 + 1)
    with open("file", "r+b", buffering=0) as file:
        os.pwrite(file.fileno(), b"z", 2**40 - 1)
        assert os.pread(file.fileno(), 5, 2**40 - 2) == b"\0z"
        refused(errno.EFBIG, os.pwrite, file.fileno(), b"z", 2**40)


@case
def temporary_files():
    with tempfile.TemporaryDirectory(dir=".") as folder:
        with tempfile.NamedTemporaryFile(dir=folder) as file:
            file.write(b"a")
            file.flush()
            assert get(file.name) == b"a"
        with tempfile.TemporaryFile(dir=folder) as file:
            file.write(b"a")
            file.seek(0)
            assert file.read() == b"a"


def write_at_random(seed: int, faults: list[str]) -> None:
    chance, shadow = random.Random(seed), bytearray()
    file = os.open(f"random{seed}", os.O_CREAT | os.O_RDWR)
    try:
        for _ in range(300):
            offset, count, what = chance.randrange(60000), chance.randrange(1, 9000), chance.randrange(4)
            if what == 0:
                os.ftruncate(file, offset)
                shadow = shadow[:offset] + bytes(max(0, offset - len(shadow)))
            elif what == 1:
                data = chance.randbytes(count)
                os.pwrite(file, data, offset)
                shadow += bytes(max(0, offset + count - len(shadow)))
                shadow[offset : offset + count] = data
            else:
                assert os.pread(file, count, offset) == shadow[offset : offset + count]
        assert get(f"random{seed}") == shadow
    except BaseException:
        faults.append(traceback.format_exc())
    finally:
        os.close(file)


@case
def four_threads_beside_a_shadow():
    faults: list[str] = []
    threads = [threading.Thread(target=write_at_random, args=(seed, faults)) for seed in range(4)]
    for thread in threads:
        thread.start()
    for thread in threads:
        thread.join()
    assert not faults, faults[0]


run_cases()
