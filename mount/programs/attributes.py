"""Modes, owners, times and extended attributes in the folder that it is started in."""
import errno
import os
import shutil
import stat
import subprocess
import tempfile
from collections.abc import Callable

from cases import CAPABILITY, MNT, case, get, mount_case, put, refused, root_case, run_cases

MOMENTS = (0, 1, 999_999_999, 10**9, 1_234_567_890_123_456_789, 2**31 * 10**9 - 1, 2**31 * 10**9, 2**33 * 10**9 + 7)


def mode(name) -> int:
    return stat.S_IMODE(os.lstat(name).st_mode)


def owner(name) -> tuple[int, int]:
    reported = os.lstat(name)
    return reported.st_uid, reported.st_gid


def modified(name) -> int:
    """The time of modification as the file system has it, whatever the kernel knows."""
    command = ["stat", "--cached=never", "-c", "%.9Y", "--", name]
    return int(subprocess.run(command, capture_output=True, check=True).stdout.replace(b".", b""))


def extended(name) -> dict[str, bytes]:
    names = [each for each in os.listxattr(name) if each.startswith("user.")]
    return {each: os.getxattr(name, each) for each in names}


def mark(name, number: int = 0) -> None:
    """Gives an entry attributes of every kind."""
    os.chmod(name, 0o700 | number % 0o100)
    os.setxattr(name, "user.number", b"%d" % number)
    if os.getuid() == 0:
        os.chown(name, number + 1, number + 2)
    os.utime(name, ns=(5, 7 + number))


def is_marked(name, number: int = 0) -> bool:
    owned = os.getuid() != 0 or owner(name) == (number + 1, number + 2)
    reported = (mode(name), extended(name), modified(name))
    return owned and reported == (0o700 | number % 0o100, {"user.number": b"%d" % number}, 7 + number)


def is_usual(name, usual: int = 0o644) -> bool:
    reported = (mode(name), owner(name), extended(name))
    return reported == (usual, (os.getuid(), os.getgid()), {}) and modified(name) > 10**18


@case
def every_mode():
    put("file")
    os.mkdir("folder")
    for number in range(0o10000):
        for name in ("file", "folder"):
            os.chmod(name, number)
            assert mode(name) == number, (name, oct(mode(name)), oct(number))


@case
def modes_of_new_entries():
    for mask in (0, 0o022, 0o077, 0o777):
        before = os.umask(mask)
        os.close(os.open(f"file{mask}", os.O_CREAT | os.O_WRONLY, 0o6666))
        os.mkdir(f"folder{mask}", 0o1777)
        os.umask(before)
        assert mode(f"file{mask}") == 0o6666 & ~mask, oct(mode(f"file{mask}"))
        assert mode(f"folder{mask}") == 0o1777 & ~mask, oct(mode(f"folder{mask}"))


@root_case
def owners():
    put("file")
    os.mkdir("folder")
    for name in ("file", "folder"):
        for user, group in ((1, 2), (0, 3), (65534, 0), (2**32 - 2, 2**32 - 2), (0, 0)):
            os.chown(name, user, group)
            assert owner(name) == (user, group)
        os.chown(name, 5, -1)
        os.chown(name, -1, 6)
        assert owner(name) == (5, 6)


@root_case
def another_owner_takes_the_set_user_bits():
    put("file")
    os.chmod("file", 0o6755)
    os.chown("file", 1, 1)
    assert (mode("file"), owner("file")) == (0o755, (1, 1)), oct(mode("file"))


CHANGES = ("echo x >> file", "echo x 1<> file", ": > file", "truncate -s 1 file", "fallocate -l 9 file",
           "fallocate -p -l 2 file", "dd if=/dev/zero of=file bs=4096 count=1 oflag=direct conv=notrunc status=none")
WITHOUT_FSETID = ("setpriv", "--inh-caps=-fsetid", "--bounding-set=-fsetid")


def mode_behind(command: str, before: int, *words: str) -> int:
    """The mode that a file has once a shell changed it, by a program that may not have all capabilities."""
    put("file", b"abc")
    os.chmod("file", before)
    subprocess.run([*words, "sh", "-c", command], check=True)
    asked = subprocess.run(["stat", "-c", "%a", "file"], capture_output=True, check=True)  # for the mode alone
    told = int(asked.stdout, 8)
    assert told == mode("file"), (command, oct(told), oct(mode("file")))
    return told


@root_case
def a_write_of_others_takes_the_set_user_bits():
    for command in CHANGES:
        for before, after in ((0o6777, 0o777), (0o6767, 0o2767), (0o4755, 0o755), (0o2755, 0o755), (0o2644, 0o2644)):
            told = mode_behind(command, before, *WITHOUT_FSETID)
            assert told == after, (command, oct(before), oct(told))


@root_case
def a_write_of_root_leaves_the_set_user_bits():
    for command in CHANGES:
        assert mode_behind(command, 0o6777) == 0o6777, (command, oct(mode("file")))


@root_case
def each_write_takes_the_set_user_bits_again():
    """Also by a file that was open before, and behind a write that found none."""
    put("file", b"abc")
    with open("file", "r+b", buffering=0) as file:
        file.write(b"a")
        os.chmod("file", 0o4755)
        subprocess.run([*WITHOUT_FSETID, "echo", "x"], stdout=file, check=True)
        assert mode("file") == 0o755, oct(mode("file"))
        os.chmod("file", 0o4755)
        file.write(b"b")
        assert mode("file") == 0o4755, oct(mode("file"))


@root_case
def a_change_takes_the_capability():
    for number, command in enumerate(CHANGES + ("chown 1 file", "chgrp 1 file")):
        put("file", b"abc")
        os.chown("file", 0, 0)
        with open("file", "r+b", buffering=0) as file:
            file.write(b"a")
            os.setxattr("file", "user.a", b"b")
            os.setxattr("file", "security.capability", CAPABILITY)
            assert os.getxattr("file", "security.capability") == CAPABILITY
            if number:
                subprocess.run(["sh", "-c", command], check=True)
            else:
                file.write(b"c")
        refused(errno.ENODATA, os.getxattr, "file", "security.capability")
        assert extended("file") == {"user.a": b"b"}, command
        os.removexattr("file", "user.a")


@case
def times_that_are_set():
    put("file")
    os.mkdir("folder")
    for name in ("file", "folder"):
        for moment in MOMENTS:
            os.utime(name, ns=(moment, moment))
            assert modified(name) == moment == os.stat(name).st_mtime_ns, (name, modified(name), moment)


@case
def a_time_that_is_set_stands_until_a_change():
    put("file", b"abc")
    os.utime("file", ns=(5, 7))
    os.chmod("file", 0o600)
    os.rename("file", "moved")
    os.setxattr("moved", "user.a", b"b")
    assert get("moved") == b"abc" and modified("moved") == 7
    for change, *words in ((put, b"d"), (os.truncate, 9), (os.utime,)):
        os.utime("moved", ns=(5, 7))
        change("moved", *words)
        assert modified("moved") > 10**18


@case
def a_time_of_a_folder_stands_until_a_name_comes_or_goes():
    os.mkdir("folder")
    changes: list[Callable[[], None]] = [
        lambda: put("folder/a"), lambda: os.rename("folder/a", "folder/b"), lambda: os.mkdir("folder/below"),
        lambda: os.rename("folder/b", "out"), lambda: os.rename("out", "folder/c"), lambda: os.rmdir("folder/below"),
        lambda: os.unlink("folder/c")]
    for number, change in enumerate(changes):
        os.utime("folder", ns=(5, 7))
        change()
        assert modified("folder") > 10**18, number
    put("folder/file")
    os.utime("folder", ns=(5, 7))
    mark("folder/file")
    put("folder/file", b"abc")
    assert modified("folder") == 7


@case
def one_time_alone():
    put("file")
    os.utime("file", ns=(5, 7))
    subprocess.run(["touch", "-a", "-d", "@11", "file"], check=True)
    assert (os.stat("file").st_atime_ns, modified("file")) == (11 * 10**9, 7)
    subprocess.run(["touch", "-m", "-d", "@13", "file"], check=True)
    assert (os.stat("file").st_atime_ns, modified("file")) == (11 * 10**9, 13 * 10**9)


@case
def values_of_every_size():
    put("file")
    os.mkdir("folder")
    for name in ("file", "folder"):
        for size in (0, 1, 255, 256, 4095, 4096, 4097, 65535, 65536):
            value = bytes(range(256)) * 256
            os.setxattr(name, "user.value", value[:size])
            assert extended(name) == {"user.value": value[:size]}, size
        refused(errno.E2BIG, os.setxattr, name, "user.value", bytes(65537))
        os.setxattr(name, "user.value", b"")
        os.setxattr(name, "user.value", b"", os.XATTR_REPLACE)
        assert extended(name) == {"user.value": b""}
        os.removexattr(name, "user.value")
        assert extended(name) == {}
        refused(errno.ENODATA, os.removexattr, name, "user.value")
        refused(errno.ENODATA, os.setxattr, name, "user.value", b"", os.XATTR_REPLACE)


@case
def names_of_every_kind():
    put("file")
    names = ["user.a b", "user.\n", "user.%41", "user.\x01", "user.=", "user.ü", "user.\udcff", "user." + "n" * 250]
    for name in names:
        os.setxattr("file", name, os.fsencode(name))
    assert extended("file") == {name: os.fsencode(name) for name in names}
    refused(errno.ERANGE, os.setxattr, "file", "user." + "n" * 251, b"")
    refused(errno.EOPNOTSUPP, os.setxattr, "file", "none.a", b"")
    for name in names:
        os.removexattr("file", name)
    assert extended("file") == {}


@case
def five_hundred_values():
    put("file")
    for number in range(500):
        os.setxattr("file", f"user.{number}", b"%d" % number * 20)
    for number in range(0, 500, 2):
        os.removexattr("file", f"user.{number}")
    assert extended("file") == {f"user.{number}": b"%d" % number * 20 for number in range(1, 500, 2)}


@case
def a_rename_takes_them_along():
    put("file")
    os.makedirs("one/two/three")
    for number, name in enumerate(("file", "one", "one/two", "one/two/three")):
        mark(name, number)
    os.rename("file", "moved")
    put("one/two/three/file")
    mark("one/two/three/file", 9)
    os.utime("one/two/three", ns=(5, 10))
    os.rename("one", "other")
    reported = {"moved": 0, "other": 1, "other/two": 2, "other/two/three": 3, "other/two/three/file": 9}
    for name, number in reported.items():
        assert is_marked(name, number), name
    os.makedirs("one/two/three")
    put("one/two/three/file")
    put("file")
    for name in ("one", "one/two", "one/two/three"):
        assert is_usual(name, 0o755), name
    assert is_usual("file") and is_usual("one/two/three/file")


@case
def a_rename_over_another():
    for name, number in (("one", 1), ("two", 2), ("three", 3)):
        put(name)
        mark(name, number)
    put("usual")
    os.rename("one", "two")
    assert is_marked("two", 1)
    os.rename("usual", "two")
    assert is_usual("two")
    os.mkdir("folder")
    os.mkdir("empty")
    mark("empty", 4)
    os.rename("folder", "empty")
    assert is_usual("empty", 0o755)


@case
def an_entry_that_is_made_again_has_no_old_ones():
    for _ in range(2):
        put("file")
        os.makedirs("folder/below")
        put("folder/below/file")
        for name in ("file", "folder", "folder/below", "folder/below/file"):
            assert is_usual(name, 0o755 if os.path.isdir(name) else 0o644), name
            mark(name, 3)
        os.unlink("file")
        shutil.rmtree("folder")
    os.mkdir("file")
    put("folder")
    assert is_usual("file", 0o755) and is_usual("folder")


@case
def attributes_of_a_file_without_a_name():
    put("file", b"abc")
    with open("file", "r+b") as file:
        os.unlink("file")
        put("file")
        os.fchmod(file.fileno(), 0o4711)
        os.setxattr(file.fileno(), "user.a", b"b")
        os.utime(file.fileno(), ns=(5, 7))
        reported = os.fstat(file.fileno())
        assert (stat.S_IMODE(reported.st_mode), reported.st_mtime_ns, reported.st_nlink) == (0o4711, 7, 0)
        assert os.getxattr(file.fileno(), "user.a") == b"b"
        assert is_usual("file")


@case
def names_that_begin_with_byte_1():
    names = [b"\x01", b"\x01\x01", b"\x01\x01\x01", b"\x01a", b"a", b"a\x01", b"\x02"]
    os.mkdir("folder")
    mark("folder", 1)
    for top in (b"folder", b"folder/\x01d", b"folder/d"):
        if top != b"folder":
            os.mkdir(top)
        for number, name in enumerate(names):
            put(top + b"/" + name, name)
            mark(top + b"/" + name, number)
    for top in (b"folder", b"folder/\x01d", b"folder/d"):
        assert set(names) <= set(os.listdir(top))
        for number, name in enumerate(names):
            assert get(top + b"/" + name) == name and is_marked(top + b"/" + name, number), (top, name)
    os.unlink(b"folder/\x01")
    assert mode("folder") == 0o701 and is_marked(b"folder/\x01\x01", 1) and is_marked(b"folder/\x01d/\x01", 0)
    os.rename(b"folder/\x01d", b"folder/\x01")
    for number, name in enumerate(names):
        assert is_marked(b"folder/\x01/" + name, number), name


def path_of(length: int, name: bytes = b"") -> bytes:
    """A path of a length from the root of the mount on, with folders that are made, and a last name."""
    here = len(os.fsencode(os.getcwd())) - len(MNT)
    rest, path = length - here, b""
    while rest > 256 + len(name):
        path, rest = path + b"d" * 200 + b"/", rest - 201
    os.makedirs(path, exist_ok=True)
    return path + name + b"e" * (rest - 1 - len(name))


LONGEST = 1003  # of a path: what remains of 1,023 once its record has its own


def makes() -> list[Callable[[bytes], None]]:
    put("other")
    return [put, os.mkdir, lambda path: os.symlink(b"target", path), lambda path: os.link("other", path), os.mkfifo]


@mount_case
def the_longest_path():
    for make in makes():
        path = path_of(LONGEST)
        make(path)
        if os.path.isfile(path) or os.path.isdir(path):
            mark(path, 3)
            assert is_marked(path, 3)
        os.rename(path, b"short")
        os.rename(b"short", path)
        refused(errno.ENAMETOOLONG, make, path_of(LONGEST + 1))
        refused(errno.ENAMETOOLONG, os.rename, path, path_of(LONGEST + 1))
        os.rmdir(path) if os.path.isdir(path) else os.unlink(path)
        make(path_of(LONGEST - 1, b"\x01"))
        refused(errno.ENAMETOOLONG, make, path_of(LONGEST, b"\x01"))
        shutil.rmtree(b"d" * 200)


@mount_case
def the_longest_name():
    for make in makes():
        for name in (b"n" * 255, b"\x01" + b"n" * 253):
            make(name)
            assert name in os.listdir(b".")
            os.rmdir(name) if os.path.isdir(name) and not os.path.islink(name) else os.unlink(name)
        refused(errno.ENAMETOOLONG, make, b"\x01" + b"n" * 254)
        make(b"one")
        refused(errno.ENAMETOOLONG, os.rename, b"one", b"\x01" + b"n" * 254)
        os.rmdir(b"one") if os.path.isdir(b"one") else os.unlink(b"one")


@mount_case
def a_rename_that_makes_a_path_too_long():
    os.makedirs(b"one/" + b"f" * 200)
    put(b"one/" + b"f" * 200 + b"/file")
    mark(b"one/" + b"f" * 200 + b"/file", 1)
    for over, done in ((0, True), (1, False)):
        to = path_of(LONGEST - 206 + over)
        if done:
            os.rename("one", to)
            assert is_marked(to + b"/" + b"f" * 200 + b"/file", 1)
            os.rename(to, "one")
        else:
            refused(errno.ENAMETOOLONG, os.rename, "one", to)
            assert not os.path.lexists(to)
    assert is_marked(b"one/" + b"f" * 200 + b"/file", 1)


@case
def temporary_files_without_a_name():
    """O_TMPFILE: refused on the mount, and programs do without."""
    with tempfile.TemporaryFile(dir=".") as file:
        file.write(b"abc")
        assert os.fstat(file.fileno()).st_nlink == 0
    if MNT:
        refused(errno.EOPNOTSUPP, os.open, ".", os.O_TMPFILE | os.O_RDWR)


@mount_case
def access_control_lists():
    put("file")
    user, group, other = (b"%c\0%c\0\xff\xff\xff\xff" % (tag, 6) for tag in (1, 4, 32))
    value = b"\x02\0\0\0" + user + group + other
    refused(errno.EOPNOTSUPP, os.setxattr, "file", "system.posix_acl_access", value)
    refused(errno.EOPNOTSUPP, os.getxattr, "file", "system.posix_acl_access")


run_cases()
