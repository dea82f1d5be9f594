"""Files with more than one name, in the folder that it is started in."""
import errno
import mmap
import os
import shutil
import socket
import stat

from cases import case, get, put, refused, run_cases


def names_of(name) -> int:
    return os.lstat(name).st_nlink


def are_one(*names) -> bool:
    """Whether these are names of one file, and it has no others."""
    reported = [os.lstat(name) for name in names]
    return len({each.st_ino for each in reported}) == 1 and {each.st_nlink for each in reported} == {len(names)}


def name_open(file: int, name: str) -> None:
    """Gives an open file one more name."""
    folder = os.open(".", os.O_PATH)
    try:
        os.link(f"/proc/self/fd/{file}", name, dst_dir_fd=folder, follow_symlinks=True)
    finally:
        os.close(folder)


@case
def a_file_of_two_names():
    put("one", b"abc")
    os.link("one", "two")
    assert are_one("one", "two") and get("two") == b"abc"
    put("two", b"defg")
    assert get("one") == b"defg" and os.stat("one").st_size == 4
    with open("one", "ab") as one, open("two", "rb") as two:
        one.write(b"h")
        one.flush()
        assert two.read() == b"defgh"
    os.truncate("one", 1)
    assert get("two") == b"d"
    os.unlink("one")
    assert are_one("two") and get("two") == b"d"
    refused(errno.ENOENT, os.stat, "one")
    os.unlink("two")
    assert os.listdir(".") == []


@case
def names_in_many_folders():
    put("file", b"abc")
    names = ["file"]
    for number in range(30):
        os.makedirs(f"folder{number}/below")
        names.append(f"folder{number}/below/name{number}")
        os.link(names[number // 2], names[-1])
    assert are_one(*names)
    os.rename("folder3", "moved")
    names[4] = "moved/below/name3"
    put(names[4], b"new")
    assert are_one(*names) and {get(name) for name in names} == {b"new"}
    for name in names[::2]:
        os.unlink(name)
    assert are_one(*names[1::2]) and {get(name) for name in names[1::2]} == {b"new"}
    shutil.rmtree("folder0")
    assert are_one(*names[3::2])


@case
def a_thousand_names():
    put("0", b"abc")
    for number in range(1, 1000):
        os.link("0", str(number))
    assert are_one(*map(str, range(1000)))
    for number in range(999):
        os.unlink(str(number))
    assert are_one("999") and get("999") == b"abc"


@case
def what_cannot_have_a_second_name():
    os.mkdir("folder")
    put("file")
    put("other")
    refused(errno.EPERM, os.link, "folder", "two")
    refused(errno.EEXIST, os.link, "file", "other")
    refused(errno.EEXIST, os.link, "file", "file")
    refused(errno.EEXIST, os.link, "file", "folder")
    refused(errno.ENOENT, os.link, "none", "two")
    refused(errno.ENOENT, os.link, "file", "none/two")
    refused(errno.ENOTDIR, os.link, "file", "other/two")
    assert are_one("file") and sorted(os.listdir(".")) == ["file", "folder", "other"]


@case
def attributes_are_of_the_file():
    put("one", b"abc")
    os.chmod("one", 0o600)
    os.setxattr("one", "user.before", b"1")
    os.utime("one", ns=(5, 7))
    os.link("one", "two")
    assert os.lstat("two").st_mtime_ns == 7 == os.lstat("one").st_mtime_ns
    os.chmod("two", 0o4711)
    os.setxattr("two", "user.after", b"2")
    if os.getuid() == 0:
        os.chown("one", 3, 4)
        os.chmod("one", 0o4711)
    os.utime("two", ns=(5, 11))
    for name in ("one", "two"):
        reported = os.lstat(name)
        assert (reported.st_mode, reported.st_mtime_ns) == (stat.S_IFREG | 0o4711, 11), name
        assert os.getuid() or (reported.st_uid, reported.st_gid) == (3, 4)
        assert sorted(os.listxattr(name)) == ["user.after", "user.before"]
    os.unlink("one")
    put("one")
    reported = os.lstat("one")
    assert reported.st_mode == stat.S_IFREG | 0o644 and os.listxattr("one") == [] and reported.st_uid == os.getuid()
    assert os.lstat("two").st_mode == stat.S_IFREG | 0o4711 and os.lstat("two").st_mtime_ns == 11


@case
def a_rename_over_its_own_other_name_does_nothing():
    os.mkdir("folder")
    put("one", b"abc")
    os.link("one", "folder/two")
    os.rename("one", "folder/two")
    os.rename("folder/two", "one")
    os.rename("one", "one")
    assert are_one("one", "folder/two") and get("one") == b"abc"


@case
def a_rename_of_one_name():
    os.makedirs("folder/below")
    put("one", b"abc")
    os.link("one", "two")
    os.rename("two", "folder/below/three")
    assert are_one("one", "folder/below/three")
    os.rename("folder", "moved")
    assert are_one("one", "moved/below/three")
    put("one", b"d")
    assert get("moved/below/three") == b"d"


@case
def a_name_that_is_replaced():
    put("one", b"abc")
    os.link("one", "two")
    os.link("one", "three")
    put("new", b"new")
    os.rename("new", "one")
    assert are_one("two", "three") and are_one("one") and (get("one"), get("two")) == (b"new", b"abc")
    os.link("one", "four")
    os.rename("four", "two")
    assert are_one("one", "two") and are_one("three") and get("three") == b"abc"
    os.symlink("target", "link")
    os.rename("link", "three")
    assert os.readlink("three") == "target"


@case
def a_name_that_is_taken_away_while_the_file_is_open():
    put("one", b"abc")
    os.link("one", "two")
    with open("one", "r+b", buffering=0) as file:
        os.unlink("one")
        assert os.fstat(file.fileno()).st_nlink == 1
        file.write(b"def")
        assert get("two") == b"def"
        os.unlink("two")
        assert os.fstat(file.fileno()).st_nlink == 0
        file.seek(0)
        assert file.read() == b"def"
        put("one", b"other")
        file.write(b"g")
        assert get("one") == b"other"
        refused(errno.ENOENT, name_open, file.fileno(), "three")


@case
def a_name_by_a_descriptor():
    put("one", b"abc")
    with open("one", "rb") as file:
        name_open(file.fileno(), "two")
    assert are_one("one", "two")


@case
def times_of_folders():
    for folder in ("first", "second"):
        os.mkdir(folder)
    put("first/one", b"abc")

    def changed_by(call, *words) -> list[str]:
        for folder in ("first", "second"):
            os.utime(folder, ns=(5, 7))
        call(*words)
        return [folder for folder in ("first", "second") if os.stat(folder).st_mtime_ns != 7]

    before = os.lstat("first/one")
    assert changed_by(os.link, "first/one", "second/two") == ["second"]
    assert changed_by(os.link, "second/two", "second/three") == ["second"]
    assert changed_by(put, "first/one", b"def") == []
    assert changed_by(os.unlink, "second/three") == ["second"]
    assert changed_by(os.unlink, "first/one") == ["first"]
    assert changed_by(os.rename, "second/two", "first/one") == ["first", "second"]
    assert changed_by(os.link, "first/one", "first/two") == ["first"]
    os.utime("first/one", ns=(5, 9))
    assert changed_by(os.unlink, "first/one") == ["first"]
    reported = os.lstat("first/two")
    assert reported.st_mtime_ns == 9 and reported.st_ctime_ns >= before.st_ctime_ns


@case
def the_number_of_a_file_stays():
    put("one", b"abc")
    number = os.stat("one").st_ino
    os.link("one", "two")
    assert os.stat("one").st_ino == number == os.stat("two").st_ino
    os.rename("one", "moved")
    os.unlink("two")
    assert os.stat("moved").st_ino == number
    os.link("moved", "three")
    os.unlink("moved")
    assert os.stat("three").st_ino == number and are_one("three")


@case
def the_times_of_a_file_stay():
    put("one", b"abc")
    reported = os.stat("one").st_mtime_ns
    os.link("one", "two")
    assert os.stat("one").st_mtime_ns == reported == os.stat("two").st_mtime_ns
    os.unlink("one")
    assert os.stat("two").st_mtime_ns == reported


@case
def mapped_memory_of_both_names():
    put("one", bytes(8192))
    os.link("one", "two")
    with open("one", "r+b") as one, open("two", "r+b") as two:
        with mmap.mmap(one.fileno(), 0) as first, mmap.mmap(two.fileno(), 0) as second:
            first[4000:4200] = b"x" * 200
            assert second[3999:4201] == b"\0" + b"x" * 200 + b"\0"
    assert get("two")[3999:4201] == b"\0" + b"x" * 200 + b"\0"


@case
def other_kinds():
    os.symlink("target", "link")
    os.mkfifo("fifo")
    with socket.socket(socket.AF_UNIX) as bound:
        bound.bind("socket")
    for name in ("link", "fifo", "socket"):
        os.link(name, f"{name}2", follow_symlinks=False)
        assert are_one(name, f"{name}2") and os.lstat(name).st_mode == os.lstat(f"{name}2").st_mode
        os.unlink(name)
        assert are_one(f"{name}2")
    assert os.readlink("link2") == "target"


@case
def a_large_file_of_two_names():
    piece = os.urandom(1 << 20)
    put("one", piece * 8)
    os.link("one", "two")
    with open("two", "r+b", buffering=0) as file:
        file.seek(5_000_000)
        file.write(b"x" * 10_000)
    expected = bytearray(piece * 8)
    expected[5_000_000:5_010_000] = b"x" * 10_000
    assert get("one") == expected
    os.unlink("one")
    assert get("two") == expected


@case
def names_that_begin_with_byte_1():
    os.mkdir(b"\x01")
    put(b"\x01/\x01", b"abc")
    os.link(b"\x01/\x01", b"\x01/\x01\x01")
    os.link(b"\x01/\x01", b"\x01a")
    assert are_one(b"\x01/\x01", b"\x01/\x01\x01", b"\x01a")
    os.unlink(b"\x01/\x01")
    assert are_one(b"\x01/\x01\x01", b"\x01a") and get(b"\x01a") == b"abc"


@case
def a_name_that_is_given_again_and_again():
    put("file", b"0")
    for number in range(300):
        os.link("file", "old")
        put("new", b"%d" % number)
        os.rename("new", "file")
        assert names_of("file") == 1 == names_of("old")
        os.unlink("old")
    assert get("file") == b"299" and os.listdir(".") == ["file"]


run_cases()
