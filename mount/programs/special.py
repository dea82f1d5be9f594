"""Symbolic links, fifos, sockets and devices in the folder that it is started in."""
import errno
import os
import shutil
import socket
import stat
import subprocess
import sys
import threading

from cases import case, get, put, refused, root_case, run_cases


def kind(name) -> int:
    return stat.S_IFMT(os.lstat(name).st_mode)


def reported_kind(entry: os.DirEntry) -> int:
    """What the listing itself tells of an entry, without a look at it: 0 of a fifo or a socket."""
    if entry.is_symlink():
        return stat.S_IFLNK
    return stat.S_IFDIR if entry.is_dir(follow_symlinks=False) else stat.S_IFREG * entry.is_file(follow_symlinks=False)


@case
def a_link_that_dangles():
    os.symlink("none", "link")
    reported = os.lstat("link")
    assert (reported.st_mode, reported.st_size, reported.st_nlink) == (stat.S_IFLNK | 0o777, 4, 1), reported
    assert os.readlink("link") == "none"
    refused(errno.ENOENT, os.stat, "link")
    refused(errno.ENOENT, open, "link")
    refused(errno.EEXIST, os.mkdir, "link")
    refused(errno.EEXIST, os.symlink, "other", "link")
    refused(errno.EEXIST, os.open, "link", os.O_CREAT | os.O_EXCL | os.O_WRONLY)
    put("link", b"abc")
    assert get("none") == b"abc" == get("link") and kind("link") == stat.S_IFLNK
    os.unlink("link")
    assert os.listdir(".") == ["none"]


@case
def a_link_to_a_file():
    put("file", b"abc")
    os.symlink("file", "link")
    refused(errno.ELOOP, os.open, "link", os.O_RDONLY | os.O_NOFOLLOW)
    with open("link", "ab") as file:
        file.write(b"def")
    assert get("file") == b"abcdef" and os.stat("link").st_ino == os.stat("file").st_ino
    os.chmod("link", 0o600)
    assert os.stat("file").st_mode == stat.S_IFREG | 0o600
    os.setxattr("link", "user.a", b"b")
    assert os.listxattr("file") == ["user.a"] and os.listxattr("link", follow_symlinks=False) == []
    refused(errno.EPERM, os.setxattr, "link", "user.a", b"b", follow_symlinks=False)
    os.truncate("link", 1)
    assert get("file") == b"a"


@case
def a_link_by_its_descriptor():
    os.symlink("target", "link")
    link = os.open("link", os.O_PATH | os.O_NOFOLLOW)
    assert os.readlink("", dir_fd=link) == "target" and stat.S_ISLNK(os.fstat(link).st_mode)
    os.rename("link", "moved")
    assert os.readlink("", dir_fd=link) == "target"
    os.unlink("moved")
    assert stat.S_ISLNK(os.fstat(link).st_mode) and os.fstat(link).st_nlink == 0
    os.close(link)


@case
def a_link_to_a_folder():
    os.makedirs("folder/below")
    put("folder/file", b"abc")
    os.symlink("folder", "link")
    os.symlink("../..", "folder/below/up")
    assert sorted(os.listdir("link")) == ["below", "file"]
    assert get("link/below/up/link/file") == b"abc"
    refused(errno.ENOTDIR, os.rmdir, "link")
    put("link/new", b"n")
    os.rename("link/new", "link/below/new")
    assert get("folder/below/new") == b"n"
    refused(errno.ENOTDIR, os.open, "link", os.O_DIRECTORY | os.O_NOFOLLOW)
    before = os.getcwd()
    os.chdir("link")
    assert os.getcwd() == before + "/folder"
    os.chdir(before)
    os.unlink("link")
    assert sorted(os.listdir("folder")) == ["below", "file"]


@case
def targets_of_every_length():
    for length in (1, 2, 255, 256, 1000, 1023, 1024, 4094, 4095):
        target = (b"t" * 99 + b"/") * 41
        os.symlink(target[:length], "link")
        assert os.readlink(b"link") == target[:length] and os.lstat("link").st_size == length, length
        os.unlink("link")
    refused(errno.ENAMETOOLONG, os.symlink, b"t" * 4096, "link")
    refused(errno.ENOENT, os.symlink, b"", "link")


@case
def bytes_in_targets():
    for target in (b"\n", b"\xff\xfe", b" ", b"%41", b"\x01", b"/", b"..", b"//a//b/"):
        os.symlink(target, b"link")
        assert os.readlink(b"link") == target
        os.unlink(b"link")


@case
def loops():
    os.symlink("one", "one")
    os.symlink("three", "two")
    os.symlink("two", "three")
    for name in ("one", "two", "three"):
        refused(errno.ELOOP, os.stat, name)
        refused(errno.ELOOP, open, name, "w")
        refused(errno.ELOOP, os.mkdir, f"{name}/below")
    put("0", b"abc")
    for number in range(45):
        os.symlink(str(number), str(number + 1))
    assert get("40") == b"abc"
    refused(errno.ELOOP, open, "41")


@case
def attributes_of_a_link_itself():
    put("file")
    os.utime("file", ns=(5, 7))
    os.symlink("file", "link")
    os.utime("link", ns=(11, 13), follow_symlinks=False)
    assert (os.lstat("link").st_mtime_ns, os.stat("file").st_mtime_ns) == (13, 7)
    if os.getuid() == 0:
        os.lchown("link", 3, 4)
        reported = os.lstat("link")
        assert (reported.st_uid, reported.st_gid, os.stat("file").st_uid) == (3, 4, 0)
    os.rename("link", "moved")
    assert (os.lstat("moved").st_mtime_ns, os.readlink("moved")) == (13, "file")
    os.symlink("file", "link")
    assert os.lstat("link").st_mtime_ns > 10**18 and os.lstat("link").st_uid == os.getuid()


@case
def links_that_are_replaced():
    for target in ("one", "two", "three"):
        os.symlink(target, "new")
        os.rename("new", "current")
        assert os.readlink("current") == target
    put("file", b"abc")
    os.rename("file", "current")
    assert get("current") == b"abc" and kind("current") == stat.S_IFREG
    os.symlink("four", "link")
    os.rename("link", "current")
    assert os.readlink("current") == "four"
    os.mkdir("folder")
    refused(errno.EISDIR, os.rename, "current", "folder")
    refused(errno.ENOTDIR, os.rename, "folder", "current")
    assert sorted(os.listdir(".")) == ["current", "folder"]


@case
def kinds_in_a_listing():
    os.mkdir("folder")
    put("file")
    os.symlink("folder", "link")
    os.mkfifo("fifo")
    socket.socket(socket.AF_UNIX).bind("socket")
    kinds = {"folder": stat.S_IFDIR, "file": stat.S_IFREG, "link": stat.S_IFLNK, "fifo": 0, "socket": 0}
    assert {entry.name: reported_kind(entry) for entry in os.scandir(".")} == kinds
    letters = subprocess.run(["find", ".", "-printf", "%P%y "], capture_output=True, text=True, check=True).stdout
    assert sorted(letters.split()) == ["d", "fifop", "filef", "folderd", "linkl", "sockets"], letters


@case
def two_processes_speak_by_a_fifo():
    os.mkfifo("fifo", 0o640)
    reported = os.lstat("fifo")
    assert (reported.st_mode, reported.st_size) == (stat.S_IFIFO | 0o640, 0)
    refused(errno.ENXIO, os.open, "fifo", os.O_WRONLY | os.O_NONBLOCK)
    write = "import sys; open('fifo', 'wb').write(bytes(range(256)) * 4096)"
    writer = subprocess.Popen([sys.executable, "-c", write])
    assert get("fifo") == bytes(range(256)) * 4096 and writer.wait() == 0
    assert os.lstat("fifo").st_size == 0


@case
def a_fifo_by_more_names():
    os.mkfifo("fifo")
    os.link("fifo", "other")
    os.rename("fifo", "moved")
    said: list[bytes] = []
    reader = threading.Thread(target=lambda: said.append(get("other")))
    reader.start()
    put("moved", b"abc")
    reader.join()
    assert said == [b"abc"] and os.lstat("moved").st_nlink == 2
    os.unlink("moved")
    assert os.lstat("other").st_nlink == 1 and kind("other") == stat.S_IFIFO


@case
def a_socket_is_bound_and_spoken_to():
    listens = socket.socket(socket.AF_UNIX)
    listens.bind("socket")
    listens.listen()
    assert kind("socket") == stat.S_IFSOCK
    refused(errno.EADDRINUSE, socket.socket(socket.AF_UNIX).bind, "socket")
    refused(errno.ENXIO, open, "socket")
    speaks = socket.socket(socket.AF_UNIX)
    os.rename("socket", "moved")
    speaks.connect("moved")
    speaks.sendall(b"abc")
    other, _ = listens.accept()
    assert other.recv(10) == b"abc"
    for each in (other, speaks, listens):
        each.close()
    refused(errno.ECONNREFUSED, socket.socket(socket.AF_UNIX).connect, "moved")
    os.unlink("moved")
    refused(errno.ENOENT, socket.socket(socket.AF_UNIX).connect, "moved")


@root_case
def devices():
    numbers = [os.makedev(1, 3), os.makedev(0, 0), os.makedev(255, 255), os.makedev(4095, 2**20 - 1)]
    for number, device in enumerate(numbers):
        os.mknod(f"character{number}", stat.S_IFCHR | 0o600, device)
        os.mknod(f"block{number}", stat.S_IFBLK | 0o640, device)
    for number, device in enumerate(numbers):
        reported = [os.lstat(f"{name}{number}") for name in ("character", "block")]
        assert [each.st_rdev for each in reported] == [device, device]
        assert [each.st_mode for each in reported] == [stat.S_IFCHR | 0o600, stat.S_IFBLK | 0o640]
    os.rename("character0", "moved")
    os.chmod("moved", 0o666)
    assert (os.lstat("moved").st_rdev, os.lstat("moved").st_mode) == (numbers[0], stat.S_IFCHR | 0o666)
    os.unlink("moved")
    put("moved", b"abc")
    assert kind("moved") == stat.S_IFREG and get("moved") == b"abc"


@case
def a_file_by_mknod():
    os.mknod("file", stat.S_IFREG | 0o640)
    assert os.lstat("file").st_mode == stat.S_IFREG | 0o640
    put("file", b"abc")
    assert get("file") == b"abc"
    refused(errno.EEXIST, os.mknod, "file", stat.S_IFREG | 0o640)
    refused(errno.EEXIST, os.mkfifo, "file")


@case
def kinds_follow_their_folder():
    os.makedirs("folder/below")
    os.symlink("target", "folder/below/link")
    os.mkfifo("folder/below/fifo")
    os.rename("folder", "moved")
    assert os.readlink("moved/below/link") == "target" and kind("moved/below/fifo") == stat.S_IFIFO
    shutil.rmtree("moved")
    os.makedirs("moved/below")
    for name in ("link", "fifo"):
        put(f"moved/below/{name}", b"abc")
        assert kind(f"moved/below/{name}") == stat.S_IFREG and get(f"moved/below/{name}") == b"abc"


run_cases()
