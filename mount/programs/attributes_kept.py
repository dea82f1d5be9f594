"""Attributes of each kind in an image and in a snapshot, in mounts of its own."""
import errno
import os
import shutil
import stat
import subprocess
from pathlib import Path

from cases import CAPABILITY, refused
from kept import outlives, restore
from own_mount import Mount, case, run_cases
from seen import alike, seen

NAMES = [b"file", b"a b", b"\x01", b"\x01\x01", b"\xff\n", b"%41", b"n" * 255]


def make_tree(top: Path) -> None:
    """Folders and files with attributes of each kind, and some without."""
    for number, folder in enumerate((b".", b"folder", b"folder/\x01below", b"usual")):
        path = os.path.join(os.fsencode(top), folder)
        os.makedirs(path, exist_ok=True)
        for name in NAMES:
            make_file(os.path.join(path, name), number)
        (Path(os.fsdecode(path)) / "plain").write_text("abc")
        if folder != b"usual":
            os.setxattr(path, "user.folder", b"%d" % number)
            os.chmod(path, 0o2750 + number)
            os.chown(path, *owner_of(number))
            os.utime(path, ns=(5, 10**9 * number + 1))


def owner_of(number: int) -> tuple[int, int]:
    return (number + 1, number + 2) if os.getuid() == 0 else (-1, -1)


def make_file(path: bytes, number: int) -> None:
    with open(path, "wb") as file:
        file.write(path)
    os.chown(path, *owner_of(number))
    os.chmod(path, 0o6400 + number)
    os.setxattr(path, "user.empty", b"")
    os.setxattr(path, "user.large", bytes(range(256)) * (16 << number))
    os.setxattr(path, "user.\udcfe \n", b"\0\n")
    os.utime(path, ns=(5, 2**33 * 10**9 * number + 7))


def change_tree(top: Path) -> None:
    for path in sorted(top.rglob("*"), reverse=True):
        os.chmod(path, 0o700 if path.is_dir() else 0o600)
        os.utime(path, ns=(5, 99))
        for name in os.listxattr(path):
            os.removexattr(path, name)
    (top / "file").unlink()
    (top / "file").mkdir(mode=0o711)
    os.rename(top / "folder", top / "moved")
    (top / "folder").mkdir()
    (top / "folder/file").touch(mode=0o600)


@case
def a_tree_with_attributes(folder: Path):
    outlives(folder, make_tree, change_tree)


@case
def an_image_that_is_not_trusted(folder: Path):
    mount = Mount(folder, "--image", folder / "image")
    make_tree(mount.point)
    made = seen(mount.point)
    assert mount.end() == 0, mount.said()
    mount = Mount(folder, "--load", folder / "image")
    own = {path: each._replace(mode=each.mode & ~(stat.S_ISUID | stat.S_ISGID), user=os.getuid(), group=os.getgid())
           for path, each in made.items()}
    reported = seen(mount.point)
    alike({path: each._replace(mode=each.mode & ~stat.S_ISGID) for path, each in reported.items()}, own)
    assert not any(each.mode & stat.S_ISGID for each in reported.values() if stat.S_ISREG(each.mode))
    assert mount.end() == 0, mount.said()


@case
def attributes_of_the_root(folder: Path):
    mount = Mount(folder, "--image", folder / "image")
    os.chmod(mount.point, 0o1711)
    os.setxattr(mount.point, "user.a", b"b")
    os.utime(mount.point, ns=(5, 7))
    before = seen(mount.point)
    os.mkdir(mount.point / ".snapshots/s")
    assert stat.S_IMODE(os.stat(mount.point / ".snapshots/s").st_mode) == 0o1711
    os.chmod(mount.point, 0o755)
    os.removexattr(mount.point, "user.a")
    restore(mount, "s")
    alike(seen(mount.point), before)
    assert mount.end() == 0, mount.said()
    mount = Mount(folder, "--load", folder / "image")
    alike(seen(mount.point), before)
    assert mount.end() == 0, mount.said()


@case
def nothing_is_left_of_what_is_removed(folder: Path):
    mount = Mount(folder, "--image", folder / "image")
    make_tree(mount.point)
    os.chmod(mount.point, 0o755)
    os.chown(mount.point, os.getuid(), os.getgid())
    os.removexattr(mount.point, "user.folder")
    for path in sorted(mount.point.rglob("*"), reverse=True):
        path.rmdir() if path.is_dir() else path.unlink()
    assert mount.end() == 0, mount.said()
    left = [line for line in (folder / "image").read_text().splitlines() if line.startswith("F ")]
    assert not left, left


@case
def what_is_usual_has_no_record(folder: Path):
    mount = Mount(folder, "--image", folder / "image")
    for number in range(10):
        (mount.point / f"folder{number}").mkdir()
        (mount.point / f"folder{number}/file").touch()
    assert mount.end() == 0, mount.said()
    assert ".doorvervain" not in (folder / "image").read_text()


@case
def the_reserved_name_is_nobodys(folder: Path):
    mount = Mount(folder)
    (mount.point / "file").touch(mode=0o600)
    (mount.point / "folder").mkdir()
    for name in (".doorvervain",):
        assert name not in os.listdir(mount.point)
        assert not os.path.lexists(mount.point / name)
        for call in (os.mkdir, lambda path: path.touch(), lambda path: os.rename(mount.point / "file", path),
                     lambda path: os.rename(mount.point / "folder", path), lambda path: os.symlink("a", path),
                     lambda path: os.link(mount.point / "file", path)):
            try:
                call(mount.point / name)
            except OSError as fault:
                assert isinstance(fault, PermissionError), fault
            else:
                raise AssertionError("the reserved name was given")
        (mount.point / "folder" / name).mkdir()
    assert sorted(os.listdir(mount.point)) == ["file", "folder"]
    assert mount.end() == 0, mount.said()


def options_of(mount: Mount) -> set[str]:
    lines = Path("/proc/self/mountinfo").read_text().splitlines()
    return set(next(line.split()[5] for line in lines if line.split()[4] == str(mount.point)).split(","))


@case
def a_mount_keeps_set_user_bits_and_devices_from_working(folder: Path):
    wanted = {(): {"nosuid", "nodev"}}
    if os.getuid() == 0:
        wanted |= {("--trust-attributes",): set(), ("--trust-attributes", "--nosuid"): {"nosuid"},
                   ("--trust-attributes", "--nodev"): {"nodev"},
                   ("--nodev", "--trust-attributes", "--nosuid"): {"nosuid", "nodev"}}
    for words, keeps in wanted.items():
        mount = Mount(folder, *words)
        assert options_of(mount) & {"nosuid", "nodev"} == keeps, (words, options_of(mount))
        assert mount.end() == 0, mount.said()


@case
def names_of_trusted_attributes_are_reported_to_root_alone(folder: Path):
    if os.getuid() != 0:
        return
    folder.chmod(0o755)
    mount = Mount(folder, "--allow-other")
    (mount.point / "file").touch()
    for name in ("trusted.a", "trusted.", "user.a", "trustees.b"):
        try:
            os.setxattr(mount.point / "file", name, b"1")
        except OSError as fault:
            assert name in ("trustees.b", "trusted."), fault
    assert sorted(os.listxattr(mount.point / "file"))[-2:] == ["trusted.a", "user.a"]
    shell = ["setpriv", "--reuid=65534", "--regid=65534", "--clear-groups", "python3", "-c",
             "import os; print(sorted(os.listxattr('file')))"]
    reported = subprocess.run(shell, cwd=mount.point, stdout=subprocess.PIPE, text=True, check=True).stdout
    assert reported == "['user.a']\n", reported
    assert mount.end() == 0, mount.said()


@case
def others_are_kept_out_by_modes(folder: Path):
    if os.getuid() != 0:
        return
    folder.chmod(0o755)
    mount = Mount(folder, "--allow-other")
    for name, mode in (("none", 0o600), ("read", 0o644), ("write", 0o666)):
        (mount.point / name).write_text("abc")
        os.chmod(mount.point / name, mode)
    os.mkdir(mount.point / "sticky")
    os.chmod(mount.point / "sticky", 0o1777)
    (mount.point / "sticky/file").touch()
    tries = {"cat none": 1, "cat read": 0, "echo x > read": 1, "echo x > write": 0, "touch file": 1,
             "rm -f sticky/file": 1, "touch sticky/own": 0, "rm sticky/own": 0, "chmod 600 read": 1}
    for command, refused in tries.items():
        shell = ["setpriv", "--reuid=65534", "--regid=65534", "--clear-groups", "sh", "-c", command]
        done = subprocess.run(shell, cwd=mount.point, stdout=subprocess.DEVNULL, stderr=subprocess.DEVNULL)
        assert bool(done.returncode) == bool(refused), command
    assert mount.end() == 0, mount.said()


CHANGES = {
    "write": "file = os.open('program', os.O_RDWR); os.pwrite(file, os.pread(file, 64, 0), 0); os.close(file)",
    "fallocate": "file = os.open('program', os.O_WRONLY); os.posix_fallocate(file, 0, 1); os.close(file)",
    "cut": "file = os.open('program', os.O_RDONLY); text = os.pread(file, 1 << 20, 0); os.close(file);"
           "file = os.open('program', os.O_WRONLY | os.O_TRUNC); os.pwrite(file, text, 0); os.close(file)",
    "owner": "os.chown('program', -1, 65534)",
}


@case
def who_changed_a_program_does_not_run_it_as_its_owner(folder: Path):
    """The kernel asks nothing between the change and the start: so it has to know by then that the bit is gone."""
    if os.getuid() != 0:
        return
    folder.chmod(0o755)
    mount = Mount(folder, "--allow-other", "--trust-attributes")
    others = ["setpriv", "--reuid=65534", "--regid=65534", "--clear-groups"]
    for name, call in CHANGES.items():
        shutil.copy("/usr/bin/id", mount.point / "program")
        os.chown(mount.point / "program", 65534 if name == "owner" else 0, 0)
        os.chmod(mount.point / "program", 0o4777)
        told = subprocess.run([*others, "./program", "-u"], cwd=mount.point, capture_output=True, text=True)
        assert told.stdout == ("65534\n" if name == "owner" else "0\n"), (name, told)
        change = f"import os; {call}; os.execv('./program', ['program', '-u'])"
        told = subprocess.run([*others, "python3", "-c", change], cwd=mount.point, capture_output=True, text=True)
        assert told.stdout == "65534\n", (name, told)
        assert not os.stat(mount.point / "program").st_mode & stat.S_ISUID, name
        (mount.point / "program").unlink()
    assert mount.end() == 0, mount.said()


@case
def a_cut_takes_set_user_bits_of_a_file_that_the_kernel_does_not_know(folder: Path):
    if os.getuid() != 0:
        return
    mount = Mount(folder, "--image", folder / "image")
    for name in ("user", "group", "none"):
        (mount.point / name).write_text("abc")
        os.setxattr(mount.point / name, "security.capability", CAPABILITY)
    for name, mode in (("user", 0o4777), ("group", 0o6777), ("none", 0o777)):
        os.chmod(mount.point / name, mode)
    assert mount.end() == 0, mount.said()
    mount = Mount(folder, "--load", folder / "image", "--trust-attributes")
    cut = ["setpriv", "--inh-caps=-fsetid", "--bounding-set=-fsetid", "sh", "-c", ": > user; : > group; : > none"]
    subprocess.run(cut, cwd=mount.point, check=True)
    for name in ("user", "group", "none"):
        told = os.stat(mount.point / name)
        assert (told.st_size, stat.S_IMODE(told.st_mode)) == (0, 0o777), (name, told)
        assert os.listxattr(mount.point / name) == [], name
    assert mount.end() == 0, mount.said()


@case
def a_file_that_is_restored_loses_its_capability(folder: Path):
    """The kernel found none when the open file was written before, and does not look again."""
    if os.getuid() != 0:
        return
    mount = Mount(folder)
    changes = {"write": lambda file: os.pwrite(file, b"c", 0), "cut": lambda file: os.ftruncate(file, 1),
               "fallocate": lambda file: os.posix_fallocate(file, 0, 9)}
    for name in changes:
        (mount.point / name).write_text("abc")
        os.setxattr(mount.point / name, "security.capability", CAPABILITY)
    os.mkdir(mount.point / ".snapshots/s")
    files = {name: os.open(mount.point / name, os.O_RDWR) for name in changes}
    for name, file in files.items():
        os.pwrite(file, b"b", 0)
        refused(errno.ENODATA, os.getxattr, mount.point / name, "security.capability")
        os.pwrite(file, b"b", 0)
    restore(mount, "s")
    for name, file in files.items():
        changes[name](file)
        refused(errno.ENODATA, os.getxattr, mount.point / name, "security.capability")
        os.close(file)
    assert mount.end() == 0, mount.said()


run_cases()
