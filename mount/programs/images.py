"""What an image keeps, and what is told of one that is not whole."""
import os
import shutil
import signal
import stat
import subprocess
import time
from pathlib import Path

from own_mount import MOUNT, Mount, case, run_cases

LARGE = os.urandom(1 << 20) * 48


def keep_tree(folder: Path, *options) -> Path:
    """The image of a tree of three files."""
    file = folder / "image"
    mount = Mount(folder, "--image", file, *options)
    for name in ("one", "two", "three"):
        (mount.point / name).write_text(name)
    assert mount.end() == 0, mount.said()
    return file


def is_whole(file: Path) -> bool:
    return subprocess.run(["sha256sum", "-c", "--status", f"{file}.sum"], cwd=file.parent).returncode == 0


def names_in(folder: Path, file: Path) -> list[str]:
    mount = Mount(folder, "--load", file)
    names = sorted(os.listdir(mount.point))
    assert mount.end() == 0, mount.said()
    return names


@case
def a_tree_is_kept(folder: Path):
    file = keep_tree(folder)
    assert is_whole(file)
    assert names_in(folder, file) == ["one", "three", "two"]
    assert sorted(os.listdir(folder)) == ["image", "image.sum", "mnt", "said"]


@case
def a_mount_that_fails_leaves_the_file(folder: Path):
    file = keep_tree(folder)
    before = file.read_bytes()
    failed = subprocess.run([MOUNT, "--image", file, folder / "none"], stderr=subprocess.DEVNULL)
    assert failed.returncode == 1
    assert file.read_bytes() == before
    assert is_whole(file)


@case
def a_file_that_cannot_be_written_is_reported_before_the_mount(folder: Path):
    (folder / "folder").mkdir()
    for file in (folder / "none/image", folder / "folder", Path("/dev/null")):
        mount = Mount(folder, "--image", file)
        assert not mount.stands, file
        assert mount.process.wait() and str(file) in mount.said()


@case
def a_second_mount_may_not_keep_its_tree_there(folder: Path):
    mount = Mount(folder, "--image", folder / "image")
    other = Mount(folder, "--image", folder / "image", name="other")
    assert mount.stands and not other.stands
    assert mount.end() == 0


@case
def more_signals_do_not_cut_the_image(folder: Path):
    mount = Mount(folder, "--image", folder / "image")
    (mount.point / "large").write_bytes(LARGE)
    mount.process.terminate()
    while mount.process.poll() is None:
        time.sleep(0.03)
        mount.process.terminate()
    assert mount.process.wait() == 0, mount.said()
    assert is_whole(folder / "image")
    again = Mount(folder, "--load", folder / "image")
    assert (again.point / "large").read_bytes() == LARGE
    assert again.end() == 0


@case
def the_old_image_stands_until_the_new_one_is_whole(folder: Path):
    file = keep_tree(folder)
    before = file.read_bytes()
    mount = Mount(folder, "--image", file)
    (mount.point / "large").write_bytes(LARGE)
    mount.process.terminate()
    time.sleep(0.1)
    mount.process.kill()
    mount.process.wait()
    mount.clear()
    assert file.read_bytes() == before or is_whole(file)
    assert not Path(f"{file}.sum").exists() or is_whole(file)
    assert Mount(folder, "--load", file).end() == 0


@case
def what_a_mount_left_is_not_cut(folder: Path):
    part = folder / "image.part"
    part.write_text("D / 5\n")
    mount = Mount(folder, "--image", folder / "image")
    assert not mount.stands and str(part) in mount.said() and part.read_text() == "D / 5\n"
    part.write_text("")
    assert Mount(folder, "--image", folder / "image").end() == 0
    assert is_whole(folder / "image")


@case
def an_image_that_cannot_take_its_place_is_left_in_its_part(folder: Path):
    """A folder has come there since the mount began. No other mount begins beside the part."""
    mount = Mount(folder, "--image", folder / "image")
    (mount.point / "file").write_text("file")
    (folder / "image").unlink(missing_ok=True)
    (folder / "image").mkdir()
    part = folder / "image.part"
    assert mount.end() == 1 and "the tree is left in the file with .part behind its name" in mount.said(), mount.said()
    (folder / "image").rmdir()
    assert not Mount(folder, "--image", folder / "image").stands
    part.rename(folder / "image")
    assert names_in(folder, folder / "image") == ["file"]


@case
def a_program_that_dies_leaves_the_old_image(folder: Path):
    file = keep_tree(folder)
    before = file.read_bytes()
    mount = Mount(folder, "--image", file)
    task = Path(f"/proc/{mount.process.pid}/task/{mount.process.pid}/children")
    for program in map(int, task.read_text().split()):
        os.kill(program, signal.SIGKILL)
        assert mount.end() == 1 and str(file) in mount.said()
        assert file.read_bytes() == before and is_whole(file)
    assert mount.end() == 0


@case
def an_image_that_was_cut_is_refused(folder: Path):
    file = keep_tree(folder)
    lines = file.read_bytes().splitlines(keepends=True)
    file.write_bytes(b"".join(lines[:-1]))
    mount = Mount(folder, "--load", file)
    assert not mount.stands and "cut or changed" in mount.said()
    Path(f"{file}.sum").unlink()
    mount = Mount(folder, "--load", file)
    assert mount.stands and "not known" in mount.said()
    assert mount.end() == 0


@case
def only_the_owner_may_read_images_and_records(folder: Path):
    (folder / "image").touch(mode=0o644)
    file = keep_tree(folder, "--trace", folder / "log")
    for name in ("image", "image.sum", "log.in", "log.out"):
        assert stat.S_IMODE((folder / name).stat().st_mode) == 0o600, name
    assert is_whole(file)


@case
def an_older_record_is_not_cut(folder: Path):
    (folder / "log.in").write_text("older")
    mount = Mount(folder, "--trace", folder / "log")
    assert not mount.stands and "log.in" in mount.said()
    assert (folder / "log.in").read_text() == "older"


@case
def a_record_that_cannot_be_written_ends_with_whole_lines(folder: Path):
    disk = folder / "disk"
    disk.mkdir()
    if os.getuid() or subprocess.run(["mount", "-t", "tmpfs", "-o", "size=200K", "none", disk]).returncode:
        return
    try:
        mount = Mount(folder, "--trace", disk / "log")
        for i in range(200):
            (mount.point / f"file{i}").write_bytes(os.urandom(1000))
        assert mount.end() == 1 and "the record ends" in mount.said()
        lines = [(disk / f"log.{it}").read_bytes() for it in ("in", "out")]
        assert all(it.endswith(b"\n") for it in lines) and lines[0].count(b"\n") == lines[1].count(b"\n") > 100
    finally:
        subprocess.run(["umount", "-l", disk], check=True)


@case
def a_link_to_the_image_stays(folder: Path):
    (folder / "below").mkdir()
    (folder / "below/file").touch()
    (folder / "image").symlink_to("below/file")
    keep_tree(folder)
    assert (folder / "image").is_symlink() and (folder / "below/file").stat().st_size
    assert is_whole(folder / "below/file")


def mount_in_background(folder: Path, file: Path) -> Path:
    point = folder / "mnt"
    point.mkdir(exist_ok=True)
    with (folder / "said").open("w") as said:
        subprocess.run([MOUNT, "--image", file, point], stderr=said, check=True)
    return point


@case
def an_unmount_waits_for_the_image(folder: Path):
    point = mount_in_background(folder, folder / "image")
    (point / "large").write_bytes(LARGE)
    subprocess.run([MOUNT, "--unmount", point], check=True)
    assert is_whole(folder / "image") and (folder / "image").stat().st_size > 2 * len(LARGE)


@case
def an_unmount_tells_that_no_image_was_written(folder: Path):
    (folder / "gone").mkdir()
    point = mount_in_background(folder, folder / "gone/image")
    shutil.rmtree(folder / "gone")
    ended = subprocess.run([MOUNT, "--unmount", point], stderr=subprocess.PIPE, text=True)
    assert ended.returncode == 1 and "gone/image" in ended.stderr, ended


@case
def a_key_of_the_terminal_ends_it_with_its_image(folder: Path):
    mount = Mount(folder, "--image", folder / "image")
    (mount.point / "file").write_text("abc")
    os.killpg(mount.process.pid, signal.SIGINT)
    assert mount.process.wait(timeout=60) == 0, mount.said()
    assert names_in(folder, folder / "image") == ["file"]


@case
def what_a_mount_set_aside_in_an_image(folder: Path):
    own = "/.doorvervain/unlinked"
    text = f"D / 5\nD /.doorvervain 5\nD {own} 5\nD {own}/1 5\nF {own}/2 3 5\nb 0 616263\nF /file 3 5\nb 0 616263\n"
    (folder / "image").write_text(text)
    mount = Mount(folder, "--load", folder / "image", "--image", folder / "next")
    with (mount.point / "file").open() as file:
        (mount.point / "file").unlink()
        assert file.read() == "abc"
    assert own in mount.said()
    assert mount.end() == 0
    assert (folder / "next").read_text().splitlines()[1:] == []


def most_memory(mount: Mount) -> int:
    """The most that its process ever had, in bytes; 0 where it has ended."""
    text = Path(f"/proc/{mount.process.pid}/status").read_text()
    return sum(int(line.split()[1]) * 1024 for line in text.splitlines() if line.startswith("VmHWM"))


def most_at_its_end(mount: Mount) -> int:
    subprocess.run(["fusermount3", "-u", mount.point], check=True)
    most = 0
    while mount.process.poll() is None:
        most = max(most, most_memory(mount))
        time.sleep(0.01)
    assert mount.process.returncode == 0, mount.said()
    return most


@case
def an_image_takes_no_memory_for_its_text(folder: Path):
    if "sanitized" in MOUNT:
        return
    file = folder / "image"
    mount = Mount(folder, "--image", file)
    (mount.point / "large").write_bytes(LARGE)
    most = most_memory(mount) + len(LARGE) // 4
    assert most_at_its_end(mount) < most < file.stat().st_size
    mount = Mount(folder, "--load", file)
    assert most_memory(mount) < most
    assert (mount.point / "large").read_bytes() == LARGE
    assert mount.end() == 0, mount.said()


def refuses_part(folder: Path) -> bool:
    mount = Mount(folder, "--image", folder / "image")
    return mount.process.wait(timeout=60) != 0 and "image.part" in mount.said() and "own" in mount.said()


@case
def a_part_that_somebody_else_made_is_refused_by_its_name(folder: Path):
    part = folder / "image.part"
    part.touch()
    part.chmod(0o622)
    assert refuses_part(folder)
    part.chmod(0o600)
    if os.getuid() == 0:
        os.chown(part, 65534, 65534)
        assert refuses_part(folder)
    part.unlink()
    (folder / "elsewhere").touch()
    part.symlink_to(folder / "elsewhere")
    assert Mount(folder, "--image", folder / "image").process.wait(timeout=60) != 0
    assert (folder / "elsewhere").read_bytes() == b""
    part.unlink()
    mount = Mount(folder, "--image", folder / "image")
    assert mount.end() == 0, mount.said()


@case
def no_step_at_all_is_refused(folder: Path):
    mount = Mount(folder, "--steps", "0")
    assert mount.process.wait(timeout=60) == 2 and "--steps takes 1 to 1000, not 0" in mount.said()


run_cases()
