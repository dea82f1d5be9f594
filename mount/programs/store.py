"""What a store keeps where its mount is killed, and where its log is cut or changed."""
import itertools
import os
import re
import shutil
import signal
import subprocess
import time
from pathlib import Path

import store_states
from own_mount import MOUNT, Mount, case, run_cases
from own_store import (KILLS, WORKS, end_well, fill, find_state, kill, kill_at_chance, logs, names_after, store_mount, sync,
                       write_sums, writes_image)

MOST_AHEAD = 8 << 20  # zeros behind the records of a log


def kill_often(folder: Path, *options, in_image: bool = False) -> int:
    """Kills one mount after the other: how many of them wrote an image."""
    number, first, writing = WORKS.randrange(1 << 30), 0, 0
    for _ in range(KILLS):
        mount = store_mount(folder, *options)
        assert mount.stands, mount.said()
        kill_at_chance(folder, mount, number, first, in_image)
        writing += writes_image(folder)
        first = find_state(folder, number, first, *options)
    return writing


@case
def a_killed_mount_loses_nothing_that_was_synced(folder: Path):
    kill_often(folder)


@case
def nor_one_that_is_killed_while_it_writes_images(folder: Path):
    writing = kill_often(folder, "--log-size", "20K", in_image=True)
    print(f"{writing} of {KILLS} kills came while an image was written")
    assert writing > KILLS // 3, writing


@case
def nor_one_that_syncs_at_each_change(folder: Path):
    mount = store_mount(folder, "--sync")
    for name in ("one", "two", "gone"):
        (mount.point / name).write_text(name)
    (mount.point / "gone").unlink()
    kill(mount)
    again = store_mount(folder)
    assert {it.name: it.read_text() for it in again.point.iterdir()} == {"one": "one", "two": "two"}
    end_well(again)


@case
def nor_one_whose_timer_came(folder: Path):
    mount = store_mount(folder)
    (mount.point / "one").write_text("one")
    time.sleep(7)
    kill(mount)
    again = store_mount(folder)
    assert (again.point / "one").read_text() == "one"
    end_well(again)


@case
def all_that_a_tree_has_is_kept(folder: Path):
    mount = store_mount(folder)
    os.makedirs(mount.point / "folder/below")
    (mount.point / "file").write_bytes(b"x" * 3000000)
    os.setxattr(mount.point / "file", "user.color", b"blue")
    os.link(mount.point / "file", mount.point / "folder/other")
    os.symlink("file", mount.point / "link")
    os.mkfifo(mount.point / "fifo")
    os.chmod(mount.point / "folder", 0o751)
    os.utime(mount.point / "file", ns=(10**9, 2 * 10**9))
    (mount.point / ".snapshots/before").mkdir()
    (mount.point / "file").write_text("later")
    before = subprocess.run(["ls", "-lARn", "--time-style=full-iso", "."], cwd=mount.point, capture_output=True).stdout
    end_well(mount)
    again = store_mount(folder)
    after = subprocess.run(["ls", "-lARn", "--time-style=full-iso", "."], cwd=again.point, capture_output=True).stdout
    assert after == before, (before.decode(), after.decode())
    assert os.getxattr(again.point / "folder/other", "user.color") == b"blue"
    assert (again.point / ".snapshots/before/file").read_bytes() == b"x" * 3000000
    assert os.listdir(again.point / ".snapshots") == ["before"]
    (again.point / ".snapshots/before").rmdir()
    end_well(again)


@case
def what_was_open_and_unlinked_is_gone(folder: Path):
    mount = store_mount(folder)
    held = os.open(mount.point / "file", os.O_CREAT | os.O_WRONLY)
    os.write(held, b"x" * 100000)
    (mount.point / "file").unlink()
    os.fsync(held)
    kill(mount)
    again = store_mount(folder)
    assert os.listdir(again.point) == []
    end_well(again)
    assert "left out" not in again.said()


@case
def a_log_that_is_cut_loads(folder: Path):
    mount = store_mount(folder)
    fill(mount, 40)
    sync(mount.point)
    kill(mount)
    log = logs(folder)[-1]
    whole, before = log.read_bytes().rstrip(b"\0"), 41
    (folder / "store").rename(folder / "whole")
    for cut in range(1, 1001):
        shutil.copytree(folder / "whole", folder / "store")
        log.write_bytes(whole[:-cut])
        names = names_after(folder)
        assert names == {f"file{i}" for i in range(len(names))} and len(names) <= before
        before = len(names)
        shutil.rmtree(folder / "store")


def try_with_byte(folder: Path, log: Path, whole: bytes, at: int) -> None:
    """One bit of a log is another one: that is told, with the record, or what was not synced is cut off."""
    log.write_bytes(whole[:at] + bytes([whole[at] ^ 1 << WORKS.randrange(8)]) + whole[at + 1:])
    again = store_mount(folder)
    if again.stands:
        assert "is cut off" in again.said(), at
        end_well(again)
    assert "record" in again.said() and "log.0" in again.said(), (at, again.said())


def log_of(folder: Path, count: int) -> tuple[Path, bytes]:
    """The log of a mount that made so many files."""
    shutil.rmtree(folder / "store", ignore_errors=True)
    mount = store_mount(folder)
    fill(mount, count)
    end_well(mount)
    log = logs(folder)[-1]
    return log, log.read_bytes()


@case
def a_byte_that_is_changed_is_reported(folder: Path):
    for count, most in ((3, 1 << 20), (40, 100)):
        log, whole = log_of(folder, count)
        for at in WORKS.sample(range(len(whole)), min(most, len(whole))):
            try_with_byte(folder, log, whole, at)
        print(f"a byte of {len(whole)} was changed, {min(most, len(whole))} times")
        log.write_bytes(whole)
        assert names_after(folder) == {f"file{i}" for i in range(count)}


@case
def a_call_that_is_not_done_again_ends_the_start(folder: Path):
    image = Mount(folder, "--image", folder / "image")
    (image.point / "file1").mkdir()
    end_well(image)
    log_of(folder, 3)
    (folder / "image").rename(folder / "store/tree.0")
    write_sums(folder / "store", 0)
    before = {it.name: it.read_bytes() for it in (folder / "store").iterdir()}
    again = store_mount(folder)
    assert not again.stands and re.search("log.0: call [0-9]+ of record [0-9]+, at byte [0-9]+, is not done", again.said())
    assert {it.name: it.read_bytes() for it in (folder / "store").iterdir()} == before


@case
def two_mounts_have_not_one_store(folder: Path):
    mount = store_mount(folder)
    other = store_mount(folder, name="other")
    assert mount.stands and not other.stands and "another mount" in other.said()
    end_well(mount)
    assert names_after(folder) == set()


@case
def another_users_folder_is_no_store(folder: Path):
    (folder / "store").mkdir()
    for mode in (0o777, 0o720):
        (folder / "store").chmod(mode)
        mount = store_mount(folder)
        assert not mount.stands and "others may write in the folder" in mount.said(), mount.said()
    if not os.getuid():
        (folder / "store").chmod(0o700)
        os.chown(folder / "store", 65534, -1)
        mount = store_mount(folder)
        assert not mount.stands and "the folder is another user's" in mount.said(), mount.said()
    assert os.listdir(folder / "store") == []


@case
def a_log_that_others_may_write_to_is_refused_by_its_name(folder: Path):
    mount = store_mount(folder)
    (mount.point / "file").write_text("kept")
    end_well(mount)
    log = logs(folder)[-1]
    for mode, stands in ((0o620, False), (0o602, False), (0o640, True)):
        log.chmod(mode)
        mount = store_mount(folder)
        assert mount.stands == stands and (stands or f"{log.name}: it is no file of this" in mount.said()), mount.said()
        assert mount.end() == 0 if stands else mount.process.wait(timeout=60)
    if not os.getuid():
        os.chown(log, 65534, -1)
        mount = store_mount(folder)
        assert not mount.stands and f"{log.name}: it is no file of this" in mount.said(), mount.said()


@case
def an_image_goes_with_no_store(folder: Path):
    (folder / "image").touch()
    for option in ("--load", "--image"):
        mount = store_mount(folder, option, folder / "image")
        assert not mount.stands and "--store" in mount.said(), mount.said()
    assert not (folder / "store").exists()


@case
def it_is_mounted_with_nosuid_and_nodev_unless_attributes_are_trusted(folder: Path):
    for options, has in (((), True), (("--trust-attributes",), False)):
        if options and os.getuid():
            continue
        mount = store_mount(folder, *options)
        line = next(it for it in Path("/proc/self/mountinfo").read_text().splitlines() if it.split()[4] == str(mount.point))
        words = line.split()[5].split(",")
        assert ("nosuid" in words, "nodev" in words) == (has, has), line
        end_well(mount)


@case
def owners_and_bits_are_trusted(folder: Path):
    owner, mode = (5, 6) if not os.getuid() else (os.getuid(), os.getgid()), 0o6751
    for ends in (end_well, kill, end_well):
        mount = store_mount(folder)
        file = mount.point / ends.__name__
        file.touch()
        os.chown(file, *owner)
        file.chmod(mode)
        sync(mount.point)
        reported = [it.stat() for it in mount.point.iterdir()]
        assert all((it.st_uid, it.st_gid) == owner and it.st_mode & 0o7777 == mode for it in reported), reported
        ends(mount)


@case
def signals_end_it_as_an_unmount_does(folder: Path):
    for number in (signal.SIGTERM, signal.SIGHUP, signal.SIGINT):
        mount = store_mount(folder)
        fill(mount, 200)
        mount.process.send_signal(number)
        time.sleep(0.01)
        mount.process.send_signal(number)
        assert mount.process.wait() == 0, mount.said()
        assert len(names_after(folder)) == 200
        shutil.rmtree(folder / "store")


@case
def images_take_the_place_of_logs(folder: Path):
    mount = store_mount(folder, "--log-size", "100K")
    for i in range(60):
        (mount.point / "file").write_bytes(bytes([i]) * 50000)
        sync(mount.point)
        time.sleep(0.02)
    time.sleep(0.5)
    sizes = sum(it.stat().st_size for it in (folder / "store").iterdir())
    assert sizes < 2000000, sorted(os.listdir(folder / "store"))
    kill(mount)
    again = store_mount(folder)
    assert (again.point / "file").read_bytes() == bytes([59]) * 50000
    end_well(again)


def newest_image(folder: Path) -> int:
    return max(int(it.suffixes[0][1:]) for it in (folder / "store").glob("tree.*.sum"))


def wait_for_image_alone(folder: Path, number: int) -> int:
    """Until an image has taken the place of all before it: its bytes."""
    ends, wanted = time.monotonic() + 60, {"lock", f"log.{number}", f"tree.{number}", f"tree.{number}.sum"}
    while set(os.listdir(folder / "store")) != wanted:
        assert time.monotonic() < ends, sorted(os.listdir(folder / "store"))
        time.sleep(0.01)
    return (folder / f"store/tree.{number}").stat().st_size


def write_mebibytes(mount: Mount, count: int) -> None:
    """Into one file, which has one of them."""
    for _ in range(count):
        (mount.point / "file").write_bytes(WORKS.randbytes(1 << 20))
    sync(mount.point)


@case
def an_image_takes_the_place_of_a_log_above_64_mebibytes(folder: Path):
    mount = store_mount(folder)
    write_mebibytes(mount, 60)
    time.sleep(1)
    assert newest_image(folder) == 0
    write_mebibytes(mount, 8)
    wait_for_image_alone(folder, 1)
    end_well(mount)


@case
def and_above_twice_the_image_before(folder: Path):
    mount = store_mount(folder)
    write_mebibytes(mount, 1)
    end_well(mount)
    mount = store_mount(folder, "--log-size", "100K")
    size = wait_for_image_alone(folder, 1)
    write_mebibytes(mount, 3)
    time.sleep(1)
    taken = sum(it.stat().st_blocks * 512 for it in (folder / "store").iterdir())
    assert newest_image(folder) == 1 and size + (3 << 20) < taken < 3 * size + MOST_AHEAD, (size, taken)
    write_mebibytes(mount, 2)
    wait_for_image_alone(folder, 2)
    end_well(mount)


@case
def a_tree_that_is_damaged_is_not_loaded(folder: Path):
    mount = store_mount(folder, "--log-size", "1K")
    fill(mount, 50)
    sync(mount.point)
    time.sleep(1)
    end_well(mount)
    tree = next((folder / "store").glob("tree.*[0-9]"))
    tree.write_bytes(tree.read_bytes().replace(b"file1", b"fileX", 1))
    again = store_mount(folder)
    assert not again.stands and "checksum" in again.said()
    assert tree.exists()


def keep_much(folder: Path, *options) -> None:
    """More than may wait to be written: large writes with small ones between, then a kill behind a sync."""
    mount, written = store_mount(folder, *options), {}
    for number in range(100):
        bytes_of_it = WORKS.randbytes(1 << 20)
        written |= {f"large{number % 8}": bytes_of_it, f"small{number % 8}": bytes_of_it[-100:]}
        for name in (f"large{number % 8}", f"small{number % 8}"):
            (mount.point / name).write_bytes(written[name])
    sync(mount.point)
    kill(mount)
    again = store_mount(folder, *options)
    assert again.stands, again.said()
    assert {it.name: it.read_bytes() for it in again.point.iterdir()} == written
    end_well(again)


@case
def more_than_may_wait_is_kept_in_order(folder: Path):
    keep_much(folder)


@case
def and_so_it_is_where_little_may_wait(folder: Path):
    keep_much(folder, "--size", "48M")


@case
def a_log_that_is_missing_is_reported(folder: Path):
    mount = store_mount(folder, "--log-size", "1K")
    fill(mount, 50)
    sync(mount.point)
    time.sleep(1)
    end_well(mount)
    log = logs(folder)[-1]
    assert log.name != "log.0"
    log.rename(folder / "elsewhere")
    again = store_mount(folder)
    assert not again.stands and f"{log.name} is missing" in again.said()
    (folder / "elsewhere").rename(log)
    assert names_after(folder) == {f"file{i}" for i in range(50)}


@case
def mounts_that_are_killed_young_come_to_write_an_image(folder: Path):
    """A start that finds more than twice as much log as there may be writes an image before the mount stands."""
    written = {}
    for number in range(16):
        mount = store_mount(folder, "--log-size", "100K")
        assert mount.stands and {it.name: it.read_bytes() for it in mount.point.iterdir()} == written, mount.said()
        assert sum(it.stat().st_size for it in logs(folder)) < 250_000, (number, sorted(os.listdir(folder / "store")))
        written = {f"file{i}": WORKS.randbytes(90_000) for i in range(4)}
        for name, data in written.items():
            (mount.point / name).write_bytes(data)
        sync(mount.point)
        kill(mount)
    assert names_after(folder) == set(written)


@case
def an_image_can_begin_a_store(folder: Path):
    mount = Mount(folder, "--image", folder / "image")
    (mount.point / "file").write_text("file")
    end_well(mount)
    (folder / "store").mkdir(mode=0o700)
    (folder / "image").rename(folder / "store/tree.0")
    again = store_mount(folder)
    (again.point / "later").write_text("later")
    end_well(again)
    assert names_after(folder) == {"file", "later"}


CHANGES = "mkdir create unlink rmdir rmtree rename truncate write snapshot drop restore".split()


def changes_in(script: list[str], replies: list[str] | None = None) -> list[tuple[str, str]]:
    """The changes of a script that were done, each with its moment."""
    moment, out = "", []
    for line, reply in zip(script, replies or ["ok"] * len(script), strict=True):
        word = line.split(" ")[0]
        if word == "at":
            moment = line
        elif word in CHANGES and reply.split(" ")[0] in ("ok", "count"):
            out.append(("" if word in ("snapshot", "drop", "restore") else moment, line))
    return out


def lines_of_replies(text: str) -> list[str]:
    """The first line of each reply."""
    lines, out = iter(text.splitlines()), []
    for line in lines:
        out.append(line)
        for _ in range(int(line.split(" ")[1]) if line.startswith("names ") else 0):
            next(lines)
    return out


def script_lines(text: str) -> list[str]:
    return [line for line in text.splitlines() if line and not line.startswith("#")]


@case
def its_logs_are_reported_as_the_lines_of_what_was_done(folder: Path):
    mount = store_mount(folder, "--trace", folder / "record")
    for step, _ in itertools.islice(store_states.steps(7), 400):
        store_states.do(mount.point, step)
    (mount.point / "large").write_bytes(WORKS.randbytes(300_000))
    (mount.point / ".snapshots/one").mkdir()
    os.setxattr(mount.point / "large", "user.color", b"blue")
    assert subprocess.run([MOUNT, "--dump-log", folder / "store"], capture_output=True).returncode == 1
    end_well(mount)
    reported = subprocess.run([MOUNT, "--dump-log", folder / "store"], capture_output=True, text=True, check=True).stdout
    record = [(folder / f"record.{it}").read_text() for it in ("in", "out")]
    wanted = changes_in(script_lines(record[0]), lines_of_replies(record[1]))
    assert changes_in(script_lines(reported)) == wanted and len(wanted) > 400, len(wanted)
    assert subprocess.run([MOUNT, "--dump-log", folder / "gone"], capture_output=True).returncode == 1
    assert not (folder / "gone").exists()


run_cases()
