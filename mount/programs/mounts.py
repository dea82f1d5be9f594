"""What a mount does with odd names and at odd moments."""
import errno
import os
import signal
import stat
import subprocess
import time
from pathlib import Path

from cases import refused
from own_mount import MOUNT, Mount, case, run_cases


@case
def a_name_that_is_none_takes_no_snapshot_and_nothing_else(folder: Path):
    mount = Mount(folder)
    (mount.point / "data").mkdir()
    (mount.point / "data/file").write_text("abc")
    for name in ("x\nrmtree %2Fdata", "a b", "a\tb", "%41", "ü", "n" * 65, "\n" * 255):
        refused(errno.EINVAL, os.mkdir, mount.point / ".snapshots" / name)
    assert (mount.point / "data/file").read_text() == "abc"
    os.mkdir(mount.point / ".snapshots/good")
    assert os.listdir(mount.point / ".snapshots") == ["good"]
    assert (mount.point / ".snapshots/good/data/file").read_text() == "abc"
    assert mount.end() == 0, mount.said()


@case
def a_mode_that_is_later_than_the_snapshot_goes_by_its_restore(folder: Path):
    (folder / "image").write_text("D / 5\nD /folder 5\nF /folder/file 0 5\nF /other 0 5\n")
    mount = Mount(folder, "--load", folder / "image")
    os.mkdir(mount.point / ".snapshots/s")
    os.chmod(mount.point / "folder/file", 0o600)
    os.chmod(mount.point / "folder", 0o700)
    os.setxattr(mount.point / "other", "user.name", b"value")
    subprocess.run([MOUNT, "--restore", "s", mount.point], check=True)
    assert stat.S_IMODE(os.stat(mount.point / "folder/file").st_mode) == 0o644
    assert stat.S_IMODE(os.stat(mount.point / "folder").st_mode) == 0o755
    assert os.listxattr(mount.point / "other") == []
    assert mount.end() == 0, mount.said()


@case
def a_mount_point_with_a_space_is_read_ahead(folder: Path):
    mount = Mount(folder, name="with space")
    device = os.stat(mount.point).st_dev
    setting = Path(f"/sys/class/bdi/{os.major(device)}:{os.minor(device)}/read_ahead_kb")
    if os.access(setting, os.W_OK):
        assert setting.read_text() == "1024\n", setting.read_text()
    assert mount.end() == 0, mount.said()


@case
def a_mount_ends_while_a_snapshot_is_restored(folder: Path):
    for part in range(12):
        mount = Mount(folder, "--image", folder / "image")
        for i in range(1500):
            (mount.point / f"file{i}").touch()
        os.mkdir(mount.point / ".snapshots/s")
        restores = subprocess.Popen([MOUNT, "--restore", "s", mount.point], stderr=subprocess.DEVNULL)
        time.sleep(0.004 * part)
        assert mount.end(signal.SIGTERM) == 0, mount.said()
        restores.wait(timeout=60)
        assert (folder / "image").read_bytes().count(b"\n") == 1501


def available() -> int:
    """What is available of the machine's memory, in bytes."""
    lines = Path("/proc/meminfo").read_text().splitlines()
    return next(int(line.split()[1]) * 1024 for line in lines if line.startswith("MemAvailable:"))


@case
def df_tells_what_is_available(folder: Path):
    mount = Mount(folder)
    off = []
    for _ in range(10):
        reported = os.statvfs(mount.point)
        off.append(abs(reported.f_bavail * reported.f_frsize - available()))
        time.sleep(0.05)
    assert min(off) < 64 << 20, off
    assert mount.end() == 0, mount.said()


def processor_time(process: int) -> float:
    """What a process took of the processors, in seconds."""
    parts = Path(f"/proc/{process}/stat").read_text().rpartition(")")[2].split()
    return (int(parts[11]) + int(parts[12])) / os.sysconf("SC_CLK_TCK")


@case
def a_mount_that_is_asked_little_sleeps(folder: Path):
    for options in (["--busy-poll", "0"], [], ["--busy-poll", "1000"]):
        mount = Mount(folder, *options)
        for i in range(1000):
            (mount.point / f"file{i}").touch()
        began = processor_time(mount.process.pid)
        for i in range(100):
            time.sleep(0.01)
            assert not os.path.exists(mount.point / f"none{i}")
        assert processor_time(mount.process.pid) - began < 0.05
        assert mount.end() == 0, mount.said()


@case
def a_bad_busy_poll_is_refused(folder: Path):
    for word in ("1001", "-1", "x", ""):
        refusal = subprocess.run([MOUNT, "--busy-poll", word, folder], capture_output=True, text=True)
        assert refusal.returncode == 2 and "--busy-poll takes 0 to 1000, not" in refusal.stderr


run_cases()
