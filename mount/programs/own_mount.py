"""Mounts of a program's own, each in the foreground, and a frame for cases that make them."""
import os
import shutil
import signal
import subprocess
import sys
import tempfile
import time
import traceback
from collections.abc import Callable
from pathlib import Path

MOUNT = os.environ["MOUNT"]
CASES: list[Callable[[Path], None]] = []


def case(run: Callable[[Path], None]) -> Callable[[Path], None]:
    CASES.append(run)
    return run


class Mount:
    """It is tried to mount on a folder; `stands` says whether that was done."""

    def __init__(self, folder: Path, *options, name: str = "mnt", environment: dict[str, str] | None = None):
        self.point, self.words = folder / name, folder / "said"
        self.point.mkdir(exist_ok=True)
        with self.words.open("w") as said:
            command = [MOUNT, "--foreground", *map(str, options), self.point]
            self.process = subprocess.Popen(command, stdin=subprocess.DEVNULL, stderr=said, start_new_session=True,
                                            env=os.environ | (environment or {}))
        while not os.path.ismount(self.point) and self.process.poll() is None:
            time.sleep(0.01)
        self.stands = self.process.poll() is None

    def said(self) -> str:
        return self.words.read_text()

    def end(self, number: int | None = None) -> int:
        """Takes it away, or sends it a signal, and waits: the status of its process."""
        if number is None:
            for _ in range(50):
                if subprocess.run(["fusermount3", "-u", self.point], stderr=subprocess.DEVNULL).returncode == 0:
                    break
                time.sleep(0.1)
        else:
            self.process.send_signal(number)
        return self.process.wait(timeout=120)

    def clear(self) -> None:
        if self.process.poll() is None:
            self.process.kill()
            self.process.wait()
        subprocess.run(["fusermount3", "-uz", self.point], stderr=subprocess.DEVNULL)


def passes(run: Callable[[Path], None]) -> bool:
    folder = Path(tempfile.mkdtemp(prefix="doorvervain-case-"))
    try:
        run(folder)
        return True
    except BaseException:
        print("failed:", run.__name__)
        traceback.print_exc(file=sys.stdout)
        if (folder / "said").exists():
            print((folder / "said").read_text())
        return False
    finally:
        for point in folder.iterdir():
            if point.is_dir() and is_mounted(point):
                subprocess.run(["fusermount3", "-uz", point], stderr=subprocess.DEVNULL)
        shutil.rmtree(folder, ignore_errors=True)


def is_mounted(point: Path) -> bool:
    written = str(point).replace(" ", "\\040")
    return any(line.split()[4] == written for line in Path("/proc/self/mountinfo").read_text().splitlines())


def take_back_ignored_signals() -> None:
    """Below `nohup`, or in the background of a shell, these would be ignored, also by the mounts that they have to end."""
    for number in (signal.SIGHUP, signal.SIGINT):
        if signal.getsignal(number) == signal.SIG_IGN:
            signal.signal(number, lambda *_: None)


def run_cases() -> None:
    """Runs the cases, or those that are named; the status says whether all passed."""
    take_back_ignored_signals()
    wanted = [run for run in CASES if run.__name__ in sys.argv[1:]] or CASES
    passed = sum(passes(run) for run in wanted)
    print(f"{passed} of {len(wanted)} cases work")
    sys.exit(0 if passed == len(wanted) else 1)
