"""A frame for cases, each of which runs in an empty folder below the one that the program is started in."""
import errno
import os
import shutil
import struct
import sys
import traceback
from collections.abc import Callable

MNT = os.environ.get("MNT", "")
CAPABILITY = struct.pack("<5I", 0x02000001, 1 << 10, 0, 0, 0)  # a value of `security.capability`: to bind to low ports
CASES: list[Callable[[], None]] = []


def case(run: Callable[[], None]) -> Callable[[], None]:
    CASES.append(run)
    return run


def mount_case(run: Callable[[], None]) -> Callable[[], None]:
    """A case of what the mount alone does, and no other file system."""
    return case(run) if MNT else run


def root_case(run: Callable[[], None]) -> Callable[[], None]:
    """A case that only the superuser can make."""
    return case(run) if os.getuid() == 0 else run


def put(path, data: bytes = b"") -> None:
    with open(path, "wb") as file:
        file.write(data)


def get(path) -> bytes:
    with open(path, "rb") as file:
        return file.read()


def refused(number: int, call, *words, **named) -> None:
    try:
        call(*words, **named)
    except OSError as fault:
        assert fault.errno == number, f"{errno.errorcode[fault.errno]}, not {errno.errorcode[number]}"
    else:
        raise AssertionError(f"not refused: {words}")


def passes(run: Callable[[], None], top: str) -> bool:
    folder = os.path.join(top, run.__name__)
    os.mkdir(folder)
    os.chdir(folder)
    try:
        run()
        os.chdir(top)
        shutil.rmtree(folder)
        return True
    except BaseException:
        print("failed:", run.__name__)
        traceback.print_exc(file=sys.stdout)
        os.chdir(top)
        return False


def run_cases() -> None:
    """Runs the cases, or those that are named; what fails or is left is printed, and the status tells it."""
    top = os.getcwd()
    wanted = [run for run in CASES if run.__name__ in sys.argv[1:]] or CASES
    passed = sum(passes(run, top) for run in wanted)
    left = os.listdir(top)
    if left:
        print("left:", left)
    print(f"{passed} of {len(wanted)} cases work")
    sys.exit(0 if passed == len(wanted) and not left else 1)
