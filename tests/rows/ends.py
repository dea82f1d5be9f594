"""How the program ends where what it reads or writes fails, and what is told by its beginning and its end alone."""
import functools
import os
import re
import subprocess
import tempfile
from collections.abc import Callable, Iterator
from pathlib import Path

SECONDS = 300

# What the header of the C library says, which has the release for all parts.
HEADER = Path(__file__).resolve().parents[2] / "include/doorvervain.h"
RELEASE = re.search(r'^#define DOORVERVAIN_VERSION "(.*)"', HEADER.read_text(), re.M).group(1)

Ended = tuple[int, bytes, bytes]
# A name, and what tells how a program ends otherwise than it must; that is empty where it does not.
End = tuple[str, Callable[[str], str]]


def ended(betr: str, words: list, stdin: int | bytes = b"", stdout: int = subprocess.PIPE, stderr: int = subprocess.PIPE) -> Ended:
    given = {"input": stdin} if isinstance(stdin, bytes) else {"stdin": stdin}
    ran = subprocess.run([betr, *words], stdout=stdout, stderr=stderr, timeout=SECONDS, **given)
    return ran.returncode, ran.stdout or b"", ran.stderr or b""


def fault(is_so: bool, got: object) -> str:
    return "" if is_so else f"it ends so: {got}"


HELP = [["--help"], ["-h", "--fanout", "8"]]


def is_help(betr: str, words: list) -> str:
    status, output, errors = got = ended(betr, words, b"mkdir /a\n")
    is_text = output.startswith(b"Runs a script of file calls ") and output.endswith(b"  names 1\n  f x\n")
    return fault(status == 0 and is_text and not errors, got)


RELEASES = [["--version"], ["-V", "--fanout", "8"]]


def is_release(betr: str, words: list) -> str:
    got = ended(betr, words, b"mkdir /a\n")
    return fault(got == (0, f"betr {RELEASE}\n".encode(), b""), got)


# Command lines that the table of options has not.
REFUSED = [
    ["--steps", "1001"],
    ["--fanout", "3"],
    ["--fanout", "65"],
    ["--pending", "3"],
    ["--pending", "1025"],
    ["--leaf", "3"],
    ["--leaf", "1025"],
    ["--leaf", "many"],
    ["--leaf", "4x"],
    ["--leaf", ""],
    ["--leaf"],
    ["--dot"],
    ["--dot", "/dev/null", "--dot", "/dev/null"],
    ["--leaf", "5", "--leaf", "6"],
    ["--strict", "--strict"],
    ["--explain=yes"],
    ["--flushers", "9"],
    ["--flushers", "-1"],
    ["--unknown"],
    ["script", "another"],
]


def is_refused(betr: str, words: list) -> str:
    status, output, errors = got = ended(betr, words, b"mkdir /a\n")
    return fault(status == 2 and not output and errors.startswith(b"error: ") and errors.endswith(b"\n"), got)


def is_no_text(betr: str) -> str:
    status, output, _ = got = ended(betr, [b"\xff"], b"mkdir /a\n")
    return fault(status == 2 and not output, got)


def standard_input_is_a_folder(betr: str) -> str:
    folder = os.open("/", os.O_RDONLY)
    try:
        got = ended(betr, ["--image"], folder)
    finally:
        os.close(folder)
    return fault(got == (1, b"", b"betr: read failed\n"), got)


# Command lines that cannot write what they print, with their scripts.
UNWRITTEN = [([], b"stat /\n"), (["--strict"], b"unlink /x\n"), (["--image"], b"stat /\n"), (["--image"], b""), (["--help"], b""), (["--version"], b"")]


def is_unwritten(betr: str, words: list, script: bytes) -> str:
    with open("/dev/full", "wb") as full:
        got = ended(betr, words, script, full.fileno())
    return fault(got == (1, b"", b"betr: write failed\n"), got)


def is_explained(betr: str) -> str:
    with open("/dev/full", "wb") as full:
        got = ended(betr, ["--explain"], b"stat /\n", full.fileno())
    return fault(got == (1, b"", b"betr: standard output: No space left on device (os error 28)\nbetr: write failed\n"), got)


# How many files come and go.
FILES = 3_000


def leaves(betr: str, script: str) -> int:
    """How many leaves the index of metadata has at the end of a script that steps follow, by its drawing."""
    words = ["--fanout", "8", "--pending", "32", "--leaf", "16", "--steps", "4", "--dot", "/dev/stdout"]
    _, output, _ = ended(betr, words, script.encode())
    return len(re.findall(rb'^n\d+ \[label="\d+ of \d+ entries"', output, re.M))


def removals_leave_few_leaves(betr: str) -> str:
    made = "mkdir /d\n" + "".join(f"create /d/f{i:04}\n" for i in range(FILES))
    gone = "".join(f"unlink /d/f{i:04}\n" for i in range(FILES))
    before, after = leaves(betr, made), leaves(betr, made + gone)
    # A leaf has at most 16 entries. Leaves that are never merged stay as many as they were.
    return fault(before >= FILES // 32 and after <= before // 2, f"{before} leaves, and {after} when all files are gone")


# Lines behind which steps once found no room in trees of few slots, and how many files come then.
NARROW = (Path(__file__).resolve().parent / "narrow_trees.script").read_text()
MORE = 10_000


def pending(betr: str, steps: int) -> int:
    """How many messages the root of the metadata holds at the end, by the drawing."""
    words = ["--fanout", "4", "--pending", "5", "--leaf", "4", "--steps", str(steps), "--dot", "/dev/stdout"]
    made = "".join(f"create /more{i}\n" for i in range(MORE))
    _, output, _ = ended(betr, words, (NARROW + made).encode())
    return int(re.search(rb'^n0 \[label="\{\d+ of \d+ slots, (\d+) messages', output, re.M).group(1))


def steps_keep_up(betr: str) -> str:
    without, rest = pending(betr, 0), pending(betr, 100)
    return fault(without >= MORE and rest <= 100, f"{without} messages are pending without steps, and {rest} with steps")


# Command lines, and the status of each where neither output nor errors can be written.
UNSAID = [([], 0), (["--image"], 1), (["/no/such/folder/script"], 1), (["--fanout", "3"], 2)]


def is_unsaid(betr: str, words: list, status: int) -> str:
    with open("/dev/full", "wb") as full:
        got = ended(betr, words, b"", full.fileno(), full.fileno())
    return fault(got[0] == status, got)


# A script, each line with its answer; what the last line is answered with stands behind a write that fails in its middle.
SNAPSHOT = [
    (b"mkdir /a\n", b"ok\n"),
    (b"create /a/x\n", b"ok\n"),
    (b"snapshot s\n", b"ok\n"),
    (b"rmtree /a\n", b"ok\n"),
    (b"readdir@s /a\n", b"names 1\nf x\n"),
    (b"stat /a\n", b"fault ENOENT\n"),
    (b"restore s\n", b"ok\n"),
    (b"readdir /a\n", b"names 1\nf x\n"),
]
SCRIPT, TOLD = (b"".join(it) for it in zip(*SNAPSHOT))

# A script that answers nothing but its image.
CUT = b"create /f\nwrite /f 0 ffffffffffffffffffff\ntruncate /f 5\ntruncate /f 9000\n"
CUT_TOLD = b"ok\ncount 10\nok\nok\nD / 0\nF /f 9000 0\nb 0 ffffffffff\n"


@functools.lru_cache(maxsize=None)
def shim() -> tuple[tempfile.TemporaryDirectory, str]:
    """A library that makes reads and writes fail, with its folder."""
    folder = tempfile.TemporaryDirectory()
    library = f"{folder.name}/fail_io.so"
    source = Path(__file__).resolve().parent / "fail_io.c"
    subprocess.run(["cc", "-O1", "-shared", "-fPIC", "-o", library, source], check=True)
    return folder, library


def ended_failing(betr: str, words: list, script: bytes, **how: int) -> Ended:
    """How the program ends with a read or a write that fails, or is interrupted."""
    env = {**os.environ, "LD_PRELOAD": shim()[1], **{name.upper(): str(it) for name, it in how.items()}}
    ran = subprocess.run([betr, *words], input=script, capture_output=True, timeout=SECONDS, env=env)
    return ran.returncode, ran.stdout, ran.stderr


def stops_at_each_read(betr: str, words: list) -> str:
    """With a read that fails behind each byte of the script, each line that is complete is done and answered, and no other."""
    for given in range(len(SCRIPT) + 1):
        answers = b"".join(answer for _, answer in SNAPSHOT[: SCRIPT[:given].count(b"\n")])
        got = ended_failing(betr, words, SCRIPT, given=given)
        if got != (1, answers, b"betr: read failed\n"):
            return f"with {given} bytes it ends so: {got}"
    return ""


def stops_at_each_write(betr: str, words: list, script: bytes, answers: bytes) -> str:
    """With a write that fails behind each byte of the answers, these are written and no more."""
    for taken in range(len(answers)):
        got = ended_failing(betr, words, script, taken=taken)
        if got != (1, answers[:taken], b"betr: write failed\n"):
            return f"where {taken} bytes are taken it ends so: {got}"
    got = ended_failing(betr, words, script, taken=len(answers))
    return fault(got == (0, answers, b""), got)


def goes_on_after_a_signal(betr: str) -> str:
    got = ended_failing(betr, [], SCRIPT, signal=1)
    return fault(got == (0, TOLD, b""), got)


# How many lines are answered together: they are some three pieces that are read at once.
LINES = 20_000


def answers_in_few_writes(betr: str) -> str:
    status, output, errors = ended_failing(betr, [], b"stat /\n" * LINES, writes=1)
    writes = int(re.sub(rb"^writes (\d+)\n$", rb"\1", errors))
    return fault(status == 0 and output == b"dir 0 0\n" * LINES and writes <= LINES // 100, f"{writes} writes")


def answers_before_it_reads(betr: str) -> str:
    """Each line is answered before the next is given."""
    with subprocess.Popen([betr], stdin=subprocess.PIPE, stdout=subprocess.PIPE) as running:
        for line, answer in SNAPSHOT:
            running.stdin.write(line)
            running.stdin.flush()
            got = running.stdout.read(len(answer))
            if got != answer:
                running.kill()
                return f"to {line!r} it answers {got!r}"
        running.stdin.close()
        return fault(running.stdout.read() == b"" and running.wait(SECONDS) == 0, running.returncode)


def each() -> Iterator[End]:
    shim()  # It is built once, before threads ask for it.
    for words in [], ["--steps", "1"]:
        yield f"a read fails: {words}", lambda betr, words=words: stops_at_each_read(betr, words)
        yield f"a write fails: {words}", lambda betr, words=words: stops_at_each_write(betr, words, SCRIPT, TOLD)
    yield "a write of the image fails", lambda betr: stops_at_each_write(betr, ["--image"], CUT, CUT_TOLD)
    yield "a signal", goes_on_after_a_signal
    yield "answers in few writes", answers_in_few_writes
    yield "each line is answered before the next", answers_before_it_reads
    for words in HELP:
        yield f"help is output: {words}", lambda betr, words=words: is_help(betr, words)
    for words in RELEASES:
        yield f"the release is output: {words}", lambda betr, words=words: is_release(betr, words)
    for words in REFUSED:
        yield f"refused words are an error: {words}", lambda betr, words=words: is_refused(betr, words)
    yield "a word is no text", is_no_text
    yield "standard input is a folder", standard_input_is_a_folder
    for words, script in UNWRITTEN:
        yield f"nothing can be written: {words} {script!r}", lambda betr, it=(words, script): is_unwritten(betr, *it)
    yield "a failed write is explained", is_explained
    yield "removals leave few leaves", removals_leave_few_leaves
    yield "steps keep up in narrow trees", steps_keep_up
    for words, status in UNSAID:
        yield f"no error can be written: {words}", lambda betr, it=(words, status): is_unsaid(betr, *it)
