"""Differences of trees, out of one mount and into another."""
import hashlib
import os
import random
import shutil
import subprocess
import time
from pathlib import Path

from kept import TRUST, restore
from mixed_trees import PIPE_BUFFER, change, change_at_random, make, same
from own_mount import MOUNT, Mount, case, run_cases
from own_store import WORKS, end_well, fill, kill, snapshot, store_mount, sync
from read_store import Store
from seen import alike, seen

ROUNDS, KILLS, MANY, CHANGES = 25, 12, 1500, 8


def two_mounts(folder: Path, *options) -> tuple[Mount, Mount]:
    """With one snapshot of the empty tree in the first."""
    one, other = Mount(folder, "--image", folder / "one", name="from"), Mount(folder, *TRUST, *options, name="to")
    assert one.stands and other.stands, one.said()
    snapshot(one, "none")
    return one, other


def send(mount: Mount, *names: str) -> bytes:
    return subprocess.run([MOUNT, "--send", *names, mount.point], stdout=subprocess.PIPE, check=True).stdout


def receive(mount: Mount, text: bytes) -> None:
    subprocess.run([MOUNT, "--receive", mount.point], input=text, check=True)


def refused(*words, text: bytes = b"") -> str:
    """Of a call that fails by status 1: the one line that it says, and nothing is printed."""
    done = subprocess.run([MOUNT, *words], input=text, capture_output=True)
    assert (done.returncode, done.stdout) == (1, b""), done
    line, = done.stderr.decode().splitlines()
    assert line.startswith("doorvervain-mount: "), line
    return line.removeprefix("doorvervain-mount: ")


def blocks_of(path: Path) -> int:
    return path.stat().st_blocks


# ---- what comes is what was sent


@case
def a_chain_of_three(folder: Path):
    one, other = two_mounts(folder, "--image", folder / "other")
    first = snapshot(other, "first")
    was, states = seen(first), []
    for before, name, work in (("none", "one", make), ("one", "two", change), ("two", "three", lambda top: None)):
        work(one.point)
        if name == "three":
            shutil.rmtree(one.point / "folder")
        same_as = snapshot(one, name)
        text = send(one, before, name)
        assert text == send(one, before)
        states.append((text, seen(same_as)))
        receive(other, text)
        same(one.point, other.point)
        same(same_as, snapshot(other, name))
    assert len(states[0][0]) > 4 * PIPE_BUFFER
    alike(seen(first), was)
    for name, (_, state) in zip(("one", "two", "three"), states):
        alike(seen(other.point / ".snapshots" / name), state)
    assert blocks_of(other.point / "sparse") == blocks_of(one.point / "sparse") <= 16
    end_well(one)
    end_well(other)
    assert (folder / "one").read_bytes() == (folder / "other").read_bytes()


@case
def by_a_pipe_and_back_to_an_older_tree(folder: Path):
    one, other = two_mounts(folder)
    make(one.point)
    snapshot(one, "one")
    with subprocess.Popen([MOUNT, "--send", "none", "one", one.point], stdout=subprocess.PIPE) as sends:
        subprocess.run([MOUNT, "--receive", other.point], stdin=sends.stdout, check=True)
    same(one.point, other.point)
    receive(other, send(one, "one", "none"))
    assert os.listdir(other.point) == []
    receive(other, send(one, "none"))
    same(one.point, other.point)
    end_well(one)
    end_well(other)


@case
def many_small_changes(folder: Path):
    works = random.Random(64)
    one, other = two_mounts(folder, "--image", folder / "other")
    before, names = "none", [f"{i}" for i in range(6)]
    for i in range(ROUNDS):
        for _ in range(works.randrange(1, 30)):
            change_at_random(works, one.point, names)
        snapshot(one, f"at{i}")
        receive(other, send(one, before, f"at{i}"))
        same(one.point, other.point)
        (one.point / ".snapshots" / before).rmdir()
        before = f"at{i}"
    end_well(one)
    end_well(other)
    assert (folder / "one").read_bytes() == (folder / "other").read_bytes()


@case
def what_is_unlinked_and_open_is_not_sent(folder: Path):
    one, other = two_mounts(folder, "--image", folder / "other")
    (one.point / "stays").write_text("stays")
    held = (one.point / "held").open("w+")
    held.write("nobody's")
    held.flush()
    (one.point / "held").unlink()
    snapshot(one, "one")
    text = send(one, "none", "one")
    assert b"unlinked" not in text and text == send(one, "none")
    receive(other, text)
    held.seek(0)
    assert held.read() == "nobody's" and os.listdir(other.point) == ["stays"]
    held.close()
    end_well(other)
    other = Mount(folder, *TRUST, "--load", folder / "other", "--image", folder / "other", name="to")
    (one.point / "stays").write_text("goes on")
    receive(other, send(one, "one"))
    assert (other.point / "stays").read_text() == "goes on"
    end_well(one)
    end_well(other)


# ---- what the kernel and open files know


@case
def the_kernel_is_notified(folder: Path):
    one, other = two_mounts(folder)
    make(one.point)
    snapshot(one, "one")
    receive(other, send(one, "none", "one"))
    seen(other.point)
    with (other.point / "large").open("rb") as stays, (other.point / "folder/file5").open("rb") as gets_shorter:
        stays.read(1)
        change(one.point)
        snapshot(one, "two")
        receive(other, send(one, "one", "two"))
        same(one.point, other.point)
        stays.seek(0)
        assert stays.read() == (one.point / "large").read_bytes()
        assert len(gets_shorter.read()) == 100
    (other.point / "large").write_text("goes on")
    end_well(one)
    end_well(other)


@case
def numbers_of_files_do_not_meet(folder: Path):
    """A file that the mount knew has not the number of one with several names that comes."""
    one, other = two_mounts(folder)
    for i in range(40):
        (one.point / f"own{i}").write_text(f"own{i}")
    snapshot(one, "one")
    receive(other, send(one, "none", "one"))
    seen(other.point)
    for i in range(0, 40, 2):
        os.link(one.point / f"own{i}", one.point / f"linked{i}")
    snapshot(one, "two")
    receive(other, send(one, "one", "two"))
    same(one.point, other.point)
    for i in range(1, 40, 2):
        os.link(other.point / f"own{i}", other.point / f"linked{i}")
    for i in range(40):
        assert (other.point / f"linked{i}").read_text() == f"own{i}"
        assert (other.point / f"own{i}").samefile(other.point / f"linked{i}")
    assert len({os.lstat(other.point / f"own{i}").st_ino for i in range(40)}) == 40
    end_well(one)
    end_well(other)


# ---- what is refused, and changes nothing


def heading(image: bytes) -> bytes:
    """The first line of a difference of format 1."""
    return b"delta 1 " + hashlib.sha256(image).hexdigest().encode() + b"\n"


def unfit(line: int, mount: Mount) -> str:
    return f"line {line} of the difference does not fit the tree of {mount.point}"


def bad(line: int) -> str:
    return f"no difference from line {line} on"


@case
def texts_that_are_refused(folder: Path):
    one, other = two_mounts(folder)
    make(one.point)
    snapshot(one, "one")
    receive(other, send(one, "none", "one"))
    change(one.point)
    text = send(one, "one")
    snapshot(other, "mine")
    was, lines = seen(other.point), text.splitlines(keepends=True)
    last = len(lines)
    cases = [(send(one, "none", "one"), unfit(2, other)), (b"", bad(1)), (text[:-1], bad(last)),
             (text + b"x", bad(last + 1)), (text + lines[-1], bad(last + 1)), (lines[0] + text, bad(2)),
             (b"".join(lines[:4] + [b"x" + lines[4]] + lines[5:]), bad(5)),
             (b"".join(lines[:5] + lines[4:]), unfit(6, other)),
             (b"".join(lines[:-1] + [b"- F /not_there 0 0\n", b"end\n"]), unfit(last, other)),
             (heading(b"x") + b"end\n", unfit(1, other)), (heading(b"x"), bad(2)), (b"delta 1 x\nend\n", bad(1)),
             (b"delta 3\nend\n", bad(1))]
    for damaged, words in cases:
        said = refused("--receive", other.point, text=damaged)
        assert said == words, (said, words)
        alike(seen(other.point), was)
    assert os.listdir(other.point / ".snapshots") == ["mine"]
    receive(other, text)
    same(one.point, other.point)
    end_well(one)
    end_well(other)


ZEROS = hashlib.sha256(b"\1").hexdigest().encode()


@case
def edits_by_hand(folder: Path):
    """Each text is of an empty tree, whose root has the mtime 0; behind it is the line that is bad, or does not fit."""
    mount = Mount(folder)
    unfitting = [(b"- F /a 0 0\n", 2), (b"- D / 0\n", 2), (b"! D / 1 2\n", 2), (b"! F /a 0 1 0 2\n", 2), (b"b /a 0 - 01\n", 2),
                 (b"+ D / 1\n", 2), (b"+ F /a/b 0 1\n", 2), (b"+ F /a 0 1\n+ F /a 0 1\n", 3),
                 (b"+ F /a 0 1\n+ F /a/b 0 1\n", 3), (b"+ D /a 1\n+ F /a/b 0 1\n- D /a 1\n", 4),
                 (b"+ F /a 1099511627777 1\n", 2), (b"+ F /a 3 1\nb /a 0 - 01020304\n", 3), (b"+ F /a 3 1\nb /a 1 - 01\n", 3),
                 (b"+ F /a 3 1\nb /a 0 %s 02\n" % ZEROS, 3), (b"+ F /a 0 1\n! F /a 1 1 2 1\n", 3),
                 (b"! D / 0 7\n! D / 0 7\n", 3)]
    no_lines = [b"\n", b"+ F /a 3\n", b"= 1\n", b"+ F /a 0 01\n", b"+ D /%00 1\n", b"+ D /%61 1\n", b"+ D a 1\n", b"+ D /../a 1\n",
                b"b /a 0 - 0\n", b"x"]
    for lines, line in unfitting:
        said = refused("--receive", mount.point, text=b"delta 2\n" + lines + b"end\n")
        assert said == unfit(line, mount), (lines, said)
    for line in no_lines:
        said = refused("--receive", mount.point, text=b"delta 2\n! D / 0 7\n" + line + b"end\n")
        assert said == bad(3), (line, said)
    assert os.listdir(mount.point) == []
    receive(mount, b"delta 2\n! D / 0 7\n+ D /d 8\n+ F /d/a 5000 9\nb /d/a 0 - 68690a\nb /d/a 1 - 21\nend\n")
    assert (mount.point / "d/a").read_bytes() == b"hi\n" + bytes(4093) + b"!" + bytes(903)
    assert [os.stat(mount.point / it).st_mtime_ns for it in (".", "d", "d/a")] == [7, 8, 9]
    end_well(mount)


@case
def a_text_of_format_1_is_received(folder: Path):
    """Beside a snapshot, which stays; what it is not of is told by its first line."""
    one, other = two_mounts(folder, "--store", folder / "store")
    make(one.point)
    snapshot(one, "one")
    change(one.point)
    text, back = (folder_image(one, folder, before, after) for before, after in (("none", ""), ("", "one")))
    first = snapshot(other, "first")
    receive(other, text)
    same(one.point, other.point)
    assert os.listdir(first) == [] and refused("--receive", other.point, text=text) == unfit(1, other)
    receive(other, back)
    same(one.point / ".snapshots/one", other.point)
    other = killed_and_new(folder, other)
    same(one.point / ".snapshots/one", other.point)
    end_well(one)
    end_well(other)


def folder_image(mount: Mount, folder: Path, before: str, after: str) -> bytes:
    """The difference of format 1 between two trees of a mount, all of whose lines go and come."""
    old, new = (image_of(mount, folder, name) for name in (before, after))
    gone, come = old.count(b"\n"), b"".join(b"+ " + line for line in new.splitlines(keepends=True))
    return heading(old) + b"- %d\n" % gone + come + b"end\n"


def image_of(mount: Mount, folder: Path, name: str) -> bytes:
    """The image of a tree: that of a mount that received the difference between the empty tree and it."""
    shutil.rmtree(folder / "images", ignore_errors=True)
    (folder / "images").mkdir()
    copy = Mount(folder / "images", *TRUST, "--image", folder / "images/image")
    if name != "none":
        receive(copy, send(mount, "none", *([name] if name else [])))
    end_well(copy)
    return (folder / "images/image").read_bytes()


@case
def what_makes_no_tree(folder: Path):
    """By texts of format 1."""
    image = folder / "image"
    end_well(Mount(folder, "--image", image))
    assert image.read_bytes() == b"D / 0\n"
    mount, front = Mount(folder), heading(image.read_bytes())
    commands = [b"", b"- 1\n", b"= 2\n", b"= 1\n+ \n", b"= 1\n+ F /a 3\n", b"= 1\n+ b 0 01\n",
                b"= 1\n+ F /a 3 4\n+ b 0 00\n", b"= 1\n+ F /a 3 4\n+ b 0 01020304\n",
                b"= 1\n+ F /a/b 0 1\n", b"= 1\n+ F /b 0 1\n+ F /a 0 1\n",
                b"= 1\n+ F /a 0 01\n", b"+ D / 1\n= 1\n", b"= 1\n+ D /%00 1\n", b"= 1\n+ F /a 1099511627777 1\n",
                b"= 1\n+ F /a 0 1\n+ F /a 0 1\n", b"= 1\n+ D /%61 1\n", b"= 1\n+ D a 1\n", b"= 1\n+ D /../a 1\n"]
    for some in commands:
        said = refused("--receive", mount.point, text=front + some + b"end\n")
        assert said == "what the difference makes is no tree", (some, said)
        assert os.listdir(mount.point) == []
    receive(mount, front + b"= 1\n+ F /a 3 4\n+ b 0 010203\nend\n")
    assert (mount.point / "a").read_bytes() == b"\1\2\3" and os.stat(mount.point).st_mtime_ns > 10**18
    end_well(mount)


@case
def snapshots_that_are_not_there(folder: Path):
    mount = Mount(folder)
    snapshot(mount, "one")
    for names in (["none"], ["one", "none"], ["none", "one"], [""], ["../one"]):
        said = refused("--send", *names, mount.point)
        assert said.startswith("no snapshot "), said
    for own in (".doorvervain", ".doorvervain.told"):
        try:
            snapshot(mount, own)
            raise AssertionError(own)
        except PermissionError:
            pass
    assert refused("--send", "one", folder).startswith("no snapshot ")
    assert refused("--receive", folder).startswith("cannot receive to ")
    for i in range(63):
        snapshot(mount, f"more{i}")
    assert "64 snapshots" in refused("--send", "one", mount.point)
    send(mount, "one", "more0")
    end_well(mount)


@case
def what_has_no_room(folder: Path):
    one, other = two_mounts(folder, "--size", "16M")
    (one.point / "some").write_bytes(random.Random(5).randbytes(3 << 20))
    snapshot(one, "some")
    receive(other, send(one, "none", "some"))
    was = seen(other.point)
    # A text that fits beside the tree, where what comes does not; and one that does not.
    for size in (3_900_000, 12 << 20):
        (one.point / "large").write_bytes(random.Random(6).randbytes(size))
        assert "no room" in refused("--receive", other.point, text=send(one, "some"))
        alike(seen(other.point), was)
    (one.point / "large").write_text("smaller")
    receive(other, send(one, "some"))
    same(one.point, other.point)
    end_well(one)
    end_well(other)


# ---- stores


@case
def what_was_received_outlives_a_kill(folder: Path):
    """Behind a receive nothing syncs: it is on the disk when it is answered. The snapshots of both sides stay."""
    one, other = two_mounts(folder, "--store", folder / "store")
    states = {}
    for before, name, work in (("none", "one", make), ("one", "two", change)):
        work(one.point)
        snapshot(one, name)
        receive(other, send(one, before, name))
        other = killed_and_new(folder, other)
        same(one.point, other.point)
        states[name] = seen(snapshot(other, name))
        sync(other.point)
        other = killed_and_new(folder, other)
        refused("--receive", other.point, text=send(one, before, name))
        alike(seen(other.point), states[name])
    alike(seen(other.point / ".snapshots/one"), states["one"])
    restore(other, "one")
    receive(other, send(one, "one", "two"))
    alike(seen(other.point), states["two"])
    end_well(other)
    end_well(one)


@case
def what_was_received_is_one_entry_of_the_log(folder: Path):
    """A reader that was written from the formats finds its tree too."""
    one, other = two_mounts(folder, "--store", folder / "store")
    (one.point / "folder").mkdir()
    for number in range(5):
        (one.point / f"folder/{number}").write_bytes(WORKS.randbytes(3000 * number))
    snapshot(one, "one")
    (one.point / "folder/3").unlink()
    os.truncate(one.point / "folder/4", 5000)
    wanted = [send(one, "none", "one"), send(one, "one")]
    for text in wanted:
        receive(other, text)
    kill(other)
    dumped = subprocess.run([MOUNT, "--dump-log", folder / "store"], stdout=subprocess.PIPE, check=True).stdout
    lines = dumped.splitlines()
    assert [it for it in lines if it.startswith(b"# edits ")] == [b"# edits %d" % len(it) for it in wanted], dumped
    assert all(it.startswith(b"# ") for it in lines), dumped
    found = Store(folder / "store").tree
    assert {it: found[it] for it in found if it != b"/"} == {b"/folder": None} | {
        b"/folder/%d" % it: (one.point / f"folder/{it}").read_bytes() for it in (0, 1, 2, 4)}
    end_well(one)


@case
def a_kill_within_a_receive(folder: Path):
    """The tree is the old one or the new one then."""
    one, other = two_mounts(folder, "--store", folder / "store")
    fill(one, MANY)
    (folder / "text").write_bytes(send(one, "none"))
    snapshot(one, "one")
    back, received = send(one, "one", "none"), 0
    for _ in range(KILLS):
        with (folder / "text").open() as text:
            receives = subprocess.Popen([MOUNT, "--receive", other.point], stdin=text, stderr=subprocess.DEVNULL)
        time.sleep(WORKS.uniform(0, 0.3))
        other = killed_and_new(folder, other)
        receives.wait()
        names = len(os.listdir(other.point))
        assert names in (0, MANY), names
        received += names > 0
        if names:
            same(one.point, other.point)
            receive(other, back)
    print(f"{received} of {KILLS} receives came before their kill")
    end_well(other)
    end_well(one)


def killed_and_new(folder: Path, mount: Mount) -> Mount:
    kill(mount)
    again = store_mount(folder, *TRUST, name="to")
    assert again.stands, again.said()
    return again


# ---- other requests meanwhile


def fill_many(mount: Mount, count: int) -> None:
    (mount.point / "folder").mkdir()
    for i in range(count):
        (mount.point / f"folder/{i}").write_bytes(WORKS.randbytes(4096))


def longest_beside(mount: Mount, process: subprocess.Popen) -> float:
    """Of look-ups, in seconds, until a program has ended well."""
    longest = 0.0
    while process.poll() is None:
        asked = time.monotonic()
        assert not (mount.point / f"none{asked}").exists()
        longest = max(longest, time.monotonic() - asked)
    assert process.returncode == 0
    return longest


def goes_on(what: str, mount: Mount, process: subprocess.Popen) -> None:
    began = time.monotonic()
    longest = longest_beside(mount, process)
    took = time.monotonic() - began
    print(f"a {what} took {took:.2f} s, the longest look-up beside it {longest * 1e3:.1f} ms")
    assert longest < took / 4


@case
def requests_go_on_beside_a_send(folder: Path):
    mount = Mount(folder)
    snapshot(mount, "none")
    fill_many(mount, 3000)
    with subprocess.Popen([MOUNT, "--send", "none", mount.point], stdout=subprocess.DEVNULL) as sends:
        goes_on("send", mount, sends)
    assert mount.end() == 0, mount.said()


def receive_beside(folder: Path, mount: Mount, text: bytes) -> subprocess.Popen:
    (folder / "text").write_bytes(text)
    with (folder / "text").open() as file:
        return subprocess.Popen([MOUNT, "--receive", mount.point], stdin=file, stderr=subprocess.PIPE, text=True)


@case
def requests_go_on_beside_a_receive(folder: Path):
    one, other = two_mounts(folder, "--store", folder / "store")
    fill_many(one, 3000)
    with receive_beside(folder, other, send(one, "none")) as receives:
        goes_on("receive", other, receives)
    same(one.point, other.point)
    other = killed_and_new(folder, other)
    same(one.point, other.point)
    end_well(one)
    end_well(other)


@case
def a_change_beside_a_receive(folder: Path):
    """The tree is that before it with the change, and it is refused; or that behind it with the change."""
    one, other = two_mounts(folder, "--store", folder / "store")
    fill_many(one, MANY)
    text, refusals = send(one, "none"), 0
    snapshot(other, "none")
    for number in range(CHANGES):
        with receive_beside(folder, other, text) as receives:
            time.sleep(WORKS.uniform(0, 1.0))
            (other.point / "mine").write_text(f"{number}")
            said = receives.communicate()[1]
        if receives.returncode:
            assert said.endswith(unfit(2, other) + "\n"), said
        assert receives.returncode or len(os.listdir(other.point / "folder")) == MANY
        assert sorted(os.listdir(other.point)) == (["mine"] if receives.returncode else ["folder", "mine"])
        refusals += receives.returncode
        was = seen(other.point)
        other = killed_after_sync(folder, other)
        alike(seen(other.point), was)
        assert (other.point / "mine").read_text() == f"{number}"
        restore(other, "none")
    print(f"{refusals} of {CHANGES} receives were refused")
    end_well(one)
    end_well(other)


def killed_after_sync(folder: Path, mount: Mount) -> Mount:
    sync(mount.point)
    return killed_and_new(folder, mount)


@case
def beside_as_many_snapshots_as_there_may_be(folder: Path):
    one, other = two_mounts(folder)
    make(one.point)
    for number in range(64):
        snapshot(other, f"at{number}")
    receive(other, send(one, "none"))
    same(one.point, other.point)
    assert len(os.listdir(other.point / ".snapshots")) == 64
    end_well(one)
    end_well(other)


@case
def on_a_mount_that_traces(folder: Path):
    """It sends, but no line of a script applies a difference."""
    one, other = Mount(folder, "--trace", folder / "calls", name="from"), Mount(folder, *TRUST, name="to")
    snapshot(one, "none")
    make(one.point)
    snapshot(one, "one")
    receive(other, send(one, "none"))
    same(one.point, other.point)
    assert "nor a receive with --trace" in refused("--receive", one.point, text=send(one, "one", "none"))
    same(one.point, other.point)
    end_well(one)
    end_well(other)


if __name__ == "__main__":
    run_cases()
