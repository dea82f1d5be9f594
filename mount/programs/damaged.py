"""Images that somebody damaged: the mount comes up, tells what it passes over, and ends well."""
import errno
import os
import random
import re
import socket
import stat
from collections.abc import Callable
from pathlib import Path

from image_text import RESERVED, Image, read_image, record, record_path
from own_mount import Mount, case, run_cases

USUAL = stat.S_IFREG | 0o644
GONE = (errno.ENOTCONN, errno.ECONNABORTED, errno.ENOSYS, errno.EIO)


def tried(call: Callable, *words, **named):
    """What a call answers; a refusal is an answer too, but for one of a mount that is gone."""
    try:
        return call(*words, **named)
    except OSError as fault:
        assert fault.errno not in GONE, (call, words, fault)
        return fault.errno


def read_file(path: bytes) -> bytes:
    file = os.open(path, os.O_RDONLY | os.O_NONBLOCK)
    try:
        return os.read(file, 1 << 16)
    finally:
        os.close(file)


def write_file(path: bytes) -> None:
    file = os.open(path, os.O_WRONLY | os.O_NONBLOCK)
    try:
        os.write(file, b"written")
        os.fsync(file)
    finally:
        os.close(file)


def paths_below(top: bytes) -> list[bytes]:
    return [os.path.join(path, name) for path, folders, files in os.walk(top) for name in folders + files]


def use(path: bytes) -> None:
    """All that can be asked of an entry, and done to it; nothing is left of it."""
    for call in (os.lstat, os.readlink, os.listdir, read_file, os.statvfs):
        tried(call, path)
    names = tried(os.listxattr, path, follow_symlinks=False)
    for name in names if isinstance(names, list) else []:
        tried(os.getxattr, path, name, follow_symlinks=False)
    for call, *words in ((os.chmod, 0o711), (os.truncate, 5), (os.setxattr, "user.new", b"1")):
        tried(call, path, *words)
    tried(os.utime, path, ns=(5, 7), follow_symlinks=False)
    tried(write_file, path)
    tried(os.link, path, path + b".link", follow_symlinks=False)
    tried(os.rename, path, path + b".moved")
    tried(os.rename, path + b".moved", path)
    tried(os.lstat, path)


def use_all(mount: Mount) -> None:
    top = os.fsencode(mount.point)
    for path in paths_below(top):
        use(path)
    tried(os.mkdir, top + b"/.snapshots/s")
    for path in paths_below(top + b"/.snapshots"):
        for call in (os.lstat, os.readlink, read_file):
            tried(call, path)
    for path in reversed(paths_below(top)):
        tried(os.rmdir if os.path.isdir(path) and not os.path.islink(path) else os.unlink, path)
    tried(os.rmdir, top + b"/.snapshots/s")
    assert os.listdir(top) == [], os.listdir(top)


def comes_up(folder: Path, image: Image, look: Callable[[Path], None] = lambda point: None) -> str:
    """Mounts the image, looks at it, uses all of it, and mounts what is left: what the mount said."""
    image.write(folder / "image")
    mount = Mount(folder, "--load", folder / "image", "--image", folder / "next")
    assert mount.stands, mount.said()
    look(mount.point)
    use_all(mount)
    assert mount.end() == 0, mount.said()
    said = mount.said()
    mount = Mount(folder, "--load", folder / "next")
    assert mount.end() == 0, mount.said()
    return said


MORE = "modified 5\nuntil 6\nextended user.a 6162\nextended user.b -\n"


def bad_records() -> list[bytes]:
    good, full = record(), record(more=MORE)
    assert good in full
    out = [good[:length] for length in range(len(good))]
    out += [full[:length] for length in range(len(good) + 1, len(full)) if full[length - 1 : length] != b"\n"]
    out += [full[:at] + b"\0" + full[at + 1 :] for at in range(len(full))]
    out += [record(mode=mode) for mode in ("rw-r--r--", "600", "00600", "0800", "", "0600 ", "-600")]
    out += [record(kind=kind) for kind in ("", "files", "FILE", "name-of", "name-of x", "block-device -1", "file 1")]
    out += [record(names=names) for names in ("", "01", "-1", "x", str(2**64))]
    out += [record(more=more) for more in ("modified 5\n", "until 6\n", "extended user.a\n", "extended user.a 6\n",
            "extended user.b -\nextended user.a -\n", "extended user.a -\nextended user.a -\n", "extended  -\n", "x\n",
            "extended user.a 6A\n", "extended user.\u00fc -\n", f"extended {'n' * 256} -\n", "\n", "\r\n")]
    return out + [good.replace(b"\n", b"\r\n"), good * 2, b"x" * (1 << 20), b"\n" * 10_000, full[20:], b"\xff" * 100]


@case
def records_that_are_none(folder: Path):
    texts = bad_records()
    image = Image({b"/folder/plain": b"plain", record_path(b"/folder/plain"): record(mode="0640")})
    for number, text in enumerate(texts):
        image.put(b"/file%d" % number, b"abc")
        image.put(record_path(b"/file%d" % number), text)

    def look(point: Path) -> None:
        for number, text in enumerate(texts):
            reported = os.lstat(point / f"file{number}")
            assert (reported.st_mode, reported.st_size, reported.st_nlink) == (USUAL, 3, 1), (number, text, reported)
            assert (point / f"file{number}").read_bytes() == b"abc"
        assert stat.S_IMODE((point / "folder/plain").stat().st_mode) == 0o640

    comes_up(folder, image, look)


@case
def a_mode_of_letters_is_reported(folder: Path):
    image = Image({b"/folder/some file": b"abc", record_path(b"/folder/some file"): record(mode="rw-rw-rw-")})
    said = comes_up(folder, image)
    assert "some file" in said or "some%20file" in said, said


@case
def kinds_that_cannot_be(folder: Path):
    devices = ("character-device 259", "block-device 1792")
    kinds = ("directory", "file", "symbolic-link", "fifo", "socket", *devices, "name-of 1")
    image = Image({})
    for number, kind in enumerate(kinds):
        image.put(b"/folder%d/file" % number, b"abc")
        image.put(record_path(b"/folder%d" % number), record(kind=kind))
        image.put(record_path(b"/folder%d/file" % number), record(kind=kind))
        image.put(b"/empty%d" % number, b"")
        image.put(record_path(b"/empty%d" % number), record(kind=kind))

    def look(point: Path) -> None:
        for number in range(len(kinds)):
            assert (point / f"folder{number}").is_dir() and os.listdir(point / f"folder{number}") == ["file"]
        assert (point / "folder0/file").is_file()

    comes_up(folder, image, look)


@case
def targets_that_cannot_be(folder: Path):
    image, large = Image({}), b"t" * (1 << 20)
    for number, target in enumerate((b"", b"a\0b", b"\0", large[:4096], large[:5000], large, bytes(4096), b"link7")):
        image.put(b"/link%d" % number, target)
        image.put(record_path(b"/link%d" % number), record(kind="symbolic-link", mode="0777"))
    comes_up(folder, image)


@case
def records_of_no_entry(folder: Path):
    ghosts = (b"/ghost", b"/ghost/below", b"/file/below", b"/folder/ghost", b"/\x01", b"/folder/\x01\x01")
    image = Image({b"/file": b"abc", b"/folder": None})
    for number, ghost in enumerate(ghosts):
        image.put(record_path(ghost), record(mode="4711", more="extended user.old 6162\n", names=number))

    def look(point: Path) -> None:
        os.mkdir(point / "ghost")
        for path in (b"ghost/below", b"folder/ghost", b"\x01", b"folder/\x01\x01"):
            path = os.path.join(os.fsencode(point), path)
            assert not os.path.lexists(path)
            os.close(os.open(path, os.O_CREAT | os.O_EXCL, 0o644))
            assert os.lstat(path).st_mode == USUAL and os.listxattr(path) == [], path
        assert stat.S_IMODE(os.lstat(point / "ghost").st_mode) == 0o755 and os.listxattr(point / "ghost") == []

    comes_up(folder, image, look)


@case
def names_whose_file_is_not_there(folder: Path):
    image = Image({b"/plain": b"plain"})
    for number in (0, 1, 7, 2**63, 2**64 - 1):
        image.put(b"/name%d" % number, b"")
        image.put(b"/other%d" % number, b"")
        for name in (b"/name%d", b"/other%d"):
            image.put(record_path(name % number), record(kind=f"name-of {number}", names=2))

    def look(point: Path) -> None:
        for name in os.listdir(point):
            assert stat.S_ISREG(os.lstat(point / name).st_mode), name
        assert (point / "plain").read_bytes() == b"plain"

    assert "name" in comes_up(folder, image, look)


def damaged_folders() -> list[dict[bytes, bytes | None]]:
    """What may stand below the reserved name, and should not."""
    numbers = (b"0", b"1", b"01", b"x", b"18446744073709551615", b"18446744073709551616", b"\x01", b"n" * 255)
    out: list[dict[bytes, bytes | None]] = [{RESERVED: data} for data in (b"", b"abc", None)]
    for below in (b"/tree", b"/links", b"/unlinked", b"/other"):
        out += [{RESERVED + below: b"abc"}, {RESERVED + below: None}, {RESERVED + below + b"/\x01": b"abc"}]
        out += [{RESERVED + below + b"/" + number: b"abc" for number in numbers}]
        out += [{RESERVED + below + b"/" + number: None for number in numbers}]
        out += [{RESERVED + below + b"/" + number + b"/\x01": record(names=3) for number in numbers}]
        out += [{RESERVED + below + b"/" + number + b"/\x01": record(kind="name-of 1") for number in numbers}]
    return out + [{RESERVED + b"/tree/file/\x01/deep": b"abc"}, {RESERVED + b"/tree/\x01/\x01": b"abc"}]


def look_at_two_files(point: Path) -> None:
    assert sorted(os.listdir(point)) == ["file", "folder"]
    assert ((point / "file").read_bytes(), (point / "folder/file").read_bytes()) == (b"abc", b"def")
    os.chmod(point / "file", 0o600)
    os.link(point / "file", point / "two")
    with (point / "two").open("ab") as file:
        (point / "two").unlink()
        file.write(b"d")
    assert (point / "file").read_bytes() == b"abcd" and (point / "file").stat().st_nlink == 1


@case
def reserved_folders_that_are_none(folder: Path):
    for entries in damaged_folders():
        try:
            comes_up(folder, Image({b"/file": b"abc", b"/folder/file": b"def"} | entries), look_at_two_files)
        except BaseException:
            print("of", entries)
            raise


def image_of_all_kinds(folder: Path) -> Image:
    """As the mount itself writes it."""
    mount = Mount(folder, "--image", folder / "whole")
    top = mount.point
    for name in ("one", "folder/two", "folder/three"):
        (top / name).parent.mkdir(exist_ok=True)
        (top / name).write_bytes(b"abc")
        os.chmod(top / name, 0o600)
        os.link(top / name, top / f"{name}.link")
    os.link(top / "one", top / "folder/one.third")
    os.symlink("one", top / "soft")
    os.mkfifo(top / "fifo")
    os.chdir(top)
    with socket.socket(socket.AF_UNIX) as bound:
        bound.bind("socket")
    os.chdir("/")
    os.chmod(top / "folder", 0o700)
    os.setxattr(top / "one", "user.a", b"b")
    assert mount.end() == 0, mount.said()
    return read_image(folder / "whole")


def damages(whole: Image) -> list[Image]:
    """Each of the mount's own entries taken away, emptied, of letters, another's, or of the other kind."""
    own = [path for path in whole.entries if path.startswith(RESERVED + b"/")]
    files = [path for path in own if whole.entries[path] is not None]
    out = []
    for path in own:
        below = {each: data for each, data in whole.entries.items() if each == path or each.startswith(path + b"/")}
        out.append(Image({each: data for each, data in whole.entries.items() if each not in below}))
        out.append(Image({each: data for each, data in whole.entries.items() if each not in below} | {path: b"abc"}))
        out.append(Image(whole.entries | {path: None}))
    for path in files:
        text = whole.entries[path]
        for other in {b"", re.sub(rb"\d", b"x", text), *(whole.entries[each] for each in files)} - {text}:
            out.append(Image(whole.entries | {path: other}))
        for count in (0, 1, 9, 2**64 - 1):
            out.append(Image(whole.entries | {path: re.sub(rb"names \d+", b"names %d" % count, text)}))
    return out


@case
def one_damage_after_the_other(folder: Path):
    images = damages(image_of_all_kinds(folder))
    print(len(images), "images")
    for number, image in enumerate(images):
        try:
            comes_up(folder, image)
        except BaseException:
            print("image", number)
            (Path(os.environ["LOGS"]) / "damaged.image").write_bytes((folder / "image").read_bytes())
            raise


@case
def many_damages_at_once(folder: Path):
    whole = image_of_all_kinds(folder)
    own = [path for path, data in whole.entries.items() if path.startswith(RESERVED) and data]
    for seed in range(60):
        chance, image = random.Random(seed), Image(whole.entries)
        for path in chance.sample(own, len(own) // 2):
            text = bytearray(whole.entries[path])
            text[chance.randrange(len(text))] = chance.choice(b"\0 \n019azx%-")
            image.entries[path] = bytes(text)
        try:
            comes_up(folder, image)
        except BaseException:
            print("seed", seed)
            raise


run_cases()
