"""Edits between two trees: of the snapshots of random calls, with the lines that a plain dictionary of the tree tells; applied to a fork of
the one tree they make the other, and in a text that was damaged a line is refused, or the tree is another.
"""
import ctypes
import hashlib
import random

from calls import EINVAL, ENOENT, SMALL, USUAL, Pointer, Volume, ask, given_up, told
from changed import Plain, unlike
from volumes import done

ROUNDS, CALLS = 40, 12
PIECE = 100


# ---- what is asked


def edits(volume: Volume, old: bytes, new: bytes, piece: int = PIECE):
    """The text, or the number of the error."""
    printer, text = Pointer(), b""
    out, size = ctypes.create_string_buffer(piece), ctypes.c_size_t()
    number = volume.ask("edits_begin", old, new, printer)
    if number:
        assert not printer.ptr
        return number
    while not text or size.value:
        done(ask("edits_next", printer, out, size))
        text += out.raw[: size.value]
    given_up("edits_end", printer)
    return text


def fork_of(volume: Volume, name: bytes) -> Volume:
    fork, tree = Volume.__new__(Volume), volume.tree(name or None)
    fork.fs = Pointer()
    done(ask("frozen_fork", tree, fork.fs))
    given_up("frozen_close", tree)
    return fork


def image_at(volume: Volume, name: bytes) -> bytes:
    tree = volume.tree(name or None)
    text = told("image", tree)
    given_up("frozen_close", tree)
    return text


def applied(volume: Volume, text: bytes) -> tuple:
    """The number, the line, and the image behind it."""
    line = ctypes.c_uint64(99)
    return volume.ask("apply_edits", text, line), line.value, volume.image()


# ---- the lines that make one plain tree of another


def shown(kind: bytes, path: bytes, entry) -> bytes:
    if isinstance(entry, tuple):
        return b"%s F %s %d %d\n" % (kind, path, len(entry[0]), entry[1])
    return b"%s D %s %d\n" % (kind, path, entry)


def altered(path: bytes, old, new) -> bytes:
    if isinstance(new, tuple):
        return b"! F %s %d %d %d %d\n" % (path, len(old[0]), old[1], len(new[0]), new[1])
    return b"! D %s %d %d\n" % (path, old, new)


def block_of(data: bytes, number: int) -> bytes:
    return data[4096 * number : 4096 * (number + 1)].rstrip(b"\0")


def summed(data: bytes) -> bytes:
    return hashlib.sha256(data).hexdigest().encode() if data else b"-"


def rewrites(path: bytes, old: bytes, new: bytes):
    """The blocks whose stored bytes differ, in the new file; the old bytes are those that its length leaves."""
    cut = old[: len(new)]
    for number in range((len(new) + 4095) // 4096):
        if block_of(old, number) != block_of(new, number):
            was, has = block_of(cut, number), block_of(new, number)
            yield b"b %s %d %s %s\n" % (path, number, summed(was), has.hex().encode() or b"-")


def wanted(old: dict, new: dict) -> bytes:
    paths = unlike(old, new)
    alike = {it for it in paths if it in old and it in new and isinstance(old[it], tuple) == isinstance(new[it], tuple)}
    text = b"delta 2\n"
    for path in reversed(paths):
        if path in old and path not in alike:
            text += shown(b"-", path, old[path])
    for path in paths:
        if path in new and path not in alike:
            text += shown(b"+", path, new[path])
        elif path in alike and shown(b"", path, old[path]) != shown(b"", path, new[path]):
            text += altered(path, old[path], new[path])
    for path in paths:
        if isinstance(new.get(path), tuple):
            text += b"".join(rewrites(path, old[path][0] if path in alike else b"", new[path][0]))
    return text + b"end\n"


# ---- rows


def courses(seed: int, shape: tuple):
    plain = Plain(seed, shape)
    for number in range(ROUNDS):
        for _ in range(plain.draw.randrange(CALLS)):
            plain.change()
        plain.turn(number)
        trees = {b"": plain.tree, **plain.snapshots}
        old, new = plain.draw.choice(sorted(trees)), plain.draw.choice(sorted(trees))
        for one, other in ((old, new), (new, old)):
            name = f"edits, {seed}, {number}, from {one} to {other}"
            text, fork = edits(plain.volume, one, other), fork_of(plain.volume, one)
            yield name, text, wanted(trees[one], trees[other])
            yield f"{name}, applied", applied(fork, text), (0, 0, image_at(plain.volume, other))


def changes_nothing(line: bytes) -> bool:
    """Whether a block is rewritten with what it has: one that was cut."""
    words = line.split()
    return words[0] == b"b" and words[3] == (b"-" if words[4] == b"-" else summed(bytes.fromhex(words[4].decode())))


def damages(lines: list, draw: random.Random):
    """The text without a line, with a line twice, and with another byte in a line."""
    for number, line in enumerate(lines):
        if not changes_nothing(line):
            yield f"without line {number + 1}", lines[:number] + lines[number + 1 :]
            yield f"line {number + 1} twice", lines[: number + 1] + lines[number:]
        at = draw.randrange(len(line) - 1)
        byte = draw.choice([it for it in b"0123456789abcdef+-! /\n" if it != line[at]])
        yield f"another byte {at} in line {number + 1}", lines[:number] + [line[:at] + bytes([byte]) + line[at + 1 :]] + lines[number + 1 :]


def damaged(seed: int):
    """What is refused changes nothing, and what is not makes another tree."""
    plain = Plain(seed, SMALL)
    for _ in range(30):
        plain.change()
    done(plain.volume.ask("snapshot", b"s"))
    for _ in range(30):
        plain.change()
    before, after = image_at(plain.volume, b"s"), plain.volume.image()
    lines = edits(plain.volume, b"s", b"").splitlines(keepends=True)
    for what, words in damages(lines, plain.draw):
        number, line, image = applied(fork_of(plain.volume, b"s"), b"".join(words))
        refused = number in (EINVAL, ENOENT) and 1 <= line <= len(words) + 1 and image == before
        yield f"edits, {seed}, {what}", refused or (number == 0 and line == 0 and image != after), True


def by_hand():
    volume = Volume(SMALL)
    done(volume.ask("mkdir", b"/d", 1), volume.ask("create", b"/d/f", 2), volume.ask("write", b"/d/f", 0, b"abc", 3), volume.ask("create", b"/e", 4))
    done(volume.ask("snapshot", b"s"))
    yield "no edits", edits(volume, b"s", b""), b"delta 2\nend\n"
    done(volume.ask("truncate", b"/d/f", 1, 3), volume.ask("set_mtime", b"/e", 9))
    digest = hashlib.sha256(b"a").hexdigest().encode()
    lines = b"delta 2\n! F /d/f 3 3 1 3\n! F /e 0 4 0 9\nb /d/f 0 " + digest + b" 61\nend\n"
    yield "edits of a cut", edits(volume, b"s", b""), lines
    yield "edits in pieces of a byte", edits(volume, b"s", b"", 1), lines
    yield "edits of no snapshot", (edits(volume, b"u", b"t"), edits(volume, b"s", b"u")), (ENOENT, ENOENT)
    yield "edits of no name", (edits(volume, b"a/b", b"u"), edits(volume, b"", b"a/b")), (EINVAL, EINVAL)
    image = volume.image()
    yield "edits applied twice", applied(volume, lines), (ENOENT, 2, image)
    yield "edits with a bad line", applied(volume, b"delta 2\n! F /e 0 9 0 8\n?\n"), (EINVAL, 3, image)
    yield "edits with a line that does not fit before a bad one", applied(volume, b"delta 2\n- D /d 1\n?\n"), (ENOENT, 2, image)
    yield "edits with a line that does not fit", applied(volume, b"delta 2\n! F /e 0 9 0 8\n- D /d 1\nend\n"), (ENOENT, 3, image)
    yield "edits by which snapshots stay", (applied(volume, b"delta 2\n- F /e 0 9\nend\n")[0], volume.told("snapshot_name", 0)), (0, b"s")


def each():
    yield from by_hand()
    for seed, shape in enumerate([SMALL, SMALL, USUAL]):
        yield from courses(100 + seed, shape)
    for seed in range(4):
        yield from damaged(200 + seed)
