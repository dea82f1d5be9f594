"""Volumes: holes, copies, long texts and buffers, images in pieces, deltas that are refused, and how compaction ends."""
import ctypes
from collections.abc import Callable

from calls import EINVAL, EISDIR, ENOENT, ENOTDIR, SMALL, USUAL, Pointer, Volume, ask, given_up, stat_of, told

# ---- holes

# A file: three blocks of `a`, `b` and `c`, and 10 bytes `d`, with mtime 3.
WHOLE = b"a" * 4096 + b"b" * 4096 + b"c" * 4096 + b"d" * 10
LENGTH = len(WHOLE)

# Holes that are punched in it one after the other at timestamp 7, its mtime then, and its stored extents.
HOLES = [
    # the second block
    ([(4096, 4096)], 7, [(0, 4096), (8192, LENGTH)]),
    # from within the first block into the third
    ([(4090, 4106)], 7, [(0, 4096), (8192, LENGTH)]),
    # two bytes at the edge of two blocks: none is removed
    ([(4095, 2)], 7, [(0, LENGTH)]),
    # one byte within a block
    ([(5000, 1)], 7, [(0, LENGTH)]),
    # the first block and the first part of the second
    ([(0, 4100)], 7, [(4096, LENGTH)]),
    # all, and beyond the end: the last block is stored partially, and remains
    ([(0, 2**64 - 1)], 7, [(12288, LENGTH)]),
    # from within the last block on
    ([(12290, 2**40)], 7, [(0, LENGTH)]),
    # within blocks that are not stored any more: they remain so
    ([(0, 8192), (10, 4100), (8000, 192)], 7, [(8192, LENGTH)]),
    # the same bytes twice
    ([(4000, 9000), (4000, 9000)], 7, [(0, 4096), (12288, LENGTH)]),
    # after the end, and nothing
    ([(LENGTH, 1)], 3, [(0, LENGTH)]),
    ([(100, 0)], 3, [(0, LENGTH)]),
]

# Paths without a file, and the error there.
NO_FILES = [(b"/", EISDIR), (b"/d", EISDIR), (b"/d/x", ENOENT), (b"/f/x", ENOTDIR)]


def with_holes(holes: list) -> bytes:
    data = bytearray(WHOLE)
    for offset, count in holes:
        end = min(offset + count, LENGTH)
        data[offset:end] = bytes(max(0, end - offset))
    return bytes(data)


def done(*numbers: int) -> None:
    assert not any(numbers), numbers


def filled() -> Volume:
    """A small volume with the directory and the file, nothing pending."""
    volume = Volume(SMALL)
    done(volume.ask("mkdir", b"/d", 1), volume.ask("create", b"/f", 2), volume.ask("write", b"/f", 0, WHOLE, 3))
    volume.ask("compact", 100)
    return volume


def extents(next_extent: Callable) -> list:
    """The stored extents by a call for the next one."""
    found, start, end = [], ctypes.c_uint64(), ctypes.c_uint64()
    while not next_extent(b"/f", end.value, start, end) and start.value < end.value:
        found.append((start.value, end.value))
    return found + [(start.value, end.value)]


def file_of(tree: Pointer) -> tuple:
    """Bytes, kind, length and mtime, and stored extents."""
    data, entry = told("frozen_read", tree, b"/f", 0), stat_of("frozen_stat", tree, b"/f")
    found = extents(lambda *words: ask("frozen_next_extent", tree, *words))
    given_up("frozen_close", tree)
    return data, entry, found


def punched(holes: list) -> tuple:
    """The file behind the holes, and that of a snapshot from before."""
    volume = filled()
    done(volume.ask("snapshot", b"before"), *(volume.ask("punch", b"/f", offset, count, 7) for offset, count in holes))
    live = extents(lambda *words: volume.ask("next_extent", *words))
    return file_of(volume.tree()), live, file_of(volume.tree(b"before"))


def as_file(data: bytes, modified: int, stored: list) -> tuple:
    return data, (2, LENGTH, modified), stored + [(LENGTH, LENGTH)]


def refuses_holes() -> tuple:
    """The errors of a punch and of the search for extents where no file is, and the file then."""
    volume, start, end = filled(), ctypes.c_uint64(), ctypes.c_uint64()
    got = [(volume.ask("punch", path, 0, 1, 7), volume.ask("next_extent", path, 0, start, end)) for path, _ in NO_FILES]
    return got, file_of(volume.tree())


# ---- more bytes than a block

LONG = bytes(place % 251 for place in range(10_000))

# A copy of a file of two zeros and these bytes to another one: the offset, the target, the count; how many bytes are copied, and from
# where on the other file has the long bytes to its end. Whole blocks and parts of blocks, to the start and behind a hole.
COPIES = [
    (0, 0, 2**64 - 1, 10_002, 2),
    (2, 0, 10_000, 10_000, 0),
    (0, 4_096, 10_002, 10_002, 4_098),
    (2, 5_000, 20_000, 10_000, 5_000),
]

# Copies between texts, and why they fail where `/f` alone is a file.
NO_COPIES = [
    (b"f", b"", EINVAL),
    (b"/f", b"", ENOENT),
    (b"/none", b"/", ENOENT),
    (b"/", b"/none", EISDIR),
    (b"/f", b"/f/x", ENOTDIR),
    (b"/f", b"/", EISDIR),
]


def with_long() -> Volume:
    volume = Volume()
    done(volume.ask("create", b"/f", 1), volume.ask("write", b"/f", 2, LONG, 3))
    return volume


def has_long(volume: Volume) -> bool:
    return volume.stat(b"/f") == (2, 10_002, 3) and volume.told("read", b"/f", 2) == LONG


def copied(volume: Volume, source: bytes, offset: int, target: bytes, place: int, count: int, at: int = 4):
    """How many bytes are copied, or the number of the error."""
    got = ctypes.c_uint64(99)
    number = volume.ask("copy_range", source, offset, target, place, count, at, got)
    return -number if number else got.value


def copied_so(offset: int, place: int, count: int, start: int) -> tuple:
    volume = with_long()
    done(volume.ask("create", b"/g", 1))
    got = copied(volume, b"/f", offset, b"/g", place, count)
    return got, volume.told("read", b"/g", start), has_long(volume)


# ---- images in pieces

# Images of version 2.
IMAGES = [
    b"D / 0\n",
    b"D / 18446744073709551615\nF /%FF 0 1\n",
    b"D / 7\nD /a 5\nD /a/b 4\nF /a/b/c 3 2\nb 0 616263\nF /d 10000 1\nb 0 00ff\nb 2 01\n",
    b"D / 1\nF /f 1099511627776 2\nb 268435455 ff\n",
    b"D / 1\nF /a 8192 2\nF /b 8192 3\nb 1 01\nD /c 4\nF /c/d 1 5\nb 0 2a\n",
]
# A file of 20 full blocks, between two others, whose lines have more bytes than are printed at once.
BLOCKS = b"".join(b"b %d " % number + b"ff" * 4096 + b"\n" for number in range(20))
LONG_IMAGE = b"D / 1\nF /a 1 2\nb 0 01\nF /b 81920 3\n" + BLOCKS + b"F /c 2 4\nb 0 0203\n"

# Texts that are no images, and the number of their first bad line.
NO_IMAGES = [
    (b"", 1),
    (b"D / 0", 1),
    (b"x\nD / 0\n", 1),
    (b"D / 0\nD /a 0\nx\nD /b 0\n", 3),
    (b"D / 0\nF /f 1 2\nb 0 0102\n", 3),
    (b"D / 0\nD /b 0\nD /a 0\nx\n", 3),
]
SIZES = [1, 7, 4096]
# 1,000 directories, of more than two blocks of text.
DIRECTORIES = b"d /\n" + b"".join(b"d /a%d\n" % number for number in range(1_000, 2_000))


def loader() -> Pointer:
    loading = Pointer()
    done(ask("load_begin", *USUAL, loading))
    return loading


def fed(pieces: list) -> tuple:
    """What each piece is answered with, and the end, each with a line; and the volume, if there is one."""
    loading, line, volume = loader(), ctypes.c_uint64(), Volume.__new__(Volume)
    volume.fs = Pointer()
    got = [(ask("load_feed", loading, piece, line), line.value) for piece in pieces]
    finish = (ctypes.c_void_p(loading.ptr), ctypes.byref(line), ctypes.byref(volume.fs))
    return got, (ask("load_finish", *finish), line.value), volume


def cut(text: bytes, size: int) -> list:
    return [text[i : i + size] for i in range(0, len(text), size)]


def printed(volume: Volume, size: int) -> bytes:
    """The image by a buffer of that many bytes."""
    printing, out, count, text = Pointer(), ctypes.create_string_buffer(size), ctypes.c_size_t(1), b""
    done(ask("print_begin", ctypes.c_void_p(volume.tree().ptr), ctypes.byref(printing)))
    while count.value:
        done(ask("print_next", printing, out, count))
        text += out.raw[: count.value]
    given_up("print_end", printing)
    return text


def round_trip(text: bytes, size: int) -> tuple:
    pieces = cut(text, size)
    got, end, volume = fed(pieces)
    done(*(number for number, _ in got + [end]))
    return printed(volume, size), volume.image()


def first_fault(text: bytes, size: int) -> tuple:
    """The first answer that is an error, and whether each later one is the same."""
    got, end, _ = fed(cut(text, size))
    told = got + [end]
    failed = [i for i, it in enumerate(told) if it[0]]
    return told[failed[0]], set(told[failed[0] :]) == {told[failed[0]]}


def listed(text: bytes) -> tuple:
    """What a volume of a text prints, and its root's listing by the volume and by its frozen tree."""
    volume = Volume(USUAL, text)
    tree = volume.tree()
    frozen = told("frozen_readdir", tree, b"/")
    given_up("frozen_close", tree)
    return volume.image(), volume.told("readdir", b"/"), frozen


# ---- deltas that are refused

TREE = b"D / 5\nF /a 3 7\nb 0 616263\nD /d 8\nF /d/x 1 9\nb 0 31\nF /z 0 3\n"
# By another program.
DIGEST = b"e00440c4873f9dacaf51b6b07e14b86dec6351ba50cc8f6e10515de683a2b4c1"
FRONT = b"delta 1 " + DIGEST + b"\n"

# Lines after the first, and the number of the first bad line.
BAD_LINES = [
    (b"", 2),
    (b"= 7\n", 3),
    (b"= 7\nend", 3),
    (b"= 7\nend\n\n", 4),
    (b"= 7\nend\nend\n", 4),
    (b"= 0\nend\n", 2),
    (b"= 07\nend\n", 2),
    (b"=7\nend\n", 2),
    (b"= 7 \nend\n", 2),
    (b"= 3\n* 3\n= 1\nend\n", 3),
    (b"= 3\n- \nend\n", 3),
    (b"= 3\n+\n= 4\nend\n", 3),
    (b"= 18446744073709551616\nend\n", 2),
    (b"= 7\nEND\n", 3),
]
# Texts of which the first line is bad.
BAD_FIRST = [
    b"",
    b"delta 1 e004\nend\n",
    b"delta 1 " + DIGEST.upper() + b"\n= 7\nend\n",
    b"delta 2 " + DIGEST + b"\n= 7\nend\n",
    FRONT[:72],
]
# Commands that use more lines than there are, leave some, or make lines that are no image.
SPOILT = [b"= 8\nend\n", b"- 8\nend\n", b"= 6\nend\n", b"- 7\nend\n", b"- 1\n= 6\nend\n", b"= 7\n+ F /b 0 1\nend\n"]


def patched(text: bytes) -> tuple:
    """The answer to a delta, its line, and the image then."""
    volume, line = Volume(USUAL, TREE), ctypes.c_uint64()
    return volume.ask("apply_delta", text, line), line.value, volume.image()


# ---- compaction

# Changes after which messages are pending in a small tree and no step fits; the number stands for as many steps. They were found by a
# random search, and then made as few as possible.
STUCK = """create /g15, create /d2, create /g08, mkdir /g18, mkdir /d0, mkdir /d02, create /f18, mkdir /g16, mkdir /g07, create /d17,
mkdir /g22, create /d0/g07, create /f24, mkdir /f08, 2, create /d1, rmtree /d1, create /g24, mkdir /g28, create /d0/f04, rename /d0 /f06,
rmtree /d2, 4, mkdir /d1, mkdir /d20, create /d0, mkdir /d2, create /d1/d24, mkdir /d1/f18, mkdir /d13, create /g23, 28, create /d1/d18,
create /d1/d19, mkdir /d15, mkdir /d2/d24, 1, rename /d1 /d2/g01, rmtree /d0"""


def steps_at_the_end() -> tuple:
    """How many of 10,000 steps compaction does behind the changes, and then of one."""
    volume = Volume(SMALL)
    for change in STUCK.encode().replace(b"\n", b" ").split(b", "):
        name, *paths = change.split()
        if name.isdigit():
            volume.ask("compact", int(name))
        else:
            done(volume.ask(name.decode(), *paths, 0))
    return volume.ask("compact", 10_000), volume.ask("compact", 1)


def each():
    for holes, modified, stored in HOLES:
        live = as_file(with_holes(holes), modified, stored)
        yield f"holes {holes}", punched(holes), (live, live[2], as_file(WHOLE, 3, [(0, LENGTH)]))
    yield "no holes", refuses_holes(), ([(fault, fault) for _, fault in NO_FILES], as_file(WHOLE, 3, [(0, LENGTH)]))
    yield "more bytes than a block", has_long(with_long()), True
    for offset, place, count, wanted, start in COPIES:
        yield f"a copy of {count} from {offset} to {place}", copied_so(offset, place, count, start), (wanted, LONG, True)
    volume = with_long()
    for source, target, fault in NO_COPIES:
        yield f"a copy of {source!r} to {target!r}", copied(volume, source, 0, target, 0, 1), -fault
    for number, text in enumerate([*IMAGES, LONG_IMAGE]):
        for size in SIZES if number < len(IMAGES) else [4096]:
            yield f"image {number} by {size}", round_trip(text, size), (text, text)
    for text, line in NO_IMAGES:
        for size in SIZES:
            yield f"no image {text!r} by {size}", first_fault(text, size), ((EINVAL, line), True)
    got, end, _ = fed([b"D / 0\nx\n", b"D / 0\n"])
    yield "what was refused stays refused", got + [end], [(EINVAL, 2)] * 3
    image, *listings = listed(DIRECTORIES)
    yield "a long text is printed", (len(image), image[:18]), (11_006, b"D / 0\nD /a1000 0\nD"[:18])
    for listing in listings:
        yield "a long text is listed", (len(listing), listing[:14]), (7_000, b"da1000\0da1001\0")
    yield "a long text is refused at its bad line", Volume(USUAL, DIRECTORIES + b"x\n").refused, (EINVAL, 1_002)
    yield "a text of a bad shape", Volume((8, 4, 4), b"d /\n").refused, (EINVAL, 0)
    for text, line in BAD_LINES:
        yield f"a bad line of {text!r}", patched(FRONT + text), (EINVAL, line, TREE)
    for text in BAD_FIRST:
        yield f"a bad first line {text!r}", patched(text), (EINVAL, 1, TREE)
    yield "a delta of another tree", patched(FRONT[:-2] + b"2\n= 7\nend\n"), (ENOENT, 0, TREE)
    for text in SPOILT:
        yield f"no image by {text!r}", patched(FRONT + text), (EINVAL, 0, TREE)
    count, more = steps_at_the_end()
    yield "compaction ends where no step has room", (count < 10_000, more), (True, 0)
