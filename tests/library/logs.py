"""Logs: bodies of changes, records, logs that are cut and damaged, what is replayed and what is printed."""
import ctypes

from calls import EFBIG, EINVAL, ENOENT, SMALL, Volume, ask, told
from log_by_hand import (
    BODIES,
    COPY_BODY,
    COPY_WITHIN,
    EDITS,
    EDITS_BODY,
    FIRST,
    FIRST_BODY,
    FIRST_END,
    LOG,
    SALT,
    SALTED,
    SECOND_BODY,
    SECOND_END,
    THIRD_BODY,
    entry,
    record,
)

# A change, and its body.
ENCODED = [
    (("mkdir", b"/a", 7), FIRST_BODY),
    (("create", b"/a/x", 8), SECOND_BODY[:52]),
    (("write", b"/a/x", 2, b"hi", 9), SECOND_BODY[52:]),
    (("snapshot", b"s"), THIRD_BODY),
    (("copy_range", b"/a", 4096, b"/bc", 8193, 3, 9), COPY_BODY),
    (("edits", EDITS), EDITS_BODY),
    (("edits", b""), entry(15, 0, 0, 0, b"")),
    (("mkdir", b"", 1), ENOENT),
    (("mkdir", b"a", 1), EINVAL),
    (("rename", b"/a", b"b", 1), EINVAL),
    (("copy_range", b"", 0, b"b", 0, 1, 1), ENOENT),
    (("copy_range", b"/a", 0, b"b", 0, 1, 1), EINVAL),
    (("snapshot", b""), EINVAL),
]

# What a volume has before a change, with the snapshot `s` of an empty root.
BEFORE = b"D / 0\nF /a 8193 0\nb 0 61\nb 1 62\nb 2 63\nD /d 0\nF /d/x 0 0\nD /e 0\n"

# A change, its lines as it is printed, and the image after it.
CHANGES = [
    (("unlink", b"/a", 1), b"at 1\nunlink /a\n", b"D / 1\nD /d 0\nF /d/x 0 0\nD /e 0\n"),
    (("rmdir", b"/e", 2), b"at 2\nrmdir /e\n", b"D / 2\nF /a 8193 0\nb 0 61\nb 1 62\nb 2 63\nD /d 0\nF /d/x 0 0\n"),
    (("rmtree", b"/d", 3), b"at 3\nrmtree /d\n", b"D / 3\nF /a 8193 0\nb 0 61\nb 1 62\nb 2 63\nD /e 0\n"),
    (("rename", b"/d", b"/b", 4), b"at 4\nrename /d /b\n", b"D / 4\nF /a 8193 0\nb 0 61\nb 1 62\nb 2 63\nD /b 0\nF /b/x 0 0\nD /e 0\n"),
    (("truncate", b"/a", 12, 5), b"at 5\ntruncate /a 12\n", b"D / 0\nF /a 12 5\nb 0 61\nD /d 0\nF /d/x 0 0\nD /e 0\n"),
    (("punch", b"/a", 4096, 8192, 6), b"# punch /a 4096 8192\n", b"D / 0\nF /a 8193 6\nb 0 61\nD /d 0\nF /d/x 0 0\nD /e 0\n"),
    (("set_mtime", b"/a", 7), b"# mtime /a 7\n", b"D / 0\nF /a 8193 7\nb 0 61\nb 1 62\nb 2 63\nD /d 0\nF /d/x 0 0\nD /e 0\n"),
    (
        ("copy_range", b"/a", 4096, b"/d/x", 8192, 5, 8),
        b"# copy /a 4096 /d/x 8192 5\n",
        b"D / 0\nF /a 8193 0\nb 0 61\nb 1 62\nb 2 63\nD /d 0\nF /d/x 8197 8\nb 2 62\nD /e 0\n",
    ),
    (
        ("edits", b"delta 2\n! D / 0 5\n+ F /n 3 4\nb /n 0 - 6869\nend\n"),
        b"# edits 47\n",
        b"D / 5\nF /a 8193 0\nb 0 61\nb 1 62\nb 2 63\nD /d 0\nF /d/x 0 0\nD /e 0\nF /n 3 4\nb 0 6869\n",
    ),
    (("edits", b"delta 2\nend\n"), b"# edits 12\n", BEFORE),
    (("edits", b"delta 2\n- D /e 0\n- F /a 8193 1\nend\n"), b"# edits 35\n", ENOENT),
    (("edits", b"delta 2\n- D /e 0\n"), b"# edits 17\n", EINVAL),
    (("restore", b"s"), b"restore s\n", b"D / 0\n"),
    (("drop", b"s"), b"drop s\n", BEFORE),
]

# A body and its lines.
LINES = [
    (b"", b""),
    (FIRST_BODY, b"at 7\nmkdir /a\n"),
    (SECOND_BODY, b"at 8\ncreate /a/x\nat 9\nwrite /a/x 2 6869\n"),
    (THIRD_BODY, b"snapshot s\n"),
    (FIRST_BODY[1:], EINVAL),
]

# A change and its lines, with words that are escaped, and numbers that are too great.
CHANGE_LINES = [
    (("unlink", b"/", 1), b"at 1\nunlink /\n"),
    (("rename", b"/a b", b"/%", 4), b"at 4\nrename /a%20b /%25\n"),
    (("write", b"/a", 7, b"", 6), b"at 6\nwrite /a 7 -\n"),
    (("write", b"/a", 2**64 - 1, b"x", 6), EFBIG),
    (("set_mtime", b"/a b", 6), b"# mtime /a%20b 6\n"),
    (("copy_range", b"/a b", 4096, b"/%", 8192, 5, 6), b"# copy /a%20b 4096 /%25 8192 5\n"),
]

# A body, the place of a byte and its new value, and whether it is one of changes.
SPOILT = [
    # the kinds are 1 to 15
    (FIRST_BODY, 0, 0, False),
    (FIRST_BODY, 0, 16, False),
    (EDITS_BODY, 0, 16, False),
    # edits with a number, or another text
    (FIRST_BODY, 0, 15, False),
    (EDITS_BODY, 8, 1, False),
    (EDITS_BODY, 16, 1, False),
    (EDITS_BODY, 24, 1, False),
    (entry(15, 0, 0, 0, EDITS, b"x"), None, 0, False),
    # a copy to no offset, and with any numbers
    (FIRST_BODY, 0, 14, False),
    (COPY_BODY, 24, 255, True),
    (COPY_BODY, 57, 255, True),
    # to an offset alone, to no path, and cut off
    (COPY_BODY[:58], 40, 8, False),
    (COPY_BODY[:57], 40, 7, False),
    (COPY_BODY, 58, ord("b"), False),
    (COPY_BODY[:60], None, 0, False),
    (FIRST_BODY, 0, 5, True),
    # a number that the change does not have
    (FIRST_BODY, 16, 1, False),
    (FIRST_BODY, 24, 1, False),
    # texts that are too long for the body, or leave bytes
    (FIRST_BODY, 32, 3, False),
    (FIRST_BODY, 32, 1, False),
    (FIRST_BODY, 40, 1, False),
    # no path
    (FIRST_BODY, 48, ord("a"), False),
    # cut off
    (FIRST_BODY[:49], None, 0, False),
    (SECOND_BODY[:100], None, 0, False),
]


def encoded(change: tuple):
    return told(f"wal_{change[0]}", *change[1:])


def lines(body: bytes):
    return told("wal_dump", body)


def applied(volume: Volume, body: bytes) -> int:
    return volume.ask("wal_apply", body, ctypes.c_size_t())


def changed(body: bytes, place: int | None, value: int) -> bytes:
    return body if place is None else body[:place] + bytes([value]) + body[place + 1 :]


def fault_of(body: bytes) -> int:
    """Why it is none of changes; 0 if it is applied, or fails at what is not there."""
    number = applied(Volume(SMALL), body)
    return 0 if number == ENOENT else number


def after(change: tuple):
    """The image that a change leaves, which goes through its body."""
    volume = Volume(SMALL, b"D / 0\n")
    volume.ask("snapshot", b"s")
    # makes what the image says
    for path in (b"/a", b"/d/x"):
        if path == b"/d/x":
            volume.ask("mkdir", b"/d", 0), volume.ask("mkdir", b"/e", 0)
        volume.ask("create", path, 0)
    for place, text in ((0, b"a"), (4096, b"b"), (8192, b"c")):
        volume.ask("write", b"/a", place, text, 0)
    assert volume.image() == BEFORE, volume.image()
    number = applied(volume, encoded(change))
    return number or volume.image()


def records_in(log: bytes, salt: bytes) -> int:
    """How many valid records a log has."""
    size, rest = ctypes.c_size_t(), log
    for number in range(8):
        if ask("wal_salted_next", rest, salt, FIRST + number, size):
            return number
        rest = rest[24 + size.value + 32 :]
    return 8


def with_edits(before: bytes, text: bytes) -> bytes:
    """A log of `mkdir /a`, and of edits behind other changes."""
    return LOG[:FIRST_END] + record(b"", FIRST + 1, before + entry(15, 0, 0, 0, text))


def is_next(log: bytes, number: int) -> bool:
    return ask("wal_salted_next", log, b"", number, ctypes.c_size_t()) == 0


def whole_before(place: int) -> int:
    """How many of the three records end at or before this byte."""
    return sum(end <= place for end in (FIRST_END, SECOND_END, len(LOG)))


# The end of a log, how many records are applied, how many bytes they have, and the length of the file, or why there is none.
ENDS = [
    (0, 0, 0, ENOENT),
    (FIRST_END - 1, 0, 0, ENOENT),
    (FIRST_END, 1, FIRST_END, ENOENT),
    (SECOND_END - 1, 1, FIRST_END, ENOENT),
    (SECOND_END, 2, SECOND_END, 4),
    (len(LOG), 3, len(LOG), 4),
]


def length_of(volume: Volume):
    found = volume.stat(b"/a/x")
    return found if isinstance(found, int) else found[1]


def replayed(log: bytes, salt: bytes, number: int) -> tuple:
    """The error, how many records are applied, how many changes of the next one, how many bytes, and the length of the file."""
    volume, told = Volume(SMALL), [ctypes.c_size_t() for _ in range(3)]
    error = volume.ask("wal_salted_replay", log, salt, number, *told)
    return error, *(it.value for it in told), length_of(volume)


def copied_within() -> list:
    volume, got = Volume(SMALL), []
    for body in (FIRST_BODY, SECOND_BODY, COPY_WITHIN):
        got += [applied(volume, body), length_of(volume)]
    return got


def each():
    for change, wanted in ENCODED:
        yield f"the body of {change}", encoded(change), wanted
    out, size = ctypes.create_string_buffer(b"\x63"), ctypes.c_size_t()
    number = ask("wal_mkdir", b"/a", 1, ctypes.byref(out), 0, size)
    yield "a size alone", (number, size.value, out.raw[0]), (0, 50, 0x63)
    for change, text, image in CHANGES:
        yield f"the lines of {change}", lines(encoded(change)), text
        yield f"what {change} leaves", after(change), image
    for body, text in LINES:
        yield f"the lines of {body!r}", lines(body), text
    for change, text in CHANGE_LINES:
        yield f"the lines of {change}", lines(encoded(change)), text
    for count, text in ((28_672, b"at 2\nwrite /a 3 \n"), (57_345, b"at 2\nwrite /a 3 \nwrite /a 28675 \nwrite /a 57347 \n")):
        body = encoded(("write", b"/a", 3, bytes(count), 2))
        yield f"the lines of a write of {count} bytes", lines(body).replace(b"0", b""), text
    yield "no changes", applied(Volume(SMALL), b""), 0
    yield "two changes", lines(SECOND_BODY).count(b"at "), 2
    for number, (body, place, value, wanted) in enumerate(SPOILT):
        yield f"changed body {number}", fault_of(changed(body, place, value)), 0 if wanted else EINVAL
        if not wanted:
            yield f"changed body {number}, printed", lines(changed(body, place, value)), EINVAL
    for log, salt in ((LOG, b""), (SALTED, SALT)):
        for place in range(len(log) + 1):
            yield f"a log of {len(salt)} bytes of salt cut at {place}", records_in(log[:place], salt), whole_before(place)
        for place in range(len(log)):
            got = records_in(changed(log, place, log[place] ^ 0x10), salt)
            yield f"a log of {len(salt)} bytes of salt changed at {place}", got, whole_before(place)
        for number, body in enumerate(BODIES, FIRST):
            frame = told("wal_salted_frame", salt, number, body)
            yield f"record {number}", frame[:24] + body + frame[24:], record(salt, number, body)
        for end, records, size, length in ENDS:
            yield f"replayed up to {end}", replayed(log[:end], salt, FIRST), (0, records, 0, size, length)
    yield "another number", [is_next(LOG, FIRST + 1), is_next(LOG, 0), is_next(LOG[1:], FIRST)], [False] * 3
    salts = [(SALTED, SALT), (SALTED, b""), (SALTED, SALT[:-1]), (SALTED, b"1" + SALT[1:]), (LOG, SALT)]
    yield "other salts", [records_in(*it) for it in salts], [3, 0, 0, 0, 0]
    # only the second record: `/a` is missing where its file is created
    yield "stops at what is refused", replayed(LOG[FIRST_END:], b"", FIRST + 1), (ENOENT, 0, 0, 0, ENOENT)
    size = len(with_edits(b"", EDITS))
    yield "edits", replayed(with_edits(b"", EDITS), b"", FIRST), (0, 2, 0, size, 4)
    # `/a/x` is there when they would add it
    yield "edits that do not fit", replayed(with_edits(SECOND_BODY, EDITS), b"", FIRST), (ENOENT, 1, 2, FIRST_END, 4)
    yield "edits that do not fit, without an end", replayed(with_edits(SECOND_BODY, EDITS[:-4]), b"", FIRST), (ENOENT, 1, 2, FIRST_END, 4)
    yield "edits without an end", replayed(with_edits(b"", EDITS[:-4]), b"", FIRST), (EINVAL, 1, 0, FIRST_END, ENOENT)
    yield "a copied range", copied_within(), [0, ENOENT, 0, 4, 0, 12]
