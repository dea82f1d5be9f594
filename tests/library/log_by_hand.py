"""Logs by `docs/FORMATS.md`, with no code of the library: bodies of changes, and logs of three records."""
import hashlib
import struct

SALT = b"0123456789:;<=>?"
# The number of the first record.
FIRST = 5


def entry(kind: int, at: int, one: int, two: int, first: bytes, second: bytes = b"") -> bytes:
    return struct.pack("<6Q", kind, at, one, two, len(first), len(second)) + first + second


# `mkdir /a`; `create /a/x`, and `hi` written to it from byte 2 on; the snapshot `s`.
FIRST_BODY = entry(1, 7, 0, 0, b"/a")
SECOND_BODY = entry(2, 8, 0, 0, b"/a/x") + entry(8, 9, 2, 0, b"/a/x", b"hi")
THIRD_BODY = entry(10, 0, 0, 0, b"s")
BODIES = [FIRST_BODY, SECOND_BODY, THIRD_BODY]
# 3 bytes from byte 4,096 of `/a` on, copied to `/bc` from byte 8,193 on.
COPY_BODY = entry(14, 9, 4096, 3, b"/a", struct.pack("<Q", 8193) + b"/bc")
# What `/a/x` has from byte 2 on, 100 bytes at most, copied to its byte 10.
COPY_WITHIN = entry(14, 9, 2, 100, b"/a/x", struct.pack("<Q", 10) + b"/a/x")
# Edits that add `/a/x` with `hi` from byte 2 on, and their body.
EDITS = b"delta 2\n+ F /a/x 4 8\nb /a/x 0 - 00006869\nend\n"
EDITS_BODY = entry(15, 0, 0, 0, EDITS)


def record(salt: bytes, number: int, body: bytes) -> bytes:
    told = b"dvlog %d\n" % (2 if salt else 1) + struct.pack("<2Q", number, len(body)) + body
    return told + hashlib.sha256(salt + told).digest()


def log_of(salt: bytes) -> bytes:
    return b"".join(record(salt, FIRST + i, body) for i, body in enumerate(BODIES))


LOG, SALTED = log_of(b""), log_of(SALT)
# Where the first and the second record end.
FIRST_END = len(record(b"", FIRST, FIRST_BODY))
SECOND_END = FIRST_END + len(record(b"", FIRST + 1, SECOND_BODY))
