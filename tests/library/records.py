"""Attribute records: their paths and their texts, worked out by hand, and what is none."""
from calls import EINVAL, ENAMETOOLONG, ENOENT, Attributes, ask, told

# A path, the directory of its record, and the path of its record.
PLACES = [
    (b"/", b"/.doorvervain/tree", b"/.doorvervain/tree/\x01"),
    (b"/etc/passwd", b"/.doorvervain/tree/etc/passwd", b"/.doorvervain/tree/etc/passwd/\x01"),
    (b"/\x01a/b", b"/.doorvervain/tree/\x01\x01a/b", b"/.doorvervain/tree/\x01\x01a/b/\x01"),
    (b"/a/\x01", b"/.doorvervain/tree/a/\x01\x01", b"/.doorvervain/tree/a/\x01\x01/\x01"),
    (b"/\x02/b\x01", b"/.doorvervain/tree/\x02/b\x01", b"/.doorvervain/tree/\x02/b\x01/\x01"),
    (b"/.doorvervains/tree", b"/.doorvervain/tree/.doorvervains/tree", b"/.doorvervain/tree/.doorvervains/tree/\x01"),
]

# Paths, and why they have no record.
NO_PLACES = [
    (b"", ENOENT),
    (b"a", EINVAL),
    (b"/.doorvervain", EINVAL),
    (b"/.doorvervain/tree/a", EINVAL),
    (b"/a/.doorvervain", b"/.doorvervain/tree/a/.doorvervain/\x01"),
]

# How many names of 100 bytes come first, the last name, and the length of the record's path. Nine names are 909 bytes of text; with one
# more of 93 bytes the text has 1,003, and that of its record 1,023.
LONG = [
    (9, b"n" * 93, 1023),
    (9, b"n" * 94, ENAMETOOLONG),
    (9, b"\x01" + b"n" * 92, ENAMETOOLONG),
    (9, b"\x01" + b"n" * 91, 1023),
    (0, b"n" * 255, 276),
    (0, b"\x01" + b"n" * 253, 276),
    (0, b"\x01" + b"n" * 254, ENAMETOOLONG),
]

FILE = {"mode": 0o600, "kind": 2, "names": 1}
DISK = {"mode": 0o660, "group": 6, "kind": 7, "names": 1, "device": 2049, "has_modified": 1}
DISK |= {"modified": 1_700_000_000_000_000_000, "held": 1_700_000_000_123_456_789}
SHARED = {"mode": 0o1777, "user": 1000, "group": 100, "kind": 1, "names": 1}
GREATEST = {"mode": 0o7777, "user": 2**32 - 1, "group": 2**32 - 1, "kind": 8, "names": 2**64 - 1, "link": 2**64 - 1}
GREATEST |= {"modified": 2**64 - 1, "has_modified": 1}
FRONT = b"doorvervain record 1\n"

# Fields, extended attributes one after the other, and the record.
RECORDS = [
    (FILE, b"", b"kind file\nmode 0600\nuser 0\ngroup 0\nnames 1\n"),
    (
        DISK,
        b"",
        b"kind block-device 2049\nmode 0660\nuser 0\ngroup 6\nnames 1\nmodified 1700000000000000000\nuntil 1700000000123456789\n",
    ),
    (
        SHARED,
        b"user.a b\0\0\0\0\0user.comment\0\x03\0\0\0hi\n",
        b"kind directory\nmode 1777\nuser 1000\ngroup 100\nnames 1\nextended user.a%20b -\nextended user.comment 68690a\n",
    ),
    (
        GREATEST,
        b"user.%\xff\0\x01\0\0\0\0",
        b"kind name-of 18446744073709551615\nmode 7777\nuser 4294967295\ngroup 4294967295\nnames 18446744073709551615\n"
        b"modified 18446744073709551615\nuntil 0\nextended user.%25%FF 00\n",
    ),
]

# Texts that are no records: a line is missing, is not in its place, has another spelling or occurs twice.
NO_RECORDS = [
    b"",
    b"doorvervain record 2\nkind file\nmode 0600\nuser 0\ngroup 0\nnames 1\n",
    FRONT + b"kind file\nmode 0600\nuser 0\ngroup 0\nnames 1",
    FRONT + b"kind file\nmode 0600\nuser 0\ngroup 0\nnames 1\n\n",
    FRONT + b"kind file\nmode 600\nuser 0\ngroup 0\nnames 1\n",
    FRONT + b"kind file\nmode 0680\nuser 0\ngroup 0\nnames 1\n",
    FRONT + b"kind file\nmode rw-r\nuser 0\ngroup 0\nnames 1\n",
    FRONT + b"kind file 1\nmode 0600\nuser 0\ngroup 0\nnames 1\n",
    FRONT + b"kind block-device\nmode 0600\nuser 0\ngroup 0\nnames 1\n",
    FRONT + b"kind door\nmode 0600\nuser 0\ngroup 0\nnames 1\n",
    FRONT + b"kind file\nmode 0600\nuser 4294967296\ngroup 0\nnames 1\n",
    FRONT + b"kind file\nmode 0600\nuser 01\ngroup 0\nnames 1\n",
    FRONT + b"kind file\nmode 0600\ngroup 0\nuser 0\nnames 1\n",
    FRONT + b"kind file\nmode 0600\nuser 0\ngroup 0\nnames 1\nmodified 1\n",
    FRONT + b"kind file\nmode 0600\nuser 0\ngroup 0\nnames 1\nextended b 00\nextended a 00\n",
    FRONT + b"kind file\nmode 0600\nuser 0\ngroup 0\nnames 1\nextended a 00\nextended a 00\n",
    FRONT + b"kind file\nmode 0600\nuser 0\ngroup 0\nnames 1\nextended a AB\n",
    FRONT + b"kind file\nmode 0600\nuser 0\ngroup 0\nnames 1\nextended %61 00\n",
]

# Fields and extended attributes that no record has.
UNWRITTEN = [(FILE | {"kind": kind}, b"") for kind in (0, 9, 255)] + [(FILE | {"mode": 0o10000}, b"")]
UNWRITTEN += [(FILE, it) for it in (b"a", b"a\0", b"a\0\x01\0\0\0", b"\0\0\0\0\0")]
UNWRITTEN += [(FILE, b"b\0\0\0\0\0a\0\0\0\0\0"), (FILE, b"a\0\0\0\0\0a\0\0\0\0\0")]


def encoded(fields: dict, extended: bytes):
    return told("attr_encode", Attributes(**fields), extended)


def decoded(text: bytes):
    """The fields and the extended attributes, or the number of the error."""
    attributes = Attributes(mode=99, kind=99, names=99, link=99, device=99, modified=99, held=99, has_modified=1)
    extended = told("attr_decode", text, attributes)
    return extended if isinstance(extended, int) else (attributes.fields(), extended)


def each():
    for path, folder, record in PLACES:
        yield f"the place of {path!r}", (told("attr_dir", path), told("attr_path", path)), (folder, record)
    for path, wanted in NO_PLACES:
        yield f"the place of {path!r}", told("attr_path", path), wanted
    for names, last, wanted in LONG:
        got = told("attr_path", (b"/" + b"n" * 100) * names + b"/" + last)
        yield f"the place below {names} names of a name of {len(last)} bytes", got if isinstance(got, int) else len(got), wanted
    for fields, extended, text in RECORDS:
        yield f"the record {text!r}", encoded(fields, extended), FRONT + text
        yield f"the fields of {text!r}", decoded(FRONT + text), (Attributes(**fields).fields(), extended)
    for text in NO_RECORDS:
        yield f"no record {text!r}", decoded(text), EINVAL
    for fields, extended in UNWRITTEN:
        yield f"no fields {fields} {extended!r}", encoded(fields, extended), EINVAL
