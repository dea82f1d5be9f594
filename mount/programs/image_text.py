"""The text of an image, taken apart and written again."""
import re
from pathlib import Path

BLOCK = 4096
RESERVED = b"/.doorvervain"


def percent(text: bytes) -> bytes:
    return b"".join(b"%c" % byte if 32 < byte < 127 and byte != 37 else b"%%%02X" % byte for byte in text)


def plain(text: bytes) -> bytes:
    return re.sub(rb"%(..)", lambda found: bytes.fromhex(found[1].decode()), text)


def key(path: bytes) -> bytes:
    return b"".join(name + b"\0" for name in path.split(b"/") if name)


def record_path(path: bytes) -> bytes:
    """Where the record of a path stands: at its mirrored path, in which names that begin with byte 1 have one more."""
    mirrored = re.sub(rb"/\x01", b"/\x01\x01", path.rstrip(b"/"))
    return RESERVED + b"/tree" + mirrored + b"/\x01"


def record(kind: str = "file", mode: str = "0600", more: str = "", names: int | str = 1) -> bytes:
    return f"doorvervain record 1\nkind {kind}\nmode {mode}\nuser 0\ngroup 0\nnames {names}\n{more}".encode()


class Image:
    """Directories and files by their paths: a file has its bytes, a directory has None."""

    def __init__(self, entries: dict[bytes, bytes | None]):
        self.entries = {b"/": None}
        for path, data in entries.items():
            self.put(path, data)

    def put(self, path: bytes, data: bytes | None) -> None:
        """With the directories above it."""
        above = path.rpartition(b"/")[0]
        if above and above not in self.entries:
            self.put(above, None)
        self.entries[path] = data

    def write(self, file: Path) -> None:
        Path(f"{file}.sum").unlink(missing_ok=True)
        with file.open("wb") as out:
            for path in sorted(self.entries, key=key):
                out.writelines(lines_of(path, self.entries[path]))


def lines_of(path: bytes, data: bytes | None):
    if data is None:
        yield b"D %s 5\n" % percent_path(path)
        return
    yield b"F %s %d 5\n" % (percent_path(path), len(data))
    for index in range((len(data) + BLOCK - 1) // BLOCK):
        block = data[index * BLOCK : (index + 1) * BLOCK].rstrip(b"\0")
        if block:
            yield b"b %d %s\n" % (index, block.hex().encode())


def percent_path(path: bytes) -> bytes:
    return b"/".join(map(percent, path.split(b"/")))


def read_image(file: Path) -> Image:
    """Of an image with small files alone."""
    entries: dict[bytes, bytes | None] = {}
    path = b""
    for line in file.read_bytes().splitlines():
        word, *rest = line.split(b" ")
        if word == b"b":
            at, block = int(rest[0]) * BLOCK, bytes.fromhex(rest[1].decode())
            data = bytearray(entries[path] or b"")
            data[at : at + len(block)] = block
            entries[path] = bytes(data)
        else:
            path = plain(rest[0])
            entries[path] = bytes(int(rest[1])) if word == b"F" else None
    return Image(entries)
