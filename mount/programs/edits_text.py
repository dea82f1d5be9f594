"""Deltas of format 2, applied to the lines of an image: written from docs/FORMATS.md alone."""
import hashlib
from typing import NamedTuple

from image_text import BLOCK, key, percent_path, plain


class Meta(NamedTuple):
    kind: bytes
    length: int
    mtime: int


def meta_of(words: list[bytes]) -> Meta:
    """Of the words behind the kind and the path: M, or LEN M."""
    numbers = list(map(int, words[2:]))
    return Meta(words[0], numbers[0] if words[0] == b"F" else 0, numbers[-1])


def words_of(meta: Meta) -> bytes:
    return b"%d" % meta.mtime if meta.kind == b"D" else b"%d %d" % (meta.length, meta.mtime)


class EditedImage:
    """The entries of an image by their paths, and the blocks that have a byte other than zero by path and index."""

    def __init__(self, lines: list[bytes]):
        self.entries: dict[bytes, Meta] = {}
        self.blocks: dict[tuple[bytes, int], bytes] = {}
        path = b""
        for line in lines:
            words = line.rstrip(b"\n").split(b" ")
            if words[0] == b"b":
                self.blocks[path, int(words[1])] = bytes.fromhex(words[2].decode())
            else:
                path = plain(words[1])
                self.entries[path] = meta_of(words)

    def lines(self) -> list[bytes]:
        out = []
        for path, meta in sorted(self.entries.items(), key=lambda it: key(it[0])):
            out.append(b"%s %s %s\n" % (meta.kind, percent_path(path), words_of(meta)))
            mine = sorted((index, data) for (of, index), data in self.blocks.items() if of == path)
            out += [b"b %d %s\n" % (index, data.hex().encode()) for index, data in mine]
        return out

    def apply(self, text: list[bytes]) -> None:
        assert text[0] == b"delta 2\n" and text[-1] == b"end\n"
        for line in text[1:-1]:
            words = line.rstrip(b"\n").split(b" ")
            {b"-": self.remove, b"+": self.add, b"!": self.alter, b"b": self.rewrite}[words[0]](words[1:])

    def remove(self, words: list[bytes]) -> None:
        path = plain(words[1])
        assert self.entries[path] == meta_of(words) and not any(it.startswith(path + b"/") for it in self.entries), words
        del self.entries[path]
        self.cut(path, 0)

    def add(self, words: list[bytes]) -> None:
        path = plain(words[1])
        assert path not in self.entries and self.entries[path.rpartition(b"/")[0] or b"/"].kind == b"D", words
        self.entries[path] = meta_of(words)

    def alter(self, words: list[bytes]) -> None:
        path, half = plain(words[1]), len(words) // 2
        old, new = (meta_of(words[:2] + part) for part in (words[2:half + 1], words[half + 1:]))
        assert self.entries[path] == old, words
        self.entries[path] = new
        self.cut(path, new.length)

    def rewrite(self, words: list[bytes]) -> None:
        path, index = plain(words[0]), int(words[1])
        old, new = self.blocks.pop((path, index), b""), b"" if words[3] == b"-" else bytes.fromhex(words[3].decode())
        assert words[2] == (hashlib.sha256(old).hexdigest().encode() if old else b"-"), words
        assert index * BLOCK + max(len(new), 1) <= self.entries[path].length, words
        if new:
            self.blocks[path, index] = new

    def cut(self, path: bytes, length: int) -> None:
        """What is behind the end of a file is no more."""
        for it in [it for it in self.blocks if it[0] == path and it[1] * BLOCK + BLOCK > length]:
            data = self.blocks.pop(it)[:max(0, length - it[1] * BLOCK)].rstrip(b"\0")
            if data:
                self.blocks[it] = data
