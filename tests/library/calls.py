"""The symbols of the static library, which is linked into a shared one for this."""
import ctypes
import re
from pathlib import Path

HEADER = Path(__file__).resolve().parents[2] / "include/doorvervain.h"
# The number of each error.
ERRORS = {name: int(number) for name, number in re.findall(r"DOORVERVAIN_(E[A-Z]+) = (\d+),", HEADER.read_text())}
globals().update(ERRORS)
USUAL, SMALL = (16, 256, 256), (4, 4, 4)
CAPACITY = 1 << 18

library: ctypes.CDLL


class Pointer(ctypes.Structure):
    """A volume, a frozen tree, a printer or a loader."""

    _fields_ = [("ptr", ctypes.c_void_p), ("before", ctypes.c_void_p)]


class Attributes(ctypes.Structure):
    _fields_ = [(name, ctypes.c_uint32) for name in ("mode", "user", "group")]
    _fields_ += [("kind", ctypes.c_uint8)]
    _fields_ += [(name, ctypes.c_uint64) for name in ("names", "link", "device", "modified", "held")]
    _fields_ += [("has_modified", ctypes.c_uint8)]

    def fields(self) -> dict:
        return {name: getattr(self, name) for name, _ in self._fields_}


def ask(name: str, *words):
    """Calls a symbol. Bytes and a buffer are a pointer and a length, a structure or a result is a pointer to it."""
    given = []
    for word in words:
        if isinstance(word, bytes):
            given += [ctypes.c_char_p(word), ctypes.c_size_t(len(word))]
        elif isinstance(word, int):
            given.append(ctypes.c_uint64(word))
        elif isinstance(word, ctypes.Array):
            given += [word, ctypes.c_size_t(len(word))]
        elif isinstance(word, (ctypes.c_uint8, ctypes.c_uint64, ctypes.Structure)):
            given.append(ctypes.byref(word))
        else:
            given.append(word)
    symbol = getattr(library, f"doorvervain_raw_{name}")
    symbol.restype = ctypes.c_uint32 if name == "compact" else ctypes.c_uint8
    return symbol(*given)


def told(name: str, *words, capacity: int = CAPACITY):
    """The bytes that a call writes, or the number of its error."""
    out, size = ctypes.create_string_buffer(capacity), ctypes.c_size_t()
    number = ask(name, *words, out, size)
    return number or out.raw[: size.value]


def stat_of(name: str, tree: Pointer, path: bytes):
    """Kind, length and mtime, or the number of the error."""
    kind, length, modified = ctypes.c_uint8(), ctypes.c_uint64(), ctypes.c_uint64()
    return ask(name, tree, path, kind, length, modified) or (kind.value, length.value, modified.value)


def given_up(name: str, it: Pointer) -> None:
    """Calls a symbol that takes a pointer by value."""
    getattr(library, f"doorvervain_raw_{name}")(ctypes.c_void_p(it.ptr))
    it.ptr = None


class Volume:
    """A volume of a shape, empty or of an image."""

    def __init__(self, shape: tuple = USUAL, image: bytes | None = None):
        self.fs, line = Pointer(), ctypes.c_uint64()
        number = ask("open", *shape, self.fs) if image is None else ask("load", *shape, image, line, self.fs)
        # why there is none
        self.refused = (number, line.value) if number else None

    def __del__(self):
        if self.fs.ptr:
            given_up("close", self.fs)

    def ask(self, name: str, *words):
        return ask(name, self.fs, *words)

    def told(self, name: str, *words):
        return told(name, self.fs, *words)

    def tree(self, name: bytes | None = None) -> Pointer:
        """The live tree, or that of a snapshot."""
        tree = Pointer()
        number = self.ask("freeze", tree) if name is None else self.ask("open_snapshot", name, tree)
        assert not number, number
        return tree

    def image(self) -> bytes:
        tree = self.tree()
        text = told("image", tree)
        given_up("frozen_close", tree)
        return text

    def stat(self, path: bytes):
        return stat_of("stat", self.fs, path)
