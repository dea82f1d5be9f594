"""The paths at which two trees differ: random calls of all kinds, snapshots, restores and steps of compaction beside a plain dictionary of
the tree, and what two dictionaries say that differs.
"""
import random

from calls import EINVAL, ENOENT, SMALL, USUAL, Volume, given_up, told
from volumes import done

NAMES = [b"a", b"b", b"cd", b"x" * 40]
ROUNDS, CALLS = 60, 12
ROOT = b"/"

# ---- the plain tree: each path has a directory's mtime, or a file's bytes and mtime


def above(path: bytes) -> bytes:
    return path.rsplit(b"/", 1)[0] or ROOT


def below(tree: dict, path: bytes) -> list:
    return [it for it in tree if it.startswith(path + b"/")]


def key_of(path: bytes) -> bytes:
    """The order of listings: a directory, and what is below it, come before names that are longer."""
    return path[1:].replace(b"/", b"\0") + b"\0" if path != ROOT else b""


def unlike(one: dict, other: dict) -> list:
    return sorted((it for it in one.keys() | other.keys() if one.get(it) != other.get(it)), key=key_of)


class Plain:
    """A volume, and beside it what its trees have to be."""

    def __init__(self, seed: int, shape: tuple):
        self.draw, self.volume = random.Random(seed), Volume(shape)
        self.tree, self.snapshots, self.at = {ROOT: 0}, {}, 0

    def some(self, is_file: bool) -> bytes | None:
        found = sorted(it for it, entry in self.tree.items() if isinstance(entry, tuple) == is_file)
        return self.draw.choice(found) if found else None

    def new(self) -> bytes | None:
        path = self.some(False).rstrip(b"/") + b"/" + self.draw.choice(NAMES)
        return path if path not in self.tree and len(path) < 200 else None

    def add(self, kind: str) -> None:
        path = self.new()
        if path:
            done(self.volume.ask(kind, path, self.at))
            self.tree[path] = self.at if kind == "mkdir" else (b"", self.at)
            self.tree[above(path)] = self.at

    def write(self) -> None:
        path = self.some(True)
        if path:
            data, offset = self.draw.randbytes(self.draw.choice([1, 9, 5000])), self.draw.choice([0, 3, 4095, 9000])
            done(self.volume.ask("write", path, offset, data, self.at))
            old = self.tree[path][0].ljust(offset, b"\0")
            self.tree[path] = (old[:offset] + data + old[offset + len(data) :], self.at)

    def truncate(self) -> None:
        path, length = self.some(True), self.draw.choice([0, 2, 4096, 8200])
        if path:
            done(self.volume.ask("truncate", path, length, self.at))
            self.tree[path] = (self.tree[path][0][:length].ljust(length, b"\0"), self.at)

    def punch(self) -> None:
        path, offset, count = self.some(True), self.draw.choice([0, 4000]), self.draw.choice([50, 4200])
        if path and len(self.tree[path][0]) > offset + count:
            done(self.volume.ask("punch", path, offset, count, self.at))
            old = self.tree[path][0]
            self.tree[path] = (old[:offset] + bytes(count) + old[offset + count :], self.at)

    def remove(self, kind: str) -> None:
        path = self.some(kind == "unlink")
        if not path or path == ROOT or (kind == "rmdir" and below(self.tree, path)):
            return
        done(self.volume.ask(kind, path, self.at))
        for it in [path, *below(self.tree, path)]:
            del self.tree[it]
        self.tree[above(path)] = self.at

    def rename(self) -> None:
        old, new = self.some(self.draw.random() < 0.5), self.new()
        if not old or not new or old == ROOT or new.startswith(old + b"/"):
            return
        done(self.volume.ask("rename", old, new, self.at))
        for it in [old, *below(self.tree, old)]:
            self.tree[new + it[len(old) :]] = self.tree.pop(it)
        self.tree[above(old)] = self.tree[above(new)] = self.at

    def set_mtime(self) -> None:
        path = self.some(self.draw.random() < 0.5)
        if path:
            done(self.volume.ask("set_mtime", path, self.at + 1_000_000))
            entry = self.tree[path]
            self.tree[path] = (entry[0], self.at + 1_000_000) if isinstance(entry, tuple) else self.at + 1_000_000

    def change(self) -> None:
        self.at += 1
        kind = self.draw.choice(["mkdir", "create", "create", "write", "write", "truncate", "punch", "unlink", "rmdir", "rmtree", "rename", "mtime"])
        if kind in ("mkdir", "create"):
            self.add(kind)
        elif kind in ("unlink", "rmdir", "rmtree"):
            self.remove(kind)
        else:
            {"write": self.write, "truncate": self.truncate, "punch": self.punch, "rename": self.rename, "mtime": self.set_mtime}[kind]()

    def turn(self, number: int) -> None:
        """A snapshot is taken, dropped or restored, or a step is done."""
        kind, names = self.draw.choice(["take", "take", "drop", "restore", "compact", "share"]), sorted(self.snapshots)
        if kind == "take" and len(names) < 6:
            done(self.volume.ask("snapshot", b"s%d" % number))
            self.snapshots[b"s%d" % number] = dict(self.tree)
        elif kind == "drop" and names:
            name = self.draw.choice(names)
            done(self.volume.ask("drop_snapshot", name))
            del self.snapshots[name]
        elif kind == "restore" and names:
            name = self.draw.choice(names)
            done(self.volume.ask("restore", name))
            self.tree = dict(self.snapshots[name])
        elif kind == "share":
            self.share()
        else:
            self.volume.ask("compact", self.draw.randrange(40))

    def share(self) -> None:
        """A frozen tree is restored behind a change: nothing noted is of use then."""
        share, before = self.volume.tree(), dict(self.tree)
        self.change()
        done(self.volume.ask("restore_frozen", share))
        given_up("frozen_close", share)
        self.tree = before


def changed(volume: Volume, old: bytes, new: bytes):
    listed = told("changed_paths", volume.fs, old, new)
    return listed.split(b"\0")[:-1] if isinstance(listed, bytes) else listed


def courses(seed: int, shape: tuple):
    plain = Plain(seed, shape)
    for number in range(ROUNDS):
        for _ in range(plain.draw.randrange(CALLS)):
            plain.change()
        plain.turn(number)
        trees = {b"": plain.tree, **plain.snapshots}
        for old in trees:
            new = plain.draw.choice(sorted(trees))
            wanted = unlike(trees[old], trees[new])
            yield f"changed, {seed}, {number}, from {old} to {new}", changed(plain.volume, old, new), wanted


def by_hand():
    """A few calls, and what they changed."""
    volume = Volume(SMALL)
    done(volume.ask("mkdir", b"/d", 1), volume.ask("create", b"/d/f", 2), volume.ask("write", b"/d/f", 0, b"abc", 3), volume.ask("create", b"/e", 4))
    done(volume.ask("snapshot", b"s"))
    yield "nothing changed", changed(volume, b"s", b""), []
    done(volume.ask("write", b"/d/f", 0, b"abc", 3))
    yield "the same bytes at the same time", changed(volume, b"s", b""), []
    done(volume.ask("write", b"/d/f", 1, b"x", 3))
    yield "one byte", changed(volume, b"s", b""), [b"/d/f"]
    done(volume.ask("truncate", b"/d/f", 4096, 3))
    yield "zeros behind it", changed(volume, b"s", b""), [b"/d/f"]
    done(volume.ask("snapshot", b"t"), volume.ask("rename", b"/e", b"/d/e", 4))
    yield "a rename, which the root tells by its mtime alone if it changes", changed(volume, b"t", b""), [b"/d", b"/d/e", b"/e"]
    done(volume.ask("rmtree", b"/d", 5))
    yield "a subtree", changed(volume, b"t", b""), [b"/", b"/d", b"/d/f", b"/e"]
    yield "the other way", changed(volume, b"", b"t"), [b"/", b"/d", b"/d/f", b"/e"]
    yield "between snapshots", changed(volume, b"s", b"t"), [b"/d/f"]
    yield "a tree and itself", changed(volume, b"t", b"t"), []
    yield "no such snapshot", (changed(volume, b"u", b"t"), changed(volume, b"t", b"u")), (ENOENT, ENOENT)
    yield "no name", (changed(volume, b"a/b", b"u"), changed(volume, b"", b"a/b")), (EINVAL, EINVAL)
    yield "too small a buffer", told("changed_paths", volume.fs, b"t", b"", capacity=5), 13


def each():
    yield from by_hand()
    for seed, shape in enumerate([SMALL, SMALL, USUAL]):
        yield from courses(seed, shape)
