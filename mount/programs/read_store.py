"""Reads a store: read_store.py DIR prints what its tree and its snapshots have.

It was written from docs/FORMATS.md alone, and shares nothing with the mount. It checks all that the page says of a store of
version 2 whose deltas are of format 2, and keeps no times of modification.
"""
import hashlib
import re
import sys
from pathlib import Path

HEADER_BODY, SALT, NUMBERS_OF_A_LOG = 96, 16, 1 << 40
KINDS = {1: "mkdir", 2: "create", 3: "unlink", 4: "rmdir", 5: "rmtree", 6: "rename", 7: "truncate", 8: "write", 9: "hole",
         10: "snapshot", 11: "drop", 12: "restore", 13: "mtime", 14: "copy", 15: "edits"}
FIRST_LINE = b"doorvervain checkpoint 2\n"


class Damaged(Exception):
    pass


def demand(holds: bool, what: str) -> None:
    if not holds:
        raise Damaged(what)


def digest(data: bytes) -> bytes:
    return hashlib.sha256(data).digest()


def number(data: bytes) -> int:
    return int.from_bytes(data, "little")


# ---- images and deltas


def plain(word: bytes) -> bytes:
    return re.sub(rb"%([0-9A-F]{2})", lambda it: bytes([int(it[1], 16)]), word)


def read_image(lines: list[bytes]) -> dict[bytes, bytearray | None]:
    """Paths with the bytes of files; none: a directory."""
    tree, last = {}, b""
    for line in lines:
        words = line.rstrip(b"\n").split(b" ")
        if words[0] in (b"D", b"d", b"F", b"f"):
            last = plain(words[1])
            tree[last] = bytearray(int(words[2])) if words[0] in (b"F", b"f") else None
        else:
            at, data = int(words[1]) * 4096, bytes.fromhex(words[2].decode())
            tree[last][at:at + len(data)] = data
    return tree


def rewrite_block(file: bytearray, words: list[bytes]) -> None:
    at, data = int(words[2]) * 4096, b"" if words[4] == b"-" else bytes.fromhex(words[4].decode())
    end = min(at + 4096, len(file))
    old = bytes(file[at:end]).rstrip(b"\0")
    demand(words[3] == (digest(old).hex().encode() if old else b"-") and at + max(len(data), 1) <= end, "a block that does not fit")
    file[at:end] = data + bytes(end - at - len(data))


def apply_edit(tree: dict[bytes, bytearray | None], words: list[bytes]) -> None:
    if words[0] == b"b":
        rewrite_block(tree[plain(words[1])], words)
        return
    path, is_file = plain(words[2]), words[1] == b"F"
    if words[0] == b"+":
        demand(path not in tree and tree.get(path.rpartition(b"/")[0] or b"/", b"") is None, "an entry that does not fit")
        tree[path] = bytearray(int(words[3])) if is_file else None
        return
    demand(path in tree and (tree[path] is not None) == is_file, "an entry that is not there")
    demand(not is_file or len(tree[path]) == int(words[3]), "a file of another length")
    if words[0] == b"-":
        demand(not any(it.startswith(path + b"/") for it in tree), "a directory that is not empty")
        del tree[path]
    elif is_file:
        tree[path] = (tree[path] + bytes(int(words[5])))[:int(words[5])]


def apply_delta(tree: dict[bytes, bytearray | None], delta: list[bytes]) -> None:
    demand(delta[0] == b"delta 2" and delta[-1] == b"end", "no delta of format 2")
    for line in delta[1:-1]:
        apply_edit(tree, line.split(b" "))


def read_snapshots(tree: dict[bytes, bytearray | None], data: bytes) -> dict[bytes, dict]:
    out, name, delta = {}, None, []
    for line in data.splitlines():
        if delta == [] and line.startswith(b"snapshot "):
            name = line.split(b" ")[1]
            continue
        delta.append(line)
        if line == b"end":
            apply_delta(tree, delta)
            out[name], delta = copy(tree), []
    return out


# ---- checkpoints


def read_sums(store: Path, count: int) -> tuple[bytes, bytes | None, bytes]:
    """The digest of the tree, that of the snapshots, and the salt of the first log."""
    text = (store / f"tree.{count}.sum").read_bytes()
    form = rb"%s([0-9a-f]{64})  tree\.%d\n(?:([0-9a-f]{64})  snapshots\.%d|no snapshots\.%d)\nlog %d ([0-9a-f]{32})\nend ([0-9a-f]{64})\n"
    found = re.fullmatch(form % (FIRST_LINE, count, count, count, count), text)
    demand(found is not None, "checksums of another form")
    demand(digest(text[:text.index(b"end ")]).hex().encode() == found[4], "checksums that were changed")
    return found[1], found[2], bytes.fromhex(found[3].decode())


def read_checkpoint(store: Path, count: int) -> tuple[dict, dict, bytes]:
    tree_sum, snapshots_sum, salt = read_sums(store, count)
    data = (store / f"tree.{count}").read_bytes()
    demand(digest(data).hex().encode() == tree_sum, "another tree")
    lines, snapshots = data.splitlines(keepends=True), {}
    if snapshots_sum:
        texts = (store / f"snapshots.{count}").read_bytes()
        demand(digest(texts).hex().encode() == snapshots_sum, "other snapshots")
        snapshots = read_snapshots(read_image(lines), texts)
    return read_image(lines), snapshots, salt


# ---- logs


def next_record(log: bytes, at: int, salt: bytes, count: int) -> bytes | None:
    """The body of the record of a number at a place; none: there is no such record."""
    front = log[at:at + 24]
    end = at + 24 + number(front[16:])
    if len(front) < 24 or front[:8] != b"dvlog 2\n" or number(front[8:16]) != count or end + 32 > len(log):
        return None
    body = log[at + 24:end]
    return body if digest(salt + front + body) == log[end:end + 32] else None


def marker_behind(log: bytes, at: int, salt: bytes, count: int) -> bool:
    """Whether a sync marker with a greater number stands somewhere from here on."""
    while (at := log.find(b"dvlog 2\n", at)) >= 0:
        found = number(log[at + 8:at + 16])
        if found > count and next_record(log, at, salt, found) == b"":
            return True
        at += 1
    return False


class Log:
    """A log, with the bodies of its records that count."""

    def __init__(self, data: bytes, count: int):
        self.first, self.data, self.salt = count * NUMBERS_OF_A_LOG, data, data[24:24 + SALT]
        header = next_record(data, 0, self.salt, self.first)
        demand(header is not None and len(header) == HEADER_BODY, f"log.{count} has no header")
        self.records_before, self.salt_before = number(header[16:24]), header[24:40]
        self.bodies, self.end = [header], 24 + HEADER_BODY + 32
        while (body := next_record(data, self.end, self.salt, self.first + len(self.bodies))) is not None:
            self.bodies.append(body)
            self.end += 56 + len(body)

    def settled(self) -> int:
        """Its records without the sync markers at its end."""
        count = len(self.bodies)
        while count > 1 and not self.bodies[count - 1]:
            count -= 1
        return count

    def is_new(self) -> bool:
        return len(self.data) == 56 + HEADER_BODY

    def is_followed_by(self, other: "Log") -> bool:
        return len(self.bodies) == other.records_before + 3 and self.end == len(self.data)

    def is_whole(self) -> bool:
        """What is behind the records of the last log is what was not on the disk."""
        return not marker_behind(self.data, self.end, self.salt, self.first + len(self.bodies))


def check_note(store: Path, first: int, logs: list[Log]) -> None:
    """What the last mount noted in `lock` of the newest log that it had; logs from this number on."""
    text = (store / "lock").read_bytes() if (store / "lock").exists() else b""
    form = rb"(doorvervain mount 2\n(?:began|ended) log (\d+) records (\d+) ([0-9a-f]{32})\n)end ([0-9a-f]{64})\n"
    found = re.fullmatch(form, text)
    if not found or digest(found[1]).hex().encode() != found[5] or int(found[2]) < first:
        return
    demand(int(found[2]) < first + len(logs), "a newer log that is missing")
    log = logs[int(found[2]) - first]
    demand(log.salt.hex().encode() == found[4] and log.settled() >= int(found[3]), "an older log")


def read_logs(store: Path, count: int, salt: bytes) -> list[bytes]:
    """The bodies of all records that count."""
    names, bodies, counting, before = [], [], [], None
    while (store / f"log.{count + len(names)}").exists():
        names.append(count + len(names))
    logs = [Log((store / f"log.{it}").read_bytes(), it) for it in names]
    demand(bool(logs) and logs[0].salt == salt, "the first log is missing, or another one")
    for log in logs:
        if before:
            demand(log.salt_before == before.salt, "a log that does not follow the one before it")
            if not before.is_followed_by(log):
                demand(log is logs[-1] and log.is_new(), "a log that is not whole")
                break
        bodies += log.bodies[1:]
        counting.append(log)
        before = log
    demand(before.is_whole(), "a record that was on the disk")
    demand(before is not logs[-1] or before.bodies[-3:] != [b""] * 3, "a log that is missing")
    check_note(store, count, counting)
    return bodies


# ---- changes


class Store:
    def __init__(self, folder: Path):
        sums = sorted((int(it.name.split(".")[1]) for it in folder.glob("tree.*.sum")), reverse=True)
        demand(bool(sums), "no checkpoint")
        self.tree, self.snapshots, salt = read_checkpoint(folder, sums[0])
        for body in read_logs(folder, sums[0], salt):
            self.do_all(body)

    def do_all(self, body: bytes) -> None:
        at = 0
        while at < len(body):
            kind, _, offset, count, first, second = (number(body[at + 8 * i:at + 8 * i + 8]) for i in range(6))
            at += 48
            self.do(KINDS[kind], offset, count, body[at:at + first], body[at + first:at + first + second])
            at += first + second

    def do(self, what: str, offset: int, count: int, path: bytes, other: bytes) -> None:
        if what in ("mkdir", "create"):
            self.tree[path] = None if what == "mkdir" else bytearray()
        elif what in ("unlink", "rmdir", "rmtree"):
            self.take_out(path)
        elif what == "rename":
            self.rename(path, other)
        elif what == "truncate":
            file = self.tree[path]
            self.tree[path] = file[:offset] + bytes(max(0, offset - len(file)))
        elif what == "write":
            file = self.tree[path]
            file += bytes(max(0, offset - len(file)))
            file[offset:offset + len(other)] = other
        elif what == "hole":
            end = min(offset + count, len(self.tree[path]))
            self.tree[path][offset:end] = bytes(max(0, end - offset))
        elif what == "copy":
            data = bytes(self.tree[path][offset:offset + count])
            if data:
                self.do("write", number(other[:8]), 0, other[8:], data)
        elif what == "edits":
            apply_delta(self.tree, path.splitlines())
        elif what != "mtime":
            self.keep(what, path)

    def keep(self, what: str, name: bytes) -> None:
        if what == "snapshot":
            self.snapshots[name] = copy(self.tree)
        elif what == "drop":
            del self.snapshots[name]
        else:
            self.tree = copy(self.snapshots[name])

    def take_out(self, path: bytes) -> None:
        for it in [it for it in self.tree if it == path or it.startswith(path + b"/")]:
            del self.tree[it]

    def rename(self, path: bytes, other: bytes) -> None:
        moved = {other + it[len(path):]: data for it, data in self.tree.items() if it == path or it.startswith(path + b"/")}
        self.take_out(path)
        self.take_out(other)
        self.tree |= moved


def copy(tree: dict) -> dict:
    return {path: data if data is None else bytearray(data) for path, data in tree.items()}


def main() -> None:
    store = Store(Path(sys.argv[1]))
    for name, tree in [(b"", store.tree), *sorted(store.snapshots.items())]:
        print("snapshot", name.decode())
        for path, data in sorted(tree.items()):
            print(path, "directory" if data is None else digest(bytes(data)).hex())


if __name__ == "__main__":
    main()
