"""Shards: which top directory is under which prefix of the log.

The table is one value in the log's own store, `ROOT/parts`: a JSON object from the name of a top directory to a prefix; the empty
name stands for the root and for every name that is not in the table. A line goes to the shard of its paths. A rename whose paths
lie in two shards is refused as one across file systems is (EXDEV), before anything is put.
"""
import json

from log import Log

# The lines with a path behind the first word; those with two paths. Other lines are for every shard: those on snapshots, and `at M`.
ONE_PATH = {b"mkdir", b"create", b"write", b"truncate", b"unlink", b"rmdir", b"rmtree", b"read", b"stat", b"readdir"}
TWO_PATHS = {b"rename"}


class Across(Exception):
    """The paths of a rename lie in two shards."""


def unescaped(text: bytes) -> bytes:
    head, *escapes = text.split(b"%")
    for it in escapes:
        try:
            head += bytes([int(it[:2], 16)]) + it[2:] if len(it) >= 2 else b"%" + it
        except ValueError:
            head += b"%" + it
    return head


def top_of(path: bytes) -> str:
    """The name of the directory below the root in which a path lies."""
    return unescaped(path).lstrip(b"/").split(b"/")[0].decode("utf-8", "surrogateescape")


class Parts:
    """The table."""

    def __init__(self, table: dict[str, str]):
        self.table = table
        self.prefixes = set(table.values())

    @classmethod
    def of(cls, log: Log) -> "Parts":
        found = log.get(f"{log.prefix}/parts")
        return cls(json.loads(found.value) if found else {"": log.prefix})

    def shard_of(self, path: bytes) -> str:
        return self.table.get(top_of(path), self.table[""])

    def shards_of(self, line: bytes) -> set[str]:
        """The prefixes to which a line goes."""
        if len(self.prefixes) == 1:
            return self.prefixes
        words = line.split(b" ")
        call = words[0].split(b"@")[0]
        if call in TWO_PATHS and len(words) == 3:
            shards = {self.shard_of(words[1]), self.shard_of(words[2])}
            if len(shards) > 1:
                raise Across(line)
            return shards
        if call in ONE_PATH and len(words) > 1:
            return {self.shard_of(words[1])}
        return self.prefixes
