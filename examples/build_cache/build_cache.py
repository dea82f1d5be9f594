#!/usr/bin/env python3
"""A build cache that has a tree for each branch.

What was built on a branch stays in the tree of that branch. A new branch begins with the tree of the one that it leaves, by a
snapshot, so that only what differs is built again; going back to a branch builds nothing. It prints how many files each step
built, beside a cache with one tree for all branches. build_cache.expected has the lines.
"""
import hashlib
import zlib
from typing import Dict

from doorvervain import Volume


class Cache:
    """What was built, in a volume: `/out` has the results, `/keys` the sums of the sources that they were built of."""

    def __init__(self, branch: str, forks: bool = True) -> None:
        self.volume = Volume()
        self.volume.makedirs("/out")
        self.volume.makedirs("/keys")
        self.branch = branch
        self.forks = forks

    def switch(self, branch: str) -> None:
        """Leaves a branch, whose tree is kept, for another, whose tree comes back; a new one goes on with this tree."""
        if self.forks and branch != self.branch:
            self.keep()
            if branch in self.volume.snapshots():
                self.volume.restore(branch)
        self.branch = branch

    def keep(self) -> None:
        """Keeps the tree under the name of its branch."""
        if self.branch in self.volume.snapshots():
            self.volume.drop_snapshot(self.branch)
        self.volume.snapshot(self.branch)

    def build(self, sources: Dict[str, bytes]) -> int:
        """Builds what is not there, and takes out what has no source: how many were built."""
        for name in set(self.volume.listdir("/out")) - set(sources):
            self.volume.unlink(f"/out/{name}")
            self.volume.unlink(f"/keys/{name}")
        return sum(self.build_one(name, text) for name, text in sources.items())

    def build_one(self, name: str, text: bytes) -> bool:
        key = hashlib.sha256(text).digest()
        if self.volume.exists(f"/keys/{name}") and self.volume.read(f"/keys/{name}") == key:
            return False
        self.volume.write_bytes(f"/out/{name}", zlib.compress(text))
        self.volume.write_bytes(f"/keys/{name}", key)
        return True


def main() -> None:
    source = {f"part{number:03}": b"int f%d;" % number for number in range(200)}
    parser = {**source, **{f"part{number:03}": b"int parsed;" for number in (3, 50, 120)}}
    printer = {**parser, "printer": b"int printed;"}
    del printer["part007"]
    fixed = {**source, "part001": b"int fixed;"}
    steps = [
        ("main", source), ("parser", parser), ("main", source), ("parser", parser), ("printer", printer),
        ("main", fixed), ("printer", printer), ("parser", parser), ("main", fixed),
    ]
    forked, single = Cache("main"), Cache("main", forks=False)
    total = [0, 0]
    for branch, sources in steps:
        built = []
        for cache in (forked, single):
            cache.switch(branch)
            built.append(cache.build(sources))
            assert cache.volume.listdir("/out") == sorted(sources)
            assert all(zlib.decompress(cache.volume.read(f"/out/{name}")) == text for name, text in sources.items())
        total = [total[0] + built[0], total[1] + built[1]]
        print(f"{branch}: {built[0]} built, {built[1]} with one tree")
    forked.keep()
    print(f"in all: {total[0]} built, {total[1]} with one tree; trees: {' '.join(forked.volume.snapshots())}")


if __name__ == "__main__":
    main()
