"""Checkpoints: images under their revisions. The file is on the machine that keeps it; the log's store knows which machine keeps which.

The key `PREFIX/checkpoints/REVISION/MACHINE` says where the file is, the hash that it must have, and the hash of all replies up to it. A machine
keeps a file for as long as its key is there.
"""
import hashlib
import json
import os
import re
import shlex
import socket
import subprocess
from dataclasses import dataclass
from pathlib import Path

from log import Log, below, only

# A name that no program which fetches from there takes for an option.
MACHINE = re.compile(r"[A-Za-z0-9_][A-Za-z0-9_.@-]*")


@dataclass(frozen=True)
class Checkpoint:
    """What the store says of one: `chain` is the hash of all replies up to it, `image` that of its file."""

    revision: int
    machine: str
    chain: str
    image: str
    path: str

    def is_image(self, image: bytes) -> bool:
        return hashlib.sha256(image).hexdigest() == self.image


def prefix_of(log: Log) -> str:
    return f"{log.prefix}/checkpoints/"


def key_of(log: Log, revision: int, machine: str = "") -> str:
    return f"{prefix_of(log)}{revision:012}/{machine}"


def known(log: Log) -> list[Checkpoint]:
    """All that the store knows, the newest first."""
    found = []
    for it in log.all_in(below(prefix_of(log))):
        revision, machine = it.key.removeprefix(prefix_of(log)).split("/", 1)
        if MACHINE.fullmatch(machine):
            found.append(Checkpoint(int(revision), machine, **json.loads(it.value)))
    return sorted(found, key=lambda it: it.revision, reverse=True)


def write_whole(path: Path, image: bytes) -> None:
    """Writes the file so that it is there whole, or not at all, also where the machine stops."""
    written = path.with_suffix(".part")
    with open(written, "wb") as it:
        it.write(image)
        it.flush()
        os.fsync(it.fileno())
    written.rename(path)
    folder = os.open(path.parent, os.O_RDONLY)
    os.fsync(folder)
    os.close(folder)


class Keeper:
    """The checkpoints of this machine, in a folder that is the follower's own."""

    def __init__(self, log: Log, folder: Path, machine: str | None, fetch: str):
        self.log = log
        self.folder = folder
        self.machine = machine or socket.gethostname()
        self.fetch = shlex.split(fetch)
        folder.mkdir(parents=True, exist_ok=True)
        if not MACHINE.fullmatch(self.machine):
            raise ValueError(f"{self.machine} is no name of a machine")

    def path(self, revision: int) -> Path:
        return self.folder / f"{revision}.image"

    def keep(self, revision: int, chain: str, image: bytes) -> Checkpoint:
        path = self.path(revision)
        write_whole(path, image)
        said = {"chain": chain, "image": hashlib.sha256(image).hexdigest(), "path": str(path.resolve())}
        self.log.put(key_of(self.log, revision, self.machine), json.dumps(said).encode())
        self.forget()
        return Checkpoint(revision, self.machine, **said)

    def forget(self) -> None:
        """Removes the files whose keys are gone."""
        own = {Path(it.path) for it in known(self.log) if it.machine == self.machine}
        for it in self.folder.glob("*.image"):
            if it.stem.isdigit() and it.resolve() not in own:
                it.unlink()

    def own(self) -> Checkpoint | None:
        """The newest one whose file is here and whole. What the store says of others of this machine is taken back."""
        for it in known(self.log):
            path = self.path(it.revision)
            if it.machine != self.machine:
                continue
            if path.exists() and it.is_image(path.read_bytes()):
                return it
            self.log.remove(only(key_of(self.log, it.revision, self.machine)))
        return None

    def fetched(self) -> Checkpoint | None:
        """The newest one that another machine gives, and gives whole; this one then keeps it too."""
        for it in known(self.log):
            if it.machine == self.machine:
                continue
            got = subprocess.run([*self.fetch, it.machine, f"cat {shlex.quote(it.path)}"], stdin=subprocess.DEVNULL, capture_output=True)
            if got.returncode == 0 and it.is_image(got.stdout):
                print(f"checkpoint {it.revision} of {it.machine}", flush=True)
                return self.keep(it.revision, it.chain, got.stdout)
        return None
