"""A program that changes a folder step by step and notes what was answered, and what the folder has to be after each step.

    store_states.py FOLDER NUMBER NOTES FROM

does the steps of a number from step FROM on until it fails. To the file NOTES go, a line each, `done K` behind the answer to step K, and
`kept K` where all steps up to K were synced then. Each step is one request.
"""
import os
import random
import sys
from collections.abc import Iterator
from pathlib import Path
from typing import NamedTuple

PAGE = 4096
NAMES = [f"name{i}" for i in range(12)]


class Step(NamedTuple):
    what: str
    name: str
    other: str = ""
    at: int = 0
    data: bytes = b""


class Model:
    """What names a folder has, and what stands under each: `folder`, or a file that may have several names."""

    def __init__(self):
        self.names: dict[str, int] = {}
        self.files: dict[int, list] = {}  # bytes, mode; None: a folder
        self.last = 0

    def has_file(self, name: str) -> bool:
        return name in self.names and self.files[self.names[name]] is not None

    def allows(self, step: Step) -> bool:
        if step.what in ("create", "mkdir", "symlink"):
            return step.name not in self.names
        if step.what == "rmdir":
            return step.name in self.names and not self.has_file(step.name)
        if step.what == "link":
            return self.has_file(step.name) and step.other not in self.names
        if step.what == "rename":
            return self.has_file(step.name) and step.other != step.name and (
                step.other not in self.names or self.has_file(step.other))
        return self.has_file(step.name)

    def add(self, name: str, file: list | None) -> None:
        self.last += 1
        self.names[name], self.files[self.last] = self.last, file

    def drop(self, name: str) -> None:
        number = self.names.pop(name)
        if number not in self.names.values():
            del self.files[number]

    def do(self, step: Step) -> None:
        file = self.files.get(self.names.get(step.name, 0))
        if step.what == "create":
            self.add(step.name, [b"", 0o644])
        elif step.what == "mkdir":
            self.add(step.name, None)
        elif step.what in ("rmdir", "unlink"):
            self.drop(step.name)
        elif step.what == "write":
            old = file[0].ljust(step.at, b"\0")
            file[0] = old[:step.at] + step.data + old[step.at + len(step.data):]
        elif step.what == "cut":
            file[0] = file[0][:step.at].ljust(step.at, b"\0")
        elif step.what == "chmod":
            file[1] = step.at
        elif step.what == "link":
            self.names[step.other] = self.names[step.name]
        elif step.what == "rename":
            self.rename(step.name, step.other)

    def rename(self, name: str, other: str) -> None:
        if self.names.get(other) == self.names[name]:
            return
        if other in self.names:
            self.drop(other)
        self.names[other] = self.names.pop(name)

    def reported(self) -> dict:
        """What is seen of the folder."""
        seen = {}
        for name, number in self.names.items():
            file = self.files[number]
            names = sum(1 for it in self.names.values() if it == number)
            seen[name] = "folder" if file is None else (file[0], file[1], names)
        return seen


def seen(folder: Path) -> dict:
    reported = {}
    for entry in os.scandir(folder):
        if entry.is_dir():
            reported[entry.name] = "folder"
        else:
            stat = entry.stat()
            reported[entry.name] = (Path(entry.path).read_bytes(), stat.st_mode & 0o7777, stat.st_nlink)
    return reported


def steps(number: int) -> Iterator[tuple[Step, Model]]:
    """The steps of a number, each with what the folder has then. The model is one, and changes."""
    chance, model = random.Random(number), Model()
    kinds = ["create"] * 3 + ["write"] * 8 + ["mkdir", "rmdir", "unlink", "cut", "chmod", "link", "rename", "rename"]
    while True:
        step = Step(chance.choice(kinds), chance.choice(NAMES), chance.choice(NAMES), chance.randrange(20000),
                    chance.randbytes(chance.randrange(1, 3000)))
        # The kernel may make several requests of a write over several pages.
        step = step._replace(data=step.data[:PAGE - step.at % PAGE])
        if step.what == "chmod":
            step = step._replace(at=0o600 | chance.randrange(0o100))
        if model.allows(step):
            model.do(step)
            yield step, model


def do(folder: Path, step: Step) -> None:
    path, other = folder / step.name, folder / step.other
    if step.what == "create":
        os.close(os.open(path, os.O_CREAT | os.O_EXCL | os.O_WRONLY, 0o644))
    elif step.what == "write":
        file = os.open(path, os.O_WRONLY)
        assert os.pwrite(file, step.data, step.at) == len(step.data)
        os.close(file)
    else:
        {"mkdir": lambda: path.mkdir(), "rmdir": path.rmdir, "unlink": path.unlink,
         "cut": lambda: os.truncate(path, step.at), "chmod": lambda: path.chmod(step.at),
         "link": lambda: os.link(path, other), "rename": lambda: path.rename(other)}[step.what]()


def sync(folder: Path) -> None:
    opened = os.open(folder, os.O_RDONLY)
    os.fsync(opened)
    os.close(opened)


def main() -> None:
    folder, number, notes, first = Path(sys.argv[1]), int(sys.argv[2]), sys.argv[3], int(sys.argv[4])
    os.umask(0)
    chance = random.Random(number + first)
    with open(notes, "a", buffering=1) as out:
        for count, (step, _) in enumerate(steps(number), start=1):
            if count <= first:
                continue
            do(folder, step)
            out.write(f"done {count}\n")
            if chance.random() < 0.05:
                sync(folder)
                out.write(f"kept {count}\n")


if __name__ == "__main__":
    main()
