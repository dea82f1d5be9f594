"""What names mean in the texts of a repository: where imports lead, and what is told of a text.

No path in the repository counts: what an import brings is told by the text that it means, and of the toolchain by its path.
"""
from __future__ import annotations

import hashlib
import re
from pathlib import Path
from typing import Iterable, Iterator

from imports import Import, is_capital, is_declared, types_in
from items import Module, Statement, modules_of, types_of

# Through how many texts an import is followed, so that of two things with one name and one text each is told from the other.
STEPS = 3


def checksum(texts: Iterable[str]) -> str:
    return hashlib.sha256(repr(list(texts)).encode()).hexdigest()[:20]


class Meanings:
    """The files of crates, and what names mean in them."""

    def __init__(self, folders: dict[str, Path], below: dict[str, list[str]]):
        self.files: dict[str, list[Module]] = {}
        for crate, folder in folders.items():
            types = (types_of(folders[it]) for it in [crate, *below[crate]])
            self.files[crate] = modules_of(crate, folder, frozenset().union(*types))
        self.modules = {(crate, it.path): it for crate, files in self.files.items() for it in files}
        self.kept_meant: dict[tuple[Module, Import], list[Statement]] = {}
        self.kept_told: dict[tuple[Statement, int], str] = {}

    def home(self, module: Module, path: tuple[str, ...]) -> tuple[str, tuple[str, ...]]:
        """The crate that a path in a file leads to, and the path in it."""
        first, rest = path[0] if path else "", path[1:]
        if first == "Rattle":
            return (path[1], path[4:]) if is_declared(path) else (path[1], path[2:])
        if first == "super":
            up = module.path[:-1]
            while rest[:1] == ("super",):
                up, rest = up[:-1], rest[1:]
            return module.crate, (*up, *rest)
        if first in ("crate", "self"):
            return module.crate, rest if first == "crate" else (*module.path, *rest)
        if (module.crate, (*module.path, first)) in self.modules:
            return module.crate, (*module.path, *path)
        return first, rest

    def module_at(self, module: Module, path: tuple[str, ...]) -> Module | None:
        """The file that a path in a file leads to, or that has the type to which it leads."""
        crate, inner = self.home(module, path)
        while inner and (crate, inner) not in self.modules and is_capital(inner[-1]):
            inner = inner[:-1]
        return self.modules.get((crate, inner)) or self.module_handed(crate, inner)

    def module_handed(self, crate: str, inner: tuple[str, ...]) -> Module | None:
        """The file that the path leads to in a crate by a module that the crate's first file brings."""
        root = self.modules.get((crate, ()))
        paths = [(*it.path, it.name, *inner[1:]) for it in root.imports if it.visible == inner[0]] if root and inner else []
        return next((self.module_at(root, it) for it in paths if self.home(root, it) != (crate, inner)), None)

    def is_ours(self, module: Module, it: Import) -> bool:
        """Whether an import of a file is of this repository."""
        return self.home(module, it.path)[0] in self.files

    def meant(self, module: Module, it: Import) -> list[Statement]:
        """What an import of a file means, where it is of this repository and brings no whole module."""
        if (module, it) not in self.kept_meant:
            self.kept_meant[module, it] = []
            home = self.module_at(module, it.path)
            found = (self.in_file(home, name) for name in [it.name, *types_in(it.path)] if home and name)
            self.kept_meant[module, it] = next(filter(None, found), [])
        return self.kept_meant[module, it]

    def in_file(self, file: Module, name: str) -> list[Statement]:
        """What has the name in a file, or in those that the file brings it from."""
        return file.named.get(name) or [one for it in file.imports if it.visible == name for one in self.handed(file, it)]

    def handed(self, file: Module, it: Import) -> list[Statement]:
        """What a file hands on by an import; of what is the toolchain's that is its path."""
        return self.meant(file, it) if self.is_ours(file, it) else [Statement(file, str(it), ())]

    def meant_in(self, statement: Statement, it: Import) -> list[Statement]:
        """What an import means in a text; of a module that it brings whole, what the text names in it."""
        home = None if it.name or types_in(it.path) else self.module_at(statement.module, it.path)
        if not home:
            return self.meant(statement.module, it)
        parts = re.findall(rf"\b{re.escape(it.visible)}\.(\w+)", statement.said)
        return [one for name in sorted(set(parts)) for one in self.in_file(home, name)]

    # ---- what a text says

    def told(self, statement: Statement, steps: int = STEPS) -> str:
        """A checksum of a text, and of what the names mean in it that its file has or brings."""
        if (statement, steps) not in self.kept_told:
            meanings = sorted(self.meanings(statement, steps - 1)) if steps else []
            self.kept_told[statement, steps] = checksum([statement.said, *meanings])
        return self.kept_told[statement, steps]

    def meanings(self, statement: Statement, steps: int) -> Iterator[str]:
        for it in statement.brought:
            meant = sorted(self.told(one, steps) for one in self.meant_in(statement, it))
            yield f"{it.visible} {meant or it}"
        for name in statement.local - statement.names:
            yield f"{name} {sorted(self.told(one, steps) for one in statement.module.named[name])}"
