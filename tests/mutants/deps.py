"""What a crate rests on of the crates below it: what its texts name there, and what those name, to the end.

A text names what its file has or brings from this repository under a name that stands in the text; behind a module and `::`, whatever
has the name that stands there. A method is reached where its type is named and the crate or its edits call one of its name; what a
trait's impl states, where the trait and the type are named. Private fields count, with the `view` and the `invariant` over them: the
prover tells them of each value that a function above holds. But no method of what only they name can be called there.
"""
from __future__ import annotations

import dataclasses
import re
from pathlib import Path
from typing import Callable, Iterator

from imports import Import
from resolve import Meanings
from source import Item, Source, Span
from items import WORD, Module, Statement, is_import, sources_of

# What stands behind a module and `::`.
BEHIND = re.compile(r"\b[a-z_]\w*\s*(?=::\s*(?:(\w+)|\{([^}]*)\}))")
# The name of a method that is called, or of a field.
CALL = re.compile(r"[.:]\s*(\w+)")


def behind_paths(text: str) -> set[str]:
    """The names that stand behind a module and `::`."""
    return {name for found in BEHIND.findall(text) for part in found for name in WORD.findall(part)}


def import_spans(items: tuple[Item, ...]) -> Iterator[Span]:
    for it in items:
        if is_import(it):
            yield it.span
        yield from import_spans(it.parts)


def code_of(source: Source) -> str:
    """The code of a file of src/, bodies too, without its imports."""
    code = source.code
    for start, end in import_spans(source.items):
        code = code[:start] + " " * (end - start) + code[end:]
    return code


@dataclasses.dataclass
class Reach:
    """What texts name."""

    # what their names mean
    meant: set[Statement] = dataclasses.field(default_factory=set)
    # the names of which no file tells what they mean
    names: set[str] = dataclasses.field(default_factory=set)
    # the names of the methods that they call
    calls: set[str] = dataclasses.field(default_factory=set)

    def add(self, other: Reach) -> None:
        self.meant |= other.meant
        self.names |= other.names

    def has(self, it: Statement, known: set[str]) -> bool:
        """Whether the texts reach a statement, where the known names are those of all that they reach."""
        if it.names:
            return it in self.meant or not it.names.isdisjoint(self.names)
        return known.issuperset(it.needs) and (not it.method or it.method in self.calls)


class Beneath:
    """What the crates of a repository rest on of those below them."""

    def __init__(self, folders: dict[str, Path], below: dict[str, list[str]]):
        self.folders, self.below = folders, below
        self.meanings = Meanings(folders, below)
        self.kept_reach: dict[Statement, Reach] = {}

    def reach(self, statement: Statement) -> Reach:
        """What a text names."""
        if statement not in self.kept_reach:
            reach = self.kept_reach[statement] = Reach(names=behind_paths(statement.said))
            reach.meant.update(one for name in statement.local for one in statement.module.named[name])
            for it in statement.brought:
                self.bring(reach, statement.module, it, self.meanings.meant_in(statement, it))
        return self.kept_reach[statement]

    def bring(self, reach: Reach, module: Module, it: Import, meant: list[Statement]) -> None:
        """Adds what an import of a file means, or its names where no file tells what they mean."""
        reach.meant.update(meant)
        if not meant and self.meanings.is_ours(module, it):
            reach.names |= it.names

    def begin(self, crate: str, edits: str) -> Reach:
        """What the texts of a crate and of its edits name."""
        reach = Reach()
        for text in [edits, *map(code_of, sources_of(self.folders[crate]))]:
            reach.names |= behind_paths(text)
            reach.calls.update(CALL.findall(text))
        for file in self.meanings.files[crate]:
            for it in file.imports:
                self.bring(reach, file, it, self.meanings.meant(file, it))
            for it in file.statements:
                reach.add(self.reach(it))
        return reach

    def reached(self, crate: str, edits: str) -> set[Statement]:
        """What the texts of a crate and of its edits reach of the crates below."""
        reach = self.begin(crate, edits)
        left = [it for below in self.below[crate] for file in self.meanings.files[below] for it in file.statements if it.is_shown]
        found = self.spread(reach, left, ends=lambda it: it.is_inside)
        # no method can be called of what only private fields name
        reach.calls = set()
        for it in found:
            reach.add(self.reach(it))
        return found | self.spread(reach, [it for it in left if it not in found], ends=lambda it: False)

    def spread(self, reach: Reach, left: list[Statement], ends: Callable[[Statement], bool]) -> set[Statement]:
        """What of the statements texts reach, and what these do, but for what those name at which it ends."""
        found: set[Statement] = set()
        while True:
            known = reach.names.union(*(it.names for it in reach.meant))
            new = [it for it in left if reach.has(it, known)]
            if not new:
                return found
            found.update(new)
            left = [it for it in left if it not in found]
            for it in new:
                if not ends(it):
                    reach.add(self.reach(it))

    def rests_on(self, crate: str, edits: str) -> list[str]:
        """What is told of all that the crate and its edits rest on."""
        own = [told for file in self.meanings.files[crate] for told in ["/".join(file.path), *map(self.meanings.told, file.statements)]]
        return [*own, *sorted({self.meanings.told(it) for it in self.reached(crate, edits)})]
