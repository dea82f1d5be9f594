"""The functions of a crate with their bodies: which of them an edit changes, and which a line of a check tells of."""
from __future__ import annotations

import dataclasses
import functools
import re
from typing import Iterable, Iterator

from definitions import lines_of
from resolve import checksum
from record import Crate, Edit
from source import Item, Source, Span
from items import header_of


@dataclasses.dataclass(frozen=True)
class Function:
    """A function with a body, and where its proof would lie below proofs/."""

    path: str
    name: str
    body: Span
    first_line: int
    last_line: int
    folder: re.Pattern
    exact: str
    # what a check of it alone names: it, or its module where it is of a trait; '' is the crate
    alone: str
    # the folder of the one proof of the functions that call one another with it, where it calls itself
    cycle: str

    def has_line(self, path: str, line: int) -> bool:
        return path == self.path and self.first_line <= line <= self.last_line


# The name of a cycle of calls, at each of its functions.
CYCLE = re.compile(r"#\[cycle\((\w+)\)\]")
# The module that defines a type, by the type's name.
Homes = dict[str, str]


def module_of(source: Source) -> str:
    return re.sub(r"(^|/)(lib|main|mod)$", "", source.path[len("src/") : -len(".rt")])


def types_among(items: tuple[Item, ...], module: str) -> Iterator[tuple[str, str]]:
    """The types that items define, each with its module."""
    for item in items:
        if item.kind in ("struct", "enum"):
            yield item.name, module
        elif item.kind == "mod":
            yield from types_among(item.parts, "/".join(filter(None, (module, item.name))))


def homes_of(sources: Iterable[Source]) -> Homes:
    """The homes of the types whose names only one module of a crate defines."""
    found: dict[str, set[str]] = {}
    for source in sources:
        for name, module in types_among(source.items, module_of(source)):
            found.setdefault(name, set()).add(module)
    return {name: next(iter(modules)) for name, modules in found.items() if len(modules) == 1}


def functions_of(source: Source, homes: Homes) -> Iterator[Function]:
    yield from functions_among(source, source.items, module_of(source), homes)


def functions_among(
    source: Source, items: tuple[Item, ...], module: str, homes: Homes, holder: str = "", is_of_trait: bool = False
) -> Iterator[Function]:
    for item in items:
        if item.kind == "fn" and item.body:
            front = "/".join(filter(None, (module, holder)))
            exact = "/".join(filter(None, (front, item.name)))
            of_trait = r"\w*" if holder else ""
            folder = re.compile(re.escape(front) + of_trait + ("/" if front else "") + re.escape(item.name))
            alone = (module if is_of_trait else exact).replace("/", "::")
            # from its attributes on: the prover tells of an export at these
            lines = source.line(item.span.start), source.line(item.span.end - 1)
            cycle = CYCLE.search(source.code, item.span.start, item.body.start)
            of_cycle = "/".join(filter(None, (exact.rpartition("/")[0] if not cycle else module, f"+{cycle[1] if cycle else item.name}")))
            yield Function(source.path, item.name, item.body, *lines, folder, exact, alone, of_cycle)
        elif item.kind == "mod":
            yield from functions_among(source, item.parts, "/".join(filter(None, (module, item.name))), homes)
        elif item.kind in ("impl", "trait"):
            of_trait, holder_name = (item.name, item.name) if item.kind == "trait" else header_of(source, item)
            # a type's own methods have the names of its module, wherever they stand
            at = module if of_trait else homes.get(holder_name, module)
            yield from functions_among(source, item.parts, at, homes, holder_name, bool(of_trait))


class Bodies:
    """The functions of a crate, found by places, lines and folders of proofs."""

    def __init__(self, crate: Crate):
        self.folder = crate.folder
        self.sources = {it.path: it for it in crate.sources()}
        homes = homes_of(self.sources.values())
        self.all = [it for source in self.sources.values() for it in functions_of(source, homes)]

    def touched(self, edit: Edit) -> frozenset[Function] | None:
        """The functions whose bodies hold all that the edit changes; None where it changes more, or where its texts overlap."""
        found = set()
        for change in edit.changes():
            text = self.sources[change.path].text if change.path in self.sources else ""
            if text.count(change.old) != 1:
                return None
            at = text.index(change.old)
            inside = [it for it in self.all if it.path == change.path and it.body.start < at and at + len(change.old) < it.body.end]
            if len(inside) != 1:
                return None
            found.add(inside[0])
        return frozenset(found)

    def at_line(self, path: str, line: int) -> list[Function]:
        return [it for it in self.all if it.has_line(path, line)]

    def of_proof(self, folder: str) -> list[Function]:
        """The functions whose proof may lie in the folder."""
        exact = [it for it in self.all if it.exact == folder]
        found = [it for it in self.all if it.folder.fullmatch(folder)]
        # of a trait: where one type's name begins another's, the longer is meant
        longest = max((len(it.exact) for it in found), default=0)
        return exact if len(exact) == 1 else [it for it in found if len(it.exact) == longest]

    def of_cycle(self, folder: str) -> list[Function]:
        """The functions that call one another, or the one that calls itself, whose one proof lies in the folder."""
        return [it for it in self.all if it.cycle == folder]

    def in_group(self, folder: str) -> list[Function]:
        """Where the folder holds the one proof of functions that call one another, the functions that may be among them."""
        module, _, name = folder.rpartition("/")
        return [it for it in self.all if it.exact.rpartition("/")[0].startswith(module)] if name.startswith("+") else []

    @functools.cached_property
    def proofs(self) -> dict[str, list[str]]:
        """The texts in proofs/ by the folders in which they lie."""
        found: dict[str, list[str]] = {}
        for file in sorted((self.folder / "proofs").rglob("*.antt")):
            text = " ".join(lines_of(file.read_text(encoding="utf-8")))
            found.setdefault(str(file.parent.relative_to(self.folder / "proofs")), []).append(text)
        return found

    def checksum(self, edit: Edit) -> str:
        """A checksum of the bodies and proofs of the functions that the edit changes: with others it may be refused at other goals."""
        functions = [it for it in self.all if it in (self.touched(edit) or ())]
        bodies = [" ".join(it.body.of(self.sources[it.path].said).split()) for it in functions]
        proofs = [self.proofs[at] for at in self.proofs if any(it.folder.fullmatch(at) or it.cycle == at for it in functions)]
        return checksum([*bodies, *map(repr, proofs)])[:8]
