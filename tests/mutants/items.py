"""What crates state: their items and definitions one by one, each with the names by which a text reaches it.

Bodies, comments and imports state nothing, and neither do attributes that only help a proof. `deps.py` tells what a text's imports mean.
"""
from __future__ import annotations

import dataclasses
import functools
import re
from collections import defaultdict
from pathlib import Path
from typing import Iterator

from definitions import read_definitions
from imports import Import, antt_imports, rust_imports
from source import HOLDERS, Item, Source, read_source

# Attributes that help a proof or the compiler, and say nothing of what a function does.
IDLE = re.compile(r"#\s*!?\s*\[\s*(tactic|inline|cold|allow)\b")
WORD = re.compile(r"\w+")
INNERMOST = re.compile(r"\([^()]*\)|\{[^{}]*\}|\[[^\[\]]*\]|<[^<>]*>")
GENERICS = re.compile(r"^\s*(unsafe\s+)?impl\b\s*(<(?:[^<>]|<(?:[^<>]|<[^<>]*>)*>)*>)?")
CONST = re.compile(r"(pub\b\s*(\([^)]*\))?\s*)?const\b")
TYPES = ("struct", "enum", "union", "trait")


@dataclasses.dataclass(eq=False)
class Module:
    """A file of a crate: its place as imports name it, what it brings, and what it states."""

    crate: str
    path: tuple[str, ...]
    imports: tuple[Import, ...]
    statements: list[Statement] = dataclasses.field(default_factory=list)

    @functools.cached_property
    def named(self) -> dict[str, list[Statement]]:
        """Its statements by the names that imports call them by."""
        found = defaultdict(list)
        for it in self.statements:
            for name in it.names:
                found[name].append(it)
        return found


@dataclasses.dataclass(eq=False)
class Statement:
    """An item of src/, a part of an impl, or a definition of specs/."""

    module: Module
    said: str
    # what its file and its impl bring
    imports: tuple[Import, ...]
    # what imports call it by; nothing of an impl and its parts
    names: frozenset[str] = frozenset()
    # the trait and the type of an impl, of those that are this repository's
    needs: frozenset[str] = frozenset()
    # of a method its name
    method: str = ""
    # whether it is a function, which no stated text names
    is_function: bool = False
    # whether a crate above can rest on it
    is_shown: bool = True
    # whether it tells of private fields, so that what it names cannot be called by those above
    is_inside: bool = False

    @functools.cached_property
    def words(self) -> frozenset[str]:
        return frozenset(WORD.findall(self.said))

    @functools.cached_property
    def local(self) -> frozenset[str]:
        """The names in it of what its file states."""
        names = (name for name, found in self.module.named.items() if not all(it.is_function for it in found))
        return frozenset(it for it in names if is_used(it, self.said, self.words))

    @functools.cached_property
    def brought(self) -> list[Import]:
        """The imports of names that stand in it."""
        return [it for it in self.imports if is_used(it.visible, self.said, self.words)]


def is_used(name: str, text: str, words: frozenset[str]) -> bool:
    """Whether the text has the name; an operator is one by any of its parts, which stand between spaces: `<` in `Vec<T>` is none."""
    parts = [part for part in name.split("◌") if part]
    signs = text.split() if "◌" in name else text
    return any(part in words or not WORD.fullmatch(part) and part in signs for part in parts)


def said_of(source: Source, item: Item, end: int) -> str:
    """What an item says from its start to a place, with those of its attributes that count."""
    kept = [it.of(source.said) for it in item.attributes if not IDLE.match(source.code, it.start)]
    return " ".join([*kept, *source.said[item.start : end].split()])


def stated(source: Source, item: Item) -> str:
    """What an item states: all of it but imports and the bodies of functions."""
    if item.kind in HOLDERS and item.body:
        parts = [stated(source, it) for it in item.parts if not is_import(it)]
        return " ".join([said_of(source, item, item.body.start), *parts, "}"])
    return said_of(source, item, item.body.start if is_function(source, item) and item.body else item.span.end)


def is_function(source: Source, item: Item) -> bool:
    """Whether an item is a function whose body states nothing: one that constants may be made by counts as these do."""
    return item.kind == "fn" and not CONST.match(source.code, item.start)


def is_import(item: Item) -> bool:
    return item.kind in ("use", "ghost use")


def imports_among(source: Source, items: tuple[Item, ...]) -> tuple[Import, ...]:
    said = [(it.kind, said_of(source, it, it.span.end)) for it in items if is_import(it)]
    return tuple(it for kind, text in said for it in (rust_imports(text) if kind == "use" else antt_imports(text)))


def header_of(source: Source, item: Item) -> tuple[str, str]:
    """The names of the trait and of the type that an impl names, each '' where there is none."""
    header = source.code[item.start : item.body.start] if item.body else ""
    header = GENERICS.sub("", re.sub(r"\bwhere\b.*", "", header, flags=re.S))
    trait, of_trait, holder = re.match(r"(?:(.*?)\b(for)\b(?!\s*<))?(.*)", header, re.S).groups()
    return (first_type(trait) or trait.strip() if of_trait else "", first_type(holder))


def first_type(text: str) -> str:
    """The first name of a type or a trait in a text, or ''."""
    found = re.search(r"\b([A-Z]\w*)", text)
    return found[1] if found else ""


def self_type(source: Source, item: Item) -> str:
    """The name of the type that an impl is of, or ''."""
    return header_of(source, item)[1]


def variants(source: Source, item: Item) -> list[str]:
    """The names of an enum's variants."""
    if item.kind != "enum" or not item.body:
        return []
    text, last = item.body.of(source.code), ""
    while text != last:
        text, last = INNERMOST.sub("", text), text
    return [it.replace("#", "").split()[0] for it in text.split(",") if it.strip()]


def is_closed(source: Source, item: Item) -> bool:
    """Whether an item is a struct whose fields are all private."""
    return item.kind == "struct" and bool(item.body) and not re.search(r"\bpub\b", item.body.of(source.code))


class Reading:
    """Reads what a file of src/ states. `types` are the names of the types and traits of its crate and of those below."""

    def __init__(self, source: Source, module: Module, types: frozenset[str]):
        self.source, self.module, self.types = source, module, types
        self.closed = {it.name for it in source.items if is_closed(source, it)}

    def statements(self) -> Iterator[Statement]:
        for item in self.source.items:
            if item.kind == "impl":
                yield from self.implemented(item)
            elif item.kind == "mod" and item.body:
                yield self.whole(item)
            elif item.name in self.closed:
                yield self.part(item, [], names=frozenset({item.name}))
                yield self.whole(item, needs=frozenset({item.name}), is_inside=True)
            elif item.kind not in ("mod", "macro_rules") and not is_import(item):
                yield self.whole(item, names=frozenset({item.name, *variants(self.source, item)}))

    def whole(self, item: Item, **how) -> Statement:
        """What an item states as one."""
        is_one = is_function(self.source, item)
        is_shown = item.is_public or not is_one
        return Statement(self.module, stated(self.source, item), self.imports(item), is_function=is_one, is_shown=is_shown, **how)

    def implemented(self, item: Item) -> Iterator[Statement]:
        trait, holder = header_of(self.source, item)
        needs = self.types.intersection((trait, holder))
        if not trait:
            yield from self.parts(item)
        elif trait == "Model" and holder in self.closed:
            values = [it for it in item.parts if it.name == "Value"]
            yield self.part(item, values, needs=needs)
            yield self.whole(item, needs=needs, is_inside=True)
        else:
            yield self.whole(item, needs=needs)

    def parts(self, item: Item) -> Iterator[Statement]:
        """What an impl that is of no trait states, part by part."""
        needs = frozenset({self_type(self.source, item)})
        for part in (it for it in item.parts if not is_import(it)):
            method = part.name if is_function(self.source, part) else ""
            yield self.part(item, [part], needs=needs, method=method, is_shown=part.is_public or not method)

    def part(self, item: Item, parts: list[Item], **how) -> Statement:
        """What some parts of an item state, behind its head."""
        said = " ".join([said_of(self.source, item, item.body.start), *(stated(self.source, it) for it in parts)])
        return Statement(self.module, said, self.imports(item), **how)

    def imports(self, item: Item) -> tuple[Import, ...]:
        return (*self.module.imports, *imports_among(self.source, item.parts))


def aliases(module: Module) -> Iterator[Statement]:
    """The other names that a file gives to what it brings."""
    for it in module.imports:
        if it.name and it.visible != it.name:
            yield Statement(module, f"{it.name} as {it.visible}", (it,), names=frozenset({it.visible}))


@functools.lru_cache(maxsize=None)
def sources_of(folder: Path) -> tuple[Source, ...]:
    """The files of src/ of the crate in the folder."""
    files = sorted((folder / "src").rglob("*.rt"))
    return tuple(read_source(str(it.relative_to(folder)), it.read_text(encoding="utf-8")) for it in files)


def types_of(folder: Path) -> frozenset[str]:
    """The names of the types and traits of a crate."""
    return frozenset(item.name for source in sources_of(folder) for item in source.items if item.kind in TYPES)


def source_module(crate: str, source: Source, types: frozenset[str]) -> Module:
    """A file of src/, read."""
    path = tuple(source.path[len("src/") : -len(".rt")].split("/"))
    module = Module(crate, path[:-1] if path[-1] in ("lib", "main", "mod") else path, imports_among(source, source.items))
    module.statements += [*aliases(module), *Reading(source, module, types).statements()]
    return module


def specs_module(crate: str, folder: Path, file: Path) -> Module:
    """A file of specs/, read."""
    definitions, imports = read_definitions(file.read_text(encoding="utf-8"))
    module = Module(crate, file.relative_to(folder).with_suffix("").parts, tuple(imports))
    module.statements += aliases(module)
    for it in definitions:
        module.statements.append(Statement(module, it.said, module.imports, names=it.names))
    return module


def modules_of(crate: str, folder: Path, types: frozenset[str]) -> list[Module]:
    """The files of a crate. `types` are the names of the types and traits of the crate and of those below it."""
    specs = sorted((folder / "specs").rglob("*.antt"))
    return [*(source_module(crate, it, types) for it in sources_of(folder)), *(specs_module(crate, folder, it) for it in specs)]
