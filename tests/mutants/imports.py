"""Reads imports of Rattle and of antt: which name each brings, and from where."""
from __future__ import annotations

import re
from typing import Iterator, NamedTuple

from source import Unread

RUST_USE = re.compile(r"^(pub\b\s*(\([^)]*\))?)?\s*use\b")
ANTT_USE = re.compile(r"(?:pub\s+)?(?:ghost\s+)?use\s+(?P<path>[^\s{};]+?)\.?\s*(?:\{(?P<names>[^}]*)\}|as\s+(?P<alias>[^\s;]+))?\s*;?\s*")
# A name of a list of Rust's imports, or what opens, parts or closes it.
RUST_WORD = re.compile(r"\w+|[{},*]")


class Import(NamedTuple):
    # by which name the text that it serves calls what it brings
    visible: str
    # the module that it comes from, name by name; of an import of a whole module that module itself
    path: tuple[str, ...]
    # its name there; '' where the whole module is brought
    name: str
    # what a text names that uses it: what is brought, and of parts of types these types
    names: frozenset[str]

    def __str__(self) -> str:
        return ".".join([*self.path, self.name])


def brought(visible: str, path: tuple[str, ...], name: str) -> Import:
    return Import(visible, path, name, frozenset({visible, name, *types_in(path)}) - {""})


def types_in(path: tuple[str, ...]) -> list[str]:
    """The types of src/ that a path of antt leads to, by what the toolchain makes of them."""
    return [it for it in path[4:] if is_capital(it)] if is_declared(path) else []


def is_declared(path: tuple[str, ...]) -> bool:
    return path[:1] == ("Rattle",) and path[3:4] in (("declared",), ("contracts",))


def is_capital(name: str) -> bool:
    return name[:1].isupper()


def renamed(text: str) -> tuple[str, str]:
    """The name in a list of imports, and the name that it gets."""
    name, _, alias = text.strip().partition(" as ")
    return name.strip(), alias.strip() or name.strip()


def antt_imports(said: str) -> list[Import]:
    """What a line `use` of antt, or an item `ghost use`, brings."""
    found = ANTT_USE.fullmatch(said)
    if not found:
        raise Unread(f"this is no import that is known here: {said}")
    path = tuple(found["path"].split("."))
    if found["names"] is None:
        return [brought(found["alias"] or path[-1], path, "")]
    pairs = (renamed(it) for it in found["names"].split(",") if it.strip())
    return [brought(visible, path, name) for name, visible in pairs]


def rust_imports(said: str) -> list[Import]:
    """What an item `use` of Rust brings."""
    return list(rust_list(iter(RUST_WORD.findall(RUST_USE.sub("", said))), ()))


def rust_list(words: Iterator[str], front: tuple[str, ...]) -> Iterator[Import]:
    """What a list of Rust's imports brings, up to the brace that closes it."""
    path, alias = front, ""
    for word in words:
        if word == "*":
            raise Unread(f"an import of all that is in {'::'.join(path)}, which is not read here: name what it brings")
        if word == "{":
            yield from rust_list(words, path)
            path = front
        elif word == "as":
            alias = next(words)
        elif word in ",}":
            yield from rust_leaf(path, front, alias)
            path, alias = front, ""
            if word == "}":
                return
        else:
            path = (*path, word)
    yield from rust_leaf(path, front, alias)


def rust_leaf(path: tuple[str, ...], front: tuple[str, ...], alias: str) -> Iterator[Import]:
    if path != front:
        path = path[:-1] if path[-1] == "self" else path
        yield brought(alias or path[-1], path[:-1], path[-1])
