"""Reads files of specs/: the definitions that stand there, and the imports."""
from __future__ import annotations

import re
from typing import Iterator, NamedTuple

from imports import Import, antt_imports
from source import ANTT_QUIET, blank, blanked

IMPORT = re.compile(r"(pub\s+)?(?P<word>use|mod)\b")
HOLDER = re.compile(r"(abbrev\s+|pub\s+)*(module|mutual)\b")
HEAD = re.compile(r"((?:abbrev|pub|unfoldable)\s+)*((?P<kind>record|data)\s+)?(?P<name>[^\s]+)")
CONSTRUCTOR = re.compile(r"\s+([^\s()]+)\s*:\s")


class Definition(NamedTuple):
    # by which it is called: its own name, and those of a data type's constructors
    names: frozenset[str]
    # its text in one line, behind the heads of what it stands in
    said: str


def is_import(line: str) -> bool:
    """Whether a line brings names, or a file."""
    return bool(IMPORT.match(line))


def without_imports(text: str) -> str:
    """The text in which the lines that bring names are blank."""
    return "\n".join(blank(it) if is_import(it) else it for it in text.split("\n"))


def blocks(lines: list[str]) -> Iterator[list[str]]:
    """Each line that begins at the left, with the deeper ones behind it."""
    block: list[str] = []
    for line in lines:
        if block and not line[0].isspace():
            yield block
            block = []
        block.append(line)
    if block:
        yield block


def dedented(lines: list[str]) -> list[str]:
    least = min((len(it) - len(it.lstrip()) for it in lines), default=0)
    return [it[least:] for it in lines]


def in_one_line(lines: list[str]) -> str:
    return " ".join(" ".join(lines).split())


def constructors(block: list[str]) -> list[str]:
    return [it[1] for it in (CONSTRUCTOR.match(line) for line in block[1:]) if it]


def definitions_in(lines: list[str], head: str) -> Iterator[Definition]:
    """The definitions among the lines, which stand in what the head says."""
    names: dict[str, set[str]] = {}
    texts: dict[str, list[str]] = {}
    for block in blocks(lines):
        if is_import(block[0]):
            continue
        if HOLDER.match(block[0]):
            ends = next((at for at, it in enumerate(block, 1) if it.split()[-1] in ("where", "mutual")), len(block))
            yield from definitions_in(dedented(block[ends:]), f"{head}{in_one_line(block[:ends])} ")
            continue
        word = HEAD.match(block[0])
        names.setdefault(word["name"], {word["name"]}).update(constructors(block) if word["kind"] == "data" else [])
        texts.setdefault(word["name"], []).append(in_one_line(block))
    yield from (Definition(frozenset(names[it]), f"{head}{' '.join(texts[it])}") for it in texts)


def lines_of(text: str) -> list[str]:
    """The lines of a file without its comments."""
    return [it.rstrip() for it in blanked(text, ANTT_QUIET, ("comment",)).split("\n") if it.strip()]


def read_definitions(text: str) -> tuple[list[Definition], list[Import]]:
    """The definitions of a file of specs/, and what it imports."""
    lines = lines_of(text)
    uses = [it for it in lines if is_import(it) and IMPORT.match(it)["word"] == "use"]
    return list(definitions_in(lines, "")), [brought for it in uses for brought in antt_imports(it)]
