"""Reads texts of Rattle and of antt: where comments, items and the bodies of functions stand.

It reads as much of the language as the records of mutants need, and stops at a text that it cannot read.
"""
from __future__ import annotations

import dataclasses
import re
from typing import Iterator, NamedTuple

# A comment, or a literal that may hold braces. A prime that ends a name of antt's opens no character.
QUIET = re.compile(
    r"""(?P<comment>//[^\n]*|/\*)|(?P<literal>\b[bc]?r(?P<marks>\#*)".*?"(?P=marks)|(?:\b[bc])?"(?:\\.|[^"\\])*"|(?<![\w'])b?'(?:\\.[^'\n]*|[^\\'\n])')""", re.S
)
ANTT_QUIET = re.compile(r"""(?P<comment>\{-|(?<![^ \n(){}.;,@"»])--[^\n]*)|(?P<literal>"(?:[^"\\\n]|\\[^\n])*")""")
NESTED = {"/*": re.compile(r"/\*|\*/"), "{-": re.compile(r"\{-|-\}")}
BRACKET = re.compile(r"[()\[\]{};]")
# What stands right before the brace of a clause, of a ghost item, or of what comes behind its type.
CLAUSE = re.compile(r"(\b(requires|ensures)\b\s*\*?\s*(\w+\s*)?|\bghost\s+\w+\s*:\s*(owns\s+|lends\s+)?|\blaw\s+\w+\s*:\s*|=\s*)$")
ITEM = re.compile(
    r"(?P<public>pub\b(?P<within>\s*\([^)]*\))?\s*)?((unsafe|async|extern)\b\s*)*"
    r"(const\s+(?=(unsafe\s+|extern\s+)*fn\b))?((unsafe|extern)\b\s*)*"
    r"(?P<kind>fn|struct|enum|union|trait|type|const|static|impl|mod|use|ghost\s+use|ghost|law|macro_rules(?=\s*!))\b\s*!?\s*(?P<name>\w+)?"
)
ATTRIBUTE = re.compile(r"#\s*!?\s*(?=\[)")
# Kinds whose items end with a block, if they have one; the others end with a semicolon. A macro states nothing: what it writes into a
# function is a part of that body.
WITH_BLOCK = ("struct", "enum", "union", "trait", "impl", "mod", "macro_rules")
HOLDERS = ("trait", "impl", "mod")


class Unread(Exception):
    """Why a text could not be read, with its file and line."""


class Span(NamedTuple):
    start: int
    end: int

    def of(self, text: str) -> str:
        return text[self.start : self.end]


@dataclasses.dataclass(frozen=True)
class Item:
    """An item of a .rt file. Its head has its attributes; what a trait, an impl or a module holds are its parts."""

    kind: str
    name: str
    is_public: bool
    span: Span
    # where the item's own text starts, behind its attributes
    start: int
    attributes: tuple[Span, ...]
    # the braces of a function with what they hold; of a trait, an impl or a module what is between them
    body: Span | None
    parts: tuple[Item, ...]


@dataclasses.dataclass(frozen=True)
class Source:
    """A .rt file. In `said` comments are blank, in `code` strings and characters too; both are as long as the text."""

    path: str
    text: str
    said: str
    code: str
    items: tuple[Item, ...]

    def line(self, at: int) -> int:
        return self.text.count("\n", 0, at) + 1


def blank(text: str) -> str:
    return re.sub(r"[^\n]", " ", text)


def nested_end(text: str, at: int, opening: str) -> int:
    """Where the comment ends that opens at the place, in which others may be nested."""
    depth = 0
    for mark in NESTED[opening].finditer(text, at):
        depth += 1 if mark[0] == opening else -1
        if not depth:
            return mark.end()
    return len(text)


def blanked(text: str, quiet: re.Pattern, kinds: tuple[str, ...]) -> str:
    """The text with its comments, or literals too, made blank."""
    found, at = [], 0
    while True:
        token = quiet.search(text, at)
        if not token:
            return "".join([*found, text[at:]])
        end = nested_end(text, token.start(), token[0]) if token[0] in NESTED else token.end()
        part = text[token.start() : end]
        found += [text[at : token.start()], blank(part) if token.lastgroup in kinds or token["comment"] and "comment" in kinds else part]
        at = end


def closing(code: str, at: int) -> int:
    """Where the bracket that opens at the place is closed, behind its closing one; -1 where it is not."""
    depth = 0
    for mark in BRACKET.finditer(code, at):
        depth += (mark[0] in "([{") - (mark[0] in ")]}")
        if not depth and mark[0] != ";":
            return mark.end()
    return -1


def marks_outside(code: str, at: int) -> Iterator[re.Match]:
    """The semicolons, and the first brackets of pairs, that stand in no bracket from the place on."""
    while True:
        mark = BRACKET.search(code, at)
        if not mark:
            return
        yield mark
        at = mark.end() if mark[0] not in "([{" else closing(code, mark.start())
        if at < 0:
            return


def body_of(code: str, at: int) -> tuple[Span | None, int]:
    """The body of the function whose name ends at the place, if it has one, and where the item ends."""
    last = at
    for mark in marks_outside(code, at):
        if mark[0] == ";":
            return None, mark.end()
        end = closing(code, mark.start())
        if mark[0] == "{" and end > 0 and not CLAUSE.search(code[last : mark.start()]):
            return Span(mark.start(), end), end
        last = end if mark[0] == "{" else last
    return None, -1


def block_of(code: str, at: int) -> tuple[Span | None, int]:
    """What the braces of a struct, a trait, an impl or a module hold, if it has any, and where the item ends."""
    for mark in marks_outside(code, at):
        end = closing(code, mark.start()) if mark[0] == "{" else mark.end()
        if mark[0] == "{":
            return Span(mark.end(), end - 1), end
        if mark[0] == ";":
            return None, end
    return None, -1


def statement_end(code: str, at: int) -> int:
    return next((it.end() for it in marks_outside(code, at) if it[0] == ";"), -1)


class Reader:
    """Reads the items of one file."""

    def __init__(self, path: str, code: str):
        self.path, self.code = path, code

    def stop(self, at: int, why: str) -> None:
        raise Unread(f"{self.path}:{self.code.count(chr(10), 0, at) + 1}: {why}")

    def behind_spaces(self, at: int, end: int) -> int:
        while at < end and self.code[at].isspace():
            at += 1
        return at

    def items(self, at: int, end: int) -> Iterator[Item]:
        """The items that stand between two places."""
        while True:
            first = at = self.behind_spaces(at, end)
            attributes = []
            while at < end and ATTRIBUTE.match(self.code, at):
                stop = closing(self.code, self.code.index("[", at))
                attributes.append(Span(at, stop))
                at = self.behind_spaces(stop, end)
            if at >= end:
                return
            item = self.item(first, at, tuple(attributes))
            at = item.span.end
            yield item

    def item(self, first: int, at: int, attributes: tuple[Span, ...]) -> Item:
        head = ITEM.match(self.code, at)
        if not head:
            self.stop(at, f"this is no item that is known here: {self.code[at : at + 40].split(chr(10))[0]}")
        kind, parts, body = " ".join(head["kind"].split()), (), None
        if kind == "fn":
            body, end = body_of(self.code, head.end())
        elif kind in WITH_BLOCK:
            body, end = block_of(self.code, head.end("kind"))
            parts = tuple(self.items(*body)) if body and kind in HOLDERS else ()
        else:
            end = statement_end(self.code, head.end("kind"))
        if end < 0:
            self.stop(at, f"this item does not end: {self.code[at : at + 40].split(chr(10))[0]}")
        is_public = bool(head["public"]) and not head["within"]
        return Item(kind, head["name"] or "", is_public, Span(first, end), at, attributes, body, parts)


def read_source(path: str, text: str) -> Source:
    """Reads a .rt file. It fails with Unread where the text has an item of another kind than those of this repository."""
    said, code = blanked(text, QUIET, ("comment",)), blanked(text, QUIET, ("comment", "literal"))
    return Source(path, text, said, code, tuple(Reader(path, code).items(0, len(code))))


def functions(items: tuple[Item, ...]) -> Iterator[Item]:
    """All functions among the items, in their order."""
    for item in items:
        if item.kind == "fn":
            yield item
        yield from functions(item.parts)
