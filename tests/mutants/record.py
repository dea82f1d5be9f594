"""mutants, what they stand against, and the record of what was tried.

An edit (`crates/NAME/mutants/*.edit`) is a wrong body that the prover has to refuse. `tests/mutants/results` has a line for each
crate, with a checksum of what its contracts say and rest on, and below it a line for each edit, with the goals at which it was refused.
They hold as long as the crate's checksum is the one that the record has.

The checksum is of what the crate states (`items.py`), of its edits, and of what the names in these and in its bodies reach in the
crates below (`deps.py`), and of no more: what is added or changed there elsewhere, and what moves with its text, leaves it as it is.
"""
from __future__ import annotations

import dataclasses
import functools
import re
import shutil
from pathlib import Path

from deps import Beneath
from resolve import checksum
from source import Source
from items import sources_of

# The libraries that need no edits: crates of tests, benchmarks and examples.
WITHOUT_EDITS = re.compile(r"\w+_tests|benches|example_\w+")
# What the record says of an edit that was refused at goals that are not known, of one that was not refused, and of one that is yet to be tried.
AT_UNKNOWN, NOT_REFUSED, NOT_TRIED = "refused", "NOT-REFUSED", "not-tried"
HEADER = """\
# What was tried of each crate's mutants, written by tests/mutants/run: the crate, with a checksum of what its contracts say and
# rest on, and below it each edit that was tried. An edit has the goals at which it was refused, as FUNCTION:GOAL, behind a checksum of
# the bodies and proofs of the functions that it changes. It has `refused` where the goals are not known, `not-tried` where it is yet
# to be tried, and else `NOT-REFUSED`.
"""


class BadEdit(Exception):
    """Why an edit cannot be applied."""


@dataclasses.dataclass(frozen=True)
class Change:
    """One text of a file that an edit puts another in the place of."""

    path: str
    old: str
    new: str


@dataclasses.dataclass(frozen=True)
class Edit:
    crate: str
    name: str
    path: Path

    @property
    def label(self) -> str:
        return f"{self.crate}/{self.name}"

    def changes(self) -> list[Change]:
        """The edit's changes, read as `rt must-fail` reads them."""
        path, old, found = "", "", []
        for line in self.path.read_text(encoding="utf-8").split("\n"):
            if line.startswith("file: "):
                path = line[len("file: ") :].strip()
                if not re.fullmatch(r"(src|specs|proofs)(/(?!\.\.?(/|$))[^/]+)+", path):
                    raise BadEdit("a 'file:' line names no file below src/, specs/ or proofs/")
            elif line.startswith("old: "):
                old = line[len("old: ") :]
            elif line.startswith("new:"):
                if not path or not old:
                    raise BadEdit("a 'new:' line stands before any 'file:' or 'old:' line")
                new = line[len("new:") :]
                found.append(Change(path, old, new[1:] if new.startswith(" ") else new))
                old = ""
        if not found:
            raise BadEdit("it has no 'old:' and 'new:' pair")
        return found

    def applied(self, folder: Path) -> dict[str, str]:
        """The texts that the edit makes of the files of the crate in the folder; BadEdit where it does not apply."""
        texts: dict[str, str] = {}
        was: dict[str, str] = {}
        for change in self.changes():
            if change.path not in texts:
                if not (folder / change.path).is_file():
                    raise BadEdit(f"there is no file {change.path}")
                texts[change.path] = was[change.path] = (folder / change.path).read_text(encoding="utf-8")
            count = texts[change.path].count(change.old)
            if count != 1:
                raise BadEdit(f"an 'old:' text is in {change.path} {count} times, and not once")
            texts[change.path] = texts[change.path].replace(change.old, change.new)
        if texts == was:
            raise BadEdit("it changes nothing")
        return texts


@dataclasses.dataclass(frozen=True)
class Crate:
    name: str
    folder: Path
    # the repository's crates that it uses, by name, and the toolchain's
    uses: tuple[str, ...]
    of_kit: tuple[str, ...] = ()
    is_static: bool = False

    @property
    def root(self) -> str:
        """The file that the crate begins with."""
        return "src/main.rt" if (self.folder / "src/main.rt").is_file() else "src/lib.rt"

    @property
    def needs_edits(self) -> bool:
        """Whether it is a library on whose contracts something rests; a program has none."""
        return self.root != "src/main.rt" and not WITHOUT_EDITS.fullmatch(self.name)

    def sources(self) -> list[Source]:
        """The files of src/, read."""
        return list(sources_of(self.folder))

    def edits(self) -> list[Edit]:
        files = sorted((self.folder / "mutants").glob("*"))
        return [Edit(self.name, it.stem, it) for it in files if it.suffix == ".edit"]


class Repository:
    """The crates below a folder, and the files of tests/mutants."""

    def __init__(self, top: Path):
        self.top, self.record = top, top / "tests/mutants/results"
        # As long as it is there, edits may be yet to be tried.
        self.untried = top / "tests/mutants/untried"
        lines = [it.split("#")[0].strip() for it in (top / "crates.txt").read_text(encoding="utf-8").split("\n")]
        self.crates: dict[str, Crate] = {}
        said = {head.split()[0]: (head.split()[1:], uses.split()) for head, _, uses in (it.partition(":") for it in lines if it)}
        for name, (kind, uses) in said.items():
            ours, others = (tuple(it for it in uses if (it in said) == is_ours) for is_ours in (True, False))
            self.crates[name] = Crate(name, top / "crates" / name, ours, others, "staticlib" in kind)

    @functools.cached_property
    def beneath(self) -> Beneath:
        """What the crates with edits state, and those below them."""
        below = {it.name: [low.name for low in self.below(it)] for it in self.crates.values()}
        known = {name for it in self.with_edits() for name in [it.name, *below[it.name]]}
        return Beneath({it: self.crates[it].folder for it in self.crates if it in known}, below)

    def leave_only(self, crates: list[Crate]) -> None:
        """Takes all crates but these and those below them out of the files, which are of a clone."""
        names = {it.name for crate in crates for it in [crate, *self.below(crate)]}
        file = self.top / "crates.txt"
        lines = file.read_text(encoding="utf-8").split("\n")
        left = [it for it in lines if it.startswith("#") or it.split(":")[0].split()[:1] in [[name] for name in names]]
        file.write_text("\n".join(left) + "\n", encoding="utf-8")
        for name in set(self.crates) - names:
            shutil.rmtree(self.top / "crates" / name)

    def below(self, crate: Crate) -> list[Crate]:
        """The crates that it stands on, directly or not, by name."""
        found: set[str] = set()
        left = list(crate.uses)
        while left:
            name = left.pop()
            if name not in found:
                found.add(name)
                left += self.crates[name].uses
        return [self.crates[it] for it in sorted(found)]

    def with_edits(self) -> list[Crate]:
        return [it for it in self.crates.values() if it.edits()]

    def drawn(self, commit: str, many: int) -> list[Edit]:
        """So many edits that the commit's name picks: those whose labels, hashed with it, come first."""
        edits = [edit for it in self.with_edits() for edit in it.edits()]
        return sorted(edits, key=lambda it: checksum([commit, it.label]))[:many]

    def contracts(self, crate: Crate) -> str:
        """A checksum of what the crate's contracts say and its edits are, and of what these rest on in the crates below."""
        edits = [f"{it.name} {it.path.read_text(encoding='utf-8')}" for it in crate.edits()]
        return checksum([*edits, *self.beneath.rests_on(crate.name, "\n".join(edits))])

    def stray(self) -> list[str]:
        """What stands in a folder mutants/ and is no edit of a crate."""
        folders = sorted((self.top / "crates").glob("*/mutants"))
        files = [it for folder in folders for it in sorted(folder.iterdir())]
        lost = [it for it in files if it.suffix != ".edit" or not it.is_file() or it.parent.parent.name not in self.crates]
        return [f"{it.relative_to(self.top)} is no edit of a crate that crates.txt names: move or remove it" for it in lost]


@dataclasses.dataclass(frozen=True)
class Outcome:
    """What came of a try of an edit."""

    is_refused: bool
    # as FUNCTION:GOAL; none where it is not known at which it was refused
    goals: frozenset[str] = frozenset()
    # a checksum of the bodies and proofs with which the goals were seen
    bodies: str = ""
    is_tried: bool = True

    def __str__(self) -> str:
        if not self.is_tried:
            return NOT_TRIED
        if not self.goals:
            return AT_UNKNOWN if self.is_refused else NOT_REFUSED
        return " ".join([self.bodies, *sorted(self.goals)])


@dataclasses.dataclass(frozen=True)
class Line:
    """A crate's line of the record, with those of its edits below it."""

    crate: str
    contracts: str
    edits: dict[str, Outcome]

    def __str__(self) -> str:
        return "\n".join([f"{self.crate} {self.contracts}", *(f"    {name} {self.edits[name]}" for name in sorted(self.edits))])


def read_outcome(words: list[str]) -> Outcome | None:
    """What the words of an edit's line tell; None where they cannot be read."""
    if len(words) == 1 and words[0] in (AT_UNKNOWN, NOT_REFUSED, NOT_TRIED):
        return Outcome(words[0] == AT_UNKNOWN, is_tried=words[0] != NOT_TRIED)
    goals = frozenset(words[1:])
    return Outcome(True, goals, words[0]) if goals and all(":" in it for it in goals) else None


def read_record(file: Path) -> dict[str, Line]:
    """The record's lines by their crates. What cannot be read is left out, so that its crate or its edit was not tried."""
    found: dict[str, Line] = {}
    edits: dict[str, Outcome] = {}
    for text in file.read_text(encoding="utf-8").split("\n") if file.is_file() else []:
        words = text.split()
        if not words or text.startswith("#"):
            continue
        if not text[0].isspace():
            edits = {}
            found[words[0]] = Line(words[0], " ".join(words[1:]), edits)
        elif outcome := read_outcome(words[1:]):
            edits[words[0]] = outcome
    return found


def write_record(repository: Repository, lines: dict[str, Line]) -> None:
    """Writes the lines of crates that are there, in the order of crates.txt. Once no edit is yet to be tried none may be any more."""
    kept = [lines[it] for it in repository.crates if it in lines]
    repository.record.write_text(HEADER + "".join(f"{it}\n" for it in kept), encoding="utf-8")
    if not any(map(untried, kept)):
        repository.untried.unlink(missing_ok=True)


def wrong_with(repository: Repository, crate: Crate, line: Line | None) -> str | None:
    """Why the crate's line does not hold, if it does not."""
    if not line:
        return "has no line in tests/mutants/results"
    if line.contracts != repository.contracts(crate):
        return "has a stale line in tests/mutants/results: what its contracts say or rest on, or its edits changed"
    names = {it.name for it in crate.edits()}
    left = set() if repository.untried.exists() else set(untried(line))
    kept = {it for it in names if it in line.edits and line.edits[it].is_tried and not line.edits[it].is_refused}
    told = {
        "edits without a line": names - line.edits.keys(),
        "lines in tests/mutants/results of edits that are not there": line.edits.keys() - names,
        "edits that were not refused": kept,
        "edits that are yet to be tried": left,
    }
    return next((f"has {len(which)} {what}: {some_of(which)}" for what, which in told.items() if which), None)


def some_of(names: set[str]) -> str:
    """The first of the names."""
    return " ".join([*sorted(names)[:3], *(["and others"] if len(names) > 3 else [])])


def untried(line: Line | None) -> list[str]:
    """The edits that the record has as yet to be tried."""
    return [name for name, it in line.edits.items() if not it.is_tried] if line else []


def to_try(repository: Repository, lines: dict[str, Line]) -> list[Crate]:
    """The crates whose lines do not hold, or have edits that are yet to be tried."""
    said = [(it, lines.get(it.name)) for it in repository.with_edits()]
    return [it for it, line in said if wrong_with(repository, it, line) or untried(line)]
