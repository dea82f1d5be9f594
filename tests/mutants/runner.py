"""Tries mutants of a crate: the prover has to refuse each.

Functions are proved one by one against contracts. So edits of different functions are first tried together, in one check of one copy
of the crate. An edit of a function's body is refused there where the prover tells of a goal of that very function that does not hold.
Nothing else counts. Where a function that no edit touched is refused too, each half of the edits is tried, and so on. The prover passes
over a function that calls one that it refused, so edits that stay open are tried together again as long as one of them is refused. What
is then left, and an edit that changes more than bodies, is tried by itself, by `rt must-fail`.

Where the crate as it stands is known to be proved (`cache.py`), it is not checked first: a check of edits proves only the functions
that they change, and those that these call. The first begins with nothing, and the others with what that one left.
"""
from __future__ import annotations

import dataclasses
import os
import re
import shutil
import subprocess
from pathlib import Path
from typing import Callable, Iterable

import cache
from bodies import Bodies, Function
from record import BadEdit, Crate, Edit, Outcome, Repository

# How many edits one check tries at most.
TOGETHER = 16
# What the largest check takes of memory, in KB.
NEEDS = 5_000_000
# Where a goal fails, and its name behind that, if the line is not cut before it ends.
NOT_PROVED = re.compile(r"note: (src/\S+?):(\d+):\d+: it is not proved that (?:.*?\(`([^`\s]+)`\))?")
ANSWER = re.compile(r"(?:\./)?proofs/(\S+)/(?:Answers|Proof)\.antt:\d+:\d+: error: (?:`([^`\s]*)`: )?")
ANSWER_ELSEWHERE = re.compile(r"(?:\./)?proofs/\S+\.antt:\d+:\d+: error: ")
# What only tells that a proof names something that the edit took away, or rests on what is not proved.
WEAK = re.compile(r"has no field|is not in scope|has no `|that can be named|was not admitted")
UNREAD = re.compile(r"(?:\./)?((?:src|specs)/\S+?):(\d+):\d+: error")
# How the last line of a check begins that came to its end, and of one that did not prove the crate.
ENDED, NO_PROOF = re.compile(r"^(logic=|only=\d+ proved=)", re.M), "\nlogic=not-proved"
# How that of a check of some functions alone begins, of which not all are proved.
NOT_ALL = re.compile(r"^only=(\d+) proved=(?!\1$)\d+$", re.M)
REFUSED = ": refused, as it must be"
# What `rt ci` says of each crate that it passes by what it kept.
IS_KEPT = " is kept: "
# What `rt` says of a refusal that tells nothing of a contract: the edit took away a name that a proof cites.
BY_NAME_ALONE = "only because a proof file names"


def is_refusal(line: str, label: str) -> bool:
    """Whether the line of `rt` says that the edit of this label is refused, and not for a lost name alone."""
    return label + REFUSED in line and BY_NAME_ALONE not in line


class NotProved(Exception):
    """Why nothing can be tried: the crate as it stands is not proved, or no check of it could be made."""


@dataclasses.dataclass
class Verdict:
    """What a check of edits of several functions told: the goals that fail by their functions, and whether all are of functions that an edit touched."""

    failed: dict[Function, set[str]] = dataclasses.field(default_factory=dict)
    is_clean: bool = True

    def goals(self, functions: Iterable[Function]) -> frozenset[str]:
        """The goals of these functions that fail, as the record names them."""
        return frozenset(f"{it.exact}:{goal}" for it in functions for goal in self.failed.get(it, ()))


def verdict_of(said: str, bodies: Bodies, touched: frozenset[Function]) -> Verdict:
    found = Verdict()
    for line in said.split("\n"):
        note, answer = NOT_PROVED.match(line), ANSWER.match(line)
        goal = ""
        if note:
            at, goal = bodies.at_line(note[1], int(note[2])), note[3]
        elif answer and not WEAK.search(line):
            at, goal = bodies.of_proof(answer[1]), answer[2]
            # of a cycle's proof: where an edit touched one function of it, no other's goals changed
            at = at or [it for it in bodies.of_cycle(answer[1]) if it in touched]
            # Without a goal's name it tells nothing of a function whose proof it may be.
            if not touched.isdisjoint(at or bodies.in_group(answer[1])) and (len(at) != 1 or not goal):
                continue
        elif ANSWER_ELSEWHERE.match(line) and not WEAK.search(line):
            at = []
        else:
            continue
        if len(at) == 1 and at[0] in touched:
            found.failed.setdefault(at[0], set()).update([goal] if goal else [])
        else:
            found.is_clean = False
    return found


def together(edits: list[Edit], bodies: Bodies) -> tuple[list[list[Edit]], list[Edit]]:
    """Puts edits of different functions together, and returns these batches, and the edits that no batch can try."""
    batches: list[tuple[list[Edit], set[Function]]] = []
    alone = []
    for edit in edits:
        touched = bodies.touched(edit)
        if not touched:
            alone.append(edit)
            continue
        fits = (it for it in batches if it[1].isdisjoint(touched) and len(it[0]) < TOGETHER)
        batch = next(fits, None)
        if not batch:
            batch = ([], set())
            batches.append(batch)
        batch[0].append(edit)
        batch[1].update(touched)
    return [it[0] for it in batches], alone


def places() -> int:
    """How many checks the machine holds at once."""
    with open("/proc/meminfo", encoding="ascii") as file:
        free = next(int(it.split()[1]) for it in file if it.startswith("MemAvailable:"))
    return max(min(len(os.sched_getaffinity(0)), free // NEEDS), 1)


def clone(top: Path, room: Path) -> Repository:
    """A clone of HEAD of the repository in the folder room."""
    subprocess.run(["git", "clone", "-q", str(top), str(room / "clone")], check=True)
    return Repository(room / "clone")


# The edits that were refused, each with the goals at which it was, as the record names them; none where these are not known.
Refused = dict[Edit, frozenset[str]]


class Trial:
    """Tries edits of one crate in a clone of its own, which has no crates but this one and those below."""

    def __init__(self, room: Path, repository: Repository, crate: Crate, say: Callable[[str], None]):
        self.room, self.repository, self.crate, self.say = room, repository, crate, say
        self.work, self.seed = crate.folder / "out/incremental", room / "seed"
        self.bodies = Bodies(crate)
        # whether the libraries of `rt ci` are at hand, and whether `rt ci` passes by what it kept
        self.is_kept, self.passes = False, False
        # edits of which a check of each told all that one can
        self.settled: set[Edit] = set()

    def run(self, *words: str, where: Path) -> subprocess.CompletedProcess:
        how = {"stdin": subprocess.DEVNULL, "stdout": subprocess.PIPE, "stderr": subprocess.STDOUT, "text": True, "errors": "replace"}
        return subprocess.run(["nice", "-n", "5", *words], cwd=where, env={**os.environ, "RT_JOBS": "1"}, **how)

    def begin(self) -> None:
        """Takes what has been proved. Else it checks the crate as it stands, over what checks kept, and keeps what that check leaves."""
        is_taken = cache.is_taken(self.repository, self.crate)
        self.passes = not is_taken and not os.environ.get("PROVED") and cache.is_given(self.repository.top)
        self.is_kept = is_taken or self.passes
        if self.is_kept:
            self.say(f"{self.crate.name}: its proof is kept, so it is not checked as it stands")
            return
        ran = self.check()
        if ran.returncode:
            raise NotProved("\n".join(["the crate as it stands is not proved:", *ran.stdout.rstrip().split("\n")[-12:]]))
        cache.linked(self.work, self.seed)

    def again(self) -> None:
        """Lets the next check begin with what the first one left, of the crate as it stands or of edits; the first with nothing."""
        shutil.rmtree(self.work, ignore_errors=True)
        if self.seed.is_dir():
            cache.linked(self.seed, self.work)
        else:
            self.work.mkdir(parents=True)

    def check(self, *flags: str) -> subprocess.CompletedProcess:
        """Checks the crate as its files are, over what lies in its folder out/."""
        words = cache.check(self.repository, self.crate, self.work) if self.is_kept else ["rt", "check", "--jobs", "1"]
        return self.run(*words, *flags, where=self.crate.folder)

    def said(self, *flags: str) -> str:
        """What a check of the crate with edits says. Where the crate was not checked as it stands, the first that ends leaves the seed."""
        self.again()
        said = self.check(*flags).stdout
        if not self.seed.is_dir() and ENDED.search(said):
            cache.linked(self.work, self.seed)
        return said

    def checked(self, edits: list[Edit], *flags: str) -> tuple[str, list[Edit]]:
        """What a check of the crate with these edits says, and those that could be put into it. The crate is then as it was."""
        texts: dict[str, str] = {}
        made = []
        try:
            for edit in edits:
                try:
                    changed = edit.applied(self.crate.folder)
                except BadEdit:
                    # another edit of the batch has the same text
                    continue
                for path, text in changed.items():
                    texts.setdefault(path, (self.crate.folder / path).read_text(encoding="utf-8"))
                    (self.crate.folder / path).write_text(text, encoding="utf-8")
                made.append(edit)
            return self.said(*flags), made
        finally:
            for path, text in texts.items():
                (self.crate.folder / path).write_text(text, encoding="utf-8")

    def batch(self, edits: list[Edit], *flags: str) -> tuple[Refused, bool]:
        """The edits that one check of all of them shows to be refused, and whether it refused only functions that they touch."""
        if not edits:
            return {}, True
        said, made = self.checked(edits, *flags)
        functions = {edit: self.bodies.touched(edit) for edit in made}
        unread = [(it[1], int(it[2])) for it in (UNREAD.match(line) for line in said.split("\n")) if it]
        if unread:
            bad = {edit for edit in made if any(it.has_line(*at) for it in functions[edit] for at in unread)}
            return self.batch([it for it in made if it not in bad], *flags) if bad else ({}, False)
        verdict = verdict_of(said, self.bodies, frozenset().union(*functions.values()))
        if not (NO_PROOF in said or NOT_ALL.search(said)) or not verdict.is_clean:
            return {}, False
        return {edit: verdict.goals(functions[edit]) for edit in made if not functions[edit].isdisjoint(verdict.failed)}, True

    def only(self, edits: list[Edit]) -> list[str]:
        """The words by which a check proves only the functions that the edits change, and those that they call; none where it has to prove all."""
        touched = [self.bodies.touched(it) for it in edits]
        places = {it.alone for functions in touched for it in functions or ()}
        return [word for it in sorted(places) for word in ("--only", it)] if all(touched) and all(places) else []

    def halved(self, edits: list[Edit]) -> Refused:
        """The edits that checks of several of them show to be refused: of all, and of halves where one tells nothing."""
        found, is_clean = self.batch(edits, *(self.only(edits) if self.is_kept else []))
        self.say(f"{self.crate.name}: {len(found)} of {len(edits)} edits refused in one check")
        if len(edits) < 2:
            self.settled.update(edits)
        if is_clean or len(edits) < 2:
            return found
        middle = len(edits) // 2
        return self.halved(edits[:middle]) | self.halved(edits[middle:])

    def alone(self, edits: list[Edit]) -> Refused:
        """The edits that are refused where each is tried by itself. It tells of the others."""
        if self.is_kept and not self.passes:
            return {edit: goals for edit in edits if (goals := self.goals_alone(edit))}
        return self.alone_by_rt(edits) if edits else {}

    def goals_alone(self, edit: Edit) -> frozenset[str]:
        """The goals at which a check over the libraries of `rt ci` refuses one edit, of whatever functions."""
        said, _ = self.checked([edit])
        every = frozenset(self.bodies.all)
        goals = verdict_of(said, self.bodies, every).goals(every) if NO_PROOF in said else frozenset()
        if not goals:
            self.say("\n".join([f"{edit.label}: NOT REFUSED by itself:", *said.rstrip().split("\n")[-3:]]))
        return goals

    def alone_by_rt(self, edits: list[Edit]) -> Refused:
        """The same by `rt`, in one run."""
        folder = self.crate.folder / "must-fail"
        shutil.rmtree(folder, ignore_errors=True)
        folder.mkdir()
        for edit in edits:
            shutil.copyfile(edit.path, folder / edit.path.name)
        lines = self.must_fail().split("\n")
        shutil.rmtree(folder)
        refused: Refused = {}
        for edit in edits:
            label = f"must-fail {self.crate.name}/{edit.path.name}"
            said = next((it for it in lines if is_refusal(it, label)), None)
            if said:
                refused[edit] = self.goals_told(said.partition(f"{REFUSED}: ")[2])
        for line in lines:
            if IS_KEPT not in line and (REFUSED not in line or "only by a limit" in line or BY_NAME_ALONE in line):
                self.say(line)
        return refused

    def goals_told(self, line: str) -> frozenset[str]:
        """The goal that a line of a check tells of, if it names it: `rt` cuts long ones."""
        return verdict_of(line, self.bodies, frozenset(self.bodies.all)).goals(self.bodies.all)

    def must_fail(self) -> str:
        """What is said of the edits in must-fail/: by `rt ci` where it kept the proof, else by `rt must-fail`, which builds libraries."""
        if self.passes:
            return self.run("rt", "ci", where=self.repository.top).stdout
        self.again()
        return self.run("rt", "must-fail", self.crate.name, where=self.repository.top).stdout

    def outcomes(self, edits: list[Edit], refused: Refused) -> dict[Edit, Outcome]:
        return {it: Outcome(it in refused, refused.get(it, frozenset()), self.bodies.checksum(it)) for it in edits}

    def tried(self, edits: list[Edit], by_itself: bool) -> dict[Edit, Outcome]:
        """What comes of the edits."""
        self.begin()
        batches, alone = ([], edits) if by_itself else together(edits, self.bodies)
        refused: Refused = {}
        while batches:
            known = len(refused)
            for batch in batches:
                refused |= self.halved(batch)
            left = [it for batch in batches for it in batch if it not in refused and it not in self.settled]
            batches = together(left, self.bodies)[0] if len(refused) > known else []
        left = [it for it in edits if it in alone or it not in refused]
        if left:
            self.say(f"{self.crate.name}: trying by themselves: {' '.join(sorted(it.name for it in left))}")
        return self.outcomes(edits, refused | self.alone(left))

    def tried_in_place(self, edit: Edit) -> Outcome:
        """What comes of one edit, by a check of the functions that it changes alone. Else it is tried by itself, and its goals are not known."""
        self.begin()
        refused: Refused = {}
        if words := self.only([edit]):
            refused, _ = self.batch([edit], *words)
        refused = refused or dict.fromkeys(self.alone([edit]), frozenset())
        return self.outcomes([edit], refused)[edit]
