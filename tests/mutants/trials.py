"""Tries of edits of the made-up repository over a made-up toolchain, which selftest holds `runner.py` to. Nothing is proved.

The toolchain refuses each line of `low` that an edit changed, at the goal `returns`. Its files tell it more: `kept` has its `rt ci`
pass by what it kept, `also` names lines, and one that is refused too where the other changed, `hides` those that are passed over where
the other is refused, `proves` names lines that it does not refuse, `told` is what `rt` says of an edit that is tried by itself, and
`breaks` has its first check break off.
"""
from __future__ import annotations

import dataclasses
import os
import shutil
import subprocess
import sys
import tempfile
from pathlib import Path

from bodies import Bodies
from record import Line, Outcome, Repository, write_record
from sample import FILES, LOW
from runner import NotProved, Trial, verdict_of

HERE = Path(__file__).resolve().parent
TOOL = '''\
import os, pathlib, sys

kit, here = pathlib.Path(__file__).resolve().parents[1], pathlib.Path.cwd()
verb = pathlib.Path(__file__).name + " " + sys.argv[1]


def log(text):
    with open(kit / "log", "a") as file:
        file.write(f"{text}\\n")


def check(work):
    left = sorted(it.name for it in work.iterdir()) if work.is_dir() else []
    only = " ".join(it for flag, it in zip(sys.argv, sys.argv[1:]) if flag == "--only")
    log(f"{verb}{' of ' + only if only else ''} over {' '.join(left) or 'nothing'}")
    if (kit / "breaks").exists():
        (kit / "breaks").unlink()
        sys.exit(3)
    work.mkdir(parents=True, exist_ok=True)
    (work / f"work-{len((kit / 'log').read_text().split(chr(10))) - 1}").touch()
    pairs = zip((kit / "lib.rt").read_text().split("\\n"), (here / "src/lib.rt").read_text().split("\\n"))
    lines = [at for at, (was, now) in enumerate(pairs, 1) if was != now]
    also = dict(it.split() for it in (kit / "also").read_text().splitlines()) if (kit / "also").exists() else {}
    lines += [int(also[str(it)]) for it in lines if str(it) in also]
    proves = (kit / "proves").read_text().split() if (kit / "proves").exists() else []
    lines = [it for it in lines if str(it) not in proves]
    hides = dict(it.split() for it in (kit / "hides").read_text().splitlines()) if (kit / "hides").exists() else {}
    lines = [it for it in lines if str(it) not in [hides.get(str(other)) for other in lines]]
    for it in lines:
        print(f"note: src/lib.rt:{it}:1: it is not proved that what the function ensures holds when it returns (`returns`)")
    print("crate low: modules loaded=1 checked=1")
    asked = sys.argv.count("--only")
    if asked:
        print(f"only={asked} proved={asked - len(lines)}")
        sys.exit(1 if lines else 0)
    print("logic=not-proved" if lines else "logic=proved")
    sys.exit(1 if lines else 0)


def try_alone():
    for it in sorted(here.glob("crates/*/must-fail/*.edit")):
        log(f"{verb} of {it.name}")
        told = (kit / "told").read_text() if (kit / "told").exists() else "note"
        is_proved = "hidden" in it.name or (kit / "proves").exists()
        print(f"rt: must-fail low/{it.name}: {'NOT REFUSED' if is_proved else f'refused, as it must be: {told}'}")


if verb == "rt doc":
    print(kit / "START-HERE.md")
elif verb == "rt ci":
    log(verb)
    if not (kit / "kept").exists():
        print("rt: ground NOT PROVED")
        sys.exit(1)
    print("rt: low is kept: an earlier run proved the same")
    try_alone()
elif verb == "rt must-fail":
    try_alone()
elif verb == "rattle check":
    (kit / "words").write_text(" ".join(sys.argv[1:]))
    check(pathlib.Path(sys.argv[sys.argv.index("--incremental") + 1]))
else:
    check(here / "out/incremental")
'''
# The lines of `low` on which the bodies stand.
AT = ("hidden(n, 'x') * 2", "if c == '{'", "n * 3", "b'}'")
DOUBLE, HIDDEN, TRIPLE, MOST = (LOW[: LOW.index(it)].count("\n") + 1 for it in AT)
ADDS_TWO = "file: src/lib.rt\nold: hidden(n, 'x') * 2\nnew: hidden(n, 'x') + 2\n"
OF_A_CONSTANT = "file: src/lib.rt\nold: b'}'\nnew: b'{'\n"
# The sample's edits of `low`, with the goals at which they are refused.
BOTH = {"double_adds_one": "double:returns", "hidden_gives_none": "hidden:returns"}
# Checks of the functions that edits change.
OF_BOTH, OF_DOUBLE, OF_HIDDEN = (f"rattle check of {it}" for it in ("double hidden", "double", "hidden"))


@dataclasses.dataclass(frozen=True)
class Try:
    name: str
    # files of the toolchain, and edits beside those of the sample
    files: dict[str, str]
    edits: dict[str, str]
    refused: dict[str, str]
    log: list[str]
    # whether PROVED names a checkout of the same sources in which `rt ci` has passed, and with which text in place of another
    is_proved: bool = False
    other: tuple[str, str] = ("", "")


TRIES = [
    Try(
        "a try where the proof is kept",
        {"kept": ""},
        {"double_adds_two": ADDS_TWO},
        BOTH | {"double_adds_two": "double:returns"},
        ["rt ci", f"{OF_BOTH} over nothing", f"{OF_DOUBLE} over work-2"],
    ),
    Try(
        "a try where nothing is kept",
        {},
        {"double_adds_two": ADDS_TWO},
        BOTH | {"double_adds_two": "double:returns"},
        ["rt ci", "rt check over nothing", "rt check over work-2", "rt check over work-2"],
    ),
    Try(
        "a try where the proof is kept, and a function that no edit touched is refused",
        {"kept": "", "also": f"{HIDDEN} {TRIPLE}\n"},
        {},
        {"double_adds_one": "double:returns"},
        ["rt ci", f"{OF_BOTH} over nothing", f"{OF_DOUBLE} over work-2", f"{OF_HIDDEN} over work-2", "rt ci", "rt ci of hidden_gives_none.edit"],
    ),
    Try(
        "a try where the proof is kept, and an edit hides the goal of another",
        {"kept": "", "hides": f"{HIDDEN} {DOUBLE}\n"},
        {},
        BOTH,
        ["rt ci", f"{OF_BOTH} over nothing", f"{OF_DOUBLE} over work-2"],
    ),
    Try(
        "a try where nothing is kept, and a function that no edit touched is refused",
        {"also": f"{HIDDEN} {TRIPLE}\n"},
        {},
        {"double_adds_one": "double:returns"},
        ["rt ci", "rt check over nothing", *["rt check over work-2"] * 3, "rt must-fail of hidden_gives_none.edit"],
    ),
    Try(
        "a try where the proof is kept, and the first check of edits breaks off",
        {"kept": "", "breaks": ""},
        {},
        BOTH,
        ["rt ci", f"{OF_BOTH} over nothing", f"{OF_DOUBLE} over nothing", f"{OF_HIDDEN} over work-3"],
    ),
    Try(
        "a try of a constant where the proof is kept",
        {"kept": "", "told": f"note: src/lib.rt:{DOUBLE}:1: it is not proved that a sum fits (`returns-else`)"},
        {"most_is_another": OF_A_CONSTANT},
        BOTH | {"most_is_another": "double:returns-else"},
        ["rt ci", f"{OF_BOTH} over nothing", "rt ci", "rt ci of most_is_another.edit"],
    ),
    Try(
        "a try of a constant of which rt cuts the goal",
        {"kept": "", "told": f"note: src/lib.rt:{DOUBLE}:1: it is not proved that a sum fits (`returns-el"},
        {"most_is_another": OF_A_CONSTANT},
        BOTH | {"most_is_another": ""},
        ["rt ci", f"{OF_BOTH} over nothing", "rt ci", "rt ci of most_is_another.edit"],
    ),
    Try(
        "a try over the libraries of another checkout",
        {},
        {"double_adds_two": ADDS_TWO},
        BOTH | {"double_adds_two": "double:returns"},
        [f"{OF_BOTH} over nothing", f"{OF_DOUBLE} over work-1"],
        is_proved=True,
    ),
    Try(
        "a try of a constant over the libraries of another checkout",
        {"also": f"{MOST} {DOUBLE}\n"},
        {"most_is_another": OF_A_CONSTANT},
        BOTH | {"most_is_another": "double:returns"},
        [f"{OF_BOTH} over nothing", "rattle check over work-1"],
        is_proved=True,
    ),
    Try(
        "a try over another checkout with other sources",
        {},
        {},
        BOTH,
        ["rt check over nothing", "rt check over work-1"],
        is_proved=True,
        other=("n * 3", "n * 4"),
    ),
]


def make(room: Path, case: Try) -> None:
    """Makes the repository and the toolchain of a try."""
    edits = {f"crates/low/mutants/{name}.edit": text for name, text in case.edits.items()}
    files = {f"clone/{path}": text for path, text in {**FILES, **edits}.items()}
    for path, text in {**files, **{f"kit/{path}": text for path, text in case.files.items()}, "kit/lib.rt": LOW}.items():
        (room / path).parent.mkdir(parents=True, exist_ok=True)
        (room / path).write_text(text, encoding="utf-8")
    (room / "kit/bin").mkdir()
    for name in ("rt", "rattle"):
        (room / "kit/bin" / name).write_text(f"#!{sys.executable} -S\n{TOOL}", encoding="utf-8")
        (room / "kit/bin" / name).chmod(0o755)


def make_proved(room: Path, other: tuple[str, str]) -> None:
    """Makes a checkout with the libraries of `rt ci`, whose `low` has one text in place of another."""
    shutil.copytree(room / "clone", room / "proved")
    for name in ("ground", "base"):
        (room / f"proved/crates/{name}/out/rlib/{name}.rlib").mkdir(parents=True)
    (room / "proved/crates/low/src/lib.rt").write_text(LOW.replace(*other), encoding="utf-8")


def lacking(room: Path) -> list[str]:
    """What the check of the toolchain was not given of the crate and the libraries below it."""
    file, crates = room / "kit/words", room / "clone/crates"
    wanted = [
        "--crate-name low src/lib.rt",
        f"--extern std={room}/kit/rlibs/std.rlib",
        f"--extern base={crates}/base/out/rlib/base.rlib",
        f"-L dependency={crates}/ground/out/rlib",
    ]
    return [it for it in wanted if it not in file.read_text(encoding="utf-8")] if file.exists() else []


def wrong_try(case: Try) -> str:
    """What a try of the edits of `low` did otherwise than it has to; '' where all is well."""
    path = os.environ["PATH"]
    with tempfile.TemporaryDirectory(prefix="mutants-selftest-") as name:
        room = Path(name).resolve()
        make(room, case)
        if case.is_proved:
            make_proved(room, case.other)
            os.environ["PROVED"] = str(room / "proved")
        repository = Repository(room / "clone")
        crate = repository.crates["low"]
        said: list[str] = []
        refused: dict[str, str] = {}
        os.environ["PATH"] = f"{room}/kit/bin:{path}"
        try:
            tried = Trial(room, repository, crate, said.append).tried(crate.edits(), False)
            refused = {it.name: " ".join(outcome.goals) for it, outcome in tried.items() if outcome.is_refused}
        except (NotProved, OSError) as why:
            said.append(f"{why}")
        finally:
            os.environ["PATH"] = path
            os.environ.pop("PROVED", None)
        log = (room / "kit/log").read_text(encoding="utf-8").splitlines()
        left = (crate.folder / "src/lib.rt").read_text(encoding="utf-8") == LOW
        is_well = refused == case.refused and log == case.log and left and not lacking(room)
        return "" if is_well else "\n".join([f"refused: {refused}", *log, *said, *lacking(room)])


@dataclasses.dataclass(frozen=True)
class Said:
    """A line of a check of edits that touch some functions of `low`; the goals of these that it refuses, and whether none is of another."""

    line: str
    touched: set[str]
    failed: dict[str, set[str]] = dataclasses.field(default_factory=dict)
    is_clean: bool = True


ANSWERS = "proofs/double/Answers.antt:1:1: error: "
SAID = [
    Said(f"note: src/lib.rt:{DOUBLE}:1: it is not proved that a sum fits (`returns-else`); more", {"double"}, {"double": {"returns-else"}}),
    Said(f"note: src/lib.rt:{DOUBLE}:1: it is not proved that the `invariant` holds (`loop-init`)", {"double"}, {"double": {"loop-init"}}),
    Said(f"note: src/lib.rt:{DOUBLE}:1: it is not proved that a sum fits", {"double"}, {"double": set()}),
    Said(f"note: src/lib.rt:{DOUBLE}:1: it is not proved that a sum fits", {"hidden"}, is_clean=False),
    Said(f"{ANSWERS}`returns`: expected type `a`", {"double"}, {"double": {"returns"}}),
    Said(f"{ANSWERS}`returns`: expected type `a`", {"hidden"}, is_clean=False),
    # a line of a proof that names no goal tells nothing of edits that touch its function
    Said(f"{ANSWERS}expected type `a`", {"double"}),
    Said(f"{ANSWERS}expected type `a`", {"double", "hidden"}),
    Said(f"{ANSWERS}expected type `a`", {"hidden"}, is_clean=False),
    Said("proofs/+both/Answers.antt:1:1: error: expected type `a`", {"double"}),
    # the proof of a function that calls itself
    Said("proofs/+double/Answers.antt:1:1: error: `returns`: expected type `a`", {"double"}, {"double": {"returns"}}),
    Said("proofs/+double/Answers.antt:1:1: error: `returns`: expected type `a`", {"hidden"}),
    Said("proofs/other/+both/Answers.antt:1:1: error: expected type `a`", {"double"}, is_clean=False),
    # a lost name tells nothing at all, and a lemma of another file is of no function
    Said(f"{ANSWERS}`returns`: `c` has no field `a`", {"double"}),
    Said("proofs/Lemmas.antt:1:1: error: expected type `a`", {"double"}, is_clean=False),
]


def wrong_verdict(case: Said) -> str:
    """What a line was taken to tell, where that is not what it tells; else ''."""
    with tempfile.TemporaryDirectory(prefix="mutants-selftest-") as name:
        make(Path(name), Try("", {}, {}, {}, []))
        bodies = Bodies(Repository(Path(name) / "clone").crates["low"])
    told = verdict_of(f"a line\n{case.line}\nlogic=not-proved\n", bodies, frozenset(it for it in bodies.all if it.name in case.touched))
    failed = {it.name: goals for it, goals in told.failed.items()}
    is_well = (failed, told.is_clean) == (case.failed, case.is_clean)
    return "" if is_well else f"refused: {failed}, and {'none' if told.is_clean else 'one'} that no edit touched"


NEAR = """
impl crate::Count {
    pub fn more(&self) -> u8 {
        1
    }
}

struct Near;

struct NearBy;

impl Half for Near {
    fn half(&self) -> u8 {
        2
    }
}

impl Half for NearBy {
    fn half(&self) -> u8 {
        3
    }
}
"""
# Folders of proofs, and the function of each: of a type's method below the type's module, of a trait's below that of its `impl`.
FOLDERS = {"Count/more": "Count/more", "measures/NearHalf/half": "measures/Near/half", "measures/NearByHalf/half": "measures/NearBy/half"}


def wrong_folder(folder: str) -> str:
    """The functions that are found by a folder of a proof, where they are not the one whose proof it is; else ''."""
    with tempfile.TemporaryDirectory(prefix="mutants-selftest-") as name:
        make(Path(name), Try("", {}, {}, {}, []))
        base = Repository(Path(name) / "clone").crates["base"]
        file = base.folder / "src/measures.rt"
        file.write_text(file.read_text(encoding="utf-8") + NEAR, encoding="utf-8")
        found = [it.exact for it in Bodies(base).of_proof(folder)]
    return "" if found == [FOLDERS[folder]] else f"found {' '.join(found) or 'nothing'}"


@dataclasses.dataclass(frozen=True)
class Again:
    """A try anew of three edits of `low`, in a tree whose record has something of one of them."""

    name: str
    # files of the toolchain
    files: dict[str, str]
    # what the record has of `double_adds_one`: goals, and a checksum of the bodies with which they were seen, if it is not today's
    goals: set[str]
    bodies: str = ""
    # what is told of it if that is not what the record has
    fault: str = ""


RETURNS, MORE = "double:returns", "double:returns-clause-most"
AGAIN = [
    Again("edits that are refused at the goals of the record", {}, {RETURNS}),
    Again("an edit that is refused before goals were recorded", {}, set()),
    Again("an edit that is proved", {"proves": f"{DOUBLE}"}, set(), fault="NOT REFUSED"),
    Again("an edit whose clause is gone, under checksums that nobody earned", {}, {RETURNS, MORE}, fault=f"NOT REFUSED at {MORE}"),
    Again("an edit that is refused at another goal", {}, {MORE}, fault=f"NOT REFUSED at {MORE}"),
    Again("an edit that was refused with another body", {}, {MORE}, bodies="01234567"),
]


def make_tree(room: Path, case: Again) -> Path:
    """Makes a repository that has the scripts, and edits of `low` alone."""
    make(room, Try("", {"kept": "", **case.files}, {"triple_is_double": "file: src/lib.rt\nold: n * 3\nnew: n * 2\n"}, {}, []))
    top = room / "clone"
    for name in ("ground", "base", "high"):
        shutil.rmtree(top / "crates" / name / "mutants", ignore_errors=True)
    (top / "tests/mutants").mkdir(parents=True)
    for it in [HERE / "spot_check", *HERE.glob("*.py")]:
        shutil.copy(it, top / "tests/mutants" / it.name)
    repository = Repository(top)
    low, bodies = repository.crates["low"], Bodies(repository.crates["low"])
    outcomes = {it.name: Outcome(True) for it in low.edits()}
    edit = next(it for it in low.edits() if it.name == "double_adds_one")
    outcomes[edit.name] = Outcome(True, frozenset(case.goals), case.bodies or bodies.checksum(edit))
    write_record(repository, {"low": Line("low", "", outcomes)})
    for words in (["init", "-q"], ["add", "."], ["-c", "user.name=a", "-c", "user.email=a@a", "commit", "-q", "-m", "a tree"]):
        subprocess.run(["git", *words], cwd=top, check=True)
    return top


def wrong_again(case: Again) -> str:
    """What a try anew told otherwise than it has to; '' where all is well."""
    with tempfile.TemporaryDirectory(prefix="mutants-selftest-") as name:
        room = Path(name).resolve()
        top = make_tree(room, case)
        how = {"stdout": subprocess.PIPE, "stderr": subprocess.STDOUT, "text": True, "cwd": "/"}
        ran = subprocess.run([str(top / "tests/mutants/spot_check")], env={**os.environ, "PATH": f"{room}/kit/bin:{os.environ['PATH']}"}, **how)
    told = f"tests/mutants/spot_check: low/double_adds_one: {case.fault or 'refused at double:returns'}"
    is_well = told in ran.stdout and ran.stdout.endswith("2 passed, 1 failed\n" if case.fault else "3 passed, 0 failed\n")
    return "" if is_well and (ran.returncode != 0) == bool(case.fault) else f"anew said:\n{ran.stdout}"


def undrawn() -> str:
    """An edit that is never tried anew, whatever commit there is; '' where there is none."""
    with tempfile.TemporaryDirectory(prefix="mutants-selftest-") as name:
        make(Path(name), Try("", {}, {}, {}, []))
        repository = Repository(Path(name) / "clone")
        drawn = {it.label for commit in range(100) for it in repository.drawn(f"{commit}", 1)}
        return " ".join(sorted({edit.label for it in repository.with_edits() for edit in it.edits()} - drawn))


def all_trials() -> list[tuple[str, str]]:
    """What was tried here, and what was wrong with it, '' where nothing was."""
    said = [(f"{it.line}, where edits touch {' '.join(sorted(it.touched))}", wrong_verdict(it)) for it in SAID]
    folders = [(f"the proof in {it}", wrong_folder(it)) for it in FOLDERS]
    return [*((it.name, wrong_try(it)) for it in TRIES), *said, *folders, ("what is tried anew", undrawn())]
