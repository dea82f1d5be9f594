"""What has been proved on this machine of a crate and of those below it, for tries of the crate's edits.

Some kits keep it: `rt ci` knows what it proved by the checksums of all that it read, and passes that again without a proof, with the
library that it built. So where it passes within a processor minute for each proof, the crate as it stands is proved and need not be
checked again. Other kits keep nothing, and there the variable PROVED names a checkout in which `rt ci` has passed (the gate names its
own), or in which `rt check` built the libraries. Either way `rattle check` checks the crate with edits over the libraries of `rt ci`.
(`rt check` takes only its own.)
"""
from __future__ import annotations

import filecmp
import os
import shutil
import subprocess
from pathlib import Path

from record import Crate, Repository

# What a proof may take, in processor seconds, where what is kept is asked for: one that takes more was not kept.
SECONDS = 60
ASK = f"ulimit -c 0; ulimit -S -t {SECONDS}; exec nice -n 5 rt ci"
# What `rt ci` says of a proof that it has not kept: it failed at that limit, or another run is at it.
NOT_KEPT = (" NOT PROVED", "; waiting for it")
# What a proof depends on in the folder of a crate.
PARTS = ("src", "specs", "proofs")


def linked(folder: Path, to: Path) -> None:
    """Copies kept work, what was proved by links: a check replaces such a file and never writes into it."""

    def copy(one: str, other: str) -> None:
        if one.endswith(".oantt"):
            try:
                os.link(one, other)
                return
            except OSError:
                pass
        shutil.copy2(one, other)

    shutil.copytree(folder, to, symlinks=True, copy_function=copy)


def is_same(one: Path, other: Path) -> bool:
    """Whether two folders have the same files; also where neither is there."""
    if not one.is_dir() or not other.is_dir():
        return one.is_dir() == other.is_dir()
    seen = filecmp.dircmp(one, other)
    _, lost, odd = filecmp.cmpfiles(one, other, seen.common_files, shallow=False)
    return not (seen.left_only or seen.right_only or lost or odd) and all(is_same(one / it, other / it) for it in seen.common_dirs)


def is_taken(repository: Repository, crate: Crate) -> bool:
    """Whether the checkout that PROVED names has the sources of the crate and of those below, and `rt ci` built its libraries, which are
    then copied. What `rt check` built and kept there is copied too, and `rt check` takes it where its stamps hold."""
    top = os.environ.get("PROVED")
    crates = [*repository.below(crate), crate]
    pairs = [(it, Path(top) / "crates" / it.name) for it in crates] if top else []
    if not top or not all(is_same(it.folder / part, at / part) for it, at in pairs for part in PARTS):
        return False
    for it, at in pairs:
        for part in ("rlib", "incremental"):
            if (at / "out" / part).is_dir() and not (it.folder / "out" / part).exists():
                linked(at / "out" / part, it.folder / "out" / part)
    libraries = [it.folder / "out/rlib" for it in repository.below(crate)]
    return all((it / f"{it.parents[1].name}.rlib").exists() and not (it / "stamp").exists() for it in libraries)


def is_given(top: Path) -> bool:
    """Whether `rt ci` passes in the clone, and so all its crates are proved, and the library of each lies in its folder out/."""
    how = {"stdin": subprocess.DEVNULL, "stdout": subprocess.PIPE, "stderr": subprocess.STDOUT, "text": True, "errors": "replace"}
    with subprocess.Popen(["sh", "-c", ASK], cwd=top, env={**os.environ, "RT_JOBS": "1"}, **how) as ran:
        for line in ran.stdout:
            if any(it in line for it in NOT_KEPT):
                ran.terminate()
    return ran.returncode == 0


def kit() -> Path:
    """The folder of the toolchain's kit."""
    return Path(subprocess.run(["rt", "doc"], check=True, stdout=subprocess.PIPE, text=True).stdout.strip()).parent


def check(repository: Repository, crate: Crate, work: Path) -> list[str]:
    """The command that checks the crate over the libraries that `rt ci` gave, and takes from the folder work what is proved there."""
    at = kit()
    words = [str(at / "bin/rattle"), "check", "--crate-name", crate.name, crate.root]
    for name in ("std", *crate.of_kit):
        words += ["--extern", f"{name}={at}/rlibs/{name}.rlib"]
    words += ["-L", f"dependency={at}/rlibs"]
    for name in crate.uses:
        words += ["--extern", f"{name}={repository.crates[name].folder}/out/rlib/{name}.rlib"]
    for low in repository.below(crate):
        words += ["-L", f"dependency={low.folder}/out/rlib"]
    words += ["--antt-project", f"{at}/rattle/logic/antt-project.json", "--logic-built", f"{at}/logic_built"]
    words += ["--jobs", "1", "--incremental", str(work)]
    return [*words, *(["--crate-type", "staticlib"] if crate.is_static else [])]
