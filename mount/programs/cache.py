"""The judge runs what its cache has: so that is no link, no other user's folder, and nobody else may write in it."""
import os
import subprocess
import sys
from pathlib import Path

from cases import case, root_case, run_cases

JUDGE = Path(__file__).resolve().parent.parent / "run-programs"
ASKS = """
import sys
from importlib.machinery import SourceFileLoader
from importlib.util import module_from_spec, spec_from_loader
loader = SourceFileLoader("run_programs", sys.argv[1])
module = module_from_spec(spec_from_loader("run_programs", loader))
loader.exec_module(module)
print(module.own_cache())
"""


def asks(folder: str) -> subprocess.CompletedProcess:
    words = [sys.executable, "-B", "-c", ASKS, JUDGE]
    return subprocess.run(words, env=os.environ | {"CACHE": folder}, capture_output=True, text=True)


def is_taken(folder: str) -> bool:
    done = asks(folder)
    refusal = f"mount/run-programs: {folder} is no folder of this user's own that nobody else may write in\n"
    assert (done.returncode, done.stdout, done.stderr) in ((0, f"{folder}\n", ""), (1, "", refusal)), done
    return done.returncode == 0


@case
def one_that_is_made():
    assert is_taken(os.path.abspath("new/cache"))
    assert os.stat("new/cache").st_mode & 0o777 == 0o755 and is_taken(os.path.abspath("new/cache"))


@case
def one_that_others_may_write_in():
    os.mkdir("cache")
    for mode in (0o775, 0o757, 0o1777):
        os.chmod("cache", mode)
        assert not is_taken(os.path.abspath("cache"))
    os.chmod("cache", 0o700)
    assert is_taken(os.path.abspath("cache"))


@case
def a_link():
    os.mkdir("cache")
    os.symlink("cache", "link")
    assert not is_taken(os.path.abspath("link"))


@root_case
def one_of_another_user():
    os.mkdir("cache")
    os.chown("cache", 1, -1)
    assert not is_taken(os.path.abspath("cache"))
    os.chown("cache", 0, 1)
    assert is_taken(os.path.abspath("cache"))


run_cases()
