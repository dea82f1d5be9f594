"""The types of the package hold, by mypy: strictly within it, and those of the module in C beside what it has."""
import pathlib
import subprocess
import sys
import tempfile
import unittest

CONFIGURATION = pathlib.Path(__file__).resolve().parents[1] / "pyproject.toml"
# What users write: each line is well, or is wrong as the remark says, which mypy checks too.
USES = """
from array import array
from io import BufferedRandom, BufferedReader, BufferedWriter, TextIOWrapper
from typing import List, Optional
from doorvervain import Entry, File, Frozen, Path, Stat, Volume

class Mine(Volume):
    def more(self) -> None: ...

def uses(volume: Volume, tree: Frozen, mode: str) -> None:
    text: TextIOWrapper = volume.open("/x")
    more: TextIOWrapper = tree.open(volume.path("/x"), "r+", encoding="latin-1")
    reader: BufferedReader = volume.open("/x", "rb")
    writer: BufferedWriter = volume.path("/x").open("wb")
    random: BufferedRandom = volume.open("/x", "r+b")
    raw: File = volume.path("/x").open("ab", 0)
    other = volume.open("/x", mode)
    text.write(b"x")  # type: ignore[arg-type]
    writer = volume.open("/x", "rb")  # type: ignore[assignment]
    lines: List[str] = text.readlines()
    entry: Entry = volume.scandir()[0]
    folder: bool = entry.is_dir() if entry.is_dir else False
    path: Path = volume.path("/a") / "b" / entry.name
    stat: Stat = path.stat()
    data: bytes = tree.read_bytes(path) + path.read_bytes()
    volume.write_text("/x", data)  # type: ignore[arg-type]
    tree.write_text("/x", "text")  # type: ignore[attr-defined]
    skipped: List[str] = volume.import_tree("here", path, skip_special=True)
    volume.import_tree(path)  # type: ignore[arg-type]
    volume.restore(volume.fork().freeze())
    with volume.transaction():
        volume.commit()
    numbers = array("i", [1, 2])
    volume.write_bytes("/x", numbers), volume.write("/x", numbers), volume.path("/x").write_bytes(numbers)
    Mine.load(b"").more()
"""


class Types(unittest.TestCase):
    def holds(self, *words):
        with tempfile.TemporaryDirectory() as empty:
            done = subprocess.run([sys.executable, "-m", *words], cwd=empty, stdout=subprocess.PIPE, stderr=subprocess.STDOUT, text=True)
        self.assertEqual(done.returncode, 0, done.stdout)

    def test_the_package_strictly(self):
        self.holds("mypy", "--config-file", str(CONFIGURATION), "-p", "doorvervain")

    def test_what_users_write(self):
        with tempfile.NamedTemporaryFile("w", suffix=".py") as file:
            file.write(USES)
            file.flush()
            self.holds("mypy", "--strict", "--no-incremental", file.name)

    def test_the_module_in_c_has_what_its_stub_tells(self):
        self.holds("mypy.stubtest", "doorvervain._core")


if __name__ == "__main__":
    unittest.main()
