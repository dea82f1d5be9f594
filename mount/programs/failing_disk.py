"""A disk that fails, of `failing_disk.c`, below a store."""
import os
import subprocess
from pathlib import Path

from own_store import PROGRAMS, WORKS, logs


class FailingDisk:
    """A disk below a store that fails when it is told to, and knows what was synced. Its syncs may take longer."""

    def __init__(self, folder: Path, milliseconds: int = 0, store: Path | None = None):
        library = folder / "failing_disk.so"
        subprocess.run(["gcc", "-shared", "-fPIC", "-O1", PROGRAMS / "failing_disk.c", "-o", library, "-ldl"], check=True)
        self.control, self.synced = folder / "fails", folder / "synced"
        self.synced.mkdir()
        self.environment = {"LD_PRELOAD": str(library), "FAILING_STORE": str(store or folder / "store"),
                            "FAILING_DISK": str(self.control), "FAILING_SYNCED": str(self.synced),
                            "FAILING_DELAY": str(milliseconds),
                            "ASAN_OPTIONS": os.environ.get("ASAN_OPTIONS", "") + ":verify_asan_link_order=0"}

    def fail(self, what: str) -> None:
        self.control.write_text(what)

    def mend(self) -> None:
        self.control.unlink()

    def forget(self) -> None:
        """Another store begins."""
        for note in self.synced.iterdir():
            note.unlink()

    def synced_bytes(self, name: str) -> int:
        """So many of a log were on the disk, which gets its name behind its first sync."""
        noted = [self.synced / name, self.synced / f"{name}.part"]
        return max((int(it.read_text()) for it in noted if it.exists()), default=0)

    def lose_power(self, folder: Path) -> None:
        """Of the records that no sync came behind only a part is left, of each log another."""
        for log in logs(folder):
            whole = log.read_bytes()
            end = len(whole.rstrip(b"\0"))
            least = min(self.synced_bytes(log.name), end)
            left = WORKS.randint(least, end)
            torn = bytearray(whole[:left])
            for at in WORKS.sample(range(least, left), min(2, left - least)):
                torn[at] = 0
            log.write_bytes(torn + bytes(WORKS.choice([0, len(whole) - left])))
        for part in (folder / "store").glob("*.part"):
            part.write_bytes(part.read_bytes()[:WORKS.randrange(1 << 16)])
