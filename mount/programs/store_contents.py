"""What users write into files counts for nothing in the log: contents that are logs, sync markers and checksums of stores.

A disk of 32 MiB is filled with such files, which are synced now and then, until the log fails or the mount is killed; the log is then
also cut and overwritten behind what was synced, as a loss of power may do. The next start has to be good, with each file that was
synced. ROUNDS is how often; the heavy run is `ROUNDS=200`.
"""
import os
import shutil
from pathlib import Path

from failing_disk import FailingDisk
from own_mount import Mount, case, run_cases
from own_store import WORKS, end_well, kill, on_small_disk, store_mount, sync

ROUNDS, NEVER, MEBIBYTE = int(os.environ.get("ROUNDS", "6")), ("--log-size", "1G"), 1 << 20


def a_log(folder: Path) -> bytes:
    """That of another store, with many sync markers."""
    mount = store_mount(folder, *NEVER)
    for i in range(40):
        (mount.point / f"file{i}").write_bytes(WORKS.randbytes(500))
        sync(mount.point)
    end_well(mount)
    return (folder / "store/log.0").read_bytes()


def moved(log: bytes, by: int) -> bytes:
    """A log whose numbers are higher: its digests are no longer right."""
    out, at = bytearray(log), 0
    while out[at:at + 6] == b"dvlog ":
        out[at + 8:at + 16] = (int.from_bytes(out[at + 8:at + 16], "little") + by).to_bytes(8, "little")
        at += 56 + int.from_bytes(out[at + 16:at + 24], "little")
    return bytes(out)


def contents(store: Path, other: bytes) -> bytes:
    own = (store / "log.0").read_bytes().rstrip(b"\0")
    kinds = [other, other[-2000:], own[-200_000:], moved(own[-5000:], 1000), moved(other, 1 << 20), (store / "tree.0.sum").read_bytes(),
             b"dvlog 2\n" + (2**63).to_bytes(8, "little") + bytes(40), other[:152] + own[:152]]
    return b"".join(WORKS.choices(kinds, k=WORKS.randrange(1, 8)))


def write_until_full(mount: Mount, store: Path, other: bytes, most: int) -> dict[str, bytes]:
    """The files that were synced."""
    written, synced = {}, {}
    for i in range(most):
        name, data = f"file{i}", contents(store, other)
        try:
            (mount.point / name).write_bytes(data)
            written[name] = data
            if WORKS.random() < 0.2:
                sync(mount.point)
                synced = dict(written)
        except OSError:
            break
    return synced


def lose_power(log: Path, length: int) -> None:
    """Of the records behind what was synced some bytes are lost, and of the zeros behind those none."""
    data = bytearray(log.read_bytes())
    end = max(length, len(data.rstrip(b"\0")))
    for _ in range(WORKS.randrange(3)):
        at = WORKS.randrange(length, end) if length < end else len(data)
        data[at:at + 512] = bytes(min(512, len(data) - at))
    if WORKS.random() < 0.3 and length < end:
        del data[WORKS.randrange(length, end):]
    log.write_bytes(data)


def fill_and_start(folder: Path, disk: Path, other: bytes, shim: FailingDisk) -> None:
    shutil.rmtree(disk / "store", ignore_errors=True)
    shim.forget()
    (disk / "other").write_bytes(bytes(WORKS.randrange(24, 30) * MEBIBYTE))
    mount = Mount(folder, "--store", disk / "store", *NEVER, environment=shim.environment)
    assert mount.stands, mount.said()
    synced = write_until_full(mount, disk / "store", other, WORKS.choice([40, 4000]))
    kill(mount)
    (disk / "other").unlink()
    lose_power(disk / "store/log.0", shim.synced_bytes("log.0"))
    mount = Mount(folder, "--store", disk / "store", *NEVER)
    assert mount.stands, mount.said()
    for name, data in synced.items():
        assert (mount.point / name).read_bytes() == data, name
    end_well(mount)


@case
def contents_are_no_markers(folder: Path):
    other = a_log(folder)

    def rounds(disk: Path) -> None:
        shim = FailingDisk(folder, store=disk / "store")
        for _ in range(ROUNDS):
            fill_and_start(folder, disk, other, shim)
        print(f"{ROUNDS} rounds")

    on_small_disk(folder, rounds)


run_cases()
