#!/usr/bin/env python3
"""1,000 tests on 4 threads: the tree is built once, and each test changes a fork of it.

A fork takes no copy, so a test costs what it does itself, and no test sees what another one changes: they need no order and no
cleaning up. The forks share what none of them changed, and each may be used beside the others. `--copies` gives each test a volume
that is loaded from an image, as one does without forks. parallel_tests.expected has the lines but for the times, which go to
standard error.
"""
import argparse
import os
import sys
import time
from concurrent.futures import ThreadPoolExecutor
from typing import Callable, List

from doorvervain import Volume

TESTS, THREADS, FOLDERS, FILES = 1_000, 4, 40, 50


def build() -> Volume:
    """A project: a folder for each module, with its sources."""
    volume = Volume(clock=lambda: 0)
    for number in range(FOLDERS * FILES):
        path = f"/src/m{number % FOLDERS:02}/f{number // FOLDERS:02}.txt"
        volume.makedirs(os.path.dirname(path), exist_ok=True)
        volume.write_text(path, f"module {number % FOLDERS}\n" * 10)
    return volume


def test_a_rename(volume: Volume, number: int) -> None:
    folder = f"/src/m{number % FOLDERS:02}"
    volume.rename(folder, "/src/renamed")
    assert len(volume.listdir("/src")) == FOLDERS and not volume.exists(folder)
    assert volume.read_text("/src/renamed/f00.txt").startswith(f"module {number % FOLDERS}\n")


def test_a_removal(volume: Volume, number: int) -> None:
    volume.rmtree(f"/src/m{number % FOLDERS:02}")
    assert len(volume.listdir("/src")) == FOLDERS - 1


def test_an_edit(volume: Volume, number: int) -> None:
    folder = f"/src/m{number % FOLDERS:02}"
    with volume.open(f"{folder}/f{number % FILES:02}.txt", "a") as file:
        file.write("edited\n")
    edited = [name for name in volume.listdir(folder) if volume.read_bytes(f"{folder}/{name}").endswith(b"edited\n")]
    assert edited == [f"f{number % FILES:02}.txt"]


CALLS: List[Callable[[Volume, int], None]] = [test_a_rename, test_a_removal, test_an_edit]


def main() -> None:
    parser = argparse.ArgumentParser(description=__doc__, formatter_class=argparse.RawDescriptionHelpFormatter)
    parser.add_argument("--copies", action="store_true", help="load a volume for each test")
    parser.add_argument("--tests", type=int, default=TESTS)
    given = parser.parse_args()
    built = build()
    image = built.image()

    def run(number: int) -> bool:
        with Volume.load(image) if given.copies else built.fork() as volume:
            CALLS[number % len(CALLS)](volume, number)
        return True

    began = time.monotonic()
    with ThreadPoolExecutor(THREADS) as pool:
        passed = sum(pool.map(run, range(given.tests)))
    took = time.monotonic() - began
    assert built.image() == image
    print(f"{passed} tests passed on {THREADS} threads; the tree of {FOLDERS * FILES} files is as it was built")
    print(f"{took:.2f} s, {1000 * took / given.tests:.2f} ms a test", file=sys.stderr)


if __name__ == "__main__":
    main()
