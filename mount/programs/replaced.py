"""Readers beside a writer that replaces what they read."""
import os
import subprocess
import sys
import threading

ROUNDS = 3000


def replace() -> None:
    for i in range(ROUNDS):
        with open("conf.new", "w") as file:
            file.write(f"{i}\n" * 500)
        os.rename("conf.new", "conf")


def read(faults: list[str]) -> None:
    with open("conf") as file:
        os.fstat(file.fileno())
        lines = file.read().splitlines()
    if len(lines) != 500 or len(set(lines)) != 1:
        faults.append(f"{len(lines)} lines of {len(set(lines))} writes")


def read_until(writer: subprocess.Popen, faults: list[str], tries: list[int]) -> None:
    while writer.poll() is None:
        tries.append(1)
        try:
            read(faults)
        except OSError as fault:
            faults.append(str(fault))


def main() -> int:
    if sys.argv[1:] == ["replace"]:
        replace()
        return 0
    with open("conf", "w") as file:
        file.write("first\n" * 500)
    writer, faults, tries = subprocess.Popen([sys.executable, __file__, "replace"]), [], []
    readers = [threading.Thread(target=read_until, args=(writer, faults, tries)) for _ in range(2)]
    for reader in readers:
        reader.start()
    for reader in readers:
        reader.join()
    print(f"{len(faults)} of {len(tries)} tries failed", *sorted(set(faults))[:5], sep="\n")
    return 1 if faults or writer.returncode or os.listdir(".") != ["conf"] else 0


sys.exit(main())
