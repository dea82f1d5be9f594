"""Calls that look random, beside the same calls of `os` on a folder of the system: the same answers and the same refusals."""
import errno
import os
import random
import shutil
import tempfile
import unittest

from doorvervain import Volume

# Where the library answers otherwise than Linux: to unlink a directory (POSIX has EPERM).
SAME = {("unlink", errno.EISDIR): errno.EPERM}
NAMES = ["a", "b", "cc", "ö"]


class System:
    """The calls of a volume, by `os` on a folder."""

    def __init__(self, folder):
        self.folder = folder

    def at(self, path):
        return self.folder + path.rstrip("/")

    def mkdir(self, path):
        os.mkdir(self.at(path))

    def create(self, path):
        os.close(os.open(self.at(path), os.O_CREAT | os.O_EXCL | os.O_WRONLY))

    def unlink(self, path):
        os.unlink(self.at(path))

    def rmdir(self, path):
        os.rmdir(self.at(path))

    def rename(self, old, new):
        os.rename(self.at(old), self.at(new))

    def truncate(self, path, size):
        os.truncate(self.at(path), size)

    def write(self, path, data, offset):
        opened = os.open(self.at(path), os.O_WRONLY)
        try:
            return os.pwrite(opened, data, offset)
        finally:
            os.close(opened)

    def read(self, path, size, offset):
        opened = os.open(self.at(path), os.O_RDONLY)
        try:
            return os.pread(opened, size, offset)
        finally:
            os.close(opened)

    def listdir(self, path):
        return sorted(os.listdir(self.at(path)), key=os.fsencode)

    def stat(self, path):
        result = os.stat(self.at(path))
        is_dir = os.path.isdir(self.at(path))
        return is_dir, 0 if is_dir else result.st_size


def answer(name, call, *words):
    """What a call gives, or the number of its refusal."""
    try:
        given = call(*words)
    except OSError as error:
        return "refused", SAME.get((name, error.errno), error.errno)
    return "done", tuple(given)[:2] if name == "stat" else given


class BesideTheSystem(unittest.TestCase):
    def setUp(self):
        self.folder = tempfile.mkdtemp()
        self.addCleanup(shutil.rmtree, self.folder)

    def test_random_calls(self):
        for seed, shape in enumerate([(4, 4, 4), (16, 256, 256)]):
            rng = random.Random(seed)
            folder = os.path.join(self.folder, str(seed))
            os.mkdir(folder)
            volume, system = Volume(shape=shape), System(folder)
            kinds = set()
            for number in range(6_000):
                name, words = self.call(rng)
                got = answer(name, getattr(volume, name), *words)
                wanted = answer(name, getattr(system, name), *words)
                kinds.add((name, got[0], got[1] if got[0] == "refused" else 0))
                if name == "rename" and got[0] == wanted[0] == "refused":
                    # Where several faults fit, Linux looks at the second path before it finds that the first is missing.
                    continue
                self.assertEqual(got, wanted, (seed, number, name, words))
                if number % 16 == 0:
                    volume.compact(3)
            self.assertGreater(len(kinds), 30)

    def path(self, rng):
        return "/" + "/".join(rng.choice(NAMES) for _ in range(rng.choice([1, 1, 1, 2, 2, 3])))

    def call(self, rng):
        name = rng.choice(["mkdir", "create", "unlink", "rmdir", "rename", "truncate", "write", "read", "listdir", "stat"])
        path = self.path(rng)
        if name == "rename":
            return name, (path, self.path(rng))
        if name == "truncate":
            return name, (path, rng.choice([0, 1, 4096, 9000, rng.randrange(20_000)]))
        if name == "write":
            return name, (path, rng.randbytes(rng.choice([0, 1, 100, 5000])), rng.choice([0, 4095, rng.randrange(20_000)]))
        if name == "read":
            return name, (path, rng.choice([0, 10, 40_000]), rng.choice([0, 4095, rng.randrange(20_000)]))
        return name, (path,)


class FilesBesideTheSystem(unittest.TestCase):
    """File objects, beside those of the builtin `open`."""

    MODES = ["r", "w", "x", "a", "r+", "w+", "x+", "a+"]

    def setUp(self):
        self.folder = tempfile.mkdtemp()
        self.addCleanup(shutil.rmtree, self.folder)

    def test_modes(self):
        for mode in self.MODES:
            for kind in ["b", "", "t"]:
                for stands in [None, b"", b"one\ntwo\r\n\xc3\xb6\n"]:
                    for buffering in [-1, 1, 7, 0]:
                        if (kind != "b" and buffering == 0) or (kind == "b" and buffering == 1):
                            continue
                        with self.subTest(mode=mode + kind, stands=stands, buffering=buffering):
                            self.one(mode + kind, stands, buffering)

    def one(self, mode, stands, buffering):
        path = os.path.join(self.folder, "f")
        if os.path.exists(path):
            os.unlink(path)
        volume = Volume()
        if stands is not None:
            volume.write_bytes("/f", stands)
            with open(path, "wb") as file:
                file.write(stands)
        encoding = None if "b" in mode else "utf-8"
        result = []
        for opens in [lambda: volume.open("/f", mode, buffering, encoding), lambda: open(path, mode, buffering, encoding)]:
            seen = []
            result.append(seen)
            try:
                file = opens()
            except OSError as error:
                seen.append(error.errno)
                continue
            with file:
                self.ask(file, "b" in mode, seen)
            seen.append(file.closed)
        self.assertEqual(*result)
        there = os.path.exists(path)
        self.assertEqual(volume.exists("/f"), there)
        if there:
            with open(path, "rb") as file:
                self.assertEqual(volume.read("/f"), file.read())

    def ask(self, file, binary, seen):
        """The same calls of a file, with what each gives."""
        rng = random.Random(7)
        word = (lambda text: text.encode()) if binary else (lambda text: text)

        def say(call, *words):
            try:
                given = call(*words)
                seen.append(given if not isinstance(given, memoryview) else bytes(given))
            except (OSError, ValueError) as error:
                seen.append(type(error).__name__)

        say(file.readable), say(file.writable), say(file.seekable), say(file.tell)
        for _ in range(12):
            turn = rng.randrange(9)
            if turn == 0:
                say(file.read, 3)
            elif turn == 1:
                say(file.read)
            elif turn == 2:
                say(file.readline)
            elif turn == 3:
                say(file.write, word("w%d\n" % rng.randrange(1000)))
            elif turn == 4:
                say(file.seek, 0)
            elif turn == 5:
                say(file.seek, 0, 2)
            elif turn == 6:
                say(file.tell)
            elif turn == 7:
                say(file.flush)
            else:
                say(file.truncate)
        say(file.seek, 0)
        say(file.readlines)

    def test_random_bytes(self):
        rng = random.Random(3)
        volume, path = Volume(), os.path.join(self.folder, "f")
        with volume.open("/f", "w+b") as one, open(path, "w+b") as other:
            for number in range(3_000):
                turn = rng.randrange(6)
                if turn == 0:
                    data = rng.randbytes(rng.choice([1, 100, 70_000]))
                    answers = one.write(data), other.write(data)
                elif turn == 1:
                    count = rng.choice([0, 1, 5_000, 100_000])
                    answers = one.read(count), other.read(count)
                elif turn == 2:
                    at = rng.randrange(200_000)
                    answers = one.seek(at), other.seek(at)
                elif turn == 3:
                    buffers = bytearray(9_000), bytearray(9_000)
                    answers = (one.readinto(buffers[0]), buffers[0]), (other.readinto(buffers[1]), buffers[1])
                elif turn == 4:
                    size = rng.randrange(200_000)
                    answers = one.truncate(size), other.truncate(size)
                else:
                    answers = one.tell(), other.tell()
                self.assertTrue(answers[0] == answers[1], (number, turn))
        with open(path, "rb") as file:
            self.assertTrue(volume.read("/f") == file.read())

    def test_bad_modes(self):
        volume = Volume()
        for mode in ["", "q", "rw", "rr", "b", "rbt", "+"]:
            with self.assertRaises(ValueError):
                volume.open("/f", mode)
        for words in [("wb", -1, "utf-8"), ("w", 0)]:
            with self.assertRaises(ValueError):
                volume.open("/f", *words)
        self.assertEqual(volume.listdir(), [])

    def test_a_place_is_a_whole_number(self):
        volume, path = Volume(), os.path.join(self.folder, "f")
        for file in [volume.open("/f", "w+b", 0), open(path, "w+b", 0)]:
            with file:
                file.write(b"rain")
                for whence in [os.SEEK_SET, os.SEEK_CUR, os.SEEK_END]:
                    with self.assertRaises(TypeError):
                        file.seek(0.5, whence)
                self.assertEqual((file.tell(), file.seek(True), file.read()), (4, 1, b"ain"))

    def test_what_a_file_tells(self):
        volume = Volume()
        for mode, expected in [("wb", "wb"), ("rb", "rb"), ("r+b", "rb+"), ("ab", "ab"), ("a+b", "ab+")]:
            with volume.open("/f", mode, 0) as file:
                self.assertEqual((file.name, file.mode), ("/f", expected))
                self.assertIn("/f", repr(file))
            self.assertIn("closed", repr(file))
            for call in [file.read, file.tell, file.readable, file.writable, file.seekable]:
                with self.assertRaises(ValueError):
                    call()


if __name__ == "__main__":
    unittest.main()
