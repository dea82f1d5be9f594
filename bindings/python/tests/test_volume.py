"""Volumes, snapshots and frozen trees: what each call gives, and what it refuses."""
import array
import copy
import errno
import gc
import os
import pathlib
import pickle
import random
import re
import signal
import stat
import sys
import threading
import time
import unittest
import weakref

import doorvervain
from doorvervain import BadDelta, BadImage, Volume

HERE = pathlib.Path(__file__).resolve()
# In the repository, and in a prefix.
HEADERS = [above / "include/doorvervain.h" for above in list(HERE.parents)[3:6:2]]
HEADER = next((path for path in HEADERS if path.exists()), None)


def refused(case, kind, number, call, *words, **named):
    """Asks for a refusal of this class and number, and gives it."""
    with case.assertRaises(OSError) as caught:
        call(*words, **named)
    case.assertIs(type(caught.exception), kind)
    case.assertEqual(caught.exception.errno, number)
    return caught.exception


class Refusals(unittest.TestCase):
    def setUp(self):
        self.volume = Volume()
        self.volume.mkdir("/d")
        self.volume.create("/d/f")

    def test_each_refusal_has_its_class_its_number_and_its_path(self):
        volume = self.volume
        for kind, number, call, *words in [
            (FileNotFoundError, errno.ENOENT, volume.stat, "/x"),
            (FileNotFoundError, errno.ENOENT, volume.create, ""),
            (NotADirectoryError, errno.ENOTDIR, volume.stat, "/d/f/x"),
            (NotADirectoryError, errno.ENOTDIR, volume.listdir, "/d/f"),
            (IsADirectoryError, errno.EISDIR, volume.read, "/d"),
            (IsADirectoryError, errno.EISDIR, volume.write, "/d", b"x"),
            (FileExistsError, errno.EEXIST, volume.mkdir, "/d"),
            (OSError, errno.ENOTEMPTY, volume.rmdir, "/d"),
            (PermissionError, errno.EPERM, volume.unlink, "/d"),
            (OSError, errno.EINVAL, volume.mkdir, "/d//e"),
            (OSError, errno.EINVAL, volume.mkdir, "/d/"),
            (OSError, errno.EINVAL, volume.mkdir, "d"),
            (OSError, errno.EINVAL, volume.mkdir, "/a\0b"),
            (OSError, errno.ENAMETOOLONG, volume.mkdir, "/" + 256 * "n"),
            (OSError, errno.EFBIG, volume.truncate, "/d/f", (1 << 40) + 1),
            (FileNotFoundError, errno.ENOENT, volume.utime, "/x"),
            (NotADirectoryError, errno.ENOTDIR, volume.utime, "/d/f/x"),
            (FileNotFoundError, errno.ENOENT, volume.copy_range, "/x", 0, "/d", 0, 1),
            (IsADirectoryError, errno.EISDIR, volume.copy_range, "/d/f", 0, "/d", 0, 1),
            (OSError, errno.EINVAL, volume.copy_range, "/d/f", -1, "/d/f", 0, 1),
            (OSError, errno.EBUSY, volume.rmdir, "/"),
            (OSError, errno.EBUSY, volume.rmtree, "/"),
            (FileNotFoundError, errno.ENOENT, volume.restore, "none"),
            (FileNotFoundError, errno.ENOENT, volume.drop_snapshot, "none"),
            (FileNotFoundError, errno.ENOENT, volume.open_snapshot, "none"),
            (OSError, errno.EINVAL, volume.snapshot, "a/b"),
        ]:
            with self.subTest(call=call.__name__, words=words):
                self.assertEqual(refused(self, kind, number, call, *words).filename, words[0])

    def test_the_text_says_what_is_wrong_with_a_path(self):
        long = "/" + "/".join(["n" * 100] * 11)
        volume = self.volume
        for text, number, call, *words in [
            ("the path is empty", errno.ENOENT, volume.stat, ""),
            ("a path begins with '/'", errno.EINVAL, volume.read, "d/f"),
            ("a path begins with '/'", errno.EINVAL, volume.read, b"./f"),
            ("a path does not end with '/'", errno.EINVAL, volume.mkdir, "/d/"),
            ("a path has no empty name", errno.EINVAL, volume.exists, "/d//e"),
            ("a path has no name '.'", errno.EINVAL, volume.listdir, "/d/./f"),
            ("a path has no name '..'", errno.EINVAL, volume.listdir, "/d/.."),
            ("a path has no null byte", errno.EINVAL, volume.mkdir, "/a\0b"),
            ("a name has at most 255 bytes", errno.ENAMETOOLONG, volume.mkdir, "/d/" + 128 * "ö"),
            ("a path has at most 1023 bytes", errno.ENAMETOOLONG, volume.mkdir, long),
            ("the root is neither removed nor moved", errno.EBUSY, volume.rmtree, "/"),
            ("an offset or a size is not negative", errno.EINVAL, volume.truncate, "/d/f", -1),
            ("a snapshot's name has 1 to 64 letters, digits, '.', '_' and '-'", errno.EINVAL, volume.snapshot, "/d"),
            ("no such snapshot", errno.ENOENT, volume.restore, "none"),
            ("no such snapshot", errno.ENOENT, volume.open_snapshot, "none"),
            ("no such snapshot", errno.ENOENT, volume.delta, "none"),
        ]:
            with self.subTest(text=text), self.assertRaises(OSError) as caught:
                call(*words)
            error = caught.exception
            self.assertEqual((error.errno, error.strerror, error.filename), (number, text, words[0]))
            self.assertEqual(str(error), f"[Errno {number}] {text}: {words[0]!r}")

    def test_the_text_says_which_path_of_two_is_wrong(self):
        deep = "/" + "/".join(["n" * 200] * 5)
        self.volume.makedirs(deep)
        self.volume.makedirs("/d/" + "m" * 200)
        for text, number, old, new in [
            ("a path has no name '..'", errno.EINVAL, "/d/..", "/e"), ("a path begins with '/'", errno.EINVAL, "/d/f", "e"),
            ("a directory is not moved below itself", errno.EINVAL, "/d", "/d/e"),
            ("a name has at most 255 bytes", errno.ENAMETOOLONG, "/d/f", "/" + 256 * "n"),
            ("a path below the new one would have more than 1023 bytes", errno.ENAMETOOLONG, "/d", deep + "/x"),
        ]:
            with self.subTest(text=text), self.assertRaises(OSError) as caught:
                self.volume.rename(old, new)
            error = caught.exception
            self.assertEqual((error.errno, error.strerror, error.filename, error.filename2), (number, text, old, new))

    def test_a_rename_tells_both_paths(self):
        for kind, number, old, new in [
            (FileNotFoundError, errno.ENOENT, "/x", "/y"),
            (OSError, errno.EINVAL, "/d", "/d/e"),
            (IsADirectoryError, errno.EISDIR, "/d/f", "/d"),
            (OSError, errno.EBUSY, "/", "/r"),
        ]:
            error = refused(self, kind, number, self.volume.rename, old, new)
            self.assertEqual((error.filename, error.filename2), (old, new))

    def test_the_path_is_reported_as_it_was_given(self):
        self.assertEqual(refused(self, FileNotFoundError, errno.ENOENT, self.volume.stat, b"/x").filename, b"/x")
        path = pathlib.PurePosixPath("/x")
        self.assertEqual(refused(self, FileNotFoundError, errno.ENOENT, self.volume.stat, path).filename, "/x")
        self.volume.snapshot("s")
        error = refused(self, FileNotFoundError, errno.ENOENT, self.volume.delta, "s", b"none")
        self.assertEqual((error.filename, error.filename2), ("s", b"none"))

    def test_numbers_that_C_cannot_take(self):
        for call, *words in [
            (self.volume.read, "/d/f", 1, -1),
            (self.volume.write, "/d/f", b"x", -1),
            (self.volume.truncate, "/d/f", -1),
        ]:
            refused(self, OSError, errno.EINVAL, call, *words)
        for offset in [1 << 40, 1 << 63, 1 << 64, 1 << 80]:
            refused(self, OSError, errno.EFBIG, self.volume.write, "/d/f", b"x", offset)
            refused(self, OSError, errno.EFBIG, self.volume.truncate, "/d/f", offset + 1)
            self.assertEqual(self.volume.read("/d/f", 9, offset), b"")
            self.assertEqual(self.volume.write("/d/f", b"", offset), 0)
        for at in [-1, 1 << 64]:
            with self.assertRaises(ValueError):
                self.volume.mkdir("/e", at=at)
        self.assertEqual(self.volume.listdir("/"), ["d"])

    def test_what_is_no_path_and_no_bytes(self):
        for path in [None, 7, object()]:
            with self.assertRaises(TypeError):
                self.volume.stat(path)
        for data in ["text", 7, None]:
            with self.assertRaises(TypeError):
                self.volume.write("/d/f", data)

    def test_a_closed_volume_refuses_each_call(self):
        tree = self.volume.freeze()
        self.volume.snapshot("s")
        file = self.volume.open("/d/f", "rb", buffering=0)
        self.volume.close()
        self.volume.close()
        self.assertTrue(self.volume.closed)
        volume = self.volume
        for call, *words in [
            (volume.mkdir, "/e"), (volume.create, "/e"), (volume.unlink, "/d/f"), (volume.rmdir, "/d"),
            (volume.rmtree, "/d"), (volume.rename, "/d", "/e"), (volume.truncate, "/d/f", 1), (volume.utime, "/d"),
            (volume.copy_range, "/d/f", 0, "/d/f", 0, 1), (volume.write, "/d/f", b"x"), (volume.write_bytes, "/d/f", b"x"), (volume.read, "/d/f"),
            (volume.stat, "/d"), (volume.listdir, "/"), (volume.snapshot, "t"), (volume.drop_snapshot, "s"),
            (volume.restore, "s"), (volume.restore, tree), (volume.freeze,), (volume.fork,), (volume.open_snapshot, "s"), (volume.image,),
            (volume.compact, 1), (volume.begin,), (volume.commit,), (volume.rollback,),
            (volume.makedirs, "/e/f"), (volume.open, "/d/f"), (file.read, 1), (file.readall,),
        ]:
            with self.subTest(call=call.__name__):
                refused(self, OSError, errno.EBADF, call, *words)
        self.assertEqual(tree.listdir("/d"), ["f"])
        tree.close()
        for call, *words in [(tree.read, "/d/f"), (tree.stat, "/d"), (tree.listdir, "/"), (tree.image,), (tree.fork,), (Volume().restore, tree)]:
            refused(self, OSError, errno.EBADF, call, *words)

    def test_shapes(self):
        for shape in [(4, 4, 4), doorvervain.USUAL, doorvervain.LARGE]:
            Volume(shape=shape).close()
        for shape in [(1, 256, 64), (16, 8, 64), (16, 256, 3), (65, 256, 64), (1 << 16, 256, 64), (-1, 256, 64)]:
            refused(self, OSError, errno.EINVAL, Volume, shape=shape)


class Files(unittest.TestCase):
    def setUp(self):
        self.volume = Volume()

    def test_paths_of_three_types(self):
        self.volume.mkdir("/söm")
        self.volume.create("/söm/ö".encode())
        self.volume.create(pathlib.PurePosixPath("/söm/p"))
        self.assertEqual(self.volume.listdir(b"/s\xc3\xb6m"), ["p", "ö"])

    def test_names_that_are_no_text(self):
        self.volume.create(b"/\xff")
        (name,) = self.volume.listdir()
        self.assertEqual(os.fsencode(name), b"\xff")
        self.assertTrue(self.volume.is_file("/" + name))

    def test_reads_of_all_lengths(self):
        data = bytes(i * i >> 8 & 0xFF for i in range(3 << 20))
        edges = [(1 << bits) + more for bits in (12, 14, 15) for more in (-1, 0, 1)]
        for length in [0, 1, *edges, 1 << 20, (1 << 20) + 1, 3 << 20]:
            with self.subTest(length=length):
                self.volume.write_bytes("/f", data[:length])
                self.assertEqual(self.volume.stat("/f").size, length)
                for size in [-1, 0, 1, length - 1, length, length + 1, *edges, (1 << 20) + 7]:
                    for offset in [0, 1, 4096, length - 1, length, length + 1]:
                        if offset >= 0:
                            end = length if size < 0 else offset + size
                            got = self.volume.read("/f", size, offset)
                            self.assertTrue(got == data[offset : min(end, length)], (size, offset, len(got)))

    def test_bytes_of_all_types(self):
        words = array.array("H", [1, 2, 3])
        for data in [b"abc", bytearray(b"abc"), memoryview(b"abc"), memoryview(b"xaxbxc")[1::2], words]:
            self.assertEqual(self.volume.write_bytes("/f", data), len(bytes(data)))
            self.assertEqual(self.volume.read("/f"), bytes(data))

    def test_gaps_are_zeros(self):
        self.volume.create("/f")
        self.assertEqual(self.volume.write("/f", b"end", 10_000), 3)
        self.volume.write("/f", b"front")
        self.assertEqual(self.volume.read("/f"), b"front" + bytes(9_995) + b"end")
        self.volume.truncate("/f", 3)
        self.volume.truncate("/f", 6)
        self.assertEqual(self.volume.read("/f"), b"fro\0\0\0")

    def test_moments(self):
        moments = iter(range(100, 200))
        volume = Volume(clock=lambda: next(moments))
        volume.mkdir("/d")
        volume.create("/d/f", at=3)
        self.assertEqual(volume.stat("/d"), (True, 0, 3))
        volume.write("/d/f", b"xy")
        self.assertEqual(volume.stat("/d/f"), (False, 2, 101))
        self.assertTrue(volume.stat("/d/f").is_file)
        volume.write("/d/f", b"", at=(1 << 64) - 1)
        self.assertEqual(volume.stat("/d/f").modified, 101)
        volume.truncate("/d/f", 2, at=(1 << 64) - 1)
        self.assertEqual(volume.stat("/d/f").modified, (1 << 64) - 1)
        before = volume.read("/d/f"), volume.listdir("/d")
        for path, at in [("/d/f", 0), ("/d", 7), ("/", (1 << 64) - 1)]:
            volume.utime(path, at=at)
            self.assertEqual(volume.stat(path).modified, at)
        volume.utime("/d")
        self.assertEqual([volume.stat(path).modified for path in ["/d/f", "/d", "/"]], [0, 102, (1 << 64) - 1])
        self.assertEqual((volume.read("/d/f"), volume.listdir("/d")), before)

    def test_a_copied_range_is_a_write_of_what_was_read(self):
        volume, rng = self.volume, random.Random(7)
        for name in "ab":
            volume.write_bytes("/" + name, rng.randbytes(5 * 4096 + 100))
        for step in range(200):
            src, dst = ("/" + rng.choice("ab") for _ in range(2))
            offset, target = (rng.choice([4096 * rng.randrange(9), rng.randrange(30_000)]) for _ in range(2))
            count = rng.choice([4096 * rng.randrange(6), rng.randrange(30_000), 1 << 63])
            with volume.fork() as other:
                data = other.read(src, count, offset)
                other.write(dst, data, target, at=step)
                self.assertEqual(volume.copy_range(src, offset, dst, target, count, at=step), len(data))
                self.assertEqual(volume.image(), other.image())

    def test_a_long_listing(self):
        names = sorted(f"name-{i:05}" + "x" * (i % 90) for i in range(5_000))
        self.volume.mkdir("/d")
        for name in reversed(names):
            self.volume.create("/d/" + name)
        self.volume.mkdir("/d/a")
        self.assertEqual(self.volume.listdir("/d"), ["a"] + names)
        self.assertEqual([entry.name for entry in self.volume.scandir("/d") if entry.is_dir], ["a"])
        self.assertEqual([entry.name for entry in self.volume.scandir("/d") if entry.is_dir()], ["a"])
        self.volume.rmtree("/d")
        self.assertEqual(self.volume.listdir(), [])

    def test_makedirs(self):
        self.volume.makedirs("/a/b/c")
        self.volume.makedirs("/a/b/c", exist_ok=True)
        refused(self, FileExistsError, errno.EEXIST, self.volume.makedirs, "/a/b/c")
        self.volume.create("/a/f")
        refused(self, FileExistsError, errno.EEXIST, self.volume.makedirs, "/a/f", exist_ok=True)
        refused(self, NotADirectoryError, errno.ENOTDIR, self.volume.makedirs, "/a/f/x/y")

    def test_walks(self):
        for path in ["/b/x", "/a/y", "/a-"]:
            self.volume.makedirs(path)
        self.volume.create("/b/f")
        self.assertEqual([path for path, _, _ in self.volume.walk()], ["/", "/a", "/a/y", "/a-", "/b", "/b/x"])
        self.assertEqual(list(self.volume.walk("/b")), [("/b", ["x"], ["f"]), ("/b/x", [], [])])
        seen = []
        for path, folders, _ in self.volume.walk():
            seen.append(path)
            if "a" in folders:
                folders.remove("a")
        self.assertEqual(seen, ["/", "/a-", "/b", "/b/x"])
        deep = "/e" * 511
        self.volume.makedirs(deep)
        self.assertEqual(sum(1 for _ in self.volume.walk("/e")), 511)


    def test_entries_are_as_those_of_os_and_as_tuples(self):
        self.volume.mkdir("/d")
        self.volume.create("/f")
        folder, file = self.volume.scandir()
        self.assertEqual((folder.is_dir(), folder.is_file(), file.is_dir(), file.is_file()), (True, False, False, True))
        for entry in [folder, file]:
            self.assertIs(type(entry.is_dir()), bool)
            self.assertEqual((entry.is_symlink(), bool(entry.is_dir)), (False, entry.is_dir()))
            self.assertEqual(pickle.loads(pickle.dumps(entry)), entry)
        name, is_dir = folder
        self.assertEqual((name, is_dir, folder, repr(folder)), ("d", True, ("d", True), "Entry(name='d', is_dir=True)"))

    def test_a_stat_has_what_that_of_os_has(self):
        self.volume.write_bytes("/f", b"abc", at=1_500_000_000)
        reported, folder = self.volume.stat("/f"), self.volume.stat("/")
        self.assertEqual((reported.st_size, reported.st_mtime, reported.st_mtime_ns), (3, 1.5, 1_500_000_000))
        self.assertTrue(stat.S_ISREG(reported.st_mode) and stat.S_ISDIR(folder.st_mode))


class Snapshots(unittest.TestCase):
    def test_names_in_order(self):
        volume = Volume()
        for name in ["b", b"a", "_", "B", "a.1", "a-1"]:
            volume.snapshot(name)
        self.assertEqual(volume.snapshots(), ["B", "_", "a", "a-1", "a.1", "b"])
        refused(self, FileExistsError, errno.EEXIST, volume.snapshot, "a")
        volume.drop_snapshot("a")
        self.assertNotIn("a", volume.snapshots())
        refused(self, FileNotFoundError, errno.ENOENT, volume.drop_snapshot, "a")
        for number in range(64 - 5):
            volume.snapshot(f"n{number}")
        error = refused(self, OSError, errno.ENOSPC, volume.snapshot, "more")
        self.assertEqual(error.strerror, "a volume has at most 64 named snapshots; frozen trees and forks have no such limit")
        self.assertEqual(len(volume.snapshots()), 64)

    def test_a_snapshot_stands_still(self):
        volume = Volume()
        volume.write_bytes("/f", b"one")
        volume.snapshot("one")
        volume.write_bytes("/f", b"two")
        with volume.open_snapshot("one") as tree:
            self.assertEqual(tree.read("/f"), b"one")
            volume.drop_snapshot("one")
            volume.rmtree("/f")
            self.assertEqual(tree.read("/f", 2, 1), b"ne")
            self.assertEqual(list(tree.walk()), [("/", [], ["f"])])
            self.assertEqual(tree.open("/f").read(), "one")
            refused(self, OSError, errno.EROFS, tree.open, "/f", "w")
        self.assertTrue(tree.closed)

    def test_restore(self):
        volume = Volume(shape=(4, 4, 4))
        for name in "abc":
            volume.create("/" + name)
            volume.snapshot(name)
        for name, names in [("a", ["a"]), ("c", ["a", "b", "c"]), ("b", ["a", "b"])]:
            volume.restore(name)
            self.assertEqual(volume.listdir(), names)
            volume.create("/z")

    def test_a_fork_is_a_volume_of_its_own(self):
        volume = Volume(clock=lambda: 7)
        volume.create("/a")
        volume.snapshot("s")
        tree = volume.freeze()
        fork, other = volume.fork(), tree.fork(clock=lambda: 9)
        fork.create("/b")
        other.create("/c")
        volume.unlink("/a")
        self.assertEqual([it.listdir() for it in (volume, fork, other, tree)], [[], ["a", "b"], ["a", "c"], ["a"]])
        self.assertEqual([it.snapshots() for it in (volume, fork, other)], [["s"], [], []])
        self.assertEqual([it.stat("/").modified for it in (volume, fork, other)], [7, 7, 9])
        volume.close()
        tree.close()
        self.assertEqual([it.fork().listdir() for it in (fork, other)], [["a", "b"], ["a", "c"]])

    def test_a_frozen_tree_is_restored(self):
        volume, other = Volume(clock=lambda: 0), Volume(shape=(4, 4, 4), clock=lambda: 0)
        volume.create("/mine")
        volume.snapshot("s")
        for number in range(300):
            other.create(f"/f{number}")
        for of in [other, volume]:
            with of.freeze() as tree:
                image = tree.image()
                of.create("/more")
                volume.create("/z")
                volume.restore(tree)
                self.assertEqual((volume.image(), tree.image()), (image, image))
                self.assertEqual((volume._shape, volume.fork()._shape), (of._shape, of._shape))
        self.assertEqual((volume.snapshots(), other.exists("/more")), (["s"], True))
        volume.restore("s")
        self.assertEqual(volume.listdir(), ["mine"])

    def test_each_snapshot_has_its_shape(self):
        small, usual = (4, 4, 4), doorvervain.USUAL
        volume, tree = Volume(shape=small), Volume().freeze()
        volume.snapshot("small")
        volume.restore(tree)
        volume.snapshot("usual")
        self.assertEqual([volume.open_snapshot(name)._shape for name in ("small", "usual")], [small, usual])
        for name, shape in [("small", small), ("usual", usual), ("small", small)]:
            volume.restore(name)
            self.assertEqual((volume._shape, volume.freeze()._shape, volume.fork()._shape), (shape,) * 3)
            refused(self, FileNotFoundError, errno.ENOENT, volume.restore, "none")
            refused(self, FileExistsError, errno.EEXIST, volume.snapshot, "usual")
        volume.drop_snapshot("small")
        for number in range(63):
            volume.snapshot(f"s{number}")
        refused(self, OSError, errno.ENOSPC, volume.snapshot, "more")
        volume.restore("usual")
        volume.drop_snapshot("s0")
        volume.snapshot("small")
        volume.restore("s62")
        self.assertEqual((volume._shape, volume.open_snapshot("small")._shape), (small, usual))
        volume.apply_delta(volume.delta("s1"))
        volume.snapshot("usual")
        self.assertEqual((volume._shape, volume.open_snapshot("usual")._shape), (small, small))

    def test_images(self):
        volume = Volume(clock=lambda: 9)
        volume.makedirs("/a/ b")
        volume.write_bytes("/a/f", bytes(4096) + b"x")
        text = volume.image()
        self.assertEqual(text, b"D / 9\nD /a 9\nD /a/%20b 9\nF /a/f 4097 9\nb 1 78\n")
        for given in [text, text.decode(), bytearray(text)]:
            with Volume.load(given, shape=(4, 4, 4)) as other:
                self.assertEqual(other.image(), text)
                self.assertEqual(other.snapshots(), [])
        wide = Volume(clock=lambda: 0)
        wide.write_bytes("/f", b"x" * 200_000)
        self.assertEqual(Volume.load(wide.image()).read("/f"), b"x" * 200_000)
        with self.assertRaises(BadImage) as caught:
            Volume.load("D / 5\nD /b 1\nD /a 1\n")
        self.assertEqual((caught.exception.line, caught.exception.errno), (3, errno.EINVAL))
        error = refused(self, OSError, errno.EINVAL, Volume.load, "D / 5\n", shape=(0, 0, 0))
        self.assertNotIsInstance(error, BadImage)

    def test_changed_paths(self):
        volume = Volume(clock=lambda: 9)
        volume.mkdir("/d")
        volume.write_bytes("/d/x", b"abc")
        volume.snapshot("before")
        self.assertEqual(volume.changed_paths("before"), [])
        volume.write_bytes("/d/x", b"abd")
        volume.create(b"/\xff")
        volume.snapshot("after")
        self.assertEqual(volume.changed_paths("before"), ["/d/x", "/\udcff"])
        self.assertEqual(volume.changed_paths("", new="before"), ["/d/x", "/\udcff"])
        names = [f"/d/name {number:04}" for number in range(500)]
        for name in names:
            volume.create(name)
        self.assertEqual(volume.changed_paths(old="after"), names)
        self.assertEqual(volume.changed_paths("before", "after"), ["/d/x", "/\udcff"])
        refused(self, FileNotFoundError, errno.ENOENT, volume.changed_paths, "none")
        refused(self, OSError, errno.EINVAL, volume.changed_paths, "a/b")

    def test_delta(self):
        volume = Volume(clock=lambda: 9)
        volume.snapshot("empty")
        for number in range(300):
            volume.write_bytes(f"/f{number}", b"x" * 5_000)
        whole = volume.delta("empty")
        self.assertGreater(len(whole), 1 << 20)
        far = Volume(clock=lambda: 0)
        far.snapshot("gone")
        far.apply_delta(whole)
        self.assertEqual((far.image(), far.snapshots()), (volume.image(), []))
        volume.snapshot("full")
        self.assertEqual(volume.delta("empty", "full"), volume.delta("empty", ""))
        far.apply_delta(volume.delta(new="empty", old="full"))
        self.assertEqual(far.listdir(), [])

    def test_bad_deltas(self):
        volume = Volume.load("D / 5\n")
        volume.snapshot("kept")
        first, other = volume.delta("kept"), Volume(clock=lambda: 0).delta("")
        for text, line in [(b"", 1), (first.replace(b"=", b"*"), 2), (first.replace(b"=", b"-"), 0)]:
            with self.assertRaises(BadDelta) as caught:
                volume.apply_delta(text)
            self.assertEqual((caught.exception.line, caught.exception.errno), (line, errno.EINVAL))
        refused(self, FileNotFoundError, errno.ENOENT, volume.apply_delta, other)
        refused(self, FileNotFoundError, errno.ENOENT, volume.delta, "none")
        refused(self, OSError, errno.EINVAL, volume.delta, "kept", "a/b")
        self.assertRaises(TypeError, volume.apply_delta, "text")
        self.assertEqual((volume.image(), volume.snapshots()), (b"D / 5\n", ["kept"]))
        volume.close()
        refused(self, OSError, errno.EBADF, volume.apply_delta, first)
        refused(self, OSError, errno.EBADF, volume.delta, "kept")

    def test_edits(self):
        volume = Volume(shape=(4, 4, 4), clock=lambda: 9)
        volume.mkdir("/d")
        volume.write_bytes("/d/x", b"abc")
        volume.create("/e")
        volume.snapshot("before")
        self.assertEqual((volume.edits(), volume.edits("before")), (b"delta 2\nend\n",) * 2)
        volume.write_bytes("/d/x", b"abd")
        volume.unlink("/e")
        volume.create(b"/\xff")
        for number in range(300):
            volume.write_bytes(f"/f{number}", bytes(4_000) + b"x" * 1_000)
        forth, back = volume.edits("before"), volume.edits(new="before")
        self.assertGreater(len(forth), 1 << 19)
        self.assertEqual(volume.edits("before", ""), forth)
        far = volume.fork()
        far.apply_edits(back)
        self.assertEqual((far.exists("/e"), far.exists(b"/\xff"), far.read_bytes("/d/x")), (True, False, b"abc"))
        far.snapshot("kept")
        far.apply_edits(forth)
        self.assertEqual((far.image(), far.snapshots()), (volume.image(), ["kept"]))
        self.assertEqual(far.edits("kept"), forth)

    def test_bad_edits(self):
        volume = Volume.load("D / 5\nF /x 1 7\nb 0 61\n")
        before = volume.image()
        for text, line in [(b"", 1), (b"delta 1\nend\n", 1), (b"delta 2\n* /x\nend\n", 2), (b"delta 2\nend\nend\n", 3)]:
            with self.assertRaises(BadDelta) as caught:
                volume.apply_edits(text)
            self.assertEqual((caught.exception.line, caught.exception.errno), (line, errno.EINVAL))
        error = refused(self, FileNotFoundError, errno.ENOENT, volume.apply_edits, b"delta 2\n- F /x 1 7\n- F /x 1 7\nend\n")
        self.assertIn("line 3", str(error))
        refused(self, FileNotFoundError, errno.ENOENT, volume.edits, "none")
        refused(self, FileNotFoundError, errno.ENOENT, volume.edits, new="none")
        refused(self, OSError, errno.EINVAL, volume.edits, "", "a/b")
        self.assertRaises(TypeError, volume.apply_edits, "text")
        self.assertEqual(volume.image(), before)
        with volume.transaction():
            refused(self, OSError, errno.EBUSY, volume.apply_edits, b"delta 2\nend\n")
        volume.close()
        refused(self, OSError, errno.EBADF, volume.apply_edits, b"delta 2\nend\n")
        refused(self, OSError, errno.EBADF, volume.edits)

    def test_relief_changes_no_answer(self):
        volume = Volume(shape=(4, 4, 4), clock=lambda: 0)
        for number in range(500):
            volume.create(f"/f{number}")
        before = volume.image()
        while volume.compact(50) == 50:
            self.assertEqual(volume.image(), before)
        self.assertEqual(volume.compact(1), 0)
        volume.create("/more")
        before = volume.image()
        self.assertGreater(volume.compact(), 0)
        self.assertEqual((volume.compact(None), volume.compact(-1), volume.compact(1 << 80)), (0, 0, 0))
        self.assertEqual(volume.image(), before)


    def test_a_signal_ends_a_compaction(self):
        volume = Volume(clock=lambda: 0)
        for number in range(100_000):
            volume.create(f"/f{number}")

        def interrupt(number, frame):
            raise InterruptedError

        before = signal.signal(signal.SIGALRM, interrupt)
        try:
            with self.assertRaises(InterruptedError):
                signal.setitimer(signal.ITIMER_REAL, 0.001)
                volume.compact()
                time.sleep(1)
        finally:
            signal.signal(signal.SIGALRM, before)
        self.assertGreater(volume.compact(), 0)


class Transactions(unittest.TestCase):
    def setUp(self):
        self.volume = Volume(clock=iter(range(1, 1 << 30)).__next__)
        self.volume.makedirs("/d/sub")
        self.volume.write_bytes("/d/f", b"some rain")
        self.volume.snapshot("s")

    def change(self):
        self.volume.rename("/d", "/e")
        self.volume.rmtree("/e/sub")
        self.volume.truncate("/e/f", 4)
        self.volume.write("/e/f", b"sun", 9000)
        self.volume.utime("/")

    def test_a_commit_keeps_and_a_rollback_undoes(self):
        before = self.volume.image()
        self.volume.begin()
        self.change()
        self.assertEqual((self.volume.rollback(), self.volume.image()), (None, before))
        self.volume.begin()
        self.change()
        after = self.volume.image()
        self.assertEqual((self.volume.commit(), self.volume.image()), (None, after))
        self.assertNotEqual(after, before)
        self.volume.restore("s")
        self.assertEqual(self.volume.image(), before)

    def test_what_is_refused_meanwhile(self):
        volume, delta, before = self.volume, self.volume.delta("s"), self.volume.image()
        tree = volume.freeze()
        with volume.transaction():
            for call, *words in [
                (volume.begin,), (volume.snapshot, "t"), (volume.snapshot, "s"), (volume.drop_snapshot, "s"), (volume.restore, "s"),
                (volume.restore, tree), (volume.apply_delta, delta),
            ]:
                with self.subTest(call=call.__name__):
                    self.assertEqual(refused(self, OSError, errno.EBUSY, call, *words).strerror, "a transaction is open")
            self.assertEqual(refused(self, OSError, errno.EBUSY, volume.rmtree, "/").strerror, "the root is neither removed nor moved")
            self.assertEqual((volume.compact(), volume.snapshots(), volume.image()), (0, ["s"], before))
        for call, *words in [(volume.snapshot, "t"), (volume.drop_snapshot, "t"), (volume.restore, tree), (volume.restore, "s")]:
            call(*words)
        self.assertGreater(volume.compact(), 0)
        volume.apply_delta(delta)

    def test_an_end_without_a_begin(self):
        for end in [self.volume.commit, self.volume.rollback]:
            self.assertEqual(refused(self, OSError, errno.EINVAL, end).strerror, "no transaction is open")
            self.volume.begin()
            end()
            refused(self, OSError, errno.EINVAL, end)
        self.assertRaises(TypeError, self.volume.begin, 1)

    def test_a_block_is_committed_at_its_end(self):
        with self.volume.transaction() as given:
            self.assertIsNone(given)
            self.volume.remove("/d/f")
        self.assertFalse(self.volume.exists("/d/f"))
        refused(self, OSError, errno.EINVAL, self.volume.commit)

    def test_a_block_that_an_exception_leaves_is_rolled_back(self):
        before = self.volume.image()
        for error in [ValueError("x"), KeyboardInterrupt(), GeneratorExit(), StopIteration()]:
            with self.assertRaises(type(error)) as caught:
                with self.volume.transaction():
                    self.change()
                    raise error
            self.assertIs(caught.exception, error)
            self.assertEqual(self.volume.image(), before)
            refused(self, OSError, errno.EINVAL, self.volume.rollback)

    def test_a_second_one_leaves_the_first_open(self):
        with self.volume.transaction():
            self.volume.create("/x")
            with self.assertRaises(OSError) as caught:
                with self.volume.transaction():
                    self.fail("a second transaction began")
            self.assertEqual(caught.exception.errno, errno.EBUSY)
            self.assertTrue(self.volume.exists("/x"))
            self.volume.create("/y")
        self.assertEqual(self.volume.listdir(), ["d", "x", "y"])

    def test_what_is_made_of_a_volume_with_an_open_one(self):
        self.volume.begin()
        self.volume.create("/x")
        tree, copies = self.volume.freeze(), [self.volume.fork(), copy.copy(self.volume), Volume.load(self.volume.image())]
        self.volume.rollback()
        for it in copies:
            self.assertTrue(it.exists("/x"))
            refused(self, OSError, errno.EINVAL, it.rollback)
        self.assertEqual((tree.exists("/x"), self.volume.exists("/x")), (True, False))
        self.volume.begin()
        self.volume.close()
        refused(self, OSError, errno.EBADF, self.volume.rollback)

    def test_changes_of_other_threads_belong_to_it(self):
        before = self.volume.image()
        self.volume.begin()
        other = threading.Thread(target=self.change)
        other.start()
        other.join()
        self.assertEqual(self.volume.listdir(), ["e"])
        self.volume.rollback()
        self.assertEqual(self.volume.image(), before)

    def test_random_transactions(self):
        draw, volume, kept, is_open = random.Random(7), Volume(shape=(4, 4, 4)), {}, False
        model = {}
        for turn in range(20_000):
            name, kind = f"/f{draw.randrange(50)}", draw.random()
            if kind < 0.02:
                if is_open:
                    refused(self, OSError, errno.EBUSY, volume.begin)
                else:
                    volume.begin()
                    kept, is_open = dict(model), True
            elif kind < 0.05 and is_open:
                if draw.random() < 0.5:
                    volume.commit()
                else:
                    volume.rollback()
                    model = kept
                is_open = False
                self.assertEqual({name: volume.read(name) for name in volume.glob("/*")}, model)
            elif kind < 0.1:
                volume.compact(5)
            elif kind < 0.5 and name in model:
                volume.unlink(name, at=turn)
                del model[name]
            else:
                model[name] = b"%d" % turn
                volume.write_bytes(name, model[name], at=turn)


class Words(unittest.TestCase):
    """How calls take their words."""

    def setUp(self):
        self.volume = Volume()

    def test_words_by_name(self):
        volume = self.volume
        volume.mkdir(path="/d", at=3)
        self.assertEqual(volume.write_bytes(data=b"abcdef", path="/d/f", at=None), 6)
        self.assertEqual(volume.write("/d/f", offset=2, data=b"X"), 1)
        self.assertEqual(volume.read("/d/f", offset=1, size=3), b"bXd")
        volume.truncate("/d/f", size=2)
        volume.rename(new="/d/g", old="/d/f")
        self.assertEqual(volume.copy_range(src="/d/g", offset=0, dst="/d/g", target=2, count=9), 2)
        self.assertEqual(volume.listdir(path="/d"), ["g"])
        self.assertEqual(volume.scandir("/"), [("d", True)])

    def test_words_that_do_not_fit(self):
        volume = self.volume
        for call, words, named in [
            (volume.mkdir, (), {}), (volume.mkdir, ("/d", 7), {}), (volume.mkdir, ("/d",), {"when": 7}),
            (volume.mkdir, ("/d",), {"path": "/e"}), (volume.write, ("/d",), {"offset": 7}), (volume.stat, (), {}),
            (volume.read, ("/d", 1.5), {}), (volume.read, ("/d", 1, "0"), {}), (volume.mkdir, ("/d",), {"at": "7"}),
            (volume.listdir, ("/", 1), {}), (volume.snapshot, (7,), {}), (volume.compact, ("all",), {}),
            (doorvervain.Frozen, ("/",), {}), (Volume, (), {"shape": 7}), (Volume, ((16, 256, 256),), {}),
        ]:
            with self.subTest(call=call.__name__, words=words, named=named), self.assertRaises(TypeError):
                call(*words, **named)
        self.assertEqual((volume.listdir(), volume.snapshots()), ([], []))

    def test_a_clock_that_tells_no_moment(self):
        for clock, fault in [(lambda: -1, ValueError), (lambda: "noon", TypeError), (lambda: 1 // 0, ZeroDivisionError)]:
            with self.assertRaises(fault):
                Volume(clock=clock).create("/x")
        for call in [lambda: Volume(clock=lambda: 1.5).create("/x"), lambda: Volume().create("/x", at=1.5)]:
            with self.assertRaisesRegex(TypeError, "a timestamp is a whole number, as time.time_ns.* and not 1.5"):
                call()

    def test_a_volume_begins_once(self):
        with self.assertRaises(RuntimeError):
            self.volume.__init__()
        never = Volume.__new__(Volume)
        self.assertTrue(never.closed)
        never.close()
        for call, *words in [(never.listdir,), (never.mkdir, "/d"), (never.write, "/f", b"x"), (never.freeze,), (never.compact,)]:
            refused(self, OSError, errno.EBADF, call, *words)

    def test_a_volume_that_its_clock_holds_goes(self):
        volume = Volume(clock=lambda: len(volume.listdir()))
        volume.create("/x")
        gone = weakref.ref(volume)
        tree = volume.freeze()
        del volume
        gc.collect()
        self.assertIsNone(gone())
        self.assertEqual(tree.listdir(), ["x"])


class Threads(unittest.TestCase):
    def test_threads_change_forks(self):
        first, faults = Volume(clock=lambda: 0), []
        for number in range(200):
            first.write_bytes(f"/f{number}", b"x")

        def work(number):
            try:
                with first.fork() as volume:
                    for turn in range(200):
                        volume.write_bytes(f"/f{turn}", b"%d" % number)
                        first.freeze().fork().close()
                    assert {volume.read(f"/f{turn}") for turn in range(200)} == {b"%d" % number}
            except Exception as fault:
                faults.append(fault)

        workers = [threading.Thread(target=work, args=(number,)) for number in range(8)]
        for worker in workers:
            worker.start()
        for worker in workers:
            worker.join()
        self.assertEqual(faults, [])
        self.assertEqual({first.read(f"/f{number}") for number in range(200)}, {b"x"})

    def test_threads_share_a_volume(self):
        volume, faults = Volume(), []

        def work(number):
            try:
                mine = f"/t{number}"
                volume.mkdir(mine)
                for turn in range(200):
                    data = os.urandom(turn * 150)
                    volume.write_bytes(f"{mine}/f", data)
                    with volume.freeze() as tree:
                        if tree.read(f"{mine}/f") != data or volume.read(f"{mine}/f") != data:
                            faults.append((number, turn))
                    volume.write_bytes("/log", b"") if turn == 0 else volume.open("/log", "ab", 0).write(b"x")
            except BaseException as error:
                faults.append((number, error))
                raise

        volume.create("/log")
        crew = [threading.Thread(target=work, args=(number,)) for number in range(8)]
        for thread in crew:
            thread.start()
        for thread in crew:
            thread.join()
        self.assertEqual(faults, [])
        self.assertEqual(len(volume.listdir()), 9)

    def run_all(self, *works):
        """Runs each in a thread of its own, and raises what one of them raises."""
        faults = []

        def runs(work):
            try:
                work()
            except BaseException as fault:
                faults.append(fault)

        crew = [threading.Thread(target=runs, args=(work,)) for work in works]
        for thread in crew:
            thread.start()
        for thread in crew:
            thread.join()
        if faults:
            raise faults[0]

    def goes_on_beside(self, long, short):
        """Whether short calls of one thread end in the middle of a long call of another: on a busy machine not each time."""
        for _ in range(10):
            began, ended, times = [], [], []

            def runs_long():
                began.append(time.perf_counter())
                long()
                ended.append(time.perf_counter())

            def runs_short():
                while not ended:
                    short()
                    times.append(time.perf_counter())

            self.run_all(runs_long, runs_short)
            quarter = (ended[0] - began[0]) / 4
            if sum(began[0] + quarter < at < ended[0] - quarter for at in times) >= 10:
                return True
        return False

    def test_calls_that_only_look_go_on_beside_each_other(self):
        volume = Volume()
        volume.snapshot("empty")
        for number in range(20_000):
            volume.write_bytes(f"/f{number}", b"x" * 100)
        tree = volume.freeze()
        for it, long in [(tree, tree.image), (volume, lambda: volume.delta("empty"))]:
            for short in [
                lambda: it.stat("/f1"), lambda: it.read("/f2"), lambda: it.scandir("/f3") if it.is_dir("/f3") else None,
                lambda: it.fork().close(), lambda: it._next_extent("/f4", 0),
            ]:
                self.assertTrue(self.goes_on_beside(long, short))
        self.assertTrue(self.goes_on_beside(lambda: volume.delta("empty"), lambda: (volume.snapshots(), volume.freeze().close())))
        # what changes the volume does not wait for those that look at a frozen tree
        self.assertTrue(self.goes_on_beside(tree.image, lambda: volume.create("/y") or volume.unlink("/y")))

    def test_a_change_is_never_seen_in_part(self):
        volume, sizes, stops = Volume(), [100, 5_000, 20_000, 100_000], threading.Event()
        volume.write_bytes("/f", b"0" * 100)
        volume.snapshot("s0")

        def changes(number):
            for turn in range(300):
                volume.write_bytes("/f", b"%d" % number * sizes[turn % 4])
                if turn % 10 == 9:
                    volume.restore("s0")
            stops.set()

        def looks():
            while not stops.is_set():
                data = volume.read("/f")
                self.assertIn(len(data), sizes)
                self.assertEqual(data, data[:1] * len(data))
                self.assertEqual(volume.listdir(), ["f"])

        self.run_all(lambda: changes(1), lambda: changes(2), looks, looks, looks)

    def test_a_frozen_tree_is_closed_beside_its_readers(self):
        volume = Volume()
        volume.write_bytes("/f", bytes(300_000))
        for _ in range(20):
            tree, reads = volume.freeze(), []

            def looks():
                with self.assertRaises(OSError) as caught:
                    while True:
                        reads.append(len(tree.read("/f")))
                self.assertEqual(caught.exception.errno, errno.EBADF)

            def closes():
                while len(reads) < 20:
                    time.sleep(0.0001)
                tree.close()

            self.run_all(looks, looks, looks, closes)
            self.assertEqual(set(reads), {300_000})

    def test_the_lock_is_held_by_one_thread(self):
        volume, lock, order = Volume(), Volume()._lock, []
        with self.assertRaises(RuntimeError):
            lock.__exit__(None, None, None)

        def work():
            volume.create("/x")
            order.append("work")

        with volume._lock, volume._lock:
            thread = threading.Thread(target=work)
            thread.start()
            time.sleep(0.05)
            order.append("held")
            self.assertEqual(volume.listdir(), [])
        thread.join()
        self.assertEqual((order, volume.listdir()), (["held", "work"], ["x"]))

    def test_appends_of_threads_lose_nothing(self):
        volume = Volume()

        def work():
            with volume.open("/log", "ab", buffering=0) as file:
                for _ in range(500):
                    file.write(b"line\n")

        crew = [threading.Thread(target=work) for _ in range(4)]
        for thread in crew:
            thread.start()
        for thread in crew:
            thread.join()
        self.assertEqual(volume.read("/log"), b"line\n" * 2_000)

    def test_threads_share_a_file_without_a_buffer(self):
        pieces, volume = 64, Volume()
        volume.write_bytes("/f", b"".join(b"%08d" % number * (1 << 17) for number in range(pieces)))
        for _ in range(5):
            file, read = volume.open("/f", "rb", buffering=0), []

            def work():
                for piece in iter(lambda: file.read(1 << 20), b""):
                    read.append(int(piece[:8]))

            self.run_all(work, work, work, work)
            self.assertEqual(sorted(read), list(range(pieces)))

    def test_threads_begin_to_append_to_the_same_new_file(self):
        interval = sys.getswitchinterval()
        self.addCleanup(sys.setswitchinterval, interval)
        sys.setswitchinterval(1e-6)
        volume, start = Volume(), threading.Barrier(4, timeout=20)

        def work():
            for number in range(500):
                start.wait()
                volume.open(f"/log{number}", "ab", buffering=0).write(b"x")

        self.run_all(work, work, work, work)
        self.assertEqual({volume.read(f"/log{number}") for number in range(500)}, {b"xxxx"})


@unittest.skipUnless(HEADER, "the header is not beside these sources")
class Header(unittest.TestCase):
    def test_the_release_is_that_of_the_header(self):
        self.assertIn(f'#define DOORVERVAIN_VERSION "{doorvervain.__version__}"', HEADER.read_text())
        self.assertEqual(doorvervain._core.RELEASE, doorvervain.__version__)

    def test_the_build_is_reported(self):
        self.assertRegex(doorvervain.__build__, rf"^{re.escape(doorvervain.__version__)}, commit \w+( with changes)?, (un)?proved")


if __name__ == "__main__":
    unittest.main()
