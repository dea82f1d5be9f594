"""Trees of the system that are copied into a volume and out again, beside what `os` tells of them; and copies within a volume."""
import errno
import os
import random
import shutil
import socket
import tempfile
import unittest

from doorvervain import Volume

NAMES = [b"a", b"b", b"cc", b".d", "ö".encode(), b"\xff", b"with space", b"~"]


def state(top):
    """What is below a folder: the kind, the mtime and the bytes of each entry by its path."""
    found = {b"/": ("d", os.stat(top).st_mtime_ns, None)}
    for folder, names, files in os.walk(top):
        for name in names + files:
            path = os.path.join(folder, name)
            reported = os.lstat(path)
            is_dir = os.path.isdir(path)
            with open(os.devnull if is_dir else path, "rb") as file:
                found[path[len(top) :]] = ("d" if is_dir else "f", reported.st_mtime_ns, None if is_dir else file.read())
    return found


def state_of(tree, top="/"):
    """The same of a tree."""
    found = {b"/": ("d", tree.stat(top).modified, None)}
    for folder, names, files in tree.walk(top):
        for name in names + files:
            path = folder.rstrip("/") + "/" + name
            reported = tree.stat(path)
            key = path[len(top.rstrip("/")) :].encode("utf-8", "surrogateescape")
            found[key] = ("d" if reported.is_dir else "f", reported.modified, None if reported.is_dir else tree.read(path))
    return found


class HostTrees(unittest.TestCase):
    def setUp(self):
        self.folder = os.fsencode(tempfile.mkdtemp())
        self.addCleanup(shutil.rmtree, self.folder)
        self.top = os.path.join(self.folder, b"top")
        os.mkdir(self.top)

    def fill(self, seed):
        """Makes a tree in the folder, each entry with a time of its own."""
        rng = random.Random(seed)
        folders = [self.top]
        for _ in range(120):
            path = os.path.join(rng.choice(folders), rng.choice(NAMES))
            if os.path.lexists(path):
                continue
            if rng.random() < 0.4:
                os.mkdir(path)
                folders.append(path)
            else:
                with open(path, "wb") as file:
                    file.write(rng.choice([b"", b"rain", bytes(5_000) + b"x"]))
        for name, data in [(b"large", rng.randbytes((1 << 20) + 7)), (b"zeros", bytes(3 << 20)), (b"both", bytes(1 << 20) + b"x")]:
            with open(os.path.join(folders[-1], name), "wb") as file:
                file.write(data)
        for path in [os.path.join(folder, name) for folder, names, files in os.walk(self.top) for name in names + files]:
            os.utime(path, ns=(0, rng.randrange(1 << 60)))
        os.utime(self.top, ns=(0, 7))

    def test_in_and_out_again(self):
        for seed in range(4):
            with self.subTest(seed=seed):
                self.fill(seed)
                wanted = state(self.top)
                with Volume() as volume:
                    self.assertEqual(volume.import_tree(self.top), [])
                    self.assertEqual(state_of(volume), wanted)
                    self.assertEqual(volume.import_tree(os.fsdecode(self.top), "/in/here"), [])
                    self.assertEqual(state_of(volume, "/in/here"), wanted)
                    for tree in [volume, volume.freeze()]:
                        out = os.path.join(self.folder, b"out")
                        tree.export_tree(out, "/in/here")
                        self.assertEqual(state(out), wanted)
                        shutil.rmtree(out)
                shutil.rmtree(self.top)
                os.mkdir(self.top)

    def test_what_has_no_place(self):
        outside = os.path.join(self.folder, b"outside")
        os.mkdir(outside)
        with open(os.path.join(outside, b"secret"), "wb") as file:
            file.write(b"secret")
        os.mkdir(os.path.join(self.top, b"z"))
        listener = socket.socket(socket.AF_UNIX)
        self.addCleanup(listener.close)
        for name, make in [
            (b"link_to_file", lambda path: os.symlink(os.path.join(outside, b"secret"), path)),
            (b"link_to_folder", lambda path: os.symlink(outside, path)),
            (b"link_to_nothing", lambda path: os.symlink(b"none", path)),
            (b"z/pipe", os.mkfifo),
            (b"z/socket", listener.bind),
        ]:
            path = os.path.join(self.top, name)
            make(path)
            with self.subTest(name=name), Volume(clock=lambda: 1) as volume:
                with self.assertRaises(OSError) as caught:
                    volume.import_tree(self.top, "/in")
                self.assertEqual((caught.exception.errno, caught.exception.filename), (errno.ENOTSUP, os.fsdecode(path)))
                self.assertIn("has no place in a volume", caught.exception.strerror)
                self.assertEqual(volume.listdir(), [])
                self.assertEqual(volume.import_tree(self.top, skip_special=True), [os.fsdecode(path)])
                self.assertEqual([folder for folder, _, _ in volume.walk()], ["/", "/z"])
                self.assertEqual(volume.glob("/**/*"), ["/z"])
            os.unlink(path)

    def test_the_deepest_path(self):
        volume, out = Volume(clock=lambda: 5), os.path.join(self.folder, b"out")
        volume.makedirs("/e" * 511)
        volume.export_tree(out)
        with Volume() as other:
            other.import_tree(out)
            self.assertEqual(other.image(), volume.image())

    def test_the_folder_itself_may_be_a_link(self):
        self.fill(9)
        link = os.path.join(self.folder, b"link")
        os.symlink(self.top, link)
        volume = Volume()
        volume.import_tree(link)
        self.assertEqual(state_of(volume), state(self.top))

    def test_trees_are_merged(self):
        volume = Volume()
        volume.makedirs("/d")
        volume.write_bytes("/d/kept", b"kept")
        volume.write_bytes("/d/f", b"a longer one")
        os.mkdir(os.path.join(self.top, b"d"))
        with open(os.path.join(self.top, b"d/f"), "wb") as file:
            file.write(b"new")
        volume.import_tree(self.top)
        self.assertEqual((volume.read("/d/kept"), volume.read("/d/f")), (b"kept", b"new"))
        volume.rmtree("/d")
        volume.create("/d")
        self.assertRaises(FileExistsError, volume.import_tree, self.top)

    def test_refusals_of_an_import(self):
        volume, file = Volume(), os.path.join(self.top, b"f")
        open(file, "wb").close()
        for host, kind in [(file, NotADirectoryError), (self.top + b"none", FileNotFoundError), (volume.path("/"), TypeError)]:
            self.assertRaises(kind, volume.import_tree, host)
        deep = self.top
        for _ in range(5):
            deep = os.path.join(deep, b"n" * 250)
            os.mkdir(deep)
        with self.assertRaises(OSError) as caught:
            volume.import_tree(self.top)
        self.assertEqual((caught.exception.errno, caught.exception.strerror), (errno.ENAMETOOLONG, "a path has at most 1023 bytes"))

    def test_refusals_of_an_export(self):
        volume = Volume()
        volume.makedirs("/d")
        volume.create("/d/f")
        out = os.path.join(self.folder, b"out")
        for words, kind, number in [
            ((out, "/d/f"), NotADirectoryError, errno.ENOTDIR), ((out, "/none"), FileNotFoundError, errno.ENOENT),
            ((os.path.join(out, b"below"),), FileNotFoundError, errno.ENOENT),
        ]:
            with self.assertRaises(kind) as caught:
                volume.export_tree(*words)
            self.assertEqual(caught.exception.errno, number)
            self.assertFalse(os.path.exists(out))
        os.mkdir(out)
        volume.export_tree(out, "/d")
        self.assertEqual(os.listdir(out), [b"f"])
        with self.assertRaises(OSError) as caught:
            volume.export_tree(out, "/d")
        self.assertEqual((caught.exception.errno, caught.exception.filename), (errno.ENOTEMPTY, out))

    def test_the_path_is_reported_as_text_or_bytes(self):
        volume = Volume()
        for host in [os.path.join(self.folder, b"none/out"), os.fsdecode(self.folder) + "/none/out"]:
            for call in [volume.import_tree, volume.export_tree, volume.freeze().export_tree]:
                with self.assertRaises(FileNotFoundError) as caught:
                    call(host)
                self.assertEqual(caught.exception.filename, host)

    def test_an_import_keeps_no_file_of_its_own(self):
        # The time of a directory is set by a file that comes and goes, whatever is there.
        for name in [b"~", b"~~"]:
            os.mkdir(os.path.join(self.top, name))
        volume = Volume()
        volume.import_tree(self.top)
        self.assertEqual(volume.listdir(), ["~", "~~"])


class Copies(unittest.TestCase):
    def test_copies(self):
        volume = Volume(clock=lambda: 3)
        volume.makedirs("/a/b/c")
        data = random.Random(5).randbytes(5 << 19) + bytes(3 << 20) + b"end"
        volume.write_bytes("/a/b/f", data)
        volume.create("/a/g")
        volume.copy("/a", "/x", at=9)
        self.assertEqual({path: it[2] for path, it in state_of(volume, "/x").items()},
            {path: it[2] for path, it in state_of(volume, "/a").items()})
        self.assertEqual({modified for _, modified, _ in state_of(volume, "/x").values()}, {9})
        volume.copy("/a/b/f", "/a/g")
        self.assertTrue(volume.read("/a/g") == data)
        volume.copy("/a/g", "/a/g")
        self.assertTrue(volume.read("/a/g") == data)
        volume.create("/empty")
        volume.copy("/empty", "/a/g")
        self.assertEqual(volume.stat("/a/g").size, 0)

    def test_holes_are_copied_as_holes(self):
        # (a terabyte, which nobody copies byte by byte)
        size, at = 1 << 40, 7 << 33
        volume = Volume()
        volume.create("/f")
        volume.truncate("/f", size)
        volume.write("/f", b"here", at)
        volume.copy("/f", "/g")
        self.assertEqual((volume.stat("/g").size, volume.read("/g", 6, at - 1)), (size, b"\0here\0"))
        self.assertEqual([(start <= at, end >= at + 4) for start, end in [volume._next_extent("/g", 0)]], [(True, True)])
        self.assertEqual(volume._next_extent("/g", at + (1 << 20)), (size, size))
        with tempfile.TemporaryDirectory() as folder:
            volume.export_tree(folder + "/out")
            reported = os.stat(folder + "/out/g")
            self.assertEqual(reported.st_size, size)
            self.assertLess(reported.st_blocks * 512, 1 << 20)
            with open(folder + "/out/g", "rb") as file:
                file.seek(at)
                self.assertEqual(file.read(6), b"here\0\0")

    def test_refusals(self):
        volume = Volume()
        volume.makedirs("/a/b")
        volume.create("/f")
        before = volume.image()
        for old, new, kind, number in [
            ("/none", "/x", FileNotFoundError, errno.ENOENT), ("/a", "/a/c", OSError, errno.EINVAL),
            ("/a", "/a/b/c", OSError, errno.EINVAL), ("/", "/x", OSError, errno.EINVAL), ("/a", "/f", FileExistsError, errno.EEXIST),
            ("/a", "/a", FileExistsError, errno.EEXIST), ("/f", "/a", IsADirectoryError, errno.EISDIR),
            ("/f", "/f/x", NotADirectoryError, errno.ENOTDIR), ("/f", "/none/x", FileNotFoundError, errno.ENOENT),
        ]:
            with self.subTest(old=old, new=new), self.assertRaises(OSError) as caught:
                volume.copy(old, new)
            self.assertEqual((type(caught.exception), caught.exception.errno), (kind, number))
        self.assertEqual(volume.image(), before)

    def test_touch_and_remove(self):
        clock = iter(range(10, 100))
        volume = Volume(clock=lambda: next(clock))
        volume.touch("/f")
        volume.write_bytes("/f", b"x")
        volume.touch("/f", at=99)
        self.assertEqual((volume.read("/f"), volume.stat("/f").modified), (b"x", 99))
        self.assertRaises(FileExistsError, volume.touch, "/f", exist_ok=False)
        volume.mkdir("/d")
        for path in ["/d", "/"]:
            volume.touch(path, at=7)
            self.assertEqual(volume.stat(path).modified, 7)
        self.assertEqual((volume.listdir("/d"), volume.listdir()), ([], ["d", "f"]))
        self.assertRaises(FileNotFoundError, volume.touch, "/none/f")
        volume.remove("/f")
        self.assertRaises(FileNotFoundError, volume.remove, "/f")
        self.assertRaises(PermissionError, volume.remove, "/d")


if __name__ == "__main__":
    unittest.main()
