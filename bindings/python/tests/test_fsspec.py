"""The file system of fsspec."""
import os
import shutil
import sys
import tempfile
import threading
import unittest

import fsspec
from doorvervain import Volume
from doorvervain.fsspec import DoorvervainFileSystem


class Calls(unittest.TestCase):
    def setUp(self):
        self.files = DoorvervainFileSystem(volume=Volume(), skip_instance_cache=True)

    def fill(self, *paths):
        for path in paths:
            self.files.pipe(path, path.encode())

    def test_it_is_registered(self):
        self.assertIs(fsspec.get_filesystem_class("doorvervain"), DoorvervainFileSystem)

    def test_urls(self):
        with fsspec.open("doorvervain://urls/a.txt", "w") as file:
            file.write("text")
        with fsspec.open("doorvervain:///urls/a.txt") as file:
            self.assertEqual(file.read(), b"text")
        self.assertEqual(fsspec.filesystem("doorvervain").ls("/urls", detail=False), ["/urls/a.txt"])

    def test_file_systems_of_a_name_share_a_volume(self):
        fsspec.filesystem("doorvervain", name="one").pipe("/x", b"1")
        self.assertFalse(fsspec.filesystem("doorvervain", name="two").exists("/x"))
        seen = []
        thread = threading.Thread(target=lambda: seen.append(fsspec.filesystem("doorvervain", name="one").cat("/x")))
        thread.start()
        thread.join()
        self.assertEqual(seen, [b"1"])

    def test_what_is_written_is_read(self):
        files = self.files
        self.fill("/a/b/x", "a/y")
        self.assertEqual(files.cat("/a/y"), b"a/y")
        self.assertEqual(files.cat_file("/a/b/x", 1, -1), b"a/b/")
        self.assertEqual(files.cat_file("/a/y", start=2), b"y")
        self.assertEqual(files.cat_file("/a/y", -2, 99), b"/y")
        self.assertEqual(files.cat(["/a/y", "/a/b/x"]), {"/a/y": b"a/y", "/a/b/x": b"/a/b/x"})
        self.assertEqual(files.cat_ranges(["/a/y", "/a/y"], [0, 1], [1, 3]), [b"a", b"/y"])
        self.assertEqual((files.head("/a/y", 1), files.tail("/a/y", 1)), (b"a", b"y"))
        self.assertEqual(files.size("/a/y"), 3)
        self.assertEqual(files.du("/a"), 9)

    def test_listings(self):
        files = self.files
        self.fill("/a/b/x", "/a/y", "/a/b/c/z.csv")
        self.assertEqual(files.ls("/a", detail=False), ["/a/b", "/a/y"])
        self.assertEqual([(it["name"], it["type"], it["size"]) for it in files.ls("a/")],
                         [("/a/b", "directory", 0), ("/a/y", "file", 4)])
        self.assertEqual(files.ls("/a/y", detail=False), ["/a/y"])
        self.assertEqual(files.find("/a"), ["/a/b/c/z.csv", "/a/b/x", "/a/y"])
        self.assertEqual(files.glob("/a/**/*.csv"), ["/a/b/c/z.csv"])
        self.assertEqual(sorted(files.glob("/a/*")), ["/a/b", "/a/y"])
        walked = [(path, sorted(folders), sorted(names)) for path, folders, names in files.walk("/a")]
        self.assertEqual(walked, [("/a", ["b"], ["y"]), ("/a/b", ["c"], ["x"]), ("/a/b/c", [], ["z.csv"])])
        for call in [files.ls, files.info, files.cat_file, files.modified]:
            with self.assertRaises(FileNotFoundError):
                call("/none")
        with self.assertRaises(FileNotFoundError):
            files.info("/a/y/z")
        self.assertTrue(files.isdir("/a") and files.isfile("/a/y") and files.exists("/"))
        self.assertFalse(files.isdir("/a/y") or files.isfile("/a") or files.exists("/z") or files.isdir("/z"))

    def test_listings_beside_another_thread(self):
        files, stops = self.files, threading.Event()
        interval = sys.getswitchinterval()
        self.addCleanup(sys.setswitchinterval, interval)
        sys.setswitchinterval(1e-6)
        paths = [f"/d/{number}" for number in range(50)]
        self.fill(*paths)

        def works():
            while not stops.is_set():
                self.fill("/d/x")
                files.rm("/d/x")

        thread = threading.Thread(target=works)
        thread.start()
        self.addCleanup(thread.join)
        self.addCleanup(stops.set)
        for _ in range(500):
            self.assertLessEqual(set(paths), {it["name"] for it in files.ls("/d")})

    def test_directories(self):
        files = self.files
        files.mkdir("/p/q")
        with self.assertRaises(FileExistsError):
            files.mkdir("/p/q")
        with self.assertRaises(FileExistsError):
            files.makedirs("/p/q")
        files.makedirs("/p/q", exist_ok=True)
        with self.assertRaises(FileNotFoundError):
            files.mkdir("/r/s", create_parents=False)
        with self.assertRaises(OSError):
            files.rmdir("/p")
        files.rmdir("/p/q")
        files.rm("/p")
        self.assertEqual(files.ls("/"), [])

    def test_removals(self):
        files = self.files
        self.fill("/a/b/x", "/a/y", "/a/z1", "/a/z2", "/c")
        with self.assertRaises(OSError):
            files.rm("/a")
        files.rm("/a/z*")
        self.assertEqual(files.ls("/a", detail=False), ["/a/b", "/a/y"])
        files.rm(["/a/y", "/c"])
        files.rm("/a", recursive=True)
        self.assertEqual(files.find("/"), [])
        self.fill("/e/f", "/g")
        files.rm("/", recursive=True)
        self.assertEqual(files.ls("/"), [])
        with self.assertRaises(FileNotFoundError):
            files.rm("/none")

    def test_moves_and_copies(self):
        files = self.files
        self.fill("/a/b/x", "/a/y")
        files.mv("/a/y", "/n/z")
        self.assertEqual(files.find("/"), ["/a/b/x", "/n/z"])
        files.mv("/a", "/m", recursive=True)
        self.assertEqual(files.find("/"), ["/m/b/x", "/n/z"])
        files.cp_file("/m/b/x", "/k/x")
        files.copy("/m", "/l", recursive=True)
        self.assertEqual(files.find("/"), ["/k/x", "/l/b/x", "/m/b/x", "/n/z"])
        self.assertEqual(files.cat("/l/b/x"), b"/a/b/x")
        for call, *words in [(files.mv, "/none", "/new/x"), (files.mv, "/l/b/x/y", "/new/x"), (files.open, "/new/x", "r+b")]:
            with self.assertRaises(FileNotFoundError):
                call(*words)
            self.assertFalse(files.exists("/new"))

    def test_files(self):
        files = self.files
        with files.open("/d/f", "wb") as file:
            file.write(b"one\n")
        with files.open("/d/f", "ab") as file:
            file.write(b"two\n")
        with files.open("/d/f", "rt") as file:
            self.assertEqual(list(file), ["one\n", "two\n"])
        with files.open("/d/f", "r+b") as file:
            file.seek(1)
            file.write(b"N")
        self.assertEqual(files.cat("/d/f"), b"oNe\ntwo\n")
        with self.assertRaises(FileNotFoundError):
            files.open("/d/none")
        with self.assertRaises(IsADirectoryError):
            files.open("/d", "wb")
        with self.assertRaises(FileExistsError):
            files.open("/d/f", "xb")
        with files.open("/d/packed.gz", "wb", compression="gzip") as file:
            file.write(b"packed")
        with files.open("/d/packed.gz", compression="infer") as file:
            self.assertEqual(file.read(), b"packed")
        strict = DoorvervainFileSystem(volume=files.volume, auto_mkdir=False, skip_instance_cache=True)
        for call, *words in [(strict.open, "/no/f", "wb"), (strict.pipe_file, "/no/f", b""), (strict.touch, "/no/f")]:
            with self.assertRaises(FileNotFoundError):
                call(*words)

    def test_touch_and_moments(self):
        files = self.files
        self.fill("/f")
        before = files.modified("/f")
        files.touch("/f", truncate=False)
        self.assertEqual(files.cat("/f"), b"/f")
        self.assertGreaterEqual(files.modified("/f"), before)
        files.touch("/f")
        self.assertEqual(files.size("/f"), 0)

    def test_a_transaction(self):
        files = self.files
        self.fill("/t/a")
        with files.transaction:
            with files.open("/t/a", "wb") as file:
                file.write(b"new")
            with files.open("/t/b", "wb") as file:
                file.write(b"more")
            self.assertEqual(files.cat("/t/a"), b"/t/a")
            self.assertFalse(files.exists("/t/b"))
        self.assertEqual(files.cat(["/t/a", "/t/b"]), {"/t/a": b"new", "/t/b": b"more"})
        self.assertEqual(files.ls("/t", detail=False), ["/t/a", "/t/b"])
        with self.assertRaises(ZeroDivisionError):
            with files.transaction:
                with files.open("/t/a", "wb") as file:
                    file.write(b"lost")
                raise ZeroDivisionError
        self.assertEqual(files.cat("/t/a"), b"new")
        self.assertEqual(files.ls("/t", detail=False), ["/t/a", "/t/b"])

    def test_to_and_from_the_system(self):
        folder = tempfile.mkdtemp()
        self.addCleanup(shutil.rmtree, folder)
        os.makedirs(f"{folder}/in/deep")
        for name in ["in/a", "in/deep/b"]:
            with open(f"{folder}/{name}", "w") as file:
                file.write(name)
        self.files.put(f"{folder}/in", "/up", recursive=True)
        self.assertEqual(self.files.find("/up"), ["/up/a", "/up/deep/b"])
        self.files.get("/up", f"{folder}/out", recursive=True)
        with open(f"{folder}/out/deep/b") as file:
            self.assertEqual(file.read(), "in/deep/b")

    def test_a_mapper(self):
        store = fsspec.get_mapper("doorvervain://store", name="mapped")
        store["k/1"] = b"one"
        store["k/2"] = b"two"
        self.assertEqual(sorted(store), ["k/1", "k/2"])
        self.assertEqual(store["k/2"], b"two")
        del store["k/1"]
        self.assertEqual(list(store), ["k/2"])
        with self.assertRaises(KeyError):
            store["none"]


if __name__ == "__main__":
    unittest.main()
