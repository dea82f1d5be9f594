"""Paths of a tree, beside those of `pathlib`: pure ones by the same text, the others on a folder of the system."""
import errno
import glob
import os
import pathlib
import pickle
import random
import shutil
import sys
import tempfile
import unittest

from doorvervain import Path, Volume

NAMES = ["a", "b", "cc", ".d", "e.txt", "ö.tar.gz"]


def random_tree(rng, count):
    """Paths of directories and files, each behind the directory that it is in."""
    folders, entries = [""], []
    for _ in range(count):
        path = f"{rng.choice(folders)}/{rng.choice(NAMES)}"
        if path not in [there for there, _ in entries]:
            is_dir = rng.random() < 0.5
            entries.append((path, is_dir))
            if is_dir:
                folders.append(path)
    return entries


class Pure(unittest.TestCase):
    TEXTS = ["/", "/a", "/a/b.txt", "/a/.hidden", "/a/b.tar.gz", "//a//b/./c/", "/a/../b", "/ö/x.", "/a b"]

    def setUp(self):
        self.volume = Volume()

    def test_all_pure_methods_are_there(self):
        there = {name for name in dir(pathlib.PurePosixPath) if not name.startswith("_")}
        # No address leads into a volume; 3.13 and 3.14 have more of them.
        self.assertEqual(there - set(dir(Path)) - {"as_uri", "parser"}, set())

    def test_parts_of_a_path(self):
        names = ["parts", "name", "suffix", "suffixes", "stem", "root", "anchor", "drive"]
        for text in self.TEXTS:
            # (POSIX keeps two slashes at the front; a volume has one root)
            ours, pure = self.volume.path(text), pathlib.PurePosixPath("/" + text.lstrip("/"))
            with self.subTest(text=text):
                self.assertEqual(str(ours), str(pure))
                self.assertEqual([getattr(ours, name) for name in names], [getattr(pure, name) for name in names])
                self.assertEqual((str(ours.parent), [*map(str, ours.parents)]), (str(pure.parent), [*map(str, pure.parents)]))
                self.assertEqual((bytes(ours), ours.as_posix(), ours.is_absolute()), (bytes(pure), pure.as_posix(), True))

    def test_paths_of_paths(self):
        for text in self.TEXTS[:-1]:
            ours, pure = self.volume.path(text), pathlib.PurePosixPath("/" + text.lstrip("/"))
            for call in [
                lambda path: path / "x" / "y", lambda path: path / "/x", lambda path: path.joinpath("x", "y/z"),
                lambda path: path.with_name("n"), lambda path: path.with_stem("n"), lambda path: path.with_suffix(".n"),
                lambda path: path.with_suffix("n"), lambda path: path.with_name("a/b"), lambda path: "x" / path,
                lambda path: path.relative_to("/a"), lambda path: path.relative_to("/"), lambda path: path.relative_to("a"),
                lambda path: path.is_relative_to("/a"), lambda path: path.match("*.txt"), lambda path: path.match("/a/*"),
            ]:
                with self.subTest(text=text):
                    self.assertEqual(self.said(call, ours), self.said(call, pure))

    def said(self, call, path):
        try:
            return str(call(path))
        except ValueError:
            return "ValueError"

    def test_order_and_equality(self):
        volume, texts = self.volume, ["/b", "/a/b", "/a", "/a-", "/"]
        self.assertEqual([*map(str, sorted(map(volume.path, texts)))], [*map(str, sorted(map(pathlib.PurePosixPath, texts)))])
        self.assertEqual(len({volume.path("/a"), volume.path("/", "a"), volume.path("/a/")}), 1)
        self.assertNotEqual(volume.path("/a"), Volume().path("/a"))
        self.assertNotEqual(volume.path("/a"), pathlib.PurePosixPath("/a"))
        self.assertRaises(TypeError, lambda: volume.path("/a") < Volume().path("/b"))
        self.assertEqual(repr(volume.path("/a")), "Path('/a')")

    def test_full_match(self):
        path = self.volume.path("/a/b/c.txt")
        for pattern, fits in [
            ("/a/b/c.txt", True), ("/a/*/c.txt", True), ("/**/*.txt", True), ("/**", True), ("/a/**/b/**", True),
            ("*.txt", False), ("/a/*.txt", False), ("/a/b", False), ("/*", False), ("/a/b/C.txt", False), ("/a/b/[bc].t?t", True),
        ]:
            self.assertEqual(path.full_match(pattern), fits, pattern)
            if sys.version_info >= (3, 13):
                self.assertEqual(pathlib.PurePosixPath("/a/b/c.txt").full_match(pattern), fits, pattern)

    def test_resolve_takes_dots_away(self):
        for text, wanted in [("/a/../b", "/b"), ("/../..", "/"), ("/a/b/../../c/.", "/c")]:
            self.assertEqual((str(self.volume.path(text).resolve()), os.path.normpath(text)), (wanted, wanted))
        self.assertRaises(FileNotFoundError, self.volume.path("/a").resolve, strict=True)
        self.assertIs(type(self.volume.path("/").absolute()), Path)

    def test_a_relative_path_is_refused(self):
        for text in ["a", "", "."]:
            with self.assertRaises(OSError) as caught:
                self.volume.path(text)
            self.assertEqual((caught.exception.errno, caught.exception.strerror), (errno.EINVAL, "a path begins with '/'"))

    def test_the_system_does_not_take_it(self):
        path = self.volume.path("/etc")
        for call in [os.fspath, open, os.listdir, shutil.rmtree, pathlib.Path]:
            self.assertRaises(TypeError, call, path)

    def test_calls_of_a_tree_take_it(self):
        path = self.volume.path("/ö")
        self.volume.write_bytes(path, b"x")
        self.assertEqual((self.volume.read(path), self.volume.listdir()), (b"x", ["ö"]))
        self.assertEqual(self.volume.open(path).name, "/ö")
        with self.assertRaises(FileExistsError) as caught:
            self.volume.create(path)
        self.assertEqual(caught.exception.filename, "/ö")
        self.volume.create(b"/\xff")
        (path, _) = self.volume.path().iterdir()
        self.assertTrue(path.is_file())
        self.assertEqual(bytes(self.volume.path(b"/\xff")), b"/\xff")


class BesidePathlib(unittest.TestCase):
    """The same calls of a path of a volume and of one of the system."""

    def setUp(self):
        self.folder = tempfile.mkdtemp()
        self.addCleanup(shutil.rmtree, self.folder)
        self.volume = Volume()

    def text(self, given):
        """What a call gives, without the folder."""
        if isinstance(given, (Path, pathlib.Path)):
            return str(given).replace(self.folder, "", 1) or "/"
        if hasattr(given, "__next__"):
            return sorted((self.text(it) for it in given), key=repr)
        if isinstance(given, tuple):
            return tuple(map(self.text, given))
        return sorted(given) if isinstance(given, list) else given

    def answer(self, call, path):
        try:
            return self.text(call(path))
        except (OSError, UnicodeDecodeError) as error:
            # To unlink a directory is EPERM here, and EISDIR on Linux.
            number = getattr(error, "errno", None)
            return "refused", errno.EISDIR if number == errno.EPERM else number

    def both(self, call, path):
        ours = self.answer(call, self.volume.path(path))
        self.assertEqual(ours, self.answer(call, pathlib.Path(self.folder + path)), path)
        return ours

    def append(self, path):
        with path.open("ab") as file:
            return file.write(b"more"), file.tell()

    def call(self, rng, root):
        """A call that looks random, of a path, and the name it has."""
        text = rng.choice(["", "rain\r\nand snow\n", "ö\n" * 2_000])
        parents, exist_ok, deep = rng.random() < 0.5, rng.random() < 0.5, rng.random() < 0.5
        target = "/" + "/".join(rng.choice(NAMES) for _ in range(rng.choice([1, 2])))
        return rng.choice([
            ("mkdir", lambda path: path.mkdir(parents=parents, exist_ok=exist_ok)),
            ("touch", lambda path: path.touch(exist_ok=exist_ok)),
            ("write_bytes", lambda path: path.write_bytes(text.encode())),
            ("write_text", lambda path: path.write_text(text, encoding="utf-8")),
            ("read_bytes", lambda path: path.read_bytes()),
            ("read_text", lambda path: path.read_text(encoding="utf-8")),
            ("unlink", lambda path: path.unlink(missing_ok=exist_ok)),
            ("rmdir", lambda path: path.rmdir()),
            ("rename", lambda path: (path.rename if deep else path.replace)(root(path) + target)),
            ("kind", lambda path: (path.exists(), path.is_dir(), path.is_file(), path.is_symlink())),
            ("size", lambda path: path.stat().st_size if path.is_file() else path.stat().st_mode & 0o170000),
            ("iterdir", lambda path: iter(list(path.iterdir()))),
            ("append", self.append),
            ("samefile", lambda path: path.samefile(root(path) + target)),
        ])

    def test_random_calls(self):
        rng, kinds = random.Random(1), set()
        root = lambda path: "" if isinstance(path, Path) else self.folder
        for _ in range(6_000):
            path = "/" + "/".join(rng.choice(NAMES) for _ in range(rng.choice([1, 1, 2, 3])))
            name, call = self.call(rng, root)
            ours = self.answer(call, self.volume.path(path))
            theirs = self.answer(call, pathlib.Path(self.folder + path))
            kinds.add((name, str(ours)[:20]))
            if name == "rename" and "refused" in (ours[0], theirs[0]):
                # Where several faults fit, Linux looks at the second path first.
                self.assertEqual(ours[0], theirs[0])
                continue
            self.assertEqual(ours, theirs, (name, path))
        self.assertGreater(len(kinds), 60)

    def test_globs_and_walks(self):
        rng = random.Random(2)
        patterns = [
            "*", "a/*", "*/*", "**/*", "**/a", "a/**/*.txt", "**/*/**/*", "*.txt", ".*", "[ab]", "[!a]*", "?", "**/cc/", "*/",
            "**/b/**/a", "a/./b", "ö*", "none/*", "*.gz/*", "a", "**/",
        ]
        found = 0
        for path, is_dir in random_tree(rng, 400):
            for at in [self.volume.path(path), pathlib.Path(self.folder + path)]:
                at.mkdir() if is_dir else at.write_bytes(b"x")
        for top in ["/", "/a", "/none", "/e.txt"]:
            for pattern in patterns:
                if not (pattern.endswith("/") and sys.version_info < (3, 11)):
                    found += len(self.both(lambda path: path.glob(pattern), top))
                if pattern != "**/":
                    self.both(lambda path: path.rglob(pattern), top)
        self.assertGreater(found, 500)
        walked = sorted(self.text((path, names, files)) for path, names, files in self.volume.path("/").walk())
        theirs = sorted((self.text(pathlib.Path(path)), sorted(names), sorted(files)) for path, names, files in os.walk(self.folder))
        self.assertEqual(walked, theirs)
        ups = [str(path) for path, _, _ in self.volume.path("/").walk(top_down=False)]
        self.assertTrue(all(ups.index(str(path)) < ups.index(str(path.parent)) for path in map(self.volume.path, ups) if path.name))

    def test_globs_of_a_volume(self):
        for path, is_dir in random_tree(random.Random(3), 300):
            (self.volume.mkdir if is_dir else self.volume.create)(path)
            (os.mkdir if is_dir else lambda it: open(it, "w").close())(self.folder + path)
        hidden = {"include_hidden": True} if sys.version_info >= (3, 11) else {}
        folder = next(name for name in NAMES if self.volume.is_dir("/" + name))
        for pattern in ["/*", "/a/*", "/**", f"/{folder}/**", "/**/*.txt", "/*/a", "/**/a/**/b", "/a", "/[!a]?", "/none", "/*/", "/**/cc/"]:
            if not hidden and "*" in pattern:
                continue
            theirs = {it[len(self.folder) :].rstrip("/") or "/" for it in glob.glob(self.folder + pattern, recursive=True, **hidden)}
            ours = self.volume.glob(pattern)
            self.assertEqual((set(ours), len(ours)), (theirs, len(theirs)), pattern)
        for pattern, kind in [("*", OSError), ("", OSError)]:
            self.assertRaises(kind, self.volume.glob, pattern)
        self.assertRaises(NotImplementedError, self.volume.path().glob, "/a")
        self.assertRaises(ValueError, self.volume.path().glob, "")

    def test_texts_of_files(self):
        text = "föhn\nand\r\nsnow\rend"
        for encoding in ["utf-8", "utf-16", "latin-1"]:
            for newline in [None, "", "\n", "\r\n"]:
                here, there = self.volume.path("/f"), pathlib.Path(self.folder, "f")
                with open(there, "w", encoding=encoding, newline=newline) as file:
                    count = file.write(text)
                self.assertEqual(here.write_text(text, encoding, newline=newline), count)
                self.assertEqual(here.read_bytes(), there.read_bytes())
                with open(there, encoding=encoding, newline=newline) as file:
                    self.assertEqual(here.read_text(encoding, newline=newline), file.read())
        here.write_bytes(b"\xff")
        self.assertRaises(UnicodeDecodeError, here.read_text)
        self.assertEqual(here.read_text(errors="replace"), "\ufffd")
        self.assertRaises(TypeError, here.write_text, b"bytes")
        self.assertEqual(here.read_bytes(), b"\xff")


class Trees(unittest.TestCase):
    def test_paths_of_frozen_trees_only_read(self):
        volume = Volume()
        (volume.path("/d") / "f").parent.mkdir()
        volume.path("/d/f").write_text("one")
        volume.snapshot("s")
        volume.path("/d/f").write_text("two")
        for tree in [volume.open_snapshot("s"), volume.open_snapshot("s").fork().freeze()]:
            file = tree.path("/d/f")
            self.assertEqual((file.read_text(), [*tree.path().rglob("*")]), ("one", [tree.path("/d"), file]))
            for call, *words in [
                (file.write_text, "x"), (file.write_bytes, b"x"), (file.touch,), (file.unlink,), (file.rename, "/x"),
                (file.parent.rmdir,), (file.parent.rmtree,), (tree.path("/e").mkdir,), (file.copy, "/x"), (file.open, "w"),
            ]:
                with self.assertRaises(OSError) as caught:
                    call(*words)
                self.assertEqual((caught.exception.errno, caught.exception.filename[0]), (errno.EROFS, "/"))

    def test_what_shutil_does_elsewhere(self):
        volume = Volume(clock=lambda: 5)
        volume.path("/a/b").mkdir(parents=True)
        volume.path("/a/b/f").write_text("x")
        copied = volume.path("/a").copy("/c")
        self.assertEqual((copied, (copied / "b" / "f").read_text()), (volume.path("/c"), "x"))
        volume.path("/a").rmtree()
        self.assertEqual([*map(str, volume.path().iterdir())], ["/c"])

    def test_the_deepest_path(self):
        volume, depth = Volume(), 511
        volume.makedirs("/e" * depth)
        self.assertEqual(len([*volume.path().rglob("*")]), depth)
        for top_down in [True, False]:
            self.assertEqual(len([*volume.path().walk(top_down)]), depth + 1)
        self.assertEqual((len(volume.glob("/**/e")), volume.glob("/**/" + "n" * 256)), (depth, []))

    def test_errors_of_a_walk(self):
        seen = []
        self.assertEqual(list(Volume().path("/none").walk(on_error=seen.append)), [])
        self.assertEqual([type(error) for error in seen], [FileNotFoundError])

    def test_a_pickle_has_its_tree(self):
        volume = Volume()
        volume.write_text("/f", "rain")
        path = pickle.loads(pickle.dumps(volume.path("/f")))
        volume.unlink("/f")
        self.assertEqual((str(path), path.read_text()), ("/f", "rain"))


if __name__ == "__main__":
    unittest.main()
