"""The cases that PyFilesystem2 has for each file system, and a few of our own."""
import unittest

import fs
from doorvervain import Volume
from doorvervain.pyfilesystem import DoorvervainFS
from fs import errors
from fs.test import FSTestCases


class Cases(FSTestCases, unittest.TestCase):
    """All of `fs.test`; none is left out."""

    def make_fs(self):
        return DoorvervainFS()


class CasesInAFolder(FSTestCases, unittest.TestCase):
    """The same in a folder of a volume."""

    def make_fs(self):
        self.whole = DoorvervainFS()
        return self.whole.makedirs("a/folder")


class OurOwn(unittest.TestCase):
    def test_it_is_registered(self):
        with fs.open_fs("doorvervain://") as files:
            self.assertIsInstance(files, DoorvervainFS)
            with fs.open_fs("doorvervain://") as other:
                files.touch("x")
                self.assertEqual(other.listdir("/"), [])

    def test_a_volume_that_was_given_stays_open(self):
        volume = Volume()
        DoorvervainFS(volume).close()
        volume.create("/x")
        made = DoorvervainFS()
        made.close()
        self.assertTrue(made.volume.closed)

    def test_refusals(self):
        with DoorvervainFS() as files:
            files.makedir("d")
            files.touch("f")
            files.makedirs("deep/" + "/".join(["n" * 200] * 4))
            for error, call, *words in [
                (errors.FileExpected, files.remove, "d"),
                (errors.DirectoryExpected, files.removetree, "f"),
                (errors.ResourceNotFound, files.removetree, "none"),
                (errors.FileExpected, files.openbin, "/", "w"),
                (errors.FileExpected, files.openbin, "/", "x"),
                (errors.RemoveRootError, files.removedir, "/"),
                (errors.InvalidPath, files.touch, 300 * "n"),
                (errors.InvalidPath, files.exists, 300 * "n"),
                (errors.InvalidPath, files.isdir, 300 * "n"),
                (errors.InvalidPath, files.isfile, 300 * "n"),
                (errors.InvalidPath, files.move, "f", 300 * "n"),
                (errors.InvalidPath, files.movedir, 300 * "n", "e", True),
                (errors.InvalidPath, files.movedir, "d", 300 * "n", True),
                (errors.InvalidPath, files.movedir, "deep", "n" * 250, True),
                (errors.ResourceNotFound, files.makedir, "f/x"),
                (errors.DestinationExists, files.move, "f", "f"),
                (errors.FileExpected, files.move, "d", "e"),
                (errors.ResourceNotFound, files.move, "f", "no/f"),
            ]:
                with self.subTest(call=call.__name__, words=words), self.assertRaises(error):
                    call(*words)

    def test_moves_of_directories_keep_what_lies_below(self):
        with DoorvervainFS() as files:
            files.makedirs("a/b").writetext("x", "text")
            files.movedir("a", "c", create=True)
            self.assertEqual(files.readtext("c/b/x"), "text")
            files.makedir("a")
            files.movedir("c", "a")
            self.assertEqual(files.listdir("/"), ["a"])
            self.assertEqual(files.readtext("a/b/x"), "text")


if __name__ == "__main__":
    unittest.main()
