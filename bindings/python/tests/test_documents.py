"""The examples of the documents and of the modules run as they stand."""
import doctest
import importlib
import importlib.util
import pathlib
import unittest

HERE = pathlib.Path(__file__).resolve()
# In the repository, and where `make install` put it.
PAGES = [HERE.parents[3] / "docs/PYTHON.md", HERE.parents[4] / "doc/doorvervain/PYTHON.md"]


# What a module or a page needs beside the package.
NEEDS = {"doorvervain.fsspec": ["fsspec"], "doorvervain.pyfilesystem": ["fs"]}


def lacks(names):
    return [name for name in names if importlib.util.find_spec(name) is None]


class Examples(unittest.TestCase):
    def test_modules(self):
        for name in ["doorvervain", *(f"doorvervain.{name}" for name in ["_core", "_file", "_path", "_types", "_volume"]), *NEEDS]:
            if lacks(NEEDS.get(name, [])):
                continue
            with self.subTest(module=name):
                self.assertEqual(doctest.testmod(importlib.import_module(name), report=True).failed, 0)

    @unittest.skipIf(lacks(["fs", "fsspec"]), "fs or fsspec is not installed")
    def test_pages(self):
        pages = [page for page in PAGES if page.exists()]
        self.assertTrue(pages, "no page is there")
        for page in pages:
            result = doctest.testfile(str(page), module_relative=False)
            self.assertGreater(result.attempted, 10)
            self.assertEqual(result.failed, 0)


if __name__ == "__main__":
    unittest.main()
