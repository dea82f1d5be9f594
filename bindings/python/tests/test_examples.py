"""The programs of `examples` that are in Python print what stands beside them."""
import importlib.util
import os
import pathlib
import subprocess
import sys
import unittest

EXAMPLES = pathlib.Path(__file__).resolve().parents[3] / "examples"


def said(*words, **named):
    return subprocess.run([sys.executable, "-B", *words], check=True, stdout=subprocess.PIPE, text=True, **named).stdout


class Examples(unittest.TestCase):
    def test_build_cache(self):
        folder = EXAMPLES / "build_cache"
        self.assertEqual(said(folder / "build_cache.py"), (folder / "build_cache.expected").read_text())

    def test_parallel_tests(self):
        folder = EXAMPLES / "parallel_tests"
        expected = (folder / "parallel_tests.expected").read_text()
        self.assertEqual(said(folder / "parallel_tests.py", stderr=subprocess.DEVNULL), expected)
        copies = said(folder / "parallel_tests.py", "--copies", "--tests", "50", stderr=subprocess.DEVNULL)
        self.assertEqual(copies, expected.replace("1000", "50"))

    @unittest.skipUnless(importlib.util.find_spec("pytest"), "pytest is not installed")
    def test_fixture(self):
        options = ["-q", "-p", "no:cacheprovider", "--tree", "volume"]
        result = said("-m", "pytest", *options, cwd=EXAMPLES / "fixture", env={**os.environ, "PYTHONSAFEPATH": "1"})
        self.assertIn("1000 passed", result)


if __name__ == "__main__":
    unittest.main()
