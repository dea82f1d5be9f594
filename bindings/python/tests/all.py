#!/usr/bin/env python3
"""Runs all tests of the package that is installed. The last line is `N passed, M failed`."""
import importlib.util
import pathlib
import sys
import unittest

# What a file of tests needs beside the package.
NEEDS = {"test_fsspec": "fsspec", "test_pyfilesystem": "fs", "test_pytest_plugin": "pytest", "test_types": "mypy"}


def main() -> int:
    here = pathlib.Path(__file__).resolve().parent
    sys.path.insert(0, str(here))
    loader, suite = unittest.defaultTestLoader, unittest.TestSuite()
    for path in sorted(here.glob("test_*.py")):
        needed = NEEDS.get(path.stem)
        if needed and importlib.util.find_spec(needed) is None:
            print(f"left out: {path.name}: {needed} is not installed")
        else:
            suite.addTests(loader.loadTestsFromName(path.stem))
    done = unittest.TextTestRunner(stream=sys.stdout, verbosity=1, buffer=True).run(suite)
    for case, reason in done.skipped:
        print(f"left out: {case}: {reason}")
    # A part of a test (`subTest`) that fails counts for its test, once.
    failed = {getattr(case, "test_case", case).id() for case, _ in done.failures + done.errors}
    print(f"{done.testsRun - len(failed) - len(done.skipped)} passed, {len(failed)} failed")
    return 0 if done.wasSuccessful() else 1


if __name__ == "__main__":
    sys.exit(main())
