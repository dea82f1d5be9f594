"""The plugin of pytest: a tree that is built once, and a fork of it for each test."""
import os
import subprocess
import sys
import tempfile
import textwrap
import unittest

CONFTEST = """
    import doorvervain, pytest
    built = []

    @pytest.fixture(scope="session")
    def doorvervain_tree():
        built.append(1)
        with doorvervain.Volume(clock=lambda: 7) as volume:
            volume.write_text("/x", "as built")
            yield volume
        assert built == [1]
"""
TESTS = """
    import pytest

    @pytest.fixture
    def volume(doorvervain_volume):
        return doorvervain_volume

    @pytest.mark.parametrize("number", range(5))
    def test_it_is_as_built(volume, number):
        assert volume.read_text("/x") == "as built" and volume.listdir() == ["x"]
        assert volume.stat("/x").modified == 7
        volume.unlink("/x")
        volume.create("/y")
        assert volume.stat("/y").modified == 7

    def test_the_tree_itself_may_change(volume, doorvervain_tree):
        doorvervain_tree.create("/z")
        assert volume.listdir() == ["x"]

    def test_later_ones_do_not_see_it(volume):
        assert volume.listdir() == ["x"]
"""


class Plugin(unittest.TestCase):
    def runs(self, *words, conftest=CONFTEST, tests=TESTS, **environ):
        with tempfile.TemporaryDirectory() as folder:
            for name, text in [("conftest.py", conftest), ("test_it.py", tests)]:
                with open(os.path.join(folder, name), "w") as file:
                    file.write(textwrap.dedent(text))
            done = subprocess.run([sys.executable, "-m", "pytest", "-q", "-p", "no:cacheprovider", *words], cwd=folder,
                env={**os.environ, **environ}, stdout=subprocess.PIPE, stderr=subprocess.STDOUT, text=True)
        return done.stdout

    def test_by_its_entry_point(self):
        self.assertIn("7 passed", self.runs())

    def test_by_its_name(self):
        named = 'pytest_plugins = ["doorvervain.pytest_plugin"]\n' + textwrap.dedent(CONFTEST)
        self.assertIn("7 passed", self.runs(conftest=named, PYTEST_DISABLE_PLUGIN_AUTOLOAD="1"))
        self.assertIn("7 passed", self.runs(conftest=named))

    def test_without_it(self):
        self.assertIn("fixture 'doorvervain_volume' not found", self.runs("-p", "no:doorvervain.pytest_plugin", conftest=""))

    def test_the_tree_is_empty_unless_it_is_built(self):
        tests = "def test_it(doorvervain_volume):\n    assert doorvervain_volume.listdir() == []\n"
        self.assertIn("1 passed", self.runs(conftest="", tests=tests))

    def test_a_fixture_of_the_project_is_not_hidden(self):
        tests = """
            import pytest

            @pytest.fixture
            def volume():
                return 11

            def test_it(volume, doorvervain_volume):
                assert volume == 11 and doorvervain_volume.listdir() == []
        """
        self.assertIn("1 passed", self.runs(conftest="", tests=tests))
        names = {line.split()[0] for line in self.runs("--fixtures", conftest="", tests="").splitlines() if "pytest_plugin.py" in line}
        self.assertEqual(names, {"doorvervain_tree", "doorvervain_volume"})

    def test_a_frozen_tree_will_do(self):
        frozen = CONFTEST.replace("yield volume", "yield volume.freeze()").replace("clock=lambda: 7", "")
        self.assertIn("1 passed", self.runs("-k", "later", conftest=frozen))

    def test_the_package_needs_no_pytest(self):
        words = "import sys; sys.modules['pytest'] = None; import doorvervain; print(doorvervain.Volume().listdir())"
        # (elsewhere than beside the sources of the package, which have no module in C)
        with tempfile.TemporaryDirectory() as empty:
            said = subprocess.run([sys.executable, "-c", words], cwd=empty, check=True, stdout=subprocess.PIPE, text=True).stdout
        self.assertEqual(said, "[]\n")


if __name__ == "__main__":
    unittest.main()
