"""Fixtures of pytest: a tree that is built once a session, and a fork of it for each test.

pytest finds them by the entry point of the package; where plugins are not loaded by themselves, a conftest.py has
`pytest_plugins = ["doorvervain.pytest_plugin"]`. The tree is empty unless the project has a `doorvervain_tree` of its own:

    @pytest.fixture(scope="session")
    def doorvervain_tree():
        with doorvervain.Volume() as volume:
            volume.import_tree("tests/data", "/data")
            yield volume

    def test_removal(doorvervain_volume):
        doorvervain_volume.rmtree("/data")      # no other test sees it

The names begin with that of the package, so that they hide no fixture of the project. A shorter one is an alias in conftest.py:

    @pytest.fixture
    def volume(doorvervain_volume):
        return doorvervain_volume
"""
from __future__ import annotations

from typing import Iterator, Union

import pytest

from ._volume import Frozen, Volume


@pytest.fixture(scope="session")
def doorvervain_tree() -> Iterator[Union[Volume, Frozen]]:
    """The tree that each test begins with, a volume or a frozen tree: it is asked for once a session. This one is empty."""
    with Volume() as volume:
        yield volume


@pytest.fixture(scope="session")
def _doorvervain_base(doorvervain_tree: Union[Volume, Frozen]) -> Iterator[Volume]:
    """The tree as it was built, whatever a test does with `doorvervain_tree` itself."""
    with doorvervain_tree.fork() as base:
        yield base


@pytest.fixture
def doorvervain_volume(_doorvervain_base: Volume) -> Iterator[Volume]:
    """A volume of the test's own, which is a fork of `doorvervain_tree` as it was built."""
    with _doorvervain_base.fork() as fork:
        yield fork
