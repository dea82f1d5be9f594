"""A file system in memory, with snapshots.

>>> import doorvervain
>>> with doorvervain.Volume() as volume:
...     volume.mkdir("/notes")
...     with volume.open("/notes/today", "w") as file:
...         _ = file.write("rain")
...     volume.snapshot("monday")
...     volume.rmtree("/notes")
...     volume.restore("monday")
...     volume.read("/notes/today")
b'rain'

The package is a binding of the C library `doorvervain`. `docs/PYTHON.md` describes it.
"""
from ._core import BUILD as __build__
from ._file import File
from ._path import Path
from ._types import BadDelta, BadImage, Entry, Stat
from ._volume import LARGE, USUAL, Frozen, Shape, Volume

__version__ = "0.2.0"
__all__ = ["BadDelta", "BadImage", "Entry", "File", "Frozen", "LARGE", "Path", "Shape", "Stat", "USUAL", "Volume"]
