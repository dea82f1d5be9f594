"""Finds the names in statements that the record's checksums would not follow.

A clause or a definition can name a definition in the `proofs/` of another crate, by its facade, and can name any by its whole path with
no import. The checksums are of `specs/` and `src/` alone, and follow imports.
"""
from __future__ import annotations

import re
from pathlib import Path
from typing import Container, Iterator

from deps import code_of
from definitions import without_imports
from source import ANTT_QUIET, blanked
from items import sources_of

# A path of antt, as far as its library and its folder.
PATH = re.compile(r"\bRattle\b(?:\.(?P<library>\w+))?(?:\.(?P<folder>\w+))?")


def texts_of(folder: Path) -> Iterator[tuple[str, str, str]]:
    """The files of src/ and specs/ in the folder of a crate: the path, the code, and the code in which the imports are blank."""
    for source in sources_of(folder):
        yield source.path, source.code, code_of(source)
    for file in sorted((folder / "specs").rglob("*.antt")):
        code = blanked(file.read_text(encoding="utf-8"), ANTT_QUIET, ("comment", "literal"))
        yield str(file.relative_to(folder)), code, without_imports(code)


def is_followed(path: re.Match, ours: Container[str]) -> bool:
    """Whether the checksums follow an import of the path: the toolchain's does not change, and ours has to lead to specs/."""
    return path["folder"] == "specs" if path["library"] in ours else bool(path["library"])


def unfollowed(crate: str, folder: Path, ours: Container[str]) -> Iterator[str]:
    """What the texts of a crate name that no checksum is of, and for each what mends it."""
    for file, code, rest in texts_of(folder):
        for path in PATH.finditer(code):
            place = f"crates/{crate}/{file}:{code.count(chr(10), 0, path.start()) + 1}"
            if rest.startswith("Rattle", path.start()):
                yield f"{place}: {path[0]} is named without an import, so that no checksum follows it: import what is named"
            elif not is_followed(path, ours):
                yield f"{place}: {path[0]} is imported, and the checksums are of specs/: move the definition to specs/ and import it from there"
