"""Builds the wheel of the package, by PEP 517, with the standard library alone.

The wheel has the module in C, with the library linked in. It is compiled from `core`, over the archive and the header that
are found: in DOORVERVAIN_DIR, where `make install` put them beside these files, in the repository, or by pkg-config. Where
`make install` left a built module beside these files, that is taken, and no compiler is needed.

    backend.py FILE     compiles the module alone, into FILE
"""
from __future__ import annotations

import base64
import hashlib
import io
import os
import re
import shlex
import subprocess
import sys
import sysconfig
import tarfile
import tempfile
import zipfile
from typing import Dict, Iterator, List, Optional, Tuple

HERE = os.path.dirname(os.path.abspath(__file__))
PACKAGE = "doorvervain"
MODULE = "_core.abi3.so"
ARCHIVE = "libdoorvervain.a"
HEADER = "doorvervain.h"
# Where the folders of archive and header lie from here: in a prefix that `make install` filled, and in the repository, where `make` left
# the proved library or `make UNPROVED=1` the other.
NEAR = [
    ("../../../../lib", "../../../../include"),
    ("../../out/lib", "../../include"),
    ("../../out/unproved/lib", "../../include"),
]

# (the plugin of pytest has the name of its module, so that a conftest.py may name it too)
ENTRY_POINTS = """\
[fsspec.specs]
doorvervain = doorvervain.fsspec:DoorvervainFileSystem

[fs.opener]
doorvervain = doorvervain.pyfilesystem:DoorvervainOpener

[pytest11]
doorvervain.pytest_plugin = doorvervain.pytest_plugin
"""


def release() -> str:
    """The release that the package tells."""
    with open(os.path.join(HERE, PACKAGE, "__init__.py"), encoding="utf-8") as source:
        found = re.search(r'^__version__ = "([^"]+)"', source.read(), re.M)
    assert found, "the package tells no release"
    return found.group(1)


def metadata() -> str:
    return (
        "Metadata-Version: 2.1\n"
        f"Name: {PACKAGE}\n"
        f"Version: {release()}\n"
        "Summary: A file system in memory, with snapshots\n"
        "Requires-Python: >=3.9\n"
        "Provides-Extra: fsspec\n"
        'Requires-Dist: fsspec; extra == "fsspec"\n'
        "Provides-Extra: pyfilesystem\n"
        'Requires-Dist: fs; extra == "pyfilesystem"\n'
        "Provides-Extra: pytest\n"
        'Requires-Dist: pytest; extra == "pytest"\n'
    )


# ---- the module in C


def reported_by_pkg_config(name: str) -> str:
    words = ["pkg-config", f"--variable={name}", PACKAGE]
    try:
        said = subprocess.run(words, stdout=subprocess.PIPE, stderr=subprocess.DEVNULL, text=True, check=True)
    except (OSError, subprocess.CalledProcessError):
        return ""
    return said.stdout.strip()


def folders() -> Iterator[Tuple[str, str]]:
    """Where the archive and the header may lie, the first that are there before the others."""
    named = os.environ.get("DOORVERVAIN_DIR")
    if named:
        yield os.path.join(named, "lib"), os.path.join(named, "include")
    for library, header in NEAR:
        yield os.path.join(HERE, library), os.path.join(HERE, header)
    yield reported_by_pkg_config("libdir"), reported_by_pkg_config("includedir")


def library() -> Tuple[str, str]:
    """The path of the archive, and the folder of its header."""
    for archive, header in folders():
        path = os.path.join(archive, ARCHIVE)
        if os.path.exists(path) and os.path.exists(os.path.join(header, HEADER)):
            return path, header
    sys.exit(f"{ARCHIVE} is not found: `make install` puts it into a prefix, and DOORVERVAIN_DIR names one")


def words_of(name: str, default: str = "") -> List[str]:
    """The words of a variable of the environment."""
    return shlex.split(os.environ.get(name) or default)


def compile_module(path: str) -> None:
    """Compiles the module. CC, CFLAGS and LDFLAGS are as for make."""
    archive, header = library()
    python = sysconfig.get_path("include")
    if not os.path.exists(os.path.join(python, "Python.h")):
        sys.exit(f"{python}/Python.h is not there: a package of the system as python3-dev has it")
    folder = os.path.join(HERE, "core")
    sources = sorted(os.path.join(folder, name) for name in os.listdir(folder) if name.endswith(".c"))
    words = words_of("CC", "cc") + ["-std=c11", "-O2", "-Wall", "-Wextra", "-fPIC", "-fvisibility=hidden", "-shared"]
    words += [f"-I{python}", f"-I{header}", *words_of("CFLAGS"), *sources, archive]
    words += ["-Wl,--exclude-libs,ALL", "-Wl,--gc-sections", *words_of("LDFLAGS"), "-o", path]
    try:
        subprocess.run(words, check=True)
    except (OSError, subprocess.CalledProcessError) as error:
        sys.exit(f"the module is not compiled: {error}")


def module() -> bytes:
    """The module: the one that lies here, unless another prefix is named, or else a new one."""
    built = os.path.join(HERE, MODULE)
    if os.path.exists(built) and not os.environ.get("DOORVERVAIN_DIR"):
        return read(built)
    with tempfile.TemporaryDirectory() as made:
        path = os.path.join(made, MODULE)
        compile_module(path)
        return read(path)


# ---- wheels


def sources() -> Iterator[Tuple[str, str]]:
    """The package's files: the name in the wheel, and the path here."""
    folder = os.path.join(HERE, PACKAGE)
    for name in sorted(os.listdir(folder)):
        if name.endswith((".py", ".pyi", ".typed")):
            yield f"{PACKAGE}/{name}", os.path.join(folder, name)


def row_of(name: str, data: bytes) -> str:
    digest = base64.urlsafe_b64encode(hashlib.sha256(data).digest()).rstrip(b"=").decode()
    return f"{name},sha256={digest},{len(data)}"


def tag() -> str:
    """The module keeps to the stable interface of Python 3.9."""
    return "cp39-abi3-" + sysconfig.get_platform().replace("-", "_").replace(".", "_")


def write_wheel(folder: str, files: Dict[str, bytes]) -> str:
    dist_info = f"{PACKAGE}-{release()}.dist-info"
    files[f"{dist_info}/METADATA"] = metadata().encode()
    files[f"{dist_info}/WHEEL"] = f"Wheel-Version: 1.0\nGenerator: backend.py\nRoot-Is-Purelib: false\nTag: {tag()}\n".encode()
    files[f"{dist_info}/entry_points.txt"] = ENTRY_POINTS.encode()
    rows = [row_of(name, data) for name, data in files.items()] + [f"{dist_info}/RECORD,,"]
    files[f"{dist_info}/RECORD"] = ("\n".join(rows) + "\n").encode()
    wheel = f"{PACKAGE}-{release()}-{tag()}.whl"
    with zipfile.ZipFile(os.path.join(folder, wheel), "w", zipfile.ZIP_DEFLATED) as archive:
        for name, data in files.items():
            entry = zipfile.ZipInfo(name, (1980, 1, 1, 0, 0, 0))
            entry.external_attr = (0o755 if name.endswith(MODULE) else 0o644) << 16
            entry.compress_type = zipfile.ZIP_DEFLATED
            archive.writestr(entry, data)
    return wheel


def read(path: str) -> bytes:
    with open(path, "rb") as source:
        return source.read()


def build_wheel(wheel_directory, config_settings=None, metadata_directory=None):
    files = {name: read(path) for name, path in sources()}
    files[f"{PACKAGE}/{MODULE}"] = module()
    return write_wheel(wheel_directory, files)


def build_editable(wheel_directory, config_settings=None, metadata_directory=None):
    """A wheel that points here, where the module is put beside the sources."""
    with open(os.path.join(HERE, PACKAGE, MODULE), "wb") as file:
        file.write(module())
    return write_wheel(wheel_directory, {f"{PACKAGE}.pth": (HERE + "\n").encode()})


def build_sdist(sdist_directory, config_settings=None):
    name = f"{PACKAGE}-{release()}"
    files = list(sources()) + [(one, os.path.join(HERE, one)) for one in ["pyproject.toml", "backend.py", "core"]]
    with tarfile.open(os.path.join(sdist_directory, f"{name}.tar.gz"), "w:gz") as archive:
        for inside, path in files:
            archive.add(path, f"{name}/{inside}")
        member = tarfile.TarInfo(f"{name}/PKG-INFO")
        text = metadata().encode()
        member.size = len(text)
        archive.addfile(member, io.BytesIO(text))
    return f"{name}.tar.gz"


if __name__ == "__main__":
    if len(sys.argv) != 2:
        sys.exit(__doc__)
    compile_module(sys.argv[1])
