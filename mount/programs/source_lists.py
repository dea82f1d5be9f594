"""Lists of packages of either form become lists of source packages."""
from importlib.machinery import SourceFileLoader
from importlib.util import module_from_spec, spec_from_loader
from pathlib import Path

loader = SourceFileLoader("run_programs", str(Path(__file__).resolve().parent.parent / "run-programs"))
run_programs = module_from_spec(spec_from_loader("run_programs", loader))
loader.exec_module(run_programs)

LINES = """\
# deb http://one.example/debian old main
deb [signed-by=/k.gpg] http://one.example/debian stable main
deb\thttp://two.example/debian stable main contrib
deb-src http://two.example/debian stable main contrib
"""
PARTS = """\
Types: deb
# a note
URIs: http://one.example/debian
Suites: stable stable-updates
Components: main
Signed-By: /k.gpg

types: deb deb-src
URIs: http://two.example/debian
Suites: stable
Components: main
Enabled: no
"""
assert run_programs.source_lines(LINES) == """\
deb-src [signed-by=/k.gpg] http://one.example/debian stable main
deb-src http://two.example/debian stable main contrib
"""
assert run_programs.source_parts(PARTS) == PARTS.replace("Types: deb\n", "Types: deb-src\n").replace(
    "types: deb deb-src\n", "Types: deb-src\n")
written = Path(run_programs.__file__ if hasattr(run_programs, "__file__") else loader.path).read_text()
assert "://" not in written, "the run_programs names a host"
