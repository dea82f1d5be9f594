#!/usr/bin/env python3
"""Writes a program that reaches other programs and static libraries: tests/parts.py CRATES NAME .., in a copy of the folder of crates.
tests/unproved builds it, and keeps of its module what one of them reaches.

CRATES/parts/src/main.rt chooses by the number that `part` returns, in whose place tests/unproved puts that of a part. Of a program it runs what its `main` does, since a program's runtime
starts threads in `main` alone. Of a static library it calls each export. Such calls are only compiled and never run, so what they hand in is
made of the null pointer. Each of the crates becomes a library.
"""

import pathlib
import re
import sys

EXPORT = re.compile(r'^pub extern "C" fn (\w+)\(([^)]*)\)', re.M)
MAIN = re.compile(r"^fn main\(rt: HostRuntime\) -> ExitCode \{\n(.*?)^\}\n", re.M | re.S)
FUNCTION = re.compile(r"^fn (\w+)", re.M)
NUMBERS = ("u8", "u16", "u32", "u64", "usize")

HEAD = """#![tactic(auto)]
use std::io;
use std::process::ExitCode;

#[inline(never)]
fn part() -> u8 {
    77
}

fn main(rt: HostRuntime) -> ExitCode {
    match part() {
"""


def argument(kind):
    """Returns an expression of a type, as a parameter of an export may have it."""
    if kind in NUMBERS:
        return "0"
    if kind == "&[u8]":
        return "&[0u8; 1]"
    if kind == "&mut [u8]":
        return "&mut [0u8; 1]"
    null = "std::ptr::null_mut::<u8>()"
    if kind.startswith("&mut "):
        return f"unsafe {{ &mut *({null} as *mut {kind[5:]}) }}"
    if kind.startswith("&"):
        return f"unsafe {{ &*({null} as *const {kind[1:]}) }}"
    return f"unsafe {{ std::ptr::read({null} as *const {kind}) }}"


def call(name, parameters):
    kinds = [it.split(":", 1)[1].strip() for it in parameters.split(",") if it.strip()]
    return f"    let _{name} = {name}({', '.join(map(argument, kinds))});\n"


def by_value(parameters):
    """Returns the types that are no numbers and come without a reference."""
    kinds = re.findall(r":\s*(\w+)\s*(?:,|$)", parameters)
    return [it for it in kinds if it not in (*NUMBERS, "Global")]


def is_one_pointer(kind, sources):
    """Says whether a struct is one pointer, which C hands over as this program's functions take it."""
    body = re.search(rf"#\[repr\(C\)\]\npub struct {kind} {{\n(.*?)^}}", sources, re.M | re.S)
    fields = re.findall(r"^ {4}(?:pub(?:\(crate\))? )?(?!ghost)(\w+): ([^,\n]+),$", body[1], re.M) if body else []
    return [it for _, it in fields] == ["*mut u8"]


def reach_exports(source):
    """Writes a function that calls each export of a static library. Returns an expression that calls it."""
    texts = {it: it.read_text() for it in sorted(source.rglob("*.rt"))}
    reaching = []
    for file, text in texts.items():
        exports = EXPORT.findall(text)
        for name, parameters in exports:
            for kind in by_value(parameters):
                if not is_one_pointer(kind, "\n".join(texts.values())):
                    sys.exit(f"tests/parts.py: {name} takes {kind} by value, which is no struct of one pointer")
        if exports and file.parent != source:
            sys.exit(f"tests/parts.py: {file} has exports: those of a module of src alone can be reached")
        if exports:
            reaching.append(file.stem)
            file.write_text(text + "\npub fn reach_exports() {\n" + "".join(call(*it) for it in exports) + "}\n")
    calls = "".join(f"    {it}::reach_exports();\n" for it in reaching)
    library = source / "lib.rt"
    library.write_text(library.read_text() + f"\n/// Reaches each export.\npub fn reach_exports() {{\n{calls}}}\n")


def take_main(source, crate):
    """Makes a library of a program. Returns what its `main` did, with its functions called by their full names."""
    text = (source / "main.rt").read_text()
    found = MAIN.search(text)
    text = text[: found.start()] + text[found.end() :]
    calls = re.compile(rf"(?<![\w:.])({'|'.join(FUNCTION.findall(text))})(?=\()")
    called = "|".join(calls.findall(found[1]))
    (source / "lib.rt").write_text(re.sub(rf"^fn (?=({called})\b)", "pub fn ", text, flags=re.M))
    (source / "main.rt").unlink()
    return calls.sub(rf"{crate}::\1", found[1])


def main():
    crates = pathlib.Path(sys.argv[1])
    arms = ""
    for number, crate in enumerate(sys.argv[2:]):
        source = crates / crate / "src"
        if (source / "main.rt").exists():
            does = take_main(source, crate)
        else:
            reach_exports(source)
            does = f"    {crate}::reach_exports();\n    ExitCode::from(0)\n"
        arms += f"        {number} => {{\n{does}        }}\n"
    (crates / "parts/src/main.rt").write_text(HEAD + arms + "        _ => ExitCode::from(0),\n    }\n}\n")


main()
