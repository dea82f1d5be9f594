"""Trees: scripts with each answer of the live tree and of frozen ones, whatever the shape and the steps between the calls; updates of one
block; and copies between files beside a plain program.
"""
import copy
import random

from calls import EINVAL, ENOENT, ERRORS, SMALL, USUAL, Pointer, Volume, ask, given_up, stat_of, told
from volumes import copied, done, extents

NAMES = {number: name for name, number in ERRORS.items()}
# The greatest number of bytes of a file.
LIMIT = 2**40
# A shape, and how many steps of compaction follow each call.
RUNS = [(USUAL, 0), (USUAL, 1), (SMALL, 0), (SMALL, 1), (SMALL, 1_000)]

# ---- scripts

# Calls, one in each line, with a timestamp if it is not 0, and an answer if it is not `ok`. Of `read@s` it is that of a snapshot.
FOUND = r"""
create /f
write /f 0 12345
mkdir /b
mkdir /a
create /a/x
mkdir /a/d
create /a/d/y
write /a/d/y 0 123456789
create /a-b
write /a-b 0 1
"""

SCRIPTS = {
    "an entry is there, is not there, or is behind a file": FOUND
    + r"""
stat / = dir 0
stat /f = file 5 0
stat /a/d = dir 0
stat /a/d/y = file 9 0
stat /c = ENOENT
stat /c/d/e = ENOENT
stat /a/d/z = ENOENT
stat /f/g = ENOTDIR
stat /a/x/y/z = ENOTDIR
""",
    "a new entry needs a directory above it": FOUND
    + r"""
mkdir / = EEXIST
create /a/x = EEXIST
mkdir /c
create /a/d/z
create /g/d = ENOENT
create /a/c/d/e = ENOENT
create /f/g = ENOTDIR
create /a/x/y/z = ENOTDIR
""",
    "a directory is empty if nothing is below it": FOUND
    + r"""
rename /b / = ENOTEMPTY
rmdir /a = ENOTEMPTY
rmdir /a/d = ENOTEMPTY
rmdir /b
rmdir /f = ENOTDIR
rmdir /c = ENOENT
""",
    "a directory lists its own entries in order": FOUND
    + r"""
readdir / = d a, f a-b, d b, f f
readdir /a = d d, f x
readdir /a/d = f y
readdir /b =
readdir /f = ENOTDIR
readdir /c = ENOENT
""",
    "a subtree moves and goes with its own blocks": r"""
mkdir /a
create /ab
create /a/g
create /a/f
create /a-b
write /ab 0 1
write /a/g 0 2
write /a/f 4096 3
write /a-b 0 4
write /a/f 0 5
rename /a /z
read /z/f 0 1 = 5
read /z/f 4095 9 = \x003
read /z/g 0 9 = 2
read /ab 0 9 = 1
read /a-b 0 9 = 4
stat /a/f = ENOENT
rmtree /z
read /ab 0 9 = 1
read /a-b 0 9 = 4
mkdir /z
create /z/f
truncate /z/f 4097
read /z/f 4095 9 = \x00\x00
""",
    "lengths and mtimes are set": r"""
create /f
write /f 0 12345
mkdir /b
@9 write /f 2 x
stat /f = file 5 9
@4 write /f 6 x
stat /f = file 7 4
@6 truncate /f 2
stat /f = file 2 6
@5 write /f 3 x
stat /f = file 4 5
@8 set_mtime /f
stat /f = file 4 8
@7 create /b/x
stat /b = dir 7
@1 unlink /b/x
stat /b = dir 1
@3 write /b 0 x = EISDIR
@3 truncate /b 2 = EISDIR
stat /b = dir 1
@2 write /c 0 x = ENOENT
@2 truncate /c 2 = ENOENT
@2 set_mtime /c = ENOENT
stat /c = ENOENT
""",
    "the bytes of a file are those that were written and not cut": r"""
create /f
write /f 4095 \xaa\xbb
read /f 4094 4 = \x00\xaa\xbb
read /f 4096 9 = \xbb
read /f 4097 9 =
truncate /f 4096
truncate /f 8192
read /f 4095 2 = \xaa\x00
truncate /f 0
write /f 0 0123456789
truncate /f 5
truncate /f 9000
read /f 0 8 = 01234\x00\x00\x00
write /f 1099511627775 z
read /f 1099511627775 2 = z
""",
    "what was cut reads as zeros": r"""
create /f
write /f 0 ffffffffff
truncate /f 5
truncate /f 9000
read /f 0 8 = fffff\x00\x00\x00
image = D / 0\nF /f 9000 0\nb 0 6666666666\n
""",
    "the image of nothing": r"image = D / 0\n",
    "a directory stands before its entries": r"""
mkdir /d
create /d/n
image = D / 0\nD /d 0\nF /d/n 0 0\n
""",
    "each call succeeds and fails, at timestamps that do not rise": r"""
@1 mkdir /a
@2 create /a = EEXIST
@3 create /a/f
@9 write /a/f 3 words
@4 write /a 0 words = EISDIR
@7 truncate /a/f 6
@5 rename /a/f /a/g
@6 rmdir /a = ENOTEMPTY
@6 unlink /a = EPERM
@8 mkdir /a/d
@4 rmdir /a/d
@6 unlink /a/f = ENOENT
read /a/g 0 99 = \x00\x00\x00wor
stat /a/g = file 6 7
stat /a = dir 4
readdir /a = f g
@5 rmtree /a
@5 rmtree /a = ENOENT
""",
    "a snapshot keeps what is unlinked": r"""
create /notes
write /notes 0 hello
snapshot before
unlink /notes
stat@before /notes = file 5 0
stat /notes = ENOENT
""",
}

# Two updates of a file of one byte at mtime 1, and its length and mtime then: the mtime is that of the later update, even if that is less.
UPDATES = [
    ("@9 truncate /f 3", "@4 truncate /f 2", "file 2 4"),
    ("@9 write /f 2 x", "@4 write /f 1 x", "file 3 4"),
    ("@4 truncate /f 3", "@9 write /f 4 x", "file 5 9"),
    ("@9 write /f 2 x", "@4 truncate /f 2", "file 2 4"),
    ("@9 set_mtime /f", "@4 set_mtime /f", "file 1 4"),
    ("@9 set_mtime /f", "@4 truncate /f 2", "file 2 4"),
    ("@9 set_mtime /f", "@4 write /f 1 x", "file 2 4"),
    ("@9 truncate /f 3", "@4 set_mtime /f", "file 3 4"),
    ("@9 write /f 2 x", "@4 set_mtime /f", "file 3 4"),
]


def as_bytes(word: str) -> bytes:
    return word.encode().decode("unicode_escape").encode("latin-1")


def as_text(data: bytes) -> str:
    return repr(data)[2:-1]


def as_names(listing: bytes) -> str:
    return ", ".join(f"{name[:1].decode()} {name[1:].decode()}" for name in listing.split(b"\0")[:-1])


def looked_at(tree: Pointer, frozen: str, words: list):
    """What a volume or a frozen tree answers to a call that only looks."""
    call, path = frozen + words[0], words[1].encode()
    if words[0] == "stat":
        return stat_of(call, tree, path)
    return told(call, tree, path, int(words[2]), capacity=int(words[3])) if words[0] == "read" else told(call, tree, path)


def looked(volume: Volume, name: bytes | None, words: list) -> tuple:
    """The answers of the live tree and of the same tree frozen, or twice that of a snapshot."""
    frozen = volume.tree(name)
    of_frozen = looked_at(frozen, "frozen_", words)
    given_up("frozen_close", frozen)
    return of_frozen if name else looked_at(volume.fs, "", words), of_frozen


def as_answer(call: str, got) -> str:
    if isinstance(got, int):
        return NAMES[got]
    if call == "stat":
        kind, length, modified = got
        return f"dir {modified}" if kind == 1 else f"file {length} {modified}"
    return as_text(got) if call == "read" else as_names(got)


def changed(volume: Volume, at: int, words: list) -> str:
    """The answer to a call that changes the volume."""
    call, text, *rest = words
    if call in ("snapshot", "restore", "drop_snapshot"):
        number = volume.ask(call, text.encode())
    elif call == "write":
        number = volume.ask(call, text.encode(), int(rest[0]), as_bytes(rest[1]), at)
    elif call == "rename":
        number = volume.ask(call, text.encode(), rest[0].encode(), at)
    else:
        number = volume.ask(call, text.encode(), *map(int, rest), at)
    return NAMES[number] if number else "ok"


def answer(volume: Volume, line: str) -> str | tuple:
    """The answer to a line; if the frozen tree has another, both."""
    stamp, line = line.split(" ", 1) if line.startswith("@") else ("@0", line)
    words = line.split()
    if words[0] == "image":
        return as_text(volume.image())
    call, _, name = words[0].partition("@")
    if call not in ("read", "stat", "readdir"):
        return changed(volume, int(stamp[1:]), words)
    live, frozen = (as_answer(call, it) for it in looked(volume, name.encode() or None, [call, *words[1:]]))
    return live if live == frozen else (live, frozen)


def first_other(script: str, shape: tuple, steps: int):
    """The first line of a script that is not answered as it says, and the answer; none if there is none."""
    volume = Volume(shape)
    for line in filter(None, script.split("\n")):
        call, is_told, wanted = line.partition(" =")
        got = answer(volume, call)
        if got != (wanted.lstrip() if is_told else "ok"):
            return line, got
        volume.ask("compact", steps)
    return None


# ---- updates of one block

# Updates of a file of the bytes `12345`: a place and the bytes that are written there, or the length to which it is cut, and the bytes
# then.
BLOCKS = [
    ([(4, b"ab"), (2, b"c")], b"12c4ab"),
    ([(2, b"c"), (4, b"ab")], b"12c4ab"),
    ([(7, b"c"), (0, b"ab")], b"ab345\0\0c"),
    ([(2, b"c"), (3, b"d")], b"12cd5"),
    ([(4, b"ab"), (2, b"cd")], b"12cdab"),
    ([(1, b"aaa"), (2, b"b")], b"1aba5"),
    ([(2, b"b"), (1, b"aaa")], b"1aaa5"),
    ([2, 4], b"12\0\0"),
    ([4, 2], b"12"),
    ([(0, b"a"), 4], b"a234"),
    ([(1, b"abc"), 3], b"1ab"),
    ([(7, b"a"), 6], b"12345\0"),
    ([4, (0, b"a")], b"a234"),
    ([2, (4, b"a")], b"12\0\0a"),
    ([(0, b"ab"), (4, b"cd"), (2, b"x"), (6, b"y")], b"abx4cdy"),
    ([(0, b"ab"), (6, b"cd"), 3, (4, b"e")], b"ab3\0e"),
    ([2, (3, b"a"), 1, (8, b"b"), (4, b"c")], b"1\0\0\0c\0\0\0b"),
]

# One update after the other of a file of the byte `d`, the length then, and the first and the last bytes.
FILLED = [
    ((4095, b"x"), 4096, b"d\0\0\0", b"\0\0x"),
    ((4094, b"yz"), 4096, b"d\0", b"\0yz"),
    ((0, b"ab"), 4096, b"ab\0", b"\0yz"),
    (4096, 4096, b"ab\0", b"\0yz"),
    (2, 2, b"ab", b"ab"),
    (0, 0, b"", b""),
    ((1, b"c"), 2, b"\0c", b"\0c"),
]


def with_bytes(shape: tuple, data: bytes) -> Volume:
    """A volume of one file, nothing pending."""
    volume = Volume(shape)
    done(volume.ask("create", b"/f", 0), volume.ask("write", b"/f", 0, data, 0))
    volume.ask("compact", 1_000)
    return volume


def update(volume: Volume, it) -> None:
    """Writes, or cuts a file that is made longer before, so that there is something to cut."""
    if isinstance(it, tuple):
        done(volume.ask("write", b"/f", *it, 0))
    else:
        longer = max(it + 1, volume.stat(b"/f")[1])
        done(volume.ask("truncate", b"/f", longer, 0), volume.ask("truncate", b"/f", it, 0))


def updated(updates: list, steps: int) -> tuple:
    """The bytes behind the updates, and once nothing is pending."""
    volume = with_bytes(SMALL, b"12345")
    for it in updates:
        update(volume, it)
        volume.ask("compact", steps)
    before = volume.told("read", b"/f", 0)
    volume.ask("compact", 1_000)
    return before, volume.told("read", b"/f", 0)


def filled() -> list:
    """The length, and whether the ends of the bytes are those of the row, after each update, each time with the bytes before in a snapshot."""
    volume, got = with_bytes(SMALL, b"d"), []
    for it, _, first, last in FILLED:
        before = volume.told("read", b"/f", 0)
        done(volume.ask("snapshot", b"before"))
        update(volume, it)
        data, tree = volume.told("read", b"/f", 0), volume.tree(b"before")
        got.append((len(data), data.startswith(first) and data.endswith(last), told("frozen_read", tree, b"/f", 0) == before))
        given_up("frozen_close", tree)
        done(volume.ask("drop_snapshot", b"before"))
    return got


def begun(it) -> tuple:
    """The bytes of a file without blocks after an update, and its stored extents."""
    volume = Volume(SMALL)
    done(volume.ask("create", b"/f", 0))
    update(volume, it)
    return volume.told("read", b"/f", 0), extents(lambda *words: volume.ask("next_extent", *words))


# ---- copies

FILES = ["/a", "/b", "/c"]


class Plain:
    """The plain program: directories and files by their paths, each with its mtime, and the bytes of a file."""

    def __init__(self):
        self.entries, self.snapshots = {"/": (0, None)}, {}

    def fault(self, path: str) -> str | None:
        """Why there is no file at a path."""
        if path in self.entries:
            return "EISDIR" if self.entries[path][1] is None else None
        above = path.rpartition("/")[0] or "/"
        while above not in self.entries:
            above = above.rpartition("/")[0] or "/"
        return "ENOENT" if self.entries[above][1] is None else "ENOTDIR"

    def add(self, path: str, data: bytearray | None, at: int) -> str:
        self.entries[path] = (at, data)
        self.entries[path.rpartition("/")[0] or "/"] = (at, None)
        return "ok"

    def write(self, path: str, offset: int, new: bytes, at: int) -> str | int:
        if self.fault(path):
            return self.fault(path)
        if new and offset + len(new) > LIMIT:
            return "EFBIG"
        if new:
            data = self.entries[path][1]
            data.extend(bytes(max(0, offset - len(data))))
            data[offset : offset + len(new)] = new
            self.entries[path] = (at, data)
        return len(new)

    def cut(self, path: str, length: int, at: int) -> str:
        data = self.entries[path][1]
        del data[length:]
        data.extend(bytes(length - len(data)))
        self.entries[path] = (at, data)
        return "ok"

    def copy(self, source: str, offset: int, target: str, place: int, count: int, at: int) -> str | int:
        if self.fault(source):
            return self.fault(source)
        return self.write(target, place, bytes(self.entries[source][1][offset : offset + count]), at)

    def snap(self, call: str, name: str) -> str:
        if call == "snapshot":
            self.snapshots[name] = copy.deepcopy(self.entries)
        else:
            self.entries = copy.deepcopy(self.snapshots[name])
        return "ok"

    def image(self) -> bytes:
        lines = []
        for path in sorted(self.entries, key=lambda it: it.split("/")):
            modified, data = self.entries[path]
            lines.append(f"D {path} {modified}" if data is None else f"F {path} {len(data)} {modified}")
            blocks = [bytes(data[i : i + 4096]).rstrip(b"\0") for i in range(0, len(data or b""), 4096)] if data else []
            lines += [f"b {number} {block.hex()}" for number, block in enumerate(blocks) if block]
        return "".join(line + "\n" for line in lines).encode()


def pattern(offset: int, count: int, at: int) -> bytes:
    """Bytes that tell their place and the moment."""
    return bytes((place * 2_654_435_761 + at * 97) >> 9 & 255 for place in range(offset, offset + count))


def acted(volume: Volume, plain: Plain, act: tuple, at: int) -> tuple:
    """What a volume and the plain program answer."""
    call, *words = act
    if call == "compact":
        volume.ask(call, *words)
        return None, None
    if call == "copy":
        source, offset, target, place, count = words
        got = copied(volume, source.encode(), offset, target.encode(), place, count, at)
        return NAMES[-got] if got < 0 else got, plain.copy(*words, at)
    if call == "fill":
        path, offset, count = words
        new = pattern(offset, count, at)
        number = volume.ask("write", path.encode(), offset, new, at)
        return NAMES[number] if number else count, plain.write(path, offset, new, at)
    if call in ("mkdir", "create"):
        wanted = plain.add(words[0], bytearray() if call == "create" else None, at)
    else:
        wanted = plain.cut(*words, at) if call == "truncate" else plain.snap(call, *words)
    return changed(volume, at, [call, *map(str, words)]), wanted


def first_unlike(acts: list):
    """The first of some acts that is answered in another way than by the plain program, or leaves another tree; none if there is none."""
    volume, plain = Volume(SMALL), Plain()
    for at, act in enumerate(acts):
        got, wanted = acted(volume, plain, act, at)
        if got != wanted or volume.image() != plain.image():
            return at, act, got, wanted
    return None


ACTS = [
    ("mkdir", "/d"),
    ("create", "/d/f"),
    ("create", "/g"),
    # no bytes
    ("copy", "/d/f", 0, "/g", 0, 10),
    ("fill", "/d/f", 0, 20_000),
    ("fill", "/g", 0, 9_000),
    # whole blocks, with bytes behind them
    ("copy", "/d/f", 0, "/g", 0, 20_000),
    ("copy", "/d/f", 4096, "/g", 8192, 8192),
    ("copy", "/d/f", 0, "/g", 40_960, 2**64 - 1),
    # blocks that begin at another place
    ("copy", "/d/f", 100, "/g", 0, 9_000),
    ("copy", "/d/f", 4096, "/g", 1, 4096),
    ("copy", "/d/f", 5000, "/g", 904, 8192),
    # past the end
    ("copy", "/d/f", 20_000, "/g", 0, 10),
    ("copy", "/d/f", 30_000, "/g", 0, 10),
    ("copy", "/d/f", 2**64 - 1, "/g", 0, 2**64 - 1),
    ("copy", "/d/f", 16_384, "/g", 0, 100_000),
    # within one file
    ("copy", "/g", 0, "/g", 4096, 16_384),
    ("copy", "/g", 8192, "/g", 0, 20_000),
    ("copy", "/g", 4096, "/g", 4096, 4096),
    ("copy", "/g", 10, "/g", 700, 9_000),
    # a hole
    ("truncate", "/d/f", 60_000),
    ("fill", "/d/f", 50_000, 100),
    ("copy", "/d/f", 0, "/g", 0, 60_000),
    ("copy", "/d/f", 24_576, "/g", 0, 16_384),
    ("copy", "/d/f", 24_576, "/new", 0, 16_384),
    ("create", "/new"),
    ("copy", "/d/f", 24_576, "/new", 8192, 16_385),
    # behind steps, and behind a snapshot
    ("compact", 50),
    ("copy", "/d/f", 0, "/new", 4096, 60_000),
    ("snapshot", "s"),
    ("fill", "/d/f", 4000, 5000),
    ("copy", "/d/f", 0, "/g", 0, 12_288),
    ("fill", "/g", 4100, 10),
    ("compact", 50),
    ("copy", "/g", 0, "/d/f", 4096, 12_288),
    ("restore", "s"),
    ("copy", "/new", 4096, "/new", 0, 40_000),
    # no file
    ("copy", "/none", 0, "/g", 0, 10),
    ("copy", "/d", 0, "/none", 0, 10),
    ("copy", "/g/x", 0, "/none", 0, 10),
    ("copy", "/g", 0, "/none", 0, 10),
    ("copy", "/g", 0, "/d", 0, 10),
    ("copy", "/g", 0, "/d/f/x", 0, 10),
    ("copy", "/g", 2**64 - 1, "/none", 0, 10),
    ("copy", "/", 0, "/g", 0, 10),
    ("copy", "/g", 0, "/", 0, 10),
    # too long a file
    ("copy", "/g", 0, "/d/f", LIMIT, 1),
    ("copy", "/g", 0, "/d/f", LIMIT - 4096, 4097),
    ("copy", "/g", 0, "/d/f", 2**64 - 1, 10),
    ("copy", "/g", 1_000_000, "/d/f", 2**64 - 1, 10),
]


def any_acts(seed: int, count: int) -> list:
    """Acts on three files, at places which are mostly those where a block begins."""
    chance = random.Random(seed)

    def place() -> int:
        return chance.randrange(9) * 4096 + chance.choice([0, 0, 0, chance.randrange(4096)])

    acts = [("create", path) for path in FILES]
    for _ in range(count):
        one, other = chance.choice(FILES), chance.choice(FILES)
        fill, cut = ("fill", one, place(), chance.randrange(9_000)), ("truncate", one, place())
        made = ("copy", one, place(), other, place(), place())
        acts.append(chance.choice([fill] * 3 + [cut, ("compact", chance.randrange(6))] + [made] * 5))
    return acts


# ---- many names, and a long read


def beside_many_names() -> tuple:
    """The listing of two directories, of which one has 2,000 files, and the answers to their removal."""
    volume = Volume()
    done(volume.ask("mkdir", b"/a", 0), volume.ask("mkdir", b"/b", 0))
    done(*(volume.ask("create", b"/a/%04d" % number, 0) for number in range(2_000)))
    return volume.told("readdir", b"/"), len(volume.told("readdir", b"/a")), volume.ask("rmdir", b"/a", 0), volume.ask("rmdir", b"/b", 0)


def removed_and_made() -> tuple:
    """The listing of a directory that went with 300 files and was made again with one, before and after steps; and whether there are any."""
    volume = Volume(SMALL)
    done(volume.ask("mkdir", b"/d", 0), *(volume.ask("create", b"/d/f%03d" % number, 0) for number in range(300)))
    done(volume.ask("rmtree", b"/d", 0), volume.ask("mkdir", b"/d", 0), volume.ask("create", b"/d/n", 0))
    return volume.told("readdir", b"/d"), volume.ask("compact", 1_000) > 0, volume.told("readdir", b"/d")


def long_read() -> bytes:
    """The greatest read of a file of which the last byte alone is not 0, from its second byte on."""
    volume = Volume()
    done(volume.ask("create", b"/f", 0), volume.ask("write", b"/f", 2**20, b"\1", 0))
    return told("read", volume.fs, b"/f", 1, capacity=2**20)


def frozen_before() -> tuple:
    """The listing of a root of which the file is gone, and that of the tree that was frozen before."""
    volume = with_bytes(SMALL, b"\xaa")
    tree = volume.tree()
    done(volume.ask("unlink", b"/f", 0))
    got = volume.told("readdir", b"/"), told("frozen_readdir", tree, b"/"), told("frozen_read", tree, b"/f", 0)
    given_up("frozen_close", tree)
    return got


def each():
    for name, script in SCRIPTS.items():
        for shape, steps in RUNS:
            yield f"{name}, in {shape} with {steps} steps", first_other(script, shape, steps), None
    for first, later, wanted in UPDATES:
        script = f"@1 create /f\n@1 write /f 0 x\n{first}\n{later}\nstat /f = {wanted}"
        for shape, steps in RUNS:
            yield f"{first}, {later}, in {shape} with {steps} steps", first_other(script, shape, steps), None
    for updates, wanted in BLOCKS:
        for steps in (0, 1, 1_000):
            yield f"{updates} with {steps} steps", updated(updates, steps), (wanted, wanted)
    yield "a block is filled to its end and cut to nothing", filled(), [(length, True, True) for _, length, _, _ in FILLED]
    yield "a write makes a block", begun((2, b"a")), (b"\0\0a", [(0, 3), (3, 3)])
    yield "a cut makes no block", begun(7), (bytes(7), [(7, 7)])
    yield "copies as by the plain program", first_unlike(ACTS), None
    for seed in range(4):
        yield f"copies by chance, from {seed} on", first_unlike(any_acts(seed, 60)), None
    yield "many names below another", beside_many_names(), (b"da\0db\0", 2_000 * 6, ERRORS["ENOTEMPTY"], 0)
    yield "a directory is made again", removed_and_made(), (b"fn\0", True, b"fn\0")
    yield "a long read", long_read(), bytes(2**20 - 1) + b"\1"
    yield "a frozen tree stays", frozen_before(), (b"", b"ff\0", b"\xaa")
    yield "a snapshot that is not there", Volume(SMALL).ask("open_snapshot", b"s", Pointer()), ENOENT
    yield "a shape with fewer messages than slots", Volume((8, 4, 4)).refused, (EINVAL, 0)
