"""Rows that are made from fixed seeds: images that look random and damage done to them, and scripts of no sense."""
import random
import re
from collections.abc import Callable, Iterator

BLOCK = 4096
LONGEST = 2**40
IMAGES = 1000

# ---- which texts are images, found line by line; this shares nothing with the loader


def number(word: bytes) -> int | None:
    """A number in decimal, in its one spelling."""
    if not word.isdigit() or (word[:1] == b"0" and len(word) > 1) or len(word) > 20 or int(word) >= 2**64:
        return None
    return int(word)


def name_of(word: bytes) -> bytes | None:
    """The bytes of a name in its one spelling."""
    name, at = bytearray(), 0
    while at < len(word):
        if word[at] != ord("%"):
            if not 33 <= word[at] <= 126:
                return None
            name.append(word[at])
            at += 1
            continue
        digits = word[at + 1 : at + 3]
        if len(digits) < 2 or any(it not in b"0123456789ABCDEF" for it in digits):
            return None
        byte = int(digits, 16)
        if not (1 <= byte <= 32 or byte == 37 or byte >= 127) or byte == ord("/"):
            return None
        name.append(byte)
        at += 3
    return bytes(name) if name and len(name) <= 255 and name not in (b".", b"..") else None


class Reported:
    """What the lines so far have told."""

    def __init__(self) -> None:
        self.directories = {b""}
        self.last = b""
        self.length: int | None = None
        self.next = 0
        self.tells_moments = False

    def takes_root(self, line: bytes) -> bool:
        match line.split(b" "):
            case [b"d", b"/"]:
                return True
            case [b"D", b"/", moment]:
                self.tells_moments = True
                return number(moment) is not None
        return False

    def takes(self, line: bytes) -> bool:
        words = line.split(b" ")
        if self.tells_moments and words[0] in (b"D", b"F"):
            if number(words.pop()) is None:
                return False
            words[0] = words[0].lower()
        elif self.tells_moments and words[0] != b"b":
            return False
        match words:
            case [b"d", path]:
                return self.takes_entry(path, None)
            case [b"f", path, length]:
                length = number(length)
                return length is not None and length <= LONGEST and self.takes_entry(path, length)
            case [b"b", index, digits]:
                return self.takes_block(number(index), digits)
        return False

    def takes_entry(self, path: bytes, length: int | None) -> bool:
        names = [name_of(word) for word in path.split(b"/")[1:]]
        if not path.startswith(b"/") or None in names:
            return False
        key = b"".join(name + b"\0" for name in names)
        above = b"".join(name + b"\0" for name in names[:-1])
        # (a text of one path has a slash where its key has a byte 0)
        if len(key) > 1023 or key <= self.last or above not in self.directories:
            return False
        if length is None:
            self.directories.add(key)
        self.last, self.length, self.next = key, length, 0
        return True

    def takes_block(self, index: int | None, digits: bytes) -> bool:
        if index is None or self.length is None or index < self.next or len(digits) % 2 or len(digits) > 2 * BLOCK:
            return False
        if not digits or digits.strip(b"0123456789abcdef") or digits.endswith(b"00"):
            return False
        self.next = index + 1
        return index * BLOCK + len(digits) // 2 <= self.length


def bad_line(text: bytes) -> int | None:
    """The first line with which a text is no image; none where it is one."""
    *lines, rest = text.split(b"\n")
    reported = Reported()
    for place, line in enumerate(lines, 1):
        if not (reported.takes_root(line) if place == 1 else reported.takes(line)):
            return place
    return len(lines) + 1 if rest or not lines else None


# ---- images that look random

NAMES = sorted([b"%0A", b"%20", b"!", b"%25", b"-", b".a", b"A", b"a", b"a%20b", b"a!", b"ab", b"%FF"], key=name_of)
LENGTHS = [0, 1, 5, 4095, 4096, 4097, 9000, LONGEST]
MOMENTS = [0, 1, 5, 10, 2**63, 2**64 - 1]


def blocks_of(draw: random.Random, length: int) -> Iterator[bytes]:
    index = 0
    for _ in range(draw.randrange(4)):
        index = max(index, LONGEST // BLOCK - 1) if draw.randrange(8) == 0 else index + draw.randrange(3)
        room = min(BLOCK, length - index * BLOCK)
        if room <= 0:
            return
        count = room if draw.randrange(32) == 0 else min(room, 6)
        made = [draw.choice([0, draw.randrange(256)]) for _ in range(count - 1)] + [draw.randrange(1, 256)]
        yield b"b %d %s\n" % (index, bytes(made).hex().encode())
        index += 1


def goes_on(draw: random.Random, names: list[int], is_directory: bool) -> bool:
    """Makes the numbers of a path's names those of a later path, which may stand in the last one; whether there is one."""
    if is_directory and len(names) < 3 and draw.randrange(4):
        names.append(draw.randrange(4))
        return True
    while names:
        later = names.pop() + 1 + draw.randrange(4)
        if later < len(NAMES):
            names.append(later)
            return True
    return False


def entry_line(draw: random.Random, tells_moments: bool, letter: bytes, *words: bytes) -> bytes:
    """The line of an entry: in version 2 its letter is an upper-case one, and a moment ends it."""
    if tells_moments:
        letter, words = letter.upper(), (*words, b"%d" % draw.choice(MOMENTS))
    return b" ".join((letter, *words)) + b"\n"


def printed(text: bytes) -> bytes:
    """An image as it is printed: in version 2, where version 1 has the moment 0."""
    reported = re.sub(rb"^d (.*)$", rb"D \1 0", text, flags=re.M)
    return re.sub(rb"^f (.*)$", rb"F \1 0", reported, flags=re.M)


def image_of(draw: random.Random) -> bytes:
    """An image in the order of its keys: each entry stands in the directory before it, or behind that or one above it."""
    reported = draw.randrange(2) == 1
    lines, names, is_directory = [entry_line(draw, reported, b"d", b"/")], [], True
    for _ in range(24):
        if not goes_on(draw, names, is_directory):
            break
        path = b"".join(b"/" + NAMES[it] for it in names)
        is_directory = draw.randrange(2) == 0
        if is_directory:
            lines.append(entry_line(draw, reported, b"d", path))
        else:
            length = draw.choice(LENGTHS)
            lines += [entry_line(draw, reported, b"f", path, b"%d" % length), *blocks_of(draw, length)]
    return b"".join(lines)


# ---- damage

Damage = Callable[[random.Random, bytes, int], bytes]


def line_from(text: bytes, place: int, kinds: bytes = b"dfbDF") -> tuple[int, int]:
    """The first line of these kinds that ends behind the place, with its line feed; nothing at the end where there is none."""
    start = text.rfind(b"\n", 0, place) + 1
    while start < len(text):
        end = text.index(b"\n", start) + 1
        if text[start] in kinds:
            return start, end
        start = end
    return len(text), len(text)


def found_from(text: bytes, place: int, bytes_: bytes) -> int:
    found = re.compile(b"[" + re.escape(bytes_) + b"]").search(text, place)
    return found.start() if found else len(text)


def swaps(text: bytes, first: tuple[int, int], second: tuple[int, int]) -> bytes:
    return text[: first[0]] + text[slice(*second)] + text[slice(*first)] + text[second[1] :]


def of_lines(change: Callable[[random.Random, bytes, int, int], bytes], kinds: bytes = b"dfbDF") -> Damage:
    """Damage of the line at a place, of these kinds."""
    return lambda draw, text, place: change(draw, text, *line_from(text, place, kinds))


def moved(draw: random.Random, text: bytes, start: int, end: int) -> bytes:
    left = text[:start] + text[end:]
    to, _ = line_from(left, draw.randrange(len(left) + 1))
    return left[:to] + text[start:end] + left[to:]


def before_word(draw: random.Random, text: bytes, place: int) -> bytes:
    at = found_from(text, place, b" ") + 1
    return text[:at] + draw.choice([b"%d" % it for it in range(10)]) + text[at:]


def other_case(draw: random.Random, text: bytes, place: int) -> bytes:
    at = found_from(text, place, b"abcdefABCDEF")
    return text[:at] + (text[at : at + 1] or b"a").swapcase() + text[at + 1 :]


def percent_form(draw: random.Random, text: bytes, place: int) -> bytes:
    at = found_from(text, place, b"!-.Aab")
    return text[:at] + (b"%%%02X" % text[at] if at < len(text) else b"%61") + text[at + 1 :]


def of_digits(text: bytes, start: int, end: int, digits: bytes) -> bytes:
    """The line of a block with other digits."""
    at = text.find(b" ", start + 2) + 1
    return text[:at] + digits + text[end - 1 :] if start < end else text


# Each kind of damage, and of how many images it makes none at least.
DAMAGES: dict[str, tuple[Damage, int]] = {
    "a byte is another": (lambda draw, text, at: text[:at] + bytes([draw.randrange(256)]) + text[at + 1 :], 1),
    "a byte is gone": (lambda draw, text, at: text[:at] + text[at + 1 :], 1),
    "a byte more": (lambda draw, text, at: text[:at] + bytes([draw.randrange(256)]) + text[at:], 1),
    "two bytes change places": (lambda draw, text, at: swaps(text, (at, at + 1), (at + 1, at + 2)), 1),
    "the end is gone": (lambda draw, text, at: text[:at], 1),
    "a line stands twice": (of_lines(lambda draw, text, a, b: text[:a] + text[a:b] + text[a:]), IMAGES),
    "a line is gone": (of_lines(lambda draw, text, a, b: text[:a] + text[b:]), 1),
    "a line stands elsewhere": (of_lines(moved), 1),
    "two lines change places": (of_lines(lambda draw, text, a, b: swaps(text, (a, b), line_from(text, b))), 1),
    "an empty line": (of_lines(lambda draw, text, a, b: text[:a] + b"\n" + text[a:]), IMAGES),
    "a digit before a word": (before_word, 1),
    "a letter in the other case": (other_case, 1),
    "a space more": (lambda draw, text, at: text[:at] + b" " + text[at:], IMAGES),
    "a byte by its number": (percent_form, 1),
    "a slash more": (lambda draw, text, at: (lambda to: text[:to] + b"/" + text[to:])(found_from(text, at, b"/")), IMAGES),
    "another kind": (of_lines(lambda draw, text, a, b: text[:a] + draw.choice([b"d", b"f", b"b", b"D", b"F"]) + text[a + 1 :]), 1),
    "a block past the end": (of_lines(lambda draw, text, a, b: text[: a + 2] + b"9" + text[a + 2 :] if a < b else text, b"b"), 1),
    "a block before another": (of_lines(lambda draw, text, a, b: swaps(text, (a, b), line_from(text, b)), b"b"), 1),
    "zeros at a block's end": (of_lines(lambda draw, text, a, b: text[: b - 1] + b"00" + text[b - 1 :] if a < b else text, b"b"), 1),
    "a block of zeros": (of_lines(lambda draw, text, a, b: of_digits(text, a, b, b"00"), b"b"), 1),
}


def images() -> Iterator[tuple[str, bytes]]:
    """Images that look random."""
    for seed in range(IMAGES):
        yield f"image {seed}", image_of(random.Random(seed))


def damaged() -> Iterator[tuple[str, str, bytes]]:
    """The kind of each damage, a name, and the damaged image."""
    whole = list(images())
    for kind, (damage, _) in DAMAGES.items():
        for name, image in whole:
            draw = random.Random(f"{kind} {name}")
            yield kind, f"{name}, {kind}", damage(draw, image, draw.randrange(len(image)))


# ---- scripts of no sense

COMMANDS = "at mkdir create write truncate unlink rmdir rmtree rename read stat readdir read@s stat@s readdir@s snapshot drop restore Mkdir stat@ #".split()
WORDS = [*"/ /a /b /a/b /a/%62 /% /a/.. // a s a@b 0 1 4096 00 1099511627775 18446744073709551615 18446744073709551616 aa 0a0B -".split(), ""]


def random_bytes() -> tuple[bytes, bytes]:
    """Ten million bytes, and what their lines are answered: none of them is a command."""
    text = random.Random(18).randbytes(10_000_000)
    answers = bytearray()
    for line in text.split(b"\n"):
        if line and not line.startswith(b"#"):
            answers += b"error line\n" if len(line) > 65_536 else b"error syntax\n"
    return text, bytes(answers)


def random_words() -> tuple[bytes, int]:
    """A hundred thousand lines of words, and how many of them have an answer."""
    draw = random.Random(1)
    lines = [" ".join([draw.choice(COMMANDS), *draw.choices(WORDS, k=draw.randrange(4))]) for _ in range(100_000)]
    return "".join(f"{line}\n" for line in lines).encode(), sum(not line.startswith("#") for line in lines)


def answers_in(output: bytes) -> int:
    """How many lines an output answers: the names of a directory follow their number, in lines of one letter and a name."""
    return sum(line[1:2] != b" " for line in output.split(b"\n")[:-1])
