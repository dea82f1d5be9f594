"""Scripts that look random, of all eleven calls, of moments and of snapshots, from a seed."""
import random

TOPS, BELOW, FILES = 8, 6, 40
# How often each kind of line comes, of a hundred and some.
WEIGHTS = {
    "mkdir": 9, "create": 22, "write": 25, "read": 8, "stat": 8, "readdir": 2, "truncate": 6,
    "rename": 7, "unlink": 9, "rmdir": 3, "rmtree": 1, "look": 1, "at": 6,
}  # fmt: skip
# A snapshot stands for so many lines, and then none of this script for as many.
STANDING = 400


class Script:
    """A script of one feeder, whose snapshots have its name."""

    def __init__(self, seed: int, name: str):
        self.chance = random.Random(seed)
        self.name = name

    def directory(self) -> str:
        top = f"/t{self.chance.randrange(TOPS)}"
        return top if self.chance.random() < 0.4 else f"{top}/s{self.chance.randrange(BELOW)}"

    def file(self) -> str:
        return f"{self.directory()}/f{self.chance.randrange(FILES)}"

    def path(self) -> str:
        return self.file() if self.chance.random() < 0.8 else self.directory()

    def call(self) -> str:
        chance = self.chance
        kind = chance.choices(list(WEIGHTS), WEIGHTS.values())[0]
        match kind:
            case "mkdir" | "rmdir" | "rmtree" | "readdir":
                return f"{kind} {self.directory()}"
            case "write":
                return f"write {self.file()} {chance.randrange(9_000)} {chance.randbytes(chance.randrange(1, 64)).hex()}"
            case "read":
                return f"read {self.file()} {chance.randrange(9_000)} {chance.randrange(200)}"
            case "truncate":
                return f"truncate {self.file()} {chance.randrange(10_000)}"
            case "rename":
                return f"rename {self.path()} {self.path()}"
            case "at":
                return f"at {chance.randrange(1_000_000)}"
            case "look":
                return f"stat@{self.name} {self.path()}"
            case _:
                return f"{kind} {self.file()}"

    def line(self, number: int) -> str:
        """The line of this number: at three places of each round a snapshot is kept, restored and dropped."""
        match number % (2 * STANDING):
            case 0:
                return f"snapshot {self.name}"
            case at if at == STANDING // 2 and self.chance.random() < 0.5:
                return f"restore {self.name}"
            case at if at == STANDING:
                return f"drop {self.name}"
        return self.call()

    def lines(self, count: int) -> bytes:
        return "".join(f"{self.line(it)}\n" for it in range(count)).encode()
