"""A `betr` that is kept open: batches are written to it while its replies are read beside, so neither side waits for the other."""
import itertools
import subprocess
import threading
from collections.abc import Callable
from pathlib import Path
from queue import SimpleQueue

from log import Pair

LONGEST_LINE = 65_536
PIPE = 1_048_576
NO_MEMORY = b"fault ENOMEM\n"


class NoMemory(Exception):
    """A line was answered by want of memory."""


class Ended(Exception):
    """The program ended before it had answered."""


def has_reply(line: bytes) -> bool:
    return len(line) > LONGEST_LINE or not (line == b"" or line.startswith(b"#"))


class Betr:
    """The program. `done` is told each batch that is answered, its lines that have a reply, and the lines of the replies."""

    def __init__(self, program: str, image: Path | None, done: Callable[[Pair, list[bytes], list[bytes]], None]):
        words = [program, "--image", *(["--load", str(image)] if image else [])]
        self.process = subprocess.Popen(words, stdin=subprocess.PIPE, stdout=subprocess.PIPE, bufsize=PIPE, pipesize=PIPE)
        self.done = done
        self.sent: SimpleQueue[Pair | None] = SimpleQueue()
        self.failure: Exception | None = None
        self.reader: threading.Thread | None = None

    def send(self, batch: Pair) -> None:
        if self.reader is None:
            self.reader = threading.Thread(target=self.read, daemon=True)
            self.reader.start()
        self.sent.put(batch)
        try:
            self.process.stdin.write(batch.value)
            self.process.stdin.flush()
        except OSError:
            # The replies end too, and tell it.
            pass

    def replies(self, count: int) -> list[bytes]:
        """The lines of so many replies: each has one, and a listing those that it counts."""
        reported: list[bytes] = []
        while len(reported) < count:
            more = list(itertools.islice(self.process.stdout, count - len(reported)))
            if not more or not more[-1].endswith(b"\n"):
                raise Ended
            count += sum(int(it[6:]) for it in more if it.startswith(b"names "))
            reported += more
        return reported

    def read(self) -> None:
        """Reads the replies to each batch that is sent, until there is no more to wait for."""
        try:
            while batch := self.sent.get():
                asked = [it for it in batch.value.split(b"\n")[:-1] if has_reply(it)]
                reported = self.replies(len(asked))
                if NO_MEMORY in reported:
                    raise NoMemory
                self.done(batch, asked, reported)
        except Exception as it:
            self.failure = it
            # What is still written to it then fails too.
            self.process.kill()

    def wait(self) -> None:
        """Waits until all that was sent is answered."""
        if self.reader:
            self.sent.put(None)
            self.reader.join()
            self.reader = None
        if self.failure:
            raise self.failure

    def end(self) -> bytes:
        """Ends its input, and gives the image."""
        self.wait()
        self.process.stdin.close()
        image = self.process.stdout.read()
        if self.process.wait() != 0:
            raise Ended
        return image
