"""The log: batches of lines in etcd, in the order of their revisions.

Each feeder has one key, `PREFIX/lines/FEEDER`, and its batches are the versions of that key: batch N is put only where the key was put N times,
which etcd compares and does as one. So each comes in once and behind those before it, whatever was lost, late or overtaken. A watch gives
the versions; where the log is cut it gives the later ones alone, and the key still counts them all. Any member answers; where one does not,
the next one is asked.
"""
import base64
import http.client
import itertools
import json
import time
from collections.abc import Callable, Iterator
from dataclasses import dataclass

# How long one member may take to answer, and how long a watch may be silent, before the next member is asked.
SECONDS = 3.0
# How long all members may fail before that is told.
PATIENCE = 60.0
LARGEST = 1_000_000
# What etcd calls a revision that is no longer there.
OUT_OF_RANGE = 11


@dataclass(frozen=True)
class Pair:
    """A key's value, how often the key was put before, the revision at which this was, and that of the first one."""

    revision: int
    key: str
    number: int
    created: int
    value: bytes


class Gone(Exception):
    """No member answered for as long as one waits."""


class Taken(Exception):
    """Another has put where one's own next batch goes."""


class Cut(Exception):
    """The log was cut behind the revision that was asked for."""


def coded(text: str | bytes) -> str:
    return base64.b64encode(text.encode() if isinstance(text, str) else text).decode()


def span(first: str, end: str) -> dict[str, str]:
    """The range of keys from the first one up to and without the other."""
    return {"key": coded(first), "range_end": coded(end)}


def only(key: str) -> dict[str, str]:
    """The range of one key."""
    return {"key": coded(key)}


def below(prefix: str) -> dict[str, str]:
    """The range of all keys that begin so."""
    return span(prefix, prefix[:-1] + chr(ord(prefix[-1]) + 1))


# The range of all keys, whoever put them.
ALL = span("\0", "\0")


def pair_of(said: dict) -> Pair:
    key = base64.b64decode(said["key"]).decode()
    number, created = int(said["version"]) - 1, int(said["create_revision"])
    return Pair(int(said["mod_revision"]), key, number, created, base64.b64decode(said.get("value", "")))


class Log:
    """What is asked of the members, by HTTP. One thread has one."""

    def __init__(self, members: list[str], prefix: str):
        self.members = members
        self.prefix = prefix
        self.turn = itertools.cycle(range(len(members)))
        self.at = next(self.turn)
        self.link: http.client.HTTPConnection | None = None

    def lines_prefix(self) -> str:
        return f"{self.prefix}/lines/"

    def next_member(self) -> None:
        self.at = next(self.turn)
        if self.link:
            self.link.close()
        self.link = None

    def connect(self) -> http.client.HTTPConnection:
        host, port = self.members[self.at].rsplit(":", 1)
        return http.client.HTTPConnection(host, int(port), timeout=SECONDS)

    def ask_once(self, path: str, what: dict) -> dict:
        self.link = self.link or self.connect()
        self.link.request("POST", path, json.dumps(what))
        answer = self.link.getresponse()
        said = json.loads(answer.read())
        if said.get("code") == OUT_OF_RANGE:
            raise Cut(said["error"])
        if answer.status != 200:
            raise OSError(said.get("error", "refused"))
        return said

    def ask(self, path: str, what: dict) -> dict:
        """Asks one member after the other until one answers."""
        end = time.monotonic() + PATIENCE
        while time.monotonic() < end:
            try:
                return self.ask_once(path, what)
            except (OSError, http.client.HTTPException, ValueError):
                self.next_member()
                time.sleep(0.1)
        raise Gone(path)

    def put(self, key: str, value: bytes) -> None:
        self.ask("/v3/kv/put", {"key": coded(key), "value": coded(value)})

    def put_next(self, key: str, number: int, value: bytes) -> int:
        """Puts a value where the key was put so many times, and gives its revision. One that is there already, because its answer was lost, is
        not put again. Where another value is there it is `Taken`."""
        said = self.ask("/v3/kv/txn", {
            "compare": [{"key": coded(key), "target": "VERSION", "version": str(number)}],
            "success": [{"request_put": {"key": coded(key), "value": coded(value)}}],
            "failure": [{"request_range": {"key": coded(key)}}],
        })  # fmt: skip
        if said.get("succeeded"):
            return int(said["header"]["revision"])
        found = said["responses"][0]["response_range"].get("kvs", [])
        there = pair_of(found[0]) if found else None
        if there is None or (there.number, there.value) != (number, value):
            raise Taken(f"{key} does not have what this feeder put there: has another its name?")
        return there.revision

    def get(self, key: str) -> Pair | None:
        found = self.ask("/v3/kv/range", only(key)).get("kvs", [])
        return pair_of(found[0]) if found else None

    def remove(self, reach: dict[str, str]) -> None:
        self.ask("/v3/kv/deleterange", reach)

    def all_in(self, reach: dict[str, str], keys_only: bool = False) -> Iterator[Pair]:
        """Each pair in the range, in the order of keys, a hundred at a time."""
        reach = {**reach}
        while True:
            said = self.ask("/v3/kv/range", {**reach, "limit": "100", "keys_only": keys_only})
            pairs = said.get("kvs", [])
            yield from map(pair_of, pairs)
            if not said.get("more"):
                return
            reach["key"] = coded(base64.b64decode(pairs[-1]["key"]) + b"\0")

    def first(self) -> int:
        """The revision of the first batch, or that which the first one may have."""
        now = int(self.ask("/v3/kv/range", only(self.lines_prefix()))["header"]["revision"])
        return min((it.created for it in self.all_in(below(self.lines_prefix()), keys_only=True)), default=now + 1)

    def watch_once(self, revision: int) -> Iterator[Pair]:
        link = self.connect()
        try:
            # Fragments are large pieces, of more than a megabyte, that come while the next ones are read.
            what = {**below(self.lines_prefix()), "start_revision": str(revision), "fragment": True}
            link.request("POST", "/v3/watch", json.dumps({"create_request": what}))
            answer = link.getresponse()
            while line := answer.readline():
                said = json.loads(line).get("result", {})
                if "compact_revision" in said:
                    raise Cut(said["compact_revision"])
                for event in said.get("events", []):
                    yield pair_of(event["kv"])
        finally:
            link.close()

    def watch(self, revision: int, is_over: Callable[[], bool]) -> Iterator[Pair]:
        """Each batch from the revision on, in order, from one member after the other: the next one goes on where one stopped or fell
        silent. It ends where it is over; where the log begins later it is `Cut`."""
        while not is_over():
            try:
                for batch in self.watch_once(revision):
                    revision = batch.revision + 1
                    yield batch
                    if is_over():
                        return
            except (OSError, http.client.HTTPException, ValueError):
                time.sleep(0.1)
            self.next_member()
