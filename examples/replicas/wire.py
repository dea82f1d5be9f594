"""A way to a member on which transactions go wrong by chance: they are lost, their answers are, or they come late, behind others."""
import contextlib
import http.client
import random
import threading
import time
from collections import Counter
from http.server import BaseHTTPRequestHandler, ThreadingHTTPServer

KINDS = ("well", "lost", "unanswered", "late")
LATE = 0.3


class Passing(BaseHTTPRequestHandler):
    """One request on its way."""

    protocol_version = "HTTP/1.1"

    def log_message(self, *_) -> None:
        pass

    def forward(self, body: bytes) -> tuple[int, bytes]:
        link = http.client.HTTPConnection(self.server.member)
        link.request("POST", self.path, body)
        answer = link.getresponse()
        return answer.status, answer.read()

    def come_late(self, body: bytes) -> None:
        time.sleep(LATE)
        self.forward(body)

    def pass_on(self, body: bytes) -> None:
        """An answer without end, until one of both ends goes away."""
        self.close_connection = True
        link = http.client.HTTPConnection(self.server.member)
        link.request("POST", self.path, body)
        answer = link.getresponse()
        self.send_response(answer.status)
        self.end_headers()
        with contextlib.suppress(OSError, http.client.HTTPException):
            while part := answer.read1(1 << 16):
                self.wfile.write(part)
        link.close()

    def do_POST(self) -> None:
        body = self.rfile.read(int(self.headers["Content-Length"]))
        if self.path == "/v3/watch":
            self.pass_on(body)
            return
        kind = self.server.kind() if self.path == "/v3/kv/txn" else "well"
        self.close_connection = kind != "well"
        if kind == "late":
            threading.Thread(target=self.come_late, args=(body,)).start()
        if kind in ("lost", "late"):
            return
        status, said = self.forward(body)
        if kind == "well":
            self.send_response(status)
            self.send_header("Content-Length", str(len(said)))
            self.end_headers()
            self.wfile.write(said)


class Wire(ThreadingHTTPServer):
    """The way, at an address of its own."""

    daemon_threads = True

    def __init__(self, member: str, seed: int):
        super().__init__(("127.0.0.1", 0), Passing)
        self.member = member
        self.chance = random.Random(seed)
        self.counts: Counter[str] = Counter()
        threading.Thread(target=self.serve_forever, daemon=True).start()

    def address(self) -> str:
        return f"127.0.0.1:{self.server_port}"

    def kind(self) -> str:
        kind = self.chance.choice(KINDS)
        self.counts[kind] += 1
        return kind
