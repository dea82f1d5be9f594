"""Three members of etcd on this machine, each in a network namespace of its own, joined by a bridge."""
import contextlib
import os
import shutil
import signal
import subprocess
import time
from pathlib import Path

from log import Log

NAME = "doorvervain"
BRIDGE = "doorv"
COUNT = 3
CLIENTS, PEERS = 2379, 2380


def shell(*words: str, check: bool = True) -> None:
    subprocess.run(words, check=check, capture_output=not check)


def address(number: int) -> str:
    return f"10.77.3.{10 + number}"


def members() -> list[str]:
    return [f"{address(it)}:{CLIENTS}" for it in range(COUNT)]


class Cluster:
    """The members, by their numbers. With other words than none they are asked by https."""

    def __init__(self, folder: Path, *words: str):
        self.folder, self.words = folder, words
        self.processes: list[subprocess.Popen | None] = [None] * COUNT

    def remove_network(self) -> None:
        for it in range(COUNT):
            shell("ip", "netns", "del", f"{NAME}{it}", check=False)
            shell("ip", "link", "del", f"{BRIDGE}{it}", check=False)
        shell("ip", "link", "del", BRIDGE, check=False)

    def make_network(self) -> None:
        self.remove_network()
        shell("ip", "link", "add", BRIDGE, "type", "bridge")
        shell("ip", "addr", "add", "10.77.3.1/24", "dev", BRIDGE)
        shell("ip", "link", "set", BRIDGE, "up")
        for it in range(COUNT):
            space, outer, inner = f"{NAME}{it}", f"{BRIDGE}{it}", f"{BRIDGE}{it}i"
            shell("ip", "netns", "add", space)
            shell("ip", "link", "add", outer, "type", "veth", "peer", "name", inner, "netns", space)
            shell("ip", "link", "set", outer, "master", BRIDGE, "up")
            shell("ip", "-n", space, "addr", "add", f"{address(it)}/24", "dev", inner)
            for link in ("lo", inner):
                shell("ip", "-n", space, "link", "set", link, "up")

    def start(self, number: int) -> None:
        here = address(number)
        clients = f"{'https' if self.words else 'http'}://{here}:{CLIENTS}"
        cluster = ",".join(f"m{it}=http://{address(it)}:{PEERS}" for it in range(COUNT))
        said = open(self.folder / f"m{number}.log", "ab")
        self.processes[number] = subprocess.Popen(
            ["ip", "netns", "exec", f"{NAME}{number}", "etcd", "--name", f"m{number}", "--data-dir", self.folder / f"m{number}",
             "--listen-client-urls", clients, "--advertise-client-urls", clients, *self.words,
             "--listen-peer-urls", f"http://{here}:{PEERS}", "--initial-advertise-peer-urls", f"http://{here}:{PEERS}",
             "--initial-cluster", cluster, "--initial-cluster-state", "new", "--heartbeat-interval", "300",
             "--election-timeout", "3000", "--snapshot-count", "1000", "--logger", "zap"],
            stdout=said, stderr=said,
        )  # fmt: skip

    def kill(self, number: int) -> None:
        process = self.processes[number]
        process.send_signal(signal.SIGKILL)
        process.wait()

    def link(self, number: int, state: str) -> None:
        shell("ip", "link", "set", f"{BRIDGE}{number}", state)

    def leader(self) -> int:
        """The number of the member that leads."""
        while True:
            for it, member in enumerate(members()):
                with contextlib.suppress(OSError, ValueError, KeyError):
                    said = Log([member], NAME).ask_once("/v3/maintenance/status", {})
                    if said["leader"] == said["header"]["member_id"]:
                        return it
            time.sleep(0.2)

    def stop(self) -> None:
        for process in filter(None, self.processes):
            with contextlib.suppress(ProcessLookupError):
                process.kill()
            process.wait()
        self.remove_network()


def install() -> None:
    """Installs etcd, if it is not there."""
    if shutil.which("etcd"):
        return
    quiet = {**os.environ, "DEBIAN_FRONTEND": "noninteractive"}
    subprocess.run(["apt-get", "update", "-q"], check=False, capture_output=True)
    subprocess.run(["apt-get", "install", "-y", "-q", "etcd-server", "etcd-client", "iproute2"], check=True, capture_output=True, env=quiet)
    # The service that comes with it is not used.
    subprocess.run(["systemctl", "stop", "etcd"], check=False, capture_output=True)
