"""Programs on a mount with a store: after the mount was killed, or its disk was full, what they were answered is there, and
their own checks find nothing."""
import os
import signal
import subprocess
import time
from collections.abc import Callable
from pathlib import Path

from own_mount import Mount, case, run_cases
from own_store import WORKS, end_well, kill, on_small_disk, store_mount

KILLS = 8


def output(*words, **named) -> str:
    return subprocess.run(words, capture_output=True, text=True, check=True, **named).stdout


def answered(file: Path) -> list[str]:
    """What a program was answered, as it wrote that down: the last line may be torn."""
    return file.read_text().rpartition("\n")[0].split() if file.exists() else []


def works_in(folder: Path, command: str, notes: Path) -> subprocess.Popen:
    words = ["bash", "-c", command, "bash", notes]
    return subprocess.Popen(words, cwd=folder, stdout=subprocess.DEVNULL, stderr=subprocess.DEVNULL)


# git syncs what it renames, and not the folder in which it does so.
COMMITS = """
    [ -d .git ] || git -c init.defaultBranch=main init -q .
    rm -f .git/*.lock .git/*/*.lock .git/refs/heads/*.lock
    while date +%N > "file$((RANDOM % 50))" && git add -A && git -c core.fsync=all commit -qm more; do
        sync .git/refs/heads && git rev-parse HEAD >> "$1" || exit
    done
"""


def check_commits(folder: Path, notes: Path) -> None:
    if (folder / ".git/HEAD").exists():
        output("git", "fsck", "--full", "--strict", cwd=folder)
    for commit in answered(notes)[-5:]:
        output("git", "merge-base", "--is-ancestor", commit, "HEAD", cwd=folder)


# By itself sqlite does not sync the folder out of which it takes its journal.
ROWS = """
    sqlite3 data 'create table if not exists rows (number integer primary key, word text)' &&
    for i in $(seq 1 100000); do
        sqlite3 data "pragma synchronous=extra; insert into rows (word) values (hex(randomblob(2000))); select max(number) from rows" >> "$1" || exit
    done
"""


def check_rows(folder: Path, notes: Path) -> None:
    if (folder / "data").exists():
        assert output("sqlite3", "data", "pragma integrity_check", cwd=folder) == "ok\n"
    if answered(notes):
        last = int(answered(notes)[-1])
        assert int(output("sqlite3", "data", "select max(number) from rows", cwd=folder)) >= last


def kill_often(folder: Path, command: str, check: Callable[[Path, Path], None]) -> None:
    """Kills the mount while a program works in it, which writes down elsewhere what was answered."""
    for _ in range(KILLS):
        mount, notes = store_mount(folder, "--log-size", "200K"), folder / "answered"
        assert mount.stands, mount.said()
        with works_in(mount.point, command, notes) as works:
            time.sleep(WORKS.uniform(0.3, 2))
            kill(mount)
            works.wait()
        again = store_mount(folder)
        check(again.point, notes)
        end_well(again)
    print(f"{len(answered(folder / 'answered'))} were answered")


@case
def a_repository_of_git_is_whole_after_kills(folder: Path):
    kill_often(folder, COMMITS, check_commits)


@case
def rows_of_sqlite_are_whole_after_kills(folder: Path):
    kill_often(folder, ROWS, check_rows)


class Postgres:
    """It refuses to run as root: it runs under another number, which is the same user to the kernel."""
    PROGRAMS = next(Path("/usr/lib/postgresql").glob("*/bin"))

    def __init__(self, folder: Path, data: Path):
        self.sockets, self.data = folder, data
        self.asks = {"PGHOST": str(folder), "PGUSER": "judge", "PGDATABASE": "postgres"}
        self.process: subprocess.Popen | None = None

    def words(self, program: str, *words) -> list:
        return ["unshare", "--user", "--map-user=1000", "--map-group=1000", self.PROGRAMS / program, *words]

    def run(self, program: str, *words) -> str:
        return output(*self.words(program, *words), env=os.environ | self.asks)

    def start(self) -> None:
        words = self.words("postgres", "-D", self.data, "-k", self.sockets, "-c", "listen_addresses=")
        with (self.sockets / "postgres.log").open("ab") as log:
            self.process = subprocess.Popen(words, stdout=log, stderr=log, stdin=subprocess.DEVNULL)
        ends = time.monotonic() + 120
        while subprocess.run(self.words("pg_isready", "-q", "-h", self.sockets)).returncode:
            assert self.process.poll() is None and time.monotonic() < ends, (self.sockets / "postgres.log").read_text()[-3000:]
            time.sleep(0.05)

    def kill(self) -> None:
        """With all processes that it started."""
        children = Path(f"/proc/{self.process.pid}/task/{self.process.pid}/children").read_text().split()
        self.process.kill()
        self.process.wait()
        for child in map(int, children):
            while Path(f"/proc/{child}").exists():
                try:
                    os.kill(child, signal.SIGKILL)
                except ProcessLookupError:
                    break
                time.sleep(0.01)

    def stop(self) -> None:
        self.run("pg_ctl", "-D", self.data, "-w", "-m", "fast", "stop")
        self.process.wait()


PAYMENTS = """
    pgbench -n -c 2 -T 100 &
    while psql -qAt -c "insert into rows (word) values (repeat(md5(random()::text), 50)) returning number" >> "$1"; do :; done
    wait
"""
SUMS = """
    select (select sum(abalance) from pgbench_accounts), (select sum(tbalance) from pgbench_tellers),
        (select sum(bbalance) from pgbench_branches), (select coalesce(sum(delta), 0) from pgbench_history)
"""


def check_postgres(server: Postgres, notes: Path) -> None:
    """Its indexes and rows, what it was answered, that no transaction is there in part; and its checksums once it has ended."""
    server.start()
    server.run("pg_amcheck", "--heapallindexed", "--install-missing", "postgres")
    assert len(set(server.run("psql", "-qAt", "-c", SUMS).strip().split("|"))) == 1
    last = int(answered(notes)[-1]) if answered(notes) else 0
    assert int(server.run("psql", "-qAt", "-c", "select coalesce(max(number), 0) from rows")) >= last
    server.stop()
    server.run("pg_checksums", "--check", "-D", server.data)


@case
def a_server_of_databases_is_whole_after_kills(folder: Path):
    mount, notes = store_mount(folder, "--log-size", "2M"), folder / "answered"
    server = Postgres(folder, mount.point / "data")
    os.environ["PATH"] = f"{Postgres.PROGRAMS}:{os.environ['PATH']}"
    server.run("initdb", "-D", server.data, "--data-checksums", "-A", "trust", "-U", "judge")
    server.start()
    server.run("pgbench", "-q", "-i")
    server.run("psql", "-q", "-c", "create table rows (number serial primary key, word text)")
    os.environ.update(server.asks)
    for kills in range(5):
        with works_in(folder, PAYMENTS, notes) as works:
            time.sleep(WORKS.uniform(0.5, 3))
            kill(mount)
            server.kill()
            works.wait()
        mount = store_mount(folder, "--log-size", "2M")
        assert mount.stands, mount.said()
        check_postgres(server, notes)
        if kills < 4:
            server.start()
    end_well(mount)
    print(f"{len(answered(notes))} were answered")


@case
def programs_that_fill_a_disk_keep_what_was_answered(folder: Path):
    def work(disk: Path) -> None:
        mount, sides = Mount(folder, "--store", disk / "store", "--log-size", "4M"), {COMMITS: check_commits, ROWS: check_rows}
        places = [("one", COMMITS), ("two", ROWS), ("three", ROWS)]
        for name, _ in places:
            (mount.point / name).mkdir()
        (disk / "other").write_bytes(bytes(10 << 20))
        works = [works_in(mount.point / name, command, folder / name) for name, command in places]
        for each in works:
            each.wait(timeout=600)
        assert mount.end() in (0, 1), mount.said()
        assert "changes are refused" in mount.said(), mount.said()
        (disk / "other").unlink()  # What is to be taken back needs some room.
        again = Mount(folder, "--store", disk / "store")
        assert again.stands, again.said()
        for name, command in places:
            print(f"{name}: {len(answered(folder / name))} were answered before the disk was full")
            sides[command](again.point / name, folder / name)
        end_well(again)

    on_small_disk(folder, work)


run_cases()
