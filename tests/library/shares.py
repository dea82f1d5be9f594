"""Long lists of pending messages that trees share: changes of a volume beside a frozen tree, a fork and snapshots, which it sometimes takes
back, with steps of compaction between; and what each tree has then, beside plain dictionaries.
"""
import random

from calls import USUAL, Pointer, Volume, ask, given_up, stat_of, told
from volumes import done

FILES = 2_000
# Rounds, each with so many changes at most: more than wait beside a share.
ROUNDS, CHANGES = 24, 150


def path_of(number: int) -> bytes:
    return b"/d/f%05d" % number


def filled() -> tuple[Volume, dict]:
    """A volume in which nothing is flushed, and what its files have."""
    volume, model = Volume(USUAL), {}
    done(volume.ask("mkdir", b"/d", 1))
    for number in random.Random(1).sample(range(FILES), FILES):
        path, data = path_of(number), b"%d" % number if number % 3 else b""
        done(volume.ask("create", path, 2), volume.ask("write", path, 0, data, 3))
        model[path] = (data, 3 if data else 2)
    return volume, model


def change(volume: Volume, model: dict, draw: random.Random, at: int) -> None:
    """One random change of a file, which may be there or not."""
    path = path_of(draw.randrange(FILES))
    kind = draw.choice(["write", "write", "truncate", "unlink", "create"])
    if kind == "create" and path not in model:
        done(volume.ask("create", path, at))
        model[path] = (b"", at)
    elif kind == "write" and path in model:
        data = model[path][0]
        done(volume.ask("write", path, len(data), b"%d" % at, at))
        model[path] = (data + b"%d" % at, at)
    elif kind == "truncate" and path in model:
        done(volume.ask("truncate", path, 2, at))
        model[path] = (model[path][0][:2].ljust(2, b"\0"), at)
    elif kind == "unlink" and path in model:
        done(volume.ask("unlink", path, at))
        del model[path]


def content(prefix: str, tree: Pointer) -> dict:
    """What the files of a tree have."""
    found = {}
    for path in map(path_of, range(FILES)):
        entry = stat_of(f"{prefix}stat", tree, path)
        if isinstance(entry, tuple):
            found[path] = (told(f"{prefix}read", tree, path, 0, capacity=128), entry[2])
    return found


def unlike(found: dict, model: dict) -> list:
    return sorted(path for path in found.keys() | model.keys() if found.get(path) != model.get(path))


def rounds(seed: int):
    """Changes beside a share, which is kept, taken back or forked, and the trees after each round."""
    draw, (volume, model) = random.Random(seed), filled()
    at, snapshots = 10, {}
    for number in range(ROUNDS):
        if draw.random() < 0.8:
            volume.ask("make_sharable")
        share, before, fork = volume.tree(), dict(model), Pointer()
        done(volume.ask("fork", fork))
        if number % 6 == 5:
            done(volume.ask("snapshot", b"s%d" % number))
            snapshots[b"s%d" % number] = dict(model)
        for _ in range(draw.randrange(1, CHANGES)):
            at += 1
            change(volume, model, draw, at)
            if draw.random() < 0.02:
                volume.ask("compact", draw.randrange(30))
        name = f"changes beside a share, {seed}, {number}"
        yield f"{name}: the frozen tree", unlike(content("frozen_", share), before), []
        if draw.random() < 0.4:
            done(volume.ask("restore_frozen", share))
            model = dict(before)
        yield f"{name}: the volume", unlike(content("", volume.fs), model), []
        given_up("frozen_close", share)
        volume.ask("condense")
        done(ask("truncate", fork, b"/d/f00001", 1, 5)) if b"/d/f00001" in before else None
        yield f"{name}: the volume beside a change of the fork", unlike(content("", volume.fs), model), []
        given_up("close", fork)
    for snapshot, wanted in snapshots.items():
        tree = volume.tree(snapshot)
        yield f"{snapshot.decode()}, {seed}", unlike(content("frozen_", tree), wanted), []
        given_up("frozen_close", tree)


def each():
    for seed in range(2):
        yield from rounds(seed)
