"""Volumes that go to other processes: as pickles and copies, and by a fork of the process."""
import copy
import multiprocessing
import os
import pickle
import signal
import subprocess
import sys
import threading
import time
import unittest

from doorvervain import LARGE, BadDelta, BadImage, Frozen, Volume


class Wider(Volume):
    """A type of somebody else's."""


class Marked(Frozen):
    """Another, which is made of more."""

    def __init__(self, volume, names):
        super().__init__(volume)
        self.names = names


def noon():
    return 12


def names_in(volume):
    return volume.listdir(), volume.read("/f")


def made():
    volume = Volume(shape=LARGE, clock=noon)
    volume.mkdir("/d")
    volume.write_bytes("/f", bytes(10_000) + b"x")
    volume.snapshot("s")
    return volume


class Pickles(unittest.TestCase):
    def test_a_volume(self):
        volume = made()
        for protocol in range(pickle.HIGHEST_PROTOCOL + 1):
            other = pickle.loads(pickle.dumps(volume, protocol))
            self.assertEqual((other.image(), other._shape, other._clock, other.snapshots()), (volume.image(), LARGE, noon, []))
            other.unlink("/f")
            self.assertEqual(volume.listdir(), ["d", "f"])
        self.assertIs(pickle.loads(pickle.dumps(Volume()))._clock, time.time_ns)

    def test_a_type_of_somebody_else(self):
        volume = Wider()
        volume.create("/x")
        volume.names = ["a"]
        for call in [lambda it: pickle.loads(pickle.dumps(it)), copy.copy, copy.deepcopy]:
            for it in [volume, Marked(volume, ["a"])]:
                other = call(it)
                self.assertEqual((type(other), other.listdir(), other.names), (type(it), ["x"], ["a"]))
                self.assertEqual(other.names is it.names, call is copy.copy)

    def test_exceptions(self):
        for call, kind, line in [(Volume.load, BadImage, 1), (Volume().apply_delta, BadDelta, 1)]:
            with self.assertRaises(kind) as caught:
                call(b"none\n")
            other = pickle.loads(pickle.dumps(caught.exception))
            self.assertEqual((type(other), other.args, other.line), (kind, caught.exception.args, line))

    def test_a_frozen_tree(self):
        volume = made()
        tree = volume.freeze()
        volume.rmtree("/f")
        other = pickle.loads(pickle.dumps(tree))
        self.assertEqual((type(other), other.image(), other._shape), (type(tree), tree.image(), LARGE))

    def test_copies(self):
        volume = made()
        for call in [copy.copy, copy.deepcopy]:
            other, tree = call(volume), call(volume.freeze())
            self.assertEqual((other.image(), other._shape, other._clock, other.snapshots()), (volume.image(), LARGE, noon, []))
            other.unlink("/f")
            other.close()
            self.assertEqual((volume.listdir(), tree.listdir(), tree._shape), (["d", "f"], ["d", "f"], LARGE))
            again = call(tree)
            tree.close()
            self.assertEqual(again.read("/f", 1, 10_000), b"x")

    def test_what_has_no_pickle(self):
        with self.assertRaises((pickle.PicklingError, AttributeError)):
            pickle.dumps(Volume(clock=lambda: 0))
        closed = Volume()
        closed.close()
        self.assertRaises(OSError, pickle.dumps, closed)

    def test_another_process(self):
        with multiprocessing.get_context("spawn").Pool(1) as pool:
            self.assertEqual(pool.apply(names_in, (made(),)), (["d", "f"], bytes(10_000) + b"x"))


class Forks(unittest.TestCase):
    def in_child(self, work):
        """Runs `work` in a forked child, which has ten seconds: what it returns, or the exception that it raises."""
        reader, writer = os.pipe()
        child = os.fork()
        if child == 0:
            signal.alarm(10)
            try:
                said = repr(work())
            except BaseException as error:
                said = f"{type(error).__name__}: {error}"
            os.write(writer, said.encode())
            os._exit(0)
        os.close(writer)
        with os.fdopen(reader) as file:
            said = file.read()
        self.assertEqual(os.waitpid(child, 0)[1], 0, said)
        return said

    def beside_a_thread(self, work, thread):
        stops = threading.Event()
        other = threading.Thread(target=thread, args=(stops,))
        other.start()
        try:
            return work()
        finally:
            stops.set()
            other.join()

    def test_a_process_without_threads(self):
        volume = made()
        with volume._lock:
            self.assertEqual(self.in_child(lambda: volume.rmtree("/f") or volume.listdir()), "['d']")
        self.assertEqual(self.in_child(lambda: self.in_child(volume.listdir)), repr("['d', 'f']"))
        self.assertEqual(volume.listdir(), ["d", "f"])

    def test_a_process_with_threads(self):
        volume, image = made(), made().image()
        tree, path = volume.freeze(), volume.path("/f")

        def hammers(stops):
            while not stops.is_set():
                volume.write_bytes("/big", bytes(100_000))

        def holds(stops):
            with volume._lock:
                stops.wait()

        def fresh():
            with Volume.load(image) as other:
                return other.listdir()

        def many():
            for call in [volume.listdir, volume.freeze, volume.image, tree.listdir, path.read_bytes, volume._lock.__enter__]:
                self.assertIn("RuntimeError: the volume is of before a fork", self.in_child(call))
            self.assertEqual(self.in_child(lambda: (volume.close(), tree.close(), volume.closed)), "(None, None, True)")
            self.assertEqual(self.in_child(fresh), "['d', 'f']")
            self.assertIn("RuntimeError", self.in_child(lambda: self.in_child(tree.listdir)))

        for thread in [hammers, holds, lambda stops: stops.wait()]:
            self.beside_a_thread(many, thread)
        self.assertEqual(self.in_child(tree.listdir), "['d', 'f']")


# A hook of an earlier one than the package's, so that its thread begins after the package has looked for threads.
LATE_THREAD = """
import os, signal, threading

held, stops, volumes = threading.Event(), threading.Event(), []

def holds():
    with volumes[0]._lock:
        held.set()
        stops.wait()

def begins():
    threading.Thread(target=holds).start()
    held.wait()

os.register_at_fork(before=begins)
from doorvervain import Volume
volumes.append(Volume())
child = os.fork()
if child == 0:
    signal.alarm(10)
    try:
        volumes[0].listdir()
    except RuntimeError:
        os._exit(7)
    os._exit(0)
status = os.waitpid(child, 0)[1]
stops.set()
print(os.WIFEXITED(status) and os.WEXITSTATUS(status))
"""


class LateThreads(unittest.TestCase):
    def test_a_lock_that_is_held_as_the_process_forks(self):
        # (elsewhere than beside the sources of the package, which have no module in C)
        words, here = [sys.executable, "-c", LATE_THREAD], os.path.dirname(os.path.abspath(__file__))
        said = subprocess.run(words, cwd=here, check=True, stdout=subprocess.PIPE, text=True, timeout=60).stdout
        self.assertEqual(said, "7\n")


if __name__ == "__main__":
    unittest.main()
