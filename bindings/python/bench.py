#!/usr/bin/env python3
"""Times a tree of files here, in MemoryFS of PyFilesystem2, in `memory` of fsspec, and in a folder of tmpfs.

    bench.py [FILES [RUNS [NAME..]]]    10,000 files of 100 bytes in 100 directories, three runs, and all, where nothing is
                                        named; NAME is the head of a column, as MemoryFS

Each row is the least of the runs, in processor time of this process, so that what else runs counts little. What one of the
others has no call for is done as one does it there: a snapshot is a copy of all, and going back puts a copy of that copy in
place. `compacted` is a volume that is compacted once, after all files are written.
"""
import os
import shutil
import sys
import tempfile
import time

# It times the package that is installed: the sources beside this file have no module in C.
HERE = os.path.dirname(os.path.abspath(__file__))
if not os.path.exists(os.path.join(HERE, "doorvervain", "_core.abi3.so")):
    sys.path[:] = [folder for folder in sys.path if os.path.abspath(folder) != HERE]
try:
    import doorvervain
except ImportError as error:
    sys.exit(f"bench.py: {sys.executable} has no package doorvervain ({error}): docs/PYTHON.md says how it is installed")

TMPFS = "/dev/shm"
DATA = b"x" * 100


class Ours:
    name = "Volume"

    def __init__(self):
        self.files = doorvervain.Volume()
        self.mkdir = self.files.mkdir
        self.create = self.files.create
        self.write = self.files.write_bytes
        self.read = self.files.read
        self.list = self.files.listdir
        self.stat = self.files.stat
        self.remove = self.files.unlink
        self.remove_tree = self.files.rmtree

    def compact(self):
        pass

    def snapshot(self):
        self.files.snapshot("kept")

    def restore(self):
        self.files.restore("kept")

    def close(self):
        self.files.close()


class OursCompacted(Ours):
    name = "compacted"

    def compact(self):
        self.files.compact()


class OfPyFilesystem:
    def __init__(self, files):
        self.bind(files)

    def bind(self, files):
        self.files = files
        self.mkdir = self.files.makedir
        self.create = self.files.create
        self.write = self.files.writebytes
        self.read = self.files.readbytes
        self.list = self.files.listdir
        self.stat = lambda path: self.files.getinfo(path, ["details"])
        self.remove = self.files.remove
        self.remove_tree = self.files.removetree

    def close(self):
        self.files.close()


class OursByPyFilesystem(OfPyFilesystem):
    name = "DoorvervainFS"

    def __init__(self):
        from doorvervain.pyfilesystem import DoorvervainFS

        super().__init__(DoorvervainFS())

    def snapshot(self):
        self.files.volume.snapshot("kept")

    def restore(self):
        self.files.volume.restore("kept")


class MemoryOfPyFilesystem(OfPyFilesystem):
    name = "MemoryFS"

    def __init__(self):
        from fs.memoryfs import MemoryFS

        super().__init__(MemoryFS())

    def copied(self, files):
        from fs.copy import copy_fs
        from fs.memoryfs import MemoryFS

        made = MemoryFS()
        copy_fs(files, made)
        return made

    def snapshot(self):
        self.kept = self.copied(self.files)

    def restore(self):
        self.bind(self.copied(self.kept))


class OfFsspec:
    def __init__(self, files):
        self.files = files
        self.mkdir = self.files.mkdir
        self.create = self.files.touch
        self.write = self.files.pipe_file
        self.read = self.files.cat_file
        self.list = lambda path: self.files.ls(path, detail=False)
        self.stat = self.files.info
        self.remove = self.files.rm_file
        self.remove_tree = lambda path: self.files.rm(path, recursive=True)

    def close(self):
        pass


class OursByFsspec(OfFsspec):
    name = "fsspec doorvervain"

    def __init__(self):
        from doorvervain.fsspec import DoorvervainFileSystem

        super().__init__(DoorvervainFileSystem(volume=doorvervain.Volume(), skip_instance_cache=True))

    def snapshot(self):
        self.files.volume.snapshot("kept")

    def restore(self):
        self.files.volume.restore("kept")

    def close(self):
        self.files.volume.close()


class MemoryOfFsspec(OfFsspec):
    name = "fsspec memory"

    def __init__(self):
        import fsspec

        super().__init__(fsspec.filesystem("memory"))
        self.close()

    def copied(self, kept):
        store = {}
        for path, file in kept[0].items():
            store[path] = type(file)(self.files, path, file.getvalue())
        return store, list(kept[1])

    def snapshot(self):
        self.kept = self.copied((self.files.store, self.files.pseudo_dirs))

    def restore(self):
        store, dirs = self.copied(self.kept)
        self.files.store.clear()
        self.files.store.update(store)
        self.files.pseudo_dirs[:] = dirs

    def close(self):
        self.files.store.clear()
        self.files.pseudo_dirs[:] = [""]


class Tmpfs:
    name = "tmpfs"

    def __init__(self):
        self.whole = tempfile.mkdtemp(dir=TMPFS)
        self.folder = self.whole + "/tree"
        os.mkdir(self.folder)

    def mkdir(self, path):
        os.mkdir(self.folder + path)

    def create(self, path):
        os.close(os.open(self.folder + path, os.O_CREAT | os.O_EXCL | os.O_WRONLY))

    def write(self, path, data):
        with open(self.folder + path, "wb", 0) as file:
            file.write(data)

    def read(self, path):
        with open(self.folder + path, "rb", 0) as file:
            return file.read()

    def list(self, path):
        return os.listdir(self.folder + path)

    def stat(self, path):
        return os.stat(self.folder + path)

    def remove(self, path):
        os.unlink(self.folder + path)

    def remove_tree(self, path):
        shutil.rmtree(self.folder + path)

    def snapshot(self):
        shutil.copytree(self.folder, self.whole + "/kept")

    def restore(self):
        shutil.rmtree(self.folder)
        shutil.copytree(self.whole + "/kept", self.folder)

    def close(self):
        shutil.rmtree(self.whole)


def rows(kind, paths, folders):
    """What each row took, in seconds, and how many calls it made."""
    files = kind()
    took = {}

    def timed(row, calls, work):
        begun = time.process_time()
        work()
        took[row] = (time.process_time() - begun, calls)

    def each(call, *words):
        def work():
            for path in paths:
                call(path, *words)

        return work

    def of_folders(call):
        def work():
            for folder in folders:
                call(folder)

        return work

    for above in ["/t", *folders]:
        files.mkdir(above)
    timed("create", len(paths), each(files.create))
    timed("write 100 bytes", len(paths), each(files.write, DATA))
    if isinstance(files, Ours):
        timed("compact", 1, files.compact)
    timed("read", len(paths), each(files.read))
    timed("stat", len(paths), each(files.stat))
    timed("list", len(folders), of_folders(files.list))
    timed("snapshot", 1, files.snapshot)
    timed("remove the tree", 1, lambda: files.remove_tree("/t"))
    timed("restore", 1, files.restore)
    assert sorted(os.path.basename(name) for name in files.list(folders[0])) == sorted(
        os.path.basename(path) for path in paths if path.startswith(folders[0] + "/")
    )
    assert bytes(files.read(paths[-1])) == DATA
    timed("remove", len(paths), each(files.remove))
    files.close()
    return took


def main():
    count = int(sys.argv[1]) if len(sys.argv) > 1 else 10_000
    turns = int(sys.argv[2]) if len(sys.argv) > 2 else 3
    folders = [f"/t/d{number:02}" for number in range(100)]
    paths = [f"{folders[number * 37 % 100]}/file{number:06}" for number in range(count)]
    kinds = [Ours, OursCompacted, OursByPyFilesystem, MemoryOfPyFilesystem, OursByFsspec, MemoryOfFsspec, Tmpfs]
    named = sys.argv[3:] or [kind.name for kind in kinds]
    columns = {}
    for kind in (kind for kind in kinds if kind.name in named):
        try:
            runs = [rows(kind, paths, folders) for _ in range(turns)]
        except ImportError as error:
            print(f"{kind.name} is not tried: {error.name} is not installed")
            continue
        columns[kind.name] = {row: min(run[row][0] for run in runs) / runs[0][row][1] for row in runs[0]}
    print(f"{count} files, microseconds a call")
    print("| Work | " + " | ".join(columns) + " |")
    print("|---|" + "---|" * len(columns))
    for row in next(iter(columns.values()), {}):
        print(f"| {row} | " + " | ".join(f"{took[row] * 1e6:,.1f}" if row in took else "" for took in columns.values()) + " |")


if __name__ == "__main__":
    main()
