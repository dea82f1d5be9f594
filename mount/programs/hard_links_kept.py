"""Files with more than one name in an image and in a snapshot, in mounts of its own."""
import os
from pathlib import Path

from kept import outlives, restore
from own_mount import Mount, case, run_cases


def make_tree(top: Path) -> None:
    for folder in (top / "first", top / "second/\x01", top / "gone"):
        folder.mkdir(parents=True)
    for number in range(20):
        one = top / f"first/one{number}"
        one.write_bytes(os.urandom(1 + 500 * number))
        os.link(one, top / f"second/two{number}")
        if number % 3 == 0:
            os.link(one, top / f"second/\x01/three{number}")
        if number % 4 == 0:
            os.chmod(one, 0o640)
            os.setxattr(one, "user.number", b"%d" % number)
            os.utime(one, ns=(5, number))
        if number % 5 == 0:
            one.unlink()
    os.symlink("target", top / "link")
    os.link(top / "link", top / "gone/link", follow_symlinks=False)


def change_tree(top: Path) -> None:
    (top / "first/one1").write_text("another text")
    for name in ("first/one2", "second/two2", "second/two3", "gone/link"):
        (top / name).unlink()
    os.link(top / "second/two4", top / "gone/four")
    os.link(top / "second/two5", top / "first/one5")
    os.rename(top / "second", top / "third")
    (top / "second").mkdir()
    (top / "second/two3").write_text("new")
    os.chmod(top / "third/two6", 0o600)


@case
def a_tree_with_links(folder: Path):
    outlives(folder, make_tree, change_tree)


@case
def names_that_a_restore_brings_back(folder: Path):
    mount = Mount(folder)
    one, two, three = (mount.point / name for name in ("one", "two", "three"))
    one.write_text("abc")
    os.mkdir(mount.point / ".snapshots/before")
    os.link(one, two)
    os.mkdir(mount.point / ".snapshots/linked")
    one.unlink()
    two.write_text("def")
    os.link(two, three)
    restore(mount, "linked")
    assert not three.exists() and one.read_text() == "abc" and one.stat().st_nlink == two.stat().st_nlink == 2
    assert one.stat().st_ino == two.stat().st_ino
    two.write_text("both")
    assert one.read_text() == "both"
    restore(mount, "before")
    assert not two.exists() and one.read_text() == "abc" and one.stat().st_nlink == 1
    restore(mount, "linked")
    two.unlink()
    assert one.read_text() == "abc" and one.stat().st_nlink == 1
    os.link(one, three)
    assert one.stat().st_ino == three.stat().st_ino != 0 and three.read_text() == "abc"
    assert mount.end() == 0, mount.said()


@case
def nothing_is_left_of_the_last_name(folder: Path):
    mount = Mount(folder, "--image", folder / "image")
    for number in range(20):
        names = [mount.point / f"{number} {other}" for other in range(number + 1)]
        names[0].write_text("abc")
        for name in names[1:]:
            os.link(names[0], name)
    for path in mount.point.iterdir():
        path.unlink()
    assert mount.end() == 0, mount.said()
    left = [line for line in (folder / "image").read_text().splitlines() if line.startswith("F ")]
    assert not left, left


run_cases()
