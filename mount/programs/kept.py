"""A tree outlives the restore of its snapshot, and an unmount in an image."""
import os
import subprocess
from collections.abc import Callable
from pathlib import Path

from own_mount import MOUNT, Mount
from seen import alike, seen

# Owners, set-user bits and devices of an image hold where root asks for that.
TRUST = ["--trust-attributes"] if os.getuid() == 0 else []


def restore(mount: Mount, snapshot: str) -> None:
    subprocess.run([MOUNT, "--restore", snapshot, mount.point], check=True)


def outlives(folder: Path, make: Callable[[Path], None], change: Callable[[Path], None]) -> None:
    """What is made is seen again in its snapshot after a change, once that is restored, and in a mount of the image."""
    mount = Mount(folder, "--image", folder / "image")
    make(mount.point)
    made, snapshot = seen(mount.point), mount.point / ".snapshots/made"
    os.mkdir(snapshot)
    change(mount.point)
    assert seen(mount.point) != made
    alike(seen(snapshot), made)
    restore(mount, "made")
    alike(seen(mount.point), made)
    os.rmdir(snapshot)
    assert mount.end() == 0, mount.said()
    for _ in range(2):
        mount = Mount(folder, *TRUST, "--load", folder / "image", "--image", folder / "image")
        alike(seen(mount.point), made)
        assert mount.end() == 0, mount.said()
