"""A store of 1 GiB in files: what an image of it holds up, and what memory it takes."""
import sys
from pathlib import Path

from own_mount import MOUNT, case, run_cases
from own_store import names_after, store_mount
from store_speed import measure_image

MEBIBYTES, LONGEST, MORE = 1024, 0.05, 1.15


@case
def an_image_of_much_holds_nothing_up(folder: Path):
    """On a busy machine a write may take longer by itself: so those before the image count too. Of a build with sanitizers, which
    has its own malloc, neither time nor memory is judged."""
    mount = store_mount(folder, "--log-size", f"{MEBIBYTES + 60}M")
    held = measure_image(mount.point, folder / "store", mount.process.pid, MEBIBYTES)
    print(f"{MEBIBYTES} MiB in files: {held}")
    sys.stdout.flush()
    if "sanitized" not in MOUNT:
        assert held.longest < LONGEST + 2 * held.quiet and held.most < MORE * held.before, held
    names = {it.name for it in mount.point.iterdir()}
    assert mount.end() == 0, mount.said()
    assert names_after(folder) == names


run_cases()
