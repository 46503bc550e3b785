"""Makes the pictures of docs/TOUR.md: tests/viewer/pictures, with a browser on the path."""

from __future__ import annotations

import os
import subprocess
import sys
import tempfile
from pathlib import Path

from commands import TOP, text_of
from viewer import browser

# for each example the step that is shown
PICTURES = {"memory_short": 6, "failing_swap": 6, "swap_taken_away": 7, "remap": 6, "deferred_removal": 8,
            "fork": 6, "permissions": 8, "locks": 9, "lost_update": 7}
# a test has no proved program everywhere: it names a command
VIEWER = os.environ.get("VIEWER", f"{TOP}/shmview").split()


def main() -> int:
    if browser.path() is None:
        print("tests/viewer/pictures: no browser is here", file=sys.stderr)
        return 1
    os.makedirs(os.path.join(TOP, "docs", "pictures"), exist_ok=True)
    with tempfile.TemporaryDirectory(prefix="viewer.") as folder, browser.Session() as session:
        for name, step in PICTURES.items():
            swap = "ram:64"
            if os.path.exists(f"{TOP}/examples/{name}.swap"):
                swap = text_of(f"{TOP}/examples/{name}.swap")
            path = os.path.join(folder, name + ".html")
            with open(f"{TOP}/examples/{name}.shm", "rb") as script, open(path, "wb") as page:
                subprocess.run([*VIEWER, *swap.split()], stdin=script, stdout=page, check=True)
            to = f"{TOP}/docs/pictures/{name}.png"
            session.open(f"file://{path}#step-{step}", 1280, 900)
            Path(to).write_bytes(session.picture())
            print(f"{to}: {os.path.getsize(to)} bytes")
    return 0


if __name__ == "__main__":
    sys.exit(main())
