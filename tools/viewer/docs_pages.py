"""Makes docs/pages, ready to open: the viewer's pages of the lessons of docs/TOUR.md and of the solutions of
their tasks, and of the record in docs/RUN.md.

    tools/pages          makes the pages
    tools/pages check    compares the stored pages with the program's; the status is 1 if one differs
"""
from __future__ import annotations

import os
import subprocess
import sys
from pathlib import Path

from nogcuvema._ending import run_command
from serve import lessons_of, swaps_beside

TOP = os.path.dirname(os.path.dirname(os.path.dirname(os.path.realpath(__file__))))
FOLDER = f"{TOP}/docs/pages"
MOST_BYTES = 300_000
RECORDS = ("postgresql",)
# a test has no proved program everywhere: it names a command
VIEWER = os.environ.get("VIEWER", f"{TOP}/shmview").split()


def made_pages() -> dict[str, bytes]:
    """Returns each page by its path."""
    pages: dict[str, bytes] = {}
    lessons = [lesson["example"] for lesson in lessons_of(f"{TOP}/docs/TOUR.md")]
    paths = {name: f"{TOP}/examples/{name}.shm" for name in (*lessons, *RECORDS)}
    paths |= {f"{name}-solution": f"{TOP}/examples/solutions/{name}.shm" for name in lessons}
    for name, path in paths.items():
        with open(path, "rb") as script:
            done = subprocess.run([*VIEWER, *swaps_beside(path)], stdin=script, stdout=subprocess.PIPE,
                                  check=True)
        pages[f"{FOLDER}/{name}.html"] = done.stdout
    return pages


def check() -> int:
    pages = made_pages()
    found = {os.path.join(FOLDER, name) for name in os.listdir(FOLDER)}
    told = f"docs/pages has {sorted(found ^ {*pages})}, which differ from the lessons"
    faults = [told] * (found != {*pages})
    for path, page in pages.items():
        stored = b""
        if path in found:
            stored = Path(path).read_bytes()
        faults += [f"{path} is not what ./shmview makes: tools/pages makes it anew"] * (stored != page)
        faults += [f"{path} has {len(page)} bytes"] * (len(page) >= MOST_BYTES)
    print("".join(f"pages: {fault}\n" for fault in faults), end="")
    return 1 if faults else 0


def main(words: list[str]) -> int:
    if words == ["check"]:
        return check()
    if words:
        print(__doc__, file=sys.stderr)
        return 2
    os.makedirs(FOLDER, exist_ok=True)
    for path, page in made_pages().items():
        Path(path).write_bytes(page)
        print(f"{os.path.relpath(path, TOP)}: {len(page)} bytes")
    return 0


if __name__ == "__main__":
    sys.exit(run_command("pages", lambda: main(sys.argv[1:])))
