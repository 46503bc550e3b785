"""The toolchain's quick run of a crate, `rt try`, which proves nothing. It makes its files in a folder for
temporary files and removes them, so each that is wanted is taken while the run lasts."""
from __future__ import annotations

import os
import signal
import subprocess
import sys
import tempfile
import threading
from collections.abc import Callable
from typing import IO, Any

from crates import ROOMS

# between two looks; a wanted file exists for about a second
SECONDS = 0.01
# the quick runs that go on
RUNNING: set[subprocess.Popen[bytes]] = set()


class Taken:
    """Links files of one name below a folder to others of our own, each once."""

    def __init__(self, folder: str, name: str, take: Callable[[str], bool]) -> None:
        self.folder, self.name, self.take = folder, name, take
        self.seen: set[str] = set()

    def look(self) -> None:
        for at, _, names in os.walk(self.folder):
            path = os.path.join(at, self.name)
            if self.name in names and path not in self.seen and self.take(path):
                self.seen.add(path)

    def watch(self, ended: threading.Event) -> None:
        while not ended.wait(SECONDS):
            self.look()


def end_runs_by_signals() -> None:
    """A signal that ends this process ends its quick runs first."""
    def end(number: int, _: Any) -> None:
        for tried in list(RUNNING):
            tried.terminate()
        sys.exit(128 + number)

    for number in (signal.SIGTERM, signal.SIGHUP):
        signal.signal(number, end)


def run(folder: str, words: list[str], name: str, take: Callable[[str, float], bool], said: IO[bytes],
        given: bytes = b"") -> int:
    """Runs `rt try -- WORDS` in the crate's folder, over the bytes given; `said` gets what it prints.
    take(path, began) gets the path of each file `name` that the run makes, and when the run began; it answers
    whether it took the file. Returns the run's status."""
    os.makedirs(ROOMS, exist_ok=True)
    with tempfile.TemporaryDirectory(prefix="try-", dir=ROOMS) as temporary:
        began, ended = os.stat(temporary).st_mtime, threading.Event()
        taken = Taken(temporary, name, lambda path: take(path, began))
        watcher = threading.Thread(target=taken.watch, args=(ended,), daemon=True)
        with subprocess.Popen(["rt", "try", "--", *words], cwd=folder, stdin=subprocess.PIPE, stdout=said,
                              stderr=said, env={**os.environ, "TMPDIR": temporary}) as tried:
            RUNNING.add(tried)
            watcher.start()
            try:
                tried.communicate(given)
            finally:
                tried.terminate()
                RUNNING.discard(tried)
                ended.set()
                watcher.join()
    return tried.returncode if tried.returncode >= 0 else 128 - tried.returncode
