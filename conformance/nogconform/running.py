"""Runs the program and the peer, each with a time limit, and leaves no process and no file."""

from __future__ import annotations

import contextlib
import fcntl
import os
import re
import selectors
import shutil
import signal
import subprocess
import tempfile
import time
from collections.abc import Iterator
from pathlib import Path
from typing import IO

from nogconform.script import Case, Event

from .places import LIBRARY_SOURCE, PEER_SOURCE, TOP
from .script import BadInput, read_event, read_events

FLAGS = ["-std=gnu11", "-O1", "-Wall", "-Wextra", "-Werror"]


class Stopped(Exception):
    """A tool died, hung, or printed something that is not an event line."""


def require_command(words: list[str], whose: str) -> None:
    """Reports once what would otherwise be reported for each case."""
    if not words or shutil.which(words[0]) is None:
        raise Stopped(f"{whose} was not started: no such command: {words[0] if words else 'nothing'}")


def is_own(words: list[str]) -> bool:
    """Whether the command is this project's own program."""
    return bool(words) and os.path.realpath(words[0]) == os.path.realpath(os.path.join(TOP, "shmsim"))


def start_own_program(words: list[str]) -> None:
    """Builds this project's own program if needed: without a time limit, and with its progress shown."""
    if not is_own(words):
        return
    done = subprocess.run(words + ["serial", "ram:1"], input=b"limits 1 1 1 2 0\n", stdout=subprocess.DEVNULL,
                          check=False)
    if done.returncode != 0:
        raise Stopped(f"the program ended with status {done.returncode} over a script without commands")


def run_program(words: list[str], case: Case, limit: int) -> list[Event]:
    """The program's events for a case."""
    command = words + ["serial"] + case.swap
    try:
        done = subprocess.run(command, input=case.text.encode(), capture_output=True, timeout=6 * limit,
                              check=False)
    except subprocess.TimeoutExpired:
        raise Stopped(f"the program gave no answer in {6 * limit} seconds") from None
    except OSError as error:
        raise Stopped(f"the program was not started: {error}") from None
    if done.returncode != 0:
        message = done.stderr.decode(errors="replace").strip().splitlines()[-1:] or ["it printed no message"]
        raise Stopped(f"the program ended with status {done.returncode}: {message[0]}")
    try:
        events = read_events(done.stdout.decode("ascii", "replace"), "the program")
    except BadInput as error:
        raise Stopped(str(error)) from None
    if len(events) != len(case.commands):
        raise Stopped(f"the program printed {len(events)} lines for {len(case.commands)} commands")
    return events


def build_peer(folder: str, is_static: bool = False) -> str:
    """The peer's path, built by the machine's C compiler."""
    return compile_program(os.path.join(folder, "peer"), ["-static"] * is_static + [PEER_SOURCE], "the peer")


def compile_program(path: str, words: list[str], whose: str) -> str:
    compiler = shutil.which("cc")
    if compiler is None:
        raise Stopped("there is no C compiler (cc)")
    done = subprocess.run([compiler] + FLAGS + ["-o", path] + words, capture_output=True, check=False)
    if done.returncode != 0:
        raise Stopped(f"{whose} was not built: " + done.stderr.decode(errors="replace").strip()[:300])
    return path


def build_library(folder: str, library: str) -> tuple[str, bool, bool]:
    """The program over the C library whose archive and header are in a folder, and whether the library counts
    munmap, mprotect and setuid among the calls, and has rules."""
    archive, header = (os.path.join(library, name) for name in ("libnogcuvema.a", "nogcuvema.h"))
    missing = next((path for path in (archive, header) if not os.path.isfile(path)), None)
    if missing:
        raise Stopped(f"the library was not built: there is no {missing}; ./lib makes it, and "
                      f"--library=FOLDER names another folder")
    text = Path(header).read_text("utf-8")
    version, has_rules = re.search(r"NOG_VERSION (\d+)", text), re.search(r"\bNOG_LINUX\b", text) is not None
    has_mappings = version is not None and int(version[1]) >= 10100
    words = ["-I", library] + ["-DNOG_HAS_RULES"] * has_rules
    path = compile_program(os.path.join(folder, "library"), [*words, LIBRARY_SOURCE, archive],
                           "the library's program")
    return path, has_mappings, has_rules


def open_folder() -> tempfile.TemporaryDirectory[str]:
    """A folder for built programs; another user may run them."""
    folder = tempfile.TemporaryDirectory(prefix="conform.")
    os.chmod(folder.name, 0o755)
    return folder


class Peer:
    """A command that reads a script on standard input and prints event lines."""

    def __init__(self, words: list[str], options: list[str] | tuple[()] = (), limit: int = 10) -> None:
        self.words = list(words) + list(options)
        # after an exec the emulator runs again, or the process would leave it
        if os.path.basename(words[0]).startswith("qemu"):
            self.words += ["--exec", " ".join(words)]
        self.limit = limit
        self.notes: set[str] = set()

    def run(self, text: str, count: int) -> list[Event]:
        """The events of a script with this many commands."""
        with only_one(), tempfile.TemporaryFile() as script, tempfile.TemporaryFile() as said:
            script.write(text.encode())
            script.seek(0)
            try:
                process = subprocess.Popen(self.words, stdin=script, stdout=subprocess.PIPE, stderr=said,
                                           start_new_session=True)
            except OSError as error:
                raise Stopped(f"the peer was not started: {error}") from None
            try:
                return self.listen(process, count, said)
            finally:
                end_group(process)

    def listen(self, process: subprocess.Popen[bytes], count: int, said: IO[bytes]) -> list[Event]:
        events: list[Event] = []
        assert process.stdout is not None
        for line in lines_within(process.stdout, 2 * self.limit):
            event = read_event(line)
            if event is None or event.place != len(events) + 1:
                raise Stopped(f"the peer printed a line that is not an event line: {line[:80]!r}")
            events.append(event)
        try:
            status = process.wait(2 * self.limit)
        except subprocess.TimeoutExpired:
            raise Stopped(f"the peer did not end within {2 * self.limit} seconds after its last "
                          f"line") from None
        message = text_of(said)
        self.notes.update(line for line in message if " note: " in line)
        faults = [line for line in message if " note: " not in line]
        if status != 0:
            raise Stopped(f"the peer ended with status {status}: {(faults or ['it printed no message'])[-1]}")
        if len(events) != count:
            raise Stopped(f"the peer printed {len(events)} lines for {count} commands")
        return events


@contextlib.contextmanager
def only_one() -> Iterator[None]:
    """Only one peer at a time on this machine: Linux counts a user's locked pages over all processes."""
    folder = os.open(tempfile.gettempdir(), os.O_RDONLY)
    try:
        fcntl.flock(folder, fcntl.LOCK_EX)
        yield
    finally:
        os.close(folder)


def text_of(file: IO[bytes]) -> list[str]:
    file.seek(0)
    return file.read().decode(errors="replace").splitlines()


def lines_within(stream: IO[bytes], limit: int) -> Iterator[str]:
    """Each line; it must come within this many seconds after the one before."""
    rest = b""
    with selectors.DefaultSelector() as selector:
        selector.register(stream, selectors.EVENT_READ)
        while True:
            if not selector.select(limit):
                raise Stopped(f"the peer printed nothing for {limit} seconds")
            got = os.read(stream.fileno(), 65536)
            if not got:
                break
            *lines, rest = (rest + got).split(b"\n")
            yield from (line.decode("ascii", "replace") for line in lines)
    if rest:
        raise Stopped(f"the peer printed half a line: {rest[:80].decode('ascii', 'replace')!r}")


def end_group(process: subprocess.Popen[bytes]) -> None:
    """Ends the remaining processes of a peer: first by a request, so that it removes its segments."""
    for number, seconds in ((signal.SIGTERM, 5), (signal.SIGKILL, 5)):
        if not is_group_there(process.pid):
            break
        try:
            os.killpg(process.pid, number)
        except ProcessLookupError:
            break
        wait_for_group(process, seconds)
    if process.stdout:
        process.stdout.close()
    process.wait()


def wait_for_group(process: subprocess.Popen[bytes], seconds: int) -> None:
    end = time.monotonic() + seconds
    while time.monotonic() < end:
        process.poll()
        if not is_group_there(process.pid):
            return
        time.sleep(0.01)


def is_group_there(group: int) -> bool:
    """Whether a process of the group runs; one that only waits for its parent does not count."""
    try:
        os.killpg(group, 0)
    except ProcessLookupError:
        return False
    return any(is_running(name, group) for name in os.listdir("/proc") if name.isdigit())


def is_running(pid: str, group: int) -> bool:
    try:
        with open(f"/proc/{pid}/stat", encoding="ascii", errors="replace") as file:
            state, _parent, its_group = file.read().rsplit(")", 1)[1].split()[:3]
    except OSError:
        return False
    return int(its_group) == group and state not in "ZX"


def why_no_peer() -> str:
    """Why the peer can't run here, or nothing."""
    if shutil.which("cc") is None:
        return "there is no C compiler (cc)"
    if os.geteuid() == 0:
        return ""
    test = subprocess.run(["unshare", "--user", "--ipc", "true"], capture_output=True, check=False) \
        if shutil.which("unshare") else None
    return "" if test and test.returncode == 0 else "neither root nor a user namespace is at hand"
