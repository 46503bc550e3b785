"""The peer apart from its replies: how it ends, what exec runs, and where its own memory is."""

from __future__ import annotations

import os
import re
import shutil
import signal
import subprocess
import tempfile
from pathlib import Path

import pytest

from commands import Conform, text_of
from nogconform.places import CASES, KIT, PEER_SOURCE
from nogconform.running import FLAGS, Peer
from nogconform.script import is_expected, read_case

SEGMENTS = "/proc/sysvipc/shm"
MAPPINGS = re.compile(r"(mappings_in_a_child|mprotect_\w+|munmap_\w+|pieces_in_parts|splits_are_no_attaches|setuid)\.shm")
# this project's replies to commands of those cases by its own rules: removed identifier, whole access, rest
# is attached
BY_RULE = {("munmap_of_marked", "EIDRM"), ("mprotect_middle", "0003"),
           ("splits_are_no_attaches", "atime=set dtime=set lpid=2 nattch=3")}
HEAD = "limits 65536 16 64 16 4\nprocess 1 {0} {1}\nchild 2\n".format(os.geteuid(), os.getegid())
# more than a pipe holds: the peer waits until somebody reads it
MANY = "1 stat 0\n" * 1000
LONG = HEAD + "1 s = shmget private 4096 600\n1 shmat s null -\n1 fork 2\n" + "2 stat 0\n1 stat 0\n" * 1000
# as much, for a process that is never born: no worker is used, so nothing notices that the guardian is gone
IDLE = HEAD + "1 s = shmget private 4096 600\n1 shmat s null -\n" + "2 stat 0\n" * 3000
# slows down each of the guardian's calls
SLOW = """#define _GNU_SOURCE
#include <signal.h>
#include <sys/wait.h>
#include <unistd.h>
typedef const struct sigaction *act;
static inline int slow_sigaction(int n, act a, struct sigaction *b) {
    usleep(9000);
    return sigaction(n, a, b);
}
static inline int slow_mask(int how, const sigset_t *a, sigset_t *b) {
    usleep(9000);
    return sigprocmask(how, a, b);
}
static inline int slow_waitid(idtype_t t, id_t i, siginfo_t *s, int o) {
    usleep(30000);
    return waitid(t, i, s, o);
}
static inline pid_t slow_waitpid(pid_t p, int *s, int o) { usleep(30000); return waitpid(p, s, o); }
#define sigprocmask slow_mask
#define waitid slow_waitid
#define waitpid slow_waitpid
#define sigaction(...) slow_sigaction(__VA_ARGS__)
"""


def segments_of(pid: int) -> set[str]:
    """The system's segments that a process created."""
    with open(SEGMENTS, encoding="ascii") as file:
        rows = [line.split() for line in file.readlines()[1:]]
    return {row[1] for row in rows if row[4] == str(pid)}


def children(pid: int) -> list[int]:
    return [int(word) for word in text_of(f"/proc/{pid}/task/{pid}/children").split()]


def start_peer(peer: str, options: list[str], text: str,
               lines: int) -> tuple[subprocess.Popen[bytes], list[str]]:
    """A peer in the middle of a case: it made so many commands, and waits for room in its output pipe."""
    script = tempfile.TemporaryFile()
    script.write(text.encode())
    script.seek(0)
    process = subprocess.Popen([peer, "--limit", "1"] + options, stdin=script, stdout=subprocess.PIPE,
                               stderr=subprocess.PIPE, start_new_session=True, bufsize=0)
    assert process.stdout is not None
    return process, [process.stdout.readline().decode() for _ in range(lines)]


def end_of(process: subprocess.Popen[bytes], needs_no_reader: bool) -> tuple[bytes, bytes]:
    """The rest of the output of a peer that was killed. Until it is read, the director waits, so it ends in
    the middle of a case; but it notices a missing worker only when it continues. By then all processes have
    closed their ends of the pipes."""
    try:
        if needs_no_reader:
            process.wait(timeout=30)
    except subprocess.TimeoutExpired:
        pass
    return process.communicate(timeout=60)


ENDED = (("guardian", signal.SIGKILL), ("guardian", signal.SIGTERM), ("group", signal.SIGINT),
         ("director", signal.SIGKILL), ("worker", signal.SIGKILL), ("worker", signal.SIGSTOP))
has_segments = pytest.mark.skipif(not os.path.exists(SEGMENTS), reason=f"this system has no {SEGMENTS}")


@has_segments
@pytest.mark.parametrize("options", [[], ["--shared"]], ids=["", "shared"])
@pytest.mark.parametrize("who, number", ENDED)
def test_killed(peer: str, who: str, number: signal.Signals, options: list[str]) -> None:
    """If any of the peer's processes is killed, the others end, and no segment is left."""
    process, said = start_peer(peer, options, LONG, 3)
    director = children(process.pid)[0]
    worker = children(director)[0]
    made = segments_of(worker)
    target = {"guardian": process.pid, "group": -process.pid, "director": director, "worker": worker}[who]
    os.kill(target, number)
    rest, errors = end_of(process, who != "worker")
    assert said[2] == "3 1 fork 2 = ok\n"
    assert len(made) == len(options)
    assert b"\n2003 1 stat" not in rest
    assert process.returncode != 0
    assert not segments_of(worker)


@has_segments
def test_guardian_gone(peer: str) -> None:
    """The guardian is killed while no worker is busy: the director then removes the segments."""
    process, _said = start_peer(peer, ["--shared"], IDLE, 2)
    worker = children(children(process.pid)[0])[0]
    made = segments_of(worker)
    os.kill(process.pid, signal.SIGKILL)
    rest, errors = end_of(process, True)
    assert len(made) == 1
    assert b"\n3002 2 stat" in rest
    assert not segments_of(worker)


@has_segments
@pytest.mark.parametrize("lines", [
    1, 1, 2, 3
])
def test_interrupted(folder: str, lines: int) -> None:
    """An interrupt is not lost, whatever the guardian is doing: after its fork, or after more calls."""
    header, peer = os.path.join(folder, "slow.h"), os.path.join(folder, "slow_peer")
    Path(header).write_text(SLOW, "ascii")
    words = ["cc", *FLAGS, "-Wno-unused-function", "-include", header, "-I", KIT, "-o", peer, PEER_SOURCE]
    done = subprocess.run(words, capture_output=True, check=False)
    if done.returncode:
        pytest.fail(f"a slow guardian was not built: {done.stderr.decode(errors='replace')[:300]}")
        return
    process, _said = start_peer(peer, ["--shared"], LONG, lines)
    [director] = children(process.pid)
    worker = children(director)[0]
    os.kill(process.pid, signal.SIGTERM)
    rest, errors = end_of(process, True)
    assert process.returncode == 3
    assert b"\n2003 1 stat" not in rest
    assert not segments_of(worker)


def replies_of(said: bytes) -> list[str]:
    return [line.partition(" = ")[2] for line in said.decode("ascii", "replace").splitlines()]


def test_own_memory(peer: str) -> None:
    """Nothing is attached, read or written where the peer's own memory is; everywhere else it is."""
    process = subprocess.Popen([peer], stdin=subprocess.PIPE, stdout=subprocess.PIPE,
                               stderr=subprocess.DEVNULL)
    # it reads its whole script before it makes a process
    begins: list[int] = []
    while not begins and process.poll() is None:
        with open(f"/proc/{process.pid}/maps", encoding="ascii", errors="replace") as file:
            begins = [int(line.split("-")[0], 16) for line in file if line.rstrip().endswith(peer)]
    begin = min(begins, default=0)
    skip = "skipped: the peer's own memory is there"
    below = f"{begin - 8192:#x}"
    calls = ((f"shmat 0 {begin:#x} -", skip), (f"shmat 0 {begin:#x} remap", skip),
             (f"shmat 0 {begin - 4096:#x} -", skip),
             (f"load {begin:#x} 1", skip), (f"load {begin - 1:#x} 2", skip), (f"store {begin:#x} 00", skip),
             (f"xadd {begin - 7:#x} 1", skip), (f"load {begin - 1:#x} 1", "SIGSEGV"),
             (f"shmat 0 {below} -", below),
             (f"store {begin - 1:#x} 2a", "ok"), (f"load {begin - 1:#x} 1", "2a"))
    text = HEAD + "1 shmget private 8192 600\n" + "".join(f"1 {call}\n" for call, _ in calls)
    said, _ = process.communicate(text.encode(), timeout=60)
    wanted = ["0", *(reply for _, reply in calls)]
    assert replies_of(said) == wanted


def test_own_ranges(peer: str) -> None:
    """Nothing changes where the peer's own memory is, but a call that reaches nothing is made."""
    skip, end = "skipped: the peer's own memory is there", 0x7ffffffff000
    all_of_it = end - 0x10000
    calls = ((f"munmap 0x10000 {all_of_it}", skip), (f"munmap 0x10000 {all_of_it + 1}", "EINVAL"),
             ("munmap 0x10001 4096", "EINVAL"),
             ("munmap 0x50000000 268435456", "ok"), ("shmat 0 0x50000000 -", "0x50000000"),
             # it ends at the first page that is not attached, which is not the peer's
             (f"mprotect 0x50000000 {end - 0x50000000} ro", "ENOMEM"), ("store 0x50000000 00", "SIGSEGV"),
             (f"mprotect 0x10000 {all_of_it} rw", "ENOMEM"), (f"mprotect 0x10000 {2 ** 64 - 1} rw", "ENOMEM"),
             # the second one has another address than in the script: the two are not one range
             ("shmat 0 0x3fffe000 -", "0x3fffe000"), ("shmat 0 null -", "0x40000000"),
             ("munmap 0x3ffff000 8192", "skipped: the range is not one range of the system"),
             ("mprotect 0x40000000 12288 ro", "skipped: the range is not one range of the system"),
             ("munmap 0x40000000 8192", "ok"), ("munmap 0x3ffff000 8192", "ok"), ("load 0x3fffe000 1", "00"))
    text = HEAD + "1 shmget private 8192 600\n" + "".join(f"1 {call}\n" for call, _ in calls)
    done = subprocess.run([peer], input=text.encode(), capture_output=True, check=False)
    wanted = ["0", *(reply for _, reply in calls)]
    assert replies_of(done.stdout) == wanted


def test_mappings(peer: str) -> None:
    """The cases of munmap, mprotect and setuid: the replies are right, except by this project's own rules."""
    found = set()
    for name in sorted(filter(MAPPINGS.fullmatch, os.listdir(CASES))):
        case = read_case(name, text_of(os.path.join(CASES, name)), has_flags=True)
        events = Peer([peer]).run(case.text, len(case.commands))
        for command, event in zip(case.commands, events):
            told = re.sub("time=[1-9][0-9]*", "time=set", command.expected or "")
            if not event.is_skipped and not is_expected(told, event.reply):
                found.add((case.name, told, event.reply.split(" lpid=")[0]))
            is_made = not event.is_skipped or command.expected == "ESRCH" or os.geteuid() != 0
            assert is_made
    assert {(name, told) for name, told, _reply in found} == BY_RULE


def test_bus_error(peer: str) -> None:
    """A segment whose file is truncated while it is attached: the system answers each access with SIGBUS."""
    text = (HEAD + "1 shmget private 4096 600\n1 shmat 0 0x50000000 -\n1 store 0x50000000 01\n" + MANY
            + "1 load 0x50000000 1\n1 store 0x50000000 02\n1 xadd 0x50000000 1\n1 load 0x50001000 1\n"
            "1 load 0x50000000 1\n1 shmdt 0x50000000\n")
    process, _said = start_peer(peer, [], text, 3)
    worker = children(children(process.pid)[0])[0]
    try:
        os.truncate(f"/proc/{worker}/map_files/50000000-50001000", 0)
    except PermissionError as error:
        process.communicate(timeout=60)
        pytest.skip(f"an access that the system answers with SIGBUS: {error.strerror}")
    rest, errors = process.communicate(timeout=60)
    wanted = ["SIGBUS", "SIGBUS", "SIGBUS", "SIGSEGV", "SIGBUS", "ok"]
    got = replies_of(rest)[-6:]
    assert (got, process.returncode) == (wanted, 0)


def test_exec(peer: str, folder: str, conform: Conform) -> None:
    """Under an emulator, exec runs the emulator again; here that is a script that notes what it runs."""
    emulator, log = os.path.join(folder, "qemu-none"), os.path.join(folder, "log")
    for path, text, mode in ((emulator, f'#!/bin/sh\necho "$@" >> {log}\nexec "$@"\n', 0o755),
                             (log, "", 0o666)):
        Path(path).write_text(text, "ascii")
        os.chmod(path, mode)
    execs = len(re.findall(r"^\d+ exec$", text_of(os.path.join(CASES, "deferred_by_exec.shm")), re.M))
    status, said = conform("deferred_by_exec", "--peer", emulator, peer)
    ran = text_of(log).splitlines()
    wanted = [f"{peer} --limit 10 --exec {emulator} {peer}"] + [peer] * execs
    assert status == 0
    assert execs > 0
    assert re.search(r"^deferred_by_exec: (agree|profile)", said, re.M)
    assert ran == wanted


def words_without_root() -> list[str] | None:
    """The words that run a command as an ordinary user, or none if that user gets no namespace."""
    words = ["setpriv", "--reuid=65534", "--regid=65534", "--clear-groups"]
    if os.geteuid() != 0 or shutil.which("setpriv") is None or shutil.which("unshare") is None:
        return None
    done = subprocess.run([*words, "unshare", "--user", "--ipc", "true"], capture_output=True, check=False)
    return words if done.returncode == 0 else None
