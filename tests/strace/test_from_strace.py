"""conformance/from_strace, over the traces next to this file.

NAME.strace is a trace that strace printed; NAME.shm, NAME.log and NAME.said are its script, its log and the
messages about it. NAME.words are further words of the command line. unfinished, overlap, attaching, no_order,
processes, more, left_out, sizes and advice were written by hand, with what they give. The others are of
programs of Debian 12 on Linux 6.18, cut to the calls that matter.

Where the peer of the kit can be run, it makes each script's calls on this system, in the script's order, and
gets the replies of the log; so a script has the calls of its trace. Where the judge was built, NAME.verdict
is the first line of its verdict, if the rules of the profile and of Linux give the same replies.
"""

from __future__ import annotations

import os
import re
from typing import Any

import pytest

from commands import TOP, run, text_of, write_file
from nogconform.script import ERRORS
from nogcuvema import read_script

HERE = os.path.dirname(os.path.realpath(__file__))
NAMES = sorted(it[:-7] for it in os.listdir(HERE) if it.endswith(".strace"))
PROGRAM = os.path.join(TOP, "conformance", "from_strace")
# what a trace of the program's own memory can't show: other limits, other memory, and a process that was
# killed
NOT_REPLAYED = ("left_out", "no_order")
CALL = '1 shmget(IPC_PRIVATE, 4096, IPC_CREAT|0600) = 0\n'
WRONG = (
    ("nonsense\n", "line 1: not a line of strace -f: 'nonsense'"),
    ("--- SIGSEGV {si_signo=SIGSEGV\n", "line 1: not a line of strace -f: '--- SIGSEGV {si_signo=SIGSEGV'"),
    (CALL + "1 shmat(0, NULL, 0) = 0x7f000\n1 shmdt(0x7f000\n",
     "line 3: not a line of strace -f: '1 shmdt(0x7f000'"),
    ("1 <... shmat resumed>) = 0x7f000\n", "line 1: process 1 has no unfinished shmat"),
    ("1 shmdt(0x1 <unfinished ...>\n1 <... shmat resumed>) = 0\n",
     "line 2: process 1 has no unfinished shmat"),
    ("1 shmdt(0x1 <unfinished ...>\n1 shmdt(0x1 <unfinished ...>\n",
     "line 2: process 1 is already in a call, from line 1"),
    ("1 shmdt(0x1 <unfinished ...>\n1 <... shmdt resumed>) 0\n", "line 2: not the end of a call: ') 0'"),
    ("[pid 1] exit(0) = ?\n[pid 2] exit(0) = ?\nexit(0) = ?\n",
     "line 3: it does not say which process it belongs to; strace -f -o FILE names each"),
    ("vfork(strace: Process 2 attached\n", "line 1: the line continues in the next one, which is missing"),
    ("".join(CALL.replace("= 0", f"= {it}") for it in range(65)),
     "there are 65 segments at a time, but at most 64 fit: see --slots"),
)
# the lock overlaps with the unlock and with the rmid, which began after the unlock had returned
ACROSS = """1 shmget(IPC_PRIVATE, 4096, IPC_CREAT|0600) = 0
2 shmctl(0, SHM_LOCK, NULL <unfinished ...>
1 shmctl(0, SHM_UNLOCK, NULL) = 0
3 shmctl(0, IPC_RMID, NULL) = 0
2 <... shmctl resumed>) = 0
"""
USAGE: tuple[list[str], ...] = ([], ["--log", "l"], ["--script", "s"], ["--verdict", "v", "--log", "l"],
                                ["--uid", "x"], ["--limits", "1 2 3"],
         ["--slots", "0"], ["--uid", "4294967296"], ["--no-such"], ["a", "b"])


def convert(words: Any, text: str = "", folder: str | None = None) -> Any:
    return run([PROGRAM, *words], text, cwd=folder)


def stored(name: str) -> str:
    return text_of(os.path.join(HERE, name), "")


def made(folder: str, name: str) -> tuple[int, str, str, str, str]:
    """The result for a trace: the status, the messages, the script and the log."""
    words = stored(f"{name}.words").split() or ["--uid", "0", "--gid", "0"]
    script, log = os.path.join(folder, f"{name}.shm"), os.path.join(folder, f"{name}.log")
    # a folder that has nothing of the repository below it
    ended = convert([os.path.join(HERE, f"{name}.strace"), "--script", script, "--log", log, *words],
                    folder=folder)
    return ended.status, ended.out, ended.said, text_of(script), text_of(log)


def fits(told: Any, reply: Any) -> Any:
    """Whether a system's reply is that of the log."""
    if told == "?":
        return reply not in ERRORS
    return told == re.sub(r"([adc]time)=[1-9][0-9]*", r"\1=set", reply)


def differences(script: str, log: str, peer: str) -> list[Any]:
    """The lines of a log that the running system answers in another way."""
    done = run([peer], script)
    wanted = [line for line in log.splitlines() if not line.startswith("#")]
    got = done.out.splitlines()
    assert len(got) == len(wanted), done.said
    pairs = [(line.split(" = ", 1)[1], reply.split(" = ", 1)[1], line) for line, reply in zip(wanted, got)]
    return [f"{line}: {reply}" for told, reply,
            line in pairs if not reply.startswith("skipped") and not fits(told, reply)]


@pytest.mark.parametrize("name", NAMES)
def test_stored(name: str, folder: str) -> None:
    """The script, the log and the messages of a trace, and the commands to run next."""
    status, printed, said, script, log = made(folder, name)
    path = os.path.join(folder, f"{name}.log")
    assert status == 0
    assert printed == (f"next: {TOP}/shmcheck judge {path} --rules linux < {path[:-4]}.shm > {path}.verdict\n"
                       f"then: {PROGRAM} {HERE}/{name}.strace --verdict {path}.verdict\n")
    assert (script, log, said) == (stored(f"{name}.shm"), stored(f"{name}.log"), stored(f"{name}.said"))


@pytest.mark.parametrize("name", [name for name in NAMES if name not in NOT_REPLAYED])
def test_replayed(name: str, peer: str) -> None:
    """The peer makes the script's calls on this system, and gets the replies of the log."""
    assert not differences(stored(f"{name}.shm"), stored(f"{name}.log"), peer)


@pytest.mark.parametrize("name", [name for name in NAMES if stored(f"{name}.verdict")])
def test_judged(name: str, shmcheck: str) -> None:
    ended = run([shmcheck, "judge", os.path.join(HERE, f"{name}.log")], stored(f"{name}.shm"))
    assert ended.out.split("\n")[0] == stored(f"{name}.verdict").strip()


@pytest.mark.parametrize("told, reply, wanted", [
    ("?", "0", True), ("?", "0x40000000", True), ("?", "EINVAL", False), ("EINVAL", "EINVAL", True),
    ("EINVAL", "EACCES", False), ("ok", "EINVAL", False),
    ("nattch=1 atime=set dtime=0", "nattch=1 atime=7 dtime=0", True),
    ("nattch=1 atime=set dtime=0", "nattch=1 atime=7 dtime=7", False)
])
def test_fits(told: str, reply: str, wanted: bool) -> None:
    """Which replies of the running system fit a reply of a log."""
    assert fits(told, reply) == wanted


OUT = ["--script", "s", "--log", "l"]


def attaches(count: int) -> str:
    """A process attaches a segment this many times."""
    return "".join(f"1 shmat(0, NULL, 0) = {0x7f0000000000 - 4096 * place:#x}\n" for place in range(count))


# traces that need a sizes line, further words, and the first lines of the script
LARGE: tuple[tuple[str, list[str], list[str]], ...] = (
    ("".join(f"{pid} {CALL[2:]}{pid} shmctl(0, IPC_RMID, NULL) = 0\n" for pid in range(1, 66)), [],
     ["sizes 65530 65 65536", "limits 4096 65 268435456 66 64"]),
    (CALL.replace("4096", str(2 ** 24 + 1)), ["--slots", "5000"],
     ["sizes 65530 1 65536", "limits 16777217 1 268435456 5002 5000"]),
    (CALL.replace("4096", str(2 ** 30)), ["--slots", "262144"],
     ["sizes 65530 1 262144", "limits 1073741824 1 268435456 262146 262144"]),
    (CALL + attaches(257), [], ["sizes 65530 1 65536", "limits 4096 1 268435456 66 64"]),
    (CALL, ["--limits", "4096 1 65537 2 0"], ["sizes 65530 1 65536", "limits 4096 1 65537 2 0"]),
)
# traces of the largest machine without that line
SMALL: tuple[tuple[str, list[str], list[str]], ...] = (
    ("".join(f"{pid} {CALL[2:]}{pid} shmctl(0, IPC_RMID, NULL) = 0\n" for pid in range(1, 65)), [],
     ["limits 4096 64 65536 66 64"]),
    (CALL.replace("4096", str(2 ** 24)), ["--slots", "65536"], ["limits 16777216 1 65536 4096 4094"]),
    # with 64 slots the size is 1 in the script
    (CALL.replace("4096", str(2 ** 30)), [], ["limits 1 1 65536 66 64"]),
    (CALL + attaches(256), [], ["limits 4096 1 65536 66 64"]),
)


@pytest.mark.parametrize("text, words, head", [*LARGE, *SMALL], ids=lambda it: str(it)[:40])
def test_sizes_line(folder: str, text: str, words: list[str], head: list[str]) -> None:
    """The first lines of a script, with a sizes line only if the trace needs it; the script can be read."""
    ended = convert([*OUT, "--uid", "0", "--gid", "0", *words], text, folder)
    script = text_of(os.path.join(folder, "s"))
    assert (ended.status, script.split("\n")[:len(head) + 1]) == (0, [*head, "rules linux"]), ended.said
    assert read_script(script).lines


@pytest.mark.parametrize("text, said", WRONG)
def test_wrong_trace(folder: str, text: str, said: str) -> None:
    """Nothing is written then."""
    assert convert(OUT, text, folder) == (1, "", f"from_strace: {said}\n")
    assert not os.listdir(folder)


@pytest.mark.parametrize("words", USAGE)
def test_usage(folder: str, words: list[str]) -> None:
    status, printed, said = convert(words, "", folder)
    assert (status, printed) == (2, "")
    assert said.startswith("usage: ")
    assert not os.listdir(folder)


def test_no_file(folder: str) -> None:
    assert convert(["absent", *OUT], "",
                   folder) == (3, "", "from_strace: absent: No such file or directory\n")
    ended = convert(["--script", "s", "--log", "absent/l"], CALL, folder)
    assert ended == (3, "", "from_strace: absent/l: No such file or directory\n")
    assert not os.listdir(folder)


def test_next(folder: str) -> None:
    """The commands to run next: from other folders, over standard input, and with names to be quoted."""
    script, log = os.path.join(folder, "a script"), os.path.join(folder, "log")
    rows: tuple[tuple[str, list[str], str], ...] = (
            (TOP, [os.path.join(HERE, "sizes.strace")],
             f"next: ./shmcheck judge {log} --rules linux < '{script}' > {log}.verdict\n"
             f"then: conformance/from_strace {HERE}/sizes.strace --verdict {log}.verdict\n"),
            (HERE, [], f"next: {TOP}/shmcheck judge {log} --rules linux < '{script}' > {log}.verdict\n"
             f"then: {TOP}/conformance/from_strace --verdict {log}.verdict < TRACE\n"))
    for cwd, trace, wanted in rows:
        status, printed, _ = convert([*trace, "--script", script, "--log", log], stored("sizes.strace"), cwd)
        assert (status, printed) == (0, wanted)
    help_text = run([PROGRAM, "--help"]).out
    page = text_of("docs/STRACE.md")
    shown = [it for it in (help_text + page).splitlines() if re.search("shmcheck judge .* < ", it)]
    assert len(shown) >= 3
    assert all("--rules linux" in it for it in shown)


IN_ORDER = "100 100 100 101 100 101 101 100 100 1 1 100 102 1 1"
EARLY = "not in time: 101 exit (line 12) comes before 100 rmid 7 (line 7), which had returned when it began\n"
LATE = "not in time: 3 rmid 0 (line 4) comes before 1 unlock 0 (line 3), which had returned when it began\n"


@pytest.mark.parametrize("name, schedule, status, printed", [
    ("unfinished", IN_ORDER, 0, "in time\n"),
    # the rmid overlaps with the shmdt and the shmat of the child
    ("unfinished", IN_ORDER.replace("101 100 101 101", "101 101 100 101", 1), 0, "in time\n"),
    ("unfinished", IN_ORDER.replace("101 100 101 101", "100 101 101 101", 1), 0, "in time\n"),
    # it had returned when the child began to exit
    ("unfinished", IN_ORDER.replace("101 100 101 101", "101 101 101 100", 1), 6, EARLY),
    ("across", "1 2 1 3", 0, "in time\n"), ("across", "1 1 3 2", 0, "in time\n"),
    ("across", "1 3 2 1", 6, LATE),
    ("across", "1 3 1 2", 6, LATE), ("across", "1 2 3 1", 6, LATE)])
def test_times(folder: str, name: str, schedule: str, status: int, printed: str) -> None:
    """The schedule of a verdict against the times; line numbers are those of the trace."""
    across = write_file(folder, "across", ACROSS)
    trace = os.path.join(HERE, "unfinished.strace") if name == "unfinished" else across
    path = write_file(folder, "verdict", f"legal\nschedule {schedule}\n")
    assert convert([trace, "--verdict", path]) == (status, printed, "")


@pytest.mark.parametrize("text, said", [("illegal\nschedule\n", "the verdict is not `legal` with a schedule"),
                                        ("legal\nschedule 100\n", "the schedule is not one of this trace")])
def test_wrong_verdict(folder: str, text: str, said: str) -> None:
    ended = convert([os.path.join(HERE, "unfinished.strace"), "--verdict",
                     write_file(folder, "verdict", text)])
    assert ended == (1, "", f"from_strace: {said}\n")
