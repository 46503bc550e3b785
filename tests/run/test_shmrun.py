"""shmrun, compiled by gcc and clang without a warning, and with sanitizers. Programs run under it: those of
this folder, whose output has to be that of the kernel's own shared memory; tools and servers that are
installed; and the conformance kit, with shmrun as the system. Each record has to be judged legal."""

from __future__ import annotations

import fcntl
import glob
import hashlib
import os
import pty
import re
import shutil
import signal
import subprocess
import sys
import tempfile
import termios
import time
from collections.abc import Callable, Iterator
from pathlib import Path
from typing import Any

import pytest

from built import NotBuilt, program_of
from commands import TOP, Ended, text_of, write_file

HERE = os.path.dirname(os.path.realpath(__file__))
pytestmark = pytest.mark.skipif(os.uname().machine != "x86_64", reason="this machine is not an x86-64")
WARNINGS = ["-Wall", "-Wextra", "-Wconversion", "-Werror"]
WRAP = "-Wl,--wrap=malloc,--wrap=realloc,--wrap=free"
SANITIZERS = ["-g", "-O1", "-fsanitize=address,undefined", "-fno-sanitize-recover=all"]
SUBJECTS = ("addresses", "end", "limits", "control", "get", "mappings", "moves", "advice", "processes",
            "same_memory", "threads", "mutex",
            "signals", "thousand")
AS_ROOT = ("users",)
SECONDS = 40
SERVER = "/usr/lib/postgresql/*/bin"


def run(words: list[str], given: str = "", **how: Any) -> Ended:
    """The status, output and messages of a command; 124 if it did not end, 127 if there is none."""
    try:
        process = subprocess.Popen(words, stdin=subprocess.PIPE, stdout=subprocess.PIPE,
                                   stderr=subprocess.PIPE, text=True, **how)
    except OSError as error:
        return Ended(127, "", str(error))
    try:
        out, said = process.communicate(given, SECONDS)
    except subprocess.TimeoutExpired:
        process.kill()
        out, said = process.communicate()
        return Ended(124, out, said)
    return Ended(process.returncode, out, said)


class Programs:
    """What is compiled: shmrun, and the programs that run under it."""

    def __init__(self, library: str, folder: str) -> None:
        self.library, self.folder = library, folder
        sources = sorted(glob.glob(f"{TOP}/run/*.c"))
        common = ["-std=gnu11", "-D_GNU_SOURCE", "-I", library, *sources, f"{library}/libnogcuvema.a", WRAP]
        self.compile("cc", ["-O2", *WARNINGS, *common], "shmrun")
        self.compile("cc", [*SANITIZERS, *common], "sanitized")
        self.compile("cc", ["-O2", *WARNINGS, *common, f"{HERE}/refuse_copies.c", "-Wl,--wrap=ioctl"],
                     "refusing")
        if shutil.which("clang"):
            self.compile("clang", [*WARNINGS, "-fsyntax-only", *common[:-2]], "shmrun.clang")
        for name, words in (("alike", ["-pthread"]), ("killed", ["-pthread"]), ("paged", ["-pthread"]),
                            ("static",
                             ["-nostdlib", "-static", "-fno-stack-protector", "-fno-sanitize=all"])):
            self.compile("cc", ["-std=gnu11", "-O1", "-Wall", "-Wextra", "-Werror", *words,
                                f"{HERE}/{name}.c"], name)
        self.compile("cc", ["-std=gnu11", "-O1", f"{TOP}/conformance/peer.c"], "peer")
        self.shmrun = f"{folder}/shmrun"
        # the sanitizer marks all memory that the machine reserves
        self.sanitized = [f"{folder}/sanitized", "--limits", f"{1 << 40},4096,{1 << 16},2048"]

    def compile(self, compiler: str, words: list[str], name: str) -> None:
        assert run([compiler, *words, "-o", f"{self.folder}/{name}"]) == (0, "", ""), f"{name} by {compiler}"

    @staticmethod
    def judge() -> str | None:
        """The built judge; None if there is none."""
        try:
            return program_of("shmcheck", may_be_unproved=True)
        except NotBuilt:
            return None


@pytest.fixture(scope="module")
def programs(library: str) -> Iterator[Programs]:
    signal.signal(signal.SIGTTOU, signal.SIG_IGN)
    with tempfile.TemporaryDirectory(prefix="run.") as folder:
        os.chmod(folder, 0o755)
        yield Programs(library, folder)


def test_records_are_judged(shmcheck: str) -> None:
    """Without the judge no record is judged; this test is skipped then."""


def check_record(programs: Programs, name: str, is_whole: bool = True) -> None:
    """The judge accepts the record, whose log has a line for each call of the script."""
    judge = programs.judge()
    if judge is None:
        return
    path = f"{programs.folder}/{name}"
    text = text_of(f"{path}.shm")
    status, out, said = run([judge, "judge", f"{path}.log"], text)
    assert status == 0
    assert out.startswith("legal\n")
    assert ("the record ends before the run" not in text) == is_whole


# ---- programs of tests/run ----
@pytest.mark.parametrize("subject", [*SUBJECTS, *(AS_ROOT if os.geteuid() == 0 else ())])
def test_alike(programs: Programs, subject: str) -> None:
    """Each subject prints the same on the kernel's shared memory, in an IPC namespace of its own."""
    words = [f"{programs.folder}/alike", subject]
    # 128 GiB are more than the limits with the sanitizers
    runner = [programs.shmrun] if subject == "end" else programs.sanitized
    status, out, said = run([*runner, "--record", f"{programs.folder}/{subject}", *words])
    assert status == 0, said
    check_record(programs, subject, subject != "thousand")
    if subject == "users":
        assert re.search(r"^\d+ setuid \d+ \d+$", text_of(f"{programs.folder}/users.shm"), re.M)
    if run(["unshare", "-i", "true"]).status != 0:
        pytest.skip("on the kernel: unshare -i needs root")
    wanted = run(["unshare", "-i", *words]).out
    assert out == wanted
    # an attachment does not move with few pages in memory
    if subject != "moves" and run([programs.shmrun, "--frames", "16", "true"]).status == 0:
        assert run([programs.shmrun, "--frames", "16", *words]).out == wanted


def test_own_programs(programs: Programs) -> None:
    status, _, said = run([*programs.sanitized, f"{programs.folder}/static"])
    assert status == 0
    status, out, said = run([*programs.sanitized, f"{programs.folder}/killed"])
    assert (status, out) == (0, "")


def test_killed_child_with_frames(programs: Programs) -> None:
    needs_userfaultfd(programs)
    status, out, said = run([programs.shmrun, "--frames", "4", f"{programs.folder}/killed"])
    assert (status, out) == (0, "")


@pytest.mark.parametrize("rules, line", [
    ("linux", "rules linux\n"), ("profile", ""), ("end_is_enomem,FORK_MARKS", "rules fork_marks,end_is_enomem\n")])
@pytest.mark.parametrize("subject", ["addresses", "get", "processes", "mutex"])
def test_replays(programs: Programs, shmsim: str, shmview: str, subject: str, rules: str, line: str) -> None:
    """The record names the run's rules. Under them shmsim gives each reply of it, and shmview shows it."""
    path = f"{programs.folder}/replayed_{subject}"
    run([programs.shmrun, "--rules", rules, "--record", path, f"{programs.folder}/alike", subject])
    given, wanted = text_of(f"{path}.shm"), text_of(f"{path}.log")
    assert "".join(it for it in given.splitlines(True) if it.startswith("rules")) == line
    out = run([shmsim, "serial", "sparse:64"], given).out
    assert re.sub(r"time=[1-9]\d*", "time=set", out.partition("key  ")[0]) == wanted
    assert wanted.count("\n") > 5
    ended = run([shmview, "sparse:64"], given)
    assert ended.status == 0
    assert ended.out


# ---- the command line, statuses and signals ----
LINES: tuple[tuple[list[str], int, str, str], ...] = (
    # words, status, output, messages
    (["true"], 0, "", ""),
    (["sh", "-c", "exit 7"], 7, "", ""),
    (["sh", "-c", "kill -KILL $$"], -9, "", ""),
    (["cat"], 0, "given", ""),
    (["no-such-program"], 127, "", "shmrun: no-such-program: No such file or directory"),
    (["/etc/passwd"], 126, "", "shmrun: /etc/passwd: Permission denied"),
    (["--", "echo", "--limits"], 0, "--limits\n", ""),
    ([], 125, "", "shmrun: there is no command; usage: shmrun [--limits "),
    (["--no"], 125, "", "shmrun: --no has no value; usage: "),
    (["--no=1", "true"], 125, "", "shmrun: no such option: --no; usage: "),
    (["--limits", "1,2,3", "true"], 125, "",
     "shmrun: --limits: 1,2,3 is not SHMMAX,SHMMNI,SHMALL,MEMLOCK: bytes, segments, pages, pages"),
    (["--limits", "0,2,3,4", "true"], 125, "",
     "shmrun: --limits: SHMMAX is 0; it is a number from 1 to 1099511627776"),
    (["--limits=1,2x,3,4", "true"], 125, "",
     "shmrun: --limits: SHMMNI is 2x; it is a number from 1 to 32768"),
    (["--rules", "linus", "true"], 125, "", "shmrun: --rules: no such rule: linus; there are:"),
    (["--seed", "x", "true"], 125, "", "shmrun: --seed is x; it is a number from 0 to 18446744073709551615"),
    (["--record", "/no/such", "true"], 125, "", "shmrun: --record: /no/such.shm: No such file or directory"),
    (["--fail", "shmat", "true"], 125, "",
     "shmrun: --fail: shmat: the form is CALL:N=ERRNO or CALL:P%=ERRNO"),
    (["--fail", "mmap:1=ENOMEM", "true"], 125, "",
     "shmrun: --fail: mmap:1=ENOMEM: CALL is shmget, shmat, shmdt, shmctl, or"),
    (["--fail", "shmat:0=ENOMEM", "true"], 125, "",
     "shmrun: --fail: shmat:0=ENOMEM: N is the number of a call, from 1"),
    (["--fail", "shmat:101%=ENOMEM", "true"], 125, "",
     "shmrun: --fail: shmat:101%=ENOMEM: P is a number from 0 to 100"),
    (["--fail", "shmat:1=ENONE", "true"], 125, "",
     "shmrun: --fail: shmat:1=ENONE: ERRNO is the name of an error, such as ENOMEM"),
    (["--frames", "1", "true"], 125, "", "shmrun: --frames is 1; it is a number from 2 to 16777216"),
    (["--frames=16x", "true"], 125, "", "shmrun: --frames is 16x; it is a number from 2 to 16777216"),
    (["--swap", "ram:0", "true"], 125, "",
     "shmrun: --swap: ram:0 is not ram:N, sparse:N, mirror:N, fuse:N:rK or fuse:N:wK"),
    (["--swap", "fuse:9", "true"], 125, "", "shmrun: --swap: fuse:9 is not ram:N, "),
    (["--swap", "fuse:9:x1", "true"], 125, "", "shmrun: --swap: fuse:9:x1 is not ram:N, "),
    (["--swap", "disk:9", "true"], 125, "", "shmrun: --swap: disk:9 is not ram:N, "),
    (["--swap", "ram:9", "true"], 125, "", "shmrun: --swap needs --frames"),
    (["--swap-file", "none", "true"], 125, "", "shmrun: --swap-file needs --frames"),
)
MAKE_THREE = "for k in 1 2 3; do ipcmk -M 4096 > /dev/null 2>&1 && echo $k; done"
OPTIONS = (
    # options, command, output
    (["--fail", "shmget:2=ENOSPC"], MAKE_THREE, "1\n3\n"),
    (["--fail", "shmget:1=ENOSPC", "--fail", "shmget:2=EACCES"], MAKE_THREE, "3\n"),
    (["--fail", "shmget:100%=ENOMEM"], MAKE_THREE, ""),
    (["--fail", "shmget:0%=ENOMEM"], MAKE_THREE, "1\n2\n3\n"),
    (["--fail", "rmid:1=EPERM"],
     "ipcmk -M 1 > /dev/null; ipcrm -m 0 2> /dev/null || echo refused; ipcrm -m 0 && echo removed",
     "refused\nremoved\n"),
    (["--limits", "8192,2,16,4"], MAKE_THREE, "1\n2\n"),
    (["--limits", "4095,2,16,4"], MAKE_THREE, ""),
    (["--limits", "8192,3,5,4"],
     "cat /proc/sys/kernel/shmmax /proc/sys/kernel/shmmni /proc/sys/kernel/shmall", "8192\n3\n5\n"),
    (["--limits", "8192,3,5,4"], "cd /proc/sys && cat kernel/shmmni && cd kernel && cat shmmax", "3\n8192\n"),
)
REMOVED = ("import ctypes; c = ctypes.CDLL(None, use_errno=True); i = c.shmget(0, 1, 0o600); "
           "c.shmctl(i, 0, None); c.shmctl(i, 0, None); print(ctypes.get_errno())")


@pytest.mark.parametrize("words, wanted, out, said", LINES)
def test_words(programs: Programs, words: list[str], wanted: int, out: str, said: str) -> None:
    """The command line, and how shmrun ends."""
    ended = run([programs.shmrun, *words], "given" if words == ["cat"] else "")
    assert ended[:2] == (wanted, out)
    assert ended.said.startswith(said) if said else ended.said == ""


@pytest.mark.parametrize("options, command, out", OPTIONS)
def test_options(programs: Programs, options: list[str], command: str, out: str) -> None:
    assert run([programs.shmrun, *options, "sh", "-c", command]).out == out


@pytest.mark.parametrize("rules, wanted", [
    ("linux", "22"), ("profile", "43"), ("fork_marks,REMOVED_IS_INVALID", "22"), ("fork_marks", "43")])
def test_rules(programs: Programs, rules: str, wanted: str) -> None:
    """The errno of a call on a removed identifier."""
    assert run([programs.shmrun, "--rules", rules, sys.executable, "-c", REMOVED]).out.strip() == wanted


def test_seed(programs: Programs) -> None:
    words = [programs.shmrun, "--fail", "shmget:50%=ENOMEM", "--seed"]
    first, again, other = (run([*words, seed, "sh", "-c", f"{MAKE_THREE}; {MAKE_THREE}"]).out
                           for seed in ("7", "7", "8"))
    assert first == again
    assert 0 < len(first) < 12 or other != first


def test_32_bits(programs: Programs) -> None:
    """Commands that can't run under shmrun."""
    source = f"{programs.folder}/small.c"
    with open(source, "w", encoding="ascii") as file:
        file.write("void _start(void) { for (;;) __asm__(\"int $0x80\" : : \"a\"(1), \"b\"(0)); }\n")
    if run(["cc", "-m32", "-nostdlib", "-static", "-fno-pic", "-no-pie", source, "-o",
            f"{programs.folder}/small"])[0] != 0:
        pytest.skip("the compiler makes no 32-bit program")
    ran = run([programs.shmrun, f"{programs.folder}/small"])
    assert ran[0] == 126
    assert "is a 32-bit program: shmrun runs those of 64 bits" in ran[2]
    assert run([programs.shmrun, "sh", "-c", f"{programs.folder}/small; echo $?"]) == (0, "0\n", "")


def test_set_user_id(programs: Programs) -> None:
    if os.geteuid() != 0 or not shutil.which("setpriv"):
        pytest.skip("a set-user-ID program: this needs root, to make one")
    shutil.copy("/bin/true", f"{programs.folder}/other")
    os.chmod(f"{programs.folder}/other", 0o4755)
    ran = run(["setpriv", "--reuid=nobody", "--clear-groups", programs.shmrun, f"{programs.folder}/other"])
    assert ran[0] == 126
    assert "is a set-user-ID or set-group-ID program" in ran[2]
    assert run([programs.shmrun, f"{programs.folder}/other"]) == (0, "", "")


def is_running(pid: int | str) -> bool:
    try:
        with open(f"/proc/{pid}/stat", encoding="ascii", errors="replace") as file:
            return file.read().rpartition(")")[2].split()[0] != "Z"
    except OSError:
        return False


def wait_until(condition: Callable[[], bool], seconds: float = 120.0) -> bool:
    end = time.monotonic() + seconds
    while not condition() and time.monotonic() < end:
        time.sleep(0.01)
    return condition()


def test_ends(programs: Programs) -> None:
    """What is left if shmrun is killed, a request to end that is sent on, and a process that outlives the
    command."""
    shared = set(os.listdir("/dev/shm")) if os.path.isdir("/dev/shm") else set()
    script = f"{programs.folder}/alike signals & sleep 1000 & echo $$; wait"
    process = subprocess.Popen([programs.shmrun, "sh", "-c", script], stdout=subprocess.PIPE, text=True)
    assert process.stdout is not None
    first = int(process.stdout.readline())
    time.sleep(0.2)
    children = open(f"/proc/{first}/task/{first}/children", encoding="ascii").read().split()
    process.kill()
    process.wait()
    is_over = wait_until(lambda: not any(is_running(it) for it in (str(first), *children)))
    for it in () if is_over else (first, *map(int, children)):
        os.kill(it, signal.SIGKILL)
    assert len(children) == 2
    assert is_over
    assert not os.path.isdir("/dev/shm") or set(os.listdir("/dev/shm")) <= shared
    process.stdout.close()
    words = [programs.shmrun, "sh", "-c", "trap 'exit 5' TERM; echo; while :; do sleep 0.05; done"]
    with subprocess.Popen(words, stdout=subprocess.PIPE) as asked:
        assert asked.stdout is not None
        asked.stdout.readline()
        asked.terminate()
        try:
            assert asked.wait(10) == 5
        finally:
            asked.kill()
    status, out, _ = run([programs.shmrun, "sh", "-c",
                          "setsid sh -c 'sleep 0.3; ipcmk -M 1 > /dev/null; ipcs -m | grep -c ^0x' & exit 3"])
    assert (status, out) == (3, "1\n")


def test_files(programs: Programs) -> None:
    """shmrun has no file of a segment that any process destroyed."""
    script = ('before=$(ls /proc/$PPID/fd | wc -l); for it in mappings moves processes threads advice get '
              'mutex; do "$0" $it > /dev/null; done;echo $(($(ls /proc/$PPID/fd | wc -l) - before))')
    _, out, said = run([programs.shmrun, "sh", "-c", script, f"{programs.folder}/alike"])
    assert out == "0\n"


def test_terminal(programs: Programs) -> None:
    """In a shell with a terminal: Ctrl-C ends the command, Ctrl-Z stops it, and fg lets it continue."""
    pid, terminal = pty.fork()
    if pid == 0:
        # a test in the background of a shell has SIGINT ignored, and a shell can't trap what was ignored when it began
        signal.signal(signal.SIGINT, signal.SIG_DFL)
        os.execvp("bash", ["bash", "--norc", "-i"])
    fcntl.ioctl(terminal, termios.TIOCSWINSZ, b"\x18\0\x50\0\0\0\0\0")
    seen = b""

    def expect(text: bytes, key: bytes = b"") -> None:
        """Waits for the text. The key is pressed now, and again every two seconds."""
        nonlocal seen
        began, pressed = time.monotonic(), 0
        os.set_blocking(terminal, False)
        while not (found := re.search(text, seen)) and time.monotonic() < began + 120:
            if key and time.monotonic() >= began + 2 * pressed:
                os.write(terminal, key)
                pressed += 1
            try:
                seen += os.read(terminal, 4096)
            except BlockingIOError:
                time.sleep(0.01)
            except OSError:
                break
        assert found is not None, seen
        seen = seen[found.end():]

    def type_in(text: bytes) -> None:
        os.write(terminal, text)

    script = "trap \\\"echo in''terrupted; exit 4\\\" INT; echo be''gun; while :; do sleep 0.05; done"
    type_in(f"PS1='ready> '; {programs.shmrun} sh -c \"{script}\"; echo status=$?\n".encode())
    expect(b"begun\r")
    # on an overloaded machine the first one may be without effect
    expect(b"interrupted\r", b"\x03")
    expect(b"status=4")
    type_in(f"{programs.shmrun} sh -c \"echo be''gun; sleep 2; echo e''nded\"\n".encode())
    expect(b"begun\r")
    # once sleep runs: a child that stops between vfork and exec keeps its parent from stopping
    time.sleep(0.5)
    type_in(b"\x1a")
    expect(b"Stopped")
    type_in(b"fg\n")
    expect(b"ended\r")
    type_in(b"exit\n")
    os.close(terminal)
    os.waitpid(pid, 0)


# ---- installed programs ----
def needs(*names: Any) -> None:
    for name in names:
        if shutil.which(name) is None:
            pytest.skip(f"{name} is not installed")


def test_ipc_tools(programs: Programs) -> None:
    needs("ipcmk", "ipcs", "lsipc", "ipcrm")
    script = ("ipcmk -M 8192 -p 0640 > /dev/null; ipcs -m | grep ^0x | cut -c12-; lsipc -m | tail -1 | awk "
              "'{print $2, $3, $5, $6}';"
              "awk 'NR == 2 {print $2, $3, $4, $7}' /proc/sysvipc/shm; ipcs -m -i 0 | grep bytes; ipcrm -m "
              "0; ipcs -m | grep -c ^0x")
    _, out, said = run([programs.shmrun, "sh", "-c", script])
    wanted = r"0 +\S+ +640 +8192 +0 +\n0 rw-r----- 8K 0\n0 640 8192 0\nbytes=8192\tlpid=0\t\S+\tnattch=0\n0\n"
    assert re.fullmatch(wanted, out)


def test_perl(programs: Programs) -> None:
    needs("perl")
    script = ("$s = shmget(0, 2000, 0600); shmwrite($s, 'abc', 0, 3); fork or shmread($s, $b, 0, 3), "
              "print($b), exit; wait; shmctl($s, 0, 0)")
    _, out, said = run([*programs.sanitized, "--record", f"{programs.folder}/perl", "perl", "-e", script])
    assert out == "abc"
    check_record(programs, "perl")


def test_python(programs: Programs) -> None:
    python = next((it for it in (sys.executable, "/usr/bin/python3")
                   if run([it, "-c", "import sysv_ipc"])[0] == 0), None)
    if python is None:
        pytest.skip("python3-sysv-ipc is not installed")
    script = ("import sysv_ipc as v; s = v.SharedMemory(v.IPC_PRIVATE, v.IPC_CREAT, size=100); "
              "s.write(b'ab');"
              "print(s.read(2), s.number_attached); s.detach(); s.remove()")
    ran = run([programs.shmrun, python, "-c", script])
    assert ran[:2] == (0, "b'ab' 1\n")


def test_stress_ng(programs: Programs) -> None:
    needs("stress-ng")
    status, _, said = run([programs.shmrun, "--record", f"{programs.folder}/stress", "stress-ng",
                           "--shm-sysv", "4", "--shm-sysv-ops", "8", "--verify"],
                          cwd=programs.folder)
    assert status == 0
    check_record(programs, "stress", is_whole="record ends" not in said)


def test_xvfb(programs: Programs) -> None:
    needs("Xvfb", "x11perf")
    script = ("Xvfb -displayfd 3 -screen 0 1024x768x24 3> $0 2> /dev/null & while ! [ -s $0 ]; do sleep "
              "0.05; done;"
              "DISPLAY=:$(cat $0) x11perf -repeat 1 -reps 100 -shmput10 -shmget10; kill $!; wait $!; ipcs -m "
              "| grep -c ^0x")
    status, out, said = run([programs.shmrun, "--record", f"{programs.folder}/xvfb", "sh", "-c", script,
                             f"{programs.folder}/display"])
    assert out.count(" reps @ ") >= 2
    assert out.endswith("\n0\n")
    check_record(programs, "xvfb")


# ---- few pages in memory ----
PAGED = (
    # options, words of tests/run/paged, status
    (["--frames", "16"], ["counters", "20000"], 0),
    (["--frames", "2"], ["counters", "2000"], 0),
    (["--frames", "2"], ["seams", "10000"], 0),
    (["--frames", "16", "--swap", "mirror:64", "--swap", "ram:300"], ["counters", "5000"], 0),
    (["--frames", "16"], ["signals", "20000"], 0),
    (["--frames", "16"], ["calls"], 0),
    (["--frames", "4"], ["calls"], 0),
    (["--frames", "16"], ["forks"], 0),
    (["--frames", "16"], ["descriptors"], 0),
    (["--frames", "16"], ["readonly"], 0),
    (["--frames", "16"], ["detaches"], 0),
    (["--frames", "16"], ["attaches"], 0),
    (["--frames", "16"], ["destroyed"], 0),
    (["--frames", "16"], ["copies"], 0),
    (["--frames", "16"], ["direct"], 0),
    (["--frames", "16"], ["direct", "handle"], 0),
    (["--frames", "16"], ["futexes"], 0),
    (["--frames", "16"], ["robust"], 0),
    (["--frames", "12"], ["robust"], 0),
    (["--frames", "16"], ["refused"], 0),
    (["--frames", "16"], ["bound", "16"], 0),
    (["--frames", "16"], ["swapped", "16"], 0),
    (["--frames", "3", "--swap", "fuse:256:r1"], ["clock"], 0),
    (["--frames", "8", "--swap", "fuse:256:r1"], ["locked"], 0),
    (["--frames", "8"], ["locked_copies", "4"], 0),
    (["--frames", "4"], ["locked_copies", "0"], 0),
    (["--frames", "16", "--swap", "fuse:256:r1:r3:r5:r7"], ["failing"], 0),
    (["--frames", "16", "--swap", "fuse:256:r1"], ["fatal"], -signal.SIGBUS),
    (["--frames", "16", "--swap", "fuse:256:r1"], ["fatal", "blocked"], -signal.SIGBUS),
    (["--frames", "16", "--swap", "fuse:256:r1"], ["fatal", "ignored"], -signal.SIGBUS),
)
NO_SUCH_FILES = 7
FAILURES, KILLS = 100, 20


def needs_userfaultfd(programs: Programs) -> None:
    status, _, said = run([programs.shmrun, "--frames", "16", "true"])
    if status == 125 and "shmrun: --frames needs " in said:
        pytest.skip(said.strip())


@pytest.mark.parametrize("options, words, wanted", PAGED,
                         ids=[" ".join([*options, *words]) for options, words, _ in PAGED])
@pytest.mark.parametrize("is_sanitized", [True, False], ids=["sanitized", "plain"])
def test_paged(programs: Programs, options: list[str], words: list[str], wanted: int,
               is_sanitized: bool) -> None:
    needs_userfaultfd(programs)
    limits = f"{1 << 30},4096,{1 << 16},{max(int(options[1]) - 4, 0)}"
    runner = [programs.sanitized[0], "--limits", limits] if is_sanitized else [programs.shmrun]
    status, out, said = run([*runner, *options, f"{programs.folder}/paged", *words])
    if status == NO_SUCH_FILES and words[0] == "direct":
        pytest.skip(f"a file without cache: the file system of /tmp has none, or no {words[-1]}")
    assert (status, out) == (wanted, ""), said


@pytest.mark.parametrize("frames", ["16", "5", "3"])
def test_one_fails(programs: Programs, frames: str) -> None:
    """One read or write of the area fails, each in turn."""
    needs_userfaultfd(programs)
    outs = ""
    for place in range(1, FAILURES + 1):
        for letter in "rw":
            swap = f"fuse:256:{letter}{place}"
            status, out, said = run([programs.shmrun, "--frames", frames, "--swap", swap,
                                     f"{programs.folder}/paged", "one_fails"])
            assert status == 0, f"{swap}: {out}{said}"
            outs += out
    assert outs.count("f") > FAILURES


@pytest.mark.parametrize("frames, memlock, is_right", [
    (16, 12, True), (16, 13, False), (4, 0, True), (4, 1, False), (2, 0, True), (2, 1, False)])
def test_memlock(programs: Programs, frames: int, memlock: int, is_right: bool) -> None:
    needs_userfaultfd(programs)
    ended = run([programs.shmrun, "--frames", str(frames), "--limits", f"65536,9,99,{memlock}", "true"])
    told = (f"MEMLOCK is {memlock}; it is at most {max(frames - 4, 0)}, because 4 frames are for pages that "
            f"are not locked")
    assert ended == ((0, "", "") if is_right else (125, "", f"shmrun: --frames {frames}: {told}\n"))


def test_uncopied(programs: Programs) -> None:
    """Pages that can't be copied."""
    needs_userfaultfd(programs)
    assert run([f"{programs.folder}/refusing", "--frames", "16", f"{programs.folder}/paged",
                "uncopied"]) == (0, "", "")


def test_swap_file(programs: Programs) -> None:
    needs_userfaultfd(programs)
    path = f"{programs.folder}/swap"
    words = [programs.shmrun, "--frames", "16", "--swap", "ram:300", "--swap-file", path]
    script = f'"$0" counters 5000 && ls -l /proc/$PPID/fd | grep -c "{path} (deleted)"'
    assert run([*words, "sh", "-c", script, f"{programs.folder}/paged"]) == (0, "1\n", "")
    assert not os.path.exists(path)
    with open(path, "w", encoding="ascii"):
        ran = run([*words, "true"])
    assert ran[0] == 125
    assert f"shmrun: --swap-file: {path}: File exists" in ran[2]
    os.unlink(path)
    ran = run(["sh", "-c", 'ulimit -f 100; exec "$@"', "sh", *words, "true"])
    assert ran[0] == 125
    assert ran[2].endswith(" bytes more: File too large\n")


def test_full_disk(programs: Programs) -> None:
    """A disk that has no room for all areas is refused at the start, and not met when a page is written."""
    needs_userfaultfd(programs)
    disk = f"{programs.folder}/disk"
    os.mkdir(disk)
    script = f'mount -t tmpfs -o size=512k none {disk} && exec "$@"'
    if run(["unshare", "-m", "sh", "-c", script, "sh", "true"])[0] != 0:
        pytest.skip("a full disk: unshare -m and mount need root")
    words = [programs.shmrun, "--frames", "16", "--swap", "ram:300", "--swap-file", f"{disk}/swap",
             f"{programs.folder}/paged", "counters", "5000"]
    status, out, said = run(["unshare", "-m", "sh", "-c", script, "sh", *words])
    wanted = r"shmrun: --swap-file: the file has no room for \d+ bytes more: No space left on device\n"
    assert (status, out) == (125, "")
    assert re.fullmatch(wanted, said)


def test_inherited(programs: Programs) -> None:
    """A file without cache that the command inherits."""
    needs_userfaultfd(programs)
    try:
        file = os.open(f"{programs.folder}/direct", os.O_RDWR | os.O_CREAT | os.O_DIRECT)
    except OSError as error:
        pytest.skip(f"a file without cache that is inherited: {error}")
    ran = run([programs.shmrun, "--frames", "16", f"{programs.folder}/paged", "direct", str(file)],
              pass_fds=(file,))
    os.close(file)
    assert ran == (0, "", "")


def test_descriptors(programs: Programs) -> None:
    """If shmrun may not lift the limit of a process, its child is killed, and nothing else is."""
    needs_userfaultfd(programs)
    may_not = ["setpriv", "--bounding-set", "-sys_resource"]
    if os.geteuid() != 0 or run([*may_not, "true"])[0] != 0:
        pytest.skip("a child without a descriptor: setpriv --bounding-set needs root")
    status, out, said = run([*may_not, programs.shmrun, "--frames", "16", f"{programs.folder}/paged",
                             "descriptors", "killed"])
    wanted = r"(shmrun: process \d+ is killed: it has no descriptor left for its userfaultfd\n){10}"
    assert (status, out) == (0, "")
    assert re.fullmatch(wanted, said)


def test_keeper(programs: Programs) -> None:
    """A signal to all processes named shmrun misses the keeper, by its name and by its command line."""
    needs_userfaultfd(programs)
    script = ("for it in $(cat /proc/$PPID/task/$PPID/children); do [ $it = $$ ] || cat /proc/$it/comm "
              "/proc/$it/cmdline | tr '\\0' ' '; done")
    _, out, said = run([programs.shmrun, "--frames", "16", "sh", "-c", script])
    assert out.split() == ["page-keeper", "page-keeper"]


@pytest.mark.parametrize("number", range(KILLS))
def test_death(programs: Programs, number: int) -> None:
    """shmrun is killed while four processes wait for pages: none continues with a zero that was not there."""
    needs_userfaultfd(programs)
    zeros = f"{programs.folder}/zeros{number}"
    process = subprocess.Popen([programs.shmrun, "--frames", "16", f"{programs.folder}/paged", "zeros",
                                zeros], stdout=subprocess.PIPE)
    assert process.stdout is not None
    process.stdout.readline()
    time.sleep(0.02 + number % 5 * 0.01)
    first = open(f"/proc/{process.pid}/task/{process.pid}/children", encoding="ascii").read().split()
    process.kill()
    process.wait()
    end_of_all = process.stdout.read()  # the programs have the other end, until they have ended
    process.stdout.close()
    assert first
    assert os.path.getsize(zeros) == 0
    assert set(end_of_all) <= set(b"r\n")


POSTGRES = """
set -e
export PATH=$1:$PATH
initdb -D data -A trust -N > initdb.log
cat >> data/postgresql.conf << END
shared_memory_type = sysv
dynamic_shared_memory_type = sysv
listen_addresses = ''
unix_socket_directories = '$PWD'
shared_buffers = 12MB
max_connections = 10
min_parallel_table_scan_size = 0
parallel_setup_cost = 0
parallel_tuple_cost = 0
fsync = off
END
pg_ctl -D data -l log -w start > start.log
psql -h "$PWD" postgres -qc \
    'create table t as select a, repeat(md5(a::text), 4) b from generate_series(1, 50000) a'
psql -h "$PWD" postgres -Atc 'explain (analyze, costs off, timing off, summary off) select sum(a) from t' |
    grep -o 'Workers Launched.*'
psql -h "$PWD" postgres -Atc 'select sum(a), sum(length(b)) from t'
psql -h "$PWD" postgres -Atc "select md5(string_agg(b, ',' order by a)) from t"
[ "$(ipcs -m | grep -c ^0x)" -ge 3 ] && echo segments
pg_ctl -D data -m fast -w stop > stop.log
ipcs -m | grep -c ^0x || true
"""


@pytest.mark.parametrize("options", [[], ["--frames", "512"], ["--frames", "64"]], ids=" ".join)
def test_server(programs: Programs, options: Any) -> None:
    """PostgreSQL's sums are the same with few pages in memory: of numbers, of lengths, of all text."""
    servers = sorted(glob.glob(SERVER))
    if not servers:
        pytest.skip("PostgreSQL is not installed")
    if os.geteuid() == 0:
        needs("setpriv")
    if options:
        needs_userfaultfd(programs)
    server = servers[-1]
    place = f"{programs.folder}/postgres{options[1] if options else ''}"
    os.mkdir(place)
    Path(f"{place}/script").write_text(POSTGRES, "ascii")
    user = ["env"]
    if os.geteuid() == 0:
        shutil.chown(place, "nobody")
        user = ["setpriv", "--reuid=nobody", "--clear-groups", "env"]
    words = [programs.shmrun, *options, "--record", f"{place}/record", *user, f"HOME={place}", "sh", "script",
             server]
    status, out, said = run(words, cwd=place)
    texts = ",".join(hashlib.md5(str(a).encode()).hexdigest() * 4 for a in range(1, 50001))
    wanted = (f"Workers Launched: 2\n1250025000|6400000\n{hashlib.md5(texts.encode()).hexdigest()}\n"
              f"segments\n0\n")
    assert (status, out) == (0, wanted)
    check_record(programs, f"{os.path.basename(place)}/record")


# ---- the conformance kit ----
@pytest.fixture(scope="module")
def system(programs: Programs) -> str:
    """shmrun as the system of the kit, with each script's own limits."""
    if os.geteuid() != 0:
        pytest.skip("the peer has several users only as root")
    return write_file(programs.folder, "system",
                      "#!/bin/sh\nset -e\nscript=$(mktemp)\ntrap 'rm -f \"$script\"' EXIT\n"
                      "cat > \"$script\"\nlimits=$(awk '$1 == \"limits\" "
                      "{print $2 \",\" $3 \",\" $4 \",\" $6; exit}' \"$script\")\n"
                      f'{programs.folder}/shmrun --limits "$limits" {programs.folder}/peer "$@" "$script"\n',
                      0o755)


@pytest.mark.parametrize("words", [[], ["random", "40", "2026"]], ids=["cases", "random scripts"])
def test_kit(programs: Programs, system: str, words: list[str]) -> None:
    """The peer's calls go to the machine."""
    kit = [f"{TOP}/conform", f"--library={programs.library}", "--rules", "linux"]
    ended = run([*kit, *words, "--peer", system])
    assert ended.status == 0, ended.said
    assert " DIFFER 0," in ended.out


def test_races(programs: Programs, system: str, shmcheck: str) -> None:
    words = ["--judge", shmcheck, "--runs", "5", "at-once", "20", "2026", "--peer", system]
    ended = run([f"{TOP}/conform", *words])
    assert ended.status == 0, ended.said
    assert "runs: 100, legal 100," in ended.out
