"""The peer for small kernels: it gives the same replies as the full peer, and makes only the calls that it
may make. Also what tools/small_peer makes of scripts and of a console's record."""

from __future__ import annotations

import os
import re
import shutil
import signal
import subprocess
from collections.abc import Iterator, Sequence
from typing import BinaryIO

import pytest

from commands import TOP, Conform, Ended, run, text_of, write_file
from nogconform.compare import READS
from nogconform.places import CASES, KIT, names_in
from nogconform.running import Peer, only_one
from nogconform.script import Case, Event, read_case, read_event

SOURCE = os.path.join(KIT, "small_peer.c")
TOOL = os.path.join(TOP, "tools", "small_peer")
C89 = ["-std=c89", "-pedantic", "-Wall", "-Wextra", "-Werror"]
NOBODY = 65534
SECONDS = 20
# how many commands of the cases both peers make, as root or not: fewer would be a peer that skips too much
LEAST_COMPARED = {True: 1500, False: 500}
MAY_END = "skipped: the access may end its process"
# every form of an operand and of a reply, and numbers of more than 32 bits
FORMS = """limits 16777216 16 64 16 4
process 1 {0} {1}
child 2147483647
1 s = shmget 0xabc 8193 640,creat,excl
1 shmget 0xabc 18446744073709551615 000
1 rmid 77
1 a = shmat s null -
1 shmat s 0x50000000 rdonly
1 shmat s 0x50010001 rnd,remap
1 store a+4092 fffffffffffffffe00
1 n = xadd a+4092 18446744073709551615
1 xadd a+4092 18374686479671623679
1 load a+4092 9
1 h = shmat s 0x1ffffffff000 -
1 load h+4099 1
1 shmdt h
1 shmat s 0x40004000 -
1 shmat s null -
1 shmdt 0x40004000
1 shmdt 0x40007000
1 load 0x50000ffc 3
1 store 0x50000000 00
1 load n 1
1 shmat n null -
1 fork 2147483647
2147483647 exec
2147483647 exit
1 stat s
1 set s {0} {1} 007
1 rmid s
1 shmdt a
1 t = shmget private 1 000
1 shmdt 0x50000000
1 shmdt 0x50010000
1 shmget private 1 777
1 shmget private 1 777
1 swapoff 0
1 exit
1 stat s
"""
FORMS_SAID = """1 1 shmget 0x00000abc 8193 640,creat,excl = 0
2 1 shmget 0x00000abc 18446744073709551615 000 = EINVAL
3 1 rmid 77 = EINVAL
4 1 shmat 0 null - = 0x40000000
5 1 shmat 0 0x50000000 rdonly = 0x50000000
6 1 shmat 0 0x50010001 rnd,remap = 0x50010000
7 1 store 0x40000ffc fffffffffffffffe00 = ok
8 1 xadd 0x40000ffc 18446744073709551615 = 18374686479671623679
9 1 xadd 0x40000ffc 18374686479671623679 = 18374686479671623678
10 1 load 0x40000ffc 9 = fdfffffffffffffd00
11 1 shmat 0 0x1ffffffff000 - = 0x1ffffffff000
12 1 load 0x200000000003 1 = fd
13 1 shmdt 0x1ffffffff000 = ok
14 1 shmat 0 0x40004000 - = 0x40004000
15 1 shmat 0 null - = 0x40007000
16 1 shmdt 0x40004000 = ok
17 1 shmdt 0x40007000 = ok
18 1 load 0x50000ffc 3 = fdffff
19 1 store 0x50000000 00 = skipped: the access may end its process
20 1 load 0xfeffffffffffffff 1 = skipped: the access may end its process
21 1 shmat -1 null - = EINVAL
22 1 fork 2147483647 = ok
23 2147483647 exec = skipped: this peer makes no exec
24 2147483647 exit = ok
25 1 stat 0 = key=0x00000abc uid={0} gid={1} cuid={0} cgid={1} mode=640 status=- size=8193 \
cpid=1 lpid=2147483647 nattch=3 atime=set dtime=set ctime=set
26 1 set 0 {0} {1} 007 = ok
27 1 rmid 0 = ok
28 1 shmdt 0x40000000 = ok
29 1 shmget 0x00000000 1 000 = 1
30 1 shmdt 0x50000000 = ok
31 1 shmdt 0x50010000 = ok
32 1 shmget 0x00000000 1 777 = 32768
33 1 shmget 0x00000000 1 777 = 2
34 1 swapoff 0 = skipped: no swap area is the script's
35 1 exit = ok
36 1 stat 0 = skipped: no process makes this call
"""
# a peer and a system with little room: commands beyond it are skipped
FULL = """limits 65536 16 64 16 4
process 1 100 110
1 shmget private 4096 600
1 shmget private 4096 600
1 shmat 0 null -
1 shmat 0 null -
1 shmat 0 null -
"""
FULL_SAID = ["0", "skipped: more segments than SEGMENTS", "0x40000000", "0x40001000",
             "skipped: more pieces than PIECES"]
# the second pipe that a script makes is refused, and no other
NO_SECOND_PIPE = ("#define _GNU_SOURCE\n#include <unistd.h>\nstatic int pipes_made = 0;\n"
                  "#define pipe(ends) (pipes_made++ == 1 ? -1 : pipe(ends))\n")
# a system that gives at most 5 bytes of a pipe at a time
FEW_BYTES = ("#define _GNU_SOURCE\n#include <unistd.h>\n"
             "#define read(fd, to, count) read(fd, to, (count) > 5 ? 5 : (count))\n")
# a process that the peer made can make no process itself
NO_FORK = """#define _GNU_SOURCE
#include <errno.h>
#include <unistd.h>
static int forks = 0;
static int fork_twice(void) {
    errno = EAGAIN;
    return ++forks > 2 ? -1 : (int)fork();
}
#define fork fork_twice
"""
NOBODY_BORN = ("limits 65536 16 64 16 4\nprocess 1 100 110\nchild 2\n1 s = shmget private 1 600\n1 fork 2\n"
               "2 stat s\n1 exit\n")
TWO = "limits 65536 16 64 16 4\nprocess 1 100 110\nprocess 2 100 110\n2 s = shmget private 1 600\n1 stat 0\n"
DATA = """/* made by tools/small_peer from scripts */
static const struct declared processes_0[] = {
    { 7UL, 100UL, 4294967295UL, 0 },
    { 8UL, 0UL, 0UL, 1 }
};
static const struct command commands_0[] = {
    { 0, 18, 0, { { -1, { 0x0UL, 0x11UL } }, { -1, { 0x1UL, 0x2UL } }, { -1, { 0x0UL, 0x7a0UL } }, \
{ -1, { 0x0UL, 0x0UL } } }, 0, "", "" },
    { 0, -1, 1, { { 18, { 0x0UL, 0x0UL } }, { -1, { 0x0UL, 0x0UL } }, { -1, { 0x0UL, 0x7000UL } }, \
{ -1, { 0x0UL, 0x0UL } } }, 0, "", "" },
    { 0, -1, 6, { { 0, { 0x0UL, 0x1000UL } }, { -1, { 0x0UL, 0x0UL } }, { -1, { 0x0UL, 0x0UL } }, \
{ -1, { 0x0UL, 0x0UL } } }, 2, "\\001\\377", "" },
    { 0, 23, 9, { { 0, { 0x0UL, 0x0UL } }, { -1, { 0x0UL, 0x0UL } }, { -1, { 0x0UL, 0x0UL } }, \
{ -1, { 0x0UL, 0x0UL } } }, 1, "\\005", "\\000" },
    { 0, -1, 4, { { 0, { 0x0UL, 0x0UL } }, { -1, { 0x0UL, 0x1UL } }, { -1, { 0x0UL, 0x1UL } }, \
{ -1, { 0x0UL, 0x0UL } } }, 0, "", "" },
    { 0, -1, 18, { { -1, { 0x0UL, 0x64UL } }, { -1, { 0x0UL, 0xffffffffUL } }, { -1, { 0x0UL, 0x0UL } }, \
{ -1, { 0x0UL, 0x0UL } } }, 0, "", "" },
    { 0, -1, 11, { { -1, { 0x0UL, 0x0UL } }, { -1, { 0x0UL, 0x1UL } }, { -1, { 0x0UL, 0x2UL } }, \
{ -1, { 0x0UL, 0x1c0UL } } }, 0, "", "" },
    { 0, -1, 15, { { -1, { 0x0UL, 0x8UL } }, { -1, { 0x0UL, 0x0UL } }, { -1, { 0x0UL, 0x0UL } }, \
{ -1, { 0x0UL, 0x0UL } } }, 0, "", "" },
    { 1, -1, 17, { { -1, { 0x0UL, 0x0UL } }, { -1, { 0x0UL, 0x0UL } }, { -1, { 0x0UL, 0x0UL } }, \
{ -1, { 0x0UL, 0x0UL } } }, 0, "", "" }
};
static const struct script scripts[] = {
    { "data", processes_0, 2, commands_0, 9 }
};
"""
DATA_SCRIPT = """limits 4096 1 1 2 0
process 7 100 4294967295
child 8
7 s = shmget 0x11 4294967298 640,creat,excl
7 shmat s null rnd,remap,rdonly
0 flush 1
7 store a+4096 01ff
7 x = cas a 00 05
7 mprotect a 1 rw
7 setuid 100 4294967295
7 set 0 1 2 700
7 fork 8
8 exit
"""
# more than SHMMAX
WIDE = "limits 1 1 1 2 0\nprocess 1 1 1\n# Too large. shmget(2), ERRORS\n1 shmget private 2 600\n#= EINVAL\n"
RECORD = "boot: hello\r\nscript one\r\nnote: under the limits of this system\r\n1 1 exit = ok\r\n" \
    "init: noise\r\nend one\r\nscript two\r\n1 1 stat 0 = EINVAL\r\n2 1 load 0x0 1 = panic: trap\r\n"
# why a peer that user 0 runs skips a command: it makes all others, under any user
NEVER_MADE = {"no process makes this call", "no such child can be", "no swap area is the script's",
              "the access may end its process",
              "the peer's own memory may be there", "this peer makes no exec",
              "the range is not one range of the system", "this process can't become another user",
              "nobody here can wait for its end"}


def run_tool(*words: str) -> Ended:
    return run([TOOL, *words])


def build(folder: str, paths: list[str], compiler: str = "cc", port: str = "port_of_linux",
          words: Sequence[str] = (), rules: str = "profile") -> tuple[str, str]:
    """Builds the small peer with these scripts. Returns its path, or the compiler's output."""
    os.makedirs(folder, exist_ok=True)
    done = run_tool("data", "--rules", rules, *paths)
    if done.status != 0:
        return "", done.said
    write_file(folder, "small_script.h", done.out)
    program = os.path.join(folder, "small_peer")
    done = run([compiler, *C89, *words, "-I", os.path.join(KIT, port), "-I", folder, SOURCE, "-o", program])
    return (program, "") if done.status == 0 else ("", done.said[:1000])


NEITHER = ["-O1", "-ffreestanding", "-nostdinc", "-c", "-m32"]
ALONE = ["-ffreestanding", "-nostdinc", "-fno-stack-protector", "-nostdlib", "-static", "-Wl,-e,main",
         os.path.join(KIT, "port_of_nothing", "calls.c")]


@pytest.mark.parametrize("compiler", ["gcc", "clang"])
@pytest.mark.parametrize("words", [["-O0", *ALONE], ["-O1", *ALONE], NEITHER], ids=["O0", "O1", "32 bits"])
def test_alone(folder: str, compiler: str, words: list[str]) -> None:
    """The peer is compiled and linked with the allowed calls and nothing else, by each compiler of this
    machine, and where numbers have 32 bits."""
    if not shutil.which(compiler):
        pytest.skip(f"there is no {compiler}")
    assert build(folder, [os.path.join(CASES, "fork.shm")], compiler, "port_of_nothing", words)[1] == ""


def words_for(limits: list[int] | tuple[int, ...], is_root: bool) -> list[str]:
    """Words that run a program in an IPC namespace with a script's limits, as root or as an ordinary user."""
    text = "; ".join(f"echo {value} > /proc/sys/kernel/{name}" for name,
                     value in zip(("shmmax", "shmmni", "shmall"), limits))
    user = [] if is_root else ["setpriv", f"--reuid={NOBODY}", f"--regid={NOBODY}", "--clear-groups"]
    locked = f"--memlock={4096 * limits[4]}:{4096 * limits[4]}"
    return ["unshare", "--ipc", "sh", "-c", f"{text}; exec \"$@\"", "sh", "prlimit", locked, *user]


as_root = pytest.mark.skipif(
    os.geteuid() != 0 or not all(map(shutil.which, ("unshare", "prlimit", "setpriv"))),
    reason="the small peer on this system: this is not root, or unshare, setpriv and prlimit are not here")


def run_group(words: list[str], file: BinaryIO) -> int | str:
    """The status of a program after all its processes have ended; one that hangs is killed."""
    process = subprocess.Popen(words, stdout=file, start_new_session=True)
    try:
        return process.wait(SECONDS)
    except subprocess.TimeoutExpired:
        return f"no end in {SECONDS} seconds"
    finally:
        try:
            os.killpg(process.pid, signal.SIGKILL)
        except ProcessLookupError:
            pass
        process.wait()


def run_small(folder: str, paths: list[str], limits: list[int] | tuple[int, ...], is_root: bool,
              words: Sequence[str] = (), files: int = 64,
              rules: str = "profile") -> tuple[dict[str, list[str]], str]:
    """The small peer's output for each of these scripts, by name, with a limit on open files."""
    program, said = build(folder, paths, words=words, rules=rules)
    if not program:
        return {}, said
    os.chmod(program, 0o755)
    record, replies = os.path.join(folder, "record"), os.path.join(os.path.dirname(folder), "replies")
    with only_one(), open(record, "wb") as file:
        status = run_group([*words_for(limits, is_root), "prlimit", f"--nofile={files}", program], file)
    done = run_tool("replies", record, replies)
    found = {}
    for path in paths:
        name = os.path.splitext(os.path.basename(path))[0]
        if not os.path.exists(os.path.join(replies, name + ".out")):
            continue
        with open(os.path.join(replies, name + ".out"), encoding="ascii") as file:
            found[name] = [line for line in file.read().splitlines() if not line.startswith("note: ")]
    return found, "" if status == 0 and done.status == 0 else f"status {status}, {done.said}"


def compare_case(case: Case, small: list[str], full: list[Event]) -> tuple[int, str]:
    """How many commands both peers made, and the first one with different answers."""
    made = 0
    for line, other in zip(small, full):
        event = read_event(line)
        if event is None:
            return made, f"no event line: {line!r}"
        theirs = f"{other.call} = {other.reply}"
        if event.is_skipped:
            # both are in the same state as long as the full peer was refused, or only looked
            is_made = not (other.is_skipped or other.is_refused)
            if event.call != other.call or (event.reply == MAY_END and is_made):
                return made, f"{line} where the full peer has {theirs}"
            is_partly_done = other.word in ("store", "xadd") and not other.is_skipped
            if is_partly_done or not (other.is_skipped or other.is_refused or other.word in READS):
                return made, "" if len(small) == len(case.commands) else f"{len(small)} lines"
        elif not other.is_skipped:
            if line != theirs:
                return made, f"{line} where the full peer has {theirs}"
            made += 1
    return (made, "" if len(small) == len(case.commands)
            else f"{len(small)} lines for {len(case.commands)} commands")


def cases_in(folder: str, has_flags: bool = False) -> Iterator[tuple[str, Case]]:
    """The cases of a folder, with their paths."""
    for path in names_in(folder):
        yield path, read_case(path, text_of(path), has_flags=has_flags)


def groups_of_cases() -> dict[tuple[tuple[int, ...], bool, str], list[tuple[str, Case]]]:
    """The cases grouped by their limits, by who runs them, and by the rules. User 0 runs all of them, and
    those of Linux's rules; an ordinary user runs those whose first user is not user 0."""
    groups: dict[tuple[tuple[int, ...], bool, str], list[tuple[str, Case]]] = {}
    for rules, found in (("profile", cases_in(CASES)),
                         ("linux", cases_in(os.path.join(CASES, "rules"), True))):
        for path, case in found:
            limits = tuple(case.limits[:3] + [0, case.limits[4]])
            groups.setdefault((limits, True, rules), []).append((path, case))
            if rules == "profile" and next(iter(case.users.values()))[0] != 0:
                groups.setdefault((limits, False, rules), []).append((path, case))
    return groups


def compare_by_kit(replies: str, conform: Conform, is_root: bool) -> None:
    """The kit compares the small peer's output as it does with any other peer, and reports under which limits
    it was made, and whether most was skipped: without root it is one user."""
    status, said = conform("--replies", replies)
    assert status == 0
    assert re.search("^cases: agree \\d+, profile \\d+" + ("" if is_root else ", skipped \\d+") + "$", said,
                     re.M)
    assert "\nnote: under the limits of this system\n" in said
    mostly = r"MOSTLY SKIPPED: \d+ of 2067 commands were not compared: no right to be this user \(\d+\), "
    assert bool(re.match(mostly, said.splitlines()[-1])) != is_root
    path = write_file(replies, "wide.shm", WIDE)
    for note, word in (("note: under the limits of this system\n", "profile (limits of the system 1)"),
                       ("", "DIFFER")):
        write_file(replies, "wide.out", note + "1 1 shmget 0x00000000 2 600 = 0\n")
        assert f"wide: {word}\n" in conform("--replies", replies, path)[1]


@as_root
@pytest.mark.parametrize("is_root", [True, False], ids=["as root", "as an ordinary user"])
def test_same_replies(peer: str, folder: str, conform: Conform, is_root: bool) -> None:
    """Each command that both peers make has the same reply, and user 0 makes the commands of every user."""
    made = 0
    skipped: set[str] = set()
    for number, ((limits, is_it, rules), cases) in enumerate(groups_of_cases().items()):
        if is_it != is_root:
            continue
        paths = [path for path, _ in cases]
        small, said = run_small(os.path.join(folder, f"group{number}"), paths, limits, is_root, rules=rules)
        assert not said
        for _path, case in cases:
            both, said = compare_case(case, small.get(case.name, []),
                                      Peer([peer]).run(case.text, len(case.commands)))
            assert not said, case.name
            made += both
            skipped |= {why for line in small.get(case.name, [])
                        for why in re.findall(" = skipped: (.*)", line)}
    assert made >= LEAST_COMPARED[is_root]
    assert not is_root or skipped <= NEVER_MADE
    compare_by_kit(os.path.join(folder, "replies"), conform, is_root)


@as_root
@pytest.mark.parametrize("name, uid, is_root", [
    ("ordinary", 100, False), ("root", 0, True), ("other", 0, False)
])
def test_forms(folder: str, name: str, uid: int, is_root: bool) -> None:
    """Each form of an operand and a reply, by a list by hand; another user is not taken for user 0."""
    limits = [16777216, 16, 64, 0, 4]
    gid = uid and uid + 10
    path = write_file(folder, f"{name}.shm", FORMS.format(uid, gid))
    found, said = run_small(os.path.join(folder, name), [path], limits, is_root)
    got, wanted = found.get(name, []), FORMS_SAID.format(uid, gid).splitlines()
    if name == "other":
        got = sorted({line.partition(" = ")[2] for line in got})
        wanted = ["skipped: no process makes this call", "skipped: no right to be this user"]
    assert got == wanted
    assert not said


@as_root
def test_room(folder: str) -> None:
    """Commands for which the peer or the system has no room are skipped, and the others are made."""
    limits, words = [16777216, 16, 64, 0, 4], ["-DPROCESSES=1", "-DPIECES=3", "-DSEGMENTS=1"]
    full, two = write_file(folder, "full.shm", FULL), write_file(folder, "two.shm", TWO)
    few = "skipped: there are too few pipes for the script's processes"
    no_pipe = ["-include", write_file(folder, "no_second_pipe.h", NO_SECOND_PIPE)]
    for name, given, files, wanted in (
            ("little room", words, 64,
             {"full": FULL_SAID, "two": ["skipped: more processes than PROCESSES"] * 2}),
            ("few pipes", (), 8,
             {"full": [*FULL_SAID[:1], "1", *FULL_SAID[2:4], "0x40002000"], "two": [few] * 2}),
            ("no second pipe", no_pipe, 64, {"full": [few] * 5, "two": [few] * 2})):
        found, said = run_small(os.path.join(folder, name.replace(" ", "_")), [two, full], limits, False,
                                given, files)
        assert {name: [line.partition(" = ")[2] for line in lines] for name, lines in found.items()} == wanted
        assert not said


@as_root
def test_odd_system(folder: str) -> None:
    """A pipe that gives few bytes at a time changes nothing; the child of a refused fork is no process."""
    limits = [16777216, 16, 64, 0, 4]
    path = write_file(folder, "ordinary.shm", FORMS.format(100, 110))
    few = write_file(folder, "few_bytes.h", FEW_BYTES)
    found, said = run_small(os.path.join(folder, "few_bytes"), [path], limits, False, ["-include", few])
    assert found.get("ordinary") == FORMS_SAID.format(100, 110).splitlines()
    assert not said
    path = write_file(folder, "born.shm", NOBODY_BORN)
    none = write_file(folder, "no_fork.h", NO_FORK)
    found, said = run_small(os.path.join(folder, "no_fork"), [path], limits, False, ["-include", none])
    got = [line.partition(" = ")[2] for line in found.get("born", [])]
    assert got == ["0", "EAGAIN", "skipped: no process makes this call", "ok"]
    assert not said


def test_data(folder: str) -> None:
    """What tools/small_peer makes of a script."""
    path = write_file(folder, "data.shm", DATA_SCRIPT)
    assert run_tool("data", path) == (0, DATA, "")


def test_record(folder: str) -> None:
    """What it makes of a console's record that breaks off."""
    record, replies = write_file(folder, "record", RECORD), os.path.join(folder, "told")
    told = "small_peer: two has no end; its last line: 2 1 load 0x0 1 = panic: trap\n"
    assert run_tool("replies", record, replies) == (1, "", told)
    assert text_of(f"{replies}/one.out") == "note: under the limits of this system\n1 1 exit = ok\n"
    assert text_of(f"{replies}/two.out") == "1 1 stat 0 = EINVAL\n2 1 load 0x0 1 = panic: trap\n"


@pytest.mark.parametrize("words, status, text", [
    ("", 2, "usage: small_peer"), ("data --nosuch", 2, "--nosuch"), ("nosuch", 2, "invalid choice: 'nosuch'"),
    ("data --rules posix", 2, "invalid choice: 'posix'"), ("replies record", 2, "FOLDER"),
    ("replies record told more", 2, "more"), ("data /nosuch", 1, "can't be read"),
    ("data rules/nosuch", 1, "small_peer: rules/nosuch: can't be read"),
    (f"data {CASES}/rules/flags_of_shmget.shm", 1, "bad line: 600,creat,noreserve"),
    ("data bad.shm", 1, "small_peer: bad.shm: line 3: bad line: nosuch, allowed here: a call"),
    ("replies /nosuch told", 3, "small_peer: /nosuch: No such file"),
    ("replies bad.shm told", 1, "has no line 'script NAME'")])
def test_wrong_words(folder: str, words: str, status: int, text: str) -> None:
    write_file(folder, "bad.shm", "limits 1 1 1 2 0\nprocess 1 1 1\n1 nosuch\n")
    ended = run([TOOL, *words.split()], cwd=folder)
    assert ended.status == status
    assert text in ended.said


def test_linux_data(folder: str) -> None:
    """With Linux's rules the flags are in the data, by the numbers of small_peer.c, and so are all cases of
    these rules."""
    path = write_file(folder, "flags.shm",
                      "limits 4096 1 1 2 0\nprocess 1 0 0\n1 shmget private 1 600,hugetlb\n"
                      "1 shmget private 1 000,creat,noreserve\n1 shmat 0 null exec\n1 shmat 0 null "
                      "rnd,exec,rdonly\n")
    done = run_tool("data", "--rules", "linux", path)
    # the low half of the third operand of each command
    flags = [int(re.findall("0x[0-9a-f]+", line)[5], 16)
             for line in done.out.splitlines() if line.startswith("    { 0, -1, ")]
    assert flags == [0o4600, 0o11000, 0o100000, 0o130000]
    for words, folders in (["data"], [CASES]), (["data", "--rules", "linux"],
                                                [CASES, os.path.join(CASES, "rules")]):
        wanted = [os.path.basename(path)[:-4] for it in folders for path in names_in(it)]
        assert re.findall(r'^    \{ "(\w+)", processes_', run_tool(*words).out, re.M) == wanted
    # a name is that of a case
    assert run_tool("data", "sizes") == run_tool("data", os.path.join(CASES, "sizes.shm"))
