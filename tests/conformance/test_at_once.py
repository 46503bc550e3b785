"""./conform at-once: the peer's output, the judge's answers, and the explanations."""

from __future__ import annotations

import contextlib
import io
import os
import re
import subprocess
import sys
from collections.abc import Sequence
from pathlib import Path
from typing import Any

import pytest

from commands import Conform
from nogconform.at_once import (Judge, Log, RacingPeer, Tally, calls_of, changed_logs, judge_log,
                                judge_script, make_script)
from nogconform.running import Stopped
from nogconform.script import read_case

USER, GROUP = os.geteuid(), os.getegid()
HEAD = f"limits 65536 16 64 16 4\nprocess 1 {USER} {GROUP}\nprocess 2 {USER} {GROUP}\n"
SHOWN = f"key=0x00000000 uid={USER} gid={GROUP} cuid={USER} cgid={GROUP} mode=600 status=- size=4096 "
# no process meets another one, so each run has these answers
ALONE = HEAD + """1 s = shmget private 4096 600
1 a = shmat s null -
1 shmat s 0x50000000 rdonly
1 store a+8 0102030405060708
1 load 0x50000008 8
1 x = xadd a 5
1 xadd a 2
1 load a 2
1 swap a 0900
1 cas a 0900 0b00
1 cas a 0900 0c00
1 cas a 0b00 0d00
1 cas 0x50000000 00 01
1 load a+4 4
1 store 0x50000000 01
1 store a+1 0203
1 stat s
2 s = shmget private 4096 600
2 shmat s 0x50000064 rnd
2 shmat s 0x50000000 -
2 shmdt 0x50000000
2 load 0x50000000 4
2 rmid s
2 stat s
2 s = shmget 7 4096 600
2 stat s
2 a = shmat s null -
2 store a+8 01020304
"""
REPLIES = (f"? ? 0x50000000 ok 0102030405060708 0 5 0700 0700 0900 0b00 0b00 SIGSEGV 00000000 SIGSEGV skipped "
           f"{SHOWN}cpid=1 lpid=1 nattch=2 atime=set dtime=0 "
           "ctime=set; ? 0x50000000 EINVAL ok SIGSEGV ok EINVAL ENOENT EINVAL EINVAL SIGSEGV")
# two creations of one key
TWO = HEAD + "1 s = shmget 7 4096 600,creat,excl\n2 s = shmget 7 4096 600,creat,excl\n"
ONE_WINS = ["2 shmget 0x00000007 4096 600,creat,excl = EEXIST", "1 shmget 0x00000007 4096 600,creat,excl = ?"]
BOTH_WIN = [line.replace("EEXIST", "?") for line in ONE_WINS]
# prints a log in which every call has this answer, twice
ALL_SO = """import sys
lines = [line for line in sys.stdin if line[0].isdigit()]
for run in (1, 2):
    print("# run", run)
    for line in lines:
        pid, *words = line.split()
        print(f"# 1 2\\n{pid} {words[2] if words[1] == '=' else words[0]} = REPLY")
"""
GIVEN = "2 shmget 0x00000010 4096 600,creat = ?"
OWN = GIVEN.replace("2", "1", 1)
STAT = ("1 stat s = key=0x00000010 uid=0 gid=0 cuid=0 cgid=0 mode=600 status={} size=1 cpid=1 lpid=0 "
        "nattch={} atime=0 dtime=0 ctime=set")
MARKED = STAT.format("-", 1).replace("lpid=0", "lpid={}").replace("atime=0", "atime=set")
DETACH = "2 shmdt 0x50004000 = ok"
ATTACH, REMOVE, GONE = "2 shmat s 0x50000000 - = 0x50000000", "2 rmid s = ok", "1 set s 0 0 600 = {}"
NOBODY, REFUSED = "nothing", GIVEN.replace("?", "EEXIST")


class Told:
    """A peer that prints one log."""

    def __init__(self, lines: list[str]) -> None:
        self.lines = lines

    def run(self, _text: str) -> list[Log]:
        return [log_of(self.lines)]


class TellsBoth(Told):
    """A peer that prints the same lines in this order and in the opposite one."""

    def run(self, _text: str) -> list[Log]:
        return [log_of(self.lines), log_of(self.lines[::-1])]


class Knows(Judge):
    """A judge for whom only these logs are legal."""

    def __init__(self, *legal: Any) -> None:
        super().__init__([])
        self.legal = {log_of(lines).by_process for lines in legal}

    def verdict(self, _text: str, lines: list[str], _most: int = 0) -> tuple[str, str]:
        return ("legal", "legal\n") if log_of(lines).by_process in self.legal else ("illegal", "illegal\n")


class FindsOthers(Knows):
    """A judge whose short search finds an order of each log but the legal ones."""

    def find_order(self, _text: str, log: Log) -> str:
        return "" if log.by_process in self.legal else "legal\n"


def log_of(lines: Sequence[str]) -> Log:
    return Log(list(lines), [(0, 1)] * len(lines))


@pytest.mark.parametrize("lines, legal, wanted", [
    ([STAT.format("-", 1), ATTACH], [STAT.format("-", 0), ATTACH], "nattch counts an attach under way"),
    ([STAT.format("-", 1), ATTACH], [STAT.format("-", 2), ATTACH], NOBODY),
    ([STAT.format("-", 2), ATTACH], [STAT.format("-", 0), ATTACH], NOBODY),
    ([STAT.format("-", 1), REMOVE], [STAT.format("-", 0), REMOVE], NOBODY),
    ([STAT.format("-", 1), REFUSED, ATTACH], [STAT.format("-", 0), REFUSED, ATTACH], NOBODY),
    ([STAT.format("-", 1), ATTACH.replace("2", "1", 1)], [STAT.format("-", 0), ATTACH.replace("2", "1", 1)],
     NOBODY),
    ([OWN, STAT.format("-", 1), ATTACH.replace("2", "1", 1)],
     [OWN, STAT.format("-", 0), ATTACH.replace("2", "1", 1)], NOBODY),
    ([GONE.format("EIDRM"), REMOVE], [GONE.format("EINVAL"), REMOVE], "removed between two steps of a call"),
    ([GONE.format("EIDRM"), ATTACH], [GONE.format("EINVAL"), ATTACH], NOBODY),
    ([GONE.format("EIDRM"), "1 rmid s = ok"], [GONE.format("EINVAL"), "1 rmid s = ok"], NOBODY),
    ([GONE.format("EIDRM"), "1 rmid s = ok", DETACH], [GONE.format("EINVAL"), "1 rmid s = ok", DETACH],
     "removed between two steps of a call"),
    ([GONE.format("EIDRM"), DETACH], [GONE.format("EINVAL"), DETACH], NOBODY),
    ([GONE.format("EACCES"), REMOVE], [GONE.format("EINVAL"), REMOVE], NOBODY),
    ([STAT.format("dest", 1), ATTACH], ["1 stat s = ?", ATTACH], "marked while an attach is under way"),
    ([STAT.format("-", 1), ATTACH], ["1 stat s = ?", ATTACH], NOBODY),
    ([STAT.format("dest", 1), REMOVE], ["1 stat s = ?", REMOVE], NOBODY),
    ([STAT.format("-", 1), ATTACH], [MARKED.format(2), ATTACH], "an attach under way has no time yet"),
    ([STAT.format("-", 1), ATTACH], [MARKED.format(3), ATTACH], NOBODY),
    ([STAT.format("-", 1), REMOVE], [MARKED.format(2), REMOVE], NOBODY),
    ([STAT.format("-", 0), ATTACH], [MARKED.format(2).replace("nattch=1", "nattch=0"), ATTACH], NOBODY),
    ([STAT.format("-", 1)] * 6 + [ATTACH], [STAT.format("-", 0)] * 6 + [ATTACH],
     "nattch counts an attach under way"),
    ([STAT.format("-", 1)] * 7 + [ATTACH], [STAT.format("-", 0)] * 7 + [ATTACH], NOBODY),
    ([STAT.format("-", 1), STAT.format("dest", 1), ATTACH], [STAT.format("-", 0), "1 stat s = ?", ATTACH],
     "marked while an attach is under way and nattch counts an attach under way"),
    ([STAT.format("-", 1), GONE.format("EIDRM"), ATTACH, REMOVE],
     [STAT.format("-", 0), GONE.format("EINVAL"), ATTACH, REMOVE],
     "nattch counts an attach under way and removed between two steps of a call"),
    ([STAT.format("-", 1), GONE.format("EIDRM"), ATTACH],
     [STAT.format("-", 0), GONE.format("EINVAL"), ATTACH], NOBODY)
])
def test_explanations(lines: list[str], legal: list[str], wanted: str) -> None:
    """What is explained, and near misses that are not."""
    given = [] if REFUSED in lines else [GIVEN]
    _word, found, _said = judge_log(Knows([*given, *legal]), "", log_of([*given, *lines]))
    found = found or NOBODY
    assert found == wanted


def test_a_legal_log_is_not_explained() -> None:
    """The short search finds no order of this log, and finds one of what an explanation makes of it."""
    lines = [GIVEN, STAT.format("-", 1), ATTACH]
    assert judge_log(FindsOthers(lines), "", log_of(lines)) == ("legal", "", "legal\n")


def test_changed_logs() -> None:
    """Logs with few changes come first."""
    logs = [log.lines for log in changed_logs(log_of([STAT.format("-", 1), ATTACH]), lambda line,
                                              _lines: [line, line + "!"])]
    assert [sum("!" in line for line in lines) for lines in logs] == [1, 1, 2]


def test_orders() -> None:
    """Orders keep each process's own order, and the order of calls that did not overlap."""
    log = Log(["1 stat s = a", "2 stat s = b", "1 rmid s = c", "2 rmid s = d"],
              [(0, 4), (1, 5), (6, 9), (7, 8)])
    orders = [*log.orders()]
    seen = {tuple(lines) for lines in orders}
    firsts = {tuple(sorted(lines[:2])) for lines in seen}
    assert orders[0] == log.lines
    assert len(seen) == 4
    assert firsts == {tuple(log.lines[:2])}
    assert all(log_of(it).by_process == log.by_process for it in seen)


@pytest.mark.parametrize("status, said, wanted", [
    (0, "legal\\nschedule 1 2\\n", "legal"), (6, "illegal\\n", "illegal"), (5, "", "undecided"),
    (0, "illegal\\n", None),
    (0, "legal\\n", None), (0, "legal\\nschedule 1 1\\n", None), (0, "legal\\nschedule 1\\n", None),
    (6, "legal\\n", None),
    (6, "", None), (0, "", None), (5, "illegal\\n", None), (2, "", None), (3, "", None)
])
def test_verdicts(status: int, said: str, wanted: str | None) -> None:
    """An answer that is not one of the judge's ends the run."""
    judge = Judge(["sh", "-c", f"printf '{said}'; exit {status}", "sh"])
    if wanted is None:
        with pytest.raises(Stopped, match=f"the judge ended with status {status}: "):
            judge.verdict(TWO, ONE_WINS)
    else:
        assert judge.verdict(TWO, ONE_WINS)[0] == wanted


def test_judged() -> None:
    """The judge is asked under Linux's rules."""
    script = '[ "$1 $3 $4 $5 $6" = "judge --rules linux --at-most 40" ] && exit 5'
    word = "not asked so"
    with contextlib.suppress(Stopped):
        word = Judge(["sh", "-c", script, "sh"]).verdict(TWO, ONE_WINS, 40)[0]
    assert word == "undecided"


def test_runs_are_judged() -> None:
    """A run is judged unless each process had the same replies in the same order."""
    own = ["1 load 0x50000000 1 = 00", "1 load 0x50000000 1 = 01"]
    for lines, wanted in ((own, {"legal": 1, "ILLEGAL": 1}), (ONE_WINS, {"legal": 1})):
        tally = Tally()
        with contextlib.redirect_stdout(io.StringIO()):
            judge_script(tally, TellsBoth(lines), Knows(lines), "both orders", "")
        assert tally.logs == wanted
        assert sum(tally.judged.values()) == 2


@pytest.mark.parametrize("lines, wanted", [
    (ONE_WINS, "legal"), (BOTH_WIN, "ILLEGAL")
])
def test_real_judge(shmcheck: str, lines: list[str], wanted: str) -> None:
    """The built judge, if there is one, under Linux's rules: two processes can't both create a key."""
    tally = Tally()
    judge_script(tally, Told(lines), Judge([shmcheck]), f"expected {wanted}", TWO)
    assert tally.logs == {wanted: 1}


def test_words(folder: str, conform: Conform) -> None:
    """Wrong words, missing tools, and the output for a log that no order has."""
    fake = os.path.join(folder, "all_so.py")
    for reply in ("ok", "skipped: here"):
        Path(fake + reply[:2]).write_text(ALL_SO.replace("REPLY", reply), "ascii")
    peer = ["--peer", sys.executable, fake + "ok"]
    no, yes = ["--judge", "sh -c echo${IFS}illegal;exit${IFS}6"], ["--judge", "sh -c exit${IFS}5"]
    run = ["--runs", "2", "at-once", "1", "7"]
    text = "".join(f"    {line}\n" for line in make_script("7", 0).splitlines())
    for name, words, wanted, told in (
            ("no seed", ["at-once", "1"], 2, "at-once takes a count and a seed"),
            ("no count", ["at-once", "x", "1"], 2, "at-once takes a count and a seed"),
            ("no runs", ["--runs", "0", "at-once", "1", "1"], 2,
             "--runs takes a number from 1 to 1000000: 0"),
            ("TAP", ["--tap", "at-once", "1", "1"], 2, "--tap is not for at-once scripts"),
            ("the system's namespace", ["--shared", "at-once", "1", "1"], 2,
             "--shared is not for at-once scripts"),
            ("no peer", ["--no-peer", *no, "at-once", "9", "1"], 2, "--no-peer is not for at-once scripts"),
            ("no such judge", ["--judge", "/nosuch/judge", "at-once", "1", "1"], 3,
             "no such command: /nosuch/judge"),
            ("no such peer", [*no, "at-once", "1", "1", "--peer", "/nosuch"], 3, "the peer was not started"),
            ("an illegal log", [*no, *run, *peer], 1,
             "script 0 of seed 7: ILLEGAL\n  the script:\n" + text + "  the log:\n"),
            ("what the judge said", [*no, *run, *peer], 1,
             "  the judge:\n    illegal\nscripts: 1 run, 0 skipped\nruns: 2, legal 0, "
             "explained 0, ILLEGAL 2, undecided 0, skipped 0\ndifferent logs: 1, legal 0, explained 0, "
             "ILLEGAL 1, "),
            ("an undecided log", [*yes, *run, *peer], 1, "ILLEGAL 0, undecided 1, skipped 0\n"),
            ("a judge that dies", ["--judge", "sh -c exit${IFS}9", *run, *peer], 3,
             "script 0 of seed 7: the judge ended with status 9"),
            ("a skipped log", [*no, *run, "--peer", sys.executable, fake + "sk"], 0,
             "skipped 1\n  skipped: here: 1\n"),
            ("fewer logs", [*no, "at-once", "1", "7", *peer], 3, "the peer printed 2 logs of 20 runs"),
            ("another log", [*no, *run, "--peer", "sh", "-c", "echo '# run 1'; echo '# run 2'"], 3,
             "does not have each line of the script once"),
            ("no log", [*no, *run, "--peer", "echo", "hello"], 3,
             "the peer printed a line that is not one of a log: 'hello"),
            ("a peer that can't", [*no, *run, "--peer", "sh", "-c", "echo peer: skipped: why >&2; exit 4"], 0,
             "scripts: 0 run, 1 skipped\n"),
            ("a peer that dies", [*no, *run, "--peer", "sh", "-c", "exit 7"], 3,
             "the peer ended with status 7: it printed no message")):
        status, said = conform(*words)
        assert status == wanted
        assert told in said


def test_scripts() -> None:
    """Random scripts are valid, and have the calls to compare."""
    seen = {word: 0 for word in ("creat,excl", "rdonly", "shmdt", "load", "store", "xadd", "swap", "cas",
                                 "stat", "set", "rmid", "null")}
    sizes = set()
    for number in range(200):
        text = make_script("kit", number)
        calls = calls_of(text)
        sizes |= {(len(calls), max(calls.values()))}
        for word in seen:
            seen[word] += re.search(rf"[ ,]{word}\b", text) is not None
        assert len(read_case("c", text, is_strict=False).commands) == sum(calls.values())
        assert text == make_script("kit", number)
    assert min(seen.values()) >= 20
    assert sizes == {(2, n) for n in (3, 4, 5, 6)} | {(3, 3), (3, 4), (4, 3)}


def test_logs_of_the_peer(peer: str) -> None:
    """The peer's logs."""
    logs = RacingPeer([peer], 6, 10).run(ALONE)
    for log in logs:
        unmade = "skipped: an access at once is of 1, 2, 4 or 8 aligned bytes"
        told = {pid: [line.partition(" = ")[2].replace(unmade, "skipped")
                      for line in log.lines if line.startswith(pid)] for pid in "12"}
        assert ["; ".join(" ".join(told[pid]) for pid in "12")] == [REPLIES]
        assert all(began <= ended for began, ended in log.spans)
        assert [it[1] for it in log.spans] == sorted(it[1] for it in log.spans)


@pytest.mark.parametrize("line, wanted, said", [
    ("1 fork 2", 1, "peer: line 4: not made at once: fork"), ("1 exit", 1, "not made at once: exit"),
    ("1 lock s", 1, "not made at once: lock"), ("1 shmat 0 null -", 1, "at once an identifier is a variable"),
    ("1 stat s", 1, "at once this variable is that of a shmget above"),
    ("1 load a 1", 1, "that of a shmat above"),
    ("1 s = shmget 7 1 600\n1 shmat s 0x50000000 remap", 1, "peer: line 5: not made at once: remap"),
    ("1 s = shmget 7 1 600\n2 stat s", 1, "peer: line 5: at once this variable is"),
    ("child 3", 1, "at once there is no child")
])
def test_not_at_once(peer: str, line: str, wanted: int, said: str) -> None:
    """Scripts that the peer does not run at once."""
    done = subprocess.run([peer, "--at-once", "2"], input=(HEAD + line + "\n").encode(), capture_output=True,
                          check=False)
    assert done.returncode == wanted
    assert said in done.stderr.decode()
    assert done.stdout == b""


def test_races(peer: str) -> None:
    """In the system's own namespace no script is run at once; of two creations of a key one is refused."""
    done = subprocess.run([peer, "--at-once", "2", "--shared"], input=TWO.encode(), capture_output=True,
                          check=False)
    assert done.returncode == 4
    assert b"namespace of its own" in done.stderr
    wins = {tuple(sorted(line.rpartition(" ")[2] for line in log.lines))
            for log in RacingPeer([peer], 50, 10).run(TWO)}
    assert wins == {("?", "EEXIST")}
