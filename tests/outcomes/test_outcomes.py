"""./shmcheck.

Each script NAME.shm has its outcomes, counted by hand, next to it: NAME.out is the whole output, and NAME.set
has a line for each outcome, its lines of the processes with `;` between them, in any order. Each schedule
that is printed is also run: the lines of the script in that order, by ./shmsim serial, have the replies of
its outcome.

logs/ has answers that a system may give to a script: NAME.CASE.log is a log, and NAME.CASE.out the verdict,
by hand. It also has a script with too many schedules for a list of its outcomes.

Runs that sample draws are run again by ./shmsim serial, which prints the same event lines. Each answer to a
question is worked out by hand, or follows from the outcomes of a stored script.
"""

from __future__ import annotations

import os
import random
import re
import tempfile
from typing import Any

import pytest

from commands import run, text_of

HERE = os.path.dirname(os.path.realpath(__file__))

USAGE = ("shmcheck outcomes|judge LOG|sample SEED [--exists|--forbid CONDITION] [--rules profile|linux] "
         "[--at-most N] [--masked] [--runs N]")
NAMES = sorted(it[:-4] for it in os.listdir(HERE) if it.endswith(".shm"))
LOGS = sorted(it[:-4] for it in os.listdir(os.path.join(HERE, "logs")) if it.endswith(".log"))


def ask(program: Any, words: Any, text: str) -> Any:
    return run([program, *words], text)


def judge(program: Any, log: Any, script: Any, *words: Any) -> Any:
    """Judges a log of these lines."""
    with tempfile.NamedTemporaryFile("w", encoding="ascii") as file:
        file.write(log)
        file.flush()
        return ask(program, ["judge", file.name, *words], script)


def stored(name: str) -> Any:
    return text_of(os.path.join(HERE, name))


def outcomes_in(printed: str) -> tuple[list[tuple[list[str], list[str]]], str]:
    """The outcomes of an output: for each its lines and its schedule; and the count in the last line."""
    found: list[tuple[list[str], list[str]]] = []
    last = printed.splitlines()[-1]
    for line in printed.splitlines()[:-1]:
        if line.startswith("outcome "):
            found.append(([], []))
        elif line.startswith("schedule"):
            found[-1][1].extend(line.split()[1:])
        else:
            found[-1][0].append(line)
    return found, last


def in_order(script: str, schedule: list[str]) -> str:
    """Returns the script with its command lines in the order of a schedule."""
    lines = [line for line in script.splitlines() if line.split() and not line.startswith("#")]
    heads = [line for line in lines if line.split()[0] in ("limits", "process", "child")]
    own: dict[str, list[str]] = {}
    for line in lines[len(heads):]:
        own.setdefault(line.split()[0], []).append(line)
    return "\n".join([*heads, *(own[pid].pop(0) for pid in schedule)]) + "\n"


def placeless(printed: str, count: int) -> list[str]:
    """Returns the event lines of a serial run without their places, and with masked times."""
    lines = [line.split(" ", 1)[1] for line in printed.splitlines()[:count]]
    return [re.sub(r"([adc]time)=[1-9][0-9]*", r"\1=set", line) for line in lines]


def runs_in(printed: str) -> list[list[str]]:
    """Returns the event lines of each run that sample printed."""
    found: list[list[str]] = []
    for line in printed.splitlines():
        if line == f"run {len(found) + 1}":
            found.append([])
        else:
            found[-1].append(line)
    return found


@pytest.mark.parametrize("name", NAMES)
def test_outcomes(name: str, shmcheck: str, shmsim: str) -> None:
    """The outcomes are those that were counted by hand, and each schedule gives its outcome in ./shmsim."""
    script = stored(f"{name}.shm")
    status, printed, said = ask(shmcheck, ["outcomes"], script)
    assert (status, said) == (0, "")
    found, last = outcomes_in(printed)
    assert (last, printed) == (f"outcomes {len(found)}", text_of(os.path.join(HERE, f"{name}.out"), printed))
    wanted = text_of(os.path.join(HERE, f"{name}.set"), "").splitlines()
    assert not wanted or sorted(";".join(lines) for lines, _ in found) == sorted(wanted)
    for lines, schedule in found:
        ended = ask(shmsim, ["serial", "ram:64"], in_order(script, schedule))
        assert ended.status == 0
        assert sorted(placeless(ended.out, len(schedule))) == sorted(lines)


@pytest.mark.parametrize("name", NAMES)
def test_sample(name: str, shmcheck: str, shmsim: str) -> None:
    """Sampled runs: each has an outcome of the list, and the event lines of a serial run in its order."""
    script = stored(f"{name}.shm")
    known = [sorted(lines) for lines, _ in outcomes_in(ask(shmcheck, ["outcomes"], script).out)[0]]
    status, printed, said = ask(shmcheck, ["sample", "2026", "--runs", "40"], script)
    runs = runs_in(printed)
    assert (status, said, len(runs)) == (0, "", 40)
    for lines in runs:
        assert sorted(placeless("\n".join(lines), len(lines))) in known
    for order in dict.fromkeys(tuple(it) for it in runs):
        ended = ask(shmsim, ["serial", "ram:64"], in_order(script, [line.split()[1] for line in order]))
        assert (ended.status, ended.out.splitlines()[:len(order)]) == (0, list(order))


def test_seeds(shmcheck: str) -> None:
    """A seed gives the list of runs. Each process that can continue is equally likely."""
    heads = "limits 65536 16 64 4 1\n" + "".join(f"process {pid} 0 0\n" for pid in (1, 2, 3))
    script = heads + "1 stat 0\n2 stat 0\n3 stat 0\n"
    status, all_runs, _ = ask(shmcheck, ["sample", "7", "--runs", "6000"], script)
    assert (status, ask(shmcheck, ["sample", "7", "--runs", "6000"], script)[1]) == (0, all_runs)
    fewer = ask(shmcheck, ["sample", "7", "--runs", "5999"], script)[1]
    assert all_runs.startswith(fewer)
    assert len(runs_in(fewer)) == 5999
    assert (ask(shmcheck, ["sample", "7"], script)[1]
            == "".join(f"{line}\n" for line in all_runs.splitlines()[:4]))
    assert ask(shmcheck, ["sample", "8", "--runs", "6000"], script)[1] != all_runs
    # six orders, 1000 times each, with a deviation of 29
    orders: dict[str, int] = {}
    for lines in runs_in(all_runs):
        order = "".join(line.split()[1] for line in lines)
        orders[order] = orders.get(order, 0) + 1
    assert sorted(orders) == ["123", "132", "213", "231", "312", "321"]
    assert all(850 < it < 1150 for it in orders.values())
    # after the only fork there are two processes; nothing comes before it
    script = "limits 65536 16 64 4 1\nprocess 1 0 0\nchild 2\n1 fork 2\n1 exit\n1 stat 0\n2 exit\n"
    seen = {"\n".join(lines) for lines in runs_in(ask(shmcheck, ["sample", "1", "--runs", "100"], script)[1])}
    wanted = {"1 1 fork 2 = ok\n2 1 exit = ok\n3 2 exit = ok",
              "1 1 fork 2 = ok\n2 2 exit = ok\n3 1 exit = ok"}
    assert seen == wanted


def test_sample_ends(shmcheck: str) -> None:
    """A script without lines, rules of Linux, seeds at both ends, a bad script and wrong words."""
    heads = "limits 65536 16 64 4 1\nprocess 1 0 0\n"
    assert ask(shmcheck, ["sample", "1", "--runs", "2"], heads) == (0, "run 1\nrun 2\n", "")
    script = heads + "1 s = shmget 7 4096 600,creat\n1 rmid s\n1 stat s\n"
    rules: tuple[tuple[list[str], str], ...] = (([], "EIDRM"), (["--rules", "profile"], "EIDRM"),
                                                (["--rules", "linux"], "EINVAL"))
    for words, reply in rules:
        wanted = f"run 1\n1 1 shmget 0x00000007 4096 600,creat = 0\n2 1 rmid 0 = ok\n3 1 stat 0 = {reply}\n"
        for seed in "0", "18446744073709551615":
            assert ask(shmcheck, ["sample", seed, *words], script) == (0, wanted, "")
    assert ask(shmcheck, ["sample", "1"], heads + "1 shmgt\n") == (1, "", "shmcheck: line 3: bad line\n")
    wrong = (["sample"], ["sample", "x"], ["sample", "18446744073709551616"], ["sample", "--runs", "3"],
             ["sample", "1", "2"],
             ["sample", "1", "--runs"], ["sample", "1", "--runs", "x"], ["sample", "1", "--masked"],
             ["sample", "1", "--at-most", "5"],
             ["sample", "1", "--rules", "posix"], ["outcomes", "--runs", "3"], ["judge", "a", "--runs", "3"])
    for words in wrong:
        assert ask(shmcheck, words, script) == (2, "", f"shmcheck: usage: {USAGE}\n")


def test_lesson(shmcheck: str) -> None:
    """The outcomes that a lesson of docs/TOUR.md shows."""
    page = text_of("docs/TOUR.md")
    shown = re.search(r"^\$ \./shmcheck outcomes < (\S+) \| grep -E '(.*)'\n(.*?)^```", page, re.M | re.S)
    assert shown is not None
    printed = ask(shmcheck, ["outcomes"], text_of(shown[1])).out
    assert [line for line in printed.splitlines() if re.search(shown[2], line)] == shown[3].splitlines()


@pytest.mark.parametrize("case", LOGS)
def test_log(case: str, shmcheck: str) -> None:
    """The verdict on each log."""
    name, wanted = case.split(".")[0] + ".shm", stored(f"logs/{case}.out")
    script = text_of(os.path.join(HERE, "logs", name), "") or stored(name)
    ended = ask(shmcheck, ["judge", os.path.join(HERE, "logs", f"{case}.log")], script)
    assert ended == (0 if wanted.startswith("legal") else 6, wanted, "")


@pytest.mark.parametrize("text, said", [
    ("1 exit = ok\n2 exit\n", "log line 2: bad line"),
    ("\n3 exit = ok\n", "log line 2: unknown process"),
    ("exit = ok\n", "log line 1: bad line")
])
def test_judge_ends(shmcheck: str, text: str, said: str) -> None:
    """Each end without a verdict."""
    script = stored("racing_creations.shm")
    both = os.path.join(HERE, "logs", "racing_creations.both_win.log")
    # the beginnings of that log: none, 1 and 2
    ended = ask(shmcheck, ["judge", both, "--at-most", "3"], script)
    assert ended[0] == 6
    ended = ask(shmcheck, ["judge", both, "--at-most", "2"], script)
    assert ended == (5, "", "shmcheck: undecided: more than 2 beginnings of the log\n")
    readers = os.path.join(HERE, "logs", "four_readers")
    ended = ask(shmcheck, ["judge", f"{readers}.last_sees_one.log", "--at-most", "1000"],
                text_of(f"{readers}.shm"))
    assert ended[0] == 6
    ended = ask(shmcheck, ["judge", os.path.join(HERE, "logs", "absent")], script)
    assert ended == (3, "", "shmcheck: the log can't be read\n")
    assert judge(shmcheck, text, script) == (1, "", f"shmcheck: {said}\n")


def eight_processes(each: int, seed: int) -> tuple[str, list[tuple[int, str, int, int]]]:
    """Returns the heads of a script of eight processes, and its calls in a random order: pid, call, cell,
    byte. A byte is the one that is stored, or the one that a load sees in this order."""
    draw, cells = random.Random(seed), [0] * 4
    heads = "limits 65536 16 64 4 1\nprocess 1 0 0\n" + "".join(f"child {pid}\n" for pid in range(2, 9))
    heads += "1 s = shmget 7 4096 600,creat\n1 shmat s 0x40000000 -\n"
    heads += "".join(f"1 fork {pid}\n" for pid in range(2, 9))
    order, calls = [pid for pid in range(1, 9) for _ in range(each)], []
    draw.shuffle(order)
    for pid in order:
        cell, call = draw.randrange(4), draw.choice(("store", "load"))
        if call == "store":
            cells[cell] = draw.randrange(1, 255)
        calls.append((pid, call, cell, cells[cell]))
    return heads, calls


def exchanged(calls: list[tuple[int, str, int, int]], pairs: int,
              seed: int) -> list[tuple[int, str, int, int]]:
    """Returns the calls in another order: in this many pairs of neighbours, a store and a load of its cell
    changed places."""
    draw, calls, free = random.Random(seed), [*calls], [*range(len(calls) - 1)]
    draw.shuffle(free)
    while pairs:
        at = free.pop()
        (pid, call, cell, _), (other, next_call, next_cell, _) = calls[at:at + 2]
        if pid != other and call != next_call and cell == next_cell:
            calls[at:at + 2] = calls[at + 1], calls[at]
            free = [it for it in free if abs(it - at) > 2]
            pairs -= 1
    return calls


def explains(heads: str, calls: list[tuple[int, str, int, int]], schedule: list[str]) -> bool:
    """Whether the calls give these bytes in the order of a schedule."""
    cells, left = [0] * 4, heads.count("\n1 ")
    own: dict[int, list[tuple[str, int, int]]] = {}
    for pid, call, cell, byte in calls:
        own.setdefault(pid, []).append((call, cell, byte))
    for name in schedule[left:]:
        call, cell, byte = own[int(name)].pop(0)
        if call == "store":
            cells[cell] = byte
        elif cells[cell] != byte:
            return False
    return schedule[:left] == ["1"] * left and not any(own.values())


def test_near_orders(shmcheck: str) -> None:
    """A log in nearly the right order is explained before the whole search, which may keep one beginning."""
    for seed in range(6):
        heads, calls = eight_processes(40, seed)
        script = heads
        for pid, call, cell, byte in calls:
            script += f"{pid} {call} {0x40000000 + cell:#x} {f'{byte:02x}' if call == 'store' else 1}\n"
        begun = "1 shmget = ?\n1 shmat = ?\n" + "".join(f"1 fork {pid} = ok\n" for pid in range(2, 9))
        log = exchanged(calls, 24, seed)
        for wrong in (False, True):
            said = begun
            for pid, call, _, byte in log:
                said += f"{pid} {call} = {'ok' if call == 'store' else 'ff' if wrong else f'{byte:02x}'}\n"
            status, printed, _ = judge(shmcheck, said, script, "--at-most", "1")
            if wrong:
                assert (status, printed) == (5, "")
                continue
            lines = printed.splitlines()
            legal = (status == 0 and len(lines) == 2 and lines[0] == "legal"
                     and lines[1].startswith("schedule "))
            assert legal
            assert explains(heads, calls, lines[1].split()[1:])


def test_search_order(shmcheck: str) -> None:
    """The first line sees what line 20 stores, which is too far for the orders that are tried first. In the
    whole search the process continues whose next line is the first in the log: process 2, whose 19 loads fit
    only before process 3 stores. By the script's order processes 3 and 4 would store in all their orders
    before that."""
    heads = "limits 65536 16 64 4 1\nprocess 1 0 0\nchild 3\nchild 4\nchild 2\n"
    begun = ["shmget 7 4096 600,creat", "shmat 0 0x40000000 -", "fork 2", "fork 3", "fork 4"]
    calls = [(1, "load 0x40000000 1", "01"), *[(2, "load 0x40000000 1", "00")] * 19,
             (2, "store 0x40000000 01", "ok")]
    calls += [(pid, f"store {0x40000000 + (pid == 4):#x} {at:02x}", "ok") for at in range(2, 12)
              for pid in (3, 4)]
    script = heads + "".join(f"1 {it}\n" for it in begun)
    script += "".join(f"{pid} {call}\n" for pid, call, _ in calls)
    log = "".join(f"1 {it} = {'?' if it.startswith('shm') else 'ok'}\n" for it in begun)
    log += "".join(f"{pid} {call} = {reply}\n" for pid, call, reply in calls)
    status, printed, _ = judge(shmcheck, log, script, "--at-most", "200")
    order = "1 1 1 1 1" + " 2" * 20 + " 1" + " 3 4" * 10
    assert (status, printed) == (0, f"legal\nschedule {order}\n")


def test_ends(shmcheck: str) -> None:
    """Each end without a list: at the bound, and at wrong words and scripts."""
    script = stored("racing_creations.shm")
    # the runs, all different: none, 1, 1 2, 2, 2 1
    status, printed, said = ask(shmcheck, ["outcomes", "--at-most", "5"], script)
    assert status == 0
    assert printed.endswith("outcomes 2\n")
    ended = ask(shmcheck, ["outcomes", "--at-most", "4"], script)
    assert ended == (5, "", "shmcheck: undecided: more than 4 runs, no two of them alike\n")
    ended = ask(shmcheck, ["outcomes"], "limits 65536 16 64 4 1\nprocess 1 0 0\n1 shmgt\n")
    assert ended == (1, "", "shmcheck: line 3: bad line\n")
    wrong: tuple[list[str], ...] = ([], ["outcome"], ["outcomes", "--at-most"],
                                    ["outcomes", "--at-most", "x"], ["outcomes", "2"], ["judge"],
                                    ["judge", "a", "b"],
             ["outcomes", "--rules"], ["outcomes", "--rules", "posix"], ["judge", "a", "--rules", "Linux"],
             ["judge", "a", "--masked"],
             ["outcomes", "--masked", "2"], ["samples", "1"])
    for words in wrong:
        assert ask(shmcheck, words, script) == (2, "", f"shmcheck: usage: {USAGE}\n")


@pytest.mark.parametrize("line, words, reply", [
    ("", [], "EIDRM"), ("", ["--rules", "profile"], "EIDRM"), ("", ["--rules", "linux"], "EINVAL"),
    ("", ["--at-most", "4", "--rules", "linux"], "EINVAL"), ("rules linux\n", [], "EINVAL"),
    ("rules removed_is_invalid\n", [], "EINVAL"), ("rules fork_marks\n", [], "EIDRM"),
    ("rules linux\n", ["--rules", "profile"], "EIDRM"), ("rules fork_marks\n", ["--rules", "linux"], "EINVAL")
])
def test_rules(shmcheck: str, line: str, words: list[str], reply: str) -> None:
    """Linux knows no identifier of a segment that was removed; under the profile the identifier was
    removed. The option replaces the rules that the script names."""
    script = (f"limits 65536 16 64 4 1\n{line}process 1 0 0\n1 s = shmget 7 4096 600,creat\n1 rmid s\n"
              "1 stat s\n")
    lines = "1 shmget 0x00000007 4096 600,creat = 0\n1 rmid 0 = ok\n1 stat 0 = "
    ended = ask(shmcheck, ["outcomes", *words], script)
    assert ended == (0, f"outcome 1\n{lines}{reply}\nschedule 1 1 1\noutcomes 1\n", "")
    for told in ("EIDRM", "EINVAL"):
        assert judge(shmcheck, lines + told + "\n", script, *words)[0] == (0 if told == reply else 6)


def test_merging(shmcheck: str) -> None:
    """Refused calls and loads do not multiply the runs: a run is identified by how far each process is."""
    heads = "limits 65536 16 64 4 1\nprocess 1 0 0\nprocess 2 0 0\nprocess 3 0 0\n"
    refused = [heads + "".join(f"{pid} {call}\n" for pid in (1, 2, 3)) * 2
               for call in ("load 0x40000000 1", "stat 0", "shmdt 0x40000000", "rmid 0")]
    # process 1 makes 0 to 6 calls. Its third gives birth to 2, and its fourth to 3; then each of them makes 0
    # to 2
    loads = ("limits 65536 16 64 4 1\nprocess 1 0 0\nchild 2\nchild 3\n1 s = shmget 7 4096 600,creat\n1 a = "
             "shmat s null -\n1 fork 2\n1 fork 3\n"
             + "".join(f"{pid} load 0x40000000 1\n" for pid in (1, 2, 3)) * 2)
    for script, runs in *((it, 3 ** 3) for it in refused), (loads, 3 + 3 + 3 * 9):
        status, printed, said = ask(shmcheck, ["outcomes", "--at-most", str(runs)], script)
        assert status == 0
        assert printed.endswith("outcomes 1\n")
        ended = ask(shmcheck, ["outcomes", "--at-most", str(runs - 1)], script)
        assert ended == (5, "", f"shmcheck: undecided: more than {runs - 1} runs, no two of them alike\n")


def test_masked(shmcheck: str) -> None:
    """The first to create gets identifier 0, and the other one 32769 or the like: without numbers there is
    one outcome."""
    heads = "limits 65536 16 64 4 1\nprocess 1 0 0\nprocess 2 0 0\n"
    script = (heads + "1 s = shmget 7 4096 600,creat\n1 a = shmat s null -\n2 s = shmget 8 4096 600,creat\n"
              "2 stat 5\n")
    status, printed, _ = ask(shmcheck, ["outcomes"], script)
    assert status == 0
    assert printed.endswith("outcomes 2\n")
    status, printed, _ = ask(shmcheck, ["outcomes", "--masked"], script)
    found, last = outcomes_in(printed)
    lines = [line for line in found[0][0] if not line.startswith("1 shmat ")]
    wanted = ["1 shmget 0x00000007 4096 600,creat = ?", "2 shmget 0x00000008 4096 600,creat = ?",
              "2 stat 5 = EINVAL"]
    assert (status, len(found), lines, last) == (0, 1, wanted, "outcomes 1")
    assert any(re.fullmatch(r"1 shmat \d+ null - = \?", line) for line in found[0][0])
    # outcomes that differ in other ways are counted apart
    script = heads + "1 s = shmget 7 4096 600,creat,excl\n2 s = shmget 7 4096 600,creat,excl\n"
    status, printed, _ = ask(shmcheck, ["outcomes", "--masked"], script)
    assert status == 0
    assert printed.endswith("outcomes 2\n")
    assert printed.count(" = EEXIST\n") == 2
    assert printed.count(" = ?\n") == 2
    # the number that an xadd answers is neither an identifier nor an address
    status, printed, _ = ask(shmcheck, ["outcomes", "--masked"], stored("additions.shm"))
    assert status == 0
    assert printed.endswith("outcomes 2\n")


# QUESTIONS

HEADS = "limits 65536 16 64 4 1\nprocess 1 0 0\n"
PAIR = HEADS + "child 2\n1 s = shmget private 4096 600\n1 a = shmat s null -\n1 fork 2\n"
# each process loads a byte and then stores to it
UPDATES = PAIR + "1 load a 1\n1 store a 01\n2 load 0x40000000 1\n2 store 0x40000000 01\n"
# each process takes a lock, by one of two ways, reads a number and writes another, and gives the lock back
LOCKED = PAIR + "".join(f"{pid} cas 0x40000000 00 01\n{pid} load 0x40000001 1\n{pid} store 0x40000001 01\n"
                        f"{pid} store 0x40000000 00\n" for pid in (1, 2))
LOOKED = PAIR + "".join(f"{pid} load 0x40000000 1\n{pid} store 0x40000000 01\n{pid} load 0x40000001 1\n"
                        f"{pid} store 0x40000001 01\n{pid} store 0x40000000 00\n" for pid in (1, 2))
# the parent creates the segment before it forks
BORN = HEADS + "child 2\n1 s = shmget 7 4096 600,creat\n1 fork 2\n2 t = shmget 7 4096 600\n"
REMOVED = HEADS + "1 s = shmget 7 4096 600,creat\n1 rmid s\n1 stat s\n"

ANSWERS: tuple[tuple[str, str, bool], ...] = (
    # store buffering: the processes store, and then each loads what the other stores
    ("store_buffering", r"1:5=00 /\ 2:2=00", False),
    ("store_buffering", r"1:5=00 /\ 2:2=01", True),
    ("store_buffering", r"1:5=01 /\ 2:2=00", True),
    ("store_buffering", r"1:5=01 /\ 2:2=01", True),
    ("store_buffering", r"~(1:5=01 \/ 2:2=01)", False),
    ("store_buffering", r"~1:5=01 \/ ~2:2=01", True),
    ("message_passing", r"2:1=01 /\ 2:2=00", False),
    ("message_passing", r"2:1=01 /\ 2:2=2a", True),
    ("message_passing", r"2:1=00 /\ 2:2=2a", True),
    # an update by load and store can be lost, and one by xadd can't
    (UPDATES, r"1:4=00 /\ 2:1=00", True),
    (UPDATES, r"1:4=01 /\ 2:1=01", False),
    ("additions", r"1:4=0 /\ 2:1=0", False),
    ("additions", r"1:4=1 /\ 2:1=0", True),
    # two processes that both take a lock by cas have it one after the other, and one reads what the other wrote;
    # two that look at a lock and then store to it can have it at the same time
    (LOCKED, r"1:4=00 /\ 2:1=00", True),
    (LOCKED, r"1:4=01 /\ 2:1=01", False),
    (LOCKED, r"1:4=00 /\ 2:1=00 /\ 1:5=00 /\ 2:2=00", False),
    (LOCKED, r"1:4=00 /\ 2:1=00 /\ (1:5=01 \/ 2:2=01)", True),
    (LOOKED, r"1:4=00 /\ 2:1=00 /\ 1:6=00 /\ 2:3=00", True),
    # of two creations with excl just one succeeds
    ("racing_creations", r"1:1=? /\ 2:1=?", False),
    ("racing_creations", r"1:1=EEXIST /\ 2:1=EEXIST", False),
    ("racing_creations", r"~1:1=? /\ ~2:1=EEXIST", True),
    ("racing_creations", r"2:1=0", True),
    ("removal_and_attach", r"2:1=? /\ 2:2=EIDRM", True),
    ("removal_and_attach", r"2:1=ENOENT /\ 2:2=?", False),
    # a child runs after its fork, and nothing after an exit; a call that is not made has no reply
    (BORN, "2:1=ENOENT", False),
    (BORN, "2:1=0", True),
    ("never_born", r"1:2=? \/ 2:1=?", False),
    ("never_born", r"1:2=EINVAL \/ 2:1=ENOENT", False),
    ("never_born", r"1:1=ok /\ ~1:2=? /\ ~2:1=?", True),
    ("two_parents", r"3:1=00", True),
    ("two_parents", r"1:3=ok /\ 3:1=SIGSEGV", False),
    ("two_parents", r"2:1=ok /\ 3:1=SIGSEGV", True),
    # ~ binds first, then /\, then \/
    ("racing_creations", r"~1:1=0 /\ 1:1=0", False),
    ("racing_creations", r"~(1:1=0 /\ 1:1=0)", True),
    ("racing_creations", r"1:1=0 \/ 2:1=0 /\ 2:1=EEXIST", True),
    ("racing_creations", r"(1:1=0 \/ 2:1=0) /\ 2:1=EEXIST /\ 1:1=EEXIST", False),
    ("racing_creations", r"~~1:1=0 /\ ~~~2:1=0", True),
    ("racing_creations", r"((1:1=0)/\(2:1=EEXIST))", True),
    ("racing_creations", r" ( 1:1=0 ) ", True),
    # a word of the reply, with times as 0 or set
    ("times", r"1:2=nattch=0 /\ 1:2=atime=0 /\ 1:2=ctime=set", True),
    ("times", r"1:2=nattch=1", False),
    ("times", r"1:2=nattch", False),
)


# swaps and cas of one or more bytes, and how many outcomes they have
EXCHANGES: tuple[tuple[str, int], ...] = (
    # one of two takes the lock; one of three
    ("1 cas a 00 01\n2 cas 0x40000000 00 01\n", 2),
    ("child 3\n1 fork 3\n1 cas a 00 01\n2 cas 0x40000000 00 01\n3 cas 0x40000000 00 01\n", 3),
    # the later swap returns the bytes of the earlier one, and its own stay
    ("1 swap a 01\n2 swap 0x40000000 02\n", 2),
    # the second expects what the first leaves
    ("1 cas a 00 01\n2 cas 0x40000000 01 02\n", 2),
    # one that finds other bytes than it expects writes none, and shows whether the store came before it
    ("1 cas a ff 01\n2 store 0x40000000 02\n", 2),
    ("1 cas a ff 01\n2 cas 0x40000000 fe 01\n", 1),
    # a swap of the bytes that are there changes none, and returns them in any order
    ("1 swap a 00\n2 swap 0x40000000 00\n", 1),
    # of different bytes
    ("1 swap a 01\n2 cas 0x40000001 00 02\n", 1),
    # of bytes that overlap: 0001 and then nothing, or 0200 and then 01 over its second byte
    ("1 swap a+1 01\n2 cas 0x40000000 0000 0200\n", 2),
)


@pytest.mark.parametrize("lines, count", EXCHANGES)
def test_exchanges(lines: str, count: int, shmcheck: str) -> None:
    """Each list of outcomes has as many as were counted by hand."""
    declared = "".join(line + "\n" for line in lines.splitlines() if line.startswith("child"))
    script = PAIR.replace("child 2\n", "child 2\n" + declared) + lines.removeprefix(declared)
    status, printed, said = ask(shmcheck, ["outcomes"], script)
    assert (status, said, printed.splitlines()[-1]) == (0, "", f"outcomes {count}")


def script_of(name: str) -> str:
    return name if "\n" in name else str(stored(f"{name}.shm"))


@pytest.mark.parametrize("name, condition, possible", ANSWERS)
def test_answers(name: str, condition: str, possible: bool, shmcheck: str, shmsim: str) -> None:
    """The answer, its status by either word, and a schedule that gives the printed lines in ./shmsim."""
    script = script_of(name)
    asked = ask(shmcheck, ["outcomes", "--exists", condition], script)
    assert ask(shmcheck, ["outcomes", "--forbid", condition], script) == (6 if possible else 0, asked.out, "")
    assert (asked.status, asked.said) == (0 if possible else 6, "")
    if not possible:
        assert asked.out == "no\n"
        return
    answer, first, *lines, last, count = asked.out.splitlines()
    schedule = last.split()[1:]
    assert (answer, first, last.split()[0], count) == ("yes", "outcome 1", "schedule", "outcomes 1")
    assert len(schedule) == len(lines)
    ended = ask(shmsim, ["serial", "ram:64"], in_order(script, schedule))
    assert ended.status == 0
    assert sorted(placeless(ended.out, len(schedule))) == sorted(lines)


def test_answer_text(shmcheck: str) -> None:
    """The whole text of an answer."""
    line = "shmget 0x00000007 4096 600,creat,excl ="
    ended = ask(shmcheck, ["outcomes", "--exists", "1:1=EEXIST"], stored("racing_creations.shm"))
    assert ended == (0, f"yes\noutcome 1\n1 {line} EEXIST\n2 {line} 0\nschedule 2 1\noutcomes 1\n", "")


def saying(lines: list[str]) -> str:
    """Returns the condition that these lines of the processes have these replies."""
    parts: list[str] = []
    numbers: dict[str, int] = {}
    for line in lines:
        call, reply = line.split(" = ", 1)
        pid = call.split()[0]
        numbers[pid] = numbers.get(pid, 0) + 1
        parts += [f"{pid}:{numbers[pid]}={word}" for word in reply.split()]
    return r" /\ ".join(parts)


@pytest.mark.parametrize("name", NAMES)
def test_listed_outcomes(name: str, shmcheck: str) -> None:
    """Each outcome of the list is possible, and one outside of the list is not."""
    script = stored(f"{name}.shm")
    found = [lines for lines, _ in outcomes_in(ask(shmcheck, ["outcomes"], script).out)[0]]
    for lines in found:
        ended = ask(shmcheck, ["outcomes", "--exists", saying(lines)], script)
        assert (ended.status, ended.out.splitlines()[2:-2]) == (0, lines)
    other = r" \/ ".join(f"({saying(lines)})" for lines in found)
    assert ask(shmcheck, ["outcomes", "--forbid", f"~({other})"], script) == (0, "no\n", "")


def test_question_bound(shmcheck: str) -> None:
    """No answer is given before all runs are covered: none, 1, 1 2, 2 and 2 1."""
    script = stored("racing_creations.shm")
    for word, status in ("--exists", 6), ("--forbid", 0):
        asked = ["outcomes", word, r"1:1=? /\ 2:1=?", "--at-most"]
        assert ask(shmcheck, [*asked, "5"], script) == (status, "no\n", "")
        said = "shmcheck: undecided: more than 4 runs, no two of them alike\n"
        assert ask(shmcheck, [*asked, "4"], script) == (5, "", said)


def test_question_rules(shmcheck: str) -> None:
    """An identifier that was removed is unknown under Linux's rules."""
    rules: tuple[tuple[list[str], str, str], ...] = (([], "EIDRM", "EINVAL"),
                                                     (["--rules", "linux"], "EINVAL", "EIDRM"))
    for words, reply, other in rules:
        assert ask(shmcheck, ["outcomes", "--exists", f"1:3={reply}", *words], REMOVED).status == 0
        assert ask(shmcheck, ["outcomes", "--exists", f"1:3={other}", *words], REMOVED).status == 6


WRONG: tuple[tuple[str, int, str], ...] = (
    ("", 1, "P:N=REPLY, ~ or ( is missing"),
    ("1:1=0 /\\", 9, "P:N=REPLY, ~ or ( is missing"),
    ("~ /\\ 1:1=0", 3, "P:N=REPLY, ~ or ( is missing"),
    ("()", 2, "P:N=REPLY, ~ or ( is missing"),
    ("1:1=0 2:1=0", 7, "/\\, \\/ or ) is missing"),
    ("1:1=0 ~2:1=0", 7, "/\\, \\/ or ) is missing"),
    ("1:1=0(", 6, "/\\, \\/ or ) is missing"),
    ("1:1=0)", 6, ") without ("),
    ("((1:1=0)", 9, "( without )"),
    ("1:1", 1, "not of the form P:N=REPLY"),
    ("1:1=", 1, "not of the form P:N=REPLY"),
    ("11=0", 1, "not of the form P:N=REPLY"),
    ("a:1=0", 1, "not of the form P:N=REPLY"),
    ("  / 1:1=0", 3, "not of the form P:N=REPLY"),
    ("1:1=0 \\/ x", 10, "not of the form P:N=REPLY"),
    ("3:1=0", 1, "the script declares no such process"),
    ("1:1=0 /\\ 1:2=0", 10, "the process has no such line"),
    ("1:0=0", 1, "the process has no such line"),
)


@pytest.mark.parametrize("condition, at, said", WRONG)
def test_wrong_conditions(condition: str, at: int, said: str, shmcheck: str) -> None:
    """The first fault of a condition."""
    for word in "--exists", "--forbid":
        ended = ask(shmcheck, ["outcomes", word, condition], stored("racing_creations.shm"))
        assert ended == (2, "", f"shmcheck: condition, byte {at}: {said}\n")


def test_question_words(shmcheck: str) -> None:
    """Wrong words, and a wrong script."""
    script = stored("racing_creations.shm")
    wrong = (["outcomes", "--exists"], ["outcomes", "--forbid"],
             ["outcomes", "--exists", "1:1=0", "--masked"],
             ["outcomes", "--exists", "1:1=0", "--forbid", "1:1=0"], ["judge", "a", "--exists", "1:1=0"],
             ["outcomes", "--exists", "1:1=0", "--at-most"], ["sample", "1", "--forbid", "1:1=0"])
    for words in wrong:
        assert ask(shmcheck, words, script) == (2, "", f"shmcheck: usage: {USAGE}\n")
    ended = ask(shmcheck, ["outcomes", "--exists", "1:1=0"], HEADS + "1 shmgt\n")
    assert ended == (1, "", "shmcheck: line 3: bad line\n")


def test_question_page(shmcheck: str) -> None:
    """The questions that docs/OUTCOMES.md shows."""
    page = text_of("docs/OUTCOMES.md").split("## Questions\n")[1].split("\n## ")[0]
    shown = page.split("```")[1].strip().split("$ ./shmcheck ")[1:]
    assert shown
    for command in shown:
        first, *printed = command.splitlines()
        words, path = first.split(" < ")
        word, condition = words.split("'")[0].split()[1], words.split("'")[1]
        ended: Any = ask(shmcheck, ["outcomes", word, condition], text_of(path))
        assert ended.out.splitlines() == printed
