"""Scripts whose processes run at once on the running kernel, and the judge of each run's replies.

The peer makes each script's calls many times, all processes from a common start. For each different log,
./shmcheck judge says whether some order of the calls has its replies under Linux's rules. Linux makes shmat
and the destruction of a segment in several steps, so another process may see the middle of one. EXPLANATIONS
names what can be seen there; a log that has only that is explained.
"""

from __future__ import annotations

import itertools
import os
import random
import re
import subprocess
import sys
import tempfile
from collections import Counter
from collections.abc import Callable, Iterator
from dataclasses import dataclass, field, replace
from typing import Protocol, TypeVar

from .places import TOP
from .running import Stopped, end_group
from .script import DECLARATIONS

JUDGES = ("crates/shmcheck/out/shmcheck", "build/unproved/shmcheck", "bin/shmcheck")
# how far the judge searches if the order of a log's lines does not have its replies
MOST, SECONDS = 4000, 60
LINE = re.compile(r"(\d+) ([a-z]+)((?: \S+)*) = (\S.*)")
SPAN = re.compile(r"# (\d+) (\d+)")
T = TypeVar("T")
# the lines that an explanation allows instead of one line of a log
Changes = Callable[[str, "list[str]"], "list[str]"]
# how many orders of a log's lines are tried before a search
ORDERS = 40
# how many changed logs are tried for one explanation, by the order of their lines and by a search, and for
# all explanations
TRIES, SEARCHES, MIXED = 12, 4, 128


class Peer(Protocol):
    """What makes the calls of a script, and returns a log for each of its runs."""

    def run(self, text: str) -> list[Log]: ...


class Skipped(Exception):
    """The peer can't run a script here."""


@dataclass
class Log:
    """The answers of each process in the order of their ends, and when each call began and ended."""

    lines: list[str] = field(default_factory=list)
    spans: list[tuple[int, int]] = field(default_factory=list)

    @property
    def by_process(self) -> tuple[str, ...]:
        """A key that is the same for all logs with the same replies of each process."""
        return tuple(sorted(self.lines, key=pid_of))

    def orders(self) -> Iterator[list[str]]:
        """Orders that the times allow: that of the ends, and some random ones, the same at each run."""
        yield self.lines
        chance = random.Random(0)
        for _ in range(ORDERS - 1):
            yield [self.lines[place] for place in self.order_by(chance)]

    def order_by(self, chance: random.Random) -> list[int]:
        """A call may be next if it is the first left of its process, and no other call ended before it."""
        left: dict[str, list[int]] = {}
        order: list[int] = []
        for place, line in enumerate(self.lines):
            left.setdefault(pid_of(line), []).append(place)
        while left:
            end = min(self.spans[places[0]][1] for places in left.values())
            pid = chance.choice([it for it, places in left.items() if self.spans[places[0]][0] <= end])
            order.append(left[pid].pop(0))
            left = {it: places for it, places in left.items() if places}
        return order


# ---- scripts ----

USERS = ((0, 0), (100, 100), (100, 200), (200, 100))
BASES = (0x50000000, 0x50004000, 0x50008000)
KEYS = ("0x10", "0x11")
# the most lines of each process, by the number of processes: the judge searches all orders of them
LINES = {2: 6, 3: 4, 4: 3}
WORDS = ("01", "0203", "04050607", "0102030405060708")


class Generator:
    """Processes that create and use segments with the same keys. An identifier is used only as a variable,
    and an address that the system chooses occurs once in a process, because both differ from system to
    system."""

    def __init__(self, seed: str) -> None:
        self.random = random.Random(seed)
        self.users = USERS if self.one_in(4) else (self.random.choice(USERS),)
        self.keys = KEYS[:1 + self.one_in(4)]

    def one_in(self, number: int) -> bool:
        return self.random.randrange(number) == 0

    def pick(self, *values: T) -> T:
        return self.random.choice(values)

    def mode(self) -> str:
        return self.pick("600", "600", "660", "640",
                         "444") if len(self.users) == 1 else self.pick("600", "660", "666", "644", "660")

    def make_shmget(self) -> str:
        flags = self.pick(",creat", ",creat", ",creat", ",creat,excl", ",creat,excl", "")
        size = self.pick(4096, 4096, 4096, 4096, 4096, 8192, 1, 0)
        return f"s = shmget {self.random.choice(self.keys)} {size} {self.mode()}{flags}"

    def make_shmat(self, own: list[int | str]) -> str:
        flags = self.pick("-", "-", "-", "rdonly")
        if "a" not in own and self.one_in(4):
            own.append("a")
            return f"a = shmat s null {flags}"
        base = self.random.choice(BASES)
        own.append(base)
        return f"shmat s {base + 100:#x} rnd" if self.one_in(10) else f"shmat s {base:#x} {flags}"

    def address(self, own: list[int | str], offset: int = 0) -> str:
        at = self.random.choice(own or [*BASES])
        if isinstance(at, int):
            return f"{at + offset:#x}"
        return f"{at}+{offset}" if offset else at

    def base(self, own: list[int | str]) -> int:
        return self.random.choice([it for it in own if isinstance(it, int)] or [*BASES])

    def make_cas(self, own: list[int | str]) -> str:
        """Mostly of a lock, which is zeros while nobody holds it."""
        new = self.random.choice(WORDS)
        expected = self.pick("00" * (len(new) // 2), new)
        return f"cas {self.address(own, self.pick(0, 0, 8))} {expected} {self.pick(new, '00' * (len(new) // 2))}"

    def user(self) -> str:
        return "{} {}".format(*self.random.choice(self.users))

    def calls(self, own: list[int | str]) -> list[tuple[Callable[[], str], int]]:
        """The calls of a process that may have attached at these addresses, each with its weight. Only whole
        attachments are unmapped, which have at most two pages: Linux unmaps a part in several steps. The
        same is true of mprotect: if the attachment is shorter, the page above it is refused."""
        calls: list[tuple[Callable[[], str], int]] = [
            (self.make_shmget, 1), (lambda: "stat s", 3), (lambda: f"set s {self.user()} {self.mode()}", 1),
            (lambda: "rmid s", 2), (lambda: self.make_shmat(own), 2 if own else 8)]
        if own:
            calls += [
                (lambda: f"shmdt {self.address(own)}", 2), (lambda: f"munmap {self.base(own):#x} 16384", 1),
                (lambda: f"mprotect {self.base(own):#x} {self.pick(8192, 16384)} {self.pick('ro', 'rw')}", 2)]
        if len(self.users) > 1:
            calls += [(lambda: f"setuid {self.user()}", 1)]
        if own:
            calls += [
                (lambda: f"load {self.address(own, self.pick(0, 8))} {self.pick(1, 2, 4, 8, 8)}", 4),
                (lambda: f"store {self.address(own, self.pick(0, 8))} {self.random.choice(WORDS)}", 4),
                (lambda: f"xadd {self.address(own, self.pick(0, 0, 8))} {self.pick(1, 1, 255, 2 ** 64 - 1)}", 4),
                (lambda: f"swap {self.address(own, self.pick(0, 8))} {self.random.choice(WORDS)}", 2),
                (lambda: self.make_cas(own), 4)]
        return calls

    def lines(self, pid: int, count: int) -> list[str]:
        """The lines of a process; `own` are the addresses where it may have attached."""
        own: list[int | str] = []
        lines: list[str] = []
        for number in range(count):
            makes, weights = zip(*self.calls(own))
            make = self.random.choices(makes, weights)[0] if number else self.make_shmget
            lines.append(f"{pid} {make()}")
        return lines

    def script(self) -> str:
        pids = range(1, self.pick(2, 2, 3, 3, 4) + 1)
        most = LINES[len(pids)]
        users = [self.random.choice(self.users) for _ in pids]
        heads = ["limits 65536 16 64 16 4"] + [f"process {pid} {uid} {gid}" for pid,
                                               (uid, gid) in zip(pids, users)]
        return "\n".join(heads + [line for pid in pids
                                  for line in self.lines(pid, self.random.randint(3, most))]) + "\n"


def make_script(seed: str, number: int) -> str:
    """The script with this number of this seed; it is the same at each run."""
    return Generator(f"at once/{seed}/{number}").script()


def calls_of(text: str) -> Counter[str]:
    """The number of lines of each process of a script."""
    firsts = [line.split()[0] for line in text.splitlines() if line.split() and not line.startswith("#")]
    return Counter(first for first in firsts if first not in (*DECLARATIONS, "0"))


# ---- the peer ----

class RacingPeer:
    """A command that runs a script's processes at once."""

    def __init__(self, words: list[str], runs: int, limit: int) -> None:
        self.words = [*words, "--limit", str(limit), "--at-once", str(runs)]
        self.runs, self.limit = runs, limit

    def run(self, text: str) -> list[Log]:
        """The logs of a script, one for each run."""
        process = subprocess.Popen(self.words, stdin=subprocess.PIPE, stdout=subprocess.PIPE,
                                   stderr=subprocess.PIPE,
                                   start_new_session=True)
        try:
            said, errors = process.communicate(text.encode(), timeout=(self.runs + 1) * self.limit)
        except subprocess.TimeoutExpired:
            raise Stopped(f"the peer did not end within {(self.runs + 1) * self.limit} seconds") from None
        finally:
            end_group(process)
        message = [line for line in errors.decode(errors="replace").splitlines()
                   if " note: " not in line][-1:] or ["it printed no message"]
        if process.returncode == 4 and "skipped: " in message[0]:
            raise Skipped(message[0].partition("skipped: ")[2])
        if process.returncode:
            raise Stopped(f"the peer ended with status {process.returncode}: {message[0]}")
        return self.read(said.decode("ascii", "replace"), calls_of(text))

    def read(self, said: str, calls: Counter[str]) -> list[Log]:
        logs: list[Log] = []
        for line in said.splitlines():
            span = SPAN.fullmatch(line)
            if line == f"# run {len(logs) + 1}":
                logs.append(Log())
            elif logs and span:
                logs[-1].spans.append((int(span[1]), int(span[2])))
            elif logs and LINE.fullmatch(line):
                logs[-1].lines.append(line)
            else:
                raise Stopped(f"the peer printed a line that is not one of a log: {line[:80]!r}")
        if len(logs) != self.runs:
            raise Stopped(f"the peer printed {len(logs)} logs of {self.runs} runs")
        for log in logs:
            if Counter(pid_of(line) for line in log.lines) != calls or len(log.spans) != len(log.lines):
                raise Stopped(f"the peer printed a log that does not have each line of the script once: "
                              f"{log.lines}")
        return logs


def pid_of(line: str) -> str:
    return line.split()[0]


def call_of(line: str) -> str:
    found = LINE.fullmatch(line)
    return found[2] if found else ""


def reply_of(line: str) -> str:
    return line.rpartition(" = ")[2] if "key=" not in line else line.partition(" = ")[2]


# ---- the judge ----

def find_judge(command: str | None) -> list[str] | None:
    """The judge's command, or none if it is not built."""
    if command:
        return command.split()
    return next(([path] for path in (os.path.join(TOP, it) for it in JUDGES) if os.path.isfile(path)), None)


class Judge:
    """./shmcheck judge, or another command with the same words."""

    def __init__(self, words: list[str]) -> None:
        self.words = words

    def verdict(self, text: str, lines: list[str], most: int = MOST) -> tuple[str, str]:
        """`legal`, `illegal` or `undecided`, and the judge's output. The order of the lines comes first."""
        with tempfile.NamedTemporaryFile("w", encoding="ascii", prefix="conform.") as file:
            file.write("\n".join(lines) + "\n")
            file.flush()
            words = [*self.words, "judge", file.name, "--rules", "linux", "--at-most", str(most)]
            try:
                done = subprocess.run(words, input=text.encode(), capture_output=True, timeout=SECONDS,
                                      check=False)
            except subprocess.TimeoutExpired:
                return "undecided", f"no verdict in {SECONDS} seconds"
            except OSError as error:
                raise Stopped(f"the judge was not started: {error}") from None
        said, errors = (it.decode(errors="replace") for it in (done.stdout, done.stderr))
        word = {0: "legal", 5: "undecided", 6: "illegal"}.get(done.returncode)
        if word is None or not is_verdict(word, said, lines):
            raise Stopped(f"the judge ended with status {done.returncode}: "
                          f"{(errors or said).strip()[:300]!r}")
        return word, said

    def find_order(self, text: str, log: Log) -> str:
        """The judge's output on a log if one of the orders that its times allow is legal; or nothing."""
        tried = (self.verdict(text, lines, 1) for lines in log.orders())
        return next((said for word, said in tried if word == "legal"), "")


def is_verdict(word: str, said: str, lines: list[str]) -> bool:
    """Whether the judge's output fits its status: `legal` is followed by an order of all lines of the log."""
    if word == "legal":
        order = re.fullmatch(r"legal\nschedule((?: \d+)*)\n", said)
        return order is not None and Counter(order[1].split()) == Counter(pid_of(line) for line in lines)
    return said.startswith("illegal\n") if word == "illegal" else said == ""


# ---- what Linux shows of a call under way ----

def attachers(lines: list[str], but: str) -> set[str]:
    """The other processes that attach a segment given to them."""
    calls = {(pid_of(line), call_of(line), reply_of(line) == "?") for line in lines}
    attaching = {pid for pid, call, _ in calls if call == "shmat"}
    return (attaching & {pid for pid, call, is_given in calls if call == "shmget" and is_given}) - {but}


def has_removal(lines: list[str], but: str) -> bool:
    """Whether another process may destroy a segment: by its rmid, or by a detach or a munmap of a segment that
    any rmid marked."""
    others = {call_of(line) for line in lines if pid_of(line) != but}
    return "rmid" in others or ({"shmdt", "munmap"} & others != set() and any(call_of(line) == "rmid" for line in lines))


def with_fewer_attached(line: str, lines: list[str]) -> list[str]:
    """The replies of a stat with each smaller nattch that attaches under way explain."""
    found = re.fullmatch(r"(.* nattch=)(\d+)( .*)", line)
    if not found:
        return [line]
    return [f"{found[1]}{int(found[2]) - less}{found[3]}"
            for less in range(min(len(attachers(lines, pid_of(line))), int(found[2])) + 1)]


def with_any_segment(line: str, lines: list[str]) -> list[str]:
    """A marked segment without attachments: it exists while a shmat of it is under way."""
    if " status=dest" in line and attachers(lines, pid_of(line)):
        return [line, line.partition(" = ")[0] + " = ?"]
    return [line]


def with_marks(line: str, lines: list[str]) -> list[str]:
    """The reply of a stat with the attach time and the last pid that each attach under way will set."""
    found = re.fullmatch(r"(.* lpid=)\d+( nattch=[1-9]\d* atime=)\w+( .*)", line)
    if not found:
        return [line]
    return [line] + [f"{found[1]}{pid}{found[2]}set{found[3]}"
                     for pid in sorted(attachers(lines, pid_of(line)))]


def with_no_identifier(line: str, lines: list[str]) -> list[str]:
    """EIDRM shows that the segment was destroyed between two steps of the call."""
    if line.endswith(" = EIDRM") and has_removal(lines, pid_of(line)):
        return [line, line.replace(" = EIDRM", " = EINVAL")]
    return [line]


EXPLANATIONS = (
    ("nattch counts an attach under way", with_fewer_attached),
    ("removed between two steps of a call", with_no_identifier),
    ("marked while an attach is under way", with_any_segment),
    ("an attach under way has no time yet", with_marks),
)


def changed_logs(log: Log, changes_of: Changes) -> Iterator[Log]:
    """The log with replies changed as an explanation allows, those with few changes first."""
    choices = [changes_of(line, log.lines) for line in log.lines]
    places = sorted(itertools.islice(itertools.product(*(range(len(it)) for it in choices)), 1000), key=sum)
    for chosen in places[1:]:
        yield replace(log, lines=[it[place] for it, place in zip(choices, chosen)])


def mixed_logs(log: Log) -> Iterator[tuple[Log, str]]:
    """The same with the names of explanations, if each line may have its own: the fewest first."""
    choices = [[(line, "")] + [(other, name) for name,
                               changes_of in EXPLANATIONS for other in changes_of(line, log.lines)[1:]]
               for line in log.lines]
    mixed = itertools.islice(itertools.product(*choices), 4000)
    named = [(chosen, {name for _, name in chosen} - {""}) for chosen in mixed]
    for chosen, names in sorted(named, key=lambda it: (len(it[1]), sum(name != "" for _, name in it[0]))):
        if names:
            yield replace(log, lines=[line for line, _ in chosen]), " and ".join(sorted(names))


def explanation_of(text: str, log: Log, tries: int, is_legal: Callable[[str, Log], object]) -> str:
    """The explanation of a log, or nothing: a legal log differs only in what the explanation allows."""
    for name, changes_of in EXPLANATIONS:
        if any(is_legal(text, other) for other in itertools.islice(changed_logs(log, changes_of), tries)):
            return name
    return ""


def judge_log(judge: Judge, text: str, log: Log) -> tuple[str, str, str]:
    """The verdict on a log, its explanation, and the judge's output. It first tries orders that the times
    allow, because an order is judged at once. Only a log that the search of all orders does not find legal is
    explained."""
    said = judge.find_order(text, log)
    word, said = ("legal", said) if said else judge.verdict(text, log.lines)
    if word == "legal":
        return word, "", said

    def is_legal(text: str, other: Log) -> bool:
        return judge.verdict(text, other.lines)[0] == "legal"

    name = explanation_of(text, log, TRIES, judge.find_order) or explanation_of(text, log, SEARCHES, is_legal)
    if not name:
        mixed = itertools.islice(mixed_logs(log), MIXED)
        name = next((names for other, names in mixed if is_legal(text, other)), "")
    return "explained" if name else word.replace("illegal", "ILLEGAL"), name, said


# ---- all scripts ----

class Tally:
    """The counts of a run."""

    def __init__(self) -> None:
        self.scripts = 0
        self.logs: Counter[str] = Counter()
        self.judged: Counter[str] = Counter()
        self.explained: Counter[str] = Counter()
        self.skipped: Counter[str] = Counter()

    def take(self, word: str, runs: int) -> None:
        self.logs[word] += 1
        self.judged[word] += runs

    def lines(self) -> Iterator[str]:
        words = ("legal", "explained", "ILLEGAL", "undecided", "skipped")
        for title, counts in (("runs", self.judged), ("different logs", self.logs)):
            yield f"{title}: {sum(counts.values())}, " + ", ".join(f"{word} {counts[word]}" for word in words)
        for title, counts in (("explained", self.explained), ("skipped", self.skipped)):
            for name, count in sorted(counts.items()):
                yield f"  {title}: {name}: {count}"

    @property
    def status(self) -> int:
        return 1 if self.logs["ILLEGAL"] or self.logs["undecided"] else 0


def told(title: str, text: str, lines: list[str], said: str) -> str:
    """A log that is not legal, with its script and the judge's output."""
    parts = (("the script", text.splitlines()), ("the log", lines), ("the judge", said.splitlines()))
    return "\n".join([title] + [line for name,
                                lines in parts for line in (f"  {name}:", *("    " + it for it in lines))])


def judge_script(tally: Tally, peer: Peer, judge: Judge, title: str, text: str) -> None:
    """Runs one script and judges each different log."""
    logs: dict[tuple[str, ...], Log] = {}
    runs: Counter[tuple[str, ...]] = Counter()
    for log in peer.run(text):
        logs.setdefault(log.by_process, log)
        runs[log.by_process] += 1
    for key, log in logs.items():
        unmade = next((line for line in log.lines if reply_of(line).startswith("skipped: ")), "")
        if unmade:
            tally.take("skipped", runs[key])
            tally.skipped[reply_of(unmade)[len("skipped: "):]] += 1
            continue
        word, name, said = judge_log(judge, text, log)
        tally.take(word, runs[key])
        if name:
            tally.explained[name] += 1
        elif word != "legal":
            print(told(f"{title}: {word}", text, log.lines, said), flush=True)


def show_progress(done: int, count: int) -> None:
    """On a terminal one line says how many scripts are done; it is written over, and gone at the end."""
    if sys.stderr.isatty():
        line = f"at-once: {done} of {count} scripts" if done < count else ""
        print(f"\r\33[K{line}", end="", file=sys.stderr, flush=True)


def run_at_once(peer: RacingPeer, judge: Judge, count: int, seed: str) -> int:
    """Judges `count` random scripts. Returns the exit status."""
    tally = Tally()
    for number in range(count):
        show_progress(number, count)
        title = f"script {number} of seed {seed}"
        try:
            judge_script(tally, peer, judge, title, make_script(seed, number))
            tally.scripts += 1
        except Skipped as reason:
            tally.skipped[f"{reason}, whole scripts"] += 1
        except Stopped as error:
            raise Stopped(f"{title}: {error}") from None
    show_progress(count, count)
    print(f"scripts: {tally.scripts} run, {count - tally.scripts} skipped")
    print("\n".join(tally.lines()))
    return tally.status
