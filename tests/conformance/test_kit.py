"""The kit itself: malformed cases, citations, the list, TAP and JUnit XML, and odd replies. No program of the
project runs; a small script answers instead."""

from __future__ import annotations

import contextlib
import io
import os
import re
import sys
import xml.etree.ElementTree as xml
from typing import Any

import pytest

from commands import TOP, Conform, environment, run, text_of, write_file
from nogconform import running
from nogconform.compare import Result
from nogconform.generator import make_script
from nogconform.places import CASES, names_in
from nogconform.results import Outcome, Results, junit_of
from nogconform.script import BadInput, read_case

HEAD = "limits 4096 1 1 2 0\nprocess 1 1 1\n"
RULE = "# A segment. profile\n"
RIGHT = HEAD + RULE + "1 shmget private 1 600\n#= 0\n"
EVENT = "1 1 shmget 0x00000000 1 600 = 0"
AREAS = "no swap area: ram:N, sparse:N, mirror:N, fuse:N:rK or fuse:N:wK, N from 1 to 268435456"
SWAP = "the line is #swap and 1 to 8 areas, as #swap ram:64 sparse:65536"
NO_RULE = ("no comment above it names the rule and its source, as POSIX shmat(), POSIX.1-2017, page 1384, "
           "shmop(2) or profile")
ALONE = "a flag that only the C library has: run the case with --library"
NO_PEER = "the peer was not started: no such command: /nosuch/peer"
NO_SOURCE = ("no comment above it names the source of Linux's reply, as observed on Linux 6.18, or Linux: "
             "shmget(2)")
LINUX = "# Under Linux's rules 1: observed on Linux 6.18\n"
# each malformed case with the expected message
MALFORMED = (
    ("limits 4096 x 1 2 0\n", "c.shm: line 1: 'x': bad line, allowed here: a number"),
    ("limits 4096 1 1 2\n", "c.shm: line 1: "),
    ("", "c.shm: line 1: no limits line"),
    ("sizes 1 1\n" + HEAD, "c.shm: line 1: '1': bad line, allowed here: sizes PIECES PROCESSES SLOTS"),
    ("sizes 0 1 1\n" + HEAD, "c.shm: line 1: '0': bad limits 6, allowed here: PIECES is from 1 to 65530"),
    (HEAD + "sizes 1 1 1\n", "c.shm: line 3: 'sizes': bad line, allowed here: one sizes line"),
    ("size 1 1 1\n" + HEAD, "c.shm: line 1: 'size': no limits line, allowed here: limits SHMMAX"),
    ("size 1 1 1\n" + HEAD, "; nearest form: sizes"),
    (HEAD + RULE + "1 shmgt private 1 600\n#= 0\n",
     "c.shm: line 4: 'shmgt': bad line, allowed here: a call: "),
    (HEAD + RULE + "1 shmgt private 1 600\n#= 0\n", "; nearest form: shmget"),
    (HEAD + RULE + "2 exit\n#= ok\n", "c.shm: line 4: '2': unknown process"),
    (HEAD + "# \xe9\n", "c.shm: line 3: '\xe9': bad byte"),
    (RIGHT + "#= 0\n", "c.shm: line 6: '#=': a reply without a command of its own above it"),
    (HEAD + "#= 0\n", "c.shm: line 3: '#=': a reply without a command of its own above it"),
    (HEAD + RULE + "1 exit\n#=\n", "c.shm: line 5: '#=': no reply is given after it"),
    (HEAD + RULE + "1 exit\n", "c.shm: line 4: '1 exit': no reply is given below it, as #= ok"),
    (HEAD + "1 exit\n#= ok\n", "c.shm: line 3: '1 exit': " + NO_RULE),
    (HEAD + "# A rule. page 12\n1 exit\n#= ok\n", "c.shm: line 4: '1 exit': " + NO_RULE),
    (HEAD + "# A rule. POSIX.1-2017\n1 exit\n#= ok\n", "c.shm: line 4: '1 exit': " + NO_RULE),
    (RIGHT + "#linux= 1\n", "c.shm: line 4: '1 shmget private 1 600': " + NO_SOURCE),
    (HEAD + "#linux= 0\n", "c.shm: line 3: '#linux=': a reply without a command of its own above it"),
    (HEAD + RULE + "1 exit\n#linux= ok\n",
     "c.shm: line 5: '#linux=': a reply of Linux without a line #= above it"),
    (HEAD + LINUX + RIGHT[len(HEAD):] + 2 * "#linux= 1\n",
     "c.shm: line 8: '#linux=': a reply without a command of its own above it"),
    (HEAD + LINUX + RIGHT[len(HEAD):] + "#linux=\n", "c.shm: line 7: '#linux=': no reply is given after it"),
    (HEAD, "c.shm: no command"),
    ("#swap disk\n" + RIGHT, "c.shm: line 1: 'disk': " + AREAS),
    ("#swap ram:0\n" + RIGHT, "c.shm: line 1: 'ram:0': " + AREAS),
    ("#swap ram:1 ram:268435457\n" + RIGHT, "c.shm: line 1: 'ram:268435457': " + AREAS),
    ("#swap fuse:4\n" + RIGHT, "c.shm: line 1: 'fuse:4': " + AREAS),
    ("#swap fuse:4:r0\n" + RIGHT, "c.shm: line 1: 'fuse:4:r0': " + AREAS),
    ("#swap\n" + RIGHT, "c.shm: line 1: '#swap': " + SWAP),
    ("#swap" + 9 * " ram:1" + "\n" + RIGHT, "c.shm: line 1: '#swap': " + SWAP),
    ("#swaps ram:1\n" + RIGHT, "c.shm: line 1: '#swaps': " + SWAP),
    (HEAD.replace("process", "rules linux\nprocess"),
     "c.shm: line 2: 'rules': the kit chooses the rules: --rules linux, or none of them"),
)
# the kit's own flags: lines that are valid, and lines that are not
FLAGGED = (
    (True, "1 shmat 0 null exec", ""),
    (True, "1 a = shmat 0 null rnd,exec,rdonly", ""),
    (True, "1 shmget private 1 600,hugetlb,creat,noreserve", ""),
    (True, "1 shmat 0 null -,exec",
     "c.shm: line 4: '-,exec': bad line, allowed here: -, or rnd, remap and rdonly with commas between "
     "them, each at most once; with --library also exec"),
    (True, "1 shmat 0 null exec,exec", "c.shm: line 4: 'exec,exec': bad line"),
    (True, "1 shmat 0 null hugetlb", "c.shm: line 4: 'hugetlb': bad line"),
    (True, "1 shmget private 1 600,exec", "c.shm: line 4: '600,exec': bad line"),
    (True, "1 shmget private 1 hugetlb,600", "; with --library also hugetlb and noreserve"),
    (True, "1 shmget private 1 hugetlb", "c.shm: line 4: 'hugetlb': bad line"),
    (False, "1 shmat 0 null rnd,exec", "c.shm: line 4: 'exec': " + ALONE),
    (False, "1 s = shmget private 1 600,creat,noreserve", "c.shm: line 4: 'noreserve': " + ALONE),
    (False, "1 shmat 0 null hugetlb",
     "allowed here: -, or rnd, remap and rdonly with commas between them, each at most once"),
    (False, "# 1 shmat 0 null exec\n1 exit", ""),
    (False, "1 mprotect null 4096 r", "c.shm: line 4: 'r': bad line, allowed here: ro or rw"),
    (False, "1 unmaps 0 1",
     "allowed here: a call: shmget, shmat, shmdt, munmap, mprotect, load, store, xadd, swap, cas, stat, set, "
     "rmid, lock, unlock, fork, exec, exit, setuid, swapoff; nearest form: munmap"),
)
CITED = ("POSIX.1-2017, page 1384", "POSIX.1-2017 page 1384", "POSIX shmget()", "POSIX.1-2017, shmget()",
         "POSIX <sys/shm.h>",
         "shmop(2), ERRORS", "profile")
LINUX_CITED = ("observed on Linux 6.18", "observed on Linux 7.0", "Linux: shmctl(2), ERRORS")
LINUX_UNCITED = ("observed on Linux", "as Linux has it", "shmctl(2)", "Linux 6.18", "profile")
TAP = """TAP version 13
1..6
ok 1 - right: agree
not ok 2 - bad: MALFORMED: {0}/bad.shm: line 3: '1 exit': {1}
not ok 3 - other: FAILS: the program gives another reply than the rule
#     line 4: 1 1 shmget 0x00000000 1 600
#         here  0
#         case  1
#         rule  A # segment. profile
not ok 4 - broken: STOPPED: {0}/broken.out: not an event line: 'hello'
ok 5 - missing # SKIP there is no {0}/missing.out
ok 6 - undone # SKIP no command can be made there
# cases: FAILS 1, MALFORMED 1, STOPPED 1, agree 1, skipped 2
# commands: 3 compared, agree 1, profile 0, DIFFER 0, skipped 2
#   skipped: no record of the case: 1
#   skipped: none: 1
# MOSTLY SKIPPED: 2 of 3 commands were not compared: no record of the case (1), none (1)
"""
JUNIT = (("right", None, ""), ("bad", "error", "MALFORMED"), ("other", "failure", "FAILS"),
         ("broken", "error", "STOPPED"),
         ("missing", "skipped", None), ("undone", "skipped", None))


def said_of(text: str, has_flags: bool = False) -> str:
    try:
        read_case("c.shm", text, has_flags=has_flags)
    except BadInput as error:
        return str(error)
    return ""


@pytest.mark.parametrize("text, wanted", MALFORMED)
def test_malformed(text: str, wanted: str) -> None:
    """A malformed case is refused with its line and the cause."""
    assert wanted in said_of(text)


def test_sizes_line() -> None:
    """A case may have a sizes line, which is no command."""
    case = read_case("c", "sizes 300 70 65536\n" + RIGHT)
    assert (case.sizes, case.limits, len(case.commands)) == ([300, 70, 65536], [4096, 1, 1, 2, 0], 1)


@pytest.mark.parametrize("has_flags, line, wanted", FLAGGED)
def test_flags_of_the_kit(has_flags: bool, line: str, wanted: str) -> None:
    said = said_of(HEAD + RULE + line + "\n#= ok\n", has_flags)
    assert (said == wanted == "" or wanted != "" and wanted in said
            and ("swapoff" not in wanted or said.endswith(wanted)))


@pytest.mark.parametrize("source", CITED)
def test_cited(source: str) -> None:
    assert said_of(RIGHT.replace("profile", source)) == ""


@pytest.mark.parametrize("source", LINUX_CITED + LINUX_UNCITED)
def test_cited_for_linux(source: Any) -> None:
    said = said_of(HEAD + f"# {source}\n" + RIGHT[len(HEAD):] + "#linux= 1\n")
    assert NO_SOURCE in said if source in LINUX_UNCITED else said == ""


def write_cases(folder: str) -> tuple[list[str], list[str]]:
    """Cases with each kind of result, a program that gives one reply, and a folder of the peer's output."""
    program = write_file(folder, "one_reply", f"#!/bin/sh\necho '{EVENT}'\n", 0o755)
    paths = [write_file(folder, "right.shm", RIGHT), write_file(folder, "bad.shm", HEAD + "1 exit\n"),
             write_file(folder, "other.shm", RIGHT.replace("= 0", "= 1").replace("A seg", "A # seg")),
             write_file(folder, "broken.shm", RIGHT), write_file(folder, "missing.shm", RIGHT),
             write_file(folder, "undone.shm", RIGHT)]
    write_file(folder, "right.out", EVENT + "\n")
    write_file(folder, "other.out", EVENT + "\n")
    write_file(folder, "broken.out", "hello\n")
    write_file(folder, "undone.out", "1 1 shmget 0x00000000 1 600 = skipped: none\n")
    return ["--program", program, "--replies", folder], paths


def test_results(folder: str, conform: Conform) -> None:
    """Malformed cases do not keep the others from running, in every form of the results."""
    words, paths = write_cases(folder)
    status, said = conform(*words, *paths)
    order = re.findall(r"^(\w+): (agree|MALFORMED|FAILS|STOPPED|skipped)(?:$|: )", said, re.M)
    assert status == 3
    assert order == [("right", "agree"), ("bad", "MALFORMED"), ("other", "FAILS"), ("broken", "STOPPED"),
                     ("missing", "skipped"), ("undone", "skipped")]
    status, said = conform(*words, paths[1], paths[0])
    assert status == 2
    assert said.startswith(f"bad: MALFORMED: {paths[1]}: ")
    assert "\nright: agree\ncases: MALFORMED 1, agree 1\n" in said
    file = os.path.join(folder, "results.xml")
    status, said = conform("--tap", "--junit", file, *words, *paths)
    assert (status, said) == (3, TAP.format(folder, NO_RULE))
    check_junit(file)
    assert conform("--tap", *words, paths[0])[0] == 0


def suite_of(root: xml.Element) -> xml.Element:
    suite = root.find("testsuite")
    assert suite is not None
    return suite


def check_junit(file: str) -> None:
    suite = suite_of(xml.parse(file).getroot())
    wanted = {"name": "conformance", "tests": "6", "failures": "1", "errors": "2", "skipped": "2"}
    assert {**suite.attrib, "time": ""} == {**wanted, "time": ""}
    got = []
    for test in suite.findall("testcase"):
        below = next((it for it in test if it.tag != "system-out"), None)
        got.append((test.get("name"), None, "") if below is None
                   else (test.get("name"), below.tag, below.get("type")))
    assert tuple(got) == JUNIT
    text = suite.find("testcase[@name='other']/failure")
    assert text is not None
    assert "case  1" in (text.text or "")
    assert text.get("message", "").startswith("other: FAILS")


def test_odd_text(folder: str, conform: Conform) -> None:
    """Marks of TAP, and characters that XML does not allow, do not break the results. The results have each
    case's time."""
    file, path = os.path.join(folder, "odd.xml"), write_file(folder, "odd#1.shm", HEAD + "1 sh\x01\n")
    status, said = conform("--program", "true", "--tap", "--junit", file, path)
    line = next((it for it in said.splitlines() if it.startswith("not ok")), "")
    assert status == 2
    assert "odd\\#1: MALFORMED" in line
    assert not re.search(r"(?<!\\)#", line)
    assert [it.get("name") for it in suite_of(xml.parse(file).getroot())] == ["odd#1"]
    results, outcome = Results(), Outcome("odd", "STOPPED", "half a line: \x01 <&>")
    results.began -= 5
    with contextlib.redirect_stdout(io.StringIO()):
        results.take(outcome)
        results.take(Outcome("soon", "agree", ""))
    suite = suite_of(xml.fromstring(junit_of(results.outcomes).partition("\n")[2]))
    assert [it.get("message")
            for it in suite.findall("testcase/error")] == ["odd: STOPPED: half a line: ? <&>"]
    times = [float(it.get("time", "0")) for it in (suite, *suite.findall("testcase"))]
    assert len(times) == 3
    assert 5 <= times[1] < 3600
    assert times[2] < 5
    assert abs(times[0] - times[1] - times[2]) < 0.01


def test_own_program(folder: str, monkeypatch: Any) -> None:
    """Only the project's own program is started before the first case, so that its build has no limit."""
    log = os.path.join(folder, "log")
    own = write_file(folder, "shmsim", f"#!/bin/sh\necho \"$@\" >> {log}\nexit $(cat {folder}/status)\n",
                     0o755)
    other = write_file(folder, "other", f"#!/bin/sh\necho other >> {log}\n", 0o755)
    monkeypatch.setattr(running, "TOP", folder)
    for words, status, ran in (([own, "--unproved"], 0, "--unproved serial ram:1\n"), ([other], 0, "")):
        write_file(folder, "log", "")
        write_file(folder, "status", str(status))
        running.start_own_program(words)
        assert text_of(log) == ran
    write_file(folder, "status", "5")
    with pytest.raises(running.Stopped,
                       match="the program ended with status 5 over a script without commands"):
        running.start_own_program([own])


@pytest.mark.parametrize("agree, by_rule, different, wanted", [
    (0, {}, [], "skipped"), (1, {}, [], "agree"), (0, {"a rule": 1}, [], "profile"),
    (1, {"a rule": 1}, [], "profile"),
    (1, {}, ["a reply"], "DIFFER"), (1, {"a rule": 1}, ["a reply"], "DIFFER")
])
def test_word(agree: int, by_rule: dict[str, int], different: list[Any], wanted: str) -> None:
    """The word for a case: a difference is DIFFER, whatever else the rules of the profile explain."""
    assert Result(agree=agree, by_rule=by_rule, different=different).word == wanted


# words of which one would be ignored, or that are wrong, with the only line that is printed
REFUSED = (
    ("--rules linux --program X",
     "--program and --rules linux exclude each other: only the library follows Linux's rules"),
    ("--program X --rules linux sizes",
     "--program and --rules linux exclude each other: only the library follows Linux's rules"),
    ("--library --program X", "--program and --library exclude each other: each names what is tested"),
    ("--program X --library=/nosuch random 1 1",
     "--program and --library exclude each other: each names what is tested"),
    ("--no-peer --peer X",
     "--peer and --no-peer exclude each other: the one asks for a peer, the other for none"),
    ("--no-peer --replies /", "--replies and --no-peer exclude each other: the replies are a peer's"),
    ("--no-peer --shared",
     "--shared and --no-peer exclude each other: it is the peer that is in a namespace"),
    ("--no-peer --seconds", "--seconds and --no-peer exclude each other: it is the peer that waits"),
    ("--replies / --peer X", "--peer and --replies exclude each other: the replies are there already"),
    ("--replies / --shared", "--shared and --replies exclude each other: the replies are there already"),
    ("--runs 3 sizes", "--runs is not for cases"), ("--judge X", "--judge is not for cases"),
    ("random 1 1 --no-peer", "--no-peer is not for random scripts"),
    ("random 1 1 --replies /", "--replies is not for random scripts"),
    ("random 1 1 --runs 3", "--runs is not for random scripts"),
    ("random 1 1 --judge X", "--judge is not for random scripts"),
    ("random 1 1 --tap", "--tap is not for random scripts"),
    ("random 1 1 --junit X", "--junit is not for random scripts"),
    ("--program X at-once 1 1", "--program is not for at-once scripts"),
    ("--library at-once 1 1", "--library is not for at-once scripts"),
    ("--rules linux at-once 1 1", "--rules is not for at-once scripts"),
    ("--seconds at-once 1 1", "--seconds is not for at-once scripts"),
    ("--replies / at-once 1 1", "--replies is not for at-once scripts"),
    ("--junit X at-once 1 1", "--junit is not for at-once scripts"),
    *((f"--list {words}", f"{words.split()[0]} is not for --list") for words in (
        "--program X", "--no-peer", "--shared", "--seconds", "--limit 3", "--replies /", "--runs 3",
        "--judge X", "--tap", "--junit X",
        "--peer X")),
    ("--tap --tap", "--tap is given twice"), ("--program X --program Y", "--program is given twice"),
    ("--library --library=X", "--library is given twice"), ("--limit 3 --limit 4", "--limit is given twice"),
    *((f"{word} {rest}", f"{word} takes a count and a seed, numbers from 1 and from 0: {word} {rest}")
      for word in ("random", "at-once")
      for rest in ("x 1", "1 x", "1", "1 2 3", "0 1", "1 1.5", "+1 1", "1 \u0662")),
    ("--limit x", "--limit takes whole seconds from 1 to 86400: x"),
    ("--limit 0", "--limit takes whole seconds from 1 to 86400: 0"),
    ("--limit \u00b2", "--limit takes whole seconds from 1 to 86400: \u00b2"),
    ("--limit 86401", "--limit takes whole seconds from 1 to 86400: 86401"),
    ("--runs 1000001 at-once 1 1", "--runs takes a number from 1 to 1000000: 1000001"),
    ("--library=", "--library= takes a folder"), ("--rules posix", "--rules takes profile or linux: posix"),
    ("--replies /nosuch", "--replies takes a folder; there is no such folder: /nosuch"),
    ("nosuch random 1 1", "no such case: nosuch"),
    ("--peer", "--peer takes a command"), ("--nosuch", "unrecognized arguments: --nosuch"),
)
EMPTY = ((["--program", ""], "--program takes a command"),
         (["--judge", " ", "at-once", "1", "1"], "--judge takes a command"),
         (["--junit", ""], "--junit takes a file"))


@pytest.fixture(scope="module")
def no_tools(tmp_path_factory: Any) -> Any:
    """An environment whose compiler and toolchain fail, and note that they were started."""
    folder = str(tmp_path_factory.mktemp("tools"))
    for tool in ("cc", "rt"):
        write_file(folder, tool, f"#!/bin/sh\necho {tool} >> {folder}/log\nexit 1\n", 0o755)
    return environment(PATH=folder + os.pathsep + os.environ["PATH"], LOG=f"{folder}/log")


@pytest.mark.parametrize("words, told", [
    *((text.split(), told) for text, told in REFUSED), *EMPTY
])
def test_refused(no_tools: Any, words: Any, told: Any) -> None:
    """A word that would be ignored, or is wrong, is refused before anything is built, run or printed."""
    assert run([os.path.join(TOP, "conform"), *words], env=no_tools) == (2, "", f"conform: {told}\n")
    assert not os.path.exists(no_tools["LOG"])


# the replies to three commands, and the last line of the comparison if more than half of them is skipped
MADE = ["1 1 shmget 0x00000000 1 600 = 0", "2 1 rmid 0 = ok", "3 1 shmget 0x00000000 1 600 = 32768"]
HALF: tuple[tuple[list[int], str], ...] = (([], ""), ([2], ""),
        ([0], "MOSTLY SKIPPED: 3 of 3 commands were not compared: why 0 (3)"),
        ([1], "MOSTLY SKIPPED: 2 of 3 commands were not compared: why 1 (2)"),
        ([1, 2], "MOSTLY SKIPPED: 2 of 3 commands were not compared: why 1 (2)"))


@pytest.mark.parametrize("places, wanted", HALF)
def test_mostly_skipped(folder: str, conform: Conform, places: list[int], wanted: str) -> None:
    """A comparison of less than half of the commands says so in its last line, and why. What follows a
    skipped command that changes the state is skipped for the reason of that command."""
    program = write_file(folder, "three_replies",
                         "#!/bin/sh\n" + "".join(f"echo '{line}'\n" for line in MADE), 0o755)
    lines = [line.split(" ", 1)[1].replace("0x00000000", "private").replace(" = ", "\n#= ") for line in MADE]
    case = write_file(folder, "three.shm", HEAD + "".join(f"# A rule. profile\n{line}\n" for line in lines))
    lines = [line.partition(" = ")[0] + f" = skipped: why {at}" if at in places else line for at,
             line in enumerate(MADE)]
    write_file(folder, "three.out", "".join(line + "\n" for line in lines))
    status, said = conform("--program", program, "--replies", folder, case)
    last = said.splitlines()[-1] if said else ""
    assert status == 0
    assert last == wanted if wanted else "MOSTLY" not in said


def test_no_peer_here(folder: str) -> None:
    """Without a C compiler no peer is built, and the last line says that nothing was compared."""
    words, paths = write_cases(folder)
    none = os.path.join(folder, "none")
    os.makedirs(none, exist_ok=True)
    for tool in ("sh", "echo"):
        if not os.path.exists(os.path.join(none, tool)):
            os.symlink(f"/bin/{tool}", os.path.join(none, tool))
    lack = "there is no C compiler (cc)"
    for given, status, last in (
            ([*words[:2], paths[0]], 0, f"ALL SKIPPED: no command was compared: {lack}"),
            (["--judge", "echo", "at-once", "9", "1"], 0, f"scripts: 0 run, 9 skipped: {lack}"),
            ([*words[:2], "random", "1", "1"], 3, f"conform: random scripts need a peer: {lack}")):
        path = os.pathsep.join(os.path.join(TOP, it) for it in ("conformance", "bindings/python"))
        ended = run([sys.executable, "-B", "-m", "nogconform", *given],
                    env={"PATH": none, "PYTHONPATH": path})
        assert (ended.status, (ended.out + ended.said * status).splitlines()[-1:]) == (status, [last])


@pytest.mark.parametrize("reply, wanted, line", [
    ("ok", 0, "mapped: as expected (1 commands)"), ("EINVAL", 1, "mapped: FAILS: "),
    ("skipped: no", 0, "mapped: skipped: this library does not count munmap, mprotect and setuid")
])
def test_mappings(folder: str, conform: Conform, reply: str, wanted: int, line: str) -> None:
    """A library that does not count munmap among the calls skips a case of it."""
    case = write_file(folder, "mapped.shm", HEAD + RULE + "1 munmap null 4096\n#= ok\n")
    write_cases(folder)
    write_file(folder, "nogcuvema.h", "#define NOG_HEADER\n")
    write_file(folder, "libnogcuvema.a", "")
    status, said = conform("--library=" + folder, "--no-peer", case)
    assert status == 3
    assert "the library's program was not built: " in said
    status, said = over_library(folder, case, f"1 1 munmap null 4096 = {reply}")
    assert status == wanted
    assert said.startswith(line)


def over_library(folder: str, case: str, event: str, *options: str,
                 under_linux: str | None = None) -> tuple[int, str]:
    """What ./conform prints for a case over a library that prints one line, and another by Linux's rules."""
    # the rule on huge pages is 1024
    text = ("#!/bin/sh\ncase $1:$2 in --rules:linux) rules=2047 ;; --rules:[0-9]*) rules=$2 ;; *) rules=0 ;; esac\n"
            f"if [ \"$rules\" -ge 1024 ]; then echo '{under_linux or event}'; else echo '{event}'; fi\n")
    program = write_file(folder, "library.sh", text, 0o755)
    compiler = write_file(folder, "cc",
                          f"#!/bin/sh\nwhile [ \"$1\" != -o ]; do shift; done\ncp {program} \"$2\"\n", 0o755)
    words = [os.path.join(TOP, "conform"), "--library=" + folder, *(options or ("--no-peer",)), case]
    ended = run(words, env=environment(PATH=os.path.dirname(compiler) + os.pathsep + os.environ["PATH"]))
    return ended.status, ended.out + ended.said


def test_rules(folder: str, conform: Conform) -> None:
    """Under Linux's rules the library is opened with them, the case's replies for Linux are required, and
    rules of the profile explain nothing."""
    for words, told in ((["--rules", "nosuch"], "--rules takes profile or linux: nosuch"),
                        (["--rules"], "argument --rules: expected one argument")):
        status, said = conform(*words)
        assert status == 2
        assert told in said
    hugetlb = "1 1 shmget 0x00000000 1 600,hugetlb = "
    case = write_file(folder, "ruled.shm",
                      HEAD + LINUX + RULE + "1 shmget private 1 600,hugetlb\n#= 0\n#linux= ENOMEM\n")
    write_file(folder, "ruled.out", hugetlb + "EPERM\n")
    write_file(folder, "nogcuvema.h", "#define NOG_LINUXES\n")
    write_file(folder, "libnogcuvema.a", "")
    status, said = over_library(folder, case, hugetlb + "0", "--no-peer", "--rules", "linux")
    assert status == 3
    assert said == f"conform: the library in {folder} has no rules: its header has no NOG_LINUX\n"
    write_file(folder, "nogcuvema.h", "enum nog_rule { NOG_LINUX = 1023 };\n")
    replies = ["--replies", folder]
    for rules, ours, linux, options, wanted, line in (
            ("profile", "0", "ENOMEM", ["--no-peer"], 0, "ruled: as expected (1 commands)"),
            ("linux", "0", "ENOMEM", ["--no-peer"], 0, "ruled: as expected (1 commands)"),
            ("profile", "ENOMEM", "ENOMEM", ["--no-peer"], 1, "ruled: FAILS: "),
            ("linux", "0", "0", ["--no-peer"], 1, "ruled: FAILS: "),
            ("profile", "0", "EPERM", replies, 0, "ruled: profile (huge pages 1)"),
            ("linux", "0", "ENOMEM", replies, 1, "ruled: DIFFER")):
        status, said = over_library(folder, case, hugetlb + ours, *options, "--rules", rules,
                                    under_linux=hugetlb + linux)
        assert status == wanted
        assert said.startswith(line)


def test_flags_of_random_scripts() -> None:
    """Only scripts by Linux's rules have the kit's flags: no exec with mprotect or hugetlb with noreserve."""
    seen = {name: 0 for name in ("exec", "hugetlb", "noreserve", "mprotect")}
    for number in range(100):
        text, plain = (make_script("flags", number, True, has_flags) for has_flags in (True, False))
        lines = [(words, words[-1].split(","))
                 for words in map(str.split, text.splitlines()) if len(words) > 2]
        found = {name for words, flags in lines for name in seen if name in (*flags, words[1])}
        both = [words for words, flags in lines if "hugetlb" in flags and "noreserve" in flags]
        for name in found:
            seen[name] += 1
        assert not both
        assert not {"exec", "mprotect"} <= found
        assert read_case("c", text, is_strict=False, has_flags=True)
        assert not re.search("[, ](exec|hugetlb|noreserve)[,\n]", plain.replace(" exec\n", ""))
    assert all(15 <= it <= 100 for it in seen.values())


def test_said_once(folder: str, conform: Conform) -> None:
    """What is missing for every case is reported once, before the first."""
    words, paths = write_cases(folder)
    for name, given, wanted, text in (
            ("peer", [*words[:2], *paths, "--peer", "/nosuch/peer"], 3,
             "the peer was not started: no such command: /nosuch/peer"),
            ("program", ["--program", "/nosuch/program", *paths], 3,
             "the program was not started: no such command: /nosuch/program"),
            ("folder", ["--replies", "/nosuch", *paths], 2,
             "--replies takes a folder; there is no such folder: /nosuch"),
            ("file", ["--junit", "/nosuch/x.xml", *paths], 2,
             "--junit: /nosuch/x.xml can't be written: No such file or directory"),
            ("case", [*words, *paths, "nosuch"], 2, "no such case: nosuch"),
            ("library", ["--library=/nosuch", "--no-peer", *paths], 3,
             "the library was not built: there is no /nosuch/libnogcuvema.a; "
             "./lib makes it, and --library=FOLDER names another folder"),
            ("peer, as TAP", ["--tap", *words[:2], *paths, "--peer", "/nosuch/peer"], 3, None),
            ("case, in a list", ["--list", "nosuch"], 2, "no such case: nosuch")):
        status, said = conform(*given)
        told = f"conform: {text or NO_PEER}\n" + f"Bail out! {NO_PEER}\n" * (text is None)
        assert status == wanted
        assert sorted(said.splitlines()) == sorted(told.splitlines())
    file = os.path.join(folder, "stopped.xml")
    status, said = conform("--junit", file, *words[:2], *paths, "--peer", "/nosuch/peer")
    assert (status, suite_of(xml.parse(file).getroot()).get("tests")) == (3, "0")


def test_list_of_own_cases(folder: str, conform: Conform) -> None:
    words, paths = write_cases(folder)
    wanted = f"right: 1 commands: A segment. profile\nconform: {paths[1]}: line 3: '1 exit': {NO_RULE}\n"
    assert conform("--list", paths[1], paths[0]) == (2, wanted)


@pytest.mark.parametrize("words, folders", [
    ("--list", [""]), ("--list --library", ["", "rules"]),
    ("--list --rules linux", ["", "rules"])])
def test_list(conform: Conform, words: str, folders: list[str]) -> None:
    status, said = conform(*words.split())
    names = [os.path.basename(path)[:-4] for it in folders for path in names_in(os.path.join(CASES, it))]
    assert status == 0
    assert re.findall(r"^(\w+): \d+ commands: \S", said, re.M) == names
