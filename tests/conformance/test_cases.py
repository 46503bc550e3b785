"""The cases through program and peer, as root and as an ordinary user, and what a user may do wrong."""

from __future__ import annotations

import os
import re

import pytest

from commands import Conform, run, text_of, write_file
from conformance.test_peer import words_without_root
from nogconform.explain import LEFT, RULES
from nogconform.places import CASES, names_in
from nogconform.script import read_case

# the peer's reasons to skip a command that a process of this system could not make
NOT_MADE = ("after a difference that changes the state", "no process makes this call",
            "no such child can be",
            "no swap area is the script's")
# takes a second for each command
TIMES = """limits 65536 16 64 16 4
process 1 {0} {1}
child 2
# A segment. POSIX shmget(), DESCRIPTION
1 shmget private 4096 600
#= 0
# attached. POSIX shmat(), DESCRIPTION
1 shmat 0 null -
#= 0x40000000
# A child is born. fork(2), DESCRIPTION
1 fork 2
#= ok
# A fork is no attach. POSIX <sys/shm.h>; profile
1 stat 0
#= atime=2 dtime=0 ctime=1 lpid=1 nattch=2
# The child ends. POSIX _Exit(), DESCRIPTION
2 exit
#= ok
# The segment changes. POSIX shmctl(), IPC_SET
1 set 0 {0} {1} 640
#= ok
# and is attached once more. POSIX shmat(), DESCRIPTION
1 shmat 0 0x50000000 -
#= 0x50000000
# Each time is that of its call. POSIX <sys/shm.h>
1 stat 0
#= atime=7 dtime=5 ctime=6 lpid=1 nattch=2
""".format(os.geteuid(), os.getegid())

# the system's own limits are wider
WIDE = """limits 8192 2 3 2 0
process 1 {0} {1}
# A segment. POSIX shmget(), DESCRIPTION
1 shmget private 8192 600
#= 0
# More pages than SHMALL. shmget(2), ERRORS
1 shmget private 8192 600
#= ENOSPC
""".format(os.geteuid(), os.getegid())


NAMES = [os.path.basename(path)[:-4] for path in names_in(CASES)]


def check_cases(said: str, good: str | tuple[str, ...]) -> None:
    """Each line of a case ends in one of the good words, no case is missing, and the sums are right."""
    found = dict(line.split(": ", 1) for line in said.splitlines() if re.match(r"[a-z0-9_]+: ", line))
    assert not [f"{name}: {found.get(name)}" for name in NAMES if not found.get(name, "").startswith(good)]
    sums = [line for line in said.splitlines() if re.match("(cases|commands): ", line)]
    *by_word, compared, agree, profile, differ, skipped = map(int, re.findall(r"\d+", " ".join(sums)))
    assert sum(by_word) == len(NAMES)
    assert compared == agree + profile + differ + skipped


@pytest.mark.parametrize("name", NAMES)
def test_case(name: str, conform: Conform) -> None:
    """The program gives the replies that the rules require."""
    status, said = conform("--no-peer", name)
    assert status == 0
    assert said.startswith(f"{name}: as expected")


@pytest.mark.parametrize("older, newer", [
    ("1 unmap 0x40000000 4096", "1 munmap 0x40000000 4096"),
    (" 1\tprotect a+4096 4096 r", " 1\tmprotect a+4096 4096 ro"),
    ("1 protect 0x40000000 4096 rw", "1 mprotect 0x40000000 4096 rw"),
    ("# 1 unmap and protect", "# 1 unmap and protect")])
def test_older_words(older: str, newer: str) -> None:
    """The words that the kit had before munmap and mprotect were calls of the language."""
    head = "limits 65536 16 64 4 1\nprocess 1 100 100\n"
    assert read_case("c", f"{head}{older}\n", is_strict=False).text == f"{head}{newer}\n"


def test_all_cases(conform: Conform) -> None:
    status, said = conform("--no-peer")
    assert status == 0
    check_cases(said, "as expected")


def test_this_system(conform: Conform, peer: str) -> None:
    """The program and this system. As root, every command is made that a process of this system can make."""
    status, said = conform("--peer", peer)
    assert status == 0
    check_cases(said, ("agree", "profile", "skipped"))
    assert os.geteuid() != 0 or {*re.findall(r"^  skipped: (.*): \d+$", said, re.M)} <= {*NOT_MADE}


def has_one_user(name: str) -> bool:
    """Whether all processes of a case have one user, so that a peer without root can be each of them."""
    return len({*read_case(name, text_of(f"{CASES}/{name}.shm")).users.values()}) == 1


def test_without_root(conform: Conform, peer: str) -> None:
    """An ordinary user is the script's first user: only the other users' calls are skipped."""
    words = words_without_root()
    if words is None:
        pytest.skip("this is not root, or user 65534 has no user namespace")
    status, said = conform("--peer", *words, peer)
    assert status == 0
    check_cases(said, ("agree", "profile", "skipped"))
    assert not any(map(has_one_user, re.findall(r"^(\w+): skipped$", said, re.M)))


def test_random_scripts(conform: Conform, peer: str) -> None:
    status, said = conform("random", "40", "1", "--peer", peer)
    assert status == 0
    assert "scripts: " in said


@pytest.mark.parametrize("rule", dict.fromkeys((*RULES, *LEFT)))
def test_documents(rule: str) -> None:
    assert f"| {rule} |" in text_of("docs/CONFORMANCE.md")


def test_seconds(conform: Conform, peer: str, folder: str) -> None:
    """With a second between calls times are compared. Without locked pages a run may have its own lock."""
    path = write_file(folder, "seconds.shm", TIMES)
    status, said = conform("--seconds", path, "--peer", peer, env={**os.environ, "TMPDIR": folder})
    assert status == 0
    assert "seconds: profile (time of fork 1)\n" in said


def test_shared(conform: Conform, peer: str, folder: str) -> None:
    """In the system's own namespace the peer says so, and names its limits as the difference."""
    status, said = conform("--shared", write_file(folder, "wide.shm", WIDE), "--peer", peer)
    assert status == 0
    assert "own IPC namespace, under its limits" in said
    assert "wide: profile (limits of the system 1)\n" in said


def test_wrong_peer(conform: Conform, peer: str) -> None:
    """A peer with wrong replies: the script that shows it is shortened."""
    lying = f"{peer} \"$@\" | sed 's/= EINVAL/= ENOSYS/'"
    status, said = conform("random", "1", "1", "--peer", "sh", "-c", lying, "sh")
    shown = said.partition("  shown by:\n")[2].partition("scripts: ")[0].splitlines()
    assert status == 1
    assert "DIFFER" in said
    assert re.search(r"there ENOSYS", said)
    assert 1 <= len([line for line in shown if not re.match("limits|process|child", line)]) <= 3


HEAD = "limits 4096 1 1 2 0\nprocess 1 1 1\n"
RIGHT = HEAD + "# A segment. profile\n1 shmget private 1 600\n#= 0\n"
FILES = {
    "right.shm": RIGHT,
    "no_rule.shm": HEAD + "1 stat 0\n#= 0\n",
    "no_source.shm": RIGHT.replace(". profile", ""),
    "no_reply.shm": HEAD + "# A rule. profile\n1 stat 0\n",
    "no_command.shm": HEAD + "#= 0\n",
    "none.shm": HEAD,
    "fault.shm": HEAD + "# A rule. profile\n1 nosuch\n#= 0\n",
    "other.shm": RIGHT.replace("= 0", "= 1"),
    "refused.shm": RIGHT.replace("= 0", "= EINVAL"),
    "stat.shm": RIGHT + "# Nobody. profile\n1 stat 0\n#= nattch=1 size=1\n",
    "two.shm": RIGHT + "# Its end. profile\n1 exit\n#= ok\n",
}
EVENT = "1 1 shmget 0x00000000 1 600 = 0"
# the same without a blank between its words
JOINED = EVENT.replace(" ", "${IFS}")
SAYS = "right.shm --peer sh -c"


def says(line: str) -> list[str]:
    return [*SAYS.split(), f"echo '{line}'"]


@pytest.mark.parametrize("words, wanted, text", [
    (["nosuch"], 2, "no such case: nosuch"),
    (["--nosuch"], 2, "unrecognized arguments: --nosuch"),
    (["--limit", "0"], 2, "--limit takes whole seconds"),
    (["random", "1"], 2, "random takes a count and a seed"),
    (["no_rule.shm"], 2, "no comment above it names the rule"),
    (["no_source.shm"], 2, "no comment above it names the rule"),
    (["no_reply.shm"], 2, "no reply is given"),
    (["no_command.shm"], 2, "a reply without a command"),
    (["none.shm"], 2, "no command"),
    (["fault.shm"], 2, "fault.shm: line 4: 'nosuch': bad line"),
    (["other.shm"], 1, "FAILS"),
    (["refused.shm"], 1, "case  EINVAL"),
    (["stat.shm"], 1, "case  nattch=1 size=1"),
    (["--program", "sh -c echo${IFS}2${IFS}1${IFS}exit${IFS}=${IFS}ok", "right.shm"], 3,
     "the program: not an event line: '2 1 exit = ok'"),
    (["--program", "true", "right.shm"], 3, "right: STOPPED: the program printed 0 lines for 1 commands\n"),
    (["--program", f"sh -c cat>{os.devnull};echo${{IFS}}{JOINED}", "two.shm"], 3,
     "two: STOPPED: the program printed 1 lines for 2 commands\n"),
    (["--program", "true", "random", "1", "1", "--peer", "true"], 3,
     "script 0 of seed 1: the program printed 0 lines for "),
    (["--program", "/nosuch/program", "right.shm"], 3, "the program was not started"),
    (["right.shm", "--peer", "/nosuch/peer"], 3, "the peer was not started"),
    ([*SAYS.split(), "exit 7"], 3, "the peer ended with status 7"),
    ([*SAYS.split(), "kill -9 $$"], 3, "the peer ended with status -9"),
    ([*SAYS.split(), "printf '1 1 shm'"], 3, "half a line: '1 1 shm'"),
    (says("hello"), 3, "not an event line: 'hello"),
    (says("2 1 shmget 0x00000000 1 600 = 0"), 3, "not an event line: '2 1 shmget"),
    (says("1 1 shmget 0x00000000 2 600 = 0"), 1, "DIFFER"),
    (says("1 2 shmget 0x00000000 1 600 = 0"), 1, "DIFFER"),
    (says("1 1 shmget 0x00000000 1 600 = 1"), 1, "there 1\n"),
    (says(EVENT), 0, "right: agree"),
    (["right.shm", "--peer", "printf", f"{EVENT}\\n2 1 exit = ok\\n"], 3, "2 lines for 1 commands"),
    (["right.shm", "--peer", "true"], 3, "0 lines for 1 commands"),
    (["--limit", "1", *SAYS.split(), "sleep 1000"], 3, "nothing for 2 seconds"),
    (["--limit", "1", *SAYS.split(), f"echo '{EVENT}'; exec >&-; sleep 1000"], 3, "did not end within 2 seconds"),
    (["--replies", ".", "right.shm"], 0, "right: skipped: there is no ./right.out\n")])
def test_bad_input(folder: str, conform: Conform, words: list[str], wanted: int, text: str) -> None:
    """Wrong input of a user, and peers that die, hang, or print something that is not an event line."""
    for name, script in FILES.items():
        write_file(folder, name, script)
    status, said = conform(*words, cwd=folder)
    assert status == wanted
    assert text in said


@pytest.mark.parametrize("last, wanted, word", [
    ("3 1 stat 0 = EIDRM", 0, "agree"), ("3 1 stat 0 = EINVAL", 0, "profile (removed identifier 1)"),
    ("3 1 stat 0 = EPERM", 1, "DIFFER"), ("3 1 stat 0 = skipped: none", 0, "agree"),
    ("3 1 rmid 0 = EIDRM", 1, "DIFFER"), ("3 2 stat 0 = EIDRM", 1, "DIFFER"),
    ("4 1 stat 0 = EIDRM", 3, "STOPPED: {0}: not an event line: '4 1 stat 0 = EIDRM'"),
    ("", 3, "STOPPED: {0}: 2 lines for 3 commands")])
def test_replies(folder: str, conform: Conform, last: str, wanted: int, word: str) -> None:
    """Replies made elsewhere: equal, explained by a rule of this project, different, and not made."""
    calls = (("shmget private 1 600", "0"), ("rmid 0", "ok"), ("stat 0", "EIDRM"))
    text = HEAD + "".join(f"# A rule. profile\n1 {call}\n#= {reply}\n" for call, reply in calls)
    path = write_file(folder, "removed.out", f"{EVENT}\n2 1 rmid 0 = ok\n" + (last and last + "\n"))
    status, said = conform("--replies", folder, write_file(folder, "removed.shm", text))
    assert status == wanted
    assert f"removed: {word.format(path)}\n" in said


@pytest.mark.parametrize("words, text, wanted, said", [
    (["--nosuch"], "", 2, "peer: usage: "), (["/nosuch"], "", 1, "peer: /nosuch: No such file"),
    ([], "", 1, "no limits line"), ([], HEAD + "1 nosuch\n", 1, "peer: line 3: bad line"),
    ([], HEAD + "1 stat 0x\n", 1, "bad number: 0x"), ([], HEAD + "2 exit\n", 1, "unknown process: 2"),
    ([], HEAD + "1 load 0 65\n", 1, "bad length: 65"),
    ([], HEAD + "1 shmat 0 null up\n", 1, "bad flags: up")])
def test_scripts_of_peer(peer: str, words: list[str], text: str, wanted: int, said: str) -> None:
    """The peer's messages for a wrong command line or script."""
    ended = run([peer, *words], text)
    assert ended.status == wanted
    assert said in ended.said
