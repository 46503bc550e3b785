"""Names a script's first fault, what is allowed there and the nearest right form, and warns of lines that are
allowed but seldom intended. As a program: python3 -m nogcuvema.explain < SCRIPT; the status is 1 if the
script has a fault."""
import difflib
import re
import sys
from typing import Dict, Iterator, List, Set

from ._ending import run_command
from .script import CALLS, RULES, Command, Script, ScriptFault, Variable, read_script

FIRST_WORDS = ("limits", "rules", "process", "child")
HEADS = ("sizes", "limits")


def nearest(fault: ScriptFault, line: str) -> str:
    """The nearest right form of a fault's word, or nothing if none is near."""
    word = fault.word
    if word == "\r":
        return "remove the carriage returns: tr -d '\\r' < SCRIPT"
    if fault.kind == "unknown process":
        return f"child {word}, or process {word} UID GID, above the first command"
    if fault.kind not in ("bad line", "no limits line"):
        return ""
    if re.match("0[0-7]{3}(,|$)", word) and "octal" in fault.allowed:
        return word[1:]
    if re.fullmatch("0X[0-9a-fA-F]+", word):
        return "0x" + word[2:]
    if "hexadecimal digits" in fault.allowed and re.fullmatch("(0x)?[0-9a-fA-F]+", word):
        digits = word[2:] if word.startswith("0x") else word
        return "0" * (len(digits) % 2) + digits if len(digits) <= 128 else ""
    if word in ("creat", "excl", "creat,excl", "excl,creat") and re.search(r"\bshmget\b", line):
        return "the mode and the flags as one word, as 600," + word
    if word == "0" and "null" not in fault.allowed and "flush" in fault.allowed:
        return "0 flush N, or a pid from 1 on"
    choices = ([*CALLS] if "a call:" in fault.allowed else [*FIRST_WORDS]
               if "limits, rules" in fault.allowed else [*HEADS] if fault.kind == "no limits line" else [])
    choices += ["flush"] if "flush" in fault.allowed else []
    choices += ["linux", *RULES] if "linux, or" in fault.allowed else []
    found = difflib.get_close_matches(word.lower(), choices, 1)
    return found[0] if found else ""


def explain_fault(fault: ScriptFault, line: str) -> List[str]:
    """The lines that describe a fault: its place, the line with the word marked, what is allowed, and the
    nearest form."""
    place = f"line {fault.line}" + (f", column {fault.column}" if fault.column else "")
    told = [f"{place}: {fault.kind}"]
    if fault.column:
        shown = "".join(letter if letter == "\t" or " " <= letter <= "~" else "?" for letter in line)
        mark = "".join(letter if letter == "\t" else " "
                       for letter in shown[:fault.column - 1]) + "^" * len(fault.word)
        told += ["    " + shown, "    " + mark]
    if fault.allowed:
        told.append(f"    allowed here: {fault.allowed}")
    near = nearest(fault, line)
    if near:
        told.append(f"    nearest form: {near}")
    return told


def warnings(script: Script) -> Iterator[str]:
    """Variables that are used before they are set; each variable of a process once."""
    set_by: Dict[int, Set[str]] = {it.pid: set() for it in script.processes}
    warned = set()
    for line in script.lines:
        if not isinstance(line, Command):
            continue
        for value in line.operands:
            if (not isinstance(value, Variable) or value.letter in set_by[line.pid]
                    or (line.pid, value.letter) in warned):
                continue
            warned.add((line.pid, value.letter))
            others = [pid for pid, letters in set_by.items() if value.letter in letters]
            if others:
                yield (f"line {line.line}: variable {value.letter} of process {line.pid} is not set: process "
                       f"{others[0]} set its own, and "
                       "each process has variables of its own, so it is 0 here")
            else:
                yield (f"line {line.line}: variable {value.letter} of process {line.pid} is used before it "
                       f"is set: it is 0, which names the "
                       "first segment, or no address")
        if line.taker:
            set_by[line.pid].add(line.taker)


def explain(text: str) -> List[str]:
    """The lines about a script."""
    try:
        script = read_script(text)
    except ScriptFault as fault:
        lines = text.split("\n")
        return explain_fault(fault, lines[fault.line - 1] if 0 < fault.line <= len(lines) else "")
    return [f"warning: {it}" for it in warnings(script)]


def main() -> int:
    if sys.argv[1:]:
        print(f"explain: no such word: {sys.argv[1]}; usage: python3 -m nogcuvema.explain < SCRIPT",
              file=sys.stderr)
        return 2
    text = sys.stdin.buffer.read().decode("latin-1")
    told = explain(text)
    for line in told:
        print(line)
    has_fault = bool(told) and not told[0].startswith("warning: ")
    if not has_fault:
        print(f"the script can be run; {len(told)} warnings" if told else "the script can be run")
    return 1 if has_fault else 0


if __name__ == "__main__":
    sys.exit(run_command("explain", main))
