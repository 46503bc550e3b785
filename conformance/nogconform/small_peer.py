"""Turns scripts into C data for conformance/small_peer.c, and what the peer printed into replies for
./conform.

    tools/small_peer data [--rules RULES] [CASE...] > small_script.h
                                               the cases of conformance/cases, or those named: files, or names
                                               of cases. With `--rules linux` also those of
                                               conformance/cases/rules, with their flags
    tools/small_peer replies CONSOLE FOLDER    writes FOLDER/NAME.out for each script in a console's record

Lines of the record that are none of the peer's are passed over.

Status: 0 done, 1 a script can't be read, or has no end in the record: the kernel stopped in the call that the
last line names, 2 wrong words on the command line, 3 a file can't be read or written.
"""
from __future__ import annotations

import argparse
import contextlib
import os
import re
import sys

from nogcuvema._ending import Parser, run_command
from nogcuvema.machine import Flag
from nogcuvema.script import CALLS, Command, Script, ScriptFault, Variable, read_script

from .places import CASES, names_in
from .script import language_of_the_kit

# each flag as small_peer.c has it
GET_FLAGS = {"creat": 0o1000, "excl": 0o2000, "hugetlb": 0o4000, "noreserve": 0o10000}
ATTACH_FLAGS = {"rdonly": 0o10000, "rnd": 0o20000, "remap": 0o40000, "exec": 0o100000}
# the calls in the order of small_peer.c
NAMES = list(CALLS)
MARK = re.compile(r"(script|end) (\S+)")
EVENT = re.compile(r"\d+ \d+ [a-z]+( .*)? =( .*)?")


def number(value: int) -> str:
    """A number of 64 bits, 32 in each part."""
    return f"{{ {value >> 32 & 0xffffffff:#x}UL, {value & 0xffffffff:#x}UL }}"


def operand(value: int | Variable | tuple[int, int], has_attach_flags: bool) -> str:
    if isinstance(value, int):
        return f"{{ -1, {number(flags_of(value, ATTACH_FLAGS) if has_attach_flags else value)} }}"
    if isinstance(value, Variable):
        return f"{{ {ord(value.letter) - ord('a')}, {number(value.plus)} }}"
    mode, flags = value
    return f"{{ -1, {number(mode | flags_of(flags, GET_FLAGS))} }}"


def flags_of(flags: int, named: dict[str, int]) -> int:
    return sum(value for name, value in named.items() if flags & Flag[name.upper()])


def quoted(data: bytes) -> str:
    return '"' + "".join(f"\\{byte:03o}" for byte in data) + '"'


def command_row(command: Command, places: dict[int, int]) -> str:
    values = [value for value in command.operands if not isinstance(value, bytes)]
    # the bytes that a call stores come after those that it expects
    *_, expected, stored = b"", b"", *[value for value in command.operands if isinstance(value, bytes)]
    if command.call == "fork":
        values = [getattr(value, "pid", value) for value in values]
    operands = [operand(value, command.call == "shmat" and place == 2) for place, value in enumerate(values)]
    operands += [f"{{ -1, {number(0)} }}"] * (4 - len(operands))
    taker = ord(command.taker) - ord("a") if command.taker else -1
    return (f"    {{ {places[command.pid]}, {taker}, {NAMES.index(command.call)}, "
            f"{{ {', '.join(operands)} }}, "
            f"{len(stored)}, {quoted(stored)}, {quoted(expected)} }}")


def data_of(index: int, name: str, script: Script) -> tuple[str, str]:
    """The arrays of one script, and its row."""
    places = {it.pid: place for place, it in enumerate(script.processes)}
    commands = [command_row(it, places) for it in script.lines if isinstance(it, Command)]
    processes = [f"    {{ {it.pid}UL, {it.uid}UL, {it.gid}UL, {int(not it.is_born)} }}"
                 for it in script.processes]
    arrays = f"static const struct declared processes_{index}[] = {{\n" + ",\n".join(processes) + "\n};\n"
    arrays += f"static const struct command commands_{index}[] = {{\n" + ",\n".join(commands) + "\n};\n"
    return (arrays, f"    {{ \"{name}\", processes_{index}, {len(processes)}, commands_{index}, "
            f"{len(commands)} }}")


def write_data(paths: list[str], is_linux: bool) -> None:
    """Prints the data once each script was read."""
    texts, rows = ["/* made by tools/small_peer from scripts */\n"], []
    for index, path in enumerate(paths):
        name = os.path.splitext(os.path.basename(path))[0]
        try:
            with open(path, encoding="latin-1", newline="\n") as file, \
                    language_of_the_kit() if is_linux else contextlib.nullcontext():
                script = read_script(file.read())
        except OSError as error:
            raise SystemExit(f"small_peer: {path}: can't be read: {error.strerror}") from None
        except ScriptFault as fault:
            raise SystemExit(f"small_peer: {path}: {fault}: {fault.word}, allowed here: "
                             f"{fault.allowed}") from None
        if not re.fullmatch(r"[\w.-]+", name):
            raise SystemExit(f"small_peer: {path}: a script's name has letters, digits, '_', '.' and '-' "
                             f"alone")
        if not script.processes or not any(isinstance(it, Command) for it in script.lines):
            raise SystemExit(f"small_peer: {path}: the script has no command")
        arrays, row = data_of(index, name, script)
        texts.append(arrays)
        rows.append(row)
    print("".join(texts) + "static const struct script scripts[] = {\n" + ",\n".join(rows) + "\n};")


def read_record(text: str) -> tuple[dict[str, list[str]], list[str]]:
    """Each script of a record with its event lines, and the names of those that have no end."""
    found: dict[str, list[str]] = {}
    name = ""
    unended: list[str] = []
    for line in text.replace("\r", "").split("\n"):
        mark = MARK.fullmatch(line)
        if mark and mark[1] == "script":
            unended += [name] * bool(name)
            name = mark[2]
            found[name] = []
        elif mark and mark[2] == name:
            name = ""
        elif name and (EVENT.fullmatch(line) or line.startswith("note: ")):
            found[name].append(line)
    return found, unended + [name] * bool(name)


def write_replies(record: str, folder: str) -> int:
    with open(record, encoding="ascii", errors="replace", newline="") as file:
        found, unended = read_record(file.read())
    os.makedirs(folder, exist_ok=True)
    for name, lines in found.items():
        with open(os.path.join(folder, name + ".out"), "w", encoding="ascii", errors="replace") as file:
            file.write("".join(line + "\n" for line in lines))
    for name in unended:
        print(f"small_peer: {name} has no end; its last line: {(found[name] or ['none'])[-1]}",
              file=sys.stderr)
    if not found:
        print(f"small_peer: {record} has no line 'script NAME'", file=sys.stderr)
    return 1 if unended or not found else 0


def paths_of(names: list[str], is_linux: bool) -> list[str]:
    """The files of cases, which are named by file or by name. Without names all that the peer can read."""
    folders = [CASES] + [os.path.join(CASES, "rules")] * is_linux
    if not names:
        return [path for folder in folders for path in names_in(folder)]
    places = [[name] + [os.path.join(folder, name + ".shm") for folder in folders] for name in names]
    return [next((path for path in choices if os.path.isfile(path)), choices[0]) for choices in places]


def words_of(arguments: list[str]) -> argparse.Namespace:
    parser = Parser(prog="small_peer", description=__doc__, allow_abbrev=False,
                    formatter_class=argparse.RawDescriptionHelpFormatter)
    kinds = parser.add_subparsers(dest="word", metavar="data|replies", required=True)
    data = kinds.add_parser("data", allow_abbrev=False, help="prints scripts as C data")
    data.add_argument("--rules", choices=("profile", "linux"), default="profile",
                      help="linux: also the cases of Linux's rules, whose flags the peer then has")
    data.add_argument("cases", nargs="*", metavar="CASE",
                      help="a file, or the name of a case; all without one")
    replies = kinds.add_parser("replies", allow_abbrev=False,
                               help="takes the replies out of a console's record")
    replies.add_argument("console", metavar="CONSOLE")
    replies.add_argument("folder", metavar="FOLDER")
    return parser.parse_args(["--help" if it == "help" else it for it in arguments[:1]] + arguments[1:])


def main() -> int:
    words = words_of(sys.argv[1:])
    if words.word == "data":
        write_data(paths_of(words.cases, words.rules == "linux"), words.rules == "linux")
        return 0
    return write_replies(words.console, words.folder)


if __name__ == "__main__":
    sys.exit(run_command("small_peer", main))
