"""A prompt for a machine: python3 -m nogcuvema [SWAP...] reads lines of the script language and prints the
reply to each.

It also takes the lines help [CALL], show, undo, snapshot NAME, restore NAME, save FILE, and quit or exit.
docs/SCRIPT.md has the language."""
import os
import shutil
import subprocess
import sys
import textwrap
from typing import Dict, List, Optional, Sequence

from ._ending import run_command
from ._library import LibraryMissing
from .calls import RULES
from .errors import MachineError, NoMemory
from .explain import explain_fault, warnings
from .moments import MOST_MOMENTS, MOST_PAGES, Moment, most_moments
from .script import (CALLS, TAKEN, Command, FlushLine, Run, Script, ScriptFault, areas_of, form_of, listing,
                     usage)

USAGE = ("usage: python3 -m nogcuvema [SWAP...]: SWAP is ram:N, sparse:N, mirror:N, fuse:N:rK or fuse:N:wK; "
         "ram:64 without one")
# the limits and processes if the first line gives no limits
HEAD = ("limits 65536 16 64 4 1", "process 1 100 100", "child 2", "child 3")
OWN_WORDS = ("help", "show", "undo", "snapshot", "restore", "save", "quit", "exit")
HELP = """A line is a call of a process: its pid, the call and its operands. A variable stores the reply.
    1 s = shmget private 8192 600
    1 a = shmat s null -
    1 store a+4094 01020304
    1 load a+4093 6
Calls: {calls}
help CALL explains a call. 0 flush N writes out dirty pages. show prints the machine, undo takes the last line
back, snapshot NAME keeps the current state, restore NAME returns to it, save FILE writes a script of all
accepted lines, quit or exit ends. show needs the viewer's program, shmview: it takes the one that ./shmview
or ./shmview --unproved built in the repository, or the one that ./install installed, also by its name on the
path. Without one it prints segments and counts.
Limits and processes come first: limits SHMMAX SHMMNI SHMALL FRAMES MEMLOCK, process PID UID GID, child PID.
A line sizes PIECES PROCESSES SLOTS above the limits makes a larger machine.
If you begin with a call, these lines come first: {head}"""


WITHOUT = ("to see processes, frames and slots, build the program shmview in the repository, by ./shmview or "
           "./shmview --unproved, or "
           "install it by ./install")


def help_of(call: str) -> str:
    """The form, the rule and the errors of a call."""
    rule, errors = RULES[call]
    told = [f"PID {'[v =] ' * (call in TAKEN)}{form_of(call)}", *textwrap.wrap(rule, 100)]
    told += [f"    {name.lower():<10} {kind.allowed}" for name, kind in CALLS[call]]
    told += [f"    {'ESRCH':<10} the process is not live"]
    return "\n".join(told + [f"    {name:<10} {when}" for name, when in errors])


class Prompt:
    """The accepted lines, the machine that they made, and the moments that the prompt can return to."""

    def __init__(self, swap: Sequence[str]) -> None:
        self.swap = list(swap) or ["ram:64"]
        self.areas = areas_of(self.swap)
        self.script = Script()
        self.taken: List[str] = []
        # lines that were typed, also those that were not accepted
        self.typed = 0
        self.run: Optional[Run] = None
        self.undoable: List[Moment] = []
        self.snapshots: Dict[str, Moment] = {}

    def answer(self, line: str) -> List[str]:
        """What the prompt prints for a line."""
        self.typed += 1
        words = line.split()
        if not words or words[0].startswith("#"):
            return []
        if words[0] == "help":
            return self.help(words[1:])
        if words == ["show"]:
            return self.show()
        if words == ["undo"]:
            return self.undo()
        if words[0] in ("snapshot", "restore", "save"):
            if len(words) != 2:
                return [f"{words[0]} takes the name of a {'file' if words[0] == 'save' else 'snapshot'}"]
            return {"snapshot": self.snapshot, "restore": self.restore, "save": self.save}[words[0]](words[1])
        return self.take(line)

    def help(self, words: List[str]) -> List[str]:
        if not words:
            return [HELP.format(calls=", ".join(CALLS), head="; ".join(HEAD))]
        if len(words) != 1 or words[0] not in RULES:
            return [f"no call {' '.join(words)}: help takes one of {', '.join(RULES)}"]
        return [help_of(words[0])]

    def take(self, line: str) -> List[str]:
        """Takes a line of the script language. A line with a fault, or for which there is no memory, is not
        accepted."""
        told: List[str] = []
        before = self.moment_before(line)
        is_first = self.script.limits is None and self.script.sizes is None
        if is_first and line.split()[0] not in ("sizes", "limits"):
            for head in HEAD:
                self.script.read_line(self.typed, head)
                self.taken.append(head)
        try:
            read = self.script.read_line(self.typed, line)
        except ScriptFault as fault:
            return explain_fault(fault, line)
        if read is not None:
            try:
                told = [self.make(read)]
            except (MachineError, LibraryMissing) as error:
                self.script.lines.pop()
                return [str(error)]
        self.taken.append(line)
        self.keep(before)
        return [f"warning: {it}"
                for it in warnings(self.script) if it.startswith(f"line {self.typed}:")] + told

    def make(self, line: object) -> str:
        if self.run is None:
            self.run = Run.open(self.script, self.areas)
        if isinstance(line, FlushLine):
            flushed = self.run.machine.flush(line.pages)
            return f"flush: {flushed.written} written, {flushed.failed} failed"
        assert isinstance(line, Command)
        return self.run.step(line)

    def moment_before(self, line: str) -> Optional[Moment]:
        """The moment to which `undo` of the line returns; None if none is kept."""
        if self.script.limits is not None and not most_moments(self.script.limits, self.areas):
            return None
        try:
            return Moment.of(self.script, self.taken, self.run, line)
        except NoMemory:
            return None

    def keep(self, before: Optional[Moment]) -> None:
        """Keeps the last moments for `undo`. If the last line has none, no earlier line can be undone."""
        most = most_moments(self.script.limits, self.areas) if self.script.limits else MOST_MOMENTS
        self.undoable = (self.undoable + [before])[-most:] if before and most else []

    def go_back(self, moment: Moment) -> None:
        script = moment.script()
        run = moment.run(script)
        self.close()
        self.script, self.run, self.taken = script, run, moment.taken[:moment.taken_count]

    def undo(self) -> List[str]:
        if not self.undoable:
            is_large = self.script.limits and not most_moments(self.script.limits, self.areas)
            return ["nothing to undo"
                    + (f": a machine of more than {MOST_PAGES} pages is not copied" if is_large else "")]
        try:
            self.go_back(self.undoable[-1])
        except NoMemory as error:
            return [str(error)]
        moment = self.undoable.pop()
        moment.close()
        return [f"undone: {moment.line}"]

    def snapshot(self, name: str) -> List[str]:
        try:
            self.snapshots[name] = Moment.of(self.script, self.taken, self.run, "")
        except NoMemory as error:
            return [str(error)]
        return [f"snapshot {name}: {len(self.taken)} lines"]

    def restore(self, name: str) -> List[str]:
        if name not in self.snapshots:
            named = ", ".join(self.snapshots)
            return [f"no snapshot {name}: " + (f"there are {named}" if named else "there is none")]
        before = self.moment_before(f"restore {name}")
        try:
            self.go_back(self.snapshots[name])
        except NoMemory as error:
            return [str(error)]
        self.keep(before)
        return [f"restored {name}: {len(self.taken)} lines"]

    def close(self) -> None:
        if self.run is not None:
            self.run.machine.close()

    def text(self) -> str:
        return "".join(line + "\n" for line in self.taken)

    def show(self) -> List[str]:
        """The viewer's text of the last step, if there is a viewer; otherwise the segments and the counts."""
        if self.run is None:
            return ["nothing was called yet"]
        viewer = viewer_program()
        if viewer:
            last = str(len(self.script.lines))
            done = subprocess.run([viewer, "--steps", f"{last}-{last}", *self.swap], input=self.text(),
                                  capture_output=True, text=True, check=False)
            if done.returncode == 0:
                return [done.stdout.strip()]
        without = "" if viewer else WITHOUT
        return [(listing(self.run.machine) + usage(self.run.machine)).strip()] + [without] * bool(without)

    def save(self, name: str) -> List[str]:
        try:
            # an existing file is not changed
            with open(name, "x", encoding="ascii") as file:
                file.write(self.text())
        except FileExistsError:
            return [f"nothing was saved: there is already a file {name}"]
        except OSError as error:
            return [f"nothing was saved: {error}"]
        return [f"saved {len(self.taken)} lines; run them by: shmsim serial {' '.join(self.swap)} < {name}"]


def viewer_program() -> str:
    """The program that writes the viewer's record: built in the repository, or installed."""
    here = os.path.dirname(os.path.abspath(__file__))
    top = os.path.dirname(os.path.dirname(os.path.dirname(here)))
    libraries = os.path.dirname(os.path.dirname(os.path.dirname(here)))
    places = [f"{top}/crates/shmview/out/shmview", f"{top}/build/unproved/shmview",
              f"{libraries}/nogcuvema/bin/shmview"]
    found = shutil.which("shmview")
    if found:
        places.append(os.path.join(os.path.dirname(os.path.realpath(found)), "bin", "shmview"))
    return next((it for it in places if os.access(it, os.X_OK) and os.path.isfile(it)), "")


def complete(text: str, state: int) -> Optional[str]:
    """Completes the words of calls, of declarations and of the prompt."""
    words = [*CALLS, *OWN_WORDS, "sizes", "limits", "process", "child", "flush", "private", "null", "rdonly",
             "remap", "rnd"]
    found = [word + " " for word in words if word.startswith(text)]
    return found[state] if state < len(found) else None


def main(words: List[str]) -> int:
    if any(word in ("-h", "--help", "help") for word in words):
        print(f"{__doc__.strip()}\n{USAGE}")
        return 0
    try:
        prompt = Prompt(words)
    except ValueError as error:
        print(f"nogcuvema: {error}\nnogcuvema: {USAGE}", file=sys.stderr)
        return 2
    is_seen = sys.stdin.isatty()
    if is_seen:
        try:
            import readline
            readline.set_completer(complete)
            readline.parse_and_bind("tab: complete")
        except ImportError:
            pass
        print("A machine with the swap areas " + " ".join(prompt.swap)
              + ". help explains the prompt, quit or exit ends it.")
        viewer = viewer_program()
        print(f"show draws the machine by {viewer}." if viewer
              else f"show prints segments and counts; {WITHOUT}.")
    while True:
        try:
            line = input("> " if is_seen else "")
        except EOFError:
            return 0
        except KeyboardInterrupt:
            print()
            continue
        if line.split() in (["quit"], ["exit"]):
            return 0
        for text in prompt.answer(line):
            print(text, flush=True)


if __name__ == "__main__":
    sys.exit(run_command("nogcuvema", lambda: main(sys.argv[1:])))
