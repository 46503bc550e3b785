"""The moments of a run that the prompt can return to, each with a snapshot of its machine."""
from dataclasses import dataclass
from typing import Dict, List, Optional, Sequence, Union

from .machine import Area, Limits, Machine, Process
from .script import Command, FlushLine, Run, Script

MOST_MOMENTS = 100
# the most pages of all moments that can be undone: 256 MiB
MOST_PAGES = 65536
RAM, MIRROR = 1, 3


def most_moments(limits: Limits, areas: Sequence[Area]) -> int:
    """How many moments `undo` keeps: at most 100, and fewer for a machine of many pages."""
    sides = {RAM: 1, MIRROR: 2}
    pages = limits.frames + sum(min(it.slots, limits.shmall) if it.kind not in sides
                                else it.slots * sides[it.kind] for it in areas)
    return min(MOST_MOMENTS, MOST_PAGES // pages)


@dataclass
class Moment:
    """A run at one moment. The lists of lines only grow, so a moment shares them and keeps their lengths."""
    sizes: Optional[Limits]
    limits: Optional[Limits]
    processes: List[Process]
    lines: List[Union[Command, FlushLine]]
    line_count: int
    taken: List[str]
    taken_count: int
    machine: Optional[Machine]                # none if no call was made yet
    variables: Dict[int, Dict[str, int]]
    line: str                                 # the line that came next; nothing for a moment with a name

    @classmethod
    def of(cls, script: Script, taken: List[str], run: Optional[Run], line: str) -> "Moment":
        """The current moment. Raises `NoMemory` if there is no memory for the snapshot."""
        variables = {pid: dict(letters) for pid, letters in run.variables.items()} if run else {}
        return cls(script.sizes, script.limits, list(script.processes), script.lines, len(script.lines),
                   taken, len(taken), run.machine.snapshot() if run else None, variables, line)

    def script(self) -> Script:
        script = Script()
        script.sizes, script.limits, script.processes = self.sizes, self.limits, list(self.processes)
        script.pids = {it.pid for it in self.processes}
        script.lines = self.lines[:self.line_count]
        return script

    def run(self, script: Script) -> Optional[Run]:
        """A run that continues from the moment, over another snapshot; the moment stays as it is."""
        if self.machine is None:
            return None
        run = Run(self.machine.snapshot(), script)
        run.variables = {pid: dict(letters) for pid, letters in self.variables.items()}
        return run

    def close(self) -> None:
        if self.machine is not None:
            self.machine.close()
