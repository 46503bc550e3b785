"""Turns the viewer's record into JSON lines, one step each: shmview --text SWAP... < SCRIPT | python3 -m
nogcuvema.record

docs/PYTHON.md lists the fields. If a line is not one of a record, the program names it and ends with status
1; the steps before it are written."""
import json
import re
import sys
from typing import Any, Dict, Iterable, Iterator, List

from ._ending import run_command

SEGMENT = re.compile(r"(0x[0-9a-f]{8}) +(\d+) +(\d+) +([0-7]{3}) +(\d+) +(\d+) +(\S+)")
USAGE = re.compile(r"usage (?:events (\d+) segments (\d+) reserved (\d+) locked (\d+)|"
                   r"frames (\d+)/(\d+) dirty (\d+) slots (\d+)/(\d+)"
                   r"|in (\d+) out (\d+) failures (\d+))")
COUNTS = ("events", "segments", "reserved", "locked", "resident", "frames", "dirty", "used", "slots", "ins",
          "outs", "failures")


class RecordFault(ValueError):
    """A line that is not one of a record."""


def _what(words: List[str], line: str) -> Dict[str, Any]:
    """What a step did."""
    if words == ["start"]:
        return {"kind": "start"}
    if words[0] == "call":
        call, _, reply = line[len("call "):].partition(" = ")
        place, pid, name, *operands = call.split()
        return {"kind": "call", "place": int(place), "pid": int(pid), "call": name, "operands": operands,
                "reply": reply}
    if words[0] == "flush" and words[2] == "written" and words[4] == "failed":
        return {"kind": "flush", "pages": int(words[1]), "written": int(words[3]), "failed": int(words[5])}
    raise RecordFault(line)


def _add(step: Dict[str, Any], words: List[str], line: str) -> None:
    """Adds what one line shows to its step."""
    segment, counts = SEGMENT.fullmatch(line), USAGE.fullmatch(line)
    if line.startswith("    "):
        step["changes"].append(line.strip())
    elif words[0] in ("start", "call", "flush"):
        step["did"] = _what(words, line)
    elif segment:
        key, number, owner, mode, size, attached, marks = segment.groups()
        step["segments"].append({"key": int(key, 16), "id": int(number), "owner": int(owner), "mode": mode,
                                 "bytes": int(size),
                                 "nattch": int(attached), "marks": [] if marks == "-" else marks.split(",")})
    elif words[0] == "process":
        ids = {"uid": int(words[3]), "gid": int(words[4])} if words[2] == "live" else {}
        step["processes"].append({"pid": int(words[1]), "state": words[2], **ids, "pieces": []})
    elif words[0] == "piece":
        step["processes"][-1]["pieces"].append({"base": int(words[1], 16), "segment": int(words[2]),
                                                "first": int(words[3]),
                                                "pages": int(words[4]), "is_writable": words[5] == "rw"})
    elif words[0] == "frames":
        step["hand"] = int(words[3])
    elif words[0] == "frame":
        step["frames"].append({"frame": int(words[1]), "segment": int(words[2]), "page": int(words[3]),
                               "is_referenced": "r" in words[4], "is_dirty": "d" in words[4]})
    elif words[0] == "area":
        step["areas"].append({"area": int(words[1]), "slots": None if words[2] == "gone" else int(words[2])})
    elif words[0] == "slot":
        step["slots"].append(dict(zip(("area", "slot", "segment", "page"), map(int, words[1:5]))))
    elif counts:
        step["usage"].update({name: int(value) for name,
                              value in zip(COUNTS, counts.groups()) if value is not None})
    elif not line.startswith("key "):
        raise RecordFault(line)


def steps(lines: Iterable[str]) -> Iterator[Dict[str, Any]]:
    """The steps of a record, each as a dictionary. Raises `RecordFault` with the number of a wrong line."""
    step: Dict[str, Any] = {}
    for number, line in enumerate(lines, 1):
        line = line.rstrip("\n")
        words = line.split()
        try:
            if not words:
                if step:
                    yield step
                step = {}
            elif words[0] == "step" and not step:
                step = {"step": int(words[1]), "did": None, "changes": [], "segments": [], "processes": [],
                        "hand": 0, "frames": [],
                        "areas": [], "slots": [], "usage": {}}
            else:
                _add(step, words, line)
        except (IndexError, KeyError, ValueError):
            raise RecordFault(f"line {number}: not a line of the viewer's record: {line[:80]}") from None
    if step:
        yield step


def main() -> int:
    if sys.argv[1:]:
        print(f"record: no such word: {sys.argv[1]}; usage: python3 -m nogcuvema.record < RECORD",
              file=sys.stderr)
        return 2
    try:
        for step in steps(sys.stdin):
            print(json.dumps(step))
    except RecordFault as fault:
        print(f"record: {fault}", file=sys.stderr)
        return 1
    return 0


if __name__ == "__main__":
    sys.exit(run_command("record", main))
