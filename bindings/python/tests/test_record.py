"""The viewer's record as dictionaries. The record here is written by hand, by the table of docs/VIEWER.md."""

from __future__ import annotations

import json
import os
import subprocess
import sys

import pytest

import nogcuvema
from nogcuvema.record import RecordFault, steps

HEADER = f"{'key':<10} {'shmid':<10} {'owner':<10} {'perms':<10} {'bytes':<10} {'nattch':<10} status\n"
RECORD = f"""step 0
start
{HEADER}process 1 live 100 200
process 2 unborn
frames 4 hand 0
area 0 64
usage events 0 segments 0 reserved 0 locked 0
usage frames 0/4 dirty 0 slots 0/64
usage in 0 out 0 failures 0

step 1
call 1 1 store 0x40000000 2a = ok
    page 0 of segment 32768 has a frame
{HEADER}0x00000007 32768      100        640        8192       2          dest,locked
process 1 ended
process 2 live 0 0
piece 0x40000000 32768 1 2 rw
piece 0x50000000 32768 0 1 ro
frames 4 hand 3
frame 1 32768 0 -d
frame 2 32768 1 r-
area 0 gone
area 1 8
slot 1 5 32768 1
usage events 1 segments 1 reserved 2 locked 2
usage frames 2/4 dirty 1 slots 1/8
usage in 3 out 4 failures 5

step 2
flush 8 written 2 failed 1
{HEADER}frames 4 hand 3
"""


def test_steps() -> None:
    first, second, third = steps(RECORD.splitlines(True))
    assert (first["step"], first["did"]) == (0, {"kind": "start"})
    assert first["areas"] == [{"area": 0, "slots": 64}]
    assert first["processes"] == [{"pid": 1, "state": "live", "uid": 100, "gid": 200, "pieces": []},
                                  {"pid": 2, "state": "unborn", "pieces": []}]
    wanted = {
        "step": 1, "changes": ["page 0 of segment 32768 has a frame"], "hand": 3,
        "did": {"kind": "call", "place": 1, "pid": 1, "call": "store", "operands": ["0x40000000", "2a"],
                "reply": "ok"},
        "segments": [{"key": 7, "id": 32768, "owner": 100, "mode": "640", "bytes": 8192, "nattch": 2,
                      "marks": ["dest", "locked"]}],
        "processes": [{"pid": 1, "state": "ended", "pieces": []},
                      {"pid": 2, "state": "live", "uid": 0, "gid": 0, "pieces": [
            {"base": 0x40000000, "segment": 32768, "first": 1, "pages": 2, "is_writable": True},
            {"base": 0x50000000, "segment": 32768, "first": 0, "pages": 1, "is_writable": False}]}],
        "frames": [{"frame": 1, "segment": 32768, "page": 0, "is_referenced": False, "is_dirty": True},
                   {"frame": 2, "segment": 32768, "page": 1, "is_referenced": True, "is_dirty": False}],
        "areas": [{"area": 0, "slots": None}, {"area": 1, "slots": 8}],
        "slots": [{"area": 1, "slot": 5, "segment": 32768, "page": 1}],
        "usage": {"events": 1, "segments": 1, "reserved": 2, "locked": 2, "resident": 2, "frames": 4,
                  "dirty": 1, "used": 1, "slots": 8, "ins": 3, "outs": 4, "failures": 5}}
    assert second == wanted
    assert third["did"] == {"kind": "flush", "pages": 8, "written": 2, "failed": 1}


@pytest.mark.parametrize("line", ["nothing", "frame 1", "process x live 0 0", "step x",
                                  "flush 8 wrote 1 failed 0", "piece 0x0 0 0 1 rw"])
def test_lines_without_a_form(line: str) -> None:
    with pytest.raises(RecordFault, match="line 2: "):
        list(steps(["step 0\n", line + "\n"]))


def test_no_lines() -> None:
    assert list(steps([])) == []


def test_as_a_program() -> None:
    env = {"PYTHONPATH": os.path.dirname(os.path.dirname(nogcuvema.__file__))}
    words = [sys.executable, "-B", "-m", "nogcuvema.record"]
    for given, status, count in ((RECORD, 0, 3), (RECORD + "\nno form\n", 1, 3)):
        done = subprocess.run(words, input=given, capture_output=True, text=True, check=False, env=env)
        assert (done.returncode, len(done.stdout.splitlines())) == (status, count), done.stderr
        assert [json.loads(line)["step"] for line in done.stdout.splitlines()] == [0, 1, 2]
