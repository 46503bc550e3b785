#!/usr/bin/env -S python3 -B
"""The built programs. Nothing here builds one: a test starts no proof.

    tools/built.py CRATE    prints where the proved program of CRATE is; status 125 if it is not built from
                            these sources
"""
from __future__ import annotations

import os
import sys

from crates import TOP


class NotBuilt(Exception):
    """There is no program of these sources."""


def is_source(name: str) -> bool:
    return name.endswith((".rt", ".antt"))


def newest_source() -> float:
    """The time of the last change of a source."""
    times = [os.stat(f"{TOP}/crates.txt").st_mtime]
    for at, folders, names in os.walk(f"{TOP}/crates"):
        if "out" in folders:
            folders.remove("out")
        times += [os.stat(os.path.join(at, name)).st_mtime for name in names if is_source(name)]
    return max(times)


def program_of(crate: str, may_be_unproved: bool = False) -> str:
    """A crate's program that no source is newer than: the proved one, or, if allowed, an unproved one."""
    places = [f"{TOP}/crates/{crate}/out/{crate}",
              f"{TOP}/build/unproved/{crate}"][:2 if may_be_unproved else 1]
    newest = newest_source()
    for path in places:
        if os.access(path, os.X_OK) and os.stat(path).st_mtime >= newest:
            return path
    how = (f"tools/build {crate} proves and builds it"
           + f", and ./{crate} --unproved compiles it" * may_be_unproved)
    raise NotBuilt(f"{crate} is not built from these sources: {how}")


def main(words: list[str]) -> int:
    if len(words) != 1 or words[0].startswith("-"):
        print(__doc__.strip(), file=sys.stderr)
        return 2
    try:
        print(program_of(words[0]))
    except NotBuilt as why:
        print(why, file=sys.stderr)
        return 125
    return 0


if __name__ == "__main__":
    sys.exit(main(sys.argv[1:]))
