"""Ends a command whose output can't be written with one line and a status, instead of a traceback."""
import argparse
import contextlib
import os
import sys
from typing import IO, Callable, Optional

CANT_WRITE, INTERRUPTED = 3, 130


class Parser(argparse.ArgumentParser):
    """A parser that fails if a help text can't be written, which argparse ignores."""

    def print_help(self, file: Optional[IO[str]] = None) -> None:
        print(self.format_help(), end="", file=file)


def run_command(name: str, main: Callable[[], int]) -> int:
    """Returns the status of `main`. If a file or standard output fails it, because a pipe is closed or a disk
    is full, this prints one line and returns CANT_WRITE."""
    try:
        try:
            return main()
        finally:
            if sys.stdout is not None:
                sys.stdout.flush()
    except OSError as error:
        drop_output()
        with contextlib.suppress(OSError):
            print(f"{name}: {error.filename or 'the output'}: {error.strerror or error}", file=sys.stderr)
        return CANT_WRITE
    except KeyboardInterrupt:
        drop_output()
        with contextlib.suppress(OSError):
            print(f"{name}: interrupted", file=sys.stderr)
        return INTERRUPTED


def drop_output() -> None:
    """Discards what standard output has buffered, so that the program's end does not fail once more."""
    with contextlib.suppress(OSError):
        nowhere = os.open(os.devnull, os.O_WRONLY)
        os.dup2(nowhere, 1)
        os.close(nowhere)
