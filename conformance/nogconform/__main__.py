"""python3 -m nogconform is ./conform."""

import sys

from nogcuvema._ending import run_command

from .cli import main

sys.exit(run_command("conform", lambda: main(sys.argv[1:])))
