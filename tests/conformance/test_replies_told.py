"""The replies that the cases tell are this system's, by the profile and under Linux's rules."""

import os

import pytest

from commands import text_of
from nogconform.compare import against_peer, told_events
from nogconform.explain import LEFT, Machine
from nogconform.places import CASES, LIBRARY_CASES, names_in
from nogconform.running import Peer, build_library
from nogconform.script import Case, read_case

CASES_OF_ALL = [path for folder in ("", *LIBRARY_CASES) for path in names_in(os.path.join(CASES, folder))]


def case_of(path: str) -> Case:
    return read_case(path, text_of(path), has_flags=True)


def name_of(path: str) -> str:
    return os.path.basename(path)[:-4]


@pytest.mark.parametrize("path", CASES_OF_ALL, ids=name_of)
def test_linux_line_is_needed(path: str) -> None:
    """A case has a reply for Linux exactly where it differs."""
    assert not [command.line for command in case_of(path).commands if command.linux == command.expected]


@pytest.fixture(scope="module")
def machine(library: str, tmp_path_factory: pytest.TempPathFactory) -> Machine:
    return Machine([build_library(str(tmp_path_factory.mktemp("machine")), library)[0]], True, 10)


@pytest.mark.skipif(os.geteuid() != 0, reason="only root can be each user of the cases")
@pytest.mark.parametrize("path", CASES_OF_ALL, ids=name_of)
def test_told(path: str, peer: str, machine: Machine) -> None:
    """This system gives the replies of each case, for the profile and for Linux's rules."""
    case = case_of(path)
    others = Peer([peer]).run(case.text, len(case.commands))
    for is_linux in (False, True):
        events = told_events(case, others, is_linux)
        result = against_peer(case, events, others, machine, is_linux=is_linux)
        assert not [line for difference in result.different for line in difference.lines()]
        assert not is_linux or {*result.by_rule} <= {*LEFT}
