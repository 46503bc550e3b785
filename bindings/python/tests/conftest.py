"""The tests use the library that ./lib made, or that of pytest's option --library."""

from __future__ import annotations

import os

import pytest

TOP = os.path.realpath(os.path.join(os.path.dirname(__file__), "..", "..", ".."))


@pytest.fixture(scope="session", autouse=True)
def library(pytestconfig: pytest.Config) -> None:
    folder = (pytestconfig.getoption("--library", None) or [os.path.join(TOP, "build")])[0]
    if not os.path.isfile(os.path.join(folder, "libnogcuvema.so")):
        pytest.skip(f"there is no shared object in {folder}: ./lib makes it")
    os.environ["NOGCUVEMA_LIBRARY"] = os.path.abspath(folder)
