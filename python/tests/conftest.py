"""Fixtures of all tests."""

from __future__ import annotations

from pathlib import Path

import pytest

TOP = Path(__file__).resolve().parents[2]

pytest_plugins = ["pytest_fbsim", "pytester", "rooms"]


@pytest.fixture(scope="session")
def top() -> Path:
    """The top of the repository."""
    return TOP


@pytest.fixture(scope="session")
def examples() -> Path:
    """The folder of the examples."""
    return TOP / "examples"


@pytest.fixture(scope="session")
def conveyor():
    """The trace of examples/conveyor."""
    from common import example_in

    return example_in(TOP / "examples" / "conveyor").run()
