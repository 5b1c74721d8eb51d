"""The plugin for pytest, where its entry point is: it adds references, and folders with a file fbsim.toml as tests.

It is loaded in each run of pytest where the package is installed. So it imports nothing of the package before such a
file or a test does."""

from __future__ import annotations

import sys
from collections.abc import Iterator
from pathlib import Path
from typing import Any

import pytest


def pytest_addoption(parser: pytest.Parser) -> None:
    """Adds the option --fbsim-bless."""
    how: dict[str, Any] = {"action": "store_const", "dest": "fbsim_bless"}
    group = parser.getgroup("fbsim")
    text = "makes the traces of runs the references that they are compared with, unless they break rules or CI is set"
    group.addoption("--fbsim-bless", const="yes", help=text, **how)
    # (as an option of its own it takes no word after it, as a value of the other one would)
    group.addoption("--fbsim-bless=force", const="force", help="the same, whatever breaks and wherever it runs", **how)


def pytest_collect_file(file_path: Path, parent: pytest.Collector) -> pytest.Collector | None:
    """Collects files fbsim.toml."""
    if file_path.name != "fbsim.toml":
        return None
    from fbsim.pytest_plugin import BenchFile

    file: pytest.Collector = BenchFile.from_parent(parent, path=file_path)
    return file


@pytest.fixture
def reference(request: pytest.FixtureRequest) -> Any:
    """Returns a call that gives the reference of a name from the folder of the test."""
    from fbsim.references import references_of

    return references_of(request.node)


@pytest.hookimpl(trylast=True)  # type: ignore[misc]
def pytest_runtest_call(item: pytest.Item) -> None:
    """Fails a test that ends well and has a reference which it compares with no trace."""
    if "fbsim.references" in sys.modules:
        from fbsim.references import check_references_of

        check_references_of(item)


@pytest.hookimpl(hookwrapper=True)  # type: ignore[misc]
def pytest_runtest_makereport() -> Iterator[None]:
    """Has a failure shown without the frames of this package, unless the package itself is wrong."""
    if "fbsim" in sys.modules:
        from fbsim.faults import hide_frames

        hide_frames()
    yield


def pytest_assertrepr_compare(op: str, left: object, right: object) -> list[str] | None:
    """Shows where two traces first differ."""
    if op != "==" or "fbsim.trace" not in sys.modules:
        return None
    from fbsim.references import compared

    return compared(left, right)


def pytest_terminal_summary(terminalreporter: Any, config: pytest.Config) -> None:
    """Names all references that were changed, whatever became of their tests."""
    reports = [it for them in terminalreporter.stats.values() for it in them]
    named = {value for it in reports for name, value in getattr(it, "user_properties", ()) if name == "fbsim_blessed"}
    if "fbsim.references" in sys.modules:
        from fbsim.references import changed

        named |= changed(config)
    if named:
        terminalreporter.section("references changed by --fbsim-bless")
        terminalreporter.write_line("\n".join(sorted(named)))
