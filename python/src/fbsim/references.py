"""References: traces in files, as somebody last reviewed them."""

from __future__ import annotations

import os
import warnings
from collections.abc import Callable, Sequence
from pathlib import Path
from typing import Any, cast

import pytest

from fbsim.faults import InputFault, ReferenceDiffers, needs
from fbsim.stimuli import FileName, file_name, made_folder
from fbsim.trace import Trace

# References that were changed in this process. (A test that is interrupted has no report to name them.)
CHANGED: Any = pytest.StashKey()
# The references that a test has asked for.
REFERENCES: Any = pytest.StashKey()
HINT = "if this is intended: --fbsim-bless makes the new trace the reference"


def difference(path: Path, trace: Trace) -> list[str]:
    """Returns what `fbsim diff` says of a reference and a trace, in lines: none if they are the same."""
    needs(trace, Trace, "a trace")
    if not path.is_file():
        return [f"there is no reference {path}: --fbsim-bless makes it"]
    if trace.path.exists() and path.samefile(trace.path):
        raise InputFault(f"{path} is the reference and the trace: a file is always the same as itself")
    if trace == Trace(path):
        return []
    said = Trace(path).diff(trace).replace(str(trace.path), "the run")
    return [f"the trace is not that of {path}", *said.splitlines(), HINT]


def may_bless(config: pytest.Config, broken: Sequence[str] = ()) -> tuple[bool, list[str]]:
    """Returns whether --fbsim-bless changes references, and why it does not though it is given.

    `broken` are the rules that the new trace breaks. With --fbsim-bless=force neither they nor a CI engine matter.
    """
    how = config.getoption("fbsim_bless")
    faults = ["the environment variable CI is set"] * bool(os.environ.get("CI"))
    faults += [f"the trace breaks rules: {', '.join(broken)}"] * bool(broken)
    if how and how != "force" and faults:
        return False, [f"not blessed, since {' and '.join(faults)}; --fbsim-bless=force makes it the reference"]
    return bool(how), []


def bless(path: Path, trace: Trace | None, node: pytest.Item, differs: list[str], broken: Sequence[str] = ()) -> None:
    """Makes a trace that differs the reference where that is wanted, otherwise raises `ReferenceDiffers`."""
    blesses, why_not = may_bless(node.config, broken)
    if not blesses or trace is None:
        raise ReferenceDiffers("\n".join([*differs, *why_not]))
    if str(path) in changed(node.config):
        raise ReferenceDiffers("\n".join([f"{path} was blessed before in this run, with another trace", *differs]))
    made_folder(path.parent)
    trace.save(path)
    node.user_properties.append(("fbsim_blessed", str(path)))
    changed(node.config).add(str(path))


def changed(config: pytest.Config) -> set[str]:
    """Returns the references that this process has changed, to be added to."""
    stash: Any = config.stash
    return cast(set[str], stash.setdefault(CHANGED, set()))


def compared(left: object, right: object) -> list[str] | None:
    """Returns where two traces, or a trace and a reference, first differ, for an assertion that they are equal."""
    for trace, other in ((left, right), (right, left)):
        if isinstance(trace, Trace) and isinstance(other, Reference):
            return other.difference(trace)
    if isinstance(left, Trace) and isinstance(right, Trace):
        return ["the traces differ", *left.diff(right).splitlines()]
    return None


class Reference:
    """A trace in a file, as somebody last reviewed it. `check` compares a trace with it."""

    def __init__(self, path: Path, node: pytest.Item) -> None:
        self.path, self.node, self.is_compared = path, node, False

    def __repr__(self) -> str:
        return f"<reference {self.path}>"

    __hash__ = None  # type: ignore[assignment]

    def __bool__(self) -> bool:
        raise InputFault(f"{self!r} is neither true nor false: use reference({self.path.name!r}).check(trace)")

    def check(self, trace: Trace) -> None:
        """Raises `ReferenceDiffers` if a trace differs. With --fbsim-bless the trace becomes the reference instead."""
        differs = self.difference(trace)
        if differs:
            bless(self.path, trace, self.node, differs)

    def __eq__(self, other: object) -> bool:
        """Whether a trace is the same. Comparing changes no file."""
        if not isinstance(other, Trace):
            return NotImplemented
        text = f"{self!r} is compared by ==, which blesses nothing: use reference({self.path.name!r}).check(trace)"
        warnings.warn(text, DeprecationWarning, stacklevel=2)
        return not self.difference(other)

    def difference(self, trace: Trace) -> list[str]:
        """Returns what `fbsim diff` says of the reference and a trace."""
        self.is_compared = True
        return difference(self.path, trace)


def references_of(item: pytest.Item) -> Callable[[FileName], Reference]:
    """Returns a call that gives a test the reference of a name from its folder. Each run of the test has new ones."""
    made: list[Reference] = []
    stash: Any = item.stash
    stash[REFERENCES] = made

    def named(name: FileName) -> Reference:
        made.append(Reference(item.path.parent / file_name(name, "a reference"), item))
        return made[-1]

    return named


def check_references_of(item: pytest.Item) -> None:
    """Raises a fault if a test has asked for a reference, and has compared no trace with it."""
    stash: Any = item.stash
    for it in stash.get(REFERENCES, []):
        if not it.is_compared:
            raise InputFault(f"{it!r} is compared with no trace: use reference({it.path.name!r}).check(trace)")
