"""The exceptions of this package. Each is a `Fault`."""

from __future__ import annotations

import re
import sys
from collections.abc import Iterable, Sequence
from typing import TYPE_CHECKING, Any, NamedTuple, cast

if TYPE_CHECKING:
    from fbsim.trace import Lines, Report

# What the program prints of a refusal with --why (docs/formats/program.md).
HEAD = re.compile(r"refused (E\d\d|trace)(?: (.*?))??(?: line (\d+))?")
PLACE = re.compile(r"(.*?):(\d+):(\d+): E\d\d: (.*)")
OF_RULES_OR_TRACE = re.compile(r"(?:(rules|.*?): )?(?:line (\d+)(?:, column (\d+))?: )?(.*)")
# The files that the line of a file fault may name.
FILE = re.compile(r"((?:block types|declaration|deployment|stimuli|rules|trace|file) )?(?:(.*): )?(.*)")


class Location(NamedTuple):
    """A place in an input at which a refusal applies. What is not known of it is None."""

    file: str | None
    line: int | None
    column: int | None
    text: str
    excerpt: str = ""

    def __str__(self) -> str:
        place = ":".join(str(it) for it in self[:3] if it is not None)
        return (place and f"{place}: ") + self.text + (self.excerpt and f"\n{self.excerpt}")


class Stop(NamedTuple):
    """Why a run stopped before its horizon: `reason` is steps, divide or range, and `where` is what `--why` prints."""

    tick: int
    resource: str
    reason: str
    where: str = ""

    def __str__(self) -> str:
        return f"stop {self.tick} {self.resource} {self.reason}" + (self.where and f"\n{self.where}")


class Fault(Exception):
    """Anything that went wrong with the program, its inputs or its output."""


def hides_frames(excinfo: Any) -> bool:
    """Whether pytest shows a failure without the frames of this package: not if the package itself is wrong."""
    return excinfo is not None and isinstance(excinfo.value, Fault)


def hide_frames() -> None:
    """Has pytest ask `hides_frames` for each frame of the modules of this package that are loaded."""
    for name, module in list(sys.modules.items()):
        if name.partition(".")[0] == "fbsim":
            setattr(module, "__tracebackhide__", hides_frames)


class InputFault(Fault, ValueError):
    """What was given is wrong: an argument out of range, a pattern, a text that is no trace, a file fbsim.toml."""


def needs(given: object, kind: type | tuple[type, ...], what: str) -> None:
    """Raises an InputFault if an argument is not of a kind."""
    if not isinstance(given, kind):
        raise InputFault(f"{given!r} is not {what}")


def texts_of(given: object, what: str) -> list[str]:
    """Returns texts that are given as a list, or one alone."""
    needs(given, Iterable, f"a list of {what}")
    found = [given] if isinstance(given, str) else list(cast(Iterable[str], given))
    for it in found:
        needs(it, str, f"{what}: it is a text")
    return found


def encoded(text: str) -> bytes:
    """Returns the bytes of a text for the program, or raises an InputFault if a character of it has none."""
    try:
        return text.encode("utf-8", "surrogateescape")
    except UnicodeEncodeError as it:
        raise InputFault(f"the text has a character that is none: {text[it.start]!r}") from it


class TimedOut(Fault, TimeoutError):
    """The program took longer than the `timeout` of the call, and was ended."""


class ProgramMissing(Fault):
    """The program was not found."""


class ProgramFault(Fault):
    """The program ended with a status that it does not have, or by a signal."""


class Refused(Fault):
    """The inputs are refused. `number` is `E21`, or None for a text that is no trace.

    `file`, `line`, `column` and `text` are those of the first location; `locations` has all that the program reports.
    """

    def __init__(self, number: str | None, locations: Sequence[Location]) -> None:
        super().__init__(number, locations)
        self.number, self.locations = number, list(locations)
        self.file, self.line, self.column, self.text, _ = self.locations[0]

    def __str__(self) -> str:
        return "\n".join([f"refused {self.number or 'trace'}", *(str(it) for it in self.locations)])


class FileFault(Fault):
    """A file can't be read. `kind` says which input it is, and `file` names it, if the program does."""

    def __init__(self, text: str, kind: str | None = None, file: str | None = None) -> None:
        super().__init__(text, kind, file)
        self.text, self.kind, self.file = text, kind, file

    def __str__(self) -> str:
        return f"file fault: {' '.join(it for it in (self.kind, self.file and f'{self.file}:', self.text) if it)}"


def of_system(it: OSError, name: str = "") -> FileFault:
    """Returns the fault of a file or a folder that the system does not make, read or write."""
    return FileFault(it.strerror or str(it), "file", str(it.filename2 or it.filename or name) or None)


class WriteFault(Fault):
    """The program could not write its output: the disk is full, or the pipe was closed."""


class OutOfMemory(Fault):
    """The program ran out of memory. One worker needs least."""


class Stopped(Fault):
    """The run stopped before its horizon. `trace` has its lines, which are valid up to the stop."""

    def __init__(self, stop: Stop, trace: Lines | None = None) -> None:
        super().__init__(stop)
        self.stop, self.trace = stop, trace


class SequenceBroken(Fault, AssertionError):
    """A block type did not answer as its sequence says."""


class ReferenceDiffers(Fault, AssertionError):
    """A trace is not that of its reference."""


class RulesBroken(Fault, AssertionError):
    """A trace breaks rules. `report` has the verdicts of all rules."""

    def __init__(self, report: Report) -> None:
        super().__init__(report)
        self.report, self.broken = report, report.broken

    def __str__(self) -> str:
        return "\n".join(str(it) for it in self.broken)


def refusal(lines: Sequence[str]) -> Refused:
    """Returns the refusal that the lines of standard error report, each location with its source line and mark."""
    head = HEAD.fullmatch(lines[0]) or HEAD.fullmatch("refused trace")
    assert head is not None
    found: list[Location] = []
    at = 1
    while at < len(lines):
        place, other = PLACE.fullmatch(lines[at]), OF_RULES_OR_TRACE.fullmatch(lines[at])
        if place:
            excerpt = "\n".join(lines[at + 1:at + 3])
            found.append(Location(place[1], int(place[2]), int(place[3]), place[4], excerpt))
        elif other:
            line, column = (None if it is None else int(it) for it in other.group(2, 3))
            found.append(Location(other[1], line, column, other[4]))
        at += 3 if place else 1
    if not found:
        text = "this is no trace" if lines[0].startswith("refused trace") else lines[0]
        found.append(Location(head[2], int(head[3]) if head[3] else None, None, text))
    return Refused(None if head[1] == "trace" else head[1], found)


def fault_of(status: int, said: str) -> Fault:
    """Returns the exception for a status of the program that is a fault, and what it said on standard error."""
    lines = said.splitlines() or [""]
    match status:
        case 2:
            return refusal(lines)
        case 3 if lines[0] == "file fault":
            parts = FILE.fullmatch(lines[1] if len(lines) > 1 else "a file can't be read")
            return FileFault(parts[3], parts[1] and parts[1].strip(), parts[2]) if parts else FileFault(said)
        case 3:
            return WriteFault(said.strip())
        case 4:
            return OutOfMemory("out of memory: use one worker")
        case 5:
            return InputFault(said.strip())
    ended = f"signal {-status}" if status < 0 else f"status {status}"
    return ProgramFault(f"the program ended with {ended}: {said.strip()}")
