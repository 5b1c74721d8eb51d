"""Loops: what replaces CONTINUE, which the profile lacks, and the warning I03 of a variable of FOR that is read after its loop.

The body of a loop with CONTINUE becomes a loop that runs once, so that EXIT leaves it."""

from __future__ import annotations

from collections.abc import Callable, Iterator
from dataclasses import dataclass, field

from .expressions import Expression, Literal, Variable
from .statements import Segment, assigned, made, test

CLOSINGS = {"FOR": "END_FOR", "WHILE": "END_WHILE", "REPEAT": "UNTIL"}
# What may run its statements or not. (REPEAT runs them at least once.)
OPENINGS = frozenset(("IF", "CASE", "FOR", "WHILE"))
ENDINGS = frozenset(("END_IF", "END_CASE", "END_FOR", "END_WHILE"))
BRANCHES = frozenset(("ELSE", "ELSIF", "LABEL"))


@dataclass(slots=True)
class Loop:
    """A loop: where it opens and closes, and which CONTINUE and EXIT are its own."""

    depth: int
    begin: int
    end: int = -1
    rows: dict[str, list[int]] = field(default_factory=lambda: {"CONTINUE": [], "EXIT": []})


def loops_of(segments: list[Segment], refuse: Callable[[int, str], object]) -> list[Loop]:
    """Return all loops that close. A CONTINUE outside of them is refused."""
    found: list[Loop] = []
    open_loops: list[Loop] = []
    for at, it in enumerate(segments):
        if it.kind in CLOSINGS:
            open_loops.append(Loop(len(open_loops), at))
        elif it.kind in CLOSINGS.values() and open_loops:
            open_loops[-1].end = at
            found.append(open_loops.pop())
        elif it.kind in ("CONTINUE", "EXIT") and open_loops:
            open_loops[-1].rows[it.kind].append(at)
        elif it.kind == "CONTINUE":
            refuse(it.start, "CONTINUE is in no loop")
    return found


def continued(segments: list[Segment], fresh: Callable[[str, int], Variable], refuse: Callable[[int, str], object]) -> list[Segment]:
    """Return segments without CONTINUE. An EXIT beside it sets a flag, which leaves the outer loop too."""
    before: dict[int, list[Segment]] = {}
    instead: dict[int, list[Segment]] = {}
    # The inner loops come first, so what an outer one puts at the same place comes before it.
    for loop in loops_of(segments, refuse):
        if not loop.rows["CONTINUE"]:
            continue
        opening, closing = segments[loop.begin], segments[loop.end]
        inner = made("UNTIL TRUE END_REPEAT ;", closing.start)
        if loop.rows["EXIT"]:
            flag = fresh("BOOL", loop.depth)
            before[loop.begin] = assigned(flag, Literal(opening.start, "BOOL", "FALSE"))
            inner += [test("IF", flag, "THEN"), *made("EXIT ; END_IF ;", closing.start)]
            for at in loop.rows["EXIT"]:
                instead[at] = [*assigned(flag, Literal(segments[at].start, "BOOL", "TRUE")), *made("EXIT", segments[at].start)]
        instead |= {at: made("EXIT", segments[at].start) for at in loop.rows["CONTINUE"]}
        instead[loop.begin] = [opening, *made("REPEAT", opening.start)]
        before[loop.end] = inner
    return [one for at, it in enumerate(segments) for one in (*before.get(at, ()), *instead.get(at, [it]))]


def variables_of(it: Expression) -> Iterator[Variable]:
    """Return each use of a variable in an expression."""
    if isinstance(it, Variable):
        yield it
    for one in it.parts():
        yield from variables_of(one)


def read_in(segment: Segment, name: str) -> Variable | None:
    """Return the first use of a variable in a segment that reads it, not that which the segment assigns."""
    row = segment.row[1:] if segment.kind == ":=" else segment.row[2:] if segment.kind == "FOR" else segment.row
    return next((one for it in row if isinstance(it, Expression) for one in variables_of(it) if one.name == name), None)


def read_after(segments: list[Segment], name: str) -> Variable | None:
    """Return the first use of a variable in what follows a loop, unless it is assigned before. Other branches of an IF or a CASE
    round the loop do not follow it."""
    depth = lowest = 0
    # The depth at which a branch is passed over: it does not follow the loop, or the variable is assigned in it.
    passed: int | None = None
    for it in segments:
        if it.kind in ENDINGS:
            depth -= 1
            passed = None if passed is not None and depth < passed else passed
        if it.kind in BRANCHES and depth == passed and depth > lowest:
            passed = None
        elif it.kind in BRANCHES and depth <= lowest:
            passed = depth
        lowest = min(lowest, depth)
        if passed is None and (found := read_in(it, name)):
            return found
        target = it.row[0] if it.kind == ":=" else it.row[1] if it.kind == "FOR" else None
        if passed is None and isinstance(target, Variable) and target.name == name:
            if depth <= lowest:
                return None
            passed = depth
        depth += it.kind in OPENINGS
    return None


def read_later(segments: list[Segment]) -> Iterator[Variable]:
    """Return for each FOR the first use of its variable after it that reads what the loop has left."""
    for loop in loops_of(segments, lambda *_: None):
        opening = segments[loop.begin]
        counter = opening.row[1] if opening.kind == "FOR" else None
        if isinstance(counter, Variable) and (found := read_after(segments[loop.end + 1:], counter.name)):
            yield found
