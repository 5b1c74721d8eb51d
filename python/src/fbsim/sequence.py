"""Service sequences: one block type alone, its events, and the output events that must follow."""

from __future__ import annotations

import re
from collections.abc import Iterable, Mapping, Sequence
from typing import NamedTuple

from fbsim.application import Application
from fbsim.faults import InputFault, SequenceBroken, needs, texts_of
from fbsim.stimuli import FileName, Row, file_name
from fbsim.texts import constant, of_application, read, temporary_folder, write
from fbsim.trace import Line

INSTANCE = "BLOCK"
EVENT = re.compile(r"[A-Z_]\w*(?: +[A-Z_]\w*=(?:TRUE|FALSE|-?\d+))*", re.ASCII)
WAIT = re.compile(r"WAIT +([1-9]\d*)", re.ASCII)


class Step(NamedTuple):
    """A step: a row of stimuli with its event, or none; the outputs that must follow; and the ticks for them."""

    text: str
    rows: list[Row]
    outputs: list[Line]
    first: int
    last: int


def line_of(text: str) -> Line:
    """Returns a line with the event and the values of a text as `CUO Q=FALSE CV=1`."""
    event, _, words = text.partition(" ")
    return Line(0, "", "<", INSTANCE, event, " ".join(words.split()))


def said(lines: Sequence[Line]) -> str:
    """Returns events as a step has them."""
    return ", ".join(f"{it.event} {it.words}".rstrip() for it in lines) or "nothing"


def steps_of(given: Sequence[Sequence[str]]) -> list[Step]:
    """Returns the steps of a sequence. An event takes the next tick, and `wait N` the next N ticks."""
    steps: list[Step] = []
    tick = 0
    needs(given, Iterable, "a list of steps")
    for number, texts in enumerate(given, 1):
        needs(texts, (list, tuple), f"step {number}: a list of texts")
        texts = texts_of(texts, f"the texts of step {number}")
        words = [it.upper().strip() for it in texts]
        wait = WAIT.fullmatch(words[0]) if words else None
        for it in words[1:] if wait else words or [""]:
            if not EVENT.fullmatch(it):
                raise InputFault(f"step {number}: {it!r} is neither an event, as CUO CV=1, nor wait N, N over 0")
            for name in (names := re.findall(r"(\w+)=", it)):
                if names.count(name) > 1:
                    raise InputFault(f"step {number}: {it!r} has {name} twice")
        first, *outputs = map(line_of, words)
        rows: list[Row] = [] if wait else [(tick, f"{INSTANCE}.{first.event}", first.values)]
        steps.append(Step(texts[0], rows, outputs, tick, tick + (int(wait[1]) if wait else 1) - 1))
        tick = steps[-1].last + 1
    if not steps:
        raise InputFault("a sequence has at least one step")
    return steps


def matches(line: Line, expected: Line) -> bool:
    """Whether a line is of the expected event, with the expected values among its own."""
    # (as texts, since a truth value is no number)
    found, wanted = ({name: str(it) for name, it in given.values.items()} for given in (line, expected))
    return line.event == expected.event and wanted.items() <= found.items()


def check_sequence(
    type_name: str, steps: Sequence[Sequence[str]], *, parameters: Mapping[str, object] | None = None,
    types: Sequence[FileName] = (), declaration: FileName | None = None
) -> None:
    """Runs one instance of a block type alone, and raises `SequenceBroken` if its outputs are not those of the steps.

    A step is a list. It begins with an input event, as `CU PV=5`, or with `wait 500`; then come the output events that
    must follow in these ticks, in order, no more and no fewer. Values that are not given may be any. The types are
    event blocks, those of the files `types`, and those of a declaration, whose application is left out.
    """
    needs(type_name, str, "the name of a block type")
    needs(parameters or {}, Mapping, "the parameters of a block: {NAME: value}")
    sequence = steps_of(steps)
    given = ", ".join(f"{name} := {constant(value)}" for name, value in (parameters or {}).items())
    instance = f"{INSTANCE} : {type_name}{given and f'({given})'};"
    text = f"APPLICATION HARNESS FBS {instance} END_FBS END_APPLICATION\n"
    if declaration is not None:
        around = read(file_name(declaration, "a declaration"))
        span = of_application(around)
        text = around[:span[0].start()] + text + around[span[-1].end():] if span else around + text
    rows = [row for it in sequence for row in it.rows]
    with temporary_folder() as folder:
        write(folder / "harness.iec", text)
        trace = Application(folder / "harness.iec", types).run(rows, horizon=sequence[-1].last + 1)
        lines = [it for it in trace if it.sign == "<" and it.instance == INSTANCE]
    faults = []
    for number, step in enumerate(sequence, 1):
        came = [it for it in lines if step.first <= it.tick <= step.last]
        if len(came) != len(step.outputs) or not all(map(matches, came, step.outputs)):
            faults.append(f"step {number}, {step.text}: expected {said(step.outputs)}, came {said(came)}")
    if faults:
        raise SequenceBroken("\n".join(faults))
