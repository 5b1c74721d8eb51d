"""Reads what `fbsim inspect` writes: lines of a trace, with what happens inside blocks after each, as columns."""

from __future__ import annotations

import re
import subprocess
import tempfile
from collections.abc import Generator, Iterator
from dataclasses import dataclass, field
from typing import Any, NamedTuple

from fbsim.faults import InputFault, fault_of
from fbsim.page.system import Number, System, memory_of, number_of
from fbsim.program import started
from fbsim.trace import Line, Trace, lines_of

# The most lines that a page shows, and after how many it has the whole state again.
MOST_LINES = 100_000
WHOLE_EVERY = 1_000
ALGORITHM = re.compile(r"([A-Z_][A-Z0-9_]*):((?: [A-Z_][A-Z0-9_]*=[^ ]+)*)")
MEMORY = ("set", "reset", "due", "idle", "count", "has")


class TooManyLines(InputFault):
    """A range that a page has no room for."""


class Port(NamedTuple):
    """A port at which lines have events: resource, sign, instance, event, and the slots of the values of its lines."""

    resource: str
    sign: str
    instance: int
    event: str
    slots: tuple[int, ...]


class Act(NamedTuple):
    """What happens inside an instance: a `transition`, an `algorithm`, `lost`, `stop`, `memory` or a `note`.

    An act that is `silent` is not written by `fbsim inspect`. `sets` are slots with the values that they get. `slots`
    get the next values of the column of values.
    """

    kind: str
    instance: int
    text: str
    sets: tuple[tuple[int, Number], ...] = ()
    slots: tuple[int, ...] = ()


@dataclass
class Columns:
    """The lines of a range as columns. Line and act are numbers of `ports` and `actions`; `acts` and `values` go on
    from line to line, and `counts` has how many acts a line has. `whole` has the state before each 1,000th line."""

    before: int = 0
    ticks: list[int] = field(default_factory=list)
    lines: list[int] = field(default_factory=list)
    counts: list[int] = field(default_factory=list)
    acts: list[int] = field(default_factory=list)
    values: list[Number] = field(default_factory=list)
    whole: list[list[Number]] = field(default_factory=list)
    ports: dict[Port, int] = field(default_factory=dict)
    actions: dict[Act, int] = field(default_factory=dict)
    widths: list[int] = field(default_factory=list)
    last: str = ""


def parted(texts: Iterator[str], inside: list[str]) -> Iterator[str]:
    """Goes over the lines of the trace, and puts what comes between them into a list, which the caller empties."""
    for text in texts:
        if text.startswith("  "):
            inside.append(text[2:-1])
        else:
            yield text


class Reader:
    """Reads lines with what is inside, keeps the state of the whole system, and fills columns within a range."""

    def __init__(self, system: System, since: int) -> None:
        self.system, self.since = system, since
        self.state = list(system.first)
        self.columns = Columns(widths=[len(str(it)) for it in system.first])
        self.known_ports: dict[tuple[str, str, str, str, tuple[str, ...]], Port] = {}
        self.known_acts: dict[tuple[int, str], tuple[Act, list[Number]]] = {}
        # (an E_RESTART is idle after its only event, of which `inspect` writes nothing, and `session` does)
        idle = system.word("idle")
        restarts = [number for number, it in enumerate(system.instances) if it.block.type == "E_RESTART"]
        self.restarts = {it: Act("silent", it, "", ((system.at[it, "memory"], idle),)) for it in restarts}

    def port_of(self, line: Line, names: tuple[str, ...]) -> Port:
        """Returns the port of a line that has values of these variables."""
        key = (line.resource, line.sign, line.instance, line.event, names)
        port = self.known_ports.get(key)
        if port is None:
            instance = self.system.by_path[line.instance]
            slots = tuple(self.system.at[instance, it] for it in names)
            port = self.known_ports[key] = Port(line.resource, line.sign, instance, line.event, slots)
        return port

    def act_of(self, instance: int, text: str) -> tuple[Act, list[Number]]:
        """Returns an act and its values."""
        known = self.known_acts.get((instance, text))
        if known is None:
            known = act_of(self.system, instance, text)
            if len(self.known_acts) < MOST_LINES:
                self.known_acts[instance, text] = known
        return known

    def take(self, line: Line) -> Port:
        """Takes a line of the trace, and returns its port."""
        words = [it.split("=") for it in line.words.split()]
        port = self.port_of(line, tuple(it[0] for it in words))
        values = [number_of(it[1]) for it in words]
        if line.tick < self.since:
            self.columns.before += 1
        else:
            self.keep(line, port, values)
        for slot, value in zip(port.slots, values):
            self.state[slot] = value
        return port

    def keep(self, line: Line, port: Port, values: list[Number]) -> None:
        """Puts a line of the range into the columns."""
        columns = self.columns
        if len(columns.lines) == MOST_LINES:
            what = f"the range has over {MOST_LINES:,} lines: a page has no room for those from tick {line.tick} on"
            raise TooManyLines(f"{what}; choose a shorter range by --from and --to")
        if len(columns.lines) % WHOLE_EVERY == 0:
            columns.whole.append(list(self.state))
        columns.ticks.append(line.tick)
        columns.lines.append(columns.ports.setdefault(port, len(columns.ports)))
        columns.counts.append(0)
        columns.values += values
        self.widen(port.slots, values)

    def widen(self, slots: tuple[int, ...], values: list[Number]) -> None:
        """Keeps how long the values of slots are as texts."""
        for slot, value in zip(slots, values):
            self.columns.widths[slot] = max(self.columns.widths[slot], len(str(value)))

    def take_inside(self, instance: int, texts: list[str]) -> None:
        """Takes what happens inside an instance after its line."""
        columns = self.columns
        acts = [self.act_of(instance, it) for it in texts]
        if instance in self.restarts:
            acts.append((self.restarts[instance], []))
        for act, values in acts:
            for slot, value in (*act.sets, *zip(act.slots, values)):
                self.state[slot] = value
            if columns.lines:
                columns.counts[-1] += 1
                columns.acts.append(columns.actions.setdefault(act, len(columns.actions)))
                columns.values += values
                self.widen(act.slots, values)
        texts.clear()

    def read(self, texts: Iterator[str], name: str) -> Columns:
        """Reads all lines."""
        inside: list[str] = []
        self.columns.last = yield_all(self.each(lines_of(parted(texts, inside), name), inside))
        if not self.columns.whole:
            self.columns.whole.append(list(self.state))
        return self.columns

    def each(self, lines: Generator[Line, None, str], inside: list[str]) -> Generator[None, None, str]:
        """Takes each line, and what comes after it before the next one. Returns the last line."""
        instance = -1
        while True:
            try:
                line = next(lines)
            except StopIteration as end:
                self.take_inside(instance, inside)
                return str(end.value).rstrip("\n")
            self.take_inside(instance, inside)
            instance = self.take(line).instance
            yield


def yield_all(lines: Generator[None, None, str]) -> str:
    """Goes over a generator to its end, and returns what it returns."""
    while True:
        try:
            next(lines)
        except StopIteration as end:
            return str(end.value)


def act_of(system: System, instance: int, text: str) -> tuple[Act, list[Number]]:
    """Returns what a line between those of a trace says of an instance, with its values."""
    def slot(name: str) -> int:
        return system.at[instance, name]

    if text.startswith("lost in "):
        return Act("lost", instance, text), []
    if text.startswith("stops: "):
        return Act("stop", instance, text), []
    if parts := ALGORITHM.fullmatch(text):
        words = [it.split("=") for it in parts[2].split()]
        act = Act("algorithm", instance, parts[1], (), tuple(slot(it[0]) for it in words))
        return act, [number_of(it[1]) for it in words]
    source, arrow, rest = text.partition(" -> ")
    if arrow and source.isupper():
        state = system.word(rest.partition(" by ")[0])
        return Act("transition", instance, text, ((slot("state"), state),)), []
    if text.partition(" ")[0] in MEMORY and (instance, "memory") in system.at:
        word, number = memory_of(text)
        state = system.word(word)
        return Act("memory", instance, word, ((slot("memory"), state),), (slot("count"),)), [number]
    return Act("note", instance, text), []


def read_inside(system: System, trace: Trace, steps: int | None, since: int, until: int | None) -> Columns:
    """Reads a trace by `fbsim inspect`. Lines before tick `since` change the state only; `until` is the end of all."""
    assert trace.application is not None
    options = {"--steps": steps, "--to": until}
    given = [word for it, number in options.items() if number is not None for word in (it, str(number))]
    words = ["inspect", *trace.application.words, str(trace.path), "--why", *given]
    how: dict[str, Any] = {"encoding": "ascii", "errors": "replace", "stdin": subprocess.DEVNULL}
    with tempfile.TemporaryFile("w+", errors="replace") as said:
        with started(words, stdout=subprocess.PIPE, stderr=said, **how) as run:
            fault = columns = None
            try:
                columns = Reader(system, since).read(iter(run.stdout or ()), str(trace.path))
            except TooManyLines:
                raise
            except InputFault as it:
                fault = it
            status = run.wait()
        said.seek(0)
        if status:
            raise fault_of(status, said.read())
        if columns is None:
            raise fault or InputFault("there are no lines")
        return columns
