"""Basic types that an expansion makes: their ports, and a chart in which each event has a reaction of its own."""

from __future__ import annotations

from collections.abc import Mapping, Sequence
from dataclasses import dataclass, field
from typing import TYPE_CHECKING

from .common import Names

if TYPE_CHECKING:
    from .blocks import Block, Library, Port

MOST_LETTERS = 100


@dataclass(slots=True)
class Made:
    """What a made type has after its interface, as it is written."""

    variables: list[Port] = field(default_factory=list)
    states: list[str] = field(default_factory=lambda: ["START"])
    transitions: list[str] = field(default_factory=list)
    algorithms: list[str] = field(default_factory=list)


class Maker:
    """Adds ports and reactions to a type that is made."""

    def __init__(self, block: Block) -> None:
        self.block, self.made = block, Made()
        block.made = self.made

    def events(self, is_output: bool, *names: str) -> None:
        """Add events without variables."""
        for it in names:
            self.block.add_port(it, "event", is_output)

    def variables(self, is_output: bool, kinds: Mapping[str, str], event: str = "") -> None:
        """Add variables with their types, and an event WITH them, if one is named."""
        for name, kind in kinds.items():
            self.block.add_port(name, "data", is_output, kind)
        if event:
            self.block.add_port(event, "event", is_output).withs = [(name, self.block.place) for name in kinds]

    def reaction(self, event: str, rows: Sequence[str], *emitted: str, guard: str = "") -> None:
        """Add a state for an event, with a guard if it needs one: it runs statements, then emits events."""
        state, algorithm = self.name("ON_", event), self.name("DO_", event) if rows else ""
        actions = [f"{algorithm if not number else ''} -> {it}".strip() for number, it in enumerate(emitted)]
        actions += [algorithm] if rows and not emitted else []
        self.made.states.append(f"{state} : {', '.join(actions)}" if actions else state)
        self.made.transitions += [f"START TO {state} := {event}{f' [{guard}]' if guard else ''}", f"{state} TO START := 1"]
        if rows:
            body = "".join(f"  {it}\n" for it in rows)
            self.made.algorithms.append(f"ALGORITHM {algorithm} IN ST:\n{body}END_ALGORITHM\n")

    def name(self, prefix: str, event: str) -> str:
        """Return a name for the state or the algorithm of an event that no port has; several states of one event get numbers."""
        used, number = {it.partition(" ")[0] for it in self.made.states} | {it.out for it in self.block.ports.values()}, 1
        name = prefix + event
        while name in used:
            name, number = f"{prefix}{event}_{number}", number + 1
        return name


def expansion(library: Library, block: Block, wanted: str) -> Block:
    """Give a made type its name in the profile, or return the one that is the same and was made before."""
    assert block.made is not None
    ports = [(it.out, it.kind, it.is_output, it.type, [name for name, _ in it.withs]) for it in block.ports.values()]
    key = repr((wanted, ports, block.made.states, block.made.transitions, block.made.algorithms))
    if key not in library.made:
        block.out = Names("type", [(wanted[:MOST_LETTERS], block.place)], library.faults, library.taken)[wanted[:MOST_LETTERS]]
        library.taken.add(block.out)
        library.made[key] = block
    return library.made[key]
