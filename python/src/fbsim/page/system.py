"""The instances of an application, and the slots of what they remember, as they are before the first event."""

from __future__ import annotations

from dataclasses import dataclass, field
from typing import NamedTuple

from fbsim.application import Application
from fbsim.faults import ProgramFault
from fbsim.page.graphs import Block, Chart, Network, draw
from fbsim.program import call

# A value in the data of a page: truth values are 0 and 1. A number that JavaScript does not have exactly is a text.
Number = int | str
EXACT = 2**53 - 1
# What an event block remembers with a number.
COUNTED = ("count", "due")


class Slot(NamedTuple):
    """What an instance remembers: its `state`, what an event block has as `memory` and its `count`, or a variable.

    A variable has its name and a role, `input`, `output` or `internal`. `is_truth` is whether its type is BOOL.
    """

    instance: int
    name: str
    role: str
    is_truth: bool = False


@dataclass(frozen=True)
class Instance:
    """An instance: its path, its block in its network, its resource, and the number of the composite that has it."""

    path: str
    block: Block
    resource: str
    parent: int | None


@dataclass
class System:
    """An application with all its instances. `types` has the graph of each declared type that an instance has."""

    network: Network
    types: dict[str, Network | Chart] = field(default_factory=dict)
    instances: list[Instance] = field(default_factory=list)
    slots: list[Slot] = field(default_factory=list)
    first: list[Number] = field(default_factory=list)
    words: dict[str, int] = field(default_factory=dict)
    at: dict[tuple[int, str], int] = field(default_factory=dict)
    by_path: dict[str, int] = field(default_factory=dict)

    def word(self, text: str) -> int:
        """Returns the number of a word: the name of a state, or what an event block remembers."""
        return self.words.setdefault(text, len(self.words))

    def add(self, slot: Slot, value: Number) -> None:
        """Adds a slot with its first value."""
        key = slot.name if slot.role in ("input", "output", "internal") else slot.role
        self.at[slot.instance, key] = len(self.slots)
        self.slots.append(slot)
        self.first.append(value)


def number_of(text: str) -> Number:
    """Returns a value as the data of a page have it."""
    if text in ("TRUE", "FALSE"):
        return int(text == "TRUE")
    number = int(text)
    return number if abs(number) <= EXACT else str(number)


def read_types(application: Application, network: Network, known: dict[str, Network | Chart | None]) -> None:
    """Reads the graphs of all types that a network needs. An event block has none."""
    for kind in {it.type: None for it in network.blocks.values() if it.type}:
        if kind not in known:
            graph = known[kind] = draw(application, kind)
            if isinstance(graph, Network):
                read_types(application, graph, known)


def add_instances(system: System, network: Network, parent: int | None, resources: dict[str, str]) -> None:
    """Adds the instances of a network in the order of their numbers: a composite comes before its components."""
    for block in network.blocks.values():
        if block.type:
            above = None if parent is None else system.instances[parent]
            path = block.name if above is None else f"{above.path}.{block.name}"
            resource = resources[block.name] if above is None else above.resource
            number = system.by_path[path] = len(system.instances)
            system.instances.append(Instance(path, block, resource, parent))
            inside = system.types.get(block.type)
            if isinstance(inside, Network):
                add_instances(system, inside, number, resources)


def add_slots(system: System, number: int, answer: str) -> None:
    """Adds the slots of an instance from what `show` answers: its path, what it remembers, and its variables."""
    instance = system.instances[number]
    path, *words = answer.removeprefix("= ").split(" ")
    if path != instance.path:
        raise ProgramFault(f"show {instance.path} is answered by {answer}")
    count = next((at for at, it in enumerate(words) if "=" in it), len(words))
    if isinstance(system.types.get(instance.block.type), Chart):
        system.add(Slot(number, "", "state"), system.word(words[0]))
    elif instance.block.type not in system.types and words[:count]:
        remembered, counted = memory_of(" ".join(words[:count]))
        system.add(Slot(number, "", "memory"), system.word(remembered))
        system.add(Slot(number, "", "count"), counted)
    for word in words[count:]:
        name, _, value = word.partition("=")
        is_port = {"input": instance.block.data_inputs, "output": instance.block.data_outputs}
        role = next((role for role, them in is_port.items() if name in them), "internal")
        system.add(Slot(number, name, role, value in ("TRUE", "FALSE")), number_of(value))


def memory_of(text: str) -> tuple[str, Number]:
    """Returns what an event block remembers as a word and a number, which is 0 if the word has none."""
    word, _, number = text.partition(" ")
    return (word, number_of(number)) if word in COUNTED else (text, 0)


def read_system(application: Application) -> System:
    """Reads the graphs of an application and of its types, and asks a session what each instance has at its start."""
    network = draw(application)
    assert isinstance(network, Network)
    known: dict[str, Network | Chart | None] = {}
    read_types(application, network, known)
    system = System(network, {kind: it for kind, it in known.items() if it is not None})
    resources = {block: it.name for it in network.resources for block in it.blocks}
    add_instances(system, network, None, resources)
    asked = "".join(f"show {it.path}\n" for it in system.instances)
    said = call(["session", *application.words], asked, statuses=(0, 1)).stdout.splitlines()
    for number, answer in enumerate(said[:len(system.instances)]):
        add_slots(system, number, answer)
    return system
