"""Reads what `fbsim draw` writes: networks of blocks with their resources, and charts of states."""

from __future__ import annotations

from dataclasses import dataclass, field
from functools import lru_cache
from pathlib import Path
from typing import Any

from lark import Lark, Token, Tree
from lark.exceptions import LarkError

from fbsim.application import Application
from fbsim.faults import ProgramFault, Refused
from fbsim.program import call


@dataclass(frozen=True)
class Block:
    """An instance in a network, with the names of its ports. A network's own boundary is two blocks, `in` and `out`."""

    name: str
    type: str = ""
    parameters: tuple[str, ...] = ()
    event_inputs: tuple[str, ...] = ()
    event_outputs: tuple[str, ...] = ()
    data_inputs: tuple[str, ...] = ()
    data_outputs: tuple[str, ...] = ()


@dataclass(frozen=True)
class Connection:
    """A connection from a port to a port; each is the name of a block and that of a port."""

    source: tuple[str, str]
    target: tuple[str, str]
    is_event: bool


@dataclass(frozen=True)
class Resource:
    """A resource, its device, and the instances of the application that it has."""

    name: str
    device: str
    blocks: tuple[str, ...]


@dataclass(frozen=True)
class Link:
    """A link between two resources, with its latency as a text."""

    source: str
    target: str
    latency: str


@dataclass
class Network:
    """The network of an application or of a composite type. Only an application has resources and links."""

    name: str
    blocks: dict[str, Block] = field(default_factory=dict)
    connections: list[Connection] = field(default_factory=list)
    resources: list[Resource] = field(default_factory=list)
    links: list[Link] = field(default_factory=list)


@dataclass(frozen=True)
class State:
    """A state of a chart, with its actions as they are written."""

    name: str
    actions: tuple[str, ...]


@dataclass
class Chart:
    """The chart of a basic type: its states, the initial one first, and source, target and condition of transitions."""

    name: str
    states: list[State] = field(default_factory=list)
    transitions: list[tuple[str, str, str]] = field(default_factory=list)


@lru_cache(maxsize=2)
def parser(start: str) -> Lark:
    """Returns the parser of graphs, or of labels."""
    text = (Path(__file__).parent / "graphs.lark").read_text("utf-8")
    return Lark(text, start=start, parser="lalr", maybe_placeholders=True)


def unquoted(text: str) -> str:
    """Returns the content of a text in quotation marks, but with the escapes of labels."""
    return text[1:-1].replace('\\"', '"') if text.startswith('"') else text


def attributes_of(tree: Tree[Token]) -> dict[str, str]:
    """Returns the attributes of a statement."""
    found = {}
    for them in tree.find_data("attributes"):
        for it in them.children:
            if isinstance(it, Tree):
                found[str(it.children[0])] = unquoted(str(it.children[1]))
    return found


def names(record: Any) -> tuple[str, ...]:
    """Returns the names of the ports that a field lists."""
    fields = record.children if isinstance(record, Tree) else [record]
    return tuple(str(it).rpartition(">")[2].strip() for it in fields if str(it).strip())


def block_of(name: str, label: str) -> Block:
    """Returns the block that a label of a node describes."""
    fields = parser("record").parse(label).children
    pairs = [it.children for it in fields if isinstance(it, Tree)]
    if name in ("in", "out"):
        events, data = (names(it[0]) for it in pairs)
        is_in = name == "in"
        return Block(name, "", (), *((), events, (), data) if is_in else (events, (), data, ()))
    (event_inputs, event_outputs), (data_inputs, data_outputs) = ((names(it[0]), names(it[1])) for it in pairs)
    _, kind, *parameters = next(str(it) for it in fields if not isinstance(it, Tree)).split("\\n")
    return Block(name, kind, tuple(parameters), event_inputs, event_outputs, data_inputs, data_outputs)


def place_of(tree: Any) -> tuple[str, str]:
    """Returns the node and the port at an end of an edge."""
    node, port = tree.children
    return unquoted(str(node)), "" if port is None else unquoted(str(port))


def network_of(name: str, statements: list[Tree[Token]]) -> Network:
    """Returns the network that a graph is."""
    made = Network(name)
    areas: dict[str, str] = {}
    for it in statements:
        what = attributes_of(it)
        if it.data == "node":
            node = unquoted(str(it.children[0]))
            made.blocks[node] = block_of(node, what["label"])
        elif it.data == "cluster":
            area, *inner = it.children
            label = next(unquoted(str(at.children[0].children[1])) for at in inner  # type: ignore[union-attr]
                         if isinstance(at, Tree) and at.data == "setting")
            nodes = [unquoted(str(at.children[0])) for at in inner if isinstance(at, Tree) and at.data == "node"]
            device, _, resource = label.rpartition(".")
            areas[unquoted(str(area))] = resource
            made.resources.append(Resource(resource, device, tuple(at for at in nodes if at in made.blocks)))
        elif it.data == "edge" and "ltail" in what:
            made.links.append(Link(areas[what["ltail"]], areas[what["lhead"]], what.get("label", "")))
        elif it.data == "edge":
            source, target = (place_of(at) for at in it.children[:2])
            made.connections.append(Connection(source, target, what.get("style") != "dashed"))
    return made


def chart_of(name: str, statements: list[Tree[Token]]) -> Chart:
    """Returns the chart that a graph is."""
    made = Chart(name)
    for it in statements:
        what = attributes_of(it)
        if it.data == "node":
            state, *actions = what["label"].split("\\n")
            made.states.append(State(state, tuple(at.strip() for at in actions)))
        elif it.data == "edge":
            source, target = (place_of(at)[0] for at in it.children[:2])
            made.transitions.append((source, target, what["label"]))
    return made


def read_graph(text: str) -> Network | Chart:
    """Reads a graph. One with a node that lists ports is a network; of the others, one with nodes is a chart."""
    try:
        name, *rest = parser("graph").parse(text).children
        statements = [it for it in rest if isinstance(it, Tree)]
        labels = [attributes_of(it).get("label", "") for it in statements if it.data == "node"]
        is_chart = bool(labels) and not any("|" in it for it in labels)
        title = unquoted(str(name))
        return chart_of(title, statements) if is_chart else network_of(title, statements)
    except (LarkError, LookupError, ValueError, StopIteration) as it:
        raise ProgramFault(f"the graph of fbsim draw is not read: {it}") from it


def draw(application: Application, kind: str | None = None) -> Network | Chart | None:
    """Returns the graph of the application or of a type, or None for an event block, which no declaration has."""
    try:
        words = ["draw", *application.words, "--why", *([] if kind is None else ["--type", kind])]
        return read_graph(call(words).stdout)
    except Refused as it:
        if kind is None or it.number != "E21":
            raise
        return None
