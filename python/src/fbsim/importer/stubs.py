"""Stubs of service interface types: basic types that answer, and emit what stimuli give.

A stub has an input GIVE_X for each output X. An event input leads to what `<Service>` says, or to what its name says."""

from __future__ import annotations

import argparse
from array import array
from collections.abc import Iterator
from dataclasses import dataclass, replace
from typing import TYPE_CHECKING

from .common import IS_NAME, TABLES, shown
from .document import Code, Node
from .made import Maker

if TYPE_CHECKING:
    from .blocks import Block, Library, Port

USUAL: dict[str, str] = TABLES["answers"]
LIBRARIES: tuple[str, ...] = tuple(TABLES["packages"]["logic"].split())
GIVEN = "GIVE_"


def stub_names(text: str) -> list[str]:
    """Return the names in a value of --stub, in upper case and without packages, or ALL."""
    names = [it.strip().rpartition("::")[2] for it in text.split(",")]
    wrong = [it for it in names if not IS_NAME.fullmatch(it)]
    if wrong:
        what = f"{shown(wrong[0])} is no name" if wrong[0] else "there is no name"
        raise argparse.ArgumentTypeError(f"{what}: give the names of service interface types, as QX,IX, or all")
    return [it.upper() for it in names]


@dataclass(slots=True)
class Stubs:
    """Which types become stubs: those that are named, or all that are no logic."""

    names: frozenset[str] = frozenset()

    def refusal(self, block: Block, package: str) -> str:
        """Return why a type without a chart is no stub, or nothing if it is one."""
        if block.name.upper() in self.names:
            return ""
        if is_logic(block.name, package):
            return (f"{block.name} is of a library of events or functions, and its file has no chart: the simulator does not have it"
                    " (--stub with its name makes it a block that does nothing)")
        has_service = bool(block.node and any(True for _ in block.node.all("Service")))
        if "ALL" in self.names and has_service:
            return ""
        why = "is a service interface type" if has_service else "has neither a chart nor a <Service>"
        return f"{block.name} {why}: the simulator has none (see --stub {block.name})"


def is_logic(name: str, package: str) -> bool:
    """Return whether a type is one of a library of events or functions, which a stub would leave without effect."""
    parts = package.replace("::", ".").upper().split(".")
    return name.upper().startswith(("E_", "F_", "FB_")) or any(it in LIBRARIES for it in parts)


def give_ports(ports: list[Port], node: Node) -> Iterator[Port]:
    """Return the inputs by which stimuli give the outputs of a stub. QO is given as TRUE if a stimulus does not say FALSE."""
    for it in ports:
        if it.is_output and it.kind != "adapter":
            initial = it.initial
            if it.name.upper() == "QO" and it.type == "BOOL" and initial is None:
                initial = Code(node.source, node.offset, "TRUE", array("I", [node.offset] * 4))
            yield replace(it, name=GIVEN + it.name, is_output=False, initial=initial, withs=[(GIVEN + one, at) for one, at in it.withs])


def answers(block: Block) -> dict[str, list[str]]:
    """Return the event outputs to which each event input leads, by its service sequences, else by its name.

    Of several transactions the first counts that a positive primitive begins."""
    found: dict[str, list[str]] = {}
    services = list(block.node.all("Service")) if block.node else []
    for sign in ("+", "", "-"):
        for service in services:
            for row in (it for one in service.all("ServiceSequence") for it in one.all("ServiceTransaction")):
                event, outputs = transaction(row, service, block, sign)
                if event and outputs:
                    found.setdefault(event, outputs)
    for name, answer in USUAL.items():
        event_in, event_out = block.ports.find(name), block.ports.find(answer)
        if event_in and event_out and (event_in.kind, event_out.kind) == ("event", "event"):
            found.setdefault(event_in.name, [event_out.name])
    return found


def transaction(row: Node, service: Node, block: Block, sign: str) -> tuple[str, list[str]]:
    """Return the event input with which a transaction of the application begins, if it has this sign, and its event outputs."""
    begin, outputs = "", []
    left = service.get("LeftInterface")
    for it in row.all("InputPrimitive", "OutputPrimitive"):
        text = it.get("Event")
        port = block.ports.find(text.rstrip("+-"))
        is_output = it.tag == "OutputPrimitive"
        if port is None or port.kind != "event" or port.is_output != is_output or left not in ("", it.get("Interface")):
            continue
        if is_output:
            outputs += [port.name] if port.name not in outputs else []
        elif text[len(text.rstrip("+-")):] == sign:
            begin = port.name
    return begin, outputs


def make_stub(block: Block, library: Library) -> None:
    """Give a service interface type the chart of a stub."""
    make, found = Maker(block), answers(block)
    for port in block.side("event", False):
        outputs = [block.ports[it] for it in found.get(port.name, ())]
        if port.name.startswith(GIVEN) and port.name not in found:
            outputs = [block.ports[port.name.removeprefix(GIVEN)]]
        variables = list(dict.fromkeys(name for it in outputs for name, _ in it.withs))
        rows = []
        for name in variables:
            request = block.ports.find("QI") if name.upper() == "QO" and not port.name.startswith(GIVEN) else None
            given = request if request and request.type == "BOOL" else block.ports[GIVEN + name]
            rows.append(f"{block.ports[name].out} := {given.out};")
            if given.name not in {it for it, _ in port.withs} and given is not request:
                port.withs.append((given.name, port.place))
        if outputs:
            make.reaction(port.out, rows, *(it.out for it in outputs))
    rows = [f"{event} leads to {', '.join(found[event])}" for event in found]
    others = [it.name for it in block.side("event", False) if it.name not in found and not it.name.startswith(GIVEN)]
    rows += [f"{', '.join(others)} to nothing"] if others else []
    library.notes.append(f"{block.place}: {block.name} is a stub{': ' if rows else ''}{', '.join(rows)}")
