"""Communication blocks as relays: basic types that are made for them.

A relay stands in for a block that sends, in the resource of that block: it copies what it sends and emits it, so that a
receiver keeps the values of the last message. A block that receives from one sender needs no relay of its own, unless what
it receives is read where no message of its own goes, or unless it has an INITO that leads somewhere. See docs/IMPORT.md."""

from __future__ import annotations

import re
from collections.abc import Iterator
from dataclasses import dataclass, field
from typing import TYPE_CHECKING

from .blocks import Block
from .common import TABLES, Place, shown
from .made import Maker, expansion
from .wires import Key, Wire

if TYPE_CHECKING:
    from .network import Network

SERVICES = TABLES["communication"]
COMMUNICATION = re.compile(rf"({'|'.join(SERVICES)})(?:_(\d{{1,2}}))?(?:_(\d{{1,2}}))?", re.IGNORECASE)
UNMODELLED = "what is not simulated of communication blocks: QI = FALSE, QO = FALSE, lost messages, and a CNF that comes later"


def communication(name: str, place: Place) -> Block | None:
    """Return the type of a communication block: PUBLISH_1, SUBSCRIBE_1, CLIENT_1_1, SERVER_1_1 and so on."""
    found = COMMUNICATION.fullmatch(name.rpartition("::")[2])
    if found is None:
        return None
    kind, first = found[1].upper(), int(found[2] or 1)
    sent, got = (0 if kind.startswith("SUB") else first), (0 if kind.startswith("PUB") else first)
    if found[3] and kind in ("CLIENT", "SERVER"):
        got = int(found[3])
    block = Block(found[0], "communication", place, text=kind)
    _, sends, confirms = SERVICES[kind]
    data, outputs = [f"SD_{it + 1}" for it in range(sent)], [f"RD_{it + 1}" for it in range(got)]
    events = (["INIT", sends], "event", False), (["INITO", confirms], "event", True)
    for names, part, is_output in (*events, (["QI", "ID", *data], "data", False), (["QO", "STATUS", *outputs], "data", True)):
        for it in names:
            block.add_port(it, part, is_output).lacking = "STRING" if it == "STATUS" else ""
    return block


@dataclass(slots=True)
class Service:
    """A communication block: its partners, and whether it has an instance that passes on what it receives."""

    path: str
    block: Block
    place: Place
    partners: list[Service] = field(default_factory=list)
    is_passing: bool = False

    @property
    def kind(self) -> str:
        """PUBLISH, SUBSCRIBE, CLIENT or SERVER, or PUBL or SUBL."""
        return self.block.text

    @property
    def title(self) -> str:
        """The path as it is shown."""
        return self.path.lstrip(".")

    def numbered(self, letters: str) -> list[str]:
        """Return the names of its SD or RD."""
        return [it for it in self.block.ports if it.startswith(letters)]

    @property
    def sends(self) -> bool:
        """Whether it has a relay for what it sends."""
        return not self.kind.startswith("SUB")

    @property
    def sent(self) -> tuple[str, str]:
        """The event by which its relay sends, and how the names of the values begin."""
        return ("IND", "RD_") if self.kind.startswith("PUB") else ("SEND", "SENT_")

    def sent_as(self, name: str) -> str:
        """Return what its relay calls the value that a partner receives as this RD."""
        return self.sent[1] + name.removeprefix("RD_")

    @property
    def receives(self) -> str:
        """The event by which it tells of what it received, or nothing."""
        return "" if self.kind.startswith("PUB") else str(SERVICES[self.kind][2])


class Relays:
    """The communication blocks of a network, and the connections that take the place of theirs."""

    def __init__(self, network: Network, wires: list[Wire]) -> None:
        self.network, self.faults, self.notes = network, network.faults, network.notes
        self.services = {path: Service(path, *it) for path, it in network.services.items()}
        self.by_source: dict[Key, list[Wire]] = {}
        for it in wires:
            self.by_source.setdefault(it.source, []).append(it)
        self.find_partners()
        self.wires = [it for wire in wires for it in self.without_status(wire)]
        if self.services:
            self.notes.append(UNMODELLED)
        self.types: dict[Key, str] = {}

    def edges(self) -> list[tuple[Key, Key]]:
        """Return which SD each RD has its values of, to find their types."""
        return [((other.path, it.replace("RD", "SD")), (one.path, it)) for one in self.services.values()
                for other in one.partners for it in one.numbered("RD_") if it.replace("RD", "SD") in other.block.ports]

    def find_partners(self) -> None:
        """Find who receives what, by the IDs."""
        parameters = self.network.parameters
        names = {path: parameters[path, "ID"].text.strip(" \"'") if (path, "ID") in parameters else "" for path in self.services}
        for one in self.services.values():
            alike = [it for it in self.services.values() if names[it.path] == names[one.path]]
            partner, name = SERVICES[one.kind][0], names[one.path]
            one.partners = [it for it in alike if it.kind == partner]
            if not name or not one.partners:
                reason = f"there is no {partner} with its ID {shown(name)}" if name else "it has no ID as a parameter"
                self.faults.refuse(one.place, f"{one.title}: {reason}: remove it, and give its events as stimuli")
            elif one.kind in ("CLIENT", "SERVER") and [it.kind for it in alike].count(one.kind) > 1:
                self.faults.refuse(one.place, f"{one.title}: there is more than one {one.kind} with its ID {shown(name)}")
            for it in one.partners:
                if len(it.numbered("SD_")) != len(one.numbered("RD_")) and one.receives:
                    self.faults.refuse(one.place, f"{one.title} receives {len(one.numbered('RD_'))} values, and {it.title} "
                                       f"sends {len(it.numbered('SD_'))}: give both the same number")
            if (one.path, "QI") in parameters and parameters[one.path, "QI"].text.strip().upper().rpartition("#")[2] in ("0", "FALSE"):
                self.notes.append(f"{parameters[one.path, 'QI'].place(0)}: QI of {one.title} is FALSE, and taken as TRUE")
            others = ", ".join(it.title for it in one.partners)
            self.notes.append(f"{one.title} ({one.block.name}, ID {name}) exchanges messages with {others}")

    def without_status(self, wire: Wire) -> Iterator[Wire]:
        """Return a connection if it is none of QI, ID and QO. What QO leads to gets TRUE as its parameter."""
        source, target = (self.services.get(it[0]) for it in (wire.source, wire.target))
        if source and wire.source[1] == "QO":
            if not (target and wire.target[1] == "QI"):
                self.network.constants[wire.target] = wire.place
                self.notes.append(f"{wire.place}: QO of {source.title} is TRUE, since links don't fail")
        elif target and wire.target[1] in ("QI", "ID"):
            self.notes.append(f"{wire.place}: {wire.target[1]} of {target.title} is not simulated")
        else:
            yield wire

    def is_direct(self, one: Service, used: set[tuple[Key, Key]]) -> bool:
        """Return whether what a block receives can go from the only sender straight to where it leads."""
        home, events = self.network.home(one.path), self.by_source.get((one.path, one.receives), [])
        values = [it for name in one.numbered("RD_") for it in self.by_source.get((one.path, name), ())]
        pairs = {((one.partners[0].path, it.source[1]), it.target) for it in (*events, *values)} if one.partners else set()
        is_read = not values or any(self.services.get(it.target[0]) is None or it.target[1] != "INIT" for it in events)
        is_near = all(it.target[0] and self.network.home(it.target[0]) == home for it in (*events, *values))
        if len(one.partners) > 1 or not is_read or not is_near or pairs & used:
            return False
        used |= pairs
        return True

    def expanded(self, types: dict[Key, str]) -> list[Wire]:
        """Give each block its relay, if it has one, and return the connections of the network."""
        self.types = types
        used: set[tuple[Key, Key]] = set()
        for one in self.services.values():
            one.is_passing = bool(one.receives) and not self.is_direct(one, used)
        wires = [it for wire in self.wires for it in self.rewired(wire)]
        for one in self.services.values():
            wires += self.inward(one) if one.is_passing else ()
            if self.has_instance(one):
                self.network.blocks[one.path] = self.network.instances[one.path].block = self.relay(one)
            else:
                del self.network.instances[one.path]
        return wires

    def rewired(self, wire: Wire) -> Iterator[Wire]:
        """Return the connection that takes the place of one, if there is any."""
        source, target = (self.services.get(it[0]) for it in (wire.source, wire.target))
        own = ("INITO", "CNF") if source and source.kind.startswith("PUB") else ("INITO",)
        if target and (not self.has_instance(target) or wire.target[1] == "RSP" and not target.sends):
            return
        if not wire.is_event and target and (wire.target not in self.types):
            return
        if source is None or source.is_passing or wire.source[1] in own:
            yield wire
        elif source.partners:
            yield wire._replace(source=self.sent_key(source.partners[0], wire.source[1]), is_carried=True)

    def has_instance(self, one: Service) -> bool:
        """Return whether a block has a relay."""
        return one.sends or one.is_passing or bool(self.by_source.get((one.path, "INITO")))

    def sent_key(self, sender: Service, name: str) -> Key:
        """Return the port of a sender's relay that sends what a receiver has at a port."""
        return sender.path, sender.sent_as(name) if name.startswith("RD_") else sender.sent[0]

    def inward(self, one: Service) -> Iterator[Wire]:
        """Return the connections that lead from all senders to the relay of a receiver."""
        for number, sender in enumerate(one.partners, 1):
            yield Wire(self.sent_key(sender, ""), (one.path, f"FROM_{number}"), one.place, True, is_carried=True)
            for name in self.typed(one, "RD_"):
                target = (one.path, f"{name}__FROM_{number}")
                yield Wire(self.sent_key(sender, name), target, one.place, False, is_carried=True)

    def typed(self, one: Service, letters: str) -> dict[str, str]:
        """Return the types of the SD or RD of a block. What nothing is connected to has none and is left out."""
        return {name: kind for name in one.numbered(letters) if (kind := self.types.get((one.path, name), ""))}

    def relay(self, one: Service) -> Block:
        """Return the type of the relay of a block."""
        sent, got = self.typed(one, "SD_") if one.sends else {}, self.typed(one, "RD_") if one.is_passing else {}
        block = Block(one.block.name, "relay", one.place)
        make = Maker(block)
        make.events(False, "INIT")
        make.events(True, "INITO")
        make.reaction("INIT", (), "INITO")
        if one.sends:
            request, (event, letters), confirmed = SERVICES[one.kind][1], one.sent, ["CNF"] if one.kind.startswith("PUB") else []
            copies = {letters + name.removeprefix("SD_"): name for name in sent}
            make.variables(False, sent, request)
            make.variables(True, {name: sent[it] for name, it in copies.items()}, event)
            make.events(True, *confirmed)
            make.reaction(request, [f"{name} := {it};" for name, it in copies.items()], event, *confirmed)
        make.variables(True, got, one.receives if one.is_passing else "")
        for number in range(1, len(one.partners) + 1 if one.is_passing else 1):
            names = {name: f"{name}__FROM_{number}" for name in got}
            make.variables(False, {it: got[name] for name, it in names.items()}, f"FROM_{number}")
            make.reaction(f"FROM_{number}", [f"{name} := {it};" for name, it in names.items()], one.receives)
        many = [f"FROM.{len(one.partners)}"] if one.is_passing else []
        return expansion(self.network.library, block, ".".join([one.block.name.upper(), *sent.values(), *got.values(), *many]))
