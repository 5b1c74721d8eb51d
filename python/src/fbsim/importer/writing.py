"""Writes the texts of the profile with the places in the XML of what is written, and the report.

texts.jinja has their form."""

from __future__ import annotations

import functools
from collections.abc import Mapping
from pathlib import Path
from typing import Any

from jinja2 import StrictUndefined, Template

from .blocks import Block, Library, Port, variable
from .common import KEYWORDS, MARK, Faults, Folded, Names, Place, shown
from .document import Code, Node
from .expressions import UNSIGNED, Variable
from .limits import refuse_sizes, step_lines
from .lowering import Lowering
from .network import Network, System
from .structured_text import Algorithm, Find, Found, condition, constant, whole

TEXTS: Any = Template(Path(__file__).with_name("texts.jinja").read_text("utf-8"), undefined=StrictUndefined, trim_blocks=True,
                      lstrip_blocks=True, keep_trailing_newline=True).module


def place_in(marked: str, line: int, column: int) -> Place | None:
    """Return the place of what is at a line and a column of a text, whose marks do not count."""
    found, at = None, 0
    offset = sum(len(it) + 1 for it in MARK.sub("", marked).split("\n")[:line - 1]) + column - 1
    for one in MARK.finditer(marked):
        if one.start() - at > offset:
            break
        found, at = Place(one[1], int(one[2]), int(one[3])), at + len(one[0])
    return found


class Chart:
    """What a basic type has after its interface, as it is written."""

    def __init__(self, block: Block, library: Library) -> None:
        self.block, self.library, self.faults, inside = block, library, library.faults, inside_of(block, library)
        nodes = list(inside.all("Algorithm"))
        self.bodies = Names("algorithm", [(it.get("Name"), it.at("Name")) for it in nodes], self.faults)
        codes = {name: Algorithm(self.code_of(it), self.finder(name), self.faults, library.files) for it in nodes if (name := it.get("Name"))}
        self.variables = [variable(it, False, library)
                          for part in inside.all("InternalVars", "InternalConstVars") for it in part.children]
        self.variables += [Port(f"{name}.{it}", "data", False, code.place(it), UNSIGNED.get(kind, kind), declared=kind)
                           for name, code in codes.items() for it, kind in code.temporaries]
        ports = [*block.ports.values(), *self.variables]
        names = Names("variable", [(it.name, it.place) for it in ports], self.faults)
        for port in ports:
            port.out = names[port.name]
        constants = {f"{name}.{it}": number for name, code in codes.items() for it, number in code.constants.items()}
        constants |= {it.get("Name"): number for part in inside.all("InternalConstVars") for it in part.children
                      if (number := whole(it.get("InitialValue"))) is not None}
        self.found = Folded({it.name: Found(it.out, it.declared or it.type, constants.get(it.name)) for it in ports if it.kind == "data"})
        self.made: dict[str, Port] = {}
        self.used = {*KEYWORDS, *(it.out for it in ports)}
        self.inputs, self.outputs = (Folded({it.name: it.out for it in block.side("event", side)}) for side in (False, True))
        ecc = next(inside.all("ECC"), inside)
        nodes = list(ecc.all("ECState"))
        if not nodes:
            self.faults.refuse(ecc.place, f"type {block.name} has no states")
        self.state_names = Names("state", [(it.get("Name"), it.at("Name")) for it in nodes], self.faults)
        self.states = [self.state(it) for it in nodes]
        self.transitions = [self.transition(it) for it in ecc.all("ECTransition")]
        self.algorithms = []
        for name, code in codes.items():
            mark, end = code.code.place(0).mark, code.place(code.tokens[-1]).mark
            body = code.body(lowering := self.lowering(code.code))
            self.algorithms.append(f"{mark}ALGORITHM {self.bodies[name]} IN ST:{body}{end}\nEND_ALGORITHM\n")
            library.notes += lowering.notes
            if lowering.steps:
                library.steps[f"{code.code.place(0)}: a statement or a round of a loop of {name}"] = lowering.steps
        library.notes += [f"type {block.out}: {it}" for one in (names, self.bodies, self.state_names) for it in one.renamed]

    def code_of(self, node: Node) -> Code:
        """Return the text of an algorithm, which is an attribute or what is in the element."""
        inside = next(node.all("ST", "Other"), None)
        if inside is None or inside.tag == "Other" and inside.get("Language").upper() != "ST":
            self.faults.refuse((inside or node).place, f"algorithm {shown(node.get('Name'))} is not in Structured Text")
            return Code(node.source, node.offset)
        return inside.code("Text") if inside.get("Text") else inside.text

    def lowering(self, code: Code) -> Lowering:
        """Return what replaces in a text what the profile lacks."""
        return Lowering(code, self.faults, self.library.overflow, self.fresh)

    def fresh(self, kind: str, number: int) -> Variable:
        """Return a variable for what an expression needs more than once. Each statement uses the same ones again."""
        name, out = f"{kind}.{number}", f"T__{kind}_{number}"
        while name not in self.made and out in self.used:
            out += "_"
        if name not in self.made:
            self.made[name] = Port(name, "data", False, self.block.place, kind, out=out)
            self.variables.append(self.made[name])
            self.used.add(out)
        return Variable(0, kind, self.made[name].out)

    def finder(self, algorithm: str) -> Find:
        """Return the look-up of variables in an algorithm."""
        return lambda name: self.found.find(f"{algorithm}.{name}") or self.found.find(name)

    def state(self, node: Node) -> str:
        """Return a state with its actions: an algorithm, an event or both. An action with neither goes away."""
        actions = []
        for it in node.all("ECAction", "SimpleECAction"):
            name, event = it.get("Algorithm"), it.get("Output")
            algorithm, output = self.bodies.find(name), self.outputs.find(event)
            if name and algorithm is None:
                self.faults.refuse(it.at("Algorithm"), f"there is no algorithm {shown(name)}")
            if event and output is None:
                self.faults.refuse(it.at("Output"), f"type {self.block.name} has no event output {shown(event)}")
            text = f"{algorithm or ''} -> {output}".strip() if output else algorithm
            actions += [it.at("Algorithm" if name else "Output").mark + text] if text else []
        return f"{node.at('Name').mark}{self.state_names[node.get('Name')]}{' : ' if actions else ''}{', '.join(actions)}"

    def transition(self, node: Node) -> str:
        """Return a transition with its condition."""
        ends = [self.state_names.find(node.get(end)) for end in ("Source", "Destination")]
        for end, found in zip(("Source", "Destination"), ends):
            if found is None:
                self.faults.refuse(node.at(end), f"there is no state {shown(node.get(end))}")
        lowering = self.lowering(node.code("Condition"))
        text = condition(lowering.code, self.found.find, self.inputs.find, lowering, self.library.files)
        self.library.notes += lowering.notes
        return f"{node.at('Source').mark}{ends[0]} TO {ends[1]} := {text}"


def inside_of(block: Block, library: Library) -> Node:
    """Return the inside of a basic type, or make one for a simple type: each event runs the algorithm of its name, or the only one."""
    assert block.node is not None
    inside = next(block.node.all("BasicFB", "SimpleFB"))
    if inside.tag == "BasicFB":
        return inside
    ecc, outputs, states = inside.made("ECC", inside.made("ECState", Name="START")), block.side("event", True), simple_states(block, inside, library)
    algorithms = Folded({it.get("Name"): it.get("Name") for it in inside.all("Algorithm")})
    for port in block.side("event", False):
        actions, own = states.find(port.name), algorithms.find(port.name) or (next(iter(algorithms)) if len(algorithms) == 1 else "")
        if actions is None:
            if not own or len(outputs) != 1:
                library.faults.refuse(port.place, f"there is no algorithm for {port.name}, or not one event output to go with it")
            actions = [inside.made("ECAction", Algorithm=own, Output=outputs[0].name if outputs else "")]
        ecc.children += [inside.made("ECState", *actions, Name=f"ON.{port.name}"),
                         inside.made("ECTransition", Source="START", Destination=f"ON.{port.name}", Condition=port.name),
                         inside.made("ECTransition", Source=f"ON.{port.name}", Destination="START", Condition="1")]
    return inside.made("BasicFB", ecc, *inside.children)


def simple_states(block: Block, inside: Node, library: Library) -> Folded[list[Node]]:
    """Return the actions of the states of a simple type: each state has the name of the event that enters it."""
    nodes = list(inside.all("SimpleECState", "ECState"))
    Names("state", [(it.get("Name"), it.at("Name")) for it in nodes], library.faults)
    events = Folded({it.name: it for it in block.side("event", False)})
    for it in nodes:
        if events.find(it.get("Name")) is None:
            library.faults.refuse(it.at("Name"), f"type {block.name} has no event input {shown(it.get('Name'))}, so no event enters this state")
    return Folded({it.get("Name"): it.children for it in nodes})


def value(code: Code, kind: str, faults: Faults) -> str:
    """Return the constant of a parameter or of a declaration. A time is more than a number, unless it is 0."""
    if kind == "TIME" and code.text.strip(" +-").isdecimal() and int(code.text):
        faults.refuse(code.place(0), f"{shown(code.text)} is no time: write its unit, such as T#{shown(code.text.strip())}ms")
    return constant(code, kind, faults)


class Types:
    """Writes the types that are reached, each after those that it uses."""

    def __init__(self, library: Library) -> None:
        self.library, self.faults = library, library.faults
        self.texts = ["(* Imported by fbsim-import: see import.txt. *)\n\n"]
        self.written: dict[Block, None] = {}
        self.charts: dict[Block, Chart] = {}
        self.networks: dict[Block, Network] = {}
        self.sizes: list[tuple[Block, str]] = []
        self.depth, self.constant = 0, functools.partial(value, faults=library.faults)

    def need(self, block: Block, place: Place) -> None:
        """Write a type, if it is not written yet."""
        if block in self.written or block.out in self.library.built_in:
            return
        if self.depth > 40:
            raise self.faults.refuse(place, "composite types contain each other more than 40 deep")
        self.written[block] = None
        self.depth += 1
        if block.kind == "declared":
            for it in self.library.annex.values():
                if f": {it.out};" in block.text:
                    self.need(it, place)
            text = f"{block.place.mark}{block.text}\n\n"
        elif block.kind == "composite":
            text = TEXTS.block(block, None, self.network(block), self.constant)
        else:
            chart = block.made or Chart(block, self.library)
            if isinstance(chart, Chart):
                self.charts[block] = chart
            text = TEXTS.block(block, chart, None, self.constant)
        self.texts.append(text)
        self.sizes.append((block, text))
        self.depth -= 1

    def network(self, block: Block) -> Network:
        """Return the inside of a composite type, after the types of its instances are written."""
        network = self.networks[block] = Network(self.library, block)
        for inside in block.node.all("FBNetwork") if block.node else ():
            network.add(inside)
        for path, (_, place) in network.services.items():
            self.faults.refuse(place, f"{path}: communication blocks are for applications and resources, not for composite types")
        network.resolve()
        self.library.notes += [f"type {block.out}: {it}" for it in network.notes]
        for it in network.instances.values():
            self.need(it.block, it.place)
        return network


class Latencies:
    """The latency of each link: the one that was set after an earlier import, or the same for all others."""

    def __init__(self, usual: int, kept: Mapping[tuple[str, str], str]) -> None:
        self.usual, self.kept = usual, kept

    def row(self, source: str, target: str) -> str:
        """Return the row of a link from one resource to another."""
        return self.kept.get((source, target), f"latency = {self.usual}")

    def shown(self, source: str, target: str) -> str:
        """Return the latency of a link for the report."""
        word, _, value = self.row(source, target).partition(" = ")
        return f"{value} ms" if word == "latency" and value.isdecimal() else "as set in deploy.toml"


def texts_of(system: System, types: Types, latencies: Latencies) -> dict[str, str]:
    """Return all texts by their names, with marks of places."""
    for it in system.instances.values():
        types.need(it.block, it.place)
    unused = types.library.stubs.names - {"ALL"} - {it.name.upper() for it in types.written if it.kind == "service"}
    types.library.notes += [f"--stub {it}: no service interface type of this name is used" for it in sorted(unused)]
    application, deployment = TEXTS.application(system, types.constant), TEXTS.deployment(system, latencies)
    refuse_sizes(system, types, types.sizes, application, types.faults)
    return {"types.iec": "".join(types.texts), "application.iec": application, "deploy.toml": deployment,
            "import.txt": TEXTS.report(system, types, latencies, step_lines(types))}
