"""Networks and systems: instances, connections and resources, flat.

Subapplications are replaced by connections, communication blocks by relays."""

from __future__ import annotations

import re
from array import array
from collections.abc import Iterator, Mapping, Sequence
from dataclasses import dataclass, field

from .blocks import Block, Library, Port, full_type, read_interface
from .common import MARK, Faults, Folded, Names, Place, T, shown
from .document import Code, Node, Source
from .expressions import UNSIGNED
from .files import package_of
from .function_blocks import Functions, function_block
from .inference import infer, literal_type
from .relays import Relays, communication
from .structured_text import constant
from .wires import Key, Wire

MOST_INSTANCES, MOST_CONNECTIONS = 4096, 100_000


@dataclass(slots=True, eq=False)
class Instance:
    """A block of the flat network."""

    path: str
    block: Block
    place: Place
    parameters: dict[str, Code] = field(default_factory=dict)
    out: str = ""


class Network:
    """Reads the inside of a composite type (with its owner), or an application with the networks of its resources."""

    def __init__(self, library: Library, owner: Block | None = None) -> None:
        self.library, self.faults = library, library.faults
        self.blocks: dict[str, Block | None] = {"": owner} if owner else {}
        # For each network, by its path, what its instances are called in it, with their paths.
        self.scopes: dict[str, Folded[str]] = {}
        self.instances: dict[str, Instance] = {}
        self.hubs: dict[Key, list[Key]] = {}
        self.services: dict[str, tuple[Block, Place]] = {}
        self.outgoing: dict[Key, list[Wire]] = {}
        self.parameters: dict[Key, Code] = {}
        # The inputs that are TRUE from the start, with the place that says so.
        self.constants: dict[Key, Place] = {}
        # The ports that a connection or a parameter which is left out would lead to.
        self.open_ends: set[Key] = set()
        self.wires: list[Wire] = []
        self.notes: list[str] = []
        self.visits = 0

    def add(self, node: Node, path: str = "", aliases: Mapping[str, str] = {}, types: tuple[str, ...] = ()) -> None:
        """Add a network with its subapplications. Aliases are what a resource calls instances of the application."""
        nodes, scope = list(node.all("FB", "SubApp")), self.scopes.setdefault(path, Folded(aliases))
        for name in Names("instance", [(it.get("Name"), it.at("Name")) for it in nodes], self.faults):
            if name not in aliases:
                scope[name] = f"{path}.{name}" if path else name
        for it in nodes:
            if scope[it.get("Name")] not in self.blocks:
                self.add_instance(it, scope[it.get("Name")], types)
            self.set_parameters(it, scope[it.get("Name")])
        for part in node.all("EventConnections", "DataConnections", "AdapterConnections"):
            for it in part.children:
                self.connect(it, part.tag.removesuffix("Connections").lower(), path)

    def add_instance(self, node: Node, path: str, types: tuple[str, ...]) -> None:
        """Add an instance, or the inside of a subapplication, whose ports only hand on what comes to them."""
        if node.is_left_out:
            self.blocks[path] = None
            return
        place = node.at("Name")
        block = communication(node.get("Type"), place) or function_block(full_type(node), place, self.library)
        if block is None and (node.get("Type") or node.tag == "FB"):
            block = self.library.get(full_type(node), node.at("Type"), node.tag)
        elif block is None:
            block = Block(node.get("Name"), "subapplication", place, node)
            read_interface(block, self.library)
        self.blocks[path] = block
        if block and block.kind == "adapter":
            self.faults.refuse(node.at("Type"), f"{block.name} is an adapter type: it has no instances")
        elif block and block.kind != "subapplication":
            if block.kind == "communication":
                self.services[path] = block, place
            self.instances[path] = Instance(path, block, place)
            if len(self.instances) > MOST_INSTANCES:
                raise self.faults.refuse(place, f"there are more than {MOST_INSTANCES:,} instances")
        elif block and (node.get("Type") and block.name in types or len(types) > 15):
            self.faults.refuse(place, f"subapplication {block.name} contains itself, or they nest more than 16 deep")
        elif block and block.node:
            self.hubs.update({(path, it): [(path, it)] for it in block.ports})
            for inside in block.node.all("FBNetwork", "SubAppNetwork"):
                self.add(inside, path, types=(*types, block.name if node.get("Type") else ""))

    def set_parameters(self, node: Node, path: str) -> None:
        """Keep the parameters of an instance. A list of values goes to the inputs NAME0, NAME1 and so on."""
        block = self.blocks[path]
        if block is None:
            return
        for it in node.all("Parameter"):
            name, code = it.get("Name"), it.code("Value")
            rows = [(name, code, it.at("Name"))] if not it.is_left_out else []
            self.open_ends |= {(path, name)} if it.is_left_out else set()
            if rows and block.ports.find(f"{name}0") and not block.ports.find(name):
                parts = [it.span() for it in re.finditer(r"[^\[\],\s]+", code.text)]
                rows = [(f"{name}{number}", Code(code.source, code.end, code.text[begin:end], code.offsets[begin:end]),
                         code.place(begin)) for number, (begin, end) in enumerate(parts)]
            for name, code, place in rows:
                port = block.ports.find(name)
                if port is None or port.kind != "data" or port.is_output:
                    self.faults.refuse(place, f"type {block.name} has no data input {shown(name)}")
                elif port.lacking:
                    self.notes.append(f"{place}: the parameter {name} is left out: {port.lacking} is no type of the profile")
                elif code.text.strip():
                    self.keep_value(self.parameters, (path, port.name), code, port.type)

    def keep_value(self, values: dict[T, Code], key: T, code: Code, kind: str) -> None:
        """Keep the value of an input. Another value for it is refused, as the order in which tools write the two is not known."""
        other = values.setdefault(key, code)
        if value_of(other, kind) != value_of(code, kind):
            self.faults.refuse(code.place(0), f"this input has the value {shown(code.text)} here and {shown(other.text)} at {other.place(0)}:"
                               " keep one of the two")

    def connect(self, node: Node, kind: str, path: str) -> None:
        """Add a connection, or those that an adapter connection stands for."""
        faults, self.faults = self.faults, Faults() if node.is_left_out else self.faults
        begin, end = self.find(node, "Source", kind, path), self.find(node, "Destination", kind, path)
        self.faults = faults
        if begin is None or end is None or node.is_left_out:
            self.open_ends |= {it[0] for it in (begin, end) if it}
            return
        (source, plug), (target, socket), rows = begin, end, []
        if plug.lacking or socket.lacking:
            self.leave_out(node, plug, socket)
        elif plug.adapter is None:
            rows.append((source, target, kind))
        elif plug.adapter is not socket.adapter:
            self.faults.refuse(node.at("Source"), f"a plug of type {plug.type} does not fit a socket of type {socket.type}")
        for it in plug.adapter.ports.values() if plug.adapter and plug.adapter is socket.adapter else ():
            one, other = (source[0], f"{plug.name}.{it.name}"), (target[0], f"{socket.name}.{it.name}")
            rows.append((one, other, it.kind) if it.is_output else (other, one, it.kind))
        for source, target, part in rows:
            # (a network of a resource has a path that begins with a full stop, and may repeat the application)
            wire = Wire(source, target, node.at("Source"), part == "event", path.startswith("."), level=len(path.split(".")) if path else 0)
            self.outgoing.setdefault(source, []).append(wire)

    def leave_out(self, node: Node, source: Port, target: Port) -> None:
        """Leave out a connection between two ports whose types the profile lacks, or refuse one that has only one such end."""
        lacking, place = source.lacking or target.lacking, node.at("Source")
        rows = zip(("Source", "Destination"), (source, target))
        ends = " and ".join(f"{shown(node.get(end))} ({it.lacking or it.type or 'any type'})" for end, it in rows)
        if source.lacking and target.lacking:
            self.notes.append(f"{place}: the connection of {ends} is left out: {lacking} is no type of the profile")
        else:
            self.faults.refuse(place, f"{ends}: {lacking} is no type of the profile, so such a port can be connected only to another one")

    def find(self, node: Node, end: str, kind: str, inside: str) -> tuple[Key, Port] | None:
        """Return the port at an end of a connection, of the owner or of an instance, or refuse its name."""
        # (EcoStruxure writes the ports of the network itself as $PORT)
        text, place, owner = node.get(end).removeprefix("$"), node.at(end), self.blocks.get(inside)
        instance, _, name = text.rpartition(".") if not node.get(end).startswith("$") else ("", "", text)
        path, is_output = self.scopes[inside].find(instance), end == "Source"
        if owner and owner.ports.find(text):
            path, name, is_output = inside, text, not is_output
        if path is None or path not in self.blocks:
            what = f"instance {shown(instance)}" if instance else f"port {shown(text)}"
            self.faults.refuse(place, f"there is no {what}")
        block = self.blocks.get(path) if path is not None else None
        port = block.ports.find(name) if block else None
        if path is None or block is None:
            return None
        if port is None or port.kind != kind or port.is_output != is_output:
            side = {"adapter": ("socket", "plug")}.get(kind, (f"{kind} input", f"{kind} output"))[is_output]
            others = shown(", ".join(it.name for it in block.side(kind, is_output)) or "none")
            self.faults.refuse(place, f"{shown(text)}: type {block.name} has no {side} {shown(name)} (it has {others})")
            return None
        return (path, port.name), port

    def home(self, path: str) -> str:
        """Return the resource of an instance. In a composite type all are in one."""
        return ""

    def type_of(self, key: Key) -> str:
        """Return the type of a variable, or nothing if it is open."""
        block = self.blocks.get(key[0])
        return block.ports[key[1]].type if block and key[1] in block.ports else ""

    def declared_of(self, key: Key) -> str:
        """Return the type of a variable as it is declared, or nothing if it is open."""
        block = self.blocks.get(key[0])
        port = block.ports.get(key[1]) if block else None
        return port.declared or port.type if port else ""

    def targets(self, key: Key, outer: Wire | None = None, depth: int = 0) -> Iterator[tuple[Key, Wire | None]]:
        """Return the ports to which a connection leads in the end, each with the outermost connection on the way.

        That is where the way leads from one subapplication to another, or from one resource to another."""
        if key not in self.hubs:
            yield key, outer
            return
        for wire in (it for hub in self.hubs[key] for it in self.outgoing.get(hub, ())):
            self.visits += 1
            if depth > 64 or self.visits > 10 * MOST_CONNECTIONS:
                raise self.faults.refuse(wire.place, "connections of subapplications lead in a circle")
            yield from self.targets(wire.target, wire if outer is None or wire.level < outer.level else outer, depth + 1)

    def flat(self) -> list[Wire]:
        """Return the connections without subapplications. What a resource repeats of the application is left out."""
        found: dict[tuple[Key, Key], bool] = {}
        wires: list[Wire] = []
        for wire in [it for key, row in self.outgoing.items() if not key[0] or key[0] in self.instances for it in row]:
            for target, outer in self.targets(wire.target, wire):
                if wire.may_repeat and found.setdefault((wire.source, target), wire.may_repeat) is False:
                    self.notes.append(f"{wire.place}: this connection of the application is given again in a resource")
                else:
                    found[wire.source, target] = wire.may_repeat
                    wires.append(wire._replace(target=target, place=outer.place if outer else wire.place))
        return wires

    def set_constants(self) -> None:
        """Give TRUE to the inputs that have it from the start, as parameters."""
        fed = {it.target for it in self.wires}
        for (path, name), place in self.constants.items():
            one = self.instances.get(path)
            title = f"{path.lstrip('.')}.{name}".lstrip(".")
            if (path, name) in fed:
                self.faults.refuse(place, f"{title} has more than one source")
            elif self.type_of((path, name)) not in ("", "BOOL"):
                self.faults.refuse(place, f"QO is a BOOL, and {title} is none")
            elif one:
                one.parameters[name] = Code(Source(place.path, ""), 0, "TRUE", array("I", [0] * 4))

    def resolve(self) -> None:
        """Name the instances, connect them directly and give them their parameters.

        Parameters of a subapplication, and its initial values, go to the inputs inside."""
        relays = Relays(self, self.flat())
        functions = Functions(self, relays.wires)
        edges = [*((it.source, it.target) for it in relays.wires if not it.is_event), *relays.edges(), *functions.edges()]
        given = {end: literal_type(code.text) for key, code in self.parameters.items() for end, _ in self.targets(key)}
        given |= dict.fromkeys(self.constants, "BOOL")
        types = functions.settled(lambda more: infer(edges, self.declared_of, more), given)
        functions.expand(types)
        self.wires = relays.expanded({key: UNSIGNED.get(kind, kind) for key, kind in types.items()})
        set_already = {it.target for row in self.outgoing.values() for it in row}
        for path, block in self.blocks.items():
            for port in block.side("data", False) if block and block.kind == "subapplication" else ():
                if port.initial and (path, port.name) not in set_already:
                    self.parameters.setdefault((path, port.name), port.initial)
        for key, code in self.parameters.items():
            for (path, name), _ in self.targets(key):
                if path in self.instances and name in self.instances[path].block.ports:
                    one = self.instances[path]
                    self.keep_value(one.parameters, name, code, one.block.ports[name].type)
        self.set_constants()
        names = Names("instance", [(it.path.lstrip("."), it.place) for it in self.instances.values()], self.faults)
        for one in self.instances.values():
            one.out = names[one.path.lstrip(".")]
        self.notes += names.renamed


def value_of(code: Code, kind: str) -> str:
    """Return a constant as the profile writes it, to compare it with another one."""
    faults = Faults()
    text = constant(code, kind, faults) if kind else ""
    return code.text.strip() if faults or not kind else MARK.sub("", text).upper()


@dataclass(slots=True)
class Resource:
    """A resource: its name in the profile and in the project, and what instances of the application are called in it."""

    device: str
    name: str
    place: Place
    node: Node
    out: str = ""
    title: str = ""
    device_out: str = "DEV"
    aliases: dict[str, str] = field(default_factory=dict)
    instances: list[Instance] = field(default_factory=list)


class System(Network):
    """A whole system, flat: one application, or networks of resources alone."""

    def __init__(self, root: Node, library: Library) -> None:
        super().__init__(library)
        applications = list(root.all("Application"))
        for it in applications[1:]:
            self.faults.refuse(it.place, "the profile has one application: make a system of each, or draw them as one")
        top = applications[0] if applications else root
        self.name, self.place = top.get("Name"), top.at("Name")
        self.out = Names("application", [(self.name, self.place)], self.faults)[self.name]
        for inside in top.all("SubAppNetwork", "FBNetwork"):
            self.add(inside)
        self.resources = [Resource(device.get("Name"), it.get("Name"), it.at("Name"), it)
                          for device in root.all("Device") for it in device.all("Resource")]
        self.name_resources()
        for device in root.all("Device"):
            for network in device.all("FBNetwork"):
                if network.children:
                    self.faults.refuse(network.place, "a network of a device is not supported: move it to a resource")
        # No path of the application has a full stop at its beginning, as those of resources have.
        self.mapping = {f".{it.out}": it for it in self.resources} | self.read_mapping(root)
        for resource in self.resources:
            self.add_resource(resource)
        self.resolve()
        self.place_instances(Resource("DEV", "MAIN", self.place, root))
        self.warn_of_crossings()

    def name_resources(self) -> None:
        """Name all resources. Names that are given in several devices get the device in front."""
        names = [it.name.upper() for it in self.resources]
        wanted = [it.name if names.count(it.name.upper()) == 1 else f"{it.device}.{it.name}" for it in self.resources]
        known = Names("resource", [(name, it.place) for name, it in zip(wanted, self.resources)], self.faults)
        for name, it in zip(wanted, self.resources):
            it.title, it.out, it.device_out = name, known[name], Names("device", [(it.device, it.place)], self.faults)[it.device]

    def read_mapping(self, root: Node) -> dict[str, Resource]:
        """Return the resources of instances and subapplications of the application, by their paths."""
        found: dict[str, Resource] = {}
        for it in root.all("Mapping"):
            (name, _, path), target = it.get("From").partition("."), it.get("To").split(".", 2)
            resource = next((one for one in self.resources if [one.device, one.name] == target[:2]), None)
            if name != self.name or not path:
                self.faults.refuse(it.at("From"), f"{shown(it.get('From'))} is no instance of application {shown(self.name)}")
            elif resource is None or len(target) < 3:
                self.faults.refuse(it.at("To"), f"{shown(it.get('To'))} is no instance of a resource")
            elif path in found:
                self.faults.refuse(it.at("From"), f"{shown(path)} is mapped twice")
            else:
                found[path] = resource
                resource.aliases[target[2]] = path
                if path not in self.blocks:
                    self.faults.refuse(it.at("From"), f"there is no instance {shown(path)}")
        return found

    def add_resource(self, resource: Resource) -> None:
        """Add the network of a resource, with the START that each resource has without naming it, if it is used."""
        for node in resource.node.all("FBNetwork"):
            sources = [it.get("Source") for part in node.all("EventConnections") for it in part.children]
            named = [it.get("Name") for it in node.all("FB")]
            if "START" not in named and any(it.startswith("START.") for it in sources):
                node.children.insert(0, node.made("FB", Name="START", Type="E_RESTART"))
            self.add(node, f".{resource.out}", resource.aliases)

    def mapped(self, path: str) -> Resource | None:
        """Return the resource of an instance, if it is mapped to one."""
        steps = path.split(".")
        outer = (".".join(steps[:n]) for n in range(len(steps), 0, -1))
        return next((self.mapping[it] for it in outer if it in self.mapping), None)

    def home(self, path: str) -> str:
        """Return the resource of an instance, or nothing for the one of all that are mapped nowhere."""
        resource = self.mapped(path)
        return resource.out if resource else ""

    def place_instances(self, rest: Resource) -> None:
        """Put each instance into its resource, or into the rest."""
        for one in self.instances.values():
            (self.mapped(one.path) or rest).instances.append(one)
        if rest.instances or not self.resources:
            rest.title = "MAIN"
            rest.out = Names("resource", [("MAIN", rest.place)], self.faults, [it.out for it in self.resources])["MAIN"]
            if self.resources:
                rows = ", ".join(it.out for it in rest.instances)
                self.notes.append(f"mapped nowhere, and so in resource {rest.out} together: {rows}")
            self.resources.append(rest)

    def warn_of_crossings(self) -> None:
        """Warn of each connection that leads to another resource, and that no communication block carries."""
        at = {one.path: it.out for it in self.resources for one in it.instances}
        for wire in self.wires:
            source, target = at[wire.source[0]], at[wire.target[0]]
            if source != target and not wire.is_carried:
                text = f"this connection leads from resource {source} to {target} without a communication block: a controller has none there"
                self.faults.warn(wire.place, "I02", text)

    def crossings(self) -> list[tuple[Resource, Resource]]:
        """Return the pairs of resources between which connections lead, in the order of the resources."""
        at = {one.path: number for number, it in enumerate(self.resources) for one in it.instances}
        pairs = {(at[it.source[0]], at[it.target[0]]) for it in self.wires}
        return [(self.resources[begin], self.resources[end]) for begin, end in sorted(pairs) if begin != end]


def system_of(roots: Sequence[Node], faults: Faults) -> Node:
    """Return a system with one instance of each of these types."""
    network = roots[0].made("FBNetwork")
    for it in roots:
        if it.tag != "AdapterType":
            node = it.made("SubApp" if it.tag == "SubAppType" else "FB")
            package = package_of(it)
            node.attributes = {"Name": it.code("Name"), "Type": it.code("Name").after(f"{package}::" if package else "")}
            network.children.append(node)
    if not network.children:
        raise faults.refuse(network.place, "there are only adapter types: give a system or a type with blocks")
    return network.made("System", network.made("Application", network, Name="TYPES"))
