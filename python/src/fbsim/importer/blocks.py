"""Block types: their interfaces, and where they come from."""

from __future__ import annotations

import copy
import re
from collections import Counter
from dataclasses import dataclass, field, replace
from pathlib import Path

from .bodies import is_usual
from .common import IS_NAME, TABLES, TYPES, Faults, Folded, Names, Place, shown
from .document import Code, Node
from .expressions import UNSIGNED
from .files import TypeFile, TypeFiles, is_standard, package_of
from .made import Made
from .splits import split_or_merge
from .stubs import Stubs, give_ports, make_stub

KINDS = {"SubAppType": "subapplication", "AdapterType": "adapter", "System": "system", "BasicFB": "basic",
         "SimpleFB": "simple", "FBNetwork": "composite"}
# Kinds of types whose ports may have a type that the profile lacks, if nothing but such ports is connected to them.
LEAVING = ("service", "composite", "subapplication")
DECLARED = re.compile(r"(?:\(\*(?:(?!\*\)).)*\*\)\s*)?FUNCTION_BLOCK\s+(\w+)(.*?)END_FUNCTION_BLOCK", re.DOTALL)
SECTION = re.compile(r"\b(EVENT|VAR)_(INPUT|OUTPUT)\b(.*?)\bEND_(?:EVENT|VAR)\b", re.DOTALL)
ROW = re.compile(r"(\w+(?:, \w+)*)(?: WITH (\w+(?:, \w+)*)| : (\w+))?;")


@dataclass(slots=True)
class Port:
    """An event, a variable (data) or an adapter. The ports of an adapter have names ADAPTER.NAME.

    A port whose type the profile lacks is left out; `lacking` says which type that is."""

    name: str
    kind: str
    is_output: bool
    place: Place
    type: str = ""
    initial: Code | None = None
    withs: list[tuple[str, Place]] = field(default_factory=list)
    out: str = ""
    adapter: Block | None = None
    lacking: str = ""
    # The type as it is declared: a string of bits is an unsigned number here.
    declared: str = ""


@dataclass(slots=True, eq=False)
class Block:
    """A type. Its kind is that of its file, built-in or of Annex A (declared), or of an expansion, which makes its chart."""

    name: str
    kind: str
    place: Place
    node: Node | None = None
    out: str = ""
    text: str = ""
    ports: Folded[Port] = field(default_factory=Folded)
    made: Made | None = None

    def add_port(self, name: str, kind: str, is_output: bool, type_name: str = "") -> Port:
        """Add a port of a type that is in no file."""
        self.ports[name] = port = Port(name, kind, is_output, self.place, type_name, out=name)
        return port

    def side(self, kind: str, is_output: bool) -> list[Port]:
        """Return the ports of one kind and one side, in their order, without those that are left out."""
        return [it for it in self.ports.values() if it.kind == kind and it.is_output == is_output and not it.lacking]

    def shape(self, with_lists: bool) -> set[tuple[object, ...]]:
        """Return what two types with one interface have alike, with or without the WITH lists of their events."""
        return {(it.name.upper(), it.kind, it.is_output, it.type,
                 *sorted(name.upper() for name, _ in it.withs if with_lists)) for it in self.ports.values()}


def packaged(name: str) -> dict[str, Block]:
    """Return the types of a file of this package, with their interfaces and their own text."""
    text, found = Path(__file__).with_name(name).read_text("ascii"), {}
    for one in DECLARED.finditer(text):
        place = Place(name, text.count("\n", 0, one.start()) + 1, 1)
        block = found[one[1]] = Block(one[1], "declared", place, out=one[1], text=one[0])
        for part, side, inside in SECTION.findall(one[2]):
            for names, variables, type_name in ROW.findall(inside):
                kind, withs = "event" if part == "EVENT" else "data", [(it, place) for it in variables.split(", ") if it]
                for it in names.split(", "):
                    block.ports[it] = Port(it, kind, side == "OUTPUT", place, type_name, withs=withs, out=it)
    return found


class Library:
    """All types of an import: those of the files and folders, of Annex A, and the built-in ones."""

    def __init__(self, files: TypeFiles, stubs: Stubs, faults: Faults) -> None:
        self.faults, self.stubs = faults, stubs
        self.ignored: Counter[str] = Counter()
        self.notes: list[str] = []
        # What a number does that does not fit: the run stops, or it loses its upper bits (wrap).
        self.overflow = "stop"
        self.built_in, self.annex = packaged("event_blocks.iec"), packaged("annex_a.iec")
        self.files = files
        # The files of types that are left out, and of types that have an adapter of those (lint.py).
        self.left_out: set[str] = set()
        self.hanging: set[str] = set()
        self.blocks: dict[tuple[str, ...], Block | None] = {}
        self.of_files: dict[TypeFile, Block | None] = {}
        self.made: dict[str, Block] = {}
        # The most steps that a statement of an algorithm takes more, by what import.txt calls it.
        self.steps: dict[str, int] = {}
        self.taken = {*self.built_in, *self.annex}

    def get(self, text: str, place: Place, tag: str = "FB") -> Block | None:
        """Return the type that an element with this tag names, with its package, or refuse the name."""
        package, _, name = text.rpartition("::")
        key = (name.upper(), package.upper(), tag)
        if not IS_NAME.fullmatch(name):
            self.faults.refuse(place, f"{shown(name)!r} is no name of a type")
        elif key not in self.blocks:
            self.blocks[key] = None
            self.blocks[key] = self.look_up(name, package, place, tag)
        return self.blocks.get(key)

    def look_up(self, name: str, package: str, place: Place, tag: str) -> Block | None:
        """Return the type of a file, or the one that the simulator has, or refuse the name."""
        usual = self.built_in.get(name.upper()) or self.annex.get(name.upper().removeprefix("FB_")) or split_or_merge(name.upper(), Block)
        if usual and usual.out not in self.taken:
            self.annex[usual.out] = usual
            self.taken.add(usual.out)
        found = self.files.find(name, package, tag, usual is not None)
        if len(found) > 1:
            own = self.files.known.get(str(Path(place.path).resolve()))
            example = next((it.package for it in found if own and it.package == own.package), found[-1].package) or "PACKAGE"
            paths = " and ".join(it.path for it in found[:5])
            self.faults.refuse(place, f"{name} is in {len(found)} files, {paths}: give its package, as {example}::{name}, or keep one of the files")
            return None
        if not found and (usual is None or not is_standard(package)):
            self.faults.refuse(place, self.files.missing(name, package))
        return self.read(found[0], name, usual) if found else usual if is_standard(package) else None

    def read(self, file: TypeFile, name: str, usual: Block | None) -> Block | None:
        """Return the type of a file with its interface, or that of the simulator which the file stands for."""
        if file.path in self.left_out:
            return None
        if file not in self.of_files:
            trial = copy.copy(self)
            trial.faults, trial.ignored, root = Faults(), Counter(), file.read()
            trial.faults.take(file.faults)
            block = block_of(root, trial) if root else None
            if usual and block and is_usual(block, usual, usual.out in self.built_in, trial.faults):
                self.notes.append(f"{block.place}: {block.name} is a type of the event library: the simulator's {usual.out} is used")
                self.of_files[file] = usual
            else:
                self.faults.take(trial.faults)
                self.ignored += trial.ignored + file.ignored
                if usual and block:
                    self.notes.append(f"{block.place}: {block.name} is not the simulator's {usual.out}: this file is used")
                self.of_files[file] = block and self.named(block, name, package_of(root) if root else "")
        return self.of_files[file]

    def named(self, block: Block, name: str, package: str) -> Block:
        """Give a type, which was asked for by a name, that of the profile."""
        if block.name.upper() != name.upper():
            self.faults.refuse(block.place, f"the type {shown(block.name)} is in a file with the name {name}")
        if block.kind == "service":
            reason = self.stubs.refusal(block, package)
            if reason:
                self.faults.refuse(block.place, reason)
            make_stub(block, self)
        if block.kind not in ("subapplication", "adapter"):
            block.out = Names("type", [(block.name, block.place)], self.faults, self.taken)[block.name]
            if block.out != block.name.upper():
                self.notes.append(f"type {package}{'::' if package else ''}{block.name}: {block.out}")
            self.taken.add(block.out)
        return block


def full_type(node: Node) -> str:
    """Return the type that an instance or an adapter names, with the package or the namespace that the element gives it."""
    return f"{node.get('Namespace')}::{node.get('Type')}" if node.get("Namespace") and "::" not in node.get("Type") else node.get("Type")


def block_of(root: Node, library: Library) -> Block:
    """Return the type of a file with its interface."""
    kinds = (KINDS[it.tag] for it in (root, *root.children) if it.tag in KINDS)
    block = Block(root.get("Name"), next(kinds, "service"), root.at("Name"), root)
    read_interface(block, library)
    return block


def read_interface(block: Block, library: Library) -> None:
    """Give a type the ports of its interface, those of its adapters after its own."""
    ports: list[Port] = []
    for part in [it for top in block.node.all("InterfaceList", "SubAppInterfaceList") for it in top.children] if block.node else ():
        is_output = part.tag.endswith(("Outputs", "OutputVars"))
        if part.tag == "InOutVars" and part.children:
            library.faults.refuse(part.place, "VAR_IN_OUT is not in the profile: use an input and an output")
        for it in part.children if part.tag != "InOutVars" else ():
            if it.tag == "AdapterDeclaration":
                ports += adapter_ports(it, part.tag == "Plugs", library)
            elif it.tag == "VarDeclaration":
                ports.append(variable(it, is_output, library, block.kind in LEAVING))
            else:
                if it.get("Type") not in ("", "Event", "EInit"):
                    library.faults.refuse(it.at("Type"), f"{shown(it.get('Type'))} is no type of an event here: write Event")
                withs = [(one.get("Var"), one.at("Var")) for one in it.children]
                ports.append(Port(it.get("Name"), "event", is_output, it.at("Name"), withs=withs))
    library.notes += [f"{it.place}: {it.name} of {block.name} is left out: {it.lacking} is no type of the profile"
                      for it in ports if it.lacking]
    if block.kind == "service" and block.node:
        ports += give_ports(ports, block.node)
    ports.sort(key=lambda it: "." in it.name)
    names = Names("port", [(it.name, it.place) for it in ports], library.faults)
    for one in ports:
        block.ports[one.name] = replace(one, out=names[one.name], withs=[])
    for one in ports:
        port = block.ports[one.name]
        for name, place in one.withs:
            other = block.ports.find(name)
            if other is None or other.kind != "data" or other.is_output != port.is_output:
                side = "output" if port.is_output else "input"
                library.faults.refuse(place, f"type {block.name} has no data {side} {shown(name)}")
            elif not other.lacking:
                port.withs.append((other.name, place))


def variable(node: Node, is_output: bool, library: Library, is_left: bool = False) -> Port:
    """Read the declaration of a variable. One of a type that the profile lacks is refused, or it is a port that may be left out."""
    kind, name, lacking, reason = node.get("Type").upper(), shown(node.get("Name")), "", ""
    if node.get("ArraySize"):
        lacking, reason = f"an array of {kind}", f"{name} is an array, and the profile has none: use a variable for each element"
    elif kind not in (*TYPES, *UNSIGNED):
        other, lacking = library.files.other(kind.rpartition("::")[2]), shown(node.get("Type")) or "nothing"
        advice = TABLES["advice"]["types"].get(kind.partition("[")[0], "of a structure, use a variable for each element")
        reason = f"{lacking} is {other or f'no type of the profile: {advice}'}"
    if lacking and not is_left:
        library.faults.refuse(node.at("ArraySize" if node.get("ArraySize") else "Type"), reason)
    initial = node.code("InitialValue") if node.get("InitialValue") else None
    kind = "" if lacking else kind
    return Port(node.get("Name"), "data", is_output, node.at("Name"), UNSIGNED.get(kind, kind), initial, lacking=lacking, declared=kind)


def adapter_ports(node: Node, is_plug: bool, library: Library) -> list[Port]:
    """Expand an adapter to ports: those of a plug are as in its type, those of a socket have the other direction."""
    name, place, adapter = node.get("Name"), node.at("Name"), library.get(full_type(node), node.at("Type"), node.tag)
    if adapter and adapter.kind != "adapter":
        library.faults.refuse(node.at("Type"), f"{adapter.name} is no adapter type")
    if adapter is None or adapter.kind != "adapter":
        library.hanging.add(node.source.path)
        return []
    return [Port(name, "adapter", is_plug, place, adapter.name, adapter=adapter),
            *(replace(it, name=f"{name}.{it.name}", is_output=it.is_output == is_plug, place=place,
                      withs=[(f"{name}.{one}", at) for one, at in it.withs]) for it in adapter.ports.values())]
