"""Function blocks of the library of functions, F_ADD, F_SEL, F_INT_TO_DINT and so on, as basic types that are made for them.

REQ computes OUT from the inputs and leads to CNF. Inputs of an open type get one from what they are connected to, from a
literal that names its type, or from what OUT leads to."""

from __future__ import annotations

from collections.abc import Callable, Iterator
from dataclasses import dataclass
from typing import TYPE_CHECKING

from .blocks import KINDS, Block, Library, Port
from .common import MARK, Place, shown
from .conversions import conversion_of
from .document import Code, Node, Source
from .expressions import BITS, RANGES, UNSIGNED, Expression, Variable, laid_out
from .files import is_standard
from .functions import ARGUMENTS, COMPARISONS, OPERATORS, SHIFTS, arguments_of, call_of
from .kinds import common_type
from .lowering import Lowering
from .made import Maker, expansion
from .statements import assigned
from .wires import Key, Wire

if TYPE_CHECKING:
    from .network import Network

LOGIC, ARITHMETIC = ("AND", "OR", "XOR", "NOT"), ("ADD", "SUB", "MUL", "DIV", "MOD", "ABS", "MIN", "MAX", "LIMIT")
# The type of an index or of the width of a shift, if only a literal says it.
USUAL = "INT"
# What all inputs of a comparison lead to, as those of an addition lead to OUT.
COMPARED = "compared"


def function_of(name: str) -> tuple[str, list[str]] | None:
    """Return the function of a block, such as F_ADD, F_ADD_3 or F_INT_TO_DINT, with the names of its inputs."""
    base = name.upper().removeprefix("F_")
    stem, _, count = base.rpartition("_")
    if not name.upper().startswith("F_") or base not in ARGUMENTS and conversion_of(base) is None and stem not in ARGUMENTS:
        return None
    if base in ARGUMENTS or conversion_of(base):
        names = ARGUMENTS.get(base, "IN").split()
        return base, names[:-1] if names[-1] == ".." else names
    inputs = arguments_of(stem, int(count) + (stem == "MUX")) if count.isdecimal() and len(count) < 4 else None
    return (stem, inputs) if inputs and ".." in ARGUMENTS[stem] else None


def function_block(text: str, place: Place, library: Library) -> Block | None:
    """Return the type of a function block, unless a file has another one of this name, or it is to become a stub."""
    package, _, name = text.rpartition("::")
    found = function_of(name)
    if found is None or name.upper() in library.stubs.names:
        return None
    block = Block(name.upper(), "function", place, text=found[0])
    for it in ("REQ", "CNF"):
        block.add_port(it, "event", it == "CNF")
    for it in found[1]:
        block.add_port(it, "data", False)
    block.add_port("OUT", "data", True)
    roots = [it.read() for it in library.files.find(name, package, "FB", False)]
    return block if (roots or is_standard(package)) and all(root is not None and is_alike(root, block) for root in roots) else None


def is_alike(root: Node, block: Block) -> bool:
    """Return whether a file has no chart, and the ports of a function block."""
    lists = [part for top in root.all("InterfaceList") for part in top.children]
    named = {(it.get("Name").upper(), part.tag.endswith(("Outputs", "OutputVars"))) for part in lists for it in part.children}
    return not any(it.tag in KINDS for it in root.children) and named == {(it.name, it.is_output) for it in block.ports.values()}


class Fixed(Code):
    """A text that is in no file: all its characters have one place."""

    def __init__(self, where: Place) -> None:
        super().__init__(Source(where.path, ""), 0)
        self.where = where

    def place(self, index: int) -> Place:
        return self.where


@dataclass(slots=True)
class Function:
    """A function block of a network."""

    path: str
    block: Block
    place: Place

    @property
    def name(self) -> str:
        """The function."""
        return self.block.text

    @property
    def inputs(self) -> list[str]:
        """The names of the inputs."""
        return [it.name for it in self.block.side("data", False)]

    @property
    def alone(self) -> list[str]:
        """The inputs whose type is none of the other inputs'."""
        return ["N"] if self.name in SHIFTS else {"SEL": ["G"], "MUX": ["K"]}.get(self.name, [])

    @property
    def hub(self) -> str:
        """What all inputs with one type lead to, or nothing."""
        is_compared = OPERATORS.get(self.name) in (*COMPARISONS, "<>")
        return COMPARED if is_compared else "" if conversion_of(self.name) else "OUT"

    def fixed(self) -> dict[str, str]:
        """Return the types of the ports that are not open."""
        conversion = conversion_of(self.name)
        if conversion:
            return {"OUT": conversion[1]} | ({"IN": conversion[0]} if conversion[0] else {})
        return ({"OUT": "BOOL"} if self.hub == COMPARED else {}) | ({"G": "BOOL"} if self.name == "SEL" else {})


class Functions:
    """The function blocks of a network."""

    def __init__(self, network: Network, wires: list[Wire]) -> None:
        self.network, self.faults = network, network.faults
        self.all = [Function(it.path, it.block, it.place) for it in network.instances.values() if it.block.kind == "function"]
        self.sources = {it.target: it for it in wires if not it.is_event}
        for one in self.all:
            for name, kind in one.fixed().items():
                one.block.ports[name].declared = kind

    def edges(self) -> Iterator[tuple[Key, Key]]:
        """Return which input leads to which output inside of the blocks, to find their types."""
        for one in self.all:
            for name in one.inputs if one.hub else ():
                if name not in one.alone:
                    yield (one.path, name), (one.path, one.hub)

    def settled(self, infer: Callable[[dict[Key, str]], dict[Key, str]], given: dict[Key, str]) -> dict[Key, str]:
        """Return the types of all ports: those of inputs of several widths meet in the least type that has all their numbers."""
        while True:
            types, wider = infer(given), {}
            for one in self.all:
                kinds = [types.get((one.path, name), "") for name in one.inputs if name not in one.alone]
                meet = common_type([Expression(0, it) for it in kinds if it])
                if one.hub and meet in RANGES and RANGES[meet] != RANGES.get(types.get((one.path, one.hub), ""), None):
                    if given.get((one.path, one.hub)) != meet:
                        wider[one.path, one.hub] = meet
            if not wider:
                return types
            given = given | wider

    def expand(self, types: dict[Key, str]) -> None:
        """Give each block the type that is made for it, or refuse it with what it is connected to."""
        for one in self.all:
            usual = dict.fromkeys(one.alone, USUAL) | one.fixed()
            kinds = {name: types.get((one.path, name), "") or usual.get(name, "") for name in (*one.inputs, "OUT")}
            fault = self.fault(one, kinds)
            if fault:
                self.faults.refuse(one.place, f"{one.path.lstrip('.')}: {fault}")
                Maker(one.block)
            else:
                block = self.made(one, kinds)
                self.network.blocks[one.path] = self.network.instances[one.path].block = block

    def fault(self, one: Function, kinds: dict[str, str]) -> str:
        """Return why a block can't be computed with these types, or nothing."""
        values = {name: kind for name, kind in kinds.items() if name not in one.alone and (name != "OUT" or one.hub == "OUT")}
        if "" in values.values():
            return (f"nothing says the type of {shown(', '.join(it for it, kind in values.items() if not kind))} of {one.block.name}: "
                    "connect it, or give a literal with its type, as INT#5")
        classes = {class_of(kind) for kind in values.values()}
        is_scaled = one.name in ("MUL", "DIV") and classes == {"TIME", "number"} and kinds["IN1"] == kinds["OUT"] == "TIME"
        usable = {"BOOL", "bits"} if one.name in LOGIC else {"bits"} if one.name in SHIFTS else {"number", "TIME"} if one.name in ARITHMETIC else classes
        is_whole = all(class_of(kinds[name]) == "number" for name in one.alone if name != "G")
        if is_scaled or len(classes) == 1 and classes <= usable and is_whole and not (one.name == "MOD" and "TIME" in classes):
            return ""
        ends = ", ".join(f"{name} is {kind}{self.end(one, name)}" for name, kind in kinds.items() if name != "OUT" or len(kinds) == 2)
        return f"{one.block.name} does not take these types: {ends}"

    def end(self, one: Function, name: str) -> str:
        """Return where the value of an input comes from, for a message."""
        wire = self.sources.get((one.path, name))
        return f" (from {'.'.join(it for it in wire.source if it).lstrip('.')}, {wire.place})" if wire else ""

    def made(self, one: Function, kinds: dict[str, str]) -> Block:
        """Return the type that is made for a block."""
        block = Block(one.block.name, "function", one.place)
        make = Maker(block)
        plain = {name: UNSIGNED.get(kind, kind) for name, kind in kinds.items()}
        make.variables(False, {name: plain[name] for name in one.inputs}, "REQ")
        make.variables(True, {"OUT": plain["OUT"]}, "CNF")
        lowering = Lowering(Fixed(one.place), self.faults, self.network.library.overflow, variables_of(block))
        value = call_of(one.name, 0, [Variable(0, kinds[name], name) for name in one.inputs])
        segments = lowering.statements(assigned(Variable(0, kinds["OUT"], "OUT"), value))
        row = laid_out((piece for it in segments for piece in it.pieces()), lowering.code)
        make.reaction("REQ", [MARK.sub("", row).strip()], "CNF")
        for name, kind in kinds.items():
            block.ports[name].declared = kind
        names = dict.fromkeys(kinds[it] for it in one.inputs if it not in one.alone) if not conversion_of(one.name) else {}
        return expansion(self.network.library, block, ".".join([one.block.name, *names]))


def class_of(kind: str) -> str:
    """Return what a type is among operands: BOOL, TIME, bits or number."""
    return "bits" if kind in BITS else kind if kind in ("BOOL", "TIME") else "number"


def variables_of(block: Block) -> Callable[[str, int], Variable]:
    """Return what adds internal variables to a made type."""
    def fresh(kind: str, number: int) -> Variable:
        name = f"T__{kind}_{number}"
        if block.made and all(it.name != name for it in block.made.variables):
            block.made.variables.append(Port(name, "data", False, block.place, kind, out=name))
        return Variable(0, kind, name)
    return fresh
