"""Lints a project: what is refused is left out, with what hangs on it, and the warnings are about the rest.

Each round imports without what was refused in the rounds before, until the importer and the simulator accept the rest."""

from __future__ import annotations

import os
import re
import subprocess
import sys
import tempfile
from collections.abc import Callable, Iterable, Iterator
from dataclasses import dataclass, field

from fbsim.program import find_program

from .blocks import Library
from .common import MARK, FileFault, Faults, Place, Refused
from .document import Node
from .files import TypeFiles
from .mapping import PACKAGED, mapping_of
from .network import Network, System
from .project_names import ProjectNames
from .report import ACCEPTED, DENIED, REFUSED
from .store import check, keep
from .writing import Latencies, Types, texts_of

MOST_ROUNDS = 40
LINT = re.compile(r"([\w.]+):(\d+):(\d+): (L\d\d): (application|block type) (\w+): (?:instance (\w+))?.*")
# Warnings that a missing connection, a missing parameter or a missing instance may cause: of the instance, and of the type.
OF_INSTANCES, OF_TYPES, OF_NETWORKS = ("L02", "L15", "L16"), ("L01", "L03", "L04"), ("L01", "L08", "L11", "L14")
PARTS = ("Connection", "Parameter", "FB", "SubApp")
REMOVED = ("Mapping", "Resource", "Device", "Application")
Convert = Callable[[TypeFiles, Faults], Library]


@dataclass
class Rest:
    """What is left of a project: its files, and what was refused."""

    roots: dict[str, Node]
    files: TypeFiles
    left_out: set[str] = field(default_factory=set)
    # Files of composite types that lack a part, and whether the application lacks a mapping.
    partial: set[str] = field(default_factory=set)
    is_unmapped: bool = False
    refused: Faults = field(default_factory=Faults)
    harmless: set[tuple[Place, str]] = field(default_factory=set)
    # The types that were looked up, in any round, as the library has them.
    types: set[tuple[str, ...]] = field(default_factory=set)

    def root_of(self, path: str) -> Node | None:
        """Return the root of a file."""
        return self.roots.get(path) or next((it.root for it in self.files.known.values() if it.path == path), None)

    def take(self, faults: Iterable[tuple[Place, str]], hanging: set[str]) -> bool:
        """Leave out what faults are about, and return whether there is less now than before."""
        before = len(self.left_out) + len(self.harmless)
        self.left_out |= {it for it in hanging if (root := self.root_of(it)) and root.tag == "FBType"}
        is_less = False
        for place, text in faults:
            if place.path not in hanging:
                self.refused.add((place, text))
            is_less |= self.leave_out(place, text)
        return is_less or len(self.left_out) + len(self.harmless) > before

    def leave_out(self, place: Place, text: str) -> bool:
        """Leave out the part of a file in which a fault is, or the whole type, and return whether it was there before."""
        root = self.root_of(place.path)
        if root is None:
            return False
        way = way_to(root, root.source.starts[place.line - 1] + place.column - 1 if place.line <= len(root.source.starts) else 0)
        is_type = root.tag in ("FBType", "AdapterType")
        if any(place.path == it.path and (place, text) in it.faults for it in self.files.known.values()) and not is_type:
            self.harmless.add((place, text))
        elif is_type and "FBNetwork" not in [it.tag for it in way] or not any(it.tag in PARTS + REMOVED for it in way):
            self.left_out.add(place.path)
        elif not is_type and way[-1].tag == "VarDeclaration":
            # A variable of a subapplication is only a name for a connection.
            self.harmless.add((place, text))
        else:
            return self.cut(way, is_type)
        return False

    def cut(self, way: list[Node], is_type: bool) -> bool:
        """Leave out the innermost part on the way to a place."""
        for number in range(len(way) - 1, 0, -1):
            part = way[number]
            if part.tag in PARTS and not part.is_left_out:
                part.is_left_out = True
                self.partial |= {part.source.path} if is_type else set()
                return True
            if part.tag in REMOVED and part in way[number - 1].children:
                way[number - 1].children.remove(part)
                self.is_unmapped = True
                return True
        return False


def way_to(node: Node, offset: int) -> list[Node]:
    """Return the elements in which a character of a file is, or after whose beginning it comes, from the outermost on."""
    way = [node]
    while inner := [it for it in way[-1].children if it.offset <= offset]:
        way.append(inner[-1])
    return way


class Linted:
    """What is left of a project, as it is written for the simulator."""

    def __init__(self, system: System, library: Library) -> None:
        self.system, self.library, self.types = system, library, Types(library)
        self.texts = texts_of(system, self.types, Latencies(1, {}))

    def networks(self) -> Iterator[tuple[str, Network]]:
        """Return the application, and the networks of the composite types, with the word and the name of each."""
        yield self.system.out, self.system
        yield from ((block.out, it) for block, it in self.types.networks.items())

    def counted(self, rest: Rest) -> str:
        """Return how many of the types and the instances are there."""
        types = [self.library.blocks.get(it) for it in rest.types]
        blocks = [it for _, network in self.networks() for path, it in network.blocks.items() if path]
        instances = [it for it in blocks if it is None or it.kind != "subapplication"]
        known = [len([it for it in rows if it]) for rows in (types, instances)]
        return f"linted {known[0]} of {len(types)} types and {known[1]} of {len(instances)} instances"

    def touched(self, network: Network) -> set[str]:
        """Return the instances to which something leads that is left out, or from which something leads to that."""
        ends = {target[0] for key in network.open_ends for target, _ in network.targets(key)}
        return {network.instances[it].out for it in ends | {path for path, _ in network.open_ends} if it in network.instances}

    def findings(self, rest: Rest) -> tuple[list[str], int]:
        """Return the warnings of the simulator at their places in the XML, and how many are not shown."""
        lines, hidden = lints(self.texts), 0
        names = ProjectNames(".", mapping_of(self.system, self.types, self.texts, 1, "."))
        touched = {name: self.touched(network) for name, network in self.networks()}
        parameters = {network.instances[path].block.out for _, network in self.networks()
                      for path, _ in network.open_ends if path in network.instances}
        partial = {it.out for it in self.types.networks if it.place.path in rest.partial}
        partial |= {block.out for block, network in self.types.networks.items() if None in network.blocks.values()}
        made = {it.out for it in self.types.written if it.made or it.place.path in PACKAGED}
        shown = []
        for line in lines:
            found = LINT.fullmatch(line)
            if found is None or found[5] == "block type" and found[6] in made:
                continue
            number, owner, instance = found[4], found[6], found[7]
            is_caused = (instance in touched.get(owner, ()) and number in OF_INSTANCES
                         or number in OF_TYPES and owner in parameters
                         or number in OF_NETWORKS and found[5] == "block type" and owner in partial)
            hidden += is_caused
            if not is_caused:
                shown.append(names.message(line))
        return shown, hidden


def lints(texts: dict[str, str]) -> list[str]:
    """Return the warnings of the simulator about texts."""
    with tempfile.TemporaryDirectory(prefix="fbsim-lint-") as folder:
        for name, text in texts.items():
            keep(folder, name, MARK.sub("", text))
        words = [find_program(), "check", "application.iec", "--types", "types.iec", "--deploy", "deploy.toml", "--lint", "--no-why"]
        done = subprocess.run(words, cwd=folder, capture_output=True, text=True, errors="replace")
    return done.stderr.splitlines()


def accepted(rest: Rest, make: Callable[[Rest, Faults], System]) -> tuple[Linted | None, Faults]:
    """Return what is left of a project when nothing more is refused, and the faults of its last round."""
    faults = Faults()
    for _ in range(MOST_ROUNDS):
        faults, linted = Faults(), None
        hanging: set[str] = set()
        try:
            system = make(rest, faults)
            hanging = system.library.hanging
            linted = Linted(system, system.library)
            rest.types |= {key for key, it in system.library.blocks.items() if key[2] != "AdapterDeclaration" and (
                it is None or it.node and it.kind not in ("subapplication", "service"))}
        except Refused:
            pass
        wrong = faults - rest.harmless
        if linted and not wrong:
            found = refused_by_simulator(linted.texts)
            if not found:
                return linted, faults
            wrong = found - rest.harmless
        if not rest.take(sorted(wrong), hanging):
            break
    rest.refused.update(faults)
    return None, faults


def refused_by_simulator(texts: dict[str, str]) -> Faults:
    """Return what the simulator refuses in texts, at places in the XML."""
    faults = Faults()
    with tempfile.TemporaryDirectory(prefix="fbsim-lint-") as folder:
        for name, text in texts.items():
            keep(folder, name, MARK.sub("", text))
        check(folder, texts, faults)
    return faults


def lint(rest: Rest, make: Callable[[Rest, Faults], System], deny: list[frozenset[str]]) -> int:
    """Print the refusals and the warnings of a project, and how much was linted, and return the status."""
    if not rest.roots:
        print(*rest.refused.lines(), sep="\n", file=sys.stderr)
        return REFUSED
    try:
        linted, faults = accepted(rest, make)
    except FileFault as fault:
        linted, faults = None, Faults()
        rest.refused.refuse(Place(os.path.normpath(next(iter(rest.roots))), 1, 1), str(fault))
    rows, hidden = linted.findings(rest) if linted else ([], 0)
    warned = [it for it in faults.warned() if not (rest.is_unmapped and ": I02: " in it)]
    refused = [f"{place}: refused: {text}" for place, text in sorted(rest.refused)]
    print(*refused, *rows, *warned, sep="\n", end="\n" if refused or rows or warned else "", file=sys.stderr)
    report = linted.counted(rest) if linted else "linted nothing: what is refused can't be left out"
    if refused:
        report += f"; refused: {len(refused)}, left out with what hangs on it"
    if hidden:
        report += f"; warnings not shown, since what is left out may cause them: {hidden}"
    print(report)
    numbers = {it.partition(": ")[2].partition(": ")[0] for it in [*rows, *warned]}
    return DENIED if frozenset().union(*deny) & numbers else ACCEPTED
