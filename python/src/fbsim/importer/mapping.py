"""map.json: from each place in the texts, and from each name in them, to the file, the line, the column and the name in the XML."""

from __future__ import annotations

import hashlib
import json
import os
import re
from collections.abc import Iterable, Mapping
from pathlib import Path
from typing import Any

from .blocks import Block
from .common import MARK, FileFault, Faults, Place, Refused
from .document import Source, read_source
from .network import Instance, System
from .writing import Types

NAME, FORMAT, MOST_PATHS = "map.json", 1, 65_536
WORD = re.compile(r"[A-Za-z_][\w.:]*")
# The last part of a link in a deployment, which the user sets.
LATENCY = re.compile(r'(\[\[link\]\]\nfrom = "(\w+)"\nto = "(\w+)"\n)(.*?)(?=\n+\[\[|\n*\Z)', re.DOTALL)
FILES = ("types.iec", "application.iec", "deploy.toml", "import.txt")
TABLES = ("application", "resources", "instances", "types", "places", "sums")
# Files of this package: in map.json they have no folder.
PACKAGED = frozenset({"annex_a.iec"})


class Sources:
    """The files of the XML, by their numbers in map.json, and the names that are in them."""

    def __init__(self, folder: str) -> None:
        self.folder, self.numbers = folder, dict[str, int]()
        self.texts: dict[str, Source | None] = {}

    def row(self, place: Place) -> list[int | str]:
        """Return a place for map.json: the number of its file, line, column, and the name there."""
        number = self.numbers.setdefault(place.path, len(self.numbers))
        if place.path not in self.texts:
            try:
                self.texts[place.path] = None if place.path in PACKAGED else read_source(place.path, Faults())
            except (FileFault, Refused):
                self.texts[place.path] = None
        source, found = self.texts[place.path], None
        if source and 0 < place.line <= len(source.starts):
            found = WORD.match(source.text, source.starts[place.line - 1] + place.column - 1)
        return [number, place.line, place.column, found[0] if found else ""]

    def paths(self) -> list[str]:
        """Return the paths from the folder of map.json to the files."""
        return [it if it in PACKAGED else os.path.relpath(it, self.folder) for it in self.numbers]


def changed(names: Iterable[tuple[str, str]]) -> dict[str, str]:
    """Return the names of the XML by those of the texts, where the two differ."""
    return {out: name for out, name in names if out != name}


def mapping_of(system: System, types: Types, texts: Mapping[str, str], latency: int, folder: str) -> dict[str, Any]:
    """Return the content of map.json for texts with their marks, to be in a folder."""
    sources = Sources(folder)
    instances: dict[str, Any] = {}
    lines = ranges(MARK.sub("", texts["types.iec"]))
    for one in system.instances.values():
        add_paths(instances, one, "", project_path(one, system), types, sources)
    return {
        "format": FORMAT,
        "latency": latency,
        "application": {"text": system.out, "name": system.name, "at": sources.row(system.place)},
        "resources": {it.out: {"name": it.title, "at": sources.row(it.place)} for it in system.resources},
        "instances": instances,
        "types": {it.out: described(it, types, lines[it.out], sources) for it in types.written},
        "places": {name: places(text, sources) for name, text in texts.items() if name != "import.txt"},
        "sources": sources.paths(),
        "sums": {name: sum_of(name, MARK.sub("", text)) for name, text in texts.items()},
    }


def project_path(one: Instance, system: System) -> str:
    """Return the path of an instance in the project. That of an instance of a resource begins with the resource."""
    if not one.path.startswith("."):
        return one.path
    resource, _, rest = one.path[1:].partition(".")
    return f"{next(it.title for it in system.resources if it.out == resource)}.{rest}"


def add_paths(found: dict[str, Any], one: Instance, outer: str, name: str, types: Types, sources: Sources) -> None:
    """Add an instance and those inside it by their paths in a trace."""
    path = f"{outer}{one.out}"
    found[path] = {"name": name, "type": one.block.out, "at": sources.row(one.place)}
    network = types.networks.get(one.block)
    for it in network.instances.values() if network and len(found) < MOST_PATHS else ():
        add_paths(found, it, f"{path}.", f"{name}.{it.path}", types, sources)


def ranges(text: str) -> dict[str, list[int]]:
    """Return the first and the last line of each type in the text of all types."""
    found: dict[str, list[int]] = {}
    for number, line in enumerate(text.split("\n"), 1):
        if line.startswith("FUNCTION_BLOCK "):
            row = found.setdefault(line.split(" ")[1], [number, number])
        elif line == "END_FUNCTION_BLOCK":
            row[1] = number
    return found


def described(block: Block, types: Types, lines: list[int], sources: Sources) -> dict[str, Any]:
    """Return the names of a type: its own, and those of its ports, variables, states and algorithms."""
    chart, rows = types.charts.get(block), {"ports": changed((it.out, it.name) for it in block.ports.values() if it.kind != "adapter")}
    if chart:
        rows["variables"] = changed((it.out, it.name.rpartition(".")[2]) for it in chart.variables)
        rows["states"] = changed((out, name.removeprefix("ON.")) for name, out in chart.state_names.items())
        rows["algorithms"] = changed((out, name) for name, out in chart.bodies.items())
    return {"name": block.name, "at": sources.row(block.place), "lines": lines, **{kind: it for kind, it in rows.items() if it}}


def places(marked: str, sources: Sources) -> list[list[int | str]]:
    """Return a row for each place in a text: line and column in it, and the place in the XML of what begins there."""
    rows: list[list[int | str]] = []
    line, begin, at, cut = 1, 0, 0, 0
    for one in MARK.finditer(marked):
        line += marked.count("\n", at, one.start())
        begin, cut = (newline + 1, 0) if (newline := marked.rfind("\n", at, one.start())) >= 0 else (begin, cut)
        rows.append([line, one.start() - begin - cut + 1, *sources.row(Place(one[1], int(one[2]), int(one[3])))])
        at, cut = one.end(), cut + len(one[0])
    return rows


def sum_of(name: str, text: str) -> str:
    """Return the sum of a file that an import wrote. Latencies are the user's, and do not count."""
    plain = LATENCY.sub(r"\1", text) if name == "deploy.toml" else text
    return hashlib.sha256(plain.encode()).hexdigest()


def written(content: Mapping[str, Any]) -> str:
    """Return the text of map.json, with a line for each row."""
    parts = []
    for name, part in content.items():
        if name == "places":
            inside = ",\n".join(f"  {json.dumps(file)}: [\n" + ",\n".join(f"    {json.dumps(row)}" for row in rows) + "\n  ]"
                                for file, rows in part.items())
            parts.append(f' "places": {{\n{inside}\n }}')
        elif isinstance(part, dict) and name != "application":
            parts.append(f" {json.dumps(name)}: {{\n" + ",\n".join(f"  {json.dumps(key)}: {json.dumps(it)}" for key, it in part.items()) + "\n }")
        else:
            parts.append(f" {json.dumps(name)}: {json.dumps(part)}")
    return "{\n" + ",\n".join(parts) + "\n}\n"


def read_mapping(folder: str) -> dict[str, Any]:
    """Return the content of a folder's map.json. A folder without one that this program wrote is a fault."""
    path = Path(folder) / NAME
    try:
        content = json.loads(path.read_text("utf-8"))
    except OSError as fault:
        raise FileFault(f"{path}: {fault.strerror}: give the folder that fbsim-import wrote") from None
    except ValueError:
        content = None
    if not isinstance(content, dict) or content.get("format") != FORMAT or not all(isinstance(content.get(it), dict) for it in TABLES):
        raise FileFault(f"{path}: this is no map of an import: import into a new folder")
    return content
