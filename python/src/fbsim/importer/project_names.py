"""Turns names and places of what the simulator writes into those of the project: traces, stops, `inspect`, `coverage`, warnings."""

from __future__ import annotations

import bisect
import os
import re
from collections.abc import Iterable, Iterator, Mapping
from typing import Any

from .common import FileFault, Faults, Place, Refused
from .document import Source, read_source
from .mapping import PACKAGED

SIGNS = ("<", ">")
PLACE = re.compile(r"(?:[^\s:]*/)?(types\.iec|application\.iec|deploy\.toml):(\d+):(\d+)(?::\s)?")
WORD = re.compile(r"[A-Z_][A-Z0-9_]*(?:\.[A-Z_][A-Z0-9_]*)*")
MARKED = re.compile(r"\s*\^\s*")
CLEARS = re.compile(r"(\s*(?:transition )?)(\w+) -> (\w+) by (.*?)( never cleared)?")
LOST, RUNS = re.compile(r"  lost in (\w+)"), re.compile(r"  (\w+):((?: \w+=\S+)*)")
COVERED = re.compile(r"  (state|algorithm|event) ([\w.]+)( .*)")
KINDS = ("ports", "variables", "algorithms", "states")
MOST_SHOWN = 200


class ProjectNames:
    """The names and places of an import, by the content of its map.json, which is for a folder."""

    def __init__(self, folder: str, content: Mapping[str, Any]) -> None:
        self.folder, self.content = folder, content
        self.sources: list[str] = content["sources"]
        self.types: Mapping[str, Mapping[str, Any]] = content["types"]
        self.instances: Mapping[str, Mapping[str, Any]] = content["instances"]
        self.resources = {it: row["name"] for it, row in content["resources"].items()}
        self.texts: dict[str, Source | None] = {}
        self.ports: dict[str, tuple[str, Mapping[str, str]]] = {}
        # The type of which the next lines speak, and the path of its instance, if there is one.
        self.type: Mapping[str, Any] = {}
        self.path = ""

    def place(self, name: str, line: int, column: int) -> Place | None:
        """Return the place in the XML of what is at a line and a column of a text."""
        rows = self.content["places"].get(name, ())
        at = bisect.bisect_right(rows, [line, column, len(self.sources)]) - 1
        return self.place_at(rows[at][2:]) if at >= 0 else None

    def place_at(self, row: list[Any]) -> Place:
        """Return the place of a row of map.json, with the path from here to the file."""
        path = self.sources[row[0]]
        return Place(path if path in PACKAGED else os.path.normpath(os.path.join(self.folder, path)), row[1], row[2])

    def instance(self, path: str) -> tuple[str, str]:
        """Return the path in the project, and the type, of an instance. What is inside a type of the simulator keeps its names."""
        outer, inside = path, ""
        while outer and outer not in self.instances:
            outer, _, last = outer.rpartition(".")
            inside = f".{last}{inside}"
        row = self.instances.get(outer)
        return (path, "") if row is None else (row["name"] + inside, "" if inside else row["type"])

    def port(self, text: str) -> tuple[str, Mapping[str, str]]:
        """Return the name of a port with its path, as a trace has it, and the names of the ports of its type."""
        if text not in self.ports:
            path, _, event = text.rpartition(".")
            name, kind = self.instance(path)
            names = self.types.get(kind, {}).get("ports", {})
            self.ports[text] = f"{name}.{names.get(event, event)}", names
        return self.ports[text]

    def lines(self, lines: Iterable[str]) -> Iterator[str]:
        """Return lines in the names of the project. A line of a text under its place becomes the line of the XML."""
        held: list[str] = []
        place: Place | None = None
        for line in (it.rstrip("\r\n") for it in lines):
            if held and MARKED.fullmatch(line) and len(held) == 1 and place:
                yield from self.source_lines(place)
                held, place = [], None
                continue
            yield from held
            held = []
            found = PLACE.match(line)
            if found:
                place = self.place(found[1], int(found[2]), int(found[3]))
                yield self.message(line)
            elif place:
                held = [line]
            else:
                yield self.line(line)
            if not found and not held:
                place = None
        yield from held

    def source_lines(self, place: Place) -> Iterator[str]:
        """Return the line of the XML at a place, and a mark under the column, if the file can be read."""
        if place.path not in self.texts:
            try:
                self.texts[place.path] = None if place.path in PACKAGED else read_source(place.path, Faults())
            except (FileFault, Refused):
                self.texts[place.path] = None
        source = self.texts[place.path]
        if source and place.line <= len(source.starts):
            begin = source.starts[place.line - 1]
            line = source.text[begin:].partition("\n")[0].rstrip("\r")
            cut = max(0, place.column - MOST_SHOWN // 2)
            yield line[cut:cut + MOST_SHOWN]
            yield "".join("\t" if it == "\t" else " " for it in line[cut:place.column - 1]) + "^"

    def line(self, line: str) -> str:
        """Return a line of a trace, or of what `inspect` or `coverage` writes."""
        words = line.split(" ")
        at = next((it for it in range(2, min(len(words) - 1, 7)) if words[it] in SIGNS), 0)
        if at and not line.startswith(" "):
            return self.event(words, at)
        if words[0] == "stop" and len(words) == 4:
            return " ".join([*words[:2], self.resources.get(words[2], words[2]), words[3]])
        if not line.startswith("  "):
            return self.heading(line, words)
        return self.inside(line)

    def event(self, words: list[str], at: int) -> str:
        """Return the line of an event, which has its sign at a word."""
        words[at - 1] = self.resources.get(words[at - 1], words[at - 1])
        self.path = words[at + 1].rpartition(".")[0]
        self.type = self.types.get(self.instance(self.path)[1], {})
        words[at + 1], names = self.port(words[at + 1])
        for number in range(at + 2, len(words)) if names else ():
            name, _, value = words[number].partition("=")
            words[number] = f"{names.get(name, name)}={value}"
        return " ".join(words)

    def heading(self, line: str, words: list[str]) -> str:
        """Return a line with what the next lines are about."""
        if words[0] == "type" and len(words) > 1:
            self.path, self.type = "", self.types.get(words[1], {})
            return " ".join(["type", self.type.get("name", words[1]), *words[2:]])
        if words[0] == "instance" and len(words) == 2:
            self.path = words[1]
            name, kind = self.instance(self.path)
            self.type = self.types.get(kind, {})
            return f"instance {name}"
        self.path, self.type = "", {}
        return self.message(line) if PLACE.search(line) else line

    def inside(self, line: str) -> str:
        """Return a line about the inside of a type or of an instance."""
        states, algorithms = self.type.get("states", {}), self.type.get("algorithms", {})
        if found := CLEARS.fullmatch(line):
            begin, end = (states.get(found[it], found[it]) for it in (2, 3))
            return f"{found[1]}{begin} -> {end} by {self.words(found[4])}{found[5] or ''}"
        if found := LOST.fullmatch(line):
            return f"  lost in {states.get(found[1], found[1])}"
        if found := COVERED.fullmatch(line):
            name = self.port(found[2])[0] if "." in found[2] else self.type.get(f"{found[1]}s", {}).get(found[2], found[2])
            if found[1] == "event" and "." not in found[2]:
                name = self.type.get("ports", {}).get(found[2], found[2])
            return f"  {found[1]} {name}{found[3]}"
        if (found := RUNS.fullmatch(line)) and found[1] != "stops":
            return f"  {algorithms.get(found[1], found[1])}:{self.words(found[2])}"
        return line

    def words(self, text: str) -> str:
        """Return an expression with the variables and events of the type."""
        names = {out: name for kind in ("variables", "ports") for out, name in self.type.get(kind, {}).items()}
        return WORD.sub(lambda one: names.get(one[0], one[0]), text)

    def message(self, line: str) -> str:
        """Return a line that begins with a place, or has one: with the place in the XML, and the names of the project."""
        found = PLACE.search(line)
        if found is None:
            return line
        place, number = self.place(found[1], int(found[2]), int(found[3])), int(found[2])
        kind = next((it for it, row in self.types.items() if row["lines"][0] <= number <= row["lines"][1]), "") if found[1] == "types.iec" else ""
        about = re.search(r"instance ([A-Z0-9_.]+)", line)
        if about and not kind:
            kind = self.instance(about[1])[1]
        self.type = self.types.get(kind, {})
        before, text = line[:found.start()], line[found.end():]
        end = found[0][found[0].rindex(found[3]) + len(found[3]):]
        return f"{before}{place or found[0].rstrip(': ')}{end}{self.sentence(text)}"

    def sentence(self, text: str) -> str:
        """Return a sentence of the simulator: words in capitals are names, and the word before says of what."""
        parts, at = [], 0
        for one in WORD.finditer(text):
            parts += [text[at:one.start()], self.named(one[0], text[:one.start()].rstrip(" ").rpartition(" ")[2].lstrip("("))]
            at = one.end()
        return "".join([*parts, text[at:]])

    def named(self, name: str, before: str) -> str:
        """Return a name of the project for one of a sentence, by the word before it."""
        kinds = {"state": ("states",), "algorithm": ("algorithms",)}.get(before, KINDS)
        if before in ("type", ":") and name in self.types:
            return str(self.types[name]["name"])
        if before == "application":
            return str(self.content["application"]["name"])
        for kind in kinds:
            if name in self.type.get(kind, {}):
                return str(self.type[kind][name])
        if name in self.resources and before in ("resource", "from", "to"):
            return str(self.resources[name])
        if name in self.instances:
            return self.instance(name)[0]
        path = name.rpartition(".")[0]
        return self.port(name)[0] if path in self.instances else name
