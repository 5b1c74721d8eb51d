"""Turns stimuli and rules in the names of the project into those of the simulator."""

from __future__ import annotations

import csv
import difflib
import fnmatch
import io
import json
import re
import tomllib
from collections.abc import Callable, Iterable, Mapping
from typing import Any

from .common import Faults, Folded, Place, shown
from .mapping import read_mapping

PATTERNS = ("after", "see", "not", "before", "never", "from", "to", "count")
CONDITION = re.compile(r"([\w.]+)(<>|<=|>=|=|<|>)(.*)")


class Known:
    """Names of the project, and after them those of the simulator."""

    def __init__(self, rows: Mapping[str, Mapping[str, Any]]) -> None:
        self.outs, self.names = set(rows), Folded({row["name"]: out for out, row in rows.items()})

    def find(self, name: str) -> str | None:
        """Return what has a name of the project or of the simulator."""
        return self.names.find(name) or (name.upper() if name.upper() in self.outs else None)


class GivenNames:
    """The names of an import by those of the project, read from its map.json. The simulator's own names are taken too."""

    def __init__(self, folder: str, path: str, faults: Faults) -> None:
        content = read_mapping(folder)
        self.path, self.faults = path, faults
        self.types: Mapping[str, Mapping[str, Any]] = content["types"]
        self.instances: Mapping[str, Mapping[str, Any]] = content["instances"]
        self.paths, self.resources = Known(self.instances), Known(content["resources"])

    def refuse(self, line: int, column: int, text: str) -> None:
        """Refuse a name of the file."""
        self.faults.refuse(Place(self.path, line, column), text)

    def convert(self, text: str) -> str:
        """Return stimuli or rules in the names of the simulator."""
        first = text.removeprefix("\ufeff").lstrip().partition("\n")[0].strip()
        return self.stimuli(text) if first == "tick,event,values" else self.rules(text)

    def port(self, text: str) -> tuple[str, Folded[str]] | None:
        """Return a port with its path, and the names of its type, or nothing if no instance has the name."""
        parts = text.split(".")
        for number in range(len(parts) - 1, 0, -1):
            path = self.paths.find(".".join(parts[:number]))
            if path is not None:
                names = self.names_of(path)
                event = names.find(".".join(parts[number:]))
                return f"{path}.{event or '__'.join(parts[number:]).upper()}", names
        return None

    def names_of(self, path: str) -> Folded[str]:
        """Return the ports of an instance by their names in the project, where these differ."""
        ports = self.types.get(self.instances[path]["type"], {}).get("ports", {})
        return Folded({name: out for out, name in ports.items()})

    def stimuli(self, text: str) -> str:
        """Return stimuli: events, and the names of values."""
        out = io.StringIO()
        rows, writer = csv.reader(io.StringIO(text.removeprefix("\ufeff"))), csv.writer(out, lineterminator="\n")
        lines = text.split("\n")
        for number, row in enumerate(rows):
            line = rows.line_num
            if number and len(row) == 3:
                found = self.port(row[1].strip())
                if found is None:
                    column = lines[line - 1].find(row[1]) + 1 if line <= len(lines) else 1
                    self.refuse(line, max(column, 1), f"the project has no instance for {shown(row[1])}{self.near(row[1])}")
                else:
                    row = [row[0], found[0], " ".join(self.value(it, found[1]) for it in row[2].split(" ") if it)]
            writer.writerow(row)
        return out.getvalue()

    def value(self, word: str, names: Folded[str]) -> str:
        """Return a word NAME=VALUE."""
        name, equals, value = word.partition("=")
        return f"{self.variable(name, names)}{equals}{value}"

    def variable(self, name: str, names: Folded[str]) -> str:
        """Return a variable of a type."""
        return names.find(name) or name.replace(".", "__").upper()

    def near(self, text: str) -> str:
        """Return the instance with the nearest name, as a hint."""
        known = {row["name"].upper(): row["name"] for row in self.instances.values()}
        near = difflib.get_close_matches(text.rpartition(".")[0].upper(), known, 1)
        return f" (the nearest one is {known[near[0]]})" if near else ""

    def rules(self, text: str) -> str:
        """Return rules over traces: their patterns, and the names that have to be the same."""
        try:
            content = tomllib.loads(text)
        except tomllib.TOMLDecodeError as fault:
            raise self.faults.refuse(Place(self.path, 1, 1), f"this is neither stimuli (tick,event,values) nor TOML: {fault}") from None
        rows = content.get("rule")
        if not isinstance(rows, list) or not all(isinstance(it, dict) for it in rows) or len(content) > 1:
            raise self.faults.refuse(Place(self.path, 1, 1), "there are no rules: each begins with [[rule]]")
        lines = text.split("\n")
        return "\n".join(self.rule(it, lambda part: line_of(lines, part)) for it in rows)

    def rule(self, row: Mapping[str, Any], line: Callable[[str], int]) -> str:
        """Return a rule."""
        names: list[Folded[str]] = []
        values = dict(row)
        for key in PATTERNS:
            if isinstance(row.get(key), str):
                values[key] = self.pattern(row[key], line(row[key]), names)
        if isinstance(row.get("same"), list):
            values["same"] = [self.common(str(it), names) for it in row["same"]]
        return "".join(["[[rule]]\n", *(f"{key} = {json.dumps(it, ensure_ascii=False)}\n" for key, it in values.items())])

    def common(self, name: str, names: Iterable[Folded[str]]) -> str:
        """Return a variable that events of several types have."""
        return next((it for one in names if (it := one.find(name))), name.replace(".", "__").upper())

    def pattern(self, text: str, line: int, names: list[Folded[str]]) -> str:
        """Return a pattern RESOURCE SIGN PORT VAR=value, and add the names of its types."""
        words = text.split()
        if len(words) < 3:
            return text
        words[0] = self.resources.find(words[0]) or words[0]
        found = self.several(words[2]) if "*" in words[2] else self.port(words[2])
        if found is None:
            self.refuse(line, 1, f"the project has nothing for {shown(words[2])}{self.near(words[2])}")
            return text
        words[2] = found[0]
        names.append(found[1])
        for number, word in enumerate(words[3:], 3):
            if condition := CONDITION.fullmatch(word):
                value = condition[3] if re.fullmatch(r"-?\d+|TRUE|FALSE", condition[3], re.IGNORECASE) else self.variable(condition[3], found[1])
                words[number] = f"{self.variable(condition[1], found[1])}{condition[2]}{value}"
        return " ".join(words)

    def several(self, text: str) -> tuple[str, Folded[str]] | None:
        """Return a port with stars, or nothing if the simulator has no pattern for the same instances.

        The event of an adapter has a full stop in it, so each end of the text may be the event."""
        parts = text.split(".")
        for number in range(len(parts) - 1, 0, -1):
            path, event = ".".join(parts[:number]), ".".join(parts[number:])
            wanted = {it for it, row in self.instances.items() if path == "*" or matches(row["name"], path)}
            names = Folded({name: out for it in wanted for name, out in self.names_of(it).items()})
            found = self.pattern_of(path, wanted, event == "*")
            if found and (number == len(parts) - 1 and not (path == "*" and names.find(event)) or names.find(event)):
                return f"{found}.{names.find(event) or event.upper()}", names
        return (text, Folded()) if len(parts) == 1 else None

    def pattern_of(self, path: str, wanted: set[str], is_all: bool) -> str | None:
        """Return a pattern of the simulator for instances, or, for all that is below a subapplication, for those in it."""
        if path == "*":
            return path
        if "*" not in path and (known := self.paths.find(path)):
            return known
        parts = path.upper().split(".")
        tried = [".".join(["__".join(parts[:number]), *parts[number:]]) for number in range(len(parts), 0, -1)]
        if is_all and not wanted:
            tried = [f"{'__'.join(parts)}__*"]
            wanted = {it for it, row in self.instances.items() if "." not in it and row["name"].upper().startswith(path.upper() + ".")}
        return next((it for it in tried if wanted and {one for one in self.instances if matches(one, it)} == wanted), None)


def matches(path: str, pattern: str) -> bool:
    """Return whether a path has the form of a pattern, in which a star stays within a name."""
    names, parts = path.upper().split("."), pattern.upper().split(".")
    return len(names) == len(parts) and all(fnmatch.fnmatchcase(name, it) for name, it in zip(names, parts))


def line_of(lines: list[str], text: str) -> int:
    """Return the first line that has a text, from 1."""
    return next((number for number, line in enumerate(lines, 1) if text in line), 1)
