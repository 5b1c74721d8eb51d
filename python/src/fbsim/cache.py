"""A cache of the variants of sweeps, by the hash of all that they depend on (docs/PYTHON.md, "Caches")."""

from __future__ import annotations

import hashlib
import json
import os
import tempfile
from collections.abc import Sequence
from pathlib import Path
from typing import TYPE_CHECKING, Any

from fbsim.faults import InputFault, Stop, of_system
from fbsim.latencies import Latencies
from fbsim.program import version
from fbsim.stimuli import FileName, file_name
from fbsim.trace import Line, Report, Verdict, lines_of
from fbsim.variant import Variant

if TYPE_CHECKING:
    from fbsim.sweep import Plan


def sum_of(given: object) -> str:
    """Returns the hash of what JSON can have."""
    return hashlib.sha256(json.dumps(given, sort_keys=True).encode()).hexdigest()


def line_of(text: str) -> Line:
    """Returns the line of a trace with this text."""
    return next(lines_of(iter([text + "\n"])))


def table_of(given: Latencies) -> dict[str, Any]:
    """Returns latencies as JSON has them."""
    return {"ticks": list(given.ticks), "waiting": given.waiting, "most": [str(it) for it in given.most_lines or ()]}


def latencies_of(table: dict[str, Any]) -> Latencies:
    """Returns the latencies of a table."""
    made = Latencies()
    made.ticks.extend(table["ticks"])
    made.waiting = table["waiting"]
    if table["most"]:
        first, second = map(line_of, table["most"])
        made.most_lines = first, second
    return made


class Cache:
    """A folder with a file for each variant that ran to its end or to its stop. Several sweeps may use it at a time."""

    def __init__(self, folder: FileName) -> None:
        self.folder = Path(file_name(folder, "a cache"))
        try:
            self.folder.mkdir(parents=True, exist_ok=True)
        except OSError as it:
            raise InputFault(f"the cache {folder} can't be made: {it.strerror}") from it
        # (what a variant came to is worked out by both)
        self.versions = [version(), version(of_package=True)]

    def key(self, plan: Plan, values: Sequence[object]) -> str | None:
        """Returns the key of a variant, or None if its texts can't be made: then its run says why."""
        try:
            made = plan.variant(values)
        except InputFault:
            return None
        inputs = [self.versions, made.files, made.types, made.horizon, made.steps, made.latencies]
        return sum_of(inputs)

    def load(self, key: str, number: int, parameters: dict[str, object]) -> Variant | None:
        """Returns the variant of a key, or None if the cache has none that can be read."""
        try:
            found = json.loads((self.folder / f"{key}.json").read_bytes())
            if found.pop("sum") != sum_of(found):
                return None
            verdicts = [Verdict(**it)._replace(notes=tuple(it["notes"])) for it in found["verdicts"]]
            latencies = {name: latencies_of(it) for name, it in found["latencies"].items()}
            stop = found["stop"] and Stop(*found["stop"])
            report, warnings = Report(tuple(verdicts)), tuple(found["warnings"])
            return Variant(number, parameters, found["end"], stop, report, latencies, None, warnings)
        except (OSError, ValueError, LookupError, TypeError, AttributeError):
            return None

    def store(self, key: str, it: Variant) -> None:
        """Writes a variant. Who reads at the same time finds all of it or nothing."""
        latencies = {name: table_of(given) for name, given in it.latencies.items()}
        verdicts = [verdict._asdict() for verdict in it.report.verdicts]
        table = {
            "end": it.end, "stop": it.stop, "verdicts": verdicts, "latencies": latencies, "warnings": it.warnings
        }
        try:
            number, path = tempfile.mkstemp(dir=self.folder, prefix="part-")
            with open(number, "w", encoding="ascii") as to:
                json.dump({**table, "sum": sum_of(table)}, to)
            os.replace(path, self.folder / f"{key}.json")
        except OSError as fault:
            raise of_system(fault) from fault
