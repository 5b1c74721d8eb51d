"""Files fbsim.toml: what a project is made of, and which scenarios, rules and service sequences are its tests."""

from __future__ import annotations

import re
import tomllib
from collections.abc import Callable, Mapping
from pathlib import Path
from typing import Any, NamedTuple

from fbsim.application import Application
from fbsim.faults import InputFault, Stop
from fbsim.texts import temporary_folder, write
from fbsim.trace import Trace, check_rules

# The kinds of values, by their names in messages.
KINDS: dict[str, Callable[[Any], bool]] = {
    "a text": lambda it: isinstance(it, str),
    "a number": lambda it: isinstance(it, int) and not isinstance(it, bool),
    "a number of seconds": lambda it: isinstance(it, (int, float)) and not isinstance(it, bool) and it > 0,
    "a number from 1 to 100": lambda it: KINDS["a number"](it) and 1 <= it <= 100,
    "true or false": lambda it: isinstance(it, bool),
    "a table": lambda it: isinstance(it, dict),
    "a list of texts": lambda it: isinstance(it, list) and all(map(KINDS["a text"], it)),
    "a list of tables": lambda it: isinstance(it, list) and all(map(KINDS["a table"], it)),
    "a list of lists of texts": lambda it: isinstance(it, list) and all(map(KINDS["a list of texts"], it)),
}
RUN_KEYS = {
    "horizon": "a number", "steps": "a number", "strict": "true or false", "timeout": "a number of seconds"
}
KEYS = {
    "decl": "a text", "types": "a list of texts", "deploy": "a text", "rules": "a text", "unapplied": "a list of texts",
    "coverage": "a number from 1 to 100", "lint": "a table",
    "scenario": "a list of tables", "sequence": "a list of tables", **RUN_KEYS
}
LINT_KEYS = {"deny": "a list of texts", "allow": "a list of texts"}
SCENARIO_KEYS = {
    "name": "a text", "stim": "a text", "reference": "a text",
    "status": "a number", "refused": "a text", "stop": "a text", **RUN_KEYS
}
# What a scenario may say of its stop: the reason, or the whole of it.
STOP = re.compile(r"(?:(?P<tick>\d+) +(?P<resource>\w+) +)?(?P<reason>steps|divide|range)", re.ASCII)
SEQUENCE_KEYS = {"type": "a text", "name": "a text", "parameters": "a table", "steps": "a list of lists of texts"}


class Scenario(NamedTuple):
    """A run, how it must end, and the reference that its trace must have.

    The status is 0 if it must end, 1 if it must stop, 2 if it must be refused. `refused` and `stop` say by which
    refusal, as E29, and by which stop. If it is strict, each rule must be decided in it. It may take `timeout` seconds.
    `line` is where its table begins, counted from 0.
    """

    name: str
    stimuli: Path | None
    reference: Path | None
    status: int
    refused: str | None
    stop: str | None
    horizon: int
    steps: int | None
    strict: bool
    timeout: float | None
    line: int

    def is_expected(self, stop: Stop) -> bool:
        """Whether it must stop like this."""
        wanted = STOP.fullmatch(self.stop or stop.reason)
        found = {"tick": str(stop.tick), "resource": stop.resource, "reason": stop.reason}
        return wanted is not None and all(it is None or it == found[name] for name, it in wanted.groupdict().items())


class Bench(NamedTuple):
    """What a file fbsim.toml says. Its file names are those from its folder. A sequence is its table.

    Each rule must be decided in at least one scenario, except for those that `unapplied` names. The traces must cover
    `coverage` percent, and with `lint` the program may warn of nothing that it denies.
    """

    application: Application
    rules: Path | None
    unapplied: list[str]
    coverage: int | None
    lint: dict[str, list[str]] | None
    scenarios: list[Scenario]
    sequences: list[dict[str, Any]]


def checked(table: Mapping[str, Any], keys: Mapping[str, str], needed: tuple[str, ...], what: str) -> dict[str, Any]:
    """Returns a table that has only these keys, with values of their kinds, and those that are needed."""
    for key, value in table.items():
        if key not in keys:
            raise InputFault(f"{what}: unknown key {key}; the keys are {', '.join(keys)}")
        if not KINDS[keys[key]](value):
            raise InputFault(f"{what}: {key} is not {keys[key]}")
    for key in needed:
        if key not in table:
            raise InputFault(f"{what}: there is no {key}")
    return dict(table)


def read_bench(path: Path) -> Bench:
    """Reads a file fbsim.toml."""
    try:
        text = path.read_text(encoding="utf-8-sig")
        table = tomllib.loads(text)
    except (OSError, ValueError) as it:
        raise InputFault(f"{path}: {it}") from it
    needed = ("decl",) if {"scenario", "coverage", "lint"} & set(table) else ()
    top = checked(table, KEYS, (*needed, *["scenario"] * ("coverage" in table)), str(path))
    here = path.parent
    decl, deploy, rules = (here / top[key] if key in top else None for key in ("decl", "deploy", "rules"))
    application = Application(decl or "", [here / it for it in top.get("types", [])], deploy)
    heads = [number for number, line in enumerate(text.splitlines()) if line.split("#")[0].strip() == "[[scenario]]"]
    scenarios = [
        scenario_of(it, top, here, f"{path}: scenario {k + 1}", heads[k] if k < len(heads) else 0)
        for k, it in enumerate(top.get("scenario", []))
    ]
    if rules is None and (top.get("unapplied") or any(it.strict for it in scenarios)):
        raise InputFault(f"{path}: unapplied and strict are about rules, and there are no rules")
    sequences = [
        {"name": it.get("type"), **checked(it, SEQUENCE_KEYS, ("type", "steps"), f"{path}: sequence {k}")}
        for k, it in enumerate(top.get("sequence", []), 1)
    ]
    made = ["applied"] * (rules is not None) + [it for it in ("coverage", "lint") if it in top]
    names = [it.name for it in scenarios] + [it["name"] for it in sequences] + made
    for name in names:
        if not name.strip():
            raise InputFault(f"{path}: a scenario or a sequence has a name without a letter")
        if names.count(name) > 1:
            whose = f": tests of the whole file have it ({', '.join(made)})" if name in made else ""
            raise InputFault(f"{path}: there are two with the name {name}{whose}")
    lint = checked(top["lint"], LINT_KEYS, (), f"{path}: lint") if "lint" in top else None
    if lint is not None and "all" in lint.get("allow", []):
        raise InputFault(f"{path}: lint: what allows all warnings asks for nothing")
    return Bench(application, rules, top.get("unapplied", []), top.get("coverage"), lint, scenarios, sequences)


def scenario_of(given: Mapping[str, Any], top: Mapping[str, Any], here: Path, what: str, line: int) -> Scenario:
    """Reads a scenario. The keys of runs are as at the top of the file, unless it has its own."""
    table = {key: top[key] for key in RUN_KEYS if key in top} | checked(given, SCENARIO_KEYS, ("name",), what)
    if "horizon" not in table:
        raise InputFault(f"{what}: there is no horizon, neither here nor for all scenarios")
    refused, stop = table.get("refused"), table.get("stop")
    if refused is not None and not re.fullmatch(r"E\d\d", refused):
        raise InputFault(f"{what}: refused is no number of a refusal, as E29: {refused!r}")
    if stop is not None and not STOP.fullmatch(stop):
        raise InputFault(f'{what}: stop is neither steps, divide or range nor a whole stop, as "2600 SORTER range"')
    stimuli, reference = (here / table[key] if key in table else None for key in ("stim", "reference"))
    if reference is not None and status_of(table, what) == 2:
        raise InputFault(f"{what}: a run that is refused has no trace, and so no reference")
    return Scenario(
        table["name"], stimuli, reference, status_of(table, what), refused, stop, table["horizon"], table.get("steps"),
        table.get("strict", False), table.get("timeout"), line
    )


def status_of(table: Mapping[str, Any], what: str) -> int:
    """Returns the status that a scenario wants: that of `refused` or `stop`, or what it says."""
    wanted = {2} if "refused" in table else set()
    wanted |= {1} if "stop" in table else set()
    wanted |= {table["status"]} if "status" in table else set()
    if not wanted <= {0, 1, 2}:
        raise InputFault(f"{what}: status is not 0 (the run ends), 1 (it stops) or 2 (the inputs are refused)")
    if len(wanted) > 1:
        raise InputFault(f"{what}: a run is refused (status 2), or it stops (status 1), or it ends: say one of these")
    return wanted.pop() if wanted else 0


def names_of_rules(bench: Bench, path: Path) -> list[str]:
    """Returns the names of the rules, as the program reads them: it reports on a trace without lines."""
    if bench.rules is None:
        return []
    with temporary_folder() as folder:
        empty = folder / "empty.trace"
        write(empty, "end 1\n")
        known = bench.application if bench.application.declaration else None
        names = [it.rule for it in check_rules(Trace(empty, known), bench.rules).verdicts]
    for name in bench.unapplied:
        if name not in names:
            raise InputFault(f"{path}: unapplied: there is no rule {name!r} in {bench.rules}")
    return names
