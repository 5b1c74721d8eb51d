"""What the scenarios of a file fbsim.toml come to: each is run once, and judged once."""

from __future__ import annotations

import csv
import io
import os
import warnings
from collections.abc import Callable, Sequence
from dataclasses import dataclass
from functools import partial
from pathlib import Path
from typing import Generic, TypeVar

from fbsim.faults import Fault, InputFault, Stop
from fbsim.program import call
from fbsim.project import Bench, Scenario
from fbsim.references import difference
from fbsim.stimuli import StimuliWarning
from fbsim.trace import Report, Trace, check_rules

Made = TypeVar("Made")


class Once(Generic[Made]):
    """A value that is made when it is first asked for. If that fails, the fault is raised each time, and nothing is
    made again."""

    def __init__(self, make: Callable[[], Made]) -> None:
        self.make: Callable[[], Made] | None = make
        self.value: Made | None = None
        self.fault: BaseException | None = None

    def __call__(self) -> Made:
        if not self.is_made:
            self.look()
        if self.fault is not None:
            raise self.fault.with_traceback(None)
        return self.value  # type: ignore[return-value]

    def look(self) -> None:
        """Makes the value, and raises nothing."""
        make, self.make = self.make, None
        try:
            self.value = make() if make else self.value
        except BaseException as it:  # (also what ends a test that takes too long)
            self.fault = it

    @property
    def is_made(self) -> bool:
        """Whether it was asked for."""
        return self.make is None


@dataclass
class Findings:
    """What a run comes to: its last line, why it stopped, what the rules come to, and how its trace differs from the
    reference. The trace is here as long as it is needed. `warning` is what the program says of a run that it accepts.
    """

    last: str
    stop: Stop | None
    warning: str
    report: Once[Report]
    difference: list[str]
    trace: Trace | None


def judge(bench: Bench, scenario: Scenario, keep: Callable[[], bool]) -> Findings:
    """Runs a scenario, and returns what it comes to. Its trace is dropped unless it is to be kept."""
    it, run = scenario, bench.application.run
    with warnings.catch_warnings():
        # (the test that has it run warns of them)
        warnings.simplefilter("ignore", StimuliWarning)
        trace = run(it.stimuli, horizon=it.horizon, steps=it.steps, stop=True, timeout=it.timeout)
    report = Once(partial(check_rules, Trace(trace.path), bench.rules) if bench.rules else partial(Report, ()))
    report.look()
    differs = [] if scenario.reference is None else difference(scenario.reference, trace)
    kept, said = trace if keep() else None, "\n".join(trace.warnings)
    return Findings(trace.last.rstrip(), trace.stop, said, report, differs, kept)


def check_coverage(bench: Bench, traces: Sequence[Trace]) -> None:
    """Raises a fault if the traces of all scenarios cover less than the file wants."""
    steps = {it.steps for it in bench.scenarios if it.status < 2}
    if len(steps) > 1:
        raise InputFault("coverage: the scenarios have different steps, and one number of steps is for all traces")
    words = ["coverage", *bench.application.words, *(os.fspath(it.path) for it in traces), "--why"]
    words += [] if steps == {None} else ["--steps", str(steps.pop())]
    made = call([*words, "--least", str(bench.coverage)], statuses=(0, 1))
    if made.returncode:
        counts = [int(it) for it in made.stdout.splitlines()[-1].replace(",", "").split() if it.isdigit()]
        covered, all_that_counts = sum(counts[::2]), sum(counts[1::2])
        percent = f"{100 * covered / all_that_counts:.1f}" if all_that_counts else "100"
        raise Fault(f"{percent} percent are covered, and not {bench.coverage}:\n{made.stdout.rstrip()}")


def warnings_of(bench: Bench) -> list[str]:
    """Returns the warnings that remain of the application, with the stimuli of all scenarios together, and raises a
    fault if one of them is denied."""
    words, keys = ["check", *bench.application.words, "--stim", "-", "--lint", "--why"], bench.lint or {}
    for key in ("allow", "deny"):
        for it in keys.get(key, ["all"] if key == "deny" else []):
            words += [f"--{key}", it]
    made = call(words, union([it.stimuli for it in bench.scenarios if it.stimuli and it.status < 2]), statuses=(0, 1))
    if made.returncode:
        raise Fault(made.stderr.rstrip())
    return made.stderr.splitlines()


def union(files: Sequence[Path]) -> str:
    """Returns stimuli with a row for each event and its variables that one of the files has, at tick 0 and after it.

    For warnings that is as good as all rows: they depend on what stimuli lead to, and on whether this is at tick 0.
    """
    rows: dict[tuple[bool, str, tuple[str, ...]], list[str]] = {}
    for file in files:
        with open(file, encoding="utf-8-sig", errors="replace", newline="") as texts:
            for tick, event, values in (it for it in list(csv.reader(texts))[1:] if len(it) == 3 and it[0].isdecimal()):
                names = tuple(sorted(it.partition("=")[0].upper() for it in values.split()))
                rows.setdefault((int(tick) == 0, event.upper(), names), [tick, event, values])
    text = io.StringIO()
    csv.writer(text, lineterminator="\n").writerows([["tick", "event", "values"], *sorted(rows.values(), key=tick_of)])
    return text.getvalue()


def tick_of(row: list[str]) -> int:
    """Returns the tick of a row."""
    return int(row[0])
