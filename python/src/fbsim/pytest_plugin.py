"""Folders with a file fbsim.toml as tests, for the plugin pytest_fbsim.

Such a file is a bench without a line of Python: it names scenarios, rules and service sequences."""

from __future__ import annotations

import json
from collections.abc import Callable, Iterator
from functools import cached_property, partial
from pathlib import Path
from typing import Any

import pytest

from fbsim.faults import Fault, Refused, RulesBroken
from fbsim.findings import Findings, Once, check_coverage, judge, warnings_of
from fbsim.project import Scenario, names_of_rules, read_bench
from fbsim.references import bless
from fbsim.sequence import check_sequence
from fbsim.trace import Report, Verdict

# What `-p fbsim.pytest_plugin` loads, which was the plugin before.
pytest_plugins = ["pytest_fbsim"]
# How many scenarios a failure names.
MOST_NOTES = 10


class BenchWarning(UserWarning):
    """What the program says of a run that it accepts, as rows of stimuli that the run does not take."""


class ByText:
    """A node whose faults are shown by their texts."""

    def repr_failure(self, excinfo: pytest.ExceptionInfo[BaseException]) -> Any:
        """Returns the text of a fault, or what pytest shows of other exceptions."""
        usual = super().repr_failure  # type: ignore[misc]
        return str(excinfo.value) if isinstance(excinfo.value, (Fault, BenchWarning)) else usual(excinfo)


class BenchItem(ByText, pytest.Item):  # type: ignore[misc]
    """A test of a file fbsim.toml, which is a call with the item itself. `line` is where the file names it, from 0."""

    def __init__(self, test: Callable[[pytest.Item], object], line: int = 0, **given: Any) -> None:
        super().__init__(**given)
        self.test, self.line = test, line

    def runtest(self) -> None:
        """Makes the call."""
        self.test(self)

    def reportinfo(self) -> tuple[Path, int, str]:
        """Returns where the test is, and its name."""
        return self.path, self.line, self.nodeid.partition("::")[2].replace("::", ": ")


class BenchFile(ByText, pytest.File):  # type: ignore[misc]
    """A file fbsim.toml, as tests."""

    def collect(self) -> Iterator[pytest.Item | pytest.Collector]:
        """Goes over its scenarios, its sequences, and whether its rules applied."""
        self.bench = read_bench(self.path)
        rules = names_of_rules(self.bench, self.path)
        if rules and self.bench.sequences and not self.bench.scenarios:
            self.warn(BenchWarning("rules are checked over the traces of scenarios, and there is no scenario"))
        scenarios = [
            ScenarioTests.from_parent(self, name=it.name, file=self, scenario=it, rules=rules)
            for it in self.bench.scenarios
        ]
        yield from scenarios
        for it in self.bench.sequences:
            yield BenchItem.from_parent(self, name=it["name"], test=partial(self.test_sequence, it))
        self.scenarios = [it for it in scenarios if it.has_rules]
        if rules and scenarios:
            yield AppliedTests.from_parent(self, name="applied", file=self, rules=rules)
        for name, test in (("coverage", self.test_coverage), ("lint", self.test_lint)):
            if getattr(self.bench, name) is not None:
                yield BenchItem.from_parent(self, name=name, test=test)

    @cached_property
    def has_coverage(self) -> bool:
        """Whether the traces are needed until their coverage is judged."""
        return any(it.parent is self and it.name == "coverage" for it in self.session.items)

    def test_coverage(self, item: pytest.Item) -> None:
        """Tests whether the traces of all scenarios cover enough, and drops them."""
        found = []
        for scenario in self.scenarios:
            try:
                found.append(scenario.found(item))
                scenario.must_not_have_stopped(found[-1], "what it covers")
            except Fault as fault:
                raise Fault(f"{scenario.name}: its run failed, so nobody knows what it covers") from fault
        check_coverage(self.bench, [it.trace for it in found if it.trace is not None])
        for it in found:
            it.trace = None

    def test_lint(self, item: pytest.Item) -> None:
        """Tests whether the program warns of nothing that is denied, and shows the warnings that are not."""
        for text in warnings_of(self.bench):
            item.warn(BenchWarning(text))

    def test_sequence(self, given: dict[str, Any], item: pytest.Item) -> None:
        """Tests whether a block type answers as a service sequence says."""
        types, declaration = self.bench.application.types, self.bench.application.declaration or None
        parameters = given.get("parameters")
        check_sequence(given["type"], given["steps"], parameters=parameters, types=types, declaration=declaration)


class ScenarioTests(pytest.Collector):
    """A scenario: a test of its run, and one for each rule. It is run and judged once for all of them."""

    def __init__(self, file: BenchFile, scenario: Scenario, rules: list[str], **given: Any) -> None:
        super().__init__(**given)
        self.file, self.bench, self.scenario, self.rules = file, file.bench, scenario, rules
        self.findings = Once(partial(judge, file.bench, scenario, self.keeps_trace))

    def keeps_trace(self) -> bool:
        """Whether its trace is needed when it is judged: a blessing and the coverage need it."""
        return bool(self.config.getoption("fbsim_bless")) or (self.has_rules and self.file.has_coverage)

    @property
    def has_rules(self) -> bool:
        """Whether rules are checked over its trace: not if it is to be refused."""
        return self.scenario.status < 2

    def collect(self) -> Iterator[pytest.Item]:
        """Goes over the run and the rules."""
        line = self.scenario.line
        yield BenchItem.from_parent(self, name="run", test=self.test_run, line=line)
        for at, rule in enumerate(self.rules if self.has_rules else []):
            yield BenchItem.from_parent(self, name=rule, test=partial(self.test_rule, at), line=line)

    def found(self, item: pytest.Item) -> Findings:
        """Returns what the scenario comes to. The test that has it run shows what the program says of the run."""
        was_made, found = self.findings.is_made, self.findings()
        if found.warning and not was_made:
            item.warn(BenchWarning(f"{self.scenario.name}: {found.warning}"))
        return found

    def test_run(self, item: pytest.Item) -> None:
        """Tests whether the scenario ends as it must, and has the trace of its reference."""
        wanted = self.scenario
        try:
            found = self.found(item)
        except Refused as it:
            if wanted.status != 2:
                raise
            if wanted.refused is None:
                item.warn(BenchWarning(f'{wanted.name}: status = 2 is any refusal: write refused = "{it.number}"'))
            elif it.number != wanted.refused:
                raise Fault(f"the inputs are refused by {it.number}, and not by {wanted.refused}:\n{it}") from it
            return
        stop = found.stop and found.stop._replace(where="")
        if wanted.status != bool(stop):
            raise Fault(f"the run has status {int(bool(stop))}, and not {wanted.status}: {found.stop or found.last}")
        if stop and not wanted.is_expected(stop):
            raise Fault(f"the run does not stop as it must, by {wanted.stop}:\n{found.stop}")
        if stop and wanted.stop is None:
            whole = f"{stop.tick} {stop.resource} {stop.reason}"
            text = f'status = 1 is any stop: write stop = "{stop.reason}" or stop = "{whole}"'
            item.warn(BenchWarning(f"{wanted.name}: {text}"))
        if wanted.reference is not None and found.difference:
            broken = [str(found.report.fault)] if found.report.fault else self.failing(found.report())
            bless(wanted.reference, found.trace, item, found.difference, broken)

    def must_not_have_stopped(self, found: Findings, what: str) -> None:
        """Raises a fault if the run stopped and was not to stop: nobody knows something of it."""
        if found.stop and self.scenario.status == 0:
            raise Fault(f"the run stopped, so nobody knows {what}:\n{found.stop}")

    def as_judged(self, verdict: Verdict) -> Verdict:
        """Returns a verdict, as a broken one if the scenario is strict and the rule must be decided."""
        may_wait = verdict.verdict == "never applied" and verdict.rule in self.bench.unapplied
        if verdict.verdict in ("kept", "broken") or may_wait or not self.scenario.strict:
            return verdict
        return verdict._replace(verdict="broken", message=reason_of(verdict))

    def failing(self, report: Report) -> list[str]:
        """Returns the names of the rules whose tests fail."""
        return [it.rule for it in report.verdicts if self.as_judged(it).verdict == "broken"]

    def test_rule(self, at: int, item: pytest.Item) -> None:
        """Tests whether a rule holds. It is skipped if the trace does not decide it, unless the scenario is strict."""
        found = self.found(item)
        verdict = self.as_judged(found.report().verdicts[at])
        if verdict.verdict == "broken":
            raise RulesBroken(Report((verdict,)))
        self.must_not_have_stopped(found, "whether the rule holds up to its horizon")
        if verdict.verdict != "kept":
            raise pytest.skip.Exception(reason_of(verdict), _use_item_location=True)


def reason_of(verdict: Verdict) -> str:
    """Returns why a rule is not decided, in one line: the verdict, and which patterns no line of the trace meets."""
    return "; ".join([verdict.verdict, *verdict.notes])


class AppliedTests(pytest.Collector):
    """A test for each rule of whether it was decided in at least one scenario: else it checked nothing."""

    def __init__(self, file: BenchFile, rules: list[str], **given: Any) -> None:
        super().__init__(**given)
        self.bench, self.scenarios, self.rules = file.bench, file.scenarios, rules

    def collect(self) -> Iterator[pytest.Item]:
        """Goes over the rules that must apply."""
        for at, rule in enumerate(self.rules):
            if rule not in self.bench.unapplied:
                yield BenchItem.from_parent(self, name=rule, test=partial(self.test_applied, at))

    def test_applied(self, at: int, item: pytest.Item) -> None:
        """Tests whether a rule was decided in a scenario. Those that have run are looked at first."""
        notes = []
        for it in sorted(self.scenarios, key=lambda it: not it.findings.is_made):
            verdict = verdict_in(it, at, item)
            if verdict is not None and verdict.applied:
                return
            notes.append(f"{it.name}: {reason_of(verdict) if verdict else 'its run failed'}")
        rest = [f"and {len(notes) - MOST_NOTES} more"] * (len(notes) > MOST_NOTES)
        hint = f"if it need not apply: unapplied = [{json.dumps(self.rules[at])}] in {self.path.name}"
        said = [f"{self.rules[at]}: applied in none of {len(notes)} scenarios", *notes[:MOST_NOTES], *rest, hint]
        raise Fault("\n".join(said))


def verdict_in(scenario: ScenarioTests, at: int, item: pytest.Item) -> Verdict | None:
    """Returns what a rule comes to in a scenario, or None if that failed, which its own tests report."""
    if scenario.findings.fault is not None:
        return None
    try:
        return scenario.found(item).report().verdicts[at]
    except Fault:
        return None
