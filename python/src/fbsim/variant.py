"""A variant of a sweep, and what it came to."""

from __future__ import annotations

from typing import NamedTuple

from fbsim.faults import Fault, Stop
from fbsim.latencies import Latencies
from fbsim.trace import Report


class Variant(NamedTuple):
    """A variant and what it came to. Its number is its place in the product of all values.

    A variant with a `fault` has neither an end nor verdicts nor latencies.
    """

    number: int
    parameters: dict[str, object]
    end: int | None
    stop: Stop | None
    report: Report
    latencies: dict[str, Latencies]
    fault: Fault | None = None
    #: What the program warned of in its run, as in those of a trace.
    warnings: tuple[str, ...] = ()

    @property
    def broken(self) -> list[str]:
        """The names of the rules that do not hold."""
        return [it.rule for it in self.report.of("broken")]

    @property
    def kept(self) -> list[str]:
        """The names of the rules that hold."""
        return [it.rule for it in self.report.of("kept")]

    @property
    def state(self) -> str:
        """What it came to, in words."""
        if self.fault:
            return "it failed"
        if self.broken or self.stop:
            return "a rule is broken" if self.broken else "the run stopped"
        if not self.report.verdicts:
            return "there are no rules"
        return "all rules hold" if any(it.applied for it in self.report.verdicts) else "no rule applied"
