"""How long it takes from lines of one pattern to lines of another."""

from __future__ import annotations

import math
import statistics
from array import array
from collections import defaultdict, deque
from collections.abc import Iterable
from numbers import Real
from typing import TYPE_CHECKING

from fbsim import figures
from fbsim.faults import Fault, InputFault, needs
from fbsim.patterns import Pattern
from fbsim.texts import whole

if TYPE_CHECKING:
    from matplotlib.figure import Figure

    from fbsim.trace import Line


class Latencies:
    """Latencies in ticks, in the order of the lines that end them, and their statistics."""

    def __init__(self) -> None:
        self.ticks = array("q")
        #: How many first lines have no second one.
        self.waiting = 0
        #: The two lines of the greatest latency, the first such pair.
        self.most_lines: tuple[Line, Line] | None = None

    def __repr__(self) -> str:
        middle = f"least {self.least}, median {self.median:g}, most {self.most}, " if self.ticks else ""
        return f"<{self.count} latencies: {middle}{self.waiting} waiting>"

    def __eq__(self, other: object) -> bool:
        return isinstance(other, Latencies) and vars(self) == vars(other)

    def __bool__(self) -> bool:
        """Whether there is one."""
        return bool(self.ticks)

    def add(self, first: Line, second: Line) -> None:
        """Adds the latency between two lines."""
        self.ticks.append(second.tick - first.tick)
        if self.most_lines is None or self.ticks[-1] > self.most:
            self.most_lines = first, second

    @property
    def rising(self) -> list[int]:
        """The latencies in rising order."""
        if not self.ticks:
            raise Fault("there are no latencies: no line of the first pattern has one of the second")
        return sorted(self.ticks)

    @property
    def count(self) -> int:
        """How many latencies there are."""
        return len(self.ticks)

    @property
    def least(self) -> int:
        """The least latency."""
        return self.rising[0]

    @property
    def most(self) -> int:
        """The greatest latency; `most_lines` has its two lines."""
        return self.most_lines[1].tick - self.most_lines[0].tick if self.most_lines else self.rising[-1]

    @property
    def median(self) -> float:
        """The middle latency, or half the sum of the two in the middle."""
        return float(statistics.median(self.rising))

    def percentile(self, percent: float) -> int:
        """Returns the percentile by the nearest rank: the least latency that at least so many percent do not exceed."""
        needs(percent, Real, "a number of percent")
        if not 0 <= percent <= 100:
            raise InputFault(f"a percentile is of 0 to 100 percent, and not of {percent}")
        rising = self.rising
        # (a rank that rounding lifts over a whole number would be one too great)
        rank = math.ceil(round(percent * len(rising) / 100, 9))
        return rising[max(rank, 1) - 1]

    def histogram(self, width: int | None = None) -> list[tuple[int, int, int]]:
        """Returns rows (from, to, count) of latencies from one number up to below another, each of the same width.

        Without a width, it is such that there are at most ten rows.
        """
        least, most = self.least, self.most
        if width is not None and whole(width, "width") < 1:
            raise InputFault(f"width is {width}, and not at least 1")
        width = width or -(-(most - least + 1) // 10)
        counts = [0] * ((most - least) // width + 1)
        for ticks in self.ticks:
            counts[(ticks - least) // width] += 1
        return [(least + k * width, least + (k + 1) * width, count) for k, count in enumerate(counts)]

    def plot(self, width: int | None = None) -> Figure:
        """Returns a figure of matplotlib with the histogram."""
        return figures.bars(self, width)


def paired(lines: Iterable[Line], first: Pattern, second: Pattern, pair: str) -> Latencies:
    """Returns the latencies of lines that are paired as `Lines.latencies` says."""
    found, is_plain = Latencies(), pair in ("queue", "next")
    waiting: defaultdict[object, deque[Line]] = defaultdict(deque)
    ahead: dict[object, Line] = {}
    for line in lines:
        is_first, is_second = first.matches(line), second.matches(line)
        if not is_first and not is_second:
            continue
        value = None if is_plain else line.values.get(pair.upper())
        if value is None and not is_plain:
            raise InputFault(f'"{line}" has no {pair.upper()}, by which lines are paired')
        queue = waiting[value]
        if pair == "next":
            while is_second and queue:
                found.add(queue.popleft(), line)
        elif is_first and value in ahead:
            raise InputFault(f'"{ahead[value]}" comes before "{line}", with which it is paired: use pair="next"')
        if is_first:
            queue.append(line)
        if is_second and pair != "next" and queue:
            found.add(queue.popleft(), line)
        elif is_second and pair != "next":
            ahead.setdefault(value, line)
    found.waiting = sum(map(len, waiting.values()))
    return found
