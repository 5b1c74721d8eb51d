"""The warning I01: operators that a controller computes in the width of their operands, where the simulator has 128 bits.

What is said of controllers is knowledge: none was run. An operator is not reported if its overflow shows anyway: if only +, - and *
come after it, and then an assignment, a conversion to a type that is no wider, or an operator on strings of bits, which stops the run
or wraps as a controller does."""

from __future__ import annotations

from collections.abc import Iterator
from typing import NamedTuple

from .conversions import conversion_of, converted
from .expressions import BITS, RANGES, Binary, Call, Expression, Group, Range, Unary, value_of
from .functions import SHIFTS
from .kinds import ALL, LOGICAL, numbers, of_call, of_operator

KEEPING = ("+", "-", "*")


class Narrow(NamedTuple):
    """An operator that may give numbers that its type does not have."""

    at: int
    type: str
    numbers: Range

    def __str__(self) -> str:
        return (f"a controller computes this in {self.type}, which does not have all numbers from {self.numbers.least:,} to "
                f"{self.numbers.most:,}: convert an operand to a wider type before")


def width_of(it: Expression) -> str:
    """Return the type in which a controller computes an operator: that of its operands, or a wider one for a large literal."""
    values = [Range(value, value) for one in it.parts() if (value := value_of(one)) is not None]
    if it.type not in RANGES or all(RANGES[it.type].has(one) for one in values):
        return it.type
    least, most = (choose(getattr(one, end) for one in (RANGES[it.type], *values)) for choose, end in ((min, "least"), (max, "most")))
    return next((name for name, whole in RANGES.items() if whole.has(Range(least, most))), it.type)


class Widths:
    """Finds the operators in an expression that may overflow in their own width."""

    def __init__(self) -> None:
        self.found: list[Narrow] = []

    def visit(self, it: Expression, kept: Range | None) -> Range:
        """Look at an expression whose result is then kept in a range, and return the numbers that it has on a controller."""
        if isinstance(it, Group):
            return self.visit(it.inside, kept)
        if isinstance(it, Call):
            return self.call(it, kept)
        sign = it.operator if isinstance(it, (Unary, Binary)) else ""
        is_string = sign in LOGICAL and it.type in BITS
        parts = [self.visit(one, RANGES.get(one.type) if is_string else kept if sign in KEEPING else None) for one in it.parts()]
        if value_of(it) is not None or sign not in (*KEEPING, "/", "MOD"):
            return numbers(it)
        exact = of_operator(sign, *parts) if len(parts) == 2 else Range(-parts[0].most, -parts[0].least)
        kind = width_of(it)
        whole = RANGES.get(kind, ALL)
        if kind in RANGES and sign in KEEPING and not whole.has(exact) and not (kept and whole.has(kept)):
            self.found.append(Narrow(it.at if isinstance(it, Binary) else it.start, kind, exact))
        return exact if whole.has(exact) else whole

    def call(self, it: Call, kept: Range | None) -> Range:
        """Look at the arguments of a function. A conversion keeps its argument in its source."""
        conversion = conversion_of(it.name)
        if conversion:
            source = conversion[0] or it.arguments[0].type
            found = self.visit(it.arguments[0], RANGES.get(source))
            is_number = "BOOL" not in (source, conversion[1])
            return converted(it.arguments[0], found, source, conversion[1], "stop")[1] if is_number else Range(0, 1)
        kept = RANGES.get(it.type) if it.name in SHIFTS else kept if it.name in ("SEL", "MUX") else None
        return of_call(it, [self.visit(one, None if at and it.name in SHIFTS else kept) for at, one in enumerate(it.arguments)])


def narrow(it: Expression, kept: Range | None = None) -> Iterator[Narrow]:
    """Return the operators of an expression that may overflow unseen in their own width."""
    widths = Widths()
    widths.visit(it, kept)
    yield from widths.found
