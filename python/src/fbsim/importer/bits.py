"""Strings of bits, BYTE to LWORD, as unsigned numbers: AND, OR, XOR, NOT, shifts, rotations and parts such as .%X3.

All is arithmetic with numbers of 128 bits. Where an operand is needed more than once, `again` gives it a name."""

from __future__ import annotations

from collections.abc import Callable, Iterable

from .expressions import NUMBER, Call, Expression, join, number, value_of

Again = Callable[[Expression], Expression]
SIZES = {"X": 1, "B": 8, "W": 16, "D": 32}


def times(value: Expression, power: int) -> Expression:
    """Return a number times a power of two."""
    return join("*", value, number(2**power, value.start)) if power else value


def without_low(value: Expression, count: int) -> Expression:
    """Return a number without its lowest bits."""
    return join("/", value, number(2**count, value.start)) if count else value


def low(value: Expression, count: int) -> Expression:
    """Return the lowest bits of a number."""
    return join("MOD", value, number(2**count, value.start))


def field(value: Expression, begin: int, count: int, size: int) -> Expression:
    """Return some bits of a string of a size, as a number."""
    shifted = without_low(value, begin)
    return shifted if begin + count >= size else low(shifted, count)


def total(terms: Iterable[Expression]) -> Expression:
    """Return the sum of some terms, put together in pairs so that it nests little."""
    row = list(terms)
    while len(row) > 1:
        row = [join("+", row[at], row[at + 1]) if at + 1 < len(row) else row[at] for at in range(0, len(row), 2)]
    return row[0]


def runs(mask: int) -> list[tuple[int, int]]:
    """Return where the ones of a mask begin, and how many follow each other."""
    found, begin = [], 0
    while mask:
        skipped = (mask & -mask).bit_length() - 1
        mask, begin = mask >> skipped, begin + skipped
        count = (~mask & (mask + 1)).bit_length() - 1
        found.append((begin, count))
        mask, begin = mask >> count, begin + count
    return found


def masked(value: Expression, mask: int, size: int, again: Again) -> Expression:
    """Return the bits of a string that a constant mask has."""
    parts = runs(mask % 2**size)
    if not parts:
        return join("*", value, number(0, value.start))
    value = again(value) if len(parts) > 1 else value
    return total(times(field(value, begin, count, size), begin) for begin, count in parts)


def both(left: Expression, right: Expression, size: int, again: Again) -> Expression:
    """Return AND of two strings, bit by bit unless one of them is a constant."""
    for one, other in ((left, right), (right, left)):
        mask = value_of(one)
        if mask is not None:
            return masked(other, mask, size, again)
    left, right = again(left), again(right)
    return total(times(join("*", field(left, it, 1, size), field(right, it, 1, size)), it) for it in range(size))


def combined(operator: str, left: Expression, right: Expression, size: int, again: Again) -> Expression:
    """Return AND, OR or XOR of two strings: a OR b is a + b - (a AND b), and XOR takes that off twice."""
    if operator in ("AND", "&"):
        return both(left, right, size, again)
    left, right = again(left), again(right)
    common = both(left, right, size, again)
    return join("-", join("+", left, right), times(common, 1) if operator == "XOR" else common)


def complement(value: Expression, size: int) -> Expression:
    """Return NOT of a string."""
    return join("-", number(2**size - 1, value.start), value)


def power(count: Expression, size: int, again: Again) -> Expression:
    """Return two to a number below the size: each of its bits multiplies by one or by a power that is known."""
    count, start = again(count), count.start
    digits = ((it, low(without_low(count, it), 1)) for it in range(size.bit_length() - 1))
    factors = [join("+", number(1, start), join("*", digit, number(2**2**it - 1, start))) for it, digit in digits]
    product: Expression = factors[0]
    for it in factors[1:]:
        product = join("*", product, it)
    return product


def shifted(name: str, value: Expression, count: Expression, size: int, again: Again) -> Expression:
    """Return a shift or a rotation. What is shifted by the size or more is 0."""
    known, is_left, is_rotation = value_of(count), name in ("SHL", "ROL"), name in ("ROL", "ROR")
    if known is not None and (is_rotation or known < size):
        return by_constant(value, known % size if is_left else -known % size if is_rotation else known, size, again, is_left, is_rotation)
    if known is not None:
        return join("*", value, number(0, value.start))
    count = again(join("MOD", count, number(size, count.start)) if is_rotation else count)
    factor = again(power(count, size, again))
    value = again(value) if is_rotation else value
    if name == "ROL":
        product = join("*", value, factor)
        return join("+", low(product, size), without_low(product, size))
    if name == "ROR":
        above = join("*", join("MOD", value, factor), join("/", number(2**size, value.start), factor))
        return join("+", join("/", value, factor), above)
    moved = low(join("*", value, factor), size) if is_left else join("/", value, factor)
    is_far = join(">=", count, number(size, value.start), "BOOL")
    return Call(value.start, NUMBER, "SEL", [is_far, moved, number(0, value.start)])


def by_constant(value: Expression, count: int, size: int, again: Again, is_left: bool, is_rotation: bool) -> Expression:
    """Return a shift by a constant below the size, or a rotation to the left by it."""
    if not is_rotation and not is_left:
        return without_low(value, count)
    if not count:
        return value
    value = again(value) if is_rotation else value
    moved = times(low(value, size - count), count)
    return join("+", moved, without_low(value, size - count)) if is_rotation else moved


def replaced(base: Expression, begin: int, count: int, size: int, value: Expression) -> Expression:
    """Return a string whose bits from one on are those of a number: the old number is taken off, and the new one added."""
    change = join("-", value, field(base, begin, count, size))
    return join("+", base, times(change, begin))
