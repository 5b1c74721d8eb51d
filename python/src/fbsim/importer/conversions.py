"""Conversions between whole types, truth values and strings of bits, and what an assignment does with a number that does not fit.

Expressions of the profile have numbers of 128 bits, so a conversion must say itself what becomes of a number that its type
does not have: the run stops (`stop`), or two's complement drops the bits above (`wrap`)."""

from __future__ import annotations

from .expressions import BITS, RANGES, Call, Expression, Group, Range, join, number

KINDS = {"BOOL", *RANGES}


def conversion_of(name: str) -> tuple[str, str] | None:
    """Return source and target of a conversion: INT and DINT for INT_TO_DINT, nothing and DINT for TO_DINT."""
    source, middle, target = name.rpartition("TO_")
    is_one = middle and target in KINDS and (not source or source.endswith("_") and source[:-1] in KINDS)
    return (source[:-1], target) if is_one else None


def checked(value: Expression, numbers: Range) -> Expression:
    """Return an expression that has the value if it is in a range of 2^n numbers, and stops the run otherwise.

    The value, less the middle of the range, times 2^(128 - n) fits into 128 bits if, and only if, it is in the range."""
    size, start = (numbers.most - numbers.least).bit_length(), value.start
    middle, factor = numbers.least + 2**(size - 1), 2**(128 - size)
    moved = join("-", value, number(middle, start)) if middle else value
    tried = join("/", join("*", moved, number(factor, start)), number(factor, start))
    return Group(start, value.type, join("+", tried, number(middle, start)) if middle else tried)


def wrapped(value: Expression, numbers: Range) -> Expression:
    """Return an expression that has the value in two's complement: the number of a range of 2^n whose lowest n bits are its own."""
    size, start = numbers.most - numbers.least + 1, value.start
    inside = join("+", join("MOD", value, number(size, start)), number(size - numbers.least, start))
    result = join("MOD", Group(start, value.type, inside), number(size, start))
    return Group(start, value.type, join("-", result, number(-numbers.least, start)) if numbers.least else result)


def fitted(value: Expression, found: Range, kept: Range, overflow: str) -> tuple[Expression, Range]:
    """Return a value that has one of the numbers found, made to fit a range, and the numbers that it has then."""
    if kept.has(found):
        return value, found
    return (checked if overflow == "stop" else wrapped)(value, kept), kept


def converted(value: Expression, found: Range, source: str, target: str, overflow: str) -> tuple[Expression, Range]:
    """Return a value of a source type, which may have the numbers found, as one of the target, and the numbers that it has then.

    Strings of bits are cut off or read with another sign, never stopped. What a negative number becomes in a longer string is
    not the same in all tools, so it stops the run."""
    start, kept = RANGES.get(source, found), RANGES[target]
    has_bits = source in BITS or target in BITS
    if not start.has(found) and overflow == "stop" and not has_bits:
        start = start.overlap(kept)
    value, found = fitted(value, found, start, overflow)
    if target in BITS and start.least < 0 and kept.most > start.most - start.least:
        return fitted(value, found, Range(0, start.most), "stop")
    return fitted(value, found, kept, "wrap" if has_bits else overflow)


def to_truth(value: Expression, source: str) -> Expression:
    """Return a number as a truth value. A string of bits other than 0 and 1 stops the run: tools differ in what it becomes."""
    if source in BITS:
        value = join("*", value, number(2**126, value.start))
    return Group(value.start, "BOOL", join("<>", value, number(0, value.start), "BOOL"))


def of_truth(value: Expression, target: str) -> Expression:
    """Return a truth value as a number."""
    return Call(value.start, target, "SEL", [value, number(0, value.start), number(1, value.start)])
