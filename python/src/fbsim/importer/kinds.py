"""Types of expressions: which type an operator has, which numbers an expression can have, and where 0 and 1 are truth values."""

from __future__ import annotations

from collections.abc import Sequence

from .conversions import conversion_of, converted
from .expressions import BITS, NUMBER, RANGES, Binary, Call, Expression, Group, Literal, Part, Range, Unary, Variable, bare, value_of

TRUTHS = {"0": "FALSE", "FALSE": "FALSE", "1": "TRUE", "TRUE": "TRUE"}
ALL = Range(-2**127, 2**127 - 1)
LOGICAL = ("AND", "&", "OR", "XOR", "NOT")


def truth(it: Expression) -> Expression:
    """Return an expression that belongs where a truth value does: the literals 0 and 1 become FALSE and TRUE."""
    if isinstance(it, Group):
        it.inside = truth(it.inside)
        it.type = it.inside.type
    elif isinstance(it, Literal) and it.type == NUMBER and it.text in TRUTHS:
        return Literal(it.start, "BOOL", TRUTHS[it.text])
    elif isinstance(it, Call) and it.name in ("SEL", "MUX") and it.type == NUMBER:
        it.arguments[1:] = map(truth, it.arguments[1:])
        it.type = it.arguments[1].type
    return it


def common_type(values: Sequence[Expression]) -> str:
    """Return the type in which these values meet: the least one that has all their numbers."""
    types = {it.type for it in values}
    wholes = types & RANGES.keys()
    for kind in ("TIME", "BOOL"):
        if kind in types:
            return kind
    if wholes <= BITS.keys() or len(wholes) == 1:
        return max(wholes, key=lambda it: RANGES[it].most, default=NUMBER)
    whole = Range(min(RANGES[it].least for it in wholes), max(RANGES[it].most for it in wholes))
    return next((it for it, numbers in RANGES.items() if numbers.has(whole)), "LINT")


def string_type(kind: str, *operands: Expression) -> str:
    """Return the type in which strings of bits meet: a literal that names no type and does not fit is a longer string."""
    most = max(value_of(it) or 0 for it in operands if it.type == NUMBER) if NUMBER in [it.type for it in operands] else 0
    return next((it for it in BITS if RANGES[it].most >= max(most, RANGES[kind].most)), kind)


def binary(left: Expression, operator: str, right: Expression, at: int) -> Binary:
    """Return an operator between two operands, with the type that it has."""
    types = {left.type, right.type}
    kind = common_type([left, right])
    if operator in LOGICAL:
        kind = string_type(kind, left, right) if kind in BITS else "BOOL"
    elif operator in ("=", "<>", "<", ">", "<=", ">="):
        kind = "BOOL"
    if "BOOL" in types and operator in ("=", "<>") or operator in LOGICAL and kind == "BOOL":
        left, right = truth(left), truth(right)
    return Binary(left.start, kind, operator, left, right, at)


def numbers(expression: Expression) -> Range:
    """Return a range of all whole numbers that an expression can have, as the simulator computes it."""
    it = bare(expression)
    value = value_of(it)
    if value is not None:
        return Range(value, value)
    if isinstance(it, Variable):
        return RANGES.get(it.type, ALL)
    parts = [numbers(one) for one in it.parts()]
    if isinstance(it, Part):
        return Range(0, 2**it.count - 1)
    if isinstance(it, (Unary, Binary)) and it.type in BITS and it.operator in LOGICAL:
        return of_bits(it.operator, RANGES[it.type], parts)
    if isinstance(it, Unary) and it.operator == "-":
        return Range(-parts[0].most, -parts[0].least).overlap(ALL)
    if isinstance(it, Binary):
        return of_operator(it.operator, *parts).overlap(ALL)
    return of_call(it, parts) if isinstance(it, Call) else ALL


def of_bits(operator: str, whole: Range, parts: list[Range]) -> Range:
    """Return the numbers that an operator on strings of bits can give."""
    is_and = operator in ("AND", "&") and all(it.least >= 0 for it in parts)
    return Range(0, min(it.most for it in parts)) if is_and else whole


def of_operator(operator: str, left: Range, right: Range) -> Range:
    """Return the numbers that an operator can give."""
    if operator == "+":
        return Range(left.least + right.least, left.most + right.most)
    if operator == "-":
        return Range(left.least - right.most, left.most - right.least)
    if operator == "*":
        products = [one * other for one in left for other in right]
        return Range(min(products), max(products))
    size = max(abs(left.least), left.most)
    if operator == "/" and right.least > 0:
        ends = [abs(one) // other * (-1 if one < 0 else 1) for one in left for other in right]
        return Range(min(ends), max(ends))
    if operator == "MOD":
        size = min(size, max(abs(right.least), abs(right.most)) or size)
        return Range(0 if left.least >= 0 else -size, size)
    return Range(0 if left.least >= 0 <= right.least else -size, size) if operator == "/" else ALL


def of_call(it: Call, parts: list[Range]) -> Range:
    """Return the numbers that a function can give."""
    conversion = conversion_of(it.name)
    if conversion:
        source, target = conversion[0] or it.arguments[0].type, conversion[1]
        is_number = "BOOL" not in (source, target)
        return converted(it.arguments[0], parts[0], source, target, "stop")[1] if is_number else Range(0, 1)
    if it.name == "ABS":
        return Range(0, max(abs(parts[0].least), abs(parts[0].most))).overlap(ALL)
    if it.name == "LIMIT":
        return Range(min(parts[0].least, parts[2].least), parts[2].most) if len(parts) == 3 else ALL
    if it.name in ("MIN", "MAX"):
        choose = min if it.name == "MIN" else max
        return Range(choose(one.least for one in parts), choose(one.most for one in parts))
    if it.name in ("SHL", "SHR", "ROL", "ROR"):
        return RANGES.get(it.type, ALL)
    values = parts[1:] if it.name in ("SEL", "MUX") else parts
    return Range(min(one.least for one in values), max(one.most for one in values)) if values else ALL
