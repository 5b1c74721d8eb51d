"""Functions of IEC 61131-3: the names of their arguments, and the operators and calls that they become."""

from __future__ import annotations

from collections.abc import Sequence
from functools import reduce
from typing import NamedTuple

from lark import Token

from .conversions import conversion_of
from .expressions import BITS, Binary, Call, Expression, Group, Unary
from .kinds import binary, common_type, truth

OPERATORS = {"ADD": "+", "SUB": "-", "MUL": "*", "DIV": "/", "MOD": "MOD", "AND": "AND", "OR": "OR", "XOR": "XOR",
             "GT": ">", "GE": ">=", "EQ": "=", "NE": "<>", "LE": "<=", "LT": "<"}
COMPARISONS = (">", ">=", "=", "<=", "<")
SHIFTS = ("SHL", "SHR", "ROL", "ROR")
# The names of arguments. After .. there may be more, with numbers that go on.
ARGUMENTS = {"ABS": "IN", "MOVE": "IN", "NOT": "IN", "SEL": "G IN0 IN1", "LIMIT": "MN IN MX", "MUX": "K IN0 IN1 ..",
             "MIN": "IN1 IN2 ..", "MAX": "IN1 IN2 ..", **dict.fromkeys(SHIFTS, "IN N"), **dict.fromkeys(OPERATORS, "IN1 IN2 .."),
             **dict.fromkeys(("SUB", "DIV", "MOD", "NE"), "IN1 IN2")}
MOST_ARGUMENTS = 1_000


class Named(NamedTuple):
    """An argument that is given by a name, with := or =>."""

    name: Token
    sign: Token
    value: Expression


def is_function(name: str) -> bool:
    """Return whether there is a function of this name, in upper case."""
    return name in ARGUMENTS or conversion_of(name) is not None


def arguments_of(name: str, count: int) -> list[str] | None:
    """Return the names of so many arguments of a function, or nothing if it can't have so many."""
    names = ARGUMENTS.get(name, "IN").split()
    if names[-1] != "..":
        return names if count == len(names) else None
    first = int(names[-2][2:]) + 1
    more = [f"IN{first + it}" for it in range(count - len(names) + 1)]
    return [*names[:-1], *more] if len(names) - 1 <= count <= MOST_ARGUMENTS else None


def in_order(name: str, given: Sequence[Expression | Named]) -> list[Expression] | str:
    """Return the arguments of a function in their order, or what is wrong with them."""
    names, has = arguments_of(name, len(given)), ", ".join(ARGUMENTS.get(name, "IN").split())
    named = {it.name.upper(): it for it in given if isinstance(it, Named)}
    if any(it.sign == "=>" or it.name.upper() in ("EN", "ENO") for it in named.values()):
        return "has an argument EN, ENO or with =>: these are not in the profile"
    if names is None or named and (len(named) < len(given) or named.keys() != set(names)):
        return f"has the arguments {has}, all with their names or all without"
    return [named[it].value for it in names] if named else [it for it in given if isinstance(it, Expression)]


def call_of(name: str, start: int, values: list[Expression]) -> Expression:
    """Return what a function with these arguments becomes."""
    conversion = conversion_of(name)
    if conversion:
        values = [truth(it) for it in values] if conversion[0] == "BOOL" else values
        return Call(start, conversion[1], name, values)
    if name in OPERATORS:
        return Group(start, (found := operation(OPERATORS[name], values, start)).type, found)
    if name in ("SEL", "MUX"):
        inputs = [truth(it) for it in values[1:]] if "BOOL" in [it.type for it in values[1:]] else values[1:]
        return Call(start, common_type(inputs), name, [truth(values[0]) if name == "SEL" else values[0], *inputs])
    if name in SHIFTS:
        return Call(start, values[0].type, name, values)
    if name == "NOT":
        return Unary(start, values[0].type if values[0].type in BITS else "BOOL", "NOT", truth(values[0]))
    if name == "MOVE":
        return Group(start, values[0].type, values[0])
    if name in ("MIN", "MAX"):
        return reduce(lambda one, other: Call(start, common_type([one, other]), name, [one, other]), values)
    return Call(start, common_type(values), name, values)


def operation(operator: str, values: list[Expression], start: int) -> Binary:
    """Return an operator between all values; a comparison holds for each two that follow each other."""
    if operator in COMPARISONS:
        pairs = [binary(one, operator, other, start) for one, other in zip(values, values[1:])]
        return reduce(lambda one, other: binary(one, "AND", other, start), pairs)
    found = reduce(lambda one, other: binary(one, operator, other, start), values)
    assert isinstance(found, Binary)
    return found
