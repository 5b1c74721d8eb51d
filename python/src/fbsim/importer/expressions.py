"""Expressions of Structured Text as a typed tree, and the pieces of text that they are written as.

A node knows where its source begins, so each piece of a result has a place in the XML."""

from __future__ import annotations

from collections.abc import Iterable, Iterator
from dataclasses import dataclass, field
from typing import NamedTuple

from .document import Code

# The type of a literal that names none. A type that is not known is empty.
NUMBER = "NUMBER"
BITS = {"BYTE": 8, "WORD": 16, "DWORD": 32, "LWORD": 64}
MOST_NESTED = 64
STRENGTH = {word: strength for strength, words in enumerate(
    ("OR", "XOR", "AND &", "= <>", "< > <= >=", "+ -", "* / MOD"), 1) for word in words.split()}
UNARY = 8


class Range(NamedTuple):
    """The whole numbers from a least to a most."""

    least: int
    most: int

    def has(self, other: Range) -> bool:
        """Return whether all numbers of another range are in this one."""
        return self.least <= other.least and other.most <= self.most

    def overlap(self, other: Range) -> Range:
        """Return the numbers that are in both, which are some."""
        return Range(max(self.least, other.least), min(self.most, other.most))


def _ranges() -> dict[str, Range]:
    sizes = {"SINT": 8, "INT": 16, "DINT": 32, "LINT": 64}
    signed = {name: Range(-2**(size - 1), 2**(size - 1) - 1) for name, size in sizes.items()}
    return signed | {f"U{name}": Range(0, 2**size - 1) for name, size in sizes.items()} | {
        name: Range(0, 2**size - 1) for name, size in BITS.items()}


# The whole types with their ranges: those with a sign first, so that the first that holds a range is the usual one.
RANGES = _ranges()
# What stands in the profile for a string of bits.
UNSIGNED = {"BYTE": "USINT", "WORD": "UINT", "DWORD": "UDINT", "LWORD": "ULINT"}


@dataclass(slots=True)
class Expression:
    """An expression: where it begins in its text, its type (also BOOL, TIME, NUMBER or empty), and how deep it nests."""

    start: int
    type: str
    depth: int = field(default=1, kw_only=True)

    def parts(self) -> list[Expression]:
        """Return the expressions of which this one consists."""
        return []


@dataclass(slots=True)
class Literal(Expression):
    """A literal as it is written, with its value if it is a whole number."""

    text: str
    value: int | None = None


@dataclass(slots=True)
class Variable(Expression):
    """A variable by its name in the profile, with its value if it is a constant."""

    name: str
    value: int | None = None


@dataclass(slots=True)
class Group(Expression):
    """An expression in parentheses."""

    inside: Expression

    def parts(self) -> list[Expression]:
        return [self.inside]


@dataclass(slots=True)
class Unary(Expression):
    """A sign or NOT before an operand."""

    operator: str
    operand: Expression

    def parts(self) -> list[Expression]:
        return [self.operand]


@dataclass(slots=True)
class Binary(Expression):
    """An operator between two operands, and the place of the operator."""

    operator: str
    left: Expression
    right: Expression
    at: int

    def parts(self) -> list[Expression]:
        return [self.left, self.right]


@dataclass(slots=True)
class Call(Expression):
    """A function with its arguments in their order."""

    name: str
    arguments: list[Expression]

    def parts(self) -> list[Expression]:
        return self.arguments


@dataclass(slots=True)
class Part(Expression):
    """Some bits of a variable, such as .%X3 or .%B1: where they begin, and how many they are."""

    base: Variable
    begin: int
    count: int

    def parts(self) -> list[Expression]:
        return [self.base]


def number(value: int, start: int) -> Literal:
    """Return a whole number as a literal."""
    return Literal(start, NUMBER, str(value), value)


def join(operator: str, left: Expression, right: Expression, type: str = NUMBER) -> Binary:
    """Return an operator between two operands, at the place of the first."""
    return Binary(left.start, type, operator, left, right, left.start)


def bare(expression: Expression) -> Expression:
    """Return an expression without parentheses around it."""
    while isinstance(expression, Group):
        expression = expression.inside
    return expression


def value_of(expression: Expression) -> int | None:
    """Return the value of a whole number with or without a sign, or of a constant."""
    it = bare(expression)
    if isinstance(it, Unary) and it.operator == "-":
        value = value_of(it.operand)
        return None if value is None else -value
    return it.value if isinstance(it, (Literal, Variable)) else None


def strength(expression: Expression) -> int:
    """Return how tightly an expression holds together."""
    if isinstance(expression, Binary):
        return STRENGTH[expression.operator]
    is_sign = isinstance(expression, Unary) or isinstance(expression, Literal) and (expression.value or 0) < 0
    return UNARY if is_sign else UNARY + 1


class Piece(NamedTuple):
    """A piece of a text, the character of the source that it comes from, and whether what follows stands close to it."""

    text: str
    start: int
    is_close: bool = False


def pieces(expression: Expression, least: int = 0) -> Iterator[Piece]:
    """Return the pieces of an expression, in parentheses if it does not hold together as tightly as is needed."""
    if strength(expression) < least:
        expression = Group(expression.start, expression.type, expression)
    it = expression
    if isinstance(it, Literal):
        yield Piece(it.text, it.start)
    elif isinstance(it, Variable):
        yield Piece(it.name, it.start)
    elif isinstance(it, Group):
        yield Piece("(", it.start, True)
        yield from pieces(it.inside)
        yield Piece(")", it.start)
    elif isinstance(it, Unary):
        yield Piece(it.operator, it.start, it.operator == "-")
        yield from pieces(it.operand, UNARY + (it.operator == "-"))
    elif isinstance(it, Binary):
        yield from pieces(it.left, strength(it))
        yield Piece(it.operator, it.at)
        yield from pieces(it.right, strength(it) + 1)
    elif isinstance(it, Call):
        yield Piece(f"{it.name}(", it.start, True)
        for count, argument in enumerate(it.arguments):
            yield from [Piece(",", argument.start)] if count else []
            yield from pieces(argument)
        yield Piece(")", it.start)


def nesting(expression: Expression, least: int = 0) -> int:
    """Return how deep an expression nests as it is written."""
    it = expression
    if strength(it) < least:
        return 1 + nesting(it)
    if isinstance(it, Binary):
        return 1 + max(nesting(it.left, strength(it)), nesting(it.right, strength(it) + 1))
    if isinstance(it, Unary):
        return 1 + nesting(it.operand, UNARY + (it.operator == "-"))
    return 1 + max(map(nesting, it.parts()), default=0)


def laid_out(row: Iterable[Piece], code: Code) -> str:
    """Return pieces as a text with their places, on the lines that they had."""
    texts: list[str] = []
    before: Piece | None = None
    last = 0
    for it in row:
        is_below = it.start < last if it.text not in (")", ",") else False
        if before and (is_below or "\n" in code.text[last:it.start]):
            blank = "\n    "
        else:
            is_close = before is None or before.is_close or it.text in (")", ",", ";", "]", ":")
            blank = "" if is_close and before else " " if before else ""
        texts.append(f"{blank}{code.place(it.start).mark}{it.text}")
        before, last = it, it.start if it.text not in (")", ",") else max(last, it.start)
    return "".join(texts)
