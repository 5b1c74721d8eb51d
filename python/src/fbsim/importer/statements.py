"""Segments of an algorithm: what begins or ends a statement, and assignments, as words and expressions."""

from __future__ import annotations

from collections.abc import Iterator
from dataclasses import dataclass

from lark import Token

from .expressions import Expression, Piece, Variable, pieces


Words = list[Token | Expression]


def word(text: str, start: int) -> Token:
    """Return a word that is written at the place of another text."""
    return Token("WORD", text, start)


@dataclass(slots=True)
class Segment:
    """Words and expressions in their order. The kind is the first word, LABEL, := or a semicolon."""

    kind: str
    row: Words

    @property
    def start(self) -> int:
        """The character of the source at which this begins."""
        return self.row[0].start if isinstance(self.row[0], Expression) else self.row[0].start_pos or 0

    def pieces(self) -> Iterator[Piece]:
        """Return the pieces of text of this segment."""
        for it in self.row:
            yield from pieces(it) if isinstance(it, Expression) else [Piece(str(it.value), it.start_pos or 0)]


def made(text: str, start: int) -> list[Segment]:
    """Return statements out of words, in which a semicolon stands alone: REPEAT, or EXIT ;."""
    return [Segment(it if it != ";" else ";", [word(it, start)]) for it in text.split()]


def test(opening: str, condition: Expression, closing: str) -> Segment:
    """Return a segment with a condition between two words."""
    return Segment(opening, [word(opening, condition.start), condition, word(closing, condition.start)])


def assigned(target: Variable, value: Expression) -> list[Segment]:
    """Return an assignment with its semicolon."""
    return [Segment(":=", [target, word(":=", value.start), value]), *made(";", value.start)]
