"""Types of ports that a type of the library leaves open, from what they are connected to."""

from __future__ import annotations

from collections.abc import Callable, Iterable

from .common import TYPES
from .expressions import BITS
from .wires import Key


def literal_type(text: str) -> str:
    """Return the type that a literal names, as INT#5, TRUE or T#2s do, or nothing."""
    word, mark, _ = text.strip().upper().partition("#")
    if not mark:
        return "BOOL" if word in ("TRUE", "FALSE") else ""
    return "TIME" if word == "T" else word if word in (*TYPES, *BITS) else ""


def infer(edges: Iterable[tuple[Key, Key]], known: Callable[[Key], str], given: dict[Key, str]) -> dict[Key, str]:
    """Return the type of each port at an end of an edge, where one can be found.

    An edge leads from where values come to where they go. Types go along the edges first, from what is known and from
    what is given (literals). What has no type then gets one against the edges."""
    rows = list(edges)
    found = {key: kind for row in rows for key in row if (kind := known(key))}
    for forward in (True, False):
        ways: dict[Key, list[Key]] = {}
        for source, target in rows:
            begin, end = (source, target) if forward else (target, source)
            ways.setdefault(begin, []).append(end)
        if forward:
            found |= {key: kind for key, kind in given.items() if kind and key not in found}
        reached = list(found)
        for key in reached:
            for other in ways.get(key, ()):
                if other not in found:
                    found[other] = found[key]
                    reached.append(other)
    return found
