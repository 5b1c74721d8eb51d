"""E_SPLIT_n and E_MERGE_n with any number of events, which are made; annex_a.iec has those with 3 and 4."""

from __future__ import annotations

from typing import TYPE_CHECKING

from .common import Place
from .made import Maker

if TYPE_CHECKING:
    from .blocks import Block

MOST_EVENTS = 200


def split_or_merge(name: str, make: type[Block]) -> Block | None:
    """Return the type E_SPLIT_n or E_MERGE_n with a name in upper case, for an n from 2 to 200, or nothing."""
    kind, _, number = name.rpartition("_")
    if kind not in ("E_SPLIT", "E_MERGE") or not (number.isascii() and number.isdigit()) or not 2 <= int(number[:4]) <= MOST_EVENTS:
        return None
    block = make(name, "made", Place("the event library", 1, 1), out=name)
    maker, events = Maker(block), range(1, int(number) + 1)
    if kind == "E_SPLIT":
        maker.events(False, "EI")
        maker.events(True, *(f"EO{it}" for it in events))
        maker.reaction("EI", (), *(f"EO{it}" for it in events))
    else:
        maker.events(False, *(f"EI{it}" for it in events))
        maker.events(True, "EO")
        for it in events:
            maker.reaction(f"EI{it}", (), "EO")
    return block
