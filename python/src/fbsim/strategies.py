"""Strategies of Hypothesis."""

from __future__ import annotations

from collections.abc import Mapping
from operator import itemgetter

from hypothesis import strategies
from hypothesis.strategies import SearchStrategy

from fbsim.faults import InputFault, needs
from fbsim.stimuli import Value


def stimuli(
    events: Mapping[str, Mapping[str, SearchStrategy[Value]]], ticks: SearchStrategy[int], min_size: int = 0,
    max_size: int | None = None
) -> SearchStrategy[list[tuple[int, str, dict[str, Value]]]]:
    """Returns a strategy of stimuli, in the order of their ticks, which shrinks to few stimuli with small values.

    `events` has for each INSTANCE.EVENT the strategies of its variables: {"BEFORE.SENSE": {"COVERED": booleans()}}.
    """
    what = "a table: {INSTANCE.EVENT: {VARIABLE: strategy}}"
    needs(events, Mapping, what)
    for values in events.values():
        needs(values, Mapping, what)
    if not events or max_size == 0:
        raise InputFault("these are always no stimuli: there is no event, or max_size is 0")
    rows = [
        strategies.tuples(ticks, strategies.just(event), strategies.fixed_dictionaries(dict(values)))
        for event, values in events.items()
    ]
    lists = strategies.lists(strategies.one_of(rows), min_size=min_size, max_size=max_size)
    return lists.map(lambda given: sorted(given, key=itemgetter(0)))
