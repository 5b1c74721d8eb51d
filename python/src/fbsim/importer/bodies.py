"""Compares types with those that the simulator has: by their interface, and by their chart or network as libraries store it.

Bodies are alike if they differ only in names of states, algorithms and instances, in layout, in letter case, in the way a condition
is written, and in the order of what has no order."""

from __future__ import annotations

import functools
import re
from collections.abc import Iterable, Mapping, Sequence
from pathlib import Path
from typing import TYPE_CHECKING

from .common import Faults
from .document import Node

if TYPE_CHECKING:
    from .blocks import Block

# A chart is its states, each with its actions and transitions; a network is its instances and its connections.
Body = tuple[tuple[object, ...], ...]
Rows = Sequence[tuple[str, ...]]
TOKEN = re.compile(r"\(\*.*?\*\)|//[^\n]*|\w+|:=|>=|<=|<>|[^\s\w]", re.DOTALL)
DECLARED = re.compile(r"FUNCTION_BLOCK (\w+)(.*?)END_FUNCTION_BLOCK", re.DOTALL)
ALGORITHM = re.compile(r"ALGORITHM (\w+) IN ST:(.*?)END_ALGORITHM", re.DOTALL)


def is_usual(block: Block, usual: Block, is_built_in: bool, faults: Faults) -> bool:
    """Return whether the file of a type stands for a type of the simulator with its name.

    A built-in block has the same interface and a known body or none. For a type of Annex A only a file without a body counts."""
    if not is_built_in:
        return block.kind == "service"
    is_alike = not faults and block.shape(True) == usual.shape(True)
    return is_alike and (block.kind == "service" or body_of(block.node) in known_bodies().get(usual.out, ()))


def words(text: str) -> list[str]:
    """Return the tokens of a text in upper case, without comments."""
    return [it.upper() for it in TOKEN.findall(text) if not it.startswith(("(*", "//"))]


def condition(text: str) -> tuple[str, ...]:
    """Return a condition as its event and its guard, however the two are put together: EI[G], EI & G, EI AND (G = TRUE)."""
    tokens = words(text)
    if tokens[1:2] == ["["] and tokens[-1] == "]":
        tokens = [tokens[0], *tokens[2:-1]]
    elif tokens[1:2] in (["&"], ["AND"]):
        tokens = [tokens[0], *tokens[2:]]
    guard = plain(tokens[1:])
    if guard[1:] in (["=", "FALSE"], ["=", "0"]):
        guard = ["NOT", guard[0]]
    elif guard[1:] in (["=", "TRUE"], ["=", "1"]):
        guard = guard[:1]
    return (*tokens[:1], *guard)


def plain(tokens: list[str]) -> list[str]:
    """Return an expression without parentheses around the whole of it."""
    is_whole = tokens[:1] == ["("] and tokens[-1:] == [")"] and "(" not in tokens[1:] and ")" not in tokens[:-1]
    return tokens[1:-1] if is_whole else tokens


def statements(text: str) -> tuple[tuple[str, ...], ...]:
    """Return the statements of an algorithm, without parentheses around a whole value."""
    rows = [it.split(" ") for it in " ".join(words(text)).split(" ; ") if it not in ("", ";")]
    rows = [row[:-1] if row[-1] == ";" else row for row in rows]
    return tuple((*row[:2], *plain(row[2:])) if row[1:2] == [":="] else tuple(row) for row in rows)


def chart(states: Rows, actions: Mapping[str, Rows], transitions: Rows, algorithms: Mapping[str, str]) -> Body:
    """Return a chart, with its states in the order in which its transitions reach them.

    The order of transitions counts only between those of one event, if each has one."""
    rows = {name: [(target, condition(text)) for source, target, text in transitions if source == name] for name, in states}
    for name, row in rows.items():
        if all(it[1][:1] not in ((), ("1",), ("[",)) for it in row):
            row.sort(key=lambda it: it[1][0])
    order = [states[0][0]] if states else []
    for name in order:
        order += [it for it, _ in rows.get(name, ()) if it not in order]
    return tuple((tuple((statements(algorithms.get(it, it)), event) for it, event in actions.get(name, ())),
                  tuple((order.index(target), *text) for target, text in rows.get(name, ()))) for name in order)


def network(instances: Rows, events: Rows, data: Rows) -> Body:
    """Return a network, with each instance called by its type where it is the only one of it."""
    types = [it for _, it in instances]
    called = {name: it if types.count(it) == 1 else name for name, it in instances}

    def end(text: str) -> str:
        name, _, port = text.rpartition(".")
        return f"{called.get(name, name)}.{port}"

    wires = [sorted(((end(source), end(target)) for source, target in rows), key=key)
             for rows, key in ((events, lambda it: it[0]), (data, None))]
    return (tuple(sorted((called[name], it) for name, it in instances)), *(tuple(it) for it in wires))


def body_of(root: Node | None) -> Body:
    """Return the body of a type in a file. One with more than a chart and algorithms, or a network, is like none."""
    part = next(root.all("BasicFB", "FBNetwork"), None) if root else None
    if part is None or any(True for it in part.all("InternalVars", "InternalConstVars") for _ in it.children):
        return ()
    if part.tag == "FBNetwork":
        if any(it.tag != "FB" or it.children for it in part.all("FB", "SubApp", "AdapterConnections")):
            return ()
        wires = [[(row.get("Source").upper(), row.get("Destination").upper()) for it in part.all(tag) for row in it.children]
                 for tag in ("EventConnections", "DataConnections")]
        return network([(it.get("Name").upper(), it.get("Type").rpartition("::")[2].upper()) for it in part.all("FB")], *wires)
    codes = {it.get("Name").upper(): "".join(one.get("Text") or one.text.text for one in it.all("ST", "Other"))
             for it in part.all("Algorithm")}
    states = [it for ecc in part.all("ECC") for it in ecc.all("ECState")]
    actions = {it.get("Name").upper(): [(row.get("Algorithm").upper(), row.get("Output").upper()) for row in it.children] for it in states}
    return chart([(it,) for it in actions], actions, [
        (it.get("Source").upper(), it.get("Destination").upper(), it.get("Condition"))
        for ecc in part.all("ECC") for it in ecc.all("ECTransition")], codes)


def section(text: str, begin: str) -> list[str]:
    """Return the rows of a section of a declaration, which has the end END_ and a word."""
    inside = text.partition(f"\n{begin}\n")[2].partition("\nEND_")[0]
    return [it.strip() for it in inside.split(";") if it.strip()]


def declared_body(text: str) -> Body:
    """Return the body of a declaration of this package."""
    pairs = {it: [(one, other) for one, _, other in (row.partition(separator) for row in section(text, it))]
             for it, separator in (("FBS", " : "), ("EVENT_CONNECTIONS", " TO "), ("DATA_CONNECTIONS", " TO "))}
    if pairs["FBS"]:
        return network(*pairs.values())
    actions = {name: [(algorithm.strip(), event) for it in rows.split(", ") for algorithm, _, event in [it.partition("-> ")] if it]
               for name, _, rows in (it.partition(" : ") for it in section(text, "EC_STATES"))}
    transitions = [(*ends.split(" TO "), guard) for ends, _, guard in (it.partition(" := ") for it in section(text, "EC_TRANSITIONS"))]
    return chart([(it,) for it in actions], actions, transitions, dict(ALGORITHM.findall(text)))


@functools.cache
def known_bodies() -> dict[str, list[Body]]:
    """Return the bodies of the event blocks as libraries of types store them."""
    found: dict[str, list[Body]] = {}
    for name, text in declared():
        found.setdefault(name, []).append(declared_body(text))
    return found


def declared() -> Iterable[tuple[str, str]]:
    """Return the names and the insides of the declarations of known_bodies.iec."""
    return DECLARED.findall(Path(__file__).with_name("known_bodies.iec").read_text("ascii"))
