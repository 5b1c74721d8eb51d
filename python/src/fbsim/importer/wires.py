"""Connections of a network."""

from __future__ import annotations

from typing import NamedTuple

from .common import Place

# The path of an instance (that of the network itself is empty), and the name of a port.
Key = tuple[str, str]


class Wire(NamedTuple):
    """A connection. A network of a resource may repeat those of the application; a communication block carries some.

    The level says in how many subapplications it is."""

    source: Key
    target: Key
    place: Place
    is_event: bool
    may_repeat: bool = False
    is_carried: bool = False
    level: int = 0
