"""The data of a page: an application, its pictures, the lines of a range as columns, and the rules."""

from __future__ import annotations

from collections.abc import Mapping, Sequence
from itertools import pairwise
from typing import Any

from fbsim.page.graphs import Chart, Network
from fbsim.page.inside import Columns
from fbsim.page.layout import Drawing, Size, chart_graph, drawings, network_graph, resource_graph
from fbsim.page.system import COUNTED, Number, System
from fbsim.trace import Verdict, ending

# With more instances, the picture of the application is one of its resources.
MOST_BLOCKS = 400


def sizes_of(system: System, columns: Columns, network: Network, instances: Sequence[int]) -> dict[str, Size]:
    """Returns the sizes of the blocks of a network, with room for the values that these instances of it have."""
    sizes = {}
    for name, block in network.blocks.items():
        numbers = instances
        if block.type:
            paths = [f"{system.instances[it].path}.{name}" for it in instances] or [name]
            numbers = [system.by_path[it] for it in paths]

        def width(variable: str, numbers: Sequence[int] = numbers) -> int:
            slots = [system.at[it, variable] for it in numbers if (it, variable) in system.at]
            return max((5 if system.slots[it].is_truth else columns.widths[it] for it in slots), default=0)

        inside = system.types.get(block.type)
        states = max(len(it.name) for it in inside.states) + 2 if isinstance(inside, Chart) else 0
        has_memory = bool(numbers) and block.type not in system.types and (numbers[0], "memory") in system.at
        sizes[name] = Size(block, width, 12 if has_memory else states)
    return sizes


def all_drawings(system: System, columns: Columns) -> dict[str, Drawing]:
    """Returns the drawings of the application, whose name is empty, and of all types, as far as graphviz makes them."""
    of_type: dict[str, list[int]] = {}
    for number, instance in enumerate(system.instances):
        of_type.setdefault(instance.block.type, []).append(number)
    if len(system.instances) > MOST_BLOCKS:
        whole = resource_graph(system.network)
    else:
        whole = network_graph(system.network, sizes_of(system, columns, system.network, []))
    graphs = {}
    for name, it in system.types.items():
        if isinstance(it, Chart):
            graphs[name] = chart_graph(it)
        else:
            graphs[name] = network_graph(it, sizes_of(system, columns, it, of_type[name]))
    return drawings({"": whole}) | drawings(graphs)


def network_data(network: Network, drawing: Drawing | None, is_of_resources: bool = False) -> dict[str, Any]:
    """Returns a network as data."""
    blocks = [
        {"name": it.name, "type": it.type, "parameters": it.parameters, "ei": it.event_inputs, "eo": it.event_outputs,
         "di": it.data_inputs, "do": it.data_outputs} for it in network.blocks.values()
    ]
    return {
        "name": network.name, "blocks": blocks, "drawing": drawing,
        "isOfResources": is_of_resources and drawing is not None,
        "connections": [[*it.source, *it.target, int(it.is_event)] for it in network.connections],
        "resources": [
            {"name": it.name, "device": it.device, "blocks": it.blocks, "count": len(it.blocks)}
            for it in network.resources
        ],
        "links": [[it.source, it.target, it.latency] for it in network.links],
    }


def chart_data(chart: Chart, drawing: Drawing | None) -> dict[str, Any]:
    """Returns a chart as data."""
    states = [[it.name, it.actions] for it in chart.states]
    return {"name": chart.name, "states": states, "transitions": chart.transitions, "drawing": drawing}


def turned(whole: list[list[Number]]) -> list[Number | list[Number]]:
    """Returns whole states slot by slot, where one that never changes is one value."""
    return [them[0] if len(set(them)) == 1 else list(them) for them in zip(*whole)]


def columns_data(columns: Columns) -> dict[str, Any]:
    """Returns the columns as data, the ticks as differences. `cause` has, for each line, the line that led to it."""
    ticks = [after - before for before, after in pairwise([0, *columns.ticks])]
    return {
        "tick": ticks, "line": columns.lines, "count": columns.counts, "act": columns.acts, "value": columns.values,
        "cause": None,
    }


def document(
    system: System, columns: Columns, verdicts: Sequence[Verdict], made: Mapping[str, Drawing]
) -> dict[str, Any]:
    """Returns all data of a page."""
    networks = {"": network_data(system.network, made.get(""), len(system.instances) > MOST_BLOCKS)}
    charts = {}
    for name, it in system.types.items():
        if isinstance(it, Chart):
            charts[name] = chart_data(it, made.get(name))
        else:
            networks[name] = network_data(it, made.get(name))
    return {
        "name": system.network.name,
        "networks": networks,
        "charts": charts,
        "words": list(system.words),
        "counted": COUNTED,
        "instances": [
            {"path": it.path, "type": it.block.type, "resource": it.resource, "parameters": it.block.parameters,
             "parent": -1 if it.parent is None else it.parent} for it in system.instances
        ],
        "slots": [
            {"instance": it.instance, "name": it.name, "role": it.role, "isTruth": it.is_truth} for it in system.slots
        ],
        "ports": [it._asdict() for it in columns.ports],
        "acts": [it._asdict() for it in columns.actions],
        "linesBefore": columns.before,
        "end": ending(columns.last)[0],
        "columns": columns_data(columns),
        "whole": turned(columns.whole),
        "rules": [
            {"name": it.rule, "verdict": it.verdict, "message": it.message, "line": it.line, "tick": it.tick}
            for it in verdicts
        ],
    }
