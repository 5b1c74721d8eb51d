"""Places of blocks, states and connections in pictures, by `dot` of graphviz. All lengths are pixels."""

from __future__ import annotations

import json
import shutil
import subprocess
from collections.abc import Callable, Iterable
from typing import Any

from fbsim.page.graphs import Block, Chart, Network, State

# How long graphviz may take for the pictures of a page.
SECONDS = 20
# Heights of rows, and widths of a letter of names, of types and ports, and of actions. The page has the same.
ROW, LINE, TITLE = 18, 15, 24
NAME, PORT, SMALL = 7.8, 6.7, 6.4
PAD = 12
MOST_VALUE = 12
TABLE = '<table border="0" cellborder="0" cellspacing="0" cellpadding="0">'

# A drawing: its `size`, and its `nodes`, `areas` and `edges` by their numbers.
Drawing = dict[str, Any]


def dot(graphs: Iterable[str]) -> list[Any]:
    """Returns what `dot` makes of graphs, or nothing if it is not there, takes too long or has a fault."""
    if (path := shutil.which("dot")) is None:
        return []
    try:
        ran = subprocess.run(
            [path, "-Tjson"], input="\n".join(graphs), capture_output=True, text=True, timeout=SECONDS, check=True
        )
    except (OSError, subprocess.SubprocessError):
        return []
    made, text, reader = [], ran.stdout.lstrip(), json.JSONDecoder()
    while text:
        graph, end = reader.raw_decode(text)
        made.append(graph)
        text = text[end:].lstrip()
    return made


def cell(width: float, height: int, name: str = "", span: int = 1) -> str:
    """Returns a cell of the table that stands for a block."""
    port = f' port="{name}"' if name else ""
    return f'<td{port} colspan="{span}" fixedsize="true" width="{round(width)}" height="{height}"></td>'


def fixed(width: float, height: int) -> str:
    """Returns a label of a fixed size."""
    return f"<{TABLE}<tr>{cell(width, height)}</tr></table>>"


class Size:
    """How wide a block is, and how high its parts are: events, title, data."""

    def __init__(self, block: Block, values: Callable[[str], int], states: int) -> None:
        def most(them: Iterable[float]) -> float:
            return max(them, default=0.0)

        sides = []
        for events, data in ((block.event_inputs, block.data_inputs), (block.event_outputs, block.data_outputs)):
            named = [len(it) for it in events] + [len(it) + 1 + min(values(it), MOST_VALUE) for it in data]
            sides.append(PORT * most(named))
        name = "" if block.name in ("in", "out") else block.name
        widths = [PORT * len(it) for it in (block.type, *block.parameters)]
        middle = most([NAME * len(name), PORT * states, *widths])
        # (the neck of a block, which has its name, is narrower than its head by 12 on each side)
        self.width = 2 * round((max(sum(sides) + 2 * PAD + 16, middle + 2 * PAD + 24)) / 2)
        self.events = ROW * max(len(block.event_inputs), len(block.event_outputs))
        self.data = ROW * max(len(block.data_inputs), len(block.data_outputs))
        self.title = TITLE + LINE * (1 + len(block.parameters) + (states > 0)) if block.type else 8
        self.height = self.events + self.title + self.data + 8


def table(block: Block, size: Size) -> str:
    """Returns a block as a table whose cells are its ports."""
    def rows(kind: str, left: tuple[str, ...], right: tuple[str, ...]) -> str:
        made = ""
        for at in range(max(len(left), len(right))):
            ends = (f"{kind}i{at}" if at < len(left) else "", f"{kind}o{at}" if at < len(right) else "")
            made += f"<tr>{''.join(cell(size.width / 2, ROW, it) for it in ends)}</tr>"
        return made

    edge = f"<tr>{cell(size.width, 4, span=2)}</tr>"
    middle = f"<tr>{cell(size.width, size.title, span=2)}</tr>"
    events = rows("e", block.event_inputs, block.event_outputs)
    return f"<{TABLE}{edge}{events}{middle}{rows('d', block.data_inputs, block.data_outputs)}{edge}</table>>"


def port_names(network: Network) -> dict[tuple[str, str, bool], str]:
    """Returns the place of each port, by its block, its name and whether it is a source."""
    found = {}
    for number, block in enumerate(network.blocks.values()):
        ends = [("e", False, block.event_inputs), ("d", False, block.data_inputs)]
        for kind, is_source, names in [*ends, ("e", True, block.event_outputs), ("d", True, block.data_outputs)]:
            for at, name in enumerate(names):
                side = f"o{at}:e" if is_source else f"i{at}:w"
                found[block.name, name, is_source] = f"n{number}:{kind}{side}"
    return found


def network_graph(network: Network, sizes: dict[str, Size]) -> str:
    """Returns a network as a graph that graphviz places."""
    numbers = {name: number for number, name in enumerate(network.blocks)}
    text = 'digraph { rankdir=LR; nodesep=0.4; ranksep=0.75; node [shape=plain]; edge [arrowhead=none];\n'
    for name, block in network.blocks.items():
        text += f"n{numbers[name]} [label={table(block, sizes[name])}];\n"
    for number, resource in enumerate(network.resources):
        links = [it for it in network.links if it.source == resource.name]
        name = f"{resource.device}.{resource.name}"
        width = max([NAME * len(name), *(PORT * len(link_text(it)) for it in links)]) + 8
        text += f"subgraph cluster{number} {{ margin=18; labeljust=l; label={fixed(width, 22 + LINE * len(links))};"
        text += "".join(f" n{numbers[it]};" for it in resource.blocks)
        # (a resource without blocks is there too)
        text += "}\n" if resource.blocks else f' empty{number} [label="", style=invis]; }}\n'
    places = port_names(network)
    for number, it in enumerate(network.connections):
        source, target = places[*it.source, True], places[*it.target, False]
        weight = 2 if it.is_event else 1
        text += f"{source} -> {target} [id={number}, weight={weight}];\n"
    return text + "}"


def link_text(link: Any) -> str:
    """Returns a link as the area of its source shows it."""
    return f"to {link.target}: {link.latency}"


def resource_graph(network: Network) -> str:
    """Returns the resources of an application as a graph, with the links as edges."""
    numbers = {it.name: number for number, it in enumerate(network.resources)}
    text = "digraph { rankdir=LR; nodesep=0.4; ranksep=1; node [shape=plain];\n"
    for it in network.resources:
        width = max(NAME * len(f"{it.device}.{it.name}"), 100) + 2 * PAD
        text += f"n{numbers[it.name]} [label={fixed(width, 52)}];\n"
    for number, link in enumerate(network.links):
        label = fixed(PORT * len(link.latency), LINE)
        text += f"n{numbers[link.source]} -> n{numbers[link.target]} [id={number}, label={label}];\n"
    return text + "}"


def state_size(state: State) -> tuple[int, int]:
    """Returns width and height of a state of a chart."""
    width = max([NAME * len(state.name), *(SMALL * len(it) for it in state.actions)]) + 2 * PAD
    return round(width), 28 + LINE * len(state.actions) + (4 if state.actions else 0)


def chart_graph(chart: Chart) -> str:
    """Returns a chart as a graph."""
    numbers = {it.name: number for number, it in enumerate(chart.states)}
    text = "digraph { nodesep=0.35; ranksep=0.45; node [shape=plain];\n"
    text += "".join(f"n{numbers[it.name]} [label={fixed(*state_size(it))}];\n" for it in chart.states)
    for number, (source, target, condition) in enumerate(chart.transitions):
        label = fixed(SMALL * len(condition) + 10, LINE + 2)
        text += f"n{numbers[source]} -> n{numbers[target]} [id={number}, label={label}];\n"
    return text + "}"


def drawing_of(made: Any) -> Drawing:
    """Returns a drawing of what graphviz made: corners and sizes of nodes and areas, and paths of edges."""
    left, low, right, top = map(float, made["bb"].split(","))

    def point(text: str) -> list[float]:
        x, y = map(float, text.split(","))
        return [round(x, 1), round(top - y, 1)]

    drawing: Drawing = {"size": [round(right - left), round(top - low)], "nodes": {}, "areas": {}, "edges": {}}
    for it in made.get("objects", []):
        name = it["name"]
        if name.startswith("cluster") and "bb" in it:
            x0, y0, x1, y1 = map(float, it["bb"].split(","))
            area = [round(x0), round(top - y1), round(x1 - x0), round(y1 - y0)]
            drawing["areas"][name.removeprefix("cluster")] = area
        elif name.startswith("n"):
            x, y = point(it["pos"])
            width, height = 72 * float(it["width"]), 72 * float(it["height"])
            drawing["nodes"][name[1:]] = [round(x - width / 2), round(y - height / 2), round(width), round(height)]
    for it in made.get("edges", []):
        ends = {text[0]: point(text[2:]) for text in it["pos"].split(" ") if text[0] in "se" and text[1] == ","}
        points = [point(text) for text in it["pos"].split(" ") if text[1:2] != "," or text[0] not in "se"]
        drawing["edges"][it["id"]] = [points, ends.get("e"), point(it["lp"]) if "lp" in it else None]
    return drawing


def drawings(graphs: dict[str, str]) -> dict[str, Drawing]:
    """Returns the drawings of graphs by their names: of none of them if graphviz makes no pictures."""
    return {name: drawing_of(it) for name, it in zip(graphs, dot(graphs.values()))}
