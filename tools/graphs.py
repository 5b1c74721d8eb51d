#!/usr/bin/env python3
"""tools/graphs.py [PROGRAM]: the graphs that `draw` writes, compared with what tools/declaration.py reads of the declaration.

Of each example, of a declaration of its own with every kind of condition, action and end of a connection, and of random systems, the
program draws the application and each declared type. Each instance, connection, link, state and transition of the declaration must be
in its graph once, and nothing else: names, ends, conditions, actions, resources and latencies are compared with those read here.
graphviz must accept each graph without a warning, and find the same numbers of nodes, edges and clusters in it.

A machine without `dot` is a fault: tools/system_packages.py installs the package graphviz."""

import glob
import json
import os
import re
import subprocess
import sys
import tomllib
from collections import Counter

from declaration import Reader
from drawn_types import Writer
from interpreter import event_block
from kit import TOP
from program import Room
from system_packages import lacks

PROGRAM = f"{TOP}/crates/fbsim/out/fbsim"
RANDOM = 25

OWN = b"""FUNCTION_BLOCK CHART
EVENT_INPUT GO WITH X; HALT; END_EVENT EVENT_OUTPUT DONE WITH Y; OFF; END_EVENT
VAR_INPUT X : INT; B : BOOL; END_VAR VAR_OUTPUT Y : INT; END_VAR
EC_STATES IDLE; RUN : A -> DONE, B1, -> OFF; REST : -> DONE; END_STATES
EC_TRANSITIONS IDLE TO RUN := GO; RUN TO REST := 1; REST TO IDLE := [(X + 1) * 2 <> -Y AND NOT B OR LIMIT(X, 3, Y) >= T#1s];
 REST TO RUN := HALT [ABS(X) MOD 7 = 2#11 XOR TRUE]; IDLE TO IDLE := HALT; END_TRANSITIONS
ALGORITHM A IN ST: Y := X; END_ALGORITHM ALGORITHM B1 IN ST: END_ALGORITHM
END_FUNCTION_BLOCK
FUNCTION_BLOCK BOX
EVENT_INPUT GO WITH X; END_EVENT EVENT_OUTPUT DONE WITH Y; THROUGH; END_EVENT
VAR_INPUT X : INT; END_VAR VAR_OUTPUT Y : INT; END_VAR
FBS GO : CHART(B := TRUE); T : E_CYCLE(DT := T#1m5s); END_FBS
EVENT_CONNECTIONS GO TO GO.GO; GO TO THROUGH; GO.DONE TO DONE; T.EO TO GO.HALT; END_CONNECTIONS
DATA_CONNECTIONS X TO GO.X; GO.Y TO Y; END_CONNECTIONS
END_FUNCTION_BLOCK
FUNCTION_BLOCK BARE EC_STATES ONLY; END_STATES END_FUNCTION_BLOCK
APPLICATION A FBS S : E_RESTART; BOX : BOX(X := -5); N : BARE; END_FBS
EVENT_CONNECTIONS S.COLD TO BOX.GO; S.WARM TO BOX.GO; END_CONNECTIONS END_APPLICATION
"""
OWN_PLAN = b"""[[resource]]
device = "D"
name = "one"
instances = ["s", "N"]
[[resource]]
device = "E"
name = "TWO"
instances = ["BOX"]
[[resource]]
device = "E"
name = "EMPTY"
instances = []
[[link]]
from = "ONE"
to = "TWO"
latencies = [[0, 5], [10, 1], [1000, 7]]
[[link]]
from = "TWO"
to = "ONE"
latency = 3
"""

NODE = re.compile(r'  "([^"]*)" \[((?:\w+=\w+, )*)label="([^"]*)"((?:, \w+=\w+)*)\];')
PORT_EDGE = re.compile(r'  "(\w+)":"(\w+)" -> "(\w+)":"(\w+)"( \[style=dashed\])?;')
STATE_EDGE = re.compile(r'  "(\w+)" -> "(\w+)" \[label="([^"]*)"\];')
LINK_EDGE = re.compile(
    r'  "resource (\w+)" -> "resource (\w+)" \[ltail="cluster \1", lhead="cluster \2", style=bold, label="([^"]*)"\];'
)
CLUSTER = re.compile(
    r'  subgraph "cluster (\w+)" \{\n    label="(\w+)\.\1";\n    "resource \1" \[shape=point, style=invis\];\n((?:    "\w+";\n)*)  \}\n'
)


class Graph:
    """What a text says, in the order of the text."""

    def __init__(self, text):
        name, body = re.fullmatch(r'digraph "(\w+)" \{\n  graph \[rankdir=LR, compound=true, newrank=true\];\n(.*)\}\n', text, re.S).groups()
        self.name, self.clusters = name, [(n, d, re.findall(r'"(\w+)"', m)) for n, d, m in CLUSTER.findall(body)]
        lines = CLUSTER.sub("", body).splitlines()
        self.shape = lines.pop(0)
        self.nodes, self.connections, self.transitions, self.links = [], [], [], []
        for line in lines:
            for form, found in ((PORT_EDGE, self.connections), (LINK_EDGE, self.links), (STATE_EDGE, self.transitions), (NODE, self.nodes)):
                if one := form.fullmatch(line):
                    found.append(one.groups())
                    break
            else:
                raise ValueError(f"no line of a graph: {line}")


# ---- What must be there


def shown(value):
    return str(value).upper()


def side(names):
    return "|".join(f"<{it}> {it}" for it in names)


def block_label(name, kind, parameters, types):
    it = types.get(kind) or event_block(kind)
    given = "".join(f"\\n{key} := {shown(value)}" for key, value in parameters.items())
    return (
        f"{{{{ {side(it.ins)}}}|{{ {side(it.outs)}}}}}|{name}\\n{kind}{given}|{{{{ {side(it.var_in)}}}|{{ {side(it.var_out)}}}}}"
    )


def end_of(port, boundary):
    name, event = port
    return name or boundary, event


def network_of(network, types):
    nodes = [(name, "", block_label(name, kind, parameters, types), "") for name, (kind, parameters) in network.parts.items()]
    events = [(*end_of(a, "in"), *end_of(b, "out"), None) for a, b in network.events]
    data = [(*end_of(a, "in"), *end_of(b, "out"), " [style=dashed]") for b, a in network.data.items()]
    return nodes, events + data


def latency_of(link):
    table = link.get("latencies") or [[0, link["latency"]]]
    return ", ".join(f"{ticks} ms" if since == 0 else f"from {since}: {ticks} ms" for since, ticks in table)


def faults_of_application(graph, application, types, plan):
    nodes, edges = network_of(application, types)
    plan = plan or {"resource": [{"device": "DEV", "name": "MAIN", "instances": [*application.parts]}]}
    clusters = [(it["name"].upper(), it["device"].upper(), [name.upper() for name in it["instances"]]) for it in plan["resource"]]
    links = [(it["from"].upper(), it["to"].upper(), latency_of(it)) for it in plan.get("link", [])]
    yield from differ("shape", [graph.shape], ["  node [shape=record];"])
    yield from differ("instances", graph.nodes, nodes)
    yield from differ("connections", graph.connections, edges)
    yield from differ("resources", graph.clusters, clusters)
    yield from differ("links", graph.links, links)
    yield from differ("transitions", graph.transitions, [])


def faults_of_composite(graph, it, types):
    nodes, edges = network_of(it.network, types)
    sides = [
        ("in", "style=rounded, ", f"{{{{ {side(it.ins)}}}}}|{{{{ {side(it.var_in)}}}}}", ""),
        ("out", "style=rounded, ", f"{{{{ {side(it.outs)}}}}}|{{{{ {side(it.var_out)}}}}}", ""),
    ]
    yield from differ("shape", [graph.shape], ["  node [shape=record];"])
    yield from differ("instances", graph.nodes, sides + nodes)
    yield from differ("connections", graph.connections, edges)
    yield from differ("others", graph.clusters + graph.links + graph.transitions, [])


def action_text(algorithm, event):
    return "\\n" + (algorithm or "") + (f" -> {event}" if event else "")


def plain(tree):
    """A condition, with AND for &, and with a minus before a number in place of a time below 0."""
    if isinstance(tree, tuple):
        return tuple("AND" if it == "&" else plain(it) for it in tree)
    return ("minus", -tree) if type(tree) is int and tree < 0 else tree


def condition_in(text):
    """A condition as tools/declaration.py reads it."""
    return plain(Reader(f"A TO B := {text};").transition()[2:])


def faults_of_chart(graph, chart):
    states = [(name, name + "".join(action_text(*it) for it in actions)) for name, actions in chart.states.items()]
    nodes = [(name, "" if at else "peripheries=2, ", label, "") for at, (name, label) in enumerate(states)]
    yield from differ("shape", [graph.shape], ["  node [shape=box];"])
    yield from differ("states", graph.nodes, nodes)
    found = [(a, b, *condition_in(text)) for a, b, text in graph.transitions]
    yield from differ("transitions", found, [(a, b, *plain((event, guard))) for a, b, event, guard in chart.transitions])
    yield from differ("others", graph.clusters + graph.links + graph.connections, [])


def differ(what, found, expected):
    if [*map(repr, found)] != [*map(repr, expected)]:
        lost = Counter(map(repr, expected)) - Counter(map(repr, found))
        more = Counter(map(repr, found)) - Counter(map(repr, expected))
        yield f"{what}: missing {[*lost][:3]}, too many {[*more][:3]}" if lost or more else f"{what} are in another order"


# ---- By graphviz


def faults_by_graphviz(text, graph):
    """What graphviz finds that is different."""
    made = subprocess.run(["dot", "-Tjson"], input=text.encode(), capture_output=True)
    if made.returncode or made.stderr:
        yield f"dot: {made.stderr.decode(errors='replace').strip()}"
        return
    found = json.loads(made.stdout)
    objects = found.get("objects", [])
    clusters = sum("nodes" in it or it["name"].startswith("cluster") for it in objects)
    yield from differ("nodes by graphviz", [len(objects) - clusters], [len(graph.nodes) + len(graph.clusters)])
    edges = len(graph.connections) + len(graph.transitions) + len(graph.links)
    yield from differ("edges by graphviz", [len(found.get("edges", []))], [edges])
    yield from differ("clusters by graphviz", [clusters], [len(graph.clusters)])


# ---- Cases


def content(path):
    with open(path, "rb") as it:
        return it.read()


def cases():
    """The name, the declaration and the deployment of each example, of the one here and of random systems."""
    yield "own", OWN, OWN_PLAN
    yield "own alone", OWN, None
    for path in sorted(glob.glob(f"{TOP}/examples/**/*.iec", recursive=True)):
        # An imported application has its types in a file beside it.
        types, plan = (f"{os.path.dirname(path)}/{name}" for name in ("types.iec", "deploy.toml"))
        if path != types:
            declaration = (content(types) if os.path.exists(types) else b"") + content(path)
            yield os.path.basename(path), declaration, content(plan) if os.path.exists(plan) else None
    for seed in range(RANDOM):
        declaration, plan, *_ = Writer(seed).system()
        yield f"random {seed}", declaration.encode(), plan.encode()


def drawn(room, declaration, plan, kind=None):
    files = {"it.iec": declaration} | ({"it.toml": plan} if plan else {})
    for name, text in files.items():
        with open(f"{room.folder}/{name}", "wb") as it:
            it.write(text)
    words = ["draw", "it.iec", *(["--deploy", "it.toml"] if plan else []), *(["--type", kind] if kind else [])]
    ran = room.call(words)
    if ran.returncode or ran.stderr:
        raise ValueError(f"status {ran.returncode}: {ran.stderr.decode(errors='replace').strip()}")
    return ran.stdout.decode("ascii")


def faults_of(room, declaration, plan):
    """What is wrong with the graphs of a declaration, and their number."""
    types, application = Reader(declaration.decode("utf-8-sig")).library()
    table = tomllib.loads(plan.decode()) if plan else None
    expected = [(None, lambda graph: faults_of_application(graph, application, types, table))]
    for name, it in types.items():
        look = (lambda graph, it=it: faults_of_chart(graph, it.chart)) if it.chart else (lambda graph, it=it: faults_of_composite(graph, it, types))
        expected.append((name, look))
    found = []
    for name, look in expected:
        try:
            text = drawn(room, declaration, plan, name and name.lower())
            graph = Graph(text)
        except (ValueError, AttributeError) as fault:
            found.append(f"{name or 'application'}: {fault}")
            continue
        wrong = [*look(graph), *faults_by_graphviz(text, graph)]
        if name and graph.name != name:
            wrong.append(f"is called {graph.name}")
        found += [f"{name or 'application'}: {it}" for it in wrong]
    return found, len(expected)


def make_all(program, says=print):
    """Compares all graphs, and returns whether all agree with the declarations."""
    if lacks("dot", "graphviz"):
        return False
    wrong, count = [], 0
    with Room(program) as room:
        for name, declaration, plan in cases():
            found, graphs = faults_of(room, declaration, plan)
            wrong += [f"{name}: {it}" for it in found]
            count += graphs
    for it in wrong:
        says(f"graphs: {it}")
    says(f"graphs: {len(wrong)} faults in {count} graphs, read by this tool and by graphviz", flush=True)
    return not wrong


def main(program=PROGRAM):
    if not os.path.exists(program):
        sys.exit(f"{program} is not built: ./simulate builds it")
    return 0 if make_all(program) else 1


if __name__ == "__main__":
    sys.exit(main(*sys.argv[1:]))
