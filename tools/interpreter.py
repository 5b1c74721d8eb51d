#!/usr/bin/env python3
"""tools/interpreter.py [FOLDER..]: a second simulator, in Python, that works out the trace of each example, or of these folders.

It is written only from docs/formats/ and docs/PROFILE.md and shares nothing with the program. It has one agenda, one thread, no
limits and no refusals. It runs the call in a folder's file `args`, and compares its trace with the file `trace`. ./gate runs it before
anything is built; tools/drawn.py compares the program with it on random systems. With --print it prints the trace of one folder
instead."""

import csv
import glob
import heapq
import os
import sys
import tomllib
from types import SimpleNamespace

from declaration import Reader

TOP = os.path.dirname(os.path.dirname(os.path.realpath(__file__)))
STEPS = 10_000
MOST = 2**127
REASONS = ("steps", "divide", "range")
BITS = {"SINT": 8, "INT": 16, "DINT": 32, "LINT": 64, "TIME": 64}
UNSIGNED = {"USINT": 8, "UINT": 16, "UDINT": 32, "ULINT": 64}

# ---- Event blocks

BLOCKS = {
    "E_RESTART": "> COLD, WARM, STOP",
    "E_SPLIT": "EI > EO1, EO2",
    "E_MERGE": "EI1, EI2 > EO",
    "E_REND": "EI1, EI2, R > EO",
    "E_PERMIT": "EI PERMIT > EO",
    "E_SELECT": "EI0 G, EI1 G > EO",
    "E_SWITCH": "EI G > EO0, EO1",
    "E_DELAY": "START DT, STOP > EO",
    "E_CYCLE": "START DT, STOP > EO",
    "E_SR": "S, R > EO Q",
    "E_D_FF": "CLK D > EO Q",
    "E_R_TRIG": "EI QI > EO",
    "E_F_TRIG": "EI QI > EO",
    "E_CTU": "CU PV, R > CUO Q CV, RO Q CV",
}
KINDS = {"DT": "TIME", "PV": "UINT", "CV": "UINT"}


def event_block(name):
    """Returns an event block's type, by its row."""
    sides = [[it.split() for it in side.split(",") if it.strip()] for side in BLOCKS[name].split(">")]
    ins, outs = ({row[0]: row[1:] for row in side} for side in sides)
    variables = [{it: (KINDS.get(it, "BOOL"), 0 if it in KINDS else False) for row in side.values() for it in row} for side in (ins, outs)]
    return SimpleNamespace(ins=ins, outs=outs, var_in=variables[0], var_out=variables[1], inner={}, chart=None, event_block=name)


def react_by_timer(it, event):
    """What E_DELAY and E_CYCLE do with an event: the output events that they emit. None is the timer."""
    if event is None:
        it.timer = it.system.tick + it.memory if it.type.event_block == "E_CYCLE" else None
        return ["EO"]
    if event == "STOP":
        it.timer = None
    elif it.timer is None:
        it.memory = max(1, it.values["DT"])
        it.timer = it.system.tick + it.memory
    return []


def react(it, event):
    """The same for all event blocks."""
    now, old = it.values, it.memory
    match it.type.event_block, event:
        case "E_RESTART", None:
            return ["COLD"]
        case "E_SPLIT", _:
            return ["EO1", "EO2"]
        case "E_MERGE", _:
            return ["EO"]
        case "E_REND", "R":
            it.memory = set()
        case "E_REND", _:
            it.memory = {*(old or ()), event}
            if len(it.memory) == 2:
                it.memory = set()
                return ["EO"]
        case "E_PERMIT", _:
            return ["EO"] * now["PERMIT"]
        case "E_SELECT", _:
            return ["EO"] * (now["G"] == (event == "EI1"))
        case "E_SWITCH", _:
            return ["EO1" if now["G"] else "EO0"]
        case "E_DELAY" | "E_CYCLE", _:
            return react_by_timer(it, event)
        case ("E_SR" | "E_D_FF"), _:
            new = event == "S" if event != "CLK" else now["D"]
            changes, now["Q"] = new != now["Q"], new
            return ["EO"] * changes
        case ("E_R_TRIG" | "E_F_TRIG") as name, _:
            it.memory = now["QI"]
            return ["EO"] * (bool(old) != now["QI"] and now["QI"] == (name == "E_R_TRIG"))
        case "E_CTU", "R":
            now["CV"], now["Q"] = 0, False
            return ["RO"]
        case "E_CTU", _ if now["CV"] < 65535:
            now["CV"] += 1
            now["Q"] = now["CV"] >= now["PV"]
            return ["CUO"]
    return []


# ---- Structured Text


class Stop(Exception):
    """The end of a simulation before its horizon; its argument is the reason."""


class Leave(Exception):
    """EXIT or RETURN."""


def whole(value):
    if not -MOST <= value < MOST:
        raise Stop("range")
    return value


def divided(a, b):
    if b == 0:
        raise Stop("divide")
    return whole(abs(a) // abs(b) * (1 if (a < 0) == (b < 0) else -1))


def remainder(a, b):
    return 0 if b == 0 else whole(a - abs(a) // abs(b) * (1 if (a < 0) == (b < 0) else -1) * b)


OPERATORS = {
    "OR": lambda a, b: a or b,
    "XOR": lambda a, b: a != b,
    "AND": lambda a, b: a and b,
    "&": lambda a, b: a and b,
    "=": lambda a, b: a == b,
    "<>": lambda a, b: a != b,
    "<": lambda a, b: a < b,
    ">": lambda a, b: a > b,
    "<=": lambda a, b: a <= b,
    ">=": lambda a, b: a >= b,
    "+": lambda a, b: whole(a + b),
    "-": lambda a, b: whole(a - b),
    "*": lambda a, b: whole(a * b),
    "/": divided,
    "MOD": remainder,
    "minus": lambda a: whole(-a),
    "NOT": lambda a: not a,
    "MIN()": min,
    "MAX()": max,
    "ABS()": lambda a: whole(abs(a)),
    "LIMIT()": lambda least, a, most: min(max(a, least), most),
    "SEL()": lambda g, a, b: b if g else a,
}


def value_of(tree, values):
    if isinstance(tree, str):
        return values[tree]
    if not isinstance(tree, tuple):
        return tree
    return OPERATORS[tree[0]](*[value_of(part, values) for part in tree[1:]])


def ends_of(kind):
    """Returns the least number of a type, and the one above the greatest."""
    return (0, 2 ** UNSIGNED[kind]) if kind in UNSIGNED else (-(2 ** (BITS[kind] - 1)), 2 ** (BITS[kind] - 1))


def is_of(kind, value):
    if kind == "BOOL":
        return isinstance(value, bool)
    low, high = ends_of(kind)
    return low <= value < high


class Body:
    """Runs the statements of an algorithm over a block's values."""

    def __init__(self, block):
        self.values, self.step = block.values, block.system.step
        self.kinds = {name: kind for table in (block.type.var_in, block.type.var_out, block.type.inner) for name, (kind, _) in table.items()}

    def assign(self, name, value):
        if not is_of(self.kinds[name], value):
            raise Stop("range")
        self.values[name] = value

    def run(self, body):
        for it in body:
            self.step()
            getattr(self, f"do_{it[0]}")(*it[1:])

    def value(self, tree):
        return value_of(tree, self.values)

    def turn(self, body):
        """Runs an iteration of a loop and returns whether it goes on."""
        self.step()
        try:
            self.run(body)
        except Leave as it:
            if it.args == ("return",):
                raise
            return False
        return True

    def do_empty(self):
        pass

    def do_exit(self):
        raise Leave("exit")

    def do_return(self):
        raise Leave("return")

    def do_assign(self, name, tree):
        self.assign(name, self.value(tree))

    def do_if(self, branches, otherwise):
        for test, body in branches:
            if self.value(test):
                return self.run(body)
        return self.run(otherwise)

    def do_case(self, chosen, branches, otherwise):
        value = self.value(chosen)
        for labels, body in branches:
            if any(first <= value <= last for first, last in labels):
                return self.run(body)
        return self.run(otherwise)

    def do_while(self, test, body):
        while self.value(test) and self.turn(body):
            pass

    def do_repeat(self, body, test):
        while self.turn(body) and not self.value(test):
            pass

    def do_for(self, name, start, end, step, body):
        start, end, step = (self.value(it) for it in (start, end, step))

        def has_passed(value):
            return value > end if step > 0 else value < end if step < 0 else False

        self.assign(name, start)
        while not has_passed(self.values[name]) and self.turn(body) and not has_passed(self.values[name] + step):
            self.assign(name, self.values[name] + step)


# ---- The simulation


class Block:
    """An instance: what it remembers, and what others see of it."""

    def __init__(self, system, above, name, kind, parameters, home):
        self.system, self.above, self.name, self.home = system, above, name, home
        self.type = system.types.get(kind) or event_block(kind)
        self.path = f"{above.path}.{name}" if above and above.path else name
        self.number = len(system.blocks)
        system.blocks.append(self)
        self.slots = {it: parameters.get(it, start) for it, (_, start) in self.type.var_in.items()}
        self.values = self.slots | {it: start for table in (self.type.var_out, self.type.inner) for it, (_, start) in table.items()}
        self.published = {it: start for it, (_, start) in self.type.var_out.items()}
        self.memory, self.timer = None, None
        self.state = next(iter(self.type.chart.states)) if self.type.chart else None
        network = getattr(self.type, "network", None)
        self.parts = {it: Block(system, self, it, *row, home) for it, row in network.parts.items()} if network else {}
        self.network = network


class System:
    """The accepted texts with the state of the simulation."""

    def __init__(self, declaration, deployment=None, stimuli=(), steps=STEPS):
        self.reader = Reader(declaration)
        self.types, application = self.reader.library()
        self.blocks, self.agenda, self.lines, self.steps, self.tick, self.count = [], [], [], steps, 0, 0
        names = [*application.parts]
        self.resources = [("MAIN", names)]
        self.links = {}
        if deployment:
            self.resources = [(it["name"].upper(), [name.upper() for name in it["instances"]]) for it in deployment["resource"]]
            number = {name: at for at, (name, _) in enumerate(self.resources)}
            for at, it in enumerate(deployment.get("link", [])):
                table = it.get("latencies") or [[0, it["latency"]]]
                self.links[number[it["from"].upper()], number[it["to"].upper()]] = SimpleNamespace(number=at, table=table, sent=0)
        home = {name: at for at, (_, names) in enumerate(self.resources) for name in names}
        self.root = SimpleNamespace(path="", network=application)
        self.root.parts = {it: Block(self, self.root, it, *row, home[it]) for it, row in application.parts.items()}
        self.held, self.meters, self.key = {}, {}, ""
        for row, (tick, port, values) in enumerate(stimuli):
            name, event = port.upper().split(".")
            block = self.root.parts[name]
            self.add(tick, block.home, 0, row, 0, ("stimulus", block, event, values))
        for it in self.blocks:
            if getattr(it.type, "event_block", None) == "E_RESTART":
                it.timer = 0
                self.add(0, it.home, 1, it.number, 0, ("timer", it))

    def add(self, *event):
        *key, what = event
        self.count += 1
        heapq.heappush(self.agenda, (tuple(key), self.count, what))

    def step(self):
        self.left -= 1
        if self.left < 0:
            raise Stop("steps")

    # -- Reading and showing values

    def source(self, above, port, reader_home):
        """Returns the value that connections see at a port of a network."""
        name, variable = port
        if name is None:
            return above.values[variable]
        block = above.parts[name]
        if block.home != reader_home:
            return self.held.get((reader_home, block.number, variable), block.type.var_out[variable][1])
        return block.published[variable]

    def sample(self, block, carried):
        for it in carried:
            start = block.above.network.data.get((block.name, it))
            block.values[it] = block.slots[it] if start is None else self.source(block.above, start, block.home)

    def line(self, block, sign, event, values):
        shown = "".join(f" {name}={str(value).upper()}" for name, value in values.items())
        self.lines.append(f"{self.key}{self.tick} {self.resources[block.home][0]} {sign} {block.path}.{event}{shown}\n")

    # -- Events

    def local(self, home, what):
        self.locals += 1
        self.add(self.tick, home, 3, self.locals - 1, 0, what)

    def send(self, start, block, event, values):
        link = self.links[start.home, block.home]
        latency = [it for since, it in link.table if since <= self.tick][-1]
        carried = {(start.number, name): value for name, value in values.items()}
        self.add(self.tick + latency, block.home, 2, link.number, link.sent, ("message", block, event, carried))
        link.sent += 1

    def emit(self, block, event):
        names = [it for it in block.type.var_out if it in block.type.outs[event]]
        values = {it: block.values[it] for it in names}
        block.published |= values
        self.line(block, "<", event, values)
        for start, (name, port) in block.above.network.events:
            if start != (block.name, event):
                continue
            if name is None:
                self.local(block.home, ("outwards", block.above, port))
            elif block.above.parts[name].home == block.home:
                self.local(block.home, ("inwards", block.above.parts[name], port))
            else:
                self.send(block, block.above.parts[name], port, values)

    def arrive(self, block, event):
        names = [it for it in block.type.var_in if it in block.type.ins[event]]
        self.sample(block, names)
        self.line(block, ">", event, {it: block.values[it] for it in names})
        if block.network:
            for start, (name, port) in block.network.events:
                if start == (None, event):
                    self.local(block.home, ("outwards", block, port) if name is None else ("inwards", block.parts[name], port))
        elif block.type.chart:
            self.run_chart(block, event)
        else:
            self.run_block(block, event)

    def run_block(self, block, event):
        before = block.timer
        found = react(block, event)
        if block.timer not in (None, before):
            self.add(block.timer, block.home, 1, block.number, 0, ("timer", block))
        for it in found:
            self.emit(block, it)

    def leave(self, block, event):
        """An event from inside goes out of a composite."""
        for it in block.type.outs[event]:
            start = block.network.data.get((None, it))
            if start is not None:
                block.values[it] = self.source(block, start, block.home)
        self.emit(block, event)

    def clears(self, block, transition, present):
        start, _, event, guard = transition
        if start != block.state:
            return False
        self.step()
        if event is not None and event != present:
            return False
        return guard is None or value_of(guard, block.values)

    def run_chart(self, block, present):
        chart = block.type.chart
        while True:
            found = next((it for it in chart.transitions if self.clears(block, it, present)), None)
            if found is None:
                return
            present, block.state = "", found[1]
            for number, _ in enumerate(chart.states[block.state]):
                self.perform(block, number)

    def perform(self, block, number):
        """Performs the action of this number, from 0 on, of the state that a chart has entered."""
        algorithm, event = block.type.chart.states[block.state][number]
        self.step()
        if algorithm:
            self.run_algorithm(block, block.type.chart.algorithms[algorithm])
        if event:
            self.emit(block, event)

    def run_algorithm(self, block, body):
        try:
            Body(block).run(body)
        except Leave:
            pass

    def take(self, what):
        kind, block, *rest = what
        self.step()
        if kind == "stimulus":
            event, values = rest
            block.slots |= values
            self.arrive(block, event)
        elif kind == "timer":
            block.timer = None
            self.run_block(block, None)
        elif kind == "message":
            event, carried = rest
            for (number, name), value in carried.items():
                self.held[block.home, number, name] = value
            self.arrive(block, event)
        elif kind == "inwards":
            self.arrive(block, *rest)
        else:
            self.leave(block, *rest)

    def run(self, horizon, form=1):
        """Returns the trace in this form."""
        while self.agenda and self.agenda[0][0][0] < horizon:
            key, _, what = heapq.heappop(self.agenda)
            if what[0] == "timer" and what[1].timer != key[0]:
                continue
            self.tick, home = key[:2]
            self.key = "{} {} {} ".format(*key[2:]) if form == 2 else ""
            self.left, self.locals = self.meters.get((home, self.tick), (self.steps, 0))
            try:
                self.take(what)
            except Stop as it:
                return "".join(self.lines) + f"stop {self.tick} {self.resources[home][0]} {it.args[0]}\n"
            self.meters = {**{at: kept for at, kept in self.meters.items() if at[1] == self.tick}, (home, self.tick): (self.left, self.locals)}
        return "".join(self.lines) + f"end {horizon}\n"


# ---- Examples


def content(path):
    with open(path, encoding="utf-8-sig") as it:
        return it.read()


def value_in(word):
    return word.upper() == "TRUE" if word.upper() in ("TRUE", "FALSE") else int(word)


def stimuli_in(text):
    rows = list(csv.reader(text.splitlines()))[1:]
    return [(int(tick), event, {it.split("=")[0].upper(): value_in(it.split("=")[1]) for it in values.split()}) for tick, event, values in rows]


def trace_of(folder):
    """Returns the trace of the call that a folder's `args` has."""
    command, declaration, *words = content(f"{folder}/args").splitlines()
    options = dict(zip(words[::2], words[1::2]))
    if command != "run" or not {"--horizon"} <= options.keys() <= {"--horizon", "--deploy", "--stim", "--steps"}:
        raise ValueError(f"{folder}: another call")
    deployment = tomllib.loads(content(f"{folder}/{options['--deploy']}")) if "--deploy" in options else None
    stimuli = stimuli_in(content(f"{folder}/{options['--stim']}")) if "--stim" in options else ()
    system = System(content(f"{folder}/{declaration}"), deployment, stimuli, int(options.get("--steps", STEPS)))
    return system.run(int(options["--horizon"]))


def main(words):
    """Compares the traces and returns the status."""
    if words[:1] == ["--print"]:
        print(trace_of(words[1]), end="")
        return 0
    folders = words or sorted({os.path.dirname(it) for it in glob.glob(f"{TOP}/examples/**/args", recursive=True)})
    others = [it for it in folders if trace_of(it) != content(f"{it}/trace")]
    for it in others:
        print(f"{it}: tools/interpreter.py has another trace", file=sys.stderr)
    print(f"interpreter: {len(folders) - len(others)} of {len(folders)} examples have the trace of the second simulator")
    return int(bool(others))


if __name__ == "__main__":
    sys.exit(main(sys.argv[1:]))
