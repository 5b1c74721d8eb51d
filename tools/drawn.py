#!/usr/bin/env python3
"""tools/drawn.py [PROGRAM]: runs the built program on random systems.

A seed determines a system: two to five resources, instances in them, connections and links (some carry nothing), latencies with
which a message may overtake another, stimuli of which several come at one tick, and the horizon. Some of the systems stop, because
of their steps, a range or a divisor; others reach their horizon. With --serial and with any number of workers the program must write
the trace that the second simulator, tools/interpreter.py, works out.

./gate makes these runs each time it has run the program. Without ./gate they use the program that ./simulate built."""

import sys
import tomllib
from typing import NamedTuple

import interpreter
from cases import WAYS, shown
from kit import TOP
from program import Room, side_by_side

PROGRAM = "fbsim"
SHOWN = 10

# Each of these seeds gives ten systems: by itself, and by the numbers after it.
SEEDS = (*range(0, 100, 10), 1_000, 2_000, 3_000, 4_000, 5_000, 60_000, 70_000, 80_000, 90_000, 100_000)

# `LOOPER` never ends once it has begun, so it stops by its steps. `PUMP` stops by its range at the third event, and gives its count
# to `TALLY`, which divides by it and so stops at once if it is 0.
TYPES = """FUNCTION_BLOCK LOOPER
EVENT_INPUT GO; END_EVENT
EVENT_OUTPUT TICKED; END_EVENT
EC_STATES IDLE; BUSY : -> TICKED; END_STATES
EC_TRANSITIONS IDLE TO BUSY := GO; BUSY TO BUSY := 1; END_TRANSITIONS
END_FUNCTION_BLOCK
FUNCTION_BLOCK PUMP
EVENT_INPUT GO; END_EVENT
EVENT_OUTPUT DONE WITH X; END_EVENT
VAR_OUTPUT X : SINT; END_VAR
EC_STATES IDLE; RUN : A -> DONE; END_STATES
EC_TRANSITIONS IDLE TO RUN := GO; RUN TO IDLE := 1; END_TRANSITIONS
ALGORITHM A IN ST: X := X + 50; END_ALGORITHM
END_FUNCTION_BLOCK
FUNCTION_BLOCK TALLY
EVENT_INPUT GO WITH X; END_EVENT
EVENT_OUTPUT DONE WITH Y; END_EVENT
VAR_INPUT X : SINT; END_VAR
VAR_OUTPUT Y : INT; END_VAR
EC_STATES IDLE; RUN : A -> DONE; END_STATES
EC_TRANSITIONS IDLE TO RUN := GO; RUN TO IDLE := 1; END_TRANSITIONS
ALGORITHM A IN ST: Y := Y + 100 / X; END_ALGORITHM
END_FUNCTION_BLOCK
"""


class Kind(NamedTuple):
    """The type of an instance, with its parameters, and the events of the type."""

    type: str
    inputs: tuple
    outputs: tuple


# The first instances of each system, two by two. `E_SR` leads to `E_SWITCH`, and `PUMP` to `TALLY`, with a value each.
FIRST = (
    (Kind("E_SR", ("S", "R"), ()), Kind("E_SWITCH", ("EI",), ("EO0", "EO1"))),
    (Kind("PUMP", ("GO",), ()), Kind("TALLY", ("GO",), ("DONE",))),
)
# The kinds of the other instances.
OTHERS = (
    Kind("E_RESTART", (), ("COLD",)),
    Kind("E_MERGE", ("EI1", "EI2"), ("EO",)),
    Kind("E_MERGE", ("EI1", "EI2"), ("EO",)),
    Kind("E_SPLIT", ("EI",), ("EO1", "EO2")),
    Kind("E_DELAY(DT := T#3ms)", ("START", "STOP"), ("EO",)),
    Kind("E_CYCLE(DT := T#6ms)", ("START", "STOP"), ("EO",)),
    Kind("E_REND", ("EI1", "EI2", "R"), ("EO",)),
    Kind("E_CTU(PV := 2)", ("CU", "R"), ("CUO", "RO")),
    Kind("E_SPLIT", ("EI",), ("EO1", "EO2")),
    Kind("LOOPER", ("GO",), ("TICKED",)),
)
# The latencies of links. With a table a message may overtake one that was sent before it, and two may arrive at one tick.
LATENCIES = (
    "latency = 1",
    "latency = 2",
    "latency = 5",
    "latency = 40",
    "latencies = [[0, 5], [10, 1]]",
    "latencies = [[0, 1], [7, 8], [20, 2]]",
    "latencies = [[0, 9], [3, 1], [6, 9], [9, 1], [12, 30]]",
)
# The ticks at which stimuli may come: few, so that several come at one tick.
TICKS = (0, 1, 3, 6, 7, 12, 18, 30)
# The horizons, and the limits on the steps of one tick.
HORIZONS = (1, 13, 40, 64)
STEPS = (4, 12, 60)


class Dice:
    """Gives one number after another, the same ones for the same seed."""

    def __init__(self, seed):
        self.state = seed

    def below(self, count):
        self.state = (self.state * 6_364_136_223_846_793_005 + 1_442_695_040_888_963_407) % 2**64
        return (self.state >> 33) % count if count else 0

    def one_of(self, all_of_them):
        """One of these, or None if there is none."""
        number = self.below(len(all_of_them))
        return all_of_them[number] if all_of_them else None


class Sketch:
    """A random system: the number of resources, the instances, each as its kind and the number of its resource, and the links, each
    as the numbers of two resources. The name of an instance is `I` with its number."""

    def __init__(self, dice):
        self.dice, self.resources = dice, dice.below(4) + 2
        self.parts, self.links = [], []
        for first, second in FIRST:
            homes = dice.below(self.resources), dice.below(self.resources)
            self.parts += [(first, homes[0]), (second, homes[1])]
            if homes[0] != homes[1] and homes not in self.links:
                self.links.append(homes)
        # (one instance in each resource, and then some more)
        for place in range(self.resources + dice.below(7)):
            home = place if place < self.resources else dice.below(self.resources)
            self.parts.append((dice.one_of(OTHERS), home))
        for way in ((a, b) for a in range(self.resources) for b in range(self.resources) if a != b):
            if dice.below(100) < 40 and way not in self.links:
                self.links.append(way)

    def connection(self, number, home, output):
        """An event connection to a random input, if a link leads there, else nothing."""
        to = self.dice.below(len(self.parts))
        kind, other = self.parts[to]
        event = self.dice.one_of(kind.inputs)
        leads = event and (home == other or (home, other) in self.links)
        return f" I{number}.{output} TO I{to}.{event};" if leads else ""

    def declaration(self):
        instances = "".join(f" I{number} : {kind.type};" for number, (kind, _) in enumerate(self.parts))
        outputs = ((number, home, it) for number, (kind, home) in enumerate(self.parts) for it in kind.outputs)
        events = "".join(self.connection(*it) for it in outputs)
        events = f"EVENT_CONNECTIONS I0.EO TO I1.EI; I2.DONE TO I3.GO;{events} END_CONNECTIONS"
        data = "DATA_CONNECTIONS I0.Q TO I1.G; I2.X TO I3.X; END_CONNECTIONS"
        return f"{TYPES}APPLICATION A FBS{instances} END_FBS\n{events}\n{data}\nEND_APPLICATION\n"

    def deployment(self):
        text = ""
        for home in range(self.resources):
            held = "".join(f"'I{number}', " for number, (_, other) in enumerate(self.parts) if other == home)
            text += f"[[resource]]\ndevice = 'D'\nname = 'R{home}'\ninstances = [{held}]\n"
        for sender, receiver in self.links:
            text += f"[[link]]\nfrom = 'R{sender}'\nto = 'R{receiver}'\n{self.dice.one_of(LATENCIES)}\n"
        return text

    def stimuli(self):
        text = "tick,event,values\n"
        for _ in range(self.dice.below(12) + 2):
            to = self.dice.below(len(self.parts))
            event = self.dice.one_of(self.parts[to][0].inputs)
            if event:
                text += f"{self.dice.one_of(TICKS)},I{to}.{event},\n"
        return text


def run_of(room, seed, ways):
    """Returns the expected result of the system of a seed, and its result in each of these ways: the status, standard output and
    standard error."""
    sketch = Sketch(Dice(seed))
    declaration, deployment, stimuli = sketch.declaration(), sketch.deployment(), sketch.stimuli()
    horizon, steps = sketch.dice.one_of(HORIZONS), sketch.dice.one_of(STEPS)
    system = interpreter.System(declaration, tomllib.loads(deployment), interpreter.stimuli_in(stimuli), steps)
    trace = system.run(horizon, form=2).encode()
    expected = int(trace.splitlines()[-1].startswith(b"stop")), trace, b""
    numbers = ["--horizon", str(horizon), "--steps", str(steps), "--trace", "2"]
    for ending, text in (("deploy", deployment), ("stimuli", stimuli)):
        with open(f"{room.folder}/{seed}.{ending}", "w", encoding="utf-8") as it:
            it.write(text)
    words = ["run", "-", "--deploy", f"{seed}.deploy", "--stim", f"{seed}.stimuli", *numbers]
    came = [room.call([*words, *way], declaration.encode()) for way in ways]
    return expected, [(it.returncode, it.stdout, it.stderr) for it in came]


def try_all(program):
    """Returns whether each system has the expected trace, and some of them stop."""
    ways = WAYS["run"]
    seeds = [first + more for first in SEEDS for more in range(10)]
    with Room(program) as room:
        came = side_by_side(lambda seed: run_of(room, seed, ways), seeds)
    faults, stops = [], 0
    for seed, (expected, runs) in zip(seeds, came):
        stops += expected[0] == 1
        faults += [f"the system of {seed}, {' '.join(way)}: {shown(*it)}" for way, it in zip(ways, runs) if it != expected]
    print("\n".join(faults[:SHOWN]), end="\n" * bool(faults))
    print(f"random systems: {len(seeds)}, of which {stops} stop; {len(faults)} faults", flush=True)
    return not faults and 20 < stops < 180


if __name__ == "__main__":
    sys.exit(not try_all(sys.argv[1] if sys.argv[1:] else f"{TOP}/crates/{PROGRAM}/out/{PROGRAM}"))
