#!/usr/bin/env python3
"""tools/drawn_types.py [PROGRAM [FIRST LAST]]: runs the built program on random systems with random block types.

A seed gives up to three basic types, with charts, guards and algorithms of all statements, up to two composite types that contain
these and event blocks, an application of up to six instances in up to three resources, and stimuli. With --serial or three workers
the program must write the trace in form 2 that tools/interpreter.py works out. About half of the systems stop, because of their
steps, a divisor or a range.

./gate makes these runs each time it has run the program. FIRST and LAST choose other seeds than those of the gate."""

import random
import sys
import tomllib
from typing import NamedTuple

import interpreter
from cases import shown
from kit import TOP
from program import Room, side_by_side

PROGRAM = f"{TOP}/crates/fbsim/out/fbsim"
SEEDS = (0, 300)
SHOWN = 5

NUMBERS = ("SINT", "SINT", "INT", "USINT", "USINT", "UINT", "DINT", "LINT", "TIME")
LITERALS = ("0", "1", "2", "3", "5", "7", "100", "300", "70000", "16#1f", "T#3ms", "2#101")
LABELS = ("1, 4..6", "-2", "7", "-9..-1", "0..3", "5..2", "2..40")
LATENCIES = ("latency = 1", "latency = 4", "latencies = [[0, 5], [6, 1]]")
TICKS = (0, 0, 1, 3, 5, 9, 20)


class Ports(NamedTuple):
    """The ports of a type: its events with what is WITH them, and its variables with their types."""

    ins: dict
    outs: dict
    reads: dict
    gives: dict


def ports_of_block(name):
    """The ports of an event block."""
    it = interpreter.event_block(name)
    return Ports(it.ins, it.outs, *({name: kind for name, (kind, _) in table.items()} for table in (it.var_in, it.var_out)))


def fits(kind, to):
    """Whether a connection may lead from one type to another."""
    if "BOOL" in (kind, to):
        return kind == to
    (low, high), (least, most) = (interpreter.ends_of(it) for it in (kind, to))
    return least <= low and high <= most


class Writer:
    """Makes the texts of a random system. A basic type has the inputs X and B, the outputs Y and C, and the internal variables Z and K.
    X, Y and Z are numbers."""

    def __init__(self, seed):
        self.lot = random.Random(seed)
        self.types = {it: ports_of_block(it) for it in interpreter.BLOCKS}
        self.own, self.texts = [], []

    def one(self, *of):
        return self.lot.choice(of)

    def some(self, of, most):
        """The results of 1 to this many calls."""
        return [of() for _ in range(self.lot.randint(1, most))]

    # -- Expressions and statements

    def number(self, depth):
        """Makes a random expression of a number, at most this many levels deep."""
        if depth == 0 or self.lot.random() < 0.25:
            return self.one("X", "Y", "Z", self.one(*LITERALS))
        form = self.one("({0} {op} {1})", "({0} {op} {1})", "(-{0})", "ABS({0})", "MIN({0}, {1})", "MAX({0}, {1})", "LIMIT({0}, {1}, {2})", "SEL({test}, {0}, {1})")
        parts = [self.number(depth - 1) for _ in range(3)]
        return form.format(*parts, op=self.one("+", "-", "*", "/", "MOD"), test=self.truth(depth - 1))

    def truth(self, depth):
        """The same for a truth value."""
        if depth == 0 or self.lot.random() < 0.25:
            return self.one("B", "C", "K", "TRUE", "FALSE")
        if self.lot.random() < 0.5:
            return f"({self.number(depth - 1)} {self.one('<', '>', '<=', '>=', '=', '<>')} {self.number(depth - 1)})"
        form = self.one("NOT {0}", "({0} {op} {1})", "({0} {op} {1})")
        return form.format(self.truth(depth - 1), self.truth(depth - 1), op=self.one("AND", "&", "OR", "XOR", "="))

    def body(self, depth, in_loop):
        """Makes random statements that nest at most this deep."""
        return " ".join(self.some(lambda: self.statement(depth, in_loop), 3))

    def statement(self, depth, in_loop):
        if depth == 0 or self.lot.random() < 0.5:
            ends = self.one("RETURN", "EXIT") if in_loop else "RETURN"
            plain = f"{self.one('C', 'K')} := {self.truth(2)};", ";", f"IF {self.truth(1)} THEN {ends}; END_IF;"
            return self.one(*[f"{it} := {self.number(2)};" for it in ("Y", "Y", "Z")], *plain)
        match self.one("IF", "IF", "IF", "CASE", "CASE", "CASE", "FOR", "FOR", "WHILE", "REPEAT"):
            case "IF":
                branches = "".join(f" {word} {self.truth(2)} THEN {self.body(depth - 1, in_loop)}" for word in ("IF", "ELSIF")[: self.one(1, 2)])
                return f"{branches} {self.otherwise(depth, in_loop)} END_IF;"
            case "CASE":
                branches = " ".join(self.some(lambda: f"{self.one(*LABELS)}: {self.body(depth - 1, in_loop)}", 3))
                return f"CASE {self.number(2)} OF {branches} {self.otherwise(depth, in_loop)} END_CASE;"
            case "FOR":
                by = self.one("", "BY 2", "BY -1", f"BY {self.number(1)}")
                return f"FOR Z := {self.number(1)} TO {self.number(1)} {by} DO {self.body(depth - 1, True)} END_FOR;"
            case "WHILE":
                return f"WHILE {self.truth(2)} DO {self.body(depth - 1, True)} END_WHILE;"
        return f"REPEAT {self.body(depth - 1, True)} UNTIL {self.truth(2)} END_REPEAT;"

    def otherwise(self, depth, in_loop):
        return self.one("", f"ELSE {self.body(depth - 1, in_loop)}")

    # -- Types

    def value(self, kind):
        if kind == "BOOL":
            return self.one("TRUE", "FALSE")
        return self.one("0", "3", "9", "9" if kind in interpreter.UNSIGNED else "-7")

    def ports(self):
        """Makes random ports of a type, and returns them with their text."""
        reads, gives = {"X": self.one(*NUMBERS), "B": "BOOL"}, {"Y": self.one(*NUMBERS), "C": "BOOL"}
        text, events = "", []
        for letter, head, names in (("I", "EVENT_INPUT", reads), ("O", "EVENT_OUTPUT", gives)):
            carried = {f"{letter}{at}": self.lot.sample([*names], self.one(0, 1, 2, 2)) for at in range(self.lot.randint(1, 3))}
            rows = [f"{name} WITH {', '.join(them)};" if them else f"{name};" for name, them in carried.items()]
            text += f"{head} {' '.join(rows)} END_EVENT\n"
            events.append(carried)
        for head, names in (("VAR_INPUT", reads), ("VAR_OUTPUT", gives)):
            rows = [f"{name} : {kind}{self.one('', f' := {self.value(kind)}')};" for name, kind in names.items()]
            text += f"{head} {' '.join(rows)} END_VAR\n"
        return Ports(*events, reads, gives), text

    def add(self, name, ports, text):
        self.types[name] = ports
        self.own.append(name)
        self.texts.append(f"FUNCTION_BLOCK {name}\n{text}END_FUNCTION_BLOCK\n")

    def basic(self, name):
        ports, text = self.ports()
        algorithms = [f"A{at}" for at in range(self.lot.randint(1, 3))]
        states = [f"S{at}" for at in range(self.lot.randint(1, 3))]

        def action():
            algorithm, event = self.one(*algorithms), self.one(*ports.outs)
            return self.one(algorithm, f"-> {event}", f"{algorithm} -> {event}")

        def transition():
            event, guard = self.one(*ports.ins), f"[{self.truth(2)}]"
            # (a condition without an event often goes round for ever)
            return f"{self.one(*states)} TO {self.one(*states)} := {self.one(*[event] * 6, *[event + guard] * 3, guard, '1')};"

        text += "VAR Z : INT; K : BOOL; END_VAR\n"
        actions = [self.one("", *[f" : {', '.join(self.some(action, 3))}" for _ in range(5)]) for _ in states]
        text += f"EC_STATES {' '.join(f'{it}{them};' for it, them in zip(states, actions))} END_STATES\n"
        text += f"EC_TRANSITIONS {' '.join(self.some(transition, 3 * len(states)))} END_TRANSITIONS\n"
        self.add(name, ports, text + "".join(f"ALGORITHM {it} IN ST: {self.body(2, False)} END_ALGORITHM\n" for it in algorithms))

    def composite(self, name):
        ports, text = self.ports()
        parts, inside = self.parts(3), Ports(ports.outs, ports.ins, ports.gives, ports.reads)
        self.add(name, ports, text + self.network(parts, {None: inside, **{it: self.types[kind] for it, kind in parts.items()}}))

    # -- Networks

    def parts(self, most):
        """Makes random instances, each with its type. Most are of the system's own types."""
        return {f"N{at}": self.one(*self.own * 9, *interpreter.BLOCKS) for at in range(self.lot.randint(1, most))}

    def parameters(self, kind):
        rows = [f"{name} := {self.value(of)}" for name, of in self.types[kind].reads.items() if self.lot.random() < 0.4]
        return f"({', '.join(rows)})" if rows else ""

    def network(self, parts, ports, homes=None):
        """Makes random connections and returns the text of a network. The boundary of a composite is called None, and its ports change
        their direction. Instances are in these resources."""
        text = f"FBS {' '.join(f'{it} : {kind}{self.parameters(kind)};' for it, kind in parts.items())} END_FBS\n"
        ends = [(it, event) for it, them in ports.items() for event in them.ins]
        events = {(start, self.one(*ends)) for start in [(it, event) for it, them in ports.items() for event in them.outs] for _ in range(self.one(0, 1, 1, 1, 2)) if ends}
        events = sorted(events, key=str)
        self.lot.shuffle(events)
        self.fed = {}
        for end, kind in [((it, name), kind) for it, them in ports.items() for name, kind in them.reads.items()]:
            starts = [(it, name) for it, them in ports.items() for name, of in them.gives.items() if fits(of, kind)]
            starts = [it for it in starts if self.is_brought(ports, events, homes, it, end)]
            if starts and self.lot.random() < 0.6:
                self.fed[end] = self.one(*starts)
        for head, rows in (("EVENT_CONNECTIONS", events), ("DATA_CONNECTIONS", [(start, end) for end, start in self.fed.items()])):
            if rows:
                text += f"{head} {' '.join(f'{self.named(start)} TO {self.named(end)};' for start, end in rows)} END_CONNECTIONS\n"
        return text

    @staticmethod
    def named(port):
        return ".".join(it for it in port if it)

    @staticmethod
    def is_brought(ports, events, homes, start, end):
        """Whether both ends of a data connection are in one resource, or an event brings the value there."""
        if not homes or homes[start[0]] == homes[end[0]]:
            return True
        return any(it[0] == start[0] and start[1] in ports[it[0]].outs[it[1]] and homes[to[0]] == homes[end[0]] for it, to in events)

    def system(self):
        """Returns the declaration, the deployment, the stimuli, the horizon and the steps."""
        for at in range(self.lot.randint(1, 3)):
            self.basic(f"BASIC{at}")
        for at in range(self.lot.randint(0, 2)):
            self.composite(f"COMPOSITE{at}")
        parts, count = self.parts(6), self.lot.randint(1, 3)
        homes = {it: self.lot.randrange(count) for it in parts}
        text = self.network(parts, {it: self.types[kind] for it, kind in parts.items()}, homes)
        declaration = "".join(self.texts) + f"APPLICATION A\n{text}END_APPLICATION\n"
        held = [", ".join(f"'{it}'" for it, home in homes.items() if home == at) for at in range(count)]
        deployment = "".join(f"[[resource]]\ndevice = 'D'\nname = 'R{at}'\ninstances = [{it}]\n" for at, it in enumerate(held))
        ways = [(a, b) for a in range(count) for b in range(count) if a != b]
        deployment += "".join(f"[[link]]\nfrom = 'R{a}'\nto = 'R{b}'\n{self.one(*LATENCIES)}\n" for a, b in ways)
        return declaration, deployment, self.stimuli(parts), self.one(10, 30, 60), self.one(20, 100, 1000)

    def stimuli(self, parts):
        ports = [(it, event) for it, kind in parts.items() for event in self.types[kind].ins]
        text = "tick,event,values\n"
        for it, event in self.some(lambda: self.one(*ports), 24) if ports else ():
            of = self.types[parts[it]]
            values = [f"{name}={self.value(of.reads[name])}" for name in of.ins[event] if (it, name) not in self.fed and self.lot.random() < 0.6]
            text += f"{self.one(*TICKS)},{it}.{event},{' '.join(values)}\n"
        return text


def fault_of(room, seed):
    """Returns the reason why the system of a seed stops, or `end`, and what is wrong with its trace, or None."""
    declaration, deployment, stimuli, horizon, steps = Writer(seed).system()
    trace = interpreter.System(declaration, tomllib.loads(deployment), interpreter.stimuli_in(stimuli), steps).run(horizon, form=2)
    kind, *_, reason = trace.splitlines()[-1].split(" ")
    for ending, text in (("deploy", deployment), ("stimuli", stimuli)):
        with open(f"{room.folder}/{seed}.{ending}", "w", encoding="utf-8") as it:
            it.write(text)
    words = ["run", "-", "--deploy", f"{seed}.deploy", "--stim", f"{seed}.stimuli", "--horizon", str(horizon), "--steps", str(steps), "--trace", "2"]
    ran = room.call([*words, *(["--workers", "3"] if seed % 2 else ["--serial"])], declaration.encode())
    came = ran.returncode, ran.stdout, ran.stderr
    is_well = came == (int(kind == "stop"), trace.encode(), b"")
    return reason if kind == "stop" else kind, None if is_well else f"the system of {seed}: {shown(*came)}, and not {trace[-200:]!r}"


def try_all(program, first=SEEDS[0], last=SEEDS[1]):
    """Returns whether each system has the expected trace, and there are ends of all kinds."""
    with Room(program) as room:
        came = side_by_side(lambda seed: fault_of(room, seed), range(int(first), int(last)))
    faults = [it for _, it in came if it]
    ends = {it: sum(end == it for end, _ in came) for it in ("end", *interpreter.REASONS)}
    print("\n".join(faults[:SHOWN]), end="\n" * bool(faults))
    print(f"random types: {len(came)} systems, by their ends {ends}; {len(faults)} faults", flush=True)
    return not faults and all(ends.values())


if __name__ == "__main__":
    sys.exit(not try_all(*sys.argv[1:] or [PROGRAM]))
