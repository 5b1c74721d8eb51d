#!/usr/bin/env python3
"""tools/stops.py [PROGRAM [FIRST LAST]]: where `run --why` says that random systems stop, beside an interpreter of its own.

The second simulator of tools/interpreter.py runs the random systems of tools/drawn_types.py, with more conditions and loops in their
algorithms and with line ends, tabs and comments among their tokens. It notes the place of each stop as docs/formats/program.md says:
the block, the state, the transition or the action, the statement, the operation that has no value or that is assigned, the values, and
how the steps of the tick were used. What the program writes to standard error must be the same to the byte.

./gate makes these runs each time it has run the program. FIRST and LAST choose other seeds than those of the gate."""

import random
import re
import sys
import tomllib
from collections import Counter

import drawn_types
import interpreter
from cases import shown
from kit import TOP
from program import Room, side_by_side
from source_lines import with_source

PROGRAM = f"{TOP}/crates/fbsim/out/fbsim"
SEEDS = (100, 500)
SHOWN = 5
MOST_WRITTEN = 100
MOST_BLOCKS = 3
# The least number of stops, and kinds of them: the reason, and the statement with the part of it, or the part of the chart.
LEAST_STOPS = 150
KINDS = {
    "divide": ("assign", "if", "elsif", "case", "for", "while", "until", "transition"),
    "range": ("assign", "assign value", "for value", "if", "elsif", "until", "transition"),
    "steps": ("event", "transition", "action", "assign", "for", "while", "repeat"),
}
LOOPS = ("for", "while", "repeat")
MOST = 2**127 - 1
# What is between two tokens in place of a blank.
GAPS = (" ",) * 12 + ("\n", "\n\t", "\r\n  ", "  ", "\t", " (* 1 / 0; ELSIF *) ", " // END_IF; UNTIL\r\n")


# ---- Where the second simulator stops


def fault_in(tree, values):
    """Returns the operation of an expression that has no value while its operands have values, or None."""
    if not isinstance(tree, tuple):
        return None
    for part in tree[1:]:
        if found := fault_in(part, values):
            return found
    try:
        interpreter.value_of(tree, values)
    except interpreter.Stop:
        return tree
    return None


class Body(interpreter.Body):
    """Runs statements. `around` has the statement that runs and those around it, each as its list and its number there; `begun` has the
    one that begins. `operation` is the one that has no value, `unfit` the name and the value that its type does not hold."""

    def __init__(self, block):
        super().__init__(block)
        self.around, self.begun, self.operation, self.unfit = [], None, None, None

    def assign(self, name, value):
        self.unfit = name, value
        super().assign(name, value)
        self.unfit = None

    def run(self, body):
        for number, it in enumerate(body):
            self.begun = body, number
            self.step()
            self.around.append(self.begun)
            getattr(self, f"do_{it[0]}")(*it[1:])
            self.around.pop()

    def turn(self, body):
        depth = len(self.around)
        goes_on = super().turn(body)
        del self.around[depth:]
        return goes_on

    def value(self, tree):
        try:
            return super().value(tree)
        except interpreter.Stop:
            self.operation = fault_in(tree, self.values)
            raise

    def blamed(self, reason):
        """Returns the statement to blame: where the steps ran out the innermost loop, if there is one."""
        if reason != "steps":
            return self.around[-1]
        return next((it for it in reversed(self.around) if it[0][it[1]][0] in LOOPS), self.begun)


class System(interpreter.System):
    """The simulation. It notes the block whose event is taken, the transition that is tried or the action that is performed, and the
    steps of each block in each tick."""

    def __init__(self, text, *given):
        super().__init__(text, *given)
        self.text, self.used, self.ended = text, Counter(), None

    def take(self, what):
        self.block, self.transition, self.action, self.body = what[1], None, None, None
        before = self.left
        try:
            super().take(what)
        except interpreter.Stop as it:
            self.ended = it.args[0]
            raise
        finally:
            self.used[self.tick, self.block.home, self.block.number] += before - max(self.left, 0)

    def clears(self, block, transition, present):
        self.transition, self.action = transition, None
        return super().clears(block, transition, present)

    def perform(self, block, number):
        self.transition, self.action, self.body = None, number, None
        super().perform(block, number)

    def run_algorithm(self, block, body):
        self.body = Body(block)
        try:
            self.body.run(body)
        except interpreter.Leave:
            pass

    # -- What is said of a stop

    def site(self):
        """Returns the words of the place in the chart, the token that is shown, and the operation, or None for each."""
        block, places, chart = self.block, self.reader.places, self.block.type.chart
        if self.transition:
            leaving = [it for it in chart.transitions if it[0] == block.state]
            number = next(at for at, it in enumerate(leaving, 1) if it is self.transition)
            operation = fault_in(self.transition[3], block.values) if self.ended != "steps" else None
            return f", state {block.state}, transition {number} to {self.transition[1]}", places[id(self.transition)][0], operation
        if self.action is None:
            return ", before its event", None, None
        actions = chart.states[block.state]
        algorithm = actions[self.action][0]
        words = f", state {block.state}, action {self.action + 1}" + (f", algorithm {algorithm}" if algorithm else "")
        if self.body:
            body, number = self.body.blamed(self.ended)
            return words, places[id(body)][number], self.body.operation
        # (an action that has no algorithm begins with an arrow)
        token = self.reader.headings[id(chart.algorithms[algorithm])] if algorithm else places[id(actions)][self.action] + 1
        return words, token, None

    def token(self, at):
        begin, end = self.reader.spans[at]
        return self.text[begin:end]

    def written(self, first, end):
        """Returns tokens as they are shown."""
        text = self.text[self.reader.spans[first][0] : self.reader.spans[end - 1][1]]
        front = re.sub(r"\s+", " ", text[:MOST_WRITTEN]).rstrip()
        return front + " .." * (len(text) > MOST_WRITTEN)

    def closing(self, first):
        """Returns the token that closes the parenthesis at a token."""
        depth = 0
        while True:
            depth += {"(": 1, ")": -1}.get(self.token(first), 0)
            if not depth:
                return first
            first += 1

    def parts(self, operation):
        """Returns the operands of an operation with the tokens of each, the first and the one past the last."""
        first, operator, end = self.reader.places[id(operation)]
        if operator > first:
            ranges = [(first, operator), (operator + 1, end)]
        elif operation[0].endswith("()"):
            ranges, begin = [], operator + 2
            while begin < end:
                at = begin
                while self.token(at) not in (",", ")"):
                    at = (self.closing(at) if self.token(at) == "(" else at) + 1
                ranges.append((begin, at))
                begin = at + 1
        else:
            ranges = [(operator + 1, end)]
        return [*zip(operation[1:], ranges, strict=True)]

    def operands(self, operation):
        """Returns what is said of the operands: of a division the first one."""
        said, last = [], None
        for tree, (first, end) in self.parts(operation)[: 1 if self.ended == "divide" else None]:
            if self.token(first) == "(" and self.closing(first) == end - 1:
                first, end = first + 1, end - 1
            text = self.text[self.reader.spans[first][0] : self.reader.spans[end - 1][1]]
            if text != last and not re.fullmatch("[0-9_-]*", text):
                value = interpreter.value_of(tree, self.block.values)
                said.append(f"{self.written(first, end)} is {str(value).upper()}")
                last = text
        return f" ({', '.join(said)})" * bool(said)

    def assigned(self, token, tree):
        """Returns what is assigned as it is shown, and its operands. The statement begins at this token."""
        if isinstance(tree, tuple):
            first, _, end = self.reader.places[id(tree)]
            return f": {self.written(first, end)}", self.operands(tree)
        first = token + 2
        while self.token(first) == "(":
            first += 1
        return f": {self.written(first, first + 1)}", ""

    def values(self, token, operation):
        """Returns what is said before the reason, where an operation is at fault or a value is assigned, and what is said after it."""
        if operation:
            first, _, end = self.reader.places[id(operation)]
            beyond = ": the result is not within -2^127 to 2^127-1" if self.ended == "range" else ""
            return f": {self.written(first, end)}", beyond + self.operands(operation)
        if self.ended != "range":
            return "", ""
        name, value = self.body.unfit
        low, past = interpreter.ends_of(self.body.kinds[name])
        body, number = self.body.blamed(self.ended)
        word, *rest = body[number]
        written, operands = self.assigned(token, rest[1]) if word == "assign" else ("", "")
        return written, f": {value} is not within {low} to {past - 1}{operands}"

    def note(self, steps):
        """Returns what is said of the stop."""
        block, (words, token, operation) = self.block, self.site()
        name = next((name for name, it in self.types.items() if it is block.type), None)
        words = f"stop: {block.path}" + (f" (type {name})" if name else "") + words
        before, after = self.values(token, operation)
        shown_at = self.reader.places[id(operation)][1] if operation else token
        at = self.reader.spans[shown_at][0] if shown_at is not None else None
        words += before
        if at is not None:
            line, column = self.text.count("\n", 0, at) + 1, at - self.text.rfind("\n", 0, at)
            words = f"-:{line}:{column}: {words}"
        return f"{words}: {self.ended}{after}\n" + (self.spent(steps) if self.ended == "steps" else "")

    def spent(self, steps):
        """Returns the lines that say how the steps of the tick were used."""
        here = self.tick, self.block.home
        rows = sorted((-used, number) for (*place, number), used in self.used.items() if (*place,) == here and used)
        return "".join(f"tick {self.tick}: {-used} of {steps} steps by {self.blocks[number].path}\n" for used, number in rows[:MOST_BLOCKS])

    def kind(self):
        """Returns the kind of the stop, as in KINDS."""
        if self.transition:
            return self.ended, "transition"
        if not self.body:
            return self.ended, "event" if self.action is None else "action"
        body, number = self.body.blamed(self.ended)
        word, *parts = body[number]
        operation = self.body.operation
        if not operation:
            return self.ended, word if self.ended == "steps" else f"{word} value"
        if word == "if":
            first, _ = parts[0][0]
            word = "if" if fault_in(first, self.block.values) is operation else "elsif"
        return self.ended, "until" if word == "repeat" else word


# ---- Random systems


class Writer(drawn_types.Writer):
    """Makes systems with more conditions and loops in their algorithms, more divisors, and numbers that do not fit 128 bits."""

    def number(self, depth):
        if depth and self.lot.random() < 0.08:
            return f"({MOST} {self.one('+', '*')} {super().number(depth - 1)})"
        return super().number(depth)

    def ratio(self):
        return f"{self.number(1)} / {self.number(0)} {self.one('<', '>', '=')} {self.number(0)}"

    def truth(self, depth):
        return f"({self.ratio()})" if depth and self.lot.random() < 0.1 else super().truth(depth)

    def test(self):
        return self.ratio() if self.lot.random() < 0.35 else self.truth(2)

    def statement(self, depth, in_loop):
        if depth == 0 or self.lot.random() < 0.6:
            return super().statement(depth, in_loop)
        match self.one("IF", "IF", "REPEAT", "REPEAT", "WHILE", "FOR", "CASE"):
            case "IF":
                elsifs = " ".join(self.some(lambda: f"ELSIF {self.test()} THEN {self.inside(depth, in_loop)}", 3))
                return f"IF {self.one('B', 'C', 'NOT K', self.test())} THEN {self.inside(depth, in_loop)} {elsifs} {self.otherwise(depth, in_loop)} END_IF;"
            case "REPEAT":
                return f"REPEAT {self.inside(depth, True)} UNTIL {self.test()} END_REPEAT;"
            case "WHILE":
                return f"WHILE {self.test()} DO {self.inside(depth, True)} END_WHILE;"
            case "FOR":
                # (the fifth value of Z is too great)
                return f"FOR Z := {self.number(0)} TO 40000 BY 9999 DO {self.inside(depth, True)} END_FOR;"
        bodies = [self.inside(depth, in_loop) for _ in range(3)]
        return "CASE {} OF 0, 3: {} -7..-2: {} ELSE {} END_CASE;".format(self.number(2), *bodies)

    def inside(self, depth, in_loop):
        return self.one("", self.body(depth - 1, in_loop))


def spread(text, lot):
    """Returns a text with other gaps between its tokens."""
    return re.sub(" ", lambda _: lot.choice(GAPS), text)


def late_note(stimuli, horizon):
    """Returns the line of --why on the rows of stimuli that the run does not take, or nothing."""
    ticks = [int(row.split(",")[0]) for row in stimuli.splitlines()[1:]]
    late = sum(tick >= horizon for tick in ticks)
    return f"stimuli: rows at or beyond the horizon {horizon}: {late} of {len(ticks)}; the run does not take them\n" if late else ""


def fault_of(room, seed):
    """Returns the kind of the stop of the system of a seed, or None if it does not stop, and what is wrong with what is said of it, or
    None."""
    declaration, deployment, stimuli, horizon, steps = Writer(seed).system()
    declaration = spread(declaration, random.Random(seed))
    system = System(declaration, tomllib.loads(deployment), interpreter.stimuli_in(stimuli), steps)
    trace = system.run(horizon)
    note = system.note(steps) if system.ended else ""
    for ending, text in (("deploy", deployment), ("stimuli", stimuli)):
        with open(f"{room.folder}/{seed}.{ending}", "w", encoding="utf-8") as it:
            it.write(text)
    numbers = ["--horizon", str(horizon), "--steps", str(steps)]
    ran = room.call(["run", "-", "--why", "--deploy", f"{seed}.deploy", "--stim", f"{seed}.stimuli", *numbers], declaration.encode())
    came = ran.returncode, ran.stdout, ran.stderr
    located = with_source(note.encode(), {b"-": declaration.encode()})
    expected = int(bool(note)), trace.encode(), late_note(stimuli, horizon).encode() + located
    fault = None if came == expected else f"seed {seed}: expected {shown(*expected)}; got {shown(*came)}"
    return system.kind() if note else None, fault


def try_all(program, first=SEEDS[0], last=SEEDS[1]):
    """Returns whether each stop is said as it is to be, and there are stops of all kinds."""
    with Room(program) as room:
        came = side_by_side(lambda seed: fault_of(room, seed), range(int(first), int(last)))
    faults = [it for _, it in came if it]
    kinds = Counter(kind for kind, _ in came if kind)
    missing = [f"{reason} ({part})" for reason, parts in KINDS.items() for part in parts if not kinds[reason, part]]
    faults += [f"no stop is a {it}" for it in missing]
    print("\n".join(faults[:SHOWN]), end="\n" * bool(faults))
    reasons = {it: sum(many for (reason, _), many in kinds.items() if reason == it) for it in interpreter.REASONS}
    print(f"located stops: {len(came)} systems, by their reasons {reasons}, of {len(kinds)} kinds; {len(faults)} faults", flush=True)
    return not faults and sum(kinds.values()) >= LEAST_STOPS


if __name__ == "__main__":
    sys.exit(not try_all(*sys.argv[1:] or [PROGRAM]))
