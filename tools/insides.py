#!/usr/bin/env python3
"""tools/insides.py [PROGRAM]: what `inspect` writes between the lines of traces and what `coverage` reports, beside an interpreter of its own.

The second simulator of tools/interpreter.py runs each example and each random system of tools/drawn.py once more, and notes what each
block does as docs/formats/trace.md says: transitions, algorithms with what they change, lost events, and what event blocks remember. The
program is given the trace alone. Both texts are to be the same, and without the lines that begin with two spaces they are the trace.
Of traces in which one emission was changed or left out, the program is to refuse the first line that shows it. Of traces that stop
where a resource has used up its steps, with a limit that was passed before, it is to refuse the stop, and to say after which event the
limit was passed. Of traces that are cut off, with `--cut`, the text is to be the same up to the last event, and then the lines that are
there. What is written before a refusal, by `wave` too, is to be a beginning of what is written of any trace that begins with the lines
before the refused one: also of one that stops for its steps, in the last of the events before it or later."""

import glob
import os
import re
import sys
import tomllib

import drawn
import interpreter
from graphs import condition_in, plain
from kit import TOP
from program import Room, side_by_side

PROGRAM = f"{TOP}/crates/fbsim/out/fbsim"
PORT = re.compile(r" ([<>]) ([\w.]+)\.\w+")
EVENT = re.compile(r"(?:\d+ \d+ \d+ )?(\d+) \w+ ([<>]) ([\w.]+)\.\w+")
CUTS = 7
NEVER = re.compile(r"(  transition \w+ -> \w+ by )(.*) never cleared\n")
CLEARED = re.compile(r"(  \w+ -> \w+ by )(.*)\n")
SHOWN = 10


def shown(value):
    return str(value).upper()


def remembered(block):
    """What an event block remembers, as it is noted."""
    match block.type.event_block:
        case "E_REND":
            marks = block.memory or set()
            return f"has {min(marks)}" if marks else "has none"
        case "E_SR" | "E_D_FF":
            return "set" if block.values["Q"] else "reset"
        case "E_R_TRIG" | "E_F_TRIG":
            return "set" if block.memory else "reset"
        case "E_DELAY" | "E_CYCLE":
            return "idle" if block.timer is None else f"due {block.timer}"
        case "E_CTU":
            return f"count {block.values['CV']}"
    return "idle"


class Noted(interpreter.System):
    """The simulation, with notes between its lines, and with what it covers. A condition is noted as tools/declaration.py reads it."""

    def __init__(self, *given):
        super().__init__(*given)
        self.covered = {("state", id(it.type), it.state) for it in self.blocks if it.type.chart}
        # (of each event: the numbers of its first and its last line, its resource and tick, the steps used there after it, and whether a chart took it)
        self.uses, self.number = [], 0

    def cover(self, what, block, mark):
        self.covered.add((what, id(block.type), mark))

    def take(self, what):
        first, block = self.number + 1, what[1]
        super().take(what)
        if first <= self.number:
            self.uses.append((first, self.number, block.home, self.tick, self.steps - self.left, bool(getattr(block.type, "chart", None))))

    def line(self, block, sign, event, values):
        super().line(block, sign, event, values)
        self.number += 1
        self.covered.add((sign, block.path, event))

    def note(self, text):
        self.lines.append(f"  {text}\n")

    def run_block(self, block, event):
        before = block.timer
        # (the timer that goes off was taken away before)
        text = remembered(block) if event is not None or block.type.event_block not in ("E_DELAY", "E_CYCLE") else f"due {self.tick}"
        found = interpreter.react(block, event)
        if block.timer not in (None, before):
            self.add(block.timer, block.home, 1, block.number, 0, ("timer", block))
        notes = [it for it in [remembered(block)] if it != text]
        for at, it in enumerate(found):
            if event is not None or at:
                for _ in range(len(notes)):
                    self.note(notes.pop())
            self.emit(block, it)
        for it in notes:
            self.note(it)

    def run_chart(self, block, present):
        self.cover("taken", block, present)
        try:
            self.follow(block, present)
        except interpreter.Stop as it:
            self.note(f"stops: {it.args[0]}")
            raise

    def follow(self, block, present):
        chart, is_first = block.type.chart, True
        while True:
            start = block.state
            found = next((it for it in chart.transitions if self.clears(block, it, present)), None)
            if found is None:
                if is_first:
                    self.note(f"lost in {start}")
                return
            self.cover("transition", block, chart.transitions.index(found))
            self.cover("state", block, found[1])
            self.cover("clearing", block, present)
            is_first, present, block.state = False, "", found[1]
            self.note(f"{start} -> {block.state} by {plain(found[2:])!r}")
            for algorithm, event in chart.states[block.state]:
                self.step()
                if algorithm:
                    self.run_noted(block, algorithm)
                if event:
                    self.emit(block, event)

    def run_noted(self, block, algorithm):
        own = [*block.type.var_out, *block.type.inner]
        before = {it: block.values[it] for it in own}
        self.cover("algorithm", block, algorithm)
        try:
            self.run_algorithm(block, block.type.chart.algorithms[algorithm])
        finally:
            changed = "".join(f" {it}={shown(block.values[it])}" for it in own if block.values[it] != before[it])
            self.note(f"{algorithm}:{changed}")


def with_conditions(text):
    """A text with each condition as tools/declaration.py reads it."""
    text = CLEARED.sub(lambda it: f"{it[1]}{condition_in(it[2])!r}\n", text)
    return NEVER.sub(lambda it: f"{it[1]}{condition_in(it[2])!r} never cleared\n", text)


# ---- What is covered


def is_connected(block, port):
    """Whether an event connection begins or ends at a port of an instance, in the network around it or in the one inside it."""
    ends = [it for pair in block.above.network.events for it in pair if it == (block.name, port)]
    return bool(ends or block.network and any((None, port) in pair for pair in block.network.events))


def report_of(system):
    """What `coverage` reports of a run. A condition is written as tools/declaration.py reads it."""
    lines, counts = [], dict.fromkeys(["states", "transitions", "algorithms", "events", "ports"], (0, 0))

    def count(name, marks):
        counts[name] = counts[name][0] + sum(marks), counts[name][1] + len(marks)

    for name, kind in system.types.items():
        chart, seen = kind.chart, lambda what, mark: (what, id(kind), mark) in system.covered
        if not chart:
            continue
        if not any(it.type is kind for it in system.blocks):
            lines += [f"type {name}", "  no instance has it"]
            continue
        states = [(it, seen("state", it)) for it in chart.states]
        transitions = [(it, seen("transition", at)) for at, it in enumerate(chart.transitions)]
        algorithms = [(it, seen("algorithm", it)) for it in chart.algorithms]
        events = [(it, seen("clearing", it)) for it in kind.ins]
        for what, found in zip(counts, (states, transitions, algorithms, events)):
            count(what, [mark for _, mark in found])
        missing = [f"  state {it} was never entered" for it, mark in states if not mark]
        missing += [f"  transition {it[0]} -> {it[1]} by {plain(it[2:])!r} never cleared" for it, mark in transitions if not mark]
        missing += [f"  algorithm {it} never ran" for it, mark in algorithms if not mark]
        missing += [f"  event {it} was {'only lost' if seen('taken', it) else 'never taken'}" for it, mark in events if not mark]
        lines += [f"type {name}", *missing] if missing else []
    alone = []
    for block in (it for it in system.blocks if not it.type.chart):
        sides = [(sign, it, did) for sign, its, did in ((">", block.type.ins, "taken"), ("<", block.type.outs, "emitted")) for it in its]
        sides = [it for it in sides if getattr(block.type, "event_block", None) != "E_RESTART" or it[1] == "COLD"]
        marks = {it: (it[0], block.path, it[1]) in system.covered for it in sides}
        counted = {it: mark for it, mark in marks.items() if is_connected(block, it[1])}
        count("ports", counted.values())
        missing = [f"  event {it} was never {did}" for (_, it, did), mark in counted.items() if not mark]
        lines += [f"instance {block.path}", *missing] if missing else []
        alone += [f"  event {block.path}.{it[1]} was never {it[2]}" for it, mark in marks.items() if not mark and it not in counted]
    lines += ["ports without a connection", *alone] if alone else []
    return "".join(f"{it}\n" for it in [*lines, ", ".join(f"{name} {a} of {b}" for name, (a, b) in counts.items())])


def without_notes(text):
    return "".join(it for it in text.splitlines(keepends=True) if not it.startswith("  "))


# ---- Cases


def content(path):
    with open(path, encoding="utf-8-sig") as it:
        return it.read()


def examples():
    """The name, the texts and the numbers of each example."""
    for args in sorted(glob.glob(f"{TOP}/examples/**/args", recursive=True)):
        folder = os.path.dirname(args)
        words = content(args).splitlines()
        option = dict(zip(words[2::1], words[3::1]))
        near = lambda name: os.path.normpath(f"{folder}/{name}")
        plan = content(near(option["--deploy"])) if "--deploy" in option else None
        stimuli = content(near(option["--stim"])) if "--stim" in option else "tick,event,values\n"
        yield os.path.relpath(folder, TOP), content(near(words[1])), plan, stimuli, int(option["--horizon"]), int(option.get("--steps", 10_000))


def systems():
    """The same of random systems."""
    for seed in (first + more for first in drawn.SEEDS for more in range(10)):
        sketch = drawn.Sketch(drawn.Dice(seed))
        texts = sketch.declaration(), sketch.deployment(), sketch.stimuli()
        yield f"seed {seed}", *texts, sketch.dice.one_of(drawn.HORIZONS), sketch.dice.one_of(drawn.STEPS)


def spoiled(system, trace):
    """Traces with an emission of a chart changed or left out, each with the number of the first line that shows it."""
    charts = {it.path for it in system.blocks if getattr(it.type, "chart", None)}
    lines = trace.splitlines(keepends=True)
    for at, (before, line) in enumerate(zip(lines, lines[1:]), 1):
        paths = [PORT.search(it) for it in (before, line)]
        if all(paths) and [it[1] for it in paths] == [">", "<"] and paths[0][2] == paths[1][2] and paths[0][2] in charts:
            # (emissions that are the same are distinguished only by their number)
            shown = next(it for it in range(at, len(lines)) if lines[it] != lines[it + 1])
            yield "".join(lines[:at] + lines[at + 1 :]), shown + 1
            if "=TRUE" in line:
                yield "".join(lines[:at] + [line.replace("=TRUE", "=FALSE", 1)] + lines[at + 1 :]), at + 1
            return


def passed(system, trace):
    """A trace that stops for its steps, with a limit that an event before has passed, and the numbers of its last line and of that event's."""
    *lines, end = trace.splitlines(keepends=True)
    limit = max((it[4] for it in system.uses), default=1) - 1
    over = next((it for it in system.uses if it[4] > limit), None)
    # (a chart that takes the last event is judged by what is left of the limit, and may run out of it just there)
    if limit < 1 or not over or not re.match(r"end|stop .* steps$", end) or over[1] == len(lines) and over[5]:
        return
    if end.startswith("end"):
        _, _, home, tick, *_ = system.uses[-1]
        end = f"stop {tick} {system.resources[home][0]} steps\n"
    yield "".join([*lines, end]), limit, len(lines) + 1, over[0]


def is_own(first, line):
    """Whether a line is one of an emission of the block of another line, in its tick."""
    (tick, _, path), (other_tick, sign, other_path) = (EVENT.match(it).groups() for it in (first, line))
    return sign == "<" and (tick, path) == (other_tick, other_path)


def fronts(trace):
    """Some fronts of a trace, none of them all of it."""
    return [trace[: min(len(trace) * turn // CUTS + turn % 3, len(trace) - 1)] for turn in range(CUTS)]


def whole_lines(front):
    return front[: front.rfind("\n") + 1].splitlines(keepends=True)


def first_untaken(whole):
    """The number of lines of a trace before that of the event after which only lines of its own block come in its tick."""
    return next((at for at, it in enumerate(whole) if all(is_own(it, other) for other in whole[at + 1 :])), len(whole))


def stops_for_steps(trace):
    return re.search(r"^stop .* steps$", trace, re.M)


def cut_text(wanted, front):
    """What `inspect --cut` writes of the front of a trace."""
    whole = whole_lines(front)
    first = first_untaken(whole)
    kept, lines = [], 0
    for line in wanted.splitlines(keepends=True):
        if not line.startswith("  "):
            if lines == first:
                break
            lines += 1
        kept.append(line)
    return "".join([*kept, *whole[first:], "  cut\n"])


def cut_faults(room, place, words, wanted, trace):
    """What is wrong with the texts of a trace that is cut off at some bytes."""
    for front in fronts(trace):
        ran = room.call([*words, "--cut", "-"], front.encode())
        found = with_conditions(ran.stdout.decode())
        if ran.returncode or ran.stderr or found != cut_text(wanted, front):
            yield f"{place}, {len(front)} bytes: status {ran.returncode} {ran.stderr.decode().strip()}: {found[-200:]!r}"
        ran = room.call(["coverage", *words[1:], "--cut", "-"], front.encode())
        if ran.returncode or ran.stderr or not ran.stdout.endswith(b"\ntraces cut 1 of 1\n"):
            yield f"{place}, {len(front)} bytes: coverage: status {ran.returncode} {ran.stderr.decode().strip()}"


def faults_of(room, number, case):
    """What is wrong with the texts of a case."""
    name, declaration, plan, stimuli, horizon, steps = case
    wrong = []
    for form in (1, 2):
        system = Noted(declaration, tomllib.loads(plan) if plan else None, interpreter.stimuli_in(stimuli), steps)
        wanted = with_notes = system.run(horizon, form=form)
        trace = without_notes(wanted)
        files = {"iec": declaration, "trace": trace} | ({"toml": plan} if plan else {})
        for ending, text in files.items():
            with open(f"{room.folder}/{number}.{ending}", "w", encoding="utf-8") as it:
                it.write(text)
        words = ["inspect", f"{number}.iec", *(["--deploy", f"{number}.toml"] if plan else [])]
        # (a trace that does not stop for its steps needs no limit)
        words += ["--steps", str(steps)] if stops_for_steps(trace) else []
        ran = room.call([*words, f"{number}.trace"])
        found = with_conditions(ran.stdout.decode())
        if ran.returncode or ran.stderr or found != wanted:
            pairs = zip(found.splitlines() + ["(none)"], wanted.splitlines() + ["(none)"])
            part = next((f"{a!r} and not {b!r}" for a, b in pairs if a != b), "")
            wrong.append(f"{name}, form {form}: status {ran.returncode} {ran.stderr.decode().strip()}: {part}")
        ran = room.call(["coverage", *words[1:], f"{number}.trace"])
        found, wanted = with_conditions(ran.stdout.decode()), report_of(system)
        if ran.returncode or ran.stderr or found != wanted:
            pairs = zip(found.splitlines() + ["(none)"], wanted.splitlines() + ["(none)"])
            part = next((f"{a!r} and not {b!r}" for a, b in pairs if a != b), "")
            wrong.append(f"{name}, form {form}: coverage: status {ran.returncode} {ran.stderr.decode().strip()}: {part}")
        wrong += cut_faults(room, f"{name}, form {form}", words, with_notes, trace)
        for text, line in spoiled(system, trace):
            ran = room.call([*words, "-"], text.encode())
            if (ran.returncode, ran.stderr) != (2, f"refused trace line {line}\n".encode()):
                wrong.append(f"{name}, form {form}: a spoiled line {line}: status {ran.returncode} {ran.stderr.decode().strip()}")
        without = words[:-2] if "--steps" in words else words
        for text, limit, line, event in passed(system, trace):
            ran = room.call([*without, "--steps", str(limit), "--why", "-"], text.encode())
            told = f"refused trace line {line}\ntrace: line {line}: the resource of line {event} uses more steps in that tick than it has\n"
            if (ran.returncode, ran.stderr) != (2, told.encode()):
                wrong.append(f"{name}, form {form}: steps passed at line {event}: status {ran.returncode} {ran.stderr.decode().strip()}")
    return wrong


# ---- What is written before a refusal

# (each tick gives three lines, so line 6,002 is the second one of its tick)
DOOR = """
FUNCTION_BLOCK DOOR EVENT_INPUT GO WITH X; END_EVENT EVENT_OUTPUT DONE WITH Y; END_EVENT
VAR_INPUT X : INT; END_VAR VAR_OUTPUT Y : INT; END_VAR VAR N : INT; END_VAR
EC_STATES IDLE; RUN : ADD -> DONE, -> DONE; END_STATES
EC_TRANSITIONS IDLE TO RUN := GO; RUN TO IDLE := 1; END_TRANSITIONS
ALGORITHM ADD IN ST: Y := X + 1; N := N + 1; END_ALGORITHM END_FUNCTION_BLOCK
APPLICATION A FBS D : DOOR; END_FBS END_APPLICATION
"""
GATE = DOOR.replace("RUN := GO;", "RUN := GO [(X > 3)];")
TICKS, LAST, WRONG = 3_000, 3_001, 6_002
PAGE = 65_536
MORE, FEWER = 200, 40


def door_text(tick, notes):
    """What `inspect` writes of one tick, or its lines alone."""
    done = f"{tick} MAIN < D.DONE Y=5\n"
    changed = "Y=5 N=1" if tick == 1 else f"N={tick}"
    parts = [f"{tick} MAIN > D.GO X=4\n", f"  IDLE -> RUN by GO\n  ADD: {changed}\n" * notes, done * 2, "  RUN -> IDLE by 1\n" * notes]
    return "".join(parts)


def front_faults(room):
    """Of a trace of 9,001 lines, line 6,002 is wrong. What is written before the refusal is to be a beginning of what is written of two traces that
    begin with the lines before it and go on each in its own way. It is longer than a page, so that a part was sent before."""
    lines = "".join(door_text(it, notes=False) for it in range(1, TICKS + 1)).splitlines(keepends=True)
    spoiled = [*lines[: WRONG - 1], lines[WRONG - 1].replace("2001 ", "2000 "), *lines[WRONG:], f"end {LAST}\n"]
    rest = [*lines[WRONG - 1 : WRONG + 1], f"{LAST} MAIN > D.GO X=7\n", *[f"{LAST} MAIN < D.DONE Y=8\n"] * 2, f"end {LAST + 1}\n"]
    others = "".join([*lines, f"end {LAST}\n"]), "".join([*lines[: WRONG - 1], *rest])
    shown = "".join(door_text(it, notes=True) for it in range(1, TICKS + 1)) + f"end {LAST}\n"
    for words in (["inspect"], ["wave"], ["wave", "--states"]):
        call = lambda text: room.call([*words, "door.iec", "-"], text.encode())
        ran, wholes = call("".join(spoiled)), [call(it) for it in others]
        yield from front_fault(words, ran, wholes, WRONG)
        if words == ["inspect"] and wholes[0].stdout != shown.encode():
            yield "inspect: the text of the whole trace is another one"


def front_fault(words, ran, wholes, line):
    """Whether a trace was refused at a line, and what was written then, more than a page, begins what was written of other traces."""
    if (ran.returncode, ran.stderr) != (2, f"refused trace line {line}\n".encode()) or any(it.returncode for it in wholes):
        yield f"{words}: status {ran.returncode} {ran.stderr.decode().strip()}, and {[it.returncode for it in wholes]}"
    elif len(ran.stdout) <= PAGE or not all(it.stdout.startswith(ran.stdout) for it in wholes):
        yield f"{words}: the {len(ran.stdout)} bytes before the refusal are no beginning of what is written of other traces"


def excess_faults(room):
    """Each event costs 8 steps, and the trace stops for its steps after a limit of 7, in the tick after its events. So the stop is refused, not
    the first event: two other traces have the same lines before it, and do not stop for their steps."""
    lines = "".join(door_text(it, notes=False) for it in range(1, TICKS + 1))
    more = "".join([f"{LAST} MAIN > D.GO X=7\n", *[f"{LAST} MAIN < D.DONE Y=8\n"] * 2])
    for words in (["inspect"], ["wave", "--states"]):
        call = lambda end: room.call([*words, "door.iec", "--steps", "7", "-"], (lines + end).encode())
        wholes = [call(it) for it in (f"end {LAST}\n", f"{more}end {LAST + 1}\n")]
        yield from front_fault([*words, "--steps 7"], call(f"stop {LAST} MAIN steps\n"), wholes, 3 * TICKS + 1)


def last_faults(room):
    """Events that are lost cost 2 steps each, and the last one costs 8. The line after it is wrong. Another trace with the same lines before that stops
    there, with a limit of 6 steps, so in the middle of the last event. The text of that event must not be written yet, also where it fills a page."""
    lost, last = "{0} MAIN > D.GO X=3\n", "{0} MAIN > D.GO X=4\n{0} MAIN < D.DONE Y=5\n{0} MAIN < D.DONE Y=5\n"
    for words in (["inspect"], ["wave", "--states"]):
        call = lambda count, end: room.call(
            [*words, "gate.iec", "--steps", "6", "-"], "".join([*[lost.format(it) for it in range(count)], last.format(count), end.format(count)]).encode()
        )
        size = lambda count: len(call(count, "end {0}0\n").stdout)
        few, many = 1, PAGE
        while few + 1 < many:
            middle = (few + many) // 2
            few, many = (middle, many) if size(middle) < PAGE + MORE else (few, middle)
        for count in range(few - FEWER, few + 1):
            ran, other = call(count, "{0} MAIN < D.DONE Y=5\n"), call(count, "stop {0} MAIN steps\n")
            if (ran.returncode, ran.stderr) != (2, f"refused trace line {count + 4}\n".encode()) or other.returncode or not other.stdout.startswith(ran.stdout):
                yield f"{words}: after {count} lost events: status {ran.returncode} {ran.stderr.decode().strip()}, and {other.returncode} {other.stderr.decode().strip()}"
                break


def make_all(program):
    """Returns whether each text is as it is to be."""
    cases = [*examples(), *systems()]
    with Room(program, {"door.iec": DOOR.encode(), "gate.iec": GATE.encode()}) as room:
        wrong = [it for found in side_by_side(lambda it: faults_of(room, *it), [*enumerate(cases)]) for it in found]
        wrong += [*front_faults(room), *excess_faults(room), *last_faults(room)]
    print("\n".join(wrong[:SHOWN]), end="\n" * bool(wrong))
    print(f"insides: {len(wrong)} faults in {len(cases)} systems", flush=True)
    return not wrong


if __name__ == "__main__":
    sys.exit(not make_all(sys.argv[1] if sys.argv[1:] else PROGRAM))
