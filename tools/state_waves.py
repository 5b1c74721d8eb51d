#!/usr/bin/env python3
"""tools/state_waves.py [PROGRAM]: the dumps that `wave --states` makes, beside an interpreter of its own.

The second simulator of tools/interpreter.py runs each example and each random system of tools/drawn.py once more, and notes what each
taking changes inside a basic block: its state, the variables that no line carries, and whether it lost the event. The program is given the trace
alone. What its dump has of the inside of blocks is to be that, to the byte, at these times and in this order, and the declarations of
it are to be in the scopes of the blocks. Without these lines the dump is to be the one that `wave` makes. `--steps` is given where the
trace stops for its steps, and where it must not matter. Of traces in which one emission was changed or left out, the program is to
refuse the first line that shows it. Of each trace several fronts are given with `--cut`, and what changes inside blocks is to be that of
the events whose lines are all there. GTKWave's own reader must find the same states and values in the dump as tools/vcd.py."""

import os
import re
import sys
import tomllib

import insides
import interpreter
import vcd
import waves
from kit import TOP
from program import Room, side_by_side

PROGRAM = f"{TOP}/crates/fbsim/out/fbsim"
DECLARED = re.compile(r"\$var (string 1 s\d+ state|event 1 l\d+ lost|(reg 64|wire 1) i\d+_\d+ \w+) \$end")
CHANGED = re.compile(r"s\w+ s\d+|1l\d+|[01]i\d+_\d+|b[01]+ i\d+_\d+")
SHOWN = 10


def value_line(code, value):
    return f"{int(value)}{code}" if isinstance(value, bool) else f"b{value % 2**waves.BITS:b} {code}"


def hidden_of(kind):
    """The variables of a type that no line carries, each with its start: outputs WITH no event, and then internal variables."""
    carried = {it for names in kind.outs.values() for it in names}
    return {it: row for it, row in kind.var_out.items() if it not in carried} | kind.inner


def inside_of(block):
    """The lines of the state of a block and of its variables that no line carries, as they are now."""
    values = [value_line(f"i{block.number}_{at}", block.values[it]) for at, it in enumerate(hidden_of(block.type))]
    return [f"s{block.state} s{block.number}", *values]


def declared_of(block):
    """The declarations of the inside of a block."""
    hidden = hidden_of(block.type)
    kinds = ["wire 1" if isinstance(start, bool) else "reg 64" for _, start in hidden.values()]
    names = [f"{kind} i{block.number}_{at} {name}" for at, (kind, name) in enumerate(zip(kinds, hidden))]
    return [f"$var {it} $end" for it in (f"string 1 s{block.number} state", *names, f"event 1 l{block.number} lost")]


class Stated(insides.Noted):
    """The simulation, with what its takings change inside of blocks, each line with its tick."""

    def __init__(self, *given):
        super().__init__(*given)
        charts = [it for it in self.blocks if it.type.chart]
        # (each with the number of lines of the trace up to its taking)
        self.changes = [(0, 0, line) for it in charts for line in inside_of(it)]
        self.declared = {f"{self.resources[it.home][0]}.{it.path}": declared_of(it) for it in charts}
        self.has_lost = False

    def note(self, text):
        self.has_lost |= text.startswith("lost in ")

    def run_chart(self, block, present):
        before, self.has_lost, taken = inside_of(block), False, len(self.lines)
        try:
            super().run_chart(block, present)
        finally:
            self.changes += [(taken, self.tick, line) for line, old in zip(inside_of(block), before) if line != old]
            self.changes += [(taken, self.tick, f"1l{block.number}")] * self.has_lost

    def changes_to(self, lines):
        """What the takings of the first lines of the trace change, this many, each with its tick."""
        return [(tick, line) for taken, tick, line in self.changes if taken <= lines]


class Parts:
    """What a dump has of the inside of blocks, and the lines that it has without it."""

    def __init__(self, text):
        self.others, self.changes, self.declared, scopes, now = [], [], {}, [], None
        for line in text.splitlines():
            if DECLARED.fullmatch(line):
                self.declared.setdefault(".".join(scopes), []).append(line)
                continue
            if CHANGED.fullmatch(line):
                self.changes.append((now, line))
                continue
            self.others.append(line)
            if line.startswith("$scope"):
                scopes.append(line.split(" ")[2])
            elif line.startswith("$upscope"):
                scopes.pop()
            elif line.startswith("#"):
                now = int(line[1:])


def first_difference(found, wanted):
    pairs = zip([*found, "(none)"], [*wanted, "(none)"])
    return next((f"{a!r} and not {b!r}" for a, b in pairs if a != b), "the lengths differ")


def faults_by_gtkwave(dump):
    """The signals that GTKWave's reader finds otherwise."""
    try:
        own, other = vcd.read(dump), vcd.read(waves.by_gtkwave(dump.encode()))
    except vcd.Fault as fault:
        return [f"by GTKWave: {fault}"]
    return [f"by GTKWave: {it} has {other.values.get(it)}" for it in own.values if other.values.get(it) != own.values[it]]


def faults_of_dump(system, lines, dump, plain):
    """What is wrong with a dump of the simulation's trace, of which the first lines are taken, this many. `wave` makes the plain one."""
    found, changes = Parts(dump), system.changes_to(lines)
    if found.others != plain.splitlines():
        yield f"without the inside of blocks: {first_difference(found.others, plain.splitlines())}"
    if found.changes != changes:
        yield first_difference(found.changes, changes)
    if found.declared != system.declared:
        yield first_difference(sorted(found.declared.items()), sorted(system.declared.items()))


def cut_faults(room, system, words, limit, trace):
    """What is wrong with the dumps of a trace that is cut off at some bytes."""
    for turn, front in enumerate(insides.fronts(trace)):
        whole = insides.whole_lines(front)
        # (of a trace that is cut off no limit of steps is known)
        cut = [*words, "--cut", *(limit if turn % 2 else ["--steps", "1"]), "-"]
        dump, plain = room.call([*cut[:-1], "--states", "-"], front.encode()), room.call(cut, front.encode())
        if dump.returncode or dump.stderr:
            yield f"{len(front)} bytes: status {dump.returncode} {dump.stderr.decode().strip()}"
            continue
        found = faults_of_dump(system, insides.first_untaken(whole), dump.stdout.decode(), plain.stdout.decode())
        yield from (f"{len(front)} bytes: {it}" for it in found)


def faults_of(room, number, case):
    """What is wrong with the dumps of a case."""
    name, declaration, plan, stimuli, horizon, steps = case
    wrong = []
    for form in (1, 2):
        place = f"{name}, form {form}"
        system = Stated(declaration, tomllib.loads(plan) if plan else None, interpreter.stimuli_in(stimuli), steps)
        trace = system.run(horizon, form=form)
        files = {"iec": declaration, "trace": trace} | ({"toml": plan} if plan else {})
        for ending, text in files.items():
            with open(f"{room.folder}/w{number}.{ending}", "w", encoding="utf-8") as it:
                it.write(text)
        words = ["wave", f"w{number}.iec", *(["--deploy", f"w{number}.toml"] if plan else [])]
        # (a trace that does not stop for its steps needs no limit, and none that is given matters)
        limit = ["--steps", str(steps)] if insides.stops_for_steps(trace) else ["--steps", "1"] * (form - 1)
        stated = [*words, "--states", *limit]
        dump, plain = room.call([*stated, f"w{number}.trace"]), room.call([*words, f"w{number}.trace"])
        if dump.returncode or dump.stderr:
            wrong.append(f"{place}: status {dump.returncode} {dump.stderr.decode().strip()}")
            continue
        wrong += [f"{place}: {it}" for it in faults_of_dump(system, len(system.lines), dump.stdout.decode(), plain.stdout.decode())]
        wrong += [f"{place}, cut: {it}" for it in cut_faults(room, system, words, limit, trace)]
        wrong += [f"{place}: {it}" for it in faults_by_gtkwave(dump.stdout.decode())]
        for text, line in insides.spoiled(system, trace):
            ran = room.call([*stated, "-"], text.encode())
            if (ran.returncode, ran.stderr) != (2, f"refused trace line {line}\n".encode()):
                wrong.append(f"{place}: a spoiled line {line}: status {ran.returncode} {ran.stderr.decode().strip()}")
    return wrong


def make_all(program):
    """Returns whether each dump is as it is to be."""
    if waves.lacks_gtkwave():
        return False
    cases = [*insides.examples(), *insides.systems()]
    with Room(program) as room:
        wrong = [it for found in side_by_side(lambda it: faults_of(room, *it), [*enumerate(cases)]) for it in found]
    print("\n".join(wrong[:SHOWN]), end="\n" * bool(wrong))
    print(f"state_waves: {len(wrong)} faults in the dumps of {len(cases)} systems", flush=True)
    return not wrong


if __name__ == "__main__":
    sys.exit(not make_all(sys.argv[1] if sys.argv[1:] else PROGRAM))
