#!/usr/bin/env python3
"""tools/waves.py [PROGRAM]: compares the dumps that `wave` makes, as GTKWave reads them, with their traces.

The program makes the value change dump of the trace of each example, and of other inputs: with a stop, with events of one port that
come twice in a tick, and with values at the limits of types. It does so for both forms of the trace, which must give the same bytes.
The dump is read by tools/vcd.py, which knows only the standard, and by GTKWave's own reader: vcd2fst makes GTKWave's database of it,
and fst2vcd prints the contents of the database. Both are compared with the trace, of which only the lines are used:
- in each tick the ports that had an event fire, and no others;
- the register of a port counts its events;
- a variable has the last value of a line, and before its first the initial value that tools/interpreter.py takes from the
  declaration;
- the last time is that of the last line, and a stop has its comment.

A machine without vcd2fst is a fault: tools/system_packages.py installs the package gtkwave."""

import glob
import os
import re
import subprocess
import sys
import tempfile
import tomllib
from typing import NamedTuple, Optional

import calls
import interpreter
import vcd
from kit import TOP
from program import Room
from system_packages import lacks

PROGRAM = f"{TOP}/crates/fbsim/out/fbsim"
BITS = 64
COUNT = "_count"

# The worked example of docs/formats/trace.md, in both forms.
SWITCH = b"""APPLICATION A FBS F : E_SR; W : E_SWITCH; END_FBS
EVENT_CONNECTIONS F.EO TO W.EI; END_CONNECTIONS DATA_CONNECTIONS F.Q TO W.G; END_CONNECTIONS END_APPLICATION
"""
TWO_RESOURCES = b"""resource = [{ device = "CELL", name = "R1", instances = ["F"] }, { device = "CELL", name = "R2", instances = ["W"] }]
link = [{ from = "R1", to = "R2", latency = 2 }]
"""
SWITCHED = b"""0 0 0 3 R1 > F.S
0 0 0 3 R1 < F.EO Q=TRUE
0 1 0 5 R2 > W.EI G=FALSE
0 1 0 5 R2 < W.EO0
2 0 0 5 R2 > W.EI G=TRUE
2 0 0 5 R2 < W.EO1
end 6
"""
# A block that takes values and does nothing, and values at the ends of their types.
SINK = b"""FUNCTION_BLOCK SINK EVENT_INPUT GO WITH A, B, C, D, E; END_EVENT
VAR_INPUT A : LINT; B : ULINT; C : SINT; D : BOOL; E : TIME; END_VAR
EC_STATES IDLE; END_STATES END_FUNCTION_BLOCK
APPLICATION A FBS P : SINK; END_FBS END_APPLICATION
"""
ENDS = b"""0 0 0 0 MAIN > P.GO A=9223372036854775807 B=18446744073709551615 C=127 D=TRUE E=-1
0 1 0 1 MAIN > P.GO A=-9223372036854775808 B=0 C=-128 D=FALSE E=9223372036854775807
0 2 0 1000000000 MAIN > P.GO A=-1 B=1 C=-1 D=FALSE E=0
end 1000000000000
"""


class Case(NamedTuple):
    """A declaration, a deployment if there is one, and a trace in both forms."""

    name: str
    declaration: bytes
    deployment: Optional[bytes]
    forms: tuple


class Told(NamedTuple):
    """What a trace says: when each event port fires, the values of each other signal with their times, and the end. Before that,
    what the variables of the declaration begin with."""

    begun: dict
    fired: dict
    values: dict
    end: int
    comments: list


# ---- What a trace says


def is_last(line):
    """Whether a line is the last one of a trace that is not cut off."""
    return line.split(b" ")[0] in (b"end", b"stop")


def form_one(trace):
    """A trace of form two in form one: each line except the last one has three words fewer."""
    return b"".join(it if is_last(it) else it.split(b" ", 3)[3] for it in trace.splitlines(keepends=True))


def bits_of(word):
    """A value of a trace as the bits of a signal."""
    if word in ("TRUE", "FALSE"):
        return "1" if word == "TRUE" else "0"
    return format(int(word) % 2**BITS, f"0{BITS}b")


def begun_by(case):
    """Returns the initial bits of each variable of what is declared."""
    deployment = case.deployment and tomllib.loads(case.deployment.decode())
    system, found = interpreter.System(case.declaration.decode("utf-8-sig"), deployment), {}
    for block in system.blocks:
        place = f"{system.resources[block.home][0]}.{block.path}"
        found |= {f"{place}.{name}": bits_of(str(value).upper()) for name, value in (block.slots | block.published).items()}
    return found


def expected_by(trace, begun):
    """Returns what a trace of form one says, where the variables begin with these bits. It may be cut off after a line."""
    fired, counts, values, end = {}, {}, {}, 0
    *lines, last = [*trace.splitlines(), b""] if not is_last((trace.splitlines() or [b""])[-1]) else trace.splitlines()
    for line in lines:
        tick, resource, _, port, *words = line.decode().split(" ")
        name, tick = f"{resource}.{port}", int(tick)
        end = tick
        counts[name] = counts.get(name, 0) + 1
        fired.setdefault(name, {})[tick] = True
        values.setdefault(name + COUNT, {})[tick] = bits_of(counts[name])
        for word in words:
            variable, _, value = word.partition("=")
            values.setdefault(f"{name.rpartition('.')[0]}.{variable}", {})[tick] = bits_of(value)
    kind, tick, *stop = last.decode().split(" ") if last else ("cut", end)
    comments = [] if kind == "end" else [(int(tick), " ".join([kind, *stop]))]
    return Told(begun, {name: [*ticks] for name, ticks in fired.items()}, values, int(tick), comments)


# ---- What a dump says


def begins(expected, name, size):
    """The initial bits of a signal: a count is 0, a variable has its initial value."""
    return "0" * size if name.endswith(COUNT) else expected.begun[name]


def steps_of(expected, name, size):
    """The times at which a signal changes, with its bits from then on. The first is 0."""
    found = [(0, begins(expected, name, size))]
    for tick, bits in sorted(expected.values.get(name, {}).items()):
        if tick == 0:
            found = []
        if not found or found[-1][1] != bits:
            found.append((tick, bits))
    return found


def kind_of(expected, name):
    """The declaration of a signal of a trace."""
    if name in expected.fired:
        return vcd.Signal("event", 1)
    size = len(next(iter(expected.values[name].values())))
    return vcd.Signal("wire" if size == 1 else "reg", size)


def differences(expected, dump):
    """The differences between a dump and the trace, a line each."""
    for name in sorted({*expected.fired, *expected.values} - {*dump.signals}):
        yield f"{name} is no signal"
    for name, signal in dump.signals.items():
        if name in expected.fired or name in expected.values:
            if signal != kind_of(expected, name):
                yield f"{name} is declared as {signal.kind} {signal.size}"
        if signal.kind == "event":
            seen, due = dump.fired.get(name, []), expected.fired.get(name, [])
        else:
            seen, due = dump.values.get(name, []), steps_of(expected, name, signal.size)
        if seen != due:
            yield f"{name} has {seen[:9]} and not {due[:9]}"
    if dump.end != expected.end:
        yield f"the last time is {dump.end} and not {expected.end}"


def faults_of_form(expected, dump):
    """The differences between the program's dump and docs/formats/waveforms.md."""
    if dump.scale != "1ms":
        yield f"the time scale is {dump.scale}"
    if dump.comments != expected.comments:
        yield f"the comments are {dump.comments} and not {expected.comments}"
    for name, signal in dump.signals.items():
        if signal.kind != "event" and dump.begun.get(name) != begins(expected, name, signal.size):
            yield f"{name} begins with {dump.begun.get(name)}"
        if signal.kind == "event" and (name in dump.begun or dump.signals.get(name + COUNT) != vcd.Signal("reg", BITS)):
            yield f"{name} fires in $dumpvars, or has no count"


def by_gtkwave(dump):
    """GTKWave's database of a dump, as the text of a dump."""
    with tempfile.TemporaryDirectory(prefix="waves-") as room:
        text, base = f"{room}/it.vcd", f"{room}/it.fst"
        with open(text, "wb") as it:
            it.write(dump)
        made = subprocess.run(["vcd2fst", text, base], capture_output=True)
        if made.returncode or not os.path.exists(base):
            raise vcd.Fault(f"vcd2fst says {(made.stdout + made.stderr).decode(errors='replace').strip()}")
        converted = subprocess.run(["fst2vcd", base], check=True, capture_output=True).stdout.decode("ascii")
    # (it closes $dumpvars at the next time, and so not if there is none)
    return converted if "$end" in converted.partition("$dumpvars")[2] else converted + "$end\n"


def faults_by(text_of, expected, look):
    """The faults that these checks find in a text, or that it is no dump."""
    try:
        read = vcd.read(text_of())
        return [it for one in look for it in one(expected, read)]
    except (vcd.Fault, UnicodeDecodeError) as fault:
        return [str(fault)]


def faults(case, dump, with_gtkwave):
    """What is wrong with the dump of the trace of form one of a case."""
    expected = expected_by(case.forms[0], begun_by(case))
    found = faults_by(lambda: dump.decode("ascii"), expected, [faults_of_form, differences])
    if with_gtkwave:
        found += [f"by GTKWave: {it}" for it in faults_by(lambda: by_gtkwave(dump), expected, [differences])]
    return found


# ---- Cases


def content(path):
    with open(path, "rb") as it:
        return it.read()


def runs():
    """The files of each example, and of a run that stops, with the words of the run. The trace is one of the files."""
    yield "stop", {"stop.iec": calls.RING, "trace": calls.STOPPED}, ["run", "stop.iec", "--horizon", "1", "--steps", "3"]
    for args in sorted(glob.glob(f"{TOP}/examples/**/args", recursive=True)):
        folder = os.path.dirname(args)
        # (the declaration and the deployment of a scenario are in the folder above it)
        near = [it for at in (os.path.dirname(folder), folder) for it in glob.glob(f"{at}/*") if os.path.isfile(it)]
        words = [it.removeprefix("../") for it in content(args).decode().splitlines()]
        yield os.path.relpath(folder, f"{TOP}/examples"), {os.path.basename(it): content(it) for it in near}, words


def cases(room):
    """All cases, and what is wrong with the traces of form two that the program writes of the runs."""
    found, wrong = [], []
    for name, files, words in runs():
        for file, text in files.items():
            with open(f"{room.folder}/{file}", "wb") as it:
                it.write(text)
        second = room.call([*words, "--trace", "2"]).stdout
        if form_one(second) != files["trace"]:
            wrong.append(f"{name}: the trace of form two has other lines")
        found.append(Case(name, files[words[1]], files.get("deploy.toml"), (files["trace"], second)))
    own = [("switch", SWITCH, TWO_RESOURCES, SWITCHED), ("ends", SINK, None, ENDS)]
    found += [Case(name, text, deployed, (form_one(trace), trace)) for name, text, deployed, trace in own]
    return found, wrong


def dump_of(room, case, trace):
    """The program's dump of a trace, or the fault of its call."""
    files = {"it.iec": case.declaration, "it.trace": trace}
    words = ["wave", "it.iec"]
    if case.deployment is not None:
        files["it.toml"] = case.deployment
        words += ["--deploy", "it.toml"]
    for file, text in files.items():
        with open(f"{room.folder}/{file}", "wb") as it:
            it.write(text)
    ran = room.call([*words, "it.trace"])
    if ran.returncode or ran.stderr:
        raise vcd.Fault(f"status {ran.returncode}: {ran.stderr.decode(errors='replace').strip()}")
    return ran.stdout


def faults_of(room, case):
    """What is wrong with the dumps of a case."""
    try:
        first, *others = [dump_of(room, case, trace) for trace in case.forms]
    except vcd.Fault as fault:
        return [str(fault)]
    found = ["the dumps of the two forms differ"] if any(it != first for it in others) else []
    return found + faults(case, first, True)


def unseen(room, case):
    """The changes of a dump that can be removed, or moved to twice their time, without a fault here. There must be none."""
    lines = dump_of(room, case, case.forms[0]).splitlines(keepends=True)
    for place in range(lines.index(b"$end\n") + 1, len(lines)):
        if not faults(case, b"".join(lines[:place] + lines[place + 1 :]), False):
            yield f"that the line {lines[place].decode().strip()} is gone is not seen"
    late = re.sub(rb"^#5$", b"#4", b"".join(lines), flags=re.M)
    if not any(it.startswith("by GTKWave") for it in faults(case, late, True)):
        yield "that GTKWave reads another time is not seen"


def lacks_gtkwave():
    """Whether GTKWave's reader is missing. Then this prints the package that has it."""
    return lacks("vcd2fst", "gtkwave") or lacks("fst2vcd", "gtkwave")


def make_all(program, says=print):
    """Compares the dumps of all cases. Returns whether all agree with the traces."""
    if lacks_gtkwave():
        return False
    with Room(program) as room:
        made, wrong = cases(room)
        for case in made:
            wrong += [f"{case.name}: {it}" for it in faults_of(room, case)]
        if not wrong:
            wrong = [*unseen(room, next(it for it in made if it.name == "switch"))]
    for it in wrong:
        says(f"waves: {it}")
    says(f"waves: {len(wrong)} faults in the dumps of {len(made)} traces, read by GTKWave's vcd2fst and by tools/vcd.py", flush=True)
    return not wrong


def main(program=PROGRAM):
    if not os.path.exists(program):
        sys.exit(f"{program} is not built: ./simulate builds it")
    return 0 if make_all(program) else 1


if __name__ == "__main__":
    sys.exit(main(*sys.argv[1:]))
