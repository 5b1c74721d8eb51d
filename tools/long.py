#!/usr/bin/env python3
"""Runs commands over a trace of more than a million lines, and over a text with a late line that no trace has, and compares what they
write with texts that follow from docs/formats/: tools/long.py [PROGRAM]

./gate runs it each time it has run the program."""

import os
import subprocess
import sys
import tempfile

PROGRAM = os.path.join(os.path.dirname(os.path.abspath(__file__)), os.pardir, "simulate")
# A clock that ticks each millisecond, this many times.
TICKS = 1_010_000
HORIZON = TICKS + 1
DECLARATION = "APPLICATION A FBS C : E_CYCLE(DT := T#1ms); END_FBS END_APPLICATION\n"
STIMULI = "tick,event,values\n0,C.START,\n"
RULES = f'[[rule]]\nname = "it ticks"\ncount = "* < C.EO"\nleast = {TICKS}\nmost = {TICKS}\n'
# The line of this number is none of a trace in the text that is refused.
WRONG = 1_005_001
START = "0 MAIN > C.START DT=1\n"
HEAD = """$timescale 1 ms $end
$scope module MAIN $end
$scope module C $end
$var event 1 e0 START $end
$var reg 64 n0 START_count $end
$var event 1 e1 STOP $end
$var reg 64 n1 STOP_count $end
$var event 1 e2 EO $end
$var reg 64 n2 EO_count $end
$var reg 64 v3 DT $end
$upscope $end
$upscope $end
$enddefinitions $end
#0
$dumpvars
b0 n0
b0 n1
b0 n2
b1 v3
$end
1e0
b1 n0
b1 v3
"""
COVERED = """ports without a connection
  event C.STOP was never taken
states 0 of 0, transitions 0 of 0, algorithms 0 of 0, events 0 of 0, ports 0 of 0
"""


def lines(end):
    """The text of a trace that ends so."""
    return START + "".join(f"{tick} MAIN < C.EO\n" for tick in range(1, TICKS + 1)) + end


def wave():
    return HEAD + "".join(f"#{tick}\n1e2\nb{tick:b} n2\n" for tick in range(1, TICKS + 1)) + f"#{HORIZON}\n"


def inside():
    """Each tick sets when the next one is due."""
    ticks = "".join(f"{tick} MAIN < C.EO\n  due {tick + 1}\n" for tick in range(1, TICKS + 1))
    return f"{START}  due 1\n{ticks}end {HORIZON}\n"


def calls():
    """Each call, with its status and what it writes, of which it writes a beginning where the status is 2, and with what it reports."""
    named = ["declaration", "trace"]
    yield ["run", "declaration", "--stim", "stimuli", "--horizon", f"{HORIZON}"], 0, lines(f"end {HORIZON}\n"), ""
    yield ["wave", *named], 0, wave(), ""
    yield ["inspect", *named], 0, inside(), ""
    yield ["coverage", *named], 0, COVERED, ""
    yield ["expect", "rules", "trace"], 0, "TAP version 14\n1..1\nok 1 - it ticks\n# decided 1 time\n", ""
    last = f"trace, tick {HORIZON}: end {HORIZON}\nother, tick {HORIZON + 1}: end {HORIZON + 1}\n"
    yield ["diff", "trace", "other"], 1, f"line {TICKS + 2} differs in: tick\n{last}", ""
    refused = f"refused trace line {WRONG}\n"
    for command, text in (("wave", wave()), ("inspect", inside()), ("coverage", "")):
        yield [command, "declaration", "wrong"], 2, text, refused
    yield ["expect", "rules", "wrong"], 2, "", f"refused trace wrong line {WRONG}\n"


def write_files(folder):
    """Writes the files that the calls name."""
    trace = lines(f"end {HORIZON}\n")
    cut = trace.split("\n", WRONG - 1)
    files = {
        "declaration": DECLARATION,
        "stimuli": STIMULI,
        "rules": RULES,
        "trace": trace,
        "other": lines(f"end {HORIZON + 1}\n"),
        "wrong": "\n".join([*cut[:-1], "no line\n"]),
    }
    for name, content in files.items():
        with open(os.path.join(folder, name), "w", encoding="ascii") as out:
            out.write(content)


def fails(program, folder, words, status, output, said):
    """Whether a call ends otherwise, which is then printed."""
    ran = subprocess.run([os.path.abspath(program), *words], cwd=folder, capture_output=True, text=True, check=False)
    is_well = output.startswith(ran.stdout) and bool(ran.stdout) == bool(output) if status == 2 else ran.stdout == output
    if is_well and (ran.returncode, ran.stderr) == (status, said):
        return False
    print(f"long {' '.join(words)}: status {ran.returncode}, {ran.stdout[-300:]!r}, {ran.stderr[:300]!r}", file=sys.stderr)
    return True


def main(words):
    """Tries all calls, and returns the status."""
    program = words[0] if words else PROGRAM
    with tempfile.TemporaryDirectory() as folder:
        write_files(folder)
        failed = [words for words, *rest in calls() if fails(program, folder, words, *rest)]
    if not failed:
        print("long: 0 faults")
    return int(bool(failed))


if __name__ == "__main__":
    sys.exit(main(sys.argv[1:]))
