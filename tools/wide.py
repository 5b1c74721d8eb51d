#!/usr/bin/env python3
"""Runs declarations in which one type has 70,000 events and 70,000 variables, more than 16 bits can number, and compares their
traces, which follow from the rules: tools/wide.py [PROGRAM]

./gate runs it each time it has run the program."""

import os
import string
import subprocess
import sys
import tempfile

COUNT = 70_000
PROGRAM = os.path.join(os.path.dirname(os.path.abspath(__file__)), os.pardir, "simulate")
DIGITS = string.digits + string.ascii_uppercase


def names(letter):
    """This many names of a letter and four digits of base 36."""
    return [letter + "".join(DIGITS[k // 36**p % 36] for p in (3, 2, 1, 0)) for k in range(COUNT)]


EVENTS, VARIABLES = names("E"), names("V")
LAST_EVENT, LAST_VARIABLE = EVENTS[-1], VARIABLES[-1]


def declaration(ports, chart, others="", connections=""):
    return (
        f"FUNCTION_BLOCK WIDE {ports}\n{chart}\nEND_FUNCTION_BLOCK\n"
        f"APPLICATION A FBS F : WIDE; {others}END_FBS {connections}END_APPLICATION\n"
    )


def events(kind):
    return f"{kind} {';'.join(EVENTS)} WITH {LAST_VARIABLE}, {VARIABLES[0]}; END_EVENT"


def variables(kind):
    return f"{kind} {','.join(VARIABLES)} : DINT; END_VAR"


def inputs():
    """The last of all event inputs is taken, with the first and the last of all data inputs."""
    text = declaration(f"{events('EVENT_INPUT')} {variables('VAR_INPUT')}", "EC_STATES IDLE; END_STATES")
    stimuli = f"tick,event,values\n3,F.{LAST_EVENT},{LAST_VARIABLE}=5 {VARIABLES[0]}=7\n"
    return text, stimuli, f"3 MAIN > F.{LAST_EVENT} {VARIABLES[0]}=7 {LAST_VARIABLE}=5\nend 8\n"


def outputs():
    """The last of all event outputs is emitted, with the first and the last of all data outputs, and leads to a merge."""
    chart = (
        f"EC_STATES IDLE; BUSY : SET -> {LAST_EVENT}; END_STATES EC_TRANSITIONS IDLE TO BUSY := GO; END_TRANSITIONS\n"
        f"ALGORITHM SET IN ST: {LAST_VARIABLE} := 5; END_ALGORITHM"
    )
    ports = f"EVENT_INPUT GO; END_EVENT {events('EVENT_OUTPUT')} {variables('VAR_OUTPUT')}"
    connections = f"EVENT_CONNECTIONS F.{LAST_EVENT} TO M.EI1; END_CONNECTIONS "
    trace = f"3 MAIN > F.GO\n3 MAIN < F.{LAST_EVENT} {VARIABLES[0]}=0 {LAST_VARIABLE}=5\n3 MAIN > M.EI1\n3 MAIN < M.EO\nend 8\n"
    return declaration(ports, chart, "M : E_MERGE; ", connections), "tick,event,values\n3,F.GO,\n", trace


def fails(name, text, stimuli, trace, program, words):
    """Whether a run gives another trace, which is then printed."""
    with tempfile.TemporaryDirectory() as folder:
        for file, content in (("declaration", text), ("stimuli", stimuli)):
            with open(os.path.join(folder, file), "w", encoding="ascii") as out:
                out.write(content)
        call = [os.path.abspath(program), "run", "declaration", "--stim", "stimuli", "--horizon", "8", *words]
        ran = subprocess.run(call, cwd=folder, capture_output=True, text=True, check=False)
    if (ran.returncode, ran.stdout) == (0, trace):
        return False
    print(f"wide {name} {' '.join(words)}: status {ran.returncode}, {ran.stdout[:300]!r}, {ran.stderr[:300]!r}", file=sys.stderr)
    return True


def main(words):
    """Tries both, and returns the status."""
    program = words[0] if words else PROGRAM
    failed = fails("inputs", *inputs(), program, ["--serial"])
    failed |= fails("outputs", *outputs(), program, ["--workers", "2"])
    if not failed:
        print("wide: 0 faults")
    return int(failed)


if __name__ == "__main__":
    sys.exit(main(sys.argv[1:]))
