#!/usr/bin/env python3
"""plant.py [PROGRAM]: plays the tank for the controller of tank.iec, through `fbsim session`, and writes all that the session answers.

The model has an outflow that grows with the level, and an inflow while the valve is open. It is integrated in steps of 100 ms. Each
step goes to its tick, looks for a valve that has moved, and gives the level of the probe, 0 to 4095 for 0 to 2000 mm."""

import os
import subprocess
import sys

STEP, END = 100, 15000
CALL = ["session", "tank.iec", "--deploy", "session/deploy.toml"]


def ask(session, command):
    """Sends a command, and returns the lines up to its answer."""
    session.stdin.write(command + "\n")
    session.stdin.flush()
    lines = []
    while True:
        line = session.stdout.readline()
        if not line:
            sys.exit(f"the session ended after: {command}")
        sys.stdout.write(line)
        lines.append(line)
        if line.startswith(("=", "!", "stop ", "end ")):
            return lines


def flow(level, is_open):
    """Returns the level after a step, in hundredths of a millimetre."""
    return min(max(level - level // 100 + (3000 if is_open else 0), 0), 200000)


def play(session):
    """Lets the tank and its controller run to the end."""
    level, is_open = 120000, False
    for tick in range(STEP, END, STEP):
        for line in ask(session, f"until {tick}"):
            if "VALVE.MOVED OPENED=" in line:
                is_open = line.rstrip().endswith("TRUE")
        level = flow(level, is_open)
        ask(session, f"give {tick} PROBE.PLANT RAW={level * 4095 // 200000}")
    ask(session, f"end {END}")


if __name__ == "__main__":
    program = sys.argv[1] if len(sys.argv) > 1 else "fbsim"
    os.chdir(os.path.join(os.path.dirname(os.path.abspath(__file__)), ".."))
    with subprocess.Popen([program, *CALL], stdin=subprocess.PIPE, stdout=subprocess.PIPE, text=True) as talk:
        play(talk)
    sys.exit(talk.returncode)
