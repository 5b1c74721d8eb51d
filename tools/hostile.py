#!/usr/bin/env python3
"""tools/hostile.py: runs the built program on texts that are cut off, or changed in one byte.

A declaration, a deployment and stimuli that are accepted are cut at each byte, and each of their bytes is replaced in turn
by each of five others. The program must accept the text and its run must end, or refuse it with a number and write nothing.
Then --why must print the place too, which for a syntax fault is on the line of the refusal, or where an earlier line ends without its semicolon. A declaration that lacks a part of its last word is refused
for its tokens or for its grammar.

./gate makes these calls each time it has run the program. Without ./gate they use the program that ./simulate built."""

import re
import sys
from typing import NamedTuple

from kit import TOP
from program import Room, side_by_side

PROGRAM = "fbsim"
OTHERS = b'\0(;"\xff'
SHOWN = 5

TWICE = b"""FUNCTION_BLOCK DOUBLER
  EVENT_INPUT GO WITH X; END_EVENT
  EVENT_OUTPUT DONE WITH Y; END_EVENT
  VAR_INPUT X : INT; END_VAR
  VAR_OUTPUT Y : INT; END_VAR
  EC_STATES IDLE; RUN : DBL -> DONE; END_STATES
  EC_TRANSITIONS IDLE TO RUN := GO; RUN TO IDLE := 1; END_TRANSITIONS
  ALGORITHM DBL IN ST: Y := 2 * X; END_ALGORITHM
END_FUNCTION_BLOCK
FUNCTION_BLOCK TWICE
  EVENT_INPUT EI WITH N; END_EVENT
  EVENT_OUTPUT EO WITH M; END_EVENT
  VAR_INPUT N : INT; END_VAR
  VAR_OUTPUT M : INT; END_VAR
  FBS A : DOUBLER; END_FBS
  EVENT_CONNECTIONS EI TO A.GO; A.DONE TO EO; END_CONNECTIONS
  DATA_CONNECTIONS N TO A.X; A.Y TO M; END_CONNECTIONS
END_FUNCTION_BLOCK
APPLICATION A FBS T : TWICE; END_FBS END_APPLICATION"""
CYCLE = b"APPLICATION A FBS C : E_CYCLE(DT := T#2ms); END_FBS END_APPLICATION"
MERGES = b"""APPLICATION A FBS P : E_MERGE; Q : E_MERGE; M : E_MERGE; END_FBS
EVENT_CONNECTIONS P.EO TO M.EI1; Q.EO TO M.EI2; END_CONNECTIONS END_APPLICATION"""
DEPLOYED = b"""resource = [
{ device = 'D', name = 'R1', instances = ['P', 'Q'] },
{ device = 'D', name = 'R2', instances = ['M'] },
]
link = [{ from = 'R1', to = 'R2', latencies = [[0, 5], [10, 1]] }]
"""
FILES = {
    "twice.csv": b"tick,event,values\n0,T.EI,N=21\n",
    "cycle.iec": CYCLE,
    "merges.iec": MERGES,
    "merges.csv": b"tick,event,values\n8,P.EI1,\n10,Q.EI1,\n",
}
ENDED = re.compile(rb"([0-9]+ .*\n)*(end [0-9]+|stop [0-9]+ \w+ \w+)\n")
OF_TOKENS = rb"\n(line [1-9][0-9]*, column |-:[1-9][0-9]*:)[1-9][0-9]*: .+"
# A semicolon that is missing at the end of a line is shown there.
OF_EARLIER_LINE = rb"-:[1-9][0-9]*:[1-9][0-9]*: E03: found \S+ on a later line, expected .+ \(this line ends without ;\)"
OF_GRAMMAR = rb"E03 line (?P<line>[1-9][0-9]*)\n(-:(?P=line):[1-9][0-9]*: .+|" + OF_EARLIER_LINE + rb")"
REFUSED = re.compile(rb"refused (" + OF_GRAMMAR + rb"|E0[1245]" + OF_TOKENS + rb"|E([12][0-9]|30)\n.+)\n(.*\n)*")
CUT = re.compile(rb"refused (" + OF_GRAMMAR + rb"|E02" + OF_TOKENS + rb")\n(.*\n)*")


class Text(NamedTuple):
    """A text that is accepted, the words that read it from standard input and run it, the whole trace of that, and how the program
    may refuse a beginning of it."""

    name: str
    text: bytes
    words: list
    trace: bytes
    cut: re.Pattern = REFUSED


DECLARATION = Text(
    "declaration",
    TWICE,
    ["run", "-", "--stim", "twice.csv", "--horizon", "1"],
    b"0 MAIN > T.EI N=21\n0 MAIN > T.A.GO X=21\n0 MAIN < T.A.DONE Y=42\n0 MAIN < T.EO M=42\nend 1\n",
    CUT,
)
TEXTS = [
    DECLARATION,
    Text(
        "deployment",
        DEPLOYED,
        ["run", "merges.iec", "--deploy", "-", "--stim", "merges.csv", "--horizon", "14", "--workers", "2"],
        b"8 R1 > P.EI1\n8 R1 < P.EO\n10 R1 > Q.EI1\n10 R1 < Q.EO\n11 R2 > M.EI2\n11 R2 < M.EO\n13 R2 > M.EI1\n13 R2 < M.EO\nend 14\n",
    ),
    Text(
        "stimuli",
        b"tick,event,values\n0,C.START,\n1,C.START,DT=5\n5,C.STOP,\n",
        ["run", "cycle.iec", "--stim", "-", "--horizon", "8"],
        b"0 MAIN > C.START DT=2\n1 MAIN > C.START DT=5\n2 MAIN < C.EO\n4 MAIN < C.EO\n5 MAIN > C.STOP\nend 8\n",
    ),
]


def beginnings(text):
    return [text[:end] for end in range(len(text))]


def changed(text):
    """The text with one byte replaced, in all ways that leave it another text."""
    return [text[:at] + bytes([it]) + text[at + 1 :] for at in range(len(text)) for it in OTHERS if text[at] != it]


def has_a_name(ran, refused):
    """Whether a run has ended or stopped, or was refused in this way, with its place and with nothing written."""
    if ran.returncode in (0, 1):
        return bool(ENDED.fullmatch(ran.stdout)) and not ran.stderr
    return ran.returncode == 2 and not ran.stdout and bool(refused.fullmatch(ran.stderr))


def faults_of(room, it):
    """Returns what is wrong with the results for this text, a line each, and the number of calls."""
    whole = room.call(it.words, it.text)
    if (whole.returncode, whole.stdout) != (0, it.trace):
        return [f"{it.name}: status {whole.returncode}, {whole.stdout!r}"], 1
    given = [(text, it.cut) for text in beginnings(it.text)] + [(text, REFUSED) for text in changed(it.text)]
    runs = side_by_side(lambda pair: room.call([*it.words, "--why"], pair[0]), given)
    return [
        f"{it.name} {text!r}: status {ran.returncode}, {ran.stdout[:200]!r}, {ran.stderr[:200]!r}"
        for (text, refused), ran in zip(given, runs)
        if not has_a_name(ran, refused) or (refused is CUT and ran.returncode != 2)
    ], len(given) + 1


def try_all(program):
    """Returns whether each text was accepted, or refused with a number and a place."""
    made, faults = 0, []
    with Room(program, FILES) as room:
        for it in TEXTS:
            found, count = faults_of(room, it)
            made, faults = made + count, faults + found
    for it in faults[:SHOWN]:
        print(it)
    print(f"{PROGRAM}: {made - len(faults)} of {made} texts that were cut or changed are accepted, or refused by a number and with a place", flush=True)
    return not faults


if __name__ == "__main__":
    sys.exit(not try_all(f"{TOP}/crates/{PROGRAM}/out/{PROGRAM}"))
