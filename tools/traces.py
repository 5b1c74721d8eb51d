#!/usr/bin/env python3
"""tools/traces.py: makes waveforms of traces that are cut off, or changed in a byte or a line, with --cut and without.

The expected result of each text is worked out here from docs/formats/trace.md, "What is no trace", without the program. A text that is
still a trace has the dump of its lines (tools/waves.py); with --cut, so has one that is cut off. Any other is refused with the number
of the line at which that shows first, and --why adds a line about it. These calls show it for some thousands of texts.

./gate makes them each time it has run the program. Without ./gate they use the program that ./simulate built."""

import itertools
import re
import sys
from typing import NamedTuple, Optional

import waves
from kit import TOP
from program import Room, side_by_side

PROGRAM = "fbsim"
OTHERS = b"\n 09=S"
SHOWN = 5

SIGNED = {"SINT": 8, "INT": 16, "DINT": 32, "LINT": 64, "TIME": 64}
UNSIGNED = {"USINT": 8, "UINT": 16, "UDINT": 32, "ULINT": 64}
NUMBER = re.compile("0|[1-9][0-9]*")
WHOLE = re.compile("0|-?[1-9][0-9]*")
REASONS = ("steps", "divide", "range")
# In form two a line begins with the class and the parts of its key, which have these numbers of bits.
KEY = (8, 128, 128)

# The event ports of the declarations of tools/waves.py, as lines have them, with their variables and types.
SWITCH_PORTS = {
    "R1 > F.S": [], "R1 > F.R": [], "R1 < F.EO": [("Q", "BOOL")],
    "R2 > W.EI": [("G", "BOOL")], "R2 < W.EO0": [], "R2 < W.EO1": [],
}
SINK_PORTS = {"MAIN > P.GO": [("A", "LINT"), ("B", "ULINT"), ("C", "SINT"), ("D", "BOOL"), ("E", "TIME")]}
ENDS = b"""0 MAIN > P.GO A=9223372036854775807 B=18446744073709551615 C=127 D=TRUE E=-1
1 MAIN > P.GO A=-9223372036854775808 B=0 C=-128 D=FALSE E=0
stop 1 MAIN range
"""


class Text(NamedTuple):
    """A trace, the words and files of its declaration, and the ports that are declared."""

    trace: bytes
    words: list
    ports: dict


FILES = {"switch.iec": waves.SWITCH, "switch.toml": waves.TWO_RESOURCES, "sink.iec": waves.SINK}
OF_SWITCH = ["wave", "switch.iec", "--deploy", "switch.toml", "-"]
TEXTS = [
    Text(waves.SWITCHED, OF_SWITCH, SWITCH_PORTS),
    Text(waves.form_one(waves.SWITCHED), OF_SWITCH, SWITCH_PORTS),
    Text(ENDS, ["wave", "sink.iec", "-"], SINK_PORTS),
]


# ---- What is no trace


def number(word, bits):
    """The number below 2 to the power of these bits that a word is, or None."""
    return int(word) if NUMBER.fullmatch(word) and int(word) < 2**bits else None


def is_value(word, kind):
    """Whether a word is a value of a type."""
    if kind == "BOOL":
        return word in ("TRUE", "FALSE")
    bits = UNSIGNED.get(kind) or SIGNED[kind] - 1
    return bool(WHOLE.fullmatch(word)) and (0 if kind in UNSIGNED else -(2**bits)) <= int(word) < 2**bits


def tick_of(line, form, ports):
    """The tick of a line in a form, or None if it is no line."""
    words = line.split(" ")
    if form == 2:
        if len(words) < len(KEY) or any(number(word, bits) is None for word, bits in zip(words, KEY)):
            return None
        words = words[len(KEY) :]
    variables = ports.get(" ".join(words[1:4]))
    bound = [it.partition("=") for it in words[4:]]
    if variables is None or [name for name, _ in variables] != [name for name, _, _ in bound]:
        return None
    if not all(sign and is_value(word, kind) for (_, sign, word), (_, kind) in zip(bound, variables)):
        return None
    return number(words[0], 64)


def least_end(line, ports):
    """The tick of a last line, below which all lines are, or None if it is no last line."""
    kind, *words = line.split(" ")
    tick = number(words[0], 64) if words else None
    if kind == "end" and len(words) == 1:
        return tick
    holders = {it.split(" ")[0] for it in ports}
    if kind == "stop" and len(words) == 3 and words[1] in holders and words[2] in REASONS and tick is not None:
        return tick + 1
    return None


def refused_at(text, ports, may_cut=False):
    """The number of the line at which a text shows first that it is no trace, or None if it is one. It may be cut off, or not."""
    *lines, cut = text.split("\n")
    second = (lines + [cut])[0].split(" ")[1:2]
    form = 2 if re.match("[0-9]", "".join(second)) else 1
    last = 0
    for count, line in enumerate(lines, 1):
        end = least_end(line, ports)
        if end is not None:
            return count if end <= last else count + 1 if lines[count:] or cut else None
        tick = tick_of(line, form, ports)
        if tick is None or tick < last:
            return count
        last = tick
    return None if may_cut else len(lines) + 1


# ---- Texts


def changed(text):
    """The text cut at each byte; with each byte removed, doubled, or replaced by others; with each line removed, doubled, or moved before
    the last."""
    lines = text.splitlines(keepends=True)
    for at in range(len(text)):
        yield text[:at]
        for it in (b"", text[at : at + 1] * 2, *(bytes([other]) for other in OTHERS)):
            yield text[:at] + it + text[at + 1 :]
    for at, line in enumerate(lines):
        for before, after in (([], []), ([line, line], []), ([], [line])):
            yield b"".join([*lines[:at], *before, *lines[at + 1 : -1], *after, *lines[max(at + 1, len(lines) - 1) :]])


def faults_of_dump(it, text, dump):
    """What is wrong with the dump of a text, of which the whole lines count."""
    whole = text[: text.rfind(b"\n") + 1]
    # (the first line of form two has a digit where that of form one has a name)
    is_second = whole.split(b" ")[1:2] and whole.split(b" ")[1][:1].isdigit() and not waves.is_last(whole)
    deployment = FILES[it.words[3]] if "--deploy" in it.words else None
    case = waves.Case("", FILES[it.words[1]], deployment, (waves.form_one(whole) if is_second else whole,))
    return waves.faults(case, dump, False)


def fault(it, text, may_cut, ran):
    """What is wrong with the result of a text, or None."""
    refused: Optional[int] = refused_at(text.decode("latin-1"), it.ports, may_cut)
    if refused is not None:
        said = re.compile(rb"refused trace line %d\ntrace: line %d: [^\n]+\n" % (refused, refused))
        is_well = (ran.returncode, ran.stdout) == (2, b"") and said.fullmatch(ran.stderr)
        return None if is_well else f"{text!r}: line {refused}, and not {ran.returncode} {ran.stdout[-200:]!r} {ran.stderr!r}"
    wrong = [str(ran.stderr)] if ran.returncode or ran.stderr else faults_of_dump(it, text, ran.stdout)
    return f"{text!r}: a trace{', which may be cut off,' * may_cut} and {wrong}" if wrong else None


def try_all(program):
    """Returns whether each text has the expected result."""
    made, faults = 0, []
    with Room(program, FILES) as room:
        for it, may_cut in itertools.product(TEXTS, (False, True)):
            texts = sorted({it.trace, *changed(it.trace)})
            runs = side_by_side(lambda text: room.call([*it.words, "--why", *["--cut"] * may_cut], text), texts)
            found = [fault(it, text, may_cut, ran) for text, ran in zip(texts, runs)]
            made, faults = made + len(texts), faults + [one for one in found if one]
    for it in faults[:SHOWN]:
        print(it)
    print(f"{PROGRAM}: {made - len(faults)} of {made} traces that were cut or changed are shown, or refused at their line", flush=True)
    return not faults


if __name__ == "__main__":
    sys.exit(not try_all(sys.argv[1] if len(sys.argv) > 1 else f"{TOP}/crates/{PROGRAM}/out/{PROGRAM}"))
