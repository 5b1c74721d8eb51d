#!/usr/bin/env python3
"""tools/slips.py [PROGRAM]: what `check --lint` says of the examples and of the tutorial, as they are and with mistakes in them.

As they are there is no warning. In each copy one mistake is made, two of each kind that the table below has. `check --lint` must report
exactly the warnings of the table, each with its file, its line and its column. The places are found in the changed text: a stroke
stands before each, in a piece of text that is there once. A row of stimuli has a number in place of them. They were found by hand, as
the words were, by the table of warnings in docs/formats/refusals.md.

./gate runs this each time it has run the program. Without ./gate it uses the program that ./simulate built."""

import os
import re
import sys
from typing import NamedTuple

import pages
from kit import TOP
from program import Room, side_by_side

PROGRAM = f"{TOP}/crates/fbsim/out/fbsim"
EXAMPLES = f"{TOP}/examples"
TUTORIAL = "docs/FIRST_APPLICATION.md"
# The options of `run` that `check` does not take, with the word after each.
RUN_ALONE = ("--horizon", "--steps", "--workers", "--trace")
# The words of the examples without a call of their own: what an application in XML is converted to, and the same one in text.
CONVERTED = {
    "xml/parcels/imported": "application.iec --types types.iec --deploy deploy.toml",
    "xml/parcels/text": "parcels.iec --deploy deploy.toml",
}
UNSENT = ": it is used, and it is WITH no event output"
ALONE = ": no event connection and no stimulus leads to it"
OPEN = ": no connection and no stimulus leads to it"
NARROW = ": the variable can't hold this constant"
ZERO = ": it divides by 0"
ROUND = ": transitions that always clear lead back to it"
NEVER = ": this event never comes, since each run is a cold start"
TWICE = ": two labels have a value in common"
UNREAD = ": no guard and no algorithm reads it"
EARLY = ": it comes before the event from COLD that leads to its instance"


class Slip(NamedTuple):
    """A mistake in a copy of an example: in this file the one text is replaced by the other. Warnings are places and lines."""

    folder: str
    file: str
    old: str
    new: str
    warnings: list


SLIPS = [
    # L14: the event does not carry the variable
    Slip("crossing", "crossing.iec", "PHASE WITH ASPECT, DURATION;", "PHASE WITH ASPECT;", [
        ("  |DURATION : TIME;", f"L14: block type SEQUENCE: data output DURATION{UNSENT}"),
    ]),
    Slip("tank", "tank.iec", "MOVED WITH OPENED;", "MOVED;", [
        ("  |OPENED : BOOL;", f"L14: block type ACTUATOR: data output OPENED{UNSENT}"),
    ]),
    # L15: a connection was forgotten
    Slip("startup", "startup.iec", "  PURGE.EO TO BURNER.S;\n", "", [
        ("  |BURNER : E_SR;", f"L15: application STARTUP: instance BURNER{ALONE}"),
    ]),
    Slip("bottling/shift", "../bottling.iec", "  CAMERA.JUDGED TO WAY.EI;\n", "", [
        ("  |WAY : E_SWITCH;", f"L15: block type REJECT_STATION: instance WAY{ALONE}"),
    ]),
    # L16: one of several was
    Slip("conveyor", "conveyor.iec", "  BEHIND.CAME TO GATE.PASSED;\n", "", [
        ("  |GATE : STOP_GATE;", f"L16: application CONVEYOR: instance GATE : STOP_GATE, event input PASSED{OPEN}"),
    ]),
    Slip("bottling/shift", "../bottling.iec", "  MODE TO GATE.MODE;\n", "", [
        ("  |GATE : STOPPER;", f"L16: block type FILL_STATION: instance GATE : STOPPER, event input MODE{OPEN}"),
    ]),
    # L17: a constant is too large, or negative
    Slip("crossing", "crossing.iec", "ASPECT := 3;", "ASPECT := 300;", [
        ("  |ASPECT := 300;", f"L17: block type SEQUENCE: algorithm EMPTY: statement 1{NARROW}"),
    ]),
    Slip("bottling/shift", "../bottling.iec", "REASON := 2;", "REASON := -2;", [
        ("    |REASON := -2;", f"L17: block type RECIPE: algorithm DECLINE: statement 3{NARROW}"),
    ]),
    # L17: a FOR begins with it
    Slip("crossing", "crossing.iec", "ASPECT := 3;", "FOR ASPECT := 300 TO 301 DO END_FOR;", [
        ("  |FOR ASPECT := 300", f"L17: block type SEQUENCE: algorithm EMPTY: statement 1{NARROW}"),
    ]),
    Slip("xml/parcels/text", "parcels.iec", "TOTAL := TOTAL + BY_1;", "FOR TOTAL := -(1) TO BY_1 DO END_FOR;", [
        ("  |FOR TOTAL := -(1)", f"L17: block type COUNTER: algorithm ADD: statement 1{NARROW}"),
    ]),
    # L18: a divisor is 0
    Slip("tank", "tank.iec", "RAW * 2000 / 4095;", "RAW * 2000 / 0;", [
        ("  |MM := RAW * 2000 / 0;", f"L18: block type LEVEL_PROBE: algorithm SCALE: statement 1{ZERO}"),
    ]),
    Slip("bottling/shift", "../bottling.iec", "[TORQUE >= WANTED OR", "[TORQUE MOD (0) >= WANTED OR", [
        ("MEASURED TO DONE := [|TORQUE MOD", f"L18: block type CAPPING: transition MEASURED TO DONE, guard{ZERO}"),
    ]),
    # L19: a state waits for nothing
    Slip("crossing", "crossing.iec", "IDLE TO DECODE := SHOW;", "IDLE TO DECODE := 1;", [
        ("EC_STATES\n  |IDLE;\n  DECODE : CHOOSE", f"L19: block type DECODER: state IDLE{ROUND}"),
        ("  |DECODE : CHOOSE", f"L19: block type DECODER: state DECODE{ROUND}"),
    ]),
    Slip("bottling/shift", "../bottling.iec", "BARE TO GONE := 1;", "BARE TO BARE := 1;", [
        ("  |BARE : KEEP;", f"L19: block type LABELLING: state BARE{ROUND}"),
    ]),
    # L19: a guard that is always true
    Slip("xml/parcels/text", "parcels.iec", "FED TO IDLE := 1;", "FED TO FED := [TRUE];", [
        ("  |FED : FEED", f"L19: block type FEEDER: state FED{ROUND}"),
    ]),
    Slip("bottling/shift", "../bottling.iec", "BARE TO GONE := 1;", "BARE TO BARE := [(TRUE)];", [
        ("  |BARE : KEEP;", f"L19: block type LABELLING: state BARE{ROUND}"),
    ]),
    # L20: the wrong event of E_RESTART
    Slip("startup", "startup.iec", "POWER.COLD TO PUMP.S;", "POWER.WARM TO PUMP.S;", [
        ("  |POWER.WARM TO PUMP.S;", f"L20: application STARTUP: event connection POWER.WARM TO PUMP.S{NEVER}"),
    ]),
    Slip("watchdog", "watchdog.iec", "POWER.COLD TO CRASH.START;", "POWER.STOP TO CRASH.START;", [
        ("  |POWER.STOP TO CRASH.START;", f"L20: application WATCHDOG: event connection POWER.STOP TO CRASH.START{NEVER}"),
    ]),
    # L21: a label was copied, or is in a range
    Slip("bottling/shift", "../bottling.iec", "    2:\n      VOLUME := 750;", "    1:\n      VOLUME := 750;", [
        ("  |CASE NUMBER OF", f"L21: block type RECIPE: algorithm LOAD: statement 1{TWICE}"),
    ]),
    Slip("bottling/rejects", "../bottling.iec", "    2:\n      VOLUME := 750;", "    -3..1:\n      VOLUME := 750;", [
        ("  |CASE NUMBER OF", f"L21: block type RECIPE: algorithm LOAD: statement 1{TWICE}"),
    ]),
    # L22: a variable was forgotten
    Slip("bottling/shift", "../bottling.iec", "TRIES >= MOST_TRIES]", "TRIES >= 3]", [
        ("  |MOST_TRIES : USINT := 3;", f"L22: block type CAPPING: variable MOST_TRIES{UNREAD}"),
    ]),
    Slip("tank", "tank.iec", "[OPEN <> BEFORE];", "[OPEN];", [
        ("  |BEFORE : BOOL;", f"L22: block type HYSTERESIS: variable BEFORE{UNREAD}"),
    ]),
    # L23: a row comes before the start
    Slip("bottling/shift", "stimuli.csv", "0,LABEL.ROLL,COUNT=12\n", "0,LABEL.ROLL,COUNT=12\n0,FILL.ARRIVE,\n", [
        ("0,LABEL.ROLL,COUNT=12\n|0,FILL.ARRIVE,", f"L23: stimuli: row 1{EARLY}"),
    ]),
    Slip("conveyor", "stimuli.csv", "tick,event,values\n", "tick,event,values\n0,BELT.R,\n", [
        ("|0,BELT.R,", f"L23: stimuli: row 0{EARLY}"),
    ]),
]


def content(path):
    with open(path, encoding="utf-8") as it:
        return it.read()


def words_of(folder):
    """Returns the words of `check --lint` for an example, and the files that they name."""
    words = f"run {CONVERTED[folder]}".split() if folder in CONVERTED else content(f"{EXAMPLES}/{folder}/args").split()
    kept, names = ["check", "--lint"], []
    while words := words[1:]:
        if words[0] in RUN_ALONE:
            words = words[1:]
            continue
        if not words[0].startswith("-"):
            names.append(words[0])
        kept.append(words[0])
    return kept, names


def place_of(text, marked):
    """Returns the line and the column of the stroke in a piece of the text, which is there once."""
    front, back = marked.split("|")
    if text.count(front + back) != 1:
        raise ValueError(f"{marked!r} must be in the text once")
    at = text.index(front + back) + len(front)
    return text.count("\n", 0, at) + 1, len(text[text.rfind("\n", 0, at) + 1 : at].encode()) + 1


def checked(room, name, folder, changed=()):
    """Calls `check --lint` for a copy of an example, with other texts in place of some of its files."""
    words, names = words_of(folder)
    top = f"{room.folder}/{name}"
    for it in names:
        path = os.path.normpath(f"{top}/{folder}/{it}")
        os.makedirs(os.path.dirname(path), exist_ok=True)
        text = dict(changed).get(it, content(f"{EXAMPLES}/{folder}/{it}"))
        with open(path, "w", encoding="utf-8") as file:
            file.write(text)
    os.makedirs(f"{top}/{folder}", exist_ok=True)
    found = room.run(["sh", "-c", 'cd "$1" && shift && exec "$@"', "sh", f"{top}/{folder}", room.program, *words])
    return found.returncode, found.stdout.decode(), found.stderr.decode()


def expected_of(slip, text):
    """Returns the lines that must be reported of a text with the mistake in it."""
    lines = []
    for marked, words in slip.warnings:
        lines.append("{}:{}:{}: {}\n".format(slip.file, *place_of(text, marked), words))
    return "".join(lines)


def try_slip(room, number, slip):
    """Returns what is wrong with the answer to one mistake."""
    text = content(f"{EXAMPLES}/{slip.folder}/{slip.file}")
    if text.count(slip.old) != 1:
        return f"{slip.file}: {slip.old!r} must be there once"
    text = text.replace(slip.old, slip.new)
    expected = expected_of(slip, text)
    found = checked(room, f"slip{number}", slip.folder, [(slip.file, text)])
    if found != (0, "accepted\n", expected):
        return f"{slip.folder}: {slip.new!r}: expected\n{expected}and found\n{found}"
    return ""


def try_example(room, folder):
    """Returns what is wrong with the answer to an example as it is."""
    found = checked(room, f"whole/{folder}", folder)
    return "" if found == (0, "accepted\n", "") else f"{folder}: {found}"


def try_page(room):
    """Returns what is wrong with the answers to the applications of the tutorial that are accepted."""
    wrong, files, tried, top = [], {}, 0, f"{room.folder}/page"
    os.makedirs(top, exist_ok=True)
    for above, kind, _, lines in pages.blocks(TUTORIAL, content(f"{TOP}/{TUTORIAL}")):
        named = pages.FILE.fullmatch(above.strip())
        if named and not kind:
            files[named[1]] = lines
            with open(f"{top}/{named[1]}", "w", encoding="utf-8") as it:
                it.write("\n".join(lines) + "\n")
        for _, command in [(0, it[2:]) for it in lines if kind == "console" and it.startswith("$ fbsim run ")]:
            words = re.sub(r"/tmp/", "", command).split(" > ")[0].split(" | ")[0].split()[2:]
            kept, skip = ["check", "--lint"], False
            for word in words:
                if skip or word in RUN_ALONE:
                    skip = not skip
                    continue
                kept.append(word)
            # (a file that the page's commands make is not there)
            if any(re.search(r"\.\w+$", it) and it not in files for it in kept[2:]):
                continue
            tried += 1
            found = room.run(["sh", "-c", 'cd "$1" && shift && exec "$@"', "sh", top, room.program, *kept])
            if (found.returncode, found.stderr) != (0, b""):
                wrong.append(f"{TUTORIAL}: {command}: {found.returncode} {found.stdout!r} {found.stderr!r}")
    if not tried:
        wrong.append(f"{TUTORIAL}: no run of an application was found")
    return "\n".join(wrong)


def try_all(program):
    """Tries all mistakes, and says whether each was reported as it must be."""
    folders = sorted([*CONVERTED, *(it.path.removeprefix(f"{EXAMPLES}/").removesuffix("/args") for it in args_files())])
    with Room(program) as room:
        found = side_by_side(lambda it: try_slip(room, *it), list(enumerate(SLIPS)))
        found += side_by_side(lambda it: try_example(room, it), folders)
        found.append(try_page(room))
    wrong = [it for it in found if it]
    for it in wrong:
        print(f"slips: {it}", file=sys.stderr)
    print(f"slips: {len(SLIPS)} mistakes, {len(folders)} examples and the tutorial, {len(wrong)} wrong")
    return not wrong


def args_files():
    """Returns the files with the call of each example."""
    for top, _, names in os.walk(EXAMPLES):
        if "args" in names:
            yield next(it for it in os.scandir(top) if it.name == "args")


if __name__ == "__main__":
    sys.exit(not try_all(sys.argv[1] if len(sys.argv) > 1 else PROGRAM))
