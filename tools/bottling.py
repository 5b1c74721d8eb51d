#!/usr/bin/env python3
"""tools/bottling.py: checks that the traces of examples/bottling do what its README.md says that the line must do.

The page has a section for each scenario, with lines of its trace, which must be in the trace in that order. The rules of the page
are checked over all lines of each trace, and each rule must find the fault in a trace with one line changed. The expected values
come from the page, not from the program. ./gate runs this before anything is built; tools/calls.py compares what the program
writes with the traces, and tools/bottling_suite.py tries the suite."""

import re
import sys
from itertools import pairwise
from typing import NamedTuple

TOP = f"{__file__.rpartition('/')[0] or '.'}/.."
FOLDER = f"{TOP}/examples/bottling"
SECTION = re.compile(r"^## Scenario `(\w+)`\n(.*?)(?=^## |\Z)", re.M | re.S)
SHOWN = re.compile(r"^\| `([^`]+)` \|", re.M)
LINE = re.compile(r"(\d+) (\w+) ([<>]) ([\w.]+)((?: \w+=\S+)*)")
LAST = re.compile(r"end \d+")
# By recipe: volume, torque and bottles of a layer. Before the first choice the values are those of recipe 1.
RECIPES = {1: (500, 140, 4), 2: (750, 160, 3), 3: (1000, 180, 2)}
LAYERS = 2


class Line(NamedTuple):
    """A line of a trace: its tick, its port with the sign before it, and its values."""

    tick: int
    port: str
    values: dict

    def __getattr__(self, name):
        return self.values[name]


def number(word):
    return word == "TRUE" if word in ("TRUE", "FALSE") else int(word)


def lines_of(trace):
    """Returns the lines of a trace without the last one."""
    *lines, last = trace.splitlines()
    if not LAST.fullmatch(last):
        raise ValueError(f"the trace ends with {last}")
    found = [LINE.fullmatch(it) for it in lines]
    return [Line(int(it[1]), it[3] + it[4], {key: number(word) for key, word in re.findall(r"(\w+)=(\S+)", it[5])}) for it in found]


def at(lines, *ports):
    return [it for it in lines if it.port in ports]


# ---- The rules. Each returns the ticks at which a trace breaks it.


def nothing_moves(lines):
    """A station that has heard that the line does not run opens no valve, hands over no bottle and turns no cap."""
    for heard, moves in ((">FILL.DOSE.MODE", ("<FILL.DOSE.OPENED", "<FILL.DOSE.FILLED")), (">CAP.HEAD.MODE", ("<CAP.HEAD.TURNED",))):
        runs = False
        for it in at(lines, heard, *moves):
            if it.port == heard:
                runs = it.RUN
            elif not runs:
                yield it.tick


def valve_closes(lines):
    """The valve is open for the time that the recipe says, or is closed as soon as the station hears that the line does not run."""
    for opened, closed in zip(at(lines, "<FILL.DOSE.OPENED"), at(lines, "<FILL.DOSE.CLOSED"), strict=True):
        halts = [it.tick for it in at(lines, ">FILL.DOSE.MODE") if not it.RUN and opened.tick < it.tick <= opened.tick + opened.DURATION]
        if closed.tick != min([opened.tick + opened.DURATION, *halts]):
            yield closed.tick


def level_is_flow_by_time(lines):
    """The level is the flow times the time; of a bottle that was interrupted it is 0."""
    flow, opened, is_timeout = 500, None, False
    for it in at(lines, ">FILL.METERED", "<FILL.DOSE.OPENED", ">FILL.DOSE.TIMEOUT", "<FILL.DOSE.CLOSED"):
        if it.port == ">FILL.METERED":
            flow = it.FLOW
        elif it.port == "<FILL.DOSE.OPENED":
            opened, is_timeout = it, False
        elif it.port == ">FILL.DOSE.TIMEOUT":
            is_timeout = True
        elif it.LEVEL != (flow * opened.DURATION // 1000 if is_timeout else 0):
            yield it.tick


def bottles_arrive(lines):
    """A bottle that leaves a station arrives at the next one, as it was, after the latency of the link between them."""
    ways = (
        ("<FILL.FILLED", ">CAP.BOTTLE", 15, {"LEVEL": "LEVEL"}),
        ("<CAP.CAPPED", ">LABEL.BOTTLE", 0, {"FILLED": "FILLED", "TORQUE": "TORQUE"}),
        ("<LABEL.LABELLED", ">INSPECT.BOTTLE", 0, {"LEVEL": "LEVEL", "TIGHTNESS": "TIGHTNESS", "HAS_LABEL": "HAS_LABEL"}),
        ("<INSPECT.GOOD", ">PALLET.BOTTLE", 25, {}),
    )
    for start, end, latency, names in ways:
        left = [(it.tick + latency, [it.values[name] for name in names]) for it in at(lines, start)]
        came = [(it.tick, [it.values[name] for name in names.values()]) for it in at(lines, end)]
        yield from [it[0] for it in left + came if left.count(it) != came.count(it)]


def caps_are_tight(lines):
    """A cap is turned until it has the torque of the recipe, three times at most; a try that a halt interrupts does not count."""
    air, tries, expected = 70, 0, 0
    for it in at(lines, ">CAP.PRESSED", ">CAP.HEAD.BOTTLE", "<CAP.HEAD.TURNED", "<CAP.HEAD.PAUSED", "<CAP.CAPPED"):
        if it.port == ">CAP.PRESSED":
            air = it.AIR
        elif it.port == ">CAP.HEAD.BOTTLE":
            tries, expected = 0, it.WANTED
        elif it.port == "<CAP.CAPPED":
            if (it.TRIES, it.TORQUE) != (tries, 2 * air + 20 * (tries - 1)) or it.TORQUE < expected and tries < 3:
                yield it.tick
        else:
            tries += 1 if it.port == "<CAP.HEAD.TURNED" else -1


def labels_last(lines):
    """A roll has a fixed number of labels. The lamp is lit 25 ms after the label that leaves two, and goes out 25 ms after a new roll."""
    left, lit = 0, []
    for it in at(lines, ">LABEL.ROLL", "<LABEL.LABELLED"):
        before = left
        left = it.COUNT if it.port == ">LABEL.ROLL" else left - it.HAS_LABEL
        if it.port == "<LABEL.LABELLED" and it.HAS_LABEL != (before > 0):
            yield it.tick
        if it.port == ">LABEL.ROLL" or it.HAS_LABEL and left == 2:
            lit.append((it.tick + 25, it.port == "<LABEL.LABELLED"))
    changes = [now for old, now in pairwise([(0, False), *lit]) if old[1] != now[1]]
    yield from [tick for tick, _ in set(changes) ^ {(it.tick, it.Q) for it in at(lines, "<LAMP.EO")}]


def judgement_is_right(lines):
    """A bottle is good if its level is within two hundredths, its cap tight and its label there. A reject is pushed out 120 ms later."""
    volume, torque, _ = RECIPES[1]
    rejects = []
    for it in at(lines, ">INSPECT.RECIPE", ">INSPECT.BOTTLE", "<INSPECT.CAMERA.JUDGED"):
        if it.port == ">INSPECT.RECIPE":
            volume, torque = it.VOLUME, it.WANTED
        elif it.port == ">INSPECT.BOTTLE":
            cause = (abs(it.LEVEL - volume) * 50 > volume) + 2 * (it.TIGHTNESS < torque) + 4 * (not it.HAS_LABEL)
        else:
            rejects += [it.tick] * (cause > 0)
            if (it.CAUSE, it.GOOD) != (cause, cause == 0):
                yield it.tick
    yield from {*rejects} ^ {it.tick for it in at(lines, "<INSPECT.REJECTED")}
    yield from {it + 120 for it in rejects} ^ {it.tick for it in at(lines, "<INSPECT.PUSHED")}


def three_rejects_block(lines):
    """Three rejects in a row block the line. Only RESET and then START let it run again."""
    in_row, blocks = 0, []
    for it in at(lines, "<INSPECT.CAMERA.JUDGED", ">INSPECT.CAMERA.MODE"):
        in_row = 0 if it.values.get("GOOD", it.values.get("RUN")) else in_row + (it.port == "<INSPECT.CAMERA.JUDGED")
        blocks += [it.tick + 25] * (in_row == 3 and it.port == "<INSPECT.CAMERA.JUDGED")
    yield from {*blocks} ^ {it.tick for it in at(lines, "<LINE.CHANGED") if it.MODE == 3}


def modes_follow(lines):
    """The modes of the panel: which button leads from which mode where."""
    ways = {(0, "START"): 1, (1, "STOP"): 0, (1, "ALARM"): 3, (2, "RESET"): 0, (3, "RESET"): 0, **{(it, "EMERGENCY"): 2 for it in (0, 1, 3)}}
    mode, expected = 0, []
    for it in lines:
        if it.port.startswith(">LINE."):
            new = ways.get((mode, it.port.removeprefix(">LINE.")), mode)
            expected += [(it.tick, new, new == 1)] * (new != mode)
            mode = new
    yield from [tick for tick, *_ in {*expected} ^ {(it.tick, it.MODE, it.RUN) for it in at(lines, "<LINE.CHANGED")}]


def recipes_wait(lines):
    """A recipe is loaded only while the line does not run, and only one that there is."""
    runs = False
    for it, answer in pairwise(at(lines, "<LINE.CHANGED", ">RECIPES.SELECT", "<RECIPES.CHANGED", "<RECIPES.REFUSED")):
        runs = it.RUN if it.port == "<LINE.CHANGED" else runs
        if it.port != ">RECIPES.SELECT":
            continue
        if not runs and it.NUMBER in RECIPES:
            volume, torque, layer = RECIPES[it.NUMBER]
            expected = {"VOLUME": volume, "FILL_TIME": 2 * volume, "TORQUE": torque, "PER_LAYER": layer}
        else:
            expected = {"REASON": 1 if runs else 2}
        if answer.values != expected or answer.tick != it.tick:
            yield it.tick


def pallet_is_packed(lines):
    """Bottles are put in rows of two, layer by layer, and wait on the table while a full pallet is there."""
    on, capacity, waiting, placed = 0, 0, 0, []
    for it in at(lines, ">PALLET.BOTTLE", ">PALLET.REMOVED"):
        is_full = capacity and on == capacity
        if it.port == ">PALLET.REMOVED":
            on, came, waiting = (0, waiting, 0) if is_full else (on, 0, waiting)
        else:
            came, waiting, layer = (0, waiting + 1, it.PER_LAYER) if is_full else (1, waiting, it.PER_LAYER)
        for _ in range(came):
            capacity = capacity if on else LAYERS * layer
            spot = on % (capacity // LAYERS)
            placed.append((it.tick, spot % 2, spot // 2, on // (capacity // LAYERS)))
            on += 1
    shown = [(it.tick, it.COLUMN, it.ROW, it.LAYER) for it in at(lines, "<PALLET.PLACED")]
    yield from [it[0] for it in {*placed} ^ {*shown}]


def no_bottle_is_lost(lines):
    """Each bottle that arrived is judged in the end, one by one, and is on the pallet, on the table, or pushed out."""
    judged, waits = at(lines, "<INSPECT.CAMERA.JUDGED"), at(lines, "<PALLET.BUFFERED")
    ends = len(at(lines, "<PALLET.PLACED")), len(at(lines, "<INSPECT.PUSHED"))
    if len(at(lines, ">FILL.ARRIVE")) != len(judged) or sum(ends) != len(judged) or waits and waits[-1].tick > at(lines, ">PALLET.REMOVED")[-1].tick:
        yield lines[-1].tick


# Each rule with a line of a trace, and the line that replaces it in a trace that breaks the rule, or nothing to leave the line out.
RULES = {
    nothing_moves: ("emergency", "3025 CLOSING > CAP.HEAD.MODE RUN=TRUE\n", ""),
    valve_closes: ("emergency", "1740 INFEED < FILL.DOSE.CLOSED VALVE=FALSE LEVEL=0", "1741 INFEED < FILL.DOSE.CLOSED VALVE=FALSE LEVEL=0"),
    level_is_flow_by_time: ("shift", "21000 INFEED < FILL.DOSE.CLOSED VALVE=FALSE LEVEL=720", "21000 INFEED < FILL.DOSE.CLOSED VALVE=FALSE LEVEL=750"),
    bottles_arrive: ("rejects", "4065 CLOSING > INSPECT.BOTTLE LEVEL=450", "4065 CLOSING > INSPECT.BOTTLE LEVEL=451"),
    caps_are_tight: ("shift", "CAP.CAPPED FILLED=750 TORQUE=160 TRIES=3", "CAP.CAPPED FILLED=750 TORQUE=140 TRIES=2"),
    labels_last: ("shift", "21790 PACKING < LAMP.EO Q=TRUE\n", ""),
    judgement_is_right: ("rejects", "9005 CLOSING < INSPECT.CAMERA.JUDGED GOOD=TRUE CAUSE=0", "9005 CLOSING < INSPECT.CAMERA.JUDGED GOOD=FALSE CAUSE=1"),
    three_rejects_block: ("rejects", "5440 PACKING < LINE.CHANGED RUN=FALSE MODE=3\n", ""),
    modes_follow: ("emergency", "2500 PACKING > LINE.RESET\n", ""),
    recipes_wait: ("shift", "5600 PACKING < RECIPES.REFUSED REASON=1", "5600 PACKING < RECIPES.REFUSED REASON=2"),
    pallet_is_packed: ("shift", "18500 PACKING > PALLET.REMOVED", "18400 PACKING > PALLET.REMOVED"),
    no_bottle_is_lost: ("emergency", "2000 INFEED > FILL.ARRIVE\n", ""),
}


def content(path):
    with open(path, encoding="utf-8") as it:
        return it.read()


def out_of_order(shown, trace):
    """Returns the first of these lines that is not in the trace, after those before it, or None."""
    rest = iter(trace.splitlines())
    return next((it for it in shown if it not in rest), None)


def main():
    """Checks the traces and returns the status."""
    sections = dict(SECTION.findall(content(f"{FOLDER}/README.md")))
    traces = {name: content(f"{FOLDER}/{name}/trace") for name in sections}
    faults = [f"{name}: the trace has no such line there: {it}" for name, text in sections.items() if (it := out_of_order(SHOWN.findall(text), traces[name]))]
    for rule, (scenario, old, new) in RULES.items():
        faults += [f"{name}: {rule.__doc__} Not so at {tick}" for name, trace in traces.items() for tick in rule(lines_of(trace))]
        if old not in traces[scenario] or not [*rule(lines_of(traces[scenario].replace(old, new, 1)))]:
            faults.append(f"{rule.__name__} does not find the fault: {old!r}, {new!r}")
    for it in faults:
        print(f"examples/bottling: {it}", file=sys.stderr)
    print(f"bottling: {len(RULES)} rules, {len(faults)} faults in {len(traces)} traces")
    return int(bool(faults))


if __name__ == "__main__":
    sys.exit(main())
