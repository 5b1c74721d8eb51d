#!/usr/bin/env python3
"""tools/limits.py [PROGRAM]: calls the built program with a system that is at all its limits at once, with rules at theirs, and with what
it has most of at once. What it must write follows from docs/formats/ and docs/PROFILE.md.

The system has 4,096 merges in 256 resources with 1,024 links, and 100,000 stimuli, the last of them in the last tick. The first 1,024
merges send, each over a link of its own; the next 1,024 receive. The others are alone. Each text has as many bytes as it may have. A
contract may allow a function to answer that it is out of memory. So each command must answer otherwise here.

Other systems have what this one lacks. In one each of 256 resources has a clock, so 64 workers share rounds of 256 jobs. In one of two
resources each event of a clock leads to 500 merges, so one job of a round, a window of 1,024 ticks, has more than a million lines. A
chart has 1,001 states. cases/lengths.toml and cases/edges.toml have what fits into a few lines.

./gate makes these calls each time it has run the program. Without ./gate they use the program that ./simulate built."""

import os
import subprocess
import sys
import tempfile

PROGRAM = os.path.join(os.path.dirname(os.path.abspath(__file__)), os.pardir, "simulate")
INSTANCES, RESOURCES, LINKS, ROWS = 4_096, 256, 1_024, 100_000
HORIZON, STEPS, WORKERS, RULES = 10**12, 10**7, 64, 1_000
LAST = HORIZON - 1
TEXT, STIMULI, COMMAND, BREAKS = 1_048_576, 16_777_216, 65_536, 100
# The ticks of the stimuli, in the order of the rows from 0. The last message of the tick before the last one arrives in the last tick.
TICKS = (LAST, 0, 10**11, 1, LAST - 10**6, 999, 5 * 10**11, 10**6)
# A table of latencies with as many entries as it may have: from each of these ticks on, one tick more.
ENTRIES = [(number * 10**10, number + 1) for number in range(64)]
NAMES = [f"M{k}" for k in range(INSTANCES)]
# A block type in a file of its own, and a connection that is warned about: the last words of the longest text.
TYPES = (
    "FUNCTION_BLOCK F EVENT_INPUT GO; END_EVENT EC_STATES S; T; END_STATES "
    "EC_TRANSITIONS S TO T := GO; T TO S := GO; END_TRANSITIONS END_FUNCTION_BLOCK\n"
)
LATE = " S.WARM TO D.START; END_CONNECTIONS END_APPLICATION\n"
WARNED = "L20: application A: event connection S.WARM TO D.START: this event never comes, since each run is a cold start"

# A window, and the ticks of the two runs with clocks; the merges behind the first clock of two.
WINDOW, CLOCK_TICKS, MERGES = 1_024, 300, 500
STATES = 1_001


def resource_of(instance):
    """The resource of an instance. The link of a number leads from the resource of that instance to the one that follows, or to one of
    the next three."""
    if instance < LINKS:
        return instance % RESOURCES
    if instance < 2 * LINKS:
        sender = instance - LINKS
        return (sender + 1 + sender // RESOURCES) % RESOURCES
    return instance % RESOURCES


def latency_of(link, tick):
    """The latency of a link for a message that is sent at a tick."""
    if not link:
        return [latency for start, latency in ENTRIES if start <= tick][-1]
    return 10**6 if link == LINKS - 1 else link + 1


def declaration():
    blocks = "".join(f" {name} : E_MERGE;" for name in NAMES)
    ways = "".join(f" {NAMES[link]}.EO TO {NAMES[LINKS + link]}.EI1;" for link in range(LINKS))
    return f"APPLICATION A FBS{blocks} END_FBS EVENT_CONNECTIONS{ways} END_CONNECTIONS END_APPLICATION\n"


def deployment():
    held = [[] for _ in range(RESOURCES)]
    for instance, name in enumerate(NAMES):
        held[resource_of(instance)].append(name)
    resources = [f"[[resource]]\ndevice = 'D'\nname = 'R{at}'\ninstances = {names}\n" for at, names in enumerate(held)]
    links = []
    for link in range(LINKS):
        ends = f"from = 'R{resource_of(link)}'\nto = 'R{resource_of(LINKS + link)}'\n"
        latency = f"latency = {latency_of(link, 0)}" if link else f"latencies = {[[*it] for it in ENTRIES]}"
        links.append(f"[[link]]\n{ends}{latency}\n")
    return "".join(resources + links)


def given():
    """The stimuli, each as its tick, its instance and its event. A receiver gets them at its second input."""
    for row in range(ROWS):
        instance = row % INSTANCES
        is_receiver = LINKS <= instance < 2 * LINKS
        is_second = is_receiver or row // INSTANCES % 2 == 1
        yield TICKS[row // 3 % len(TICKS)], instance, "EI2" if is_second else "EI1"


def events_of(rows):
    """The events that are taken, each with its key, its instance and its event, in order."""
    stimuli = sorted(((tick, resource_of(at), 0, row, 0), at, event) for row, (tick, at, event) in enumerate(rows))
    sent, messages = [0] * LINKS, []
    for (tick, *_), at, _ in stimuli:
        if at < LINKS:
            arrival = tick + latency_of(at, tick)
            messages.append(((arrival, resource_of(LINKS + at), 2, at, sent[at]), LINKS + at, "EI1"))
            sent[at] += 1
    return [it for it in sorted(stimuli + messages) if it[0][0] < HORIZON]


def trace_of(rows, form):
    lines = []
    for (tick, resource, group, a, b), at, event in events_of(rows):
        head = f"{group} {a} {b} " * (form == 2) + f"{tick} R{resource}"
        lines += [f"{head} > {NAMES[at]}.{event}\n", f"{head} < {NAMES[at]}.EO\n"]
    return "".join(lines) + f"end {HORIZON}\n"


def long_line():
    """A declaration of one line. With the types, and the line feed between the two texts, it has as many bytes as it may have."""
    front = "APPLICATION A FBS S : E_RESTART; D : E_DELAY(DT := T#1ms); B : F; END_FBS EVENT_CONNECTIONS S.COLD TO B.GO;"
    return front + LATE.rjust(TEXT - len(TYPES) - 1 - len(front))


def clocks(count, merges=0):
    """A declaration, a deployment and stimuli: clocks in resources of their own, and merges in the first one, to which its clock leads."""
    own = [f"M{number}" for number in range(merges)]
    blocks = "".join(f" C{number} : E_CYCLE;" for number in range(count)) + "".join(f" {name} : E_MERGE;" for name in own)
    ways = "".join(f" C0.EO TO {name}.EI1;" for name in own)
    plan = [f"[[resource]]\ndevice = 'D'\nname = 'R{at}'\ninstances = {[f'C{at}'] + own * (not at)}\n" for at in range(count)]
    rows = "".join(f"0,C{number}.START,DT=1\n" for number in range(count))
    return f"APPLICATION A FBS{blocks} END_FBS EVENT_CONNECTIONS{ways} END_CONNECTIONS END_APPLICATION\n", "".join(plan), f"tick,event,values\n{rows}"


def trace_of_clocks(count, merges, horizon):
    lines = [f"0 R{number} > C{number}.START DT=1\n" for number in range(count)]
    for tick in range(1, horizon):
        lines.append(f"{tick} R0 < C0.EO\n")
        lines += [f"{tick} R0 > M{number}.EI1\n{tick} R0 < M{number}.EO\n" for number in range(merges)]
        lines += [f"{tick} R{number} < C{number}.EO\n" for number in range(1, count)]
    return "".join(lines) + f"end {horizon}\n"


def chart():
    """A declaration whose block goes to the next state at each event."""
    states = "".join(f" S{number};" for number in range(STATES))
    ways = "".join(f" S{number - 1} TO S{number} := GO;" for number in range(1, STATES))
    block = f"FUNCTION_BLOCK C EVENT_INPUT GO; END_EVENT EC_STATES{states} END_STATES EC_TRANSITIONS{ways} END_TRANSITIONS END_FUNCTION_BLOCK"
    return f"{block} APPLICATION A FBS I : C; END_FBS END_APPLICATION\n"


def trace_of_chart():
    return "".join(f"{number} MAIN > I.GO\n" for number in range(1, STATES)) + f"end {STATES}\n"


def dump_of_chart():
    """The dump of its trace, with the states."""
    head = "$timescale 1 ms $end\n$scope module MAIN $end\n$scope module I $end\n"
    signals = "$var event 1 e0 GO $end\n$var reg 64 n0 GO_count $end\n$var string 1 s0 state $end\n$var event 1 l0 lost $end\n"
    begin = "$upscope $end\n$upscope $end\n$enddefinitions $end\n#0\n$dumpvars\nb0 n0\nsS0 s0\n$end\n"
    changes = "".join(f"#{number}\nsS{number} s0\n1e0\nb{number:b} n0\n" for number in range(1, STATES))
    return f"{head}{signals}{begin}{changes}#{STATES}\n"


def rules():
    """As many rules as a text may have, up to its last byte."""
    text = "".join(f"[[rule]]\nname = 'r{number}'\ncount = '* < S.COLD'\nmost = {number + 1}\n" for number in range(RULES))
    return text.ljust(TEXT, "#")


def report():
    return f"TAP version 14\n1..{RULES}\n" + "".join(f"ok {number + 1} - r{number}\n# decided 1 time\n" for number in range(RULES))


def calls():
    """The calls: a name, the words, standard input, what is written, and what is reported, if anything is."""
    rows = [*given()]
    system = ["declaration", "--deploy", "deployment"]
    ends = ["--horizon", str(HORIZON), "--steps", str(STEPS)]
    first, second = (trace_of(rows, form) for form in (1, 2))
    yield "check", ["check", *system, "--stim", "stimuli", "--lint"], "", "accepted\n"
    yield "serial", ["run", *system, "--stim", "stimuli", *ends, "--serial"], "", first
    yield "workers", ["run", *system, "--stim", "stimuli", *ends, "--workers", str(WORKERS), "--trace", "2"], "", second
    yield "inspect", ["inspect", *system, "trace", *(word for name in NAMES for word in ("--only", name))], "", first
    covered = "states 0 of 0, transitions 0 of 0, algorithms 0 of 0, events 0 of 0, ports 2048 of 2048\n"
    yield "coverage", ["coverage", *system, "trace", "--least", "100"], "", covered
    row = (LAST, 0, "EI1")
    answers = "".join(f"= row {number} {tick},{NAMES[at]}.{event},\n" for number, (tick, at, event) in enumerate([*rows, row]))
    # No event of the instance is in this resource, so no break pauses the session.
    breaks = "".join(f"= break {number + 1}\n" for number in range(BREAKS))
    commands = f"give {LAST} M0.EI1".ljust(COMMAND) + "\n" + "break R1 > M0.EI1\n" * BREAKS + f"until {HORIZON}\nend {HORIZON}\n"
    told = trace_of([*rows, row], 1).removesuffix(f"end {HORIZON}\n") + f"= at {HORIZON}\nend {HORIZON}\n"
    yield "session", ["session", *system, "--stim", "stimuli", "--steps", str(STEPS)], commands, answers + breaks + told
    yield "rules", ["expect", "rules", "restart"], "", report()
    column = TEXT - len(TYPES) - 1 - len(LATE) + 2
    yield "warning", ["check", "line", "--types", "types", "--lint"], "", "accepted\n", f"line:1:{column}: {WARNED}\n"
    for name, count, merges, horizon, workers in (("crew", RESOURCES, 0, CLOCK_TICKS, WORKERS), ("round", 2, MERGES, WINDOW + 1, 2)):
        words = ["run", name, "--deploy", f"{name}.plan", "--stim", f"{name}.rows", "--horizon", str(horizon), "--workers", str(workers)]
        yield name, words, "", trace_of_clocks(count, merges, horizon)
    yield "states", ["wave", "chart", "chart.trace", "--states"], "", dump_of_chart()


def files():
    rows = [*given()]
    stimuli = "tick,event,values\n" + "".join(f"{tick},{NAMES[at]}.{event},\n" for tick, at, event in rows)
    restart = f"0 MAIN < S.COLD\nend {HORIZON}\n"
    texts = {"declaration": declaration(), "deployment": deployment(), "stimuli": stimuli, "trace": trace_of(rows, 1)}
    texts |= {"rules": rules(), "restart": restart, "types": TYPES, "line": long_line(), "chart": chart(), "chart.trace": trace_of_chart()}
    for name, system in (("crew", clocks(RESOURCES)), ("round", clocks(2, MERGES))):
        texts |= dict(zip((name, f"{name}.plan", f"{name}.rows"), system))
    return texts


def fails(folder, program, name, words, text, wanted, reported=""):
    """Whether a call gives something else, which is then printed."""
    ran = subprocess.run([os.path.abspath(program), *words], cwd=folder, input=text, capture_output=True, text=True, check=False)
    if (ran.returncode, ran.stdout, ran.stderr) == (0, wanted, reported):
        return False
    at = next((k for k, (a, b) in enumerate(zip(ran.stdout, wanted)) if a != b), min(len(ran.stdout), len(wanted)))
    there = f"byte {at}: {ran.stdout[at:at + 100]!r} for {wanted[at:at + 100]!r}"
    print(f"limits, {name}: status {ran.returncode}, {there}, {ran.stderr[:300]!r}", file=sys.stderr)
    return True


def main(words):
    """Makes the calls, and returns the status."""
    program = words[0] if words else PROGRAM
    with tempfile.TemporaryDirectory() as folder:
        for name, text in files().items():
            with open(f"{folder}/{name}", "w", encoding="ascii") as out:
                out.write(text)
        failed = [it for it in calls() if fails(folder, program, *it)]
    if not failed:
        print("limits: 0 faults")
    return int(bool(failed))


if __name__ == "__main__":
    sys.exit(main(sys.argv[1:]))
