#!/usr/bin/env python3
"""tools/rings.py [PROGRAM]: runs the built program on rings of resources, each of which leads to the next over its own link.

A restart starts the first of some merges. Each merge leads to the next, and the last to the first; each is in its own resource. The
link from the first merge has a latency of one tick, and each other link one tick more than the one before it. So the ticks of the
trace are sums of consecutive numbers, from which this works out the trace.

./gate makes these runs each time it has run the program, with --serial and with several numbers of workers, in both forms. Without
./gate they use the program that ./simulate built."""

import sys

import cases
from kit import TOP

PROGRAM = "fbsim"
HORIZON = 10_000
COUNTS = (4, 64, 256)
# The number of lines of a ring's trace, and its end in form one, worked out independently of the code below.
WORKED_OUT = {
    64: (630, "9973 R57 > M57.EI1\n9973 R57 < M57.EO\nend 10000\n"),
    256: (284, "9870 R140 > M140.EI1\n9870 R140 < M140.EO\nend 10000\n"),
}


def declaration(count):
    merges = "".join(f" M{at} : E_MERGE;" for at in range(count))
    events = "".join(f" M{at}.EO TO M{(at + 1) % count}.EI1;" for at in range(count))
    return f"APPLICATION A FBS S : E_RESTART;{merges} END_FBS\nEVENT_CONNECTIONS S.COLD TO M0.EI2;{events} END_CONNECTIONS END_APPLICATION"


def deployment(count):
    instances = [f"'M{at}'" if at else "'S', 'M0'" for at in range(count)]
    resources = "".join(f"[[resource]]\ndevice = 'D'\nname = 'R{at}'\ninstances = [{it}]\n" for at, it in enumerate(instances))
    links = "".join(f"[[link]]\nfrom = 'R{at}'\nto = 'R{(at + 1) % count}'\nlatency = {at + 1}\n" for at in range(count))
    return resources + links


def trace(count, form):
    """The trace. In form two an arrival has the number of its link, which is that of the merge before, and its own on it: the round."""

    def key(*parts):
        return "".join(f"{it} " for it in parts) if form == 2 else ""

    lines = [f"{key(1, 0, 0)}0 R0 < S.COLD", f"{key(3, 0, 0)}0 R0 > M0.EI2", f"{key(3, 0, 0)}0 R0 < M0.EO"]
    before, turn, tick = 0, 0, 1
    while tick < HORIZON:
        at = (before + 1) % count
        head = f"{key(2, before, turn)}{tick} R{at}"
        lines += [f"{head} > M{at}.EI1", f"{head} < M{at}.EO"]
        before, turn, tick = at, turn + (at == 0), tick + at + 1
    return "".join(f"{it}\n" for it in [*lines, f"end {HORIZON}"])


def rings():
    for count in COUNTS:
        for form in (1, 2):
            texts = {"declaration": declaration(count), "deployment": deployment(count), "answer": trace(count, form)}
            numbers = {"horizon": str(HORIZON), "form": str(form)}
            fields = {name: text.encode() for name, text in (texts | numbers).items()}
            yield cases.Case(f"a ring of {count} in form {form}", "run", fields)


def are_as_worked_out():
    """Returns whether the traces of this file have the number of lines and the end that were worked out independently."""
    traces = [(trace(count, 1), *of) for count, of in WORKED_OUT.items()]
    return all(text.count("\n") == lines and text.endswith("\n" + last) for text, lines, last in traces)


def try_all(program):
    """Returns whether each ring has its trace."""
    if not are_as_worked_out():
        print("rings: the traces of this file are not as they were worked out")
        return False
    return cases.try_cases(program, [*rings()])


if __name__ == "__main__":
    sys.exit(not try_all(sys.argv[1] if sys.argv[1:] else f"{TOP}/crates/{PROGRAM}/out/{PROGRAM}"))
