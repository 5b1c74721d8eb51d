#!/usr/bin/env python3
"""tools/refuse.py [[--memory STATUS] PROGRAM [WORD..]]: runs a built program with each request for memory refused in turn.

The program runs once with all the memory that it asks for, and then once for each request, with only that one refused, until a run
makes fewer requests. Each run must end like the first one, with its output, or with the status for out of memory (4 by default). Then
its output must be a beginning of the first one's that ends at the end of a line. Otherwise this reports it and ends with status 1.

This shows what no proof says: out of memory is answered wherever it occurs, and a call that promises to change nothing then changes
nothing. It also shows that no request comes after the first byte of a round, or of what a run on one agenda writes at once: if the
lines of each round are known and memory runs out, the output ends where a round ends. A refusal is reported whole, with the line of the
refusal alone, or as out of memory.

./gate runs this when it has run the program, for the runs in RUNS with --serial, one worker and two, and for the calls in COMMANDS with
the traces of TRACED. Without ./gate and without words it uses the program that ./simulate built. A test that the kit built is a program too: its name is the word. Its status for out of
memory is 101 if it answers that as a failure, or if it ends itself and says so (GAVE_UP), which an assertion that fails does not.
./gate runs this for the tests in TESTS, for single calls; by hand:

    (cd crates/fb_tests && ../../tools/rt test)
    tools/refuse.py --memory 101 crates/fb_tests/out/fb_tests_tests tests::parts::messages::messages_come_after_out_of_memory

(The kit's `rt try --fail-alloc N` does the same for one N, with an unproved program that it builds again each time.)"""

import itertools
import os
import re
import signal
import sys
from typing import NamedTuple

import hostile
from kit import TOP, rt, rtlib
from program import SECONDS, Room, side_by_side

PROGRAM = "fbsim"
REFUSAL, OUT_OF_MEMORY = 2, 4
# The status of a test that answers a failure.
FAILED_TEST = 101
# The output of a test that ends itself because a call ran out of memory, and that of the kit. An assertion that fails has another one.
GAVE_UP = re.compile(rb"(memory|written|no (library|deployment|stimuli|system))\b.*\n")
STOPPED = re.compile(rb"\ntest stopped at \S+\n")
# The tests that are written for this, by their crates: each checks what the calls after one that ran out of memory do.
TESTS = {
    "fb_tests": [
        "tests::parts::messages::messages_come_after_out_of_memory",
        *(f"tests::advances::{it}_of_{by}_fails_for_good" for it in ("a_cycle", "an_arrival", "a_stop") for by in ("one_worker", "two_workers")),
        *(f"tests::rounds::rounds_of_{it}_write_what_has_become_final" for it in ("one_worker", "two_workers", "64_workers")),
    ],
}
# The number of runs that one call of refuse.c makes.
AT_ONCE = 16
WAYS = [["--serial"], ["--workers", "1"], ["--workers", "2"]]


class Run(NamedTuple):
    """A run of the program. If the lines of each round are known, `rounds` has them, and the last line after them."""

    name: str
    texts: dict
    words: list
    status: int
    rounds: list
    is_known_by_rounds: bool = False


def resources(*held):
    return "resource = [\n" + "".join(f"{{ device = 'D', name = '{name}', instances = [{of}] }},\n" for name, of in held) + "]\n"


def link(start, end, latency):
    return f"[[link]]\nfrom = '{start}'\nto = '{end}'\nlatency = {latency}\n"


def application(instances, events):
    return f"APPLICATION A FBS {instances} END_FBS EVENT_CONNECTIONS {events} END_CONNECTIONS END_APPLICATION\n"


def ring():
    """An event goes round four resources, over links of 1, 2, 3 and 4 ticks."""
    merges = "".join(f"M{at} : E_MERGE; " for at in range(4))
    events = "S.COLD TO M0.EI2; " + "".join(f"M{at}.EO TO M{(at + 1) % 4}.EI1; " for at in range(4))
    held = resources(("R0", "'S', 'M0'"), *((f"R{at}", f"'M{at}'") for at in range(1, 4)))
    links = "".join(link(f"R{at}", f"R{(at + 1) % 4}", at + 1) for at in range(4))
    lines, tick, at = ["0 R0 < S.COLD\n"], 0, 0
    while tick < 50:
        lines.append(f"{tick} R{at} > M{at}.EI{1 if tick else 2}\n{tick} R{at} < M{at}.EO\n")
        tick, at = tick + at + 1, (at + 1) % 4
    texts = {"d.iec": application("S : E_RESTART; " + merges, events), "d.toml": held + links}
    return Run("an event round four resources", texts, ["--deploy", "d.toml", "--horizon", "50"], 0, [*lines, "end 50\n"])


def relay():
    """A merge of the first resource takes some stimuli at tick 0, and sends each to a merge of the second, over a link of two ticks. So
    the second resource waits in the first round. With the long names each round has more bytes than the program writes at a time."""
    count, first, second = 20, "A" * 250, "M" * 250
    texts = {
        "d.iec": application(f"{first} : E_MERGE; {second} : E_MERGE;", f"{first}.EO TO {second}.EI1;"),
        "d.toml": resources(("R1", f"'{first}'"), ("R2", f"'{second}'")) + link("R1", "R2", 2),
        "s.csv": "tick,event,values\n" + f"0,{first}.EI1,\n" * count,
    }
    rounds = [f"0 R1 > {first}.EI1\n0 R1 < {first}.EO\n" * count, f"2 R2 > {second}.EI1\n2 R2 < {second}.EO\n" * count, "end 5\n"]
    return Run("two rounds of 10,000 bytes", texts, ["--deploy", "d.toml", "--stim", "s.csv", "--horizon", "5"], 0, rounds, True)


def delayed():
    texts = {
        "d.iec": application("S : E_RESTART; M : E_MERGE;", "S.COLD TO M.EI1;"),
        "d.toml": resources(("R1", "'S'"), ("R2", "'M'")) + link("R1", "R2", 2),
    }
    return Run("a message", texts, ["--deploy", "d.toml", "--horizon", "5"], 0, ["0 R1 < S.COLD\n2 R2 > M.EI1\n2 R2 < M.EO\nend 5\n"])


def stopped():
    looper = """FUNCTION_BLOCK LOOPER
EVENT_INPUT GO; END_EVENT EVENT_OUTPUT TICKED; END_EVENT
EC_STATES IDLE; LOOP : -> TICKED; END_STATES
EC_TRANSITIONS IDLE TO LOOP := GO; LOOP TO LOOP := 1; END_TRANSITIONS
END_FUNCTION_BLOCK
"""
    texts = {
        "d.iec": looper + "APPLICATION A FBS A : E_MERGE; L : LOOPER; C : E_MERGE; END_FBS END_APPLICATION",
        "d.toml": resources(("R1", "'A'"), ("R2", "'L'"), ("R3", "'C'")),
        "s.csv": "tick,event,values\n7,C.EI1,\n7,L.GO,\n7,A.EI1,\n",
    }
    words = ["--deploy", "d.toml", "--stim", "s.csv", "--steps", "10", "--horizon", "9"]
    lines = "7 R1 > A.EI1\n7 R1 < A.EO\n7 R2 > L.GO\n" + "7 R2 < L.TICKED\n" * 4 + "stop 7 R2 steps\n"
    return Run("a stop", texts, words, 1, [lines])


def composite():
    it = hostile.DECLARATION
    texts = {"d.iec": it.text.decode(), "s.csv": hostile.FILES["twice.csv"].decode()}
    return Run("a composite", texts, ["--stim", "s.csv", "--horizon", "1"], 0, [it.trace.decode()])


def cycle():
    """A cycle of one tick, with a horizon so late that one worker writes its lines in several pieces."""
    ticks = 400
    texts = {"d.iec": application("S : E_RESTART; C : E_CYCLE(DT := T#1ms); M : E_MERGE;", "S.COLD TO C.START; C.EO TO M.EI1;")}
    lines = ["0 MAIN < S.COLD\n0 MAIN > C.START DT=1\n"]
    lines += [f"{tick} MAIN < C.EO\n{tick} MAIN > M.EI1\n{tick} MAIN < M.EO\n" for tick in range(1, ticks)]
    return Run("a cycle of many ticks", texts, ["--horizon", str(ticks)], 0, [*lines, f"end {ticks}\n"])


RUNS = [delayed(), stopped(), composite(), ring(), relay(), cycle()]

# The calls that read a trace, each with its status if it has all memory: `expect` has a rule that breaks, and `diff` a second trace that
# differs. Then the runs whose traces they read: one with long lines, one with a stop.
COMMANDS = {"wave": 0, "wave --states": 0, "inspect": 0, "coverage": 0, "expect": 1, "diff": 1}
TRACED = [relay(), stopped()]
# A rule of each form, for any of these traces. The last one breaks.
RULES = """[[rule]]
name = "an event that is taken is answered"
after = "* > *"
within = 9
see = "* < *"
[[rule]]
name = "an answer has its event"
before = "* < *"
within = 9
see = "* > *"
[[rule]]
name = "the first resource takes nothing after the second"
never = "R1 > *"
from = "R2 > *"
[[rule]]
name = "there is one answer"
count = "* < *"
most = 1
"""

# Calls that are refused: their words, their texts, and what standard error gets. The rules are those of docs/formats/.
OF_EVENTS = "APPLICATION A FBS S : E_RESTART; M : E_MERGE; END_FBS EVENT_CONNECTIONS\n{}END_CONNECTIONS END_APPLICATION\n"
REFUSED = {
    "a section that has another end": (
        ["check", "d.iec", "--why"],
        {"d.iec": "FUNCTION_BLOCK F EVENT_INPUT A; END_EVENT\nEC_STATES S; END_STATES\nEND_FUNCTION_BLOC\n"},
        "refused E03 line 3\n"
        "d.iec:3:1: E03: found END_FUNCTION_BLOC, expected one of END_FUNCTION_BLOCK EC_TRANSITIONS ALGORITHM\nEND_FUNCTION_BLOC\n^\n",
    ),
    "two ends of connections that are none": (
        ["check", "d.iec", "--why"],
        {"d.iec": OF_EVENTS.format("S.COLD TO M.EI3;\nS.HOT TO M.EI1;\n")},
        "refused E21\n"
        "d.iec:2:13: E21: application A: event connection S.COLD TO M.EI3: E_MERGE has no event input EI3 (it has EI1, EI2)\n"
        "S.COLD TO M.EI3;\n            ^\n"
        "d.iec:3:3: E21: application A: event connection S.HOT TO M.EI1: E_RESTART has no event output HOT (it has COLD, WARM, STOP)\n"
        "S.HOT TO M.EI1;\n  ^\n",
    ),
    "a value that is none": (
        ["check", "d.iec", "--stim", "s.csv", "--why"],
        {"d.iec": OF_EVENTS.format("S.COLD TO M.EI1;\n"), "s.csv": "tick,event,values\n1,M.EI1,X=2 Y=q\n"},
        "refused E14\n"
        's.csv:2:13: E14: row 0: the word "Y=q": its value is neither a number nor TRUE or FALSE\n1,M.EI1,X=2 Y=q\n            ^\n',
    ),
    "a path that no instance has": (
        ["inspect", "d.iec", "t.trace", "--only", "MM", "--why"],
        {"d.iec": OF_EVENTS.format("S.COLD TO M.EI1;\n"), "t.trace": "end 1\n"},
        "refused E21\n--only: E21: there is no instance MM (the nearest name is M)\n",
    ),
    "a type that is not declared": (
        ["draw", "d.iec", "--type", "M", "--why"],
        {"d.iec": OF_EVENTS.format("S.COLD TO M.EI1;\n")},
        "refused E21\n--type: E21: there is no declared type M\n",
    ),
}

# The commands of a session of these two resources, each of them at least once, with errors of each kind.
SESSION = "".join(
    f"{it}\n" for it in (
        "help", "peek", "give 3 S.START DT=7", "give 3 S.STOP", "give x S.STOP", "give 3 S", "give 2000000000000 S.STOP", "give 4 X.STOP", "break * > M.*",
        "break * < *.EO DT>", "until 2", "give 1 S.STOP", "show S", "next", "until 20", "show M", "clear 1", "clear 1", "give 22 S.START", "go", "until 30", "end 40")
)  # fmt: skip


def ends_of(rounds):
    """The number of bytes that are written before the first round, and after each round. The last line, which ends the run, is left out."""
    ends, written = {0}, 0
    for lines in rounds[:-1]:
        written += len(lines)
        ends.add(written)
    return ends


class Refusals:
    """Runs of one program with these arguments, with a request refused."""

    def __init__(self, room, words, memory, ends=None, given=None):
        self.room, self.words, self.memory, self.ends = room, words, memory, ends
        self.settings = [] if given is None else [f"REFUSE_INPUT={given}"]

    def runs(self, numbers):
        """Runs it once for each of these numbers, which follow each other, with the request of that number refused, if there is one. Returns
        of each run the number, the status, the output, and whether a request was refused."""
        settings = [self.room.before("refuse"), f"REFUSE_FIRST={numbers[0]}", f"REFUSE_LAST={numbers[-1]}", *self.settings]
        ran = self.room.call(self.words, settings=settings, seconds=SECONDS * (len(numbers) + 1))
        if ran.returncode:
            rtlib.stop(f"the runs with a request refused could not be made: status {ran.returncode}, {ran.stderr[:300]!r}")
        return [self.result(*map(int, line.split())) for line in ran.stdout.splitlines()]

    def result(self, number, status, has_refused):
        """Returns what a run came to, of which refuse.c reports this status."""
        status, (output, errors) = os.waitstatus_to_exitcode(status), (self.taken(f"{name}-{number}") for name in ("out", "err"))
        if status == -signal.SIGABRT and GAVE_UP.fullmatch(errors) and STOPPED.fullmatch(output):
            status, output = FAILED_TEST, b""
        return number, status, output, bool(has_refused)

    def taken(self, name):
        """Returns what a file holds that a run wrote, and removes it."""
        path = f"{self.room.folder}/{name}"
        with open(path, "rb") as it:
            text = it.read()
        os.remove(path)
        return text

    def is_beginning(self, part, whole):
        """Whether it is a beginning that ends with a line, and at the end of a round if these are known."""
        is_end = len(part) in self.ends if self.ends is not None else not part or part.endswith(b"\n")
        return is_end and whole.startswith(part)

    def may_be(self, ended, part, whole):
        """Whether a run may end so that has a request refused, and does not end like the first one."""
        return ended == self.memory and self.is_beginning(part, whole)

    def faults(self, status, output):
        """Refuses each request once. Returns the faults, a line each, and the number of refused requests."""
        faults, first = [], 1
        while True:
            parts = [range(at, at + AT_ONCE) for at in range(first, first + AT_ONCE * rt.processors(), AT_ONCE)]
            for number, ended, wrote, has_refused in itertools.chain(*side_by_side(self.runs, parts)):
                if not has_refused:
                    return faults, number - 1
                if (ended, wrote) != (status, output) and not self.may_be(ended, wrote, output):
                    faults.append(f"request {number} refused: status {ended}, {len(wrote)} wrong bytes")
            first = parts[-1].stop


class Reports(Refusals):
    """The same of a call that is refused, with standard error in place of the output."""

    def result(self, number, status, has_refused):
        _, errors = (self.taken(f"{name}-{number}") for name in ("out", "err"))
        return number, os.waitstatus_to_exitcode(status), errors, bool(has_refused)

    def may_be(self, ended, part, whole):
        return (ended, part) in [(self.memory, b"out of memory\n"), (REFUSAL, whole[: whole.index(b"\n") + 1])]


def tell(name, faults, made):
    for it in faults:
        print(f"{name}: {it}")
    print(f"{name}: {made} requests for memory refused in turn, {len(faults)} faults", flush=True)
    return not faults


def try_run(program, it, way):
    """Refuses each request of this run, and returns whether there were no faults."""
    name, expected = f"{PROGRAM}, {it.name}, {' '.join(way)}", "".join(it.rounds).encode()
    ends = ends_of(it.rounds) if it.is_known_by_rounds else None
    with Room(program, {name: text.encode() for name, text in it.texts.items()}) as room:
        refusals = Refusals(room, ["run", "d.iec", *it.words, *way], OUT_OF_MEMORY, ends)
        [(_, status, output, _)] = refusals.runs([0])
        if (status, output) != (it.status, expected):
            return tell(name, [f"with memory: status {status}, {output[:300]!r}"], 0)
        return tell(name, *refusals.faults(status, output))


def words_of(command, it):
    """The arguments of a call that reads the trace of a run: its declaration, its deployment, and its limit of steps if there is one. `diff`
    reads two traces and nothing else."""
    if command == "diff":
        return [command, "trace", "changed"]
    options = dict(zip(it.words[::2], it.words[1::2]))
    kept = ["--deploy"] if command in ("wave", "expect") else ["--deploy", "--steps"]
    given = [word for name in kept if name in options for word in (name, options[name])]
    if command == "expect":
        return [command, "rules", "trace", "--decl", "d.iec", *given]
    return [*command.split(), "d.iec", *given, "trace"]


def try_command(program, command, it):
    """Refuses each request of a call that reads the trace of this run. With all memory the call must end as COMMANDS says."""
    name = f"{PROGRAM}, {command} of {it.name}"
    trace = "".join(it.rounds)
    texts = {**it.texts, "trace": trace, "changed": trace[:-1] + "0\n", "rules": RULES}
    with Room(program, {name: text.encode() for name, text in texts.items()}) as room:
        refusals = Refusals(room, words_of(command, it), OUT_OF_MEMORY)
        [(_, status, output, _)] = refusals.runs([0])
        if status != COMMANDS[command]:
            return tell(name, [f"with memory: status {status}, {output[:300]!r}"], 0)
        return tell(name, *refusals.faults(status, output))


def try_session(program):
    """Refuses each request of a session, and returns whether there were no faults."""
    name, texts = f"{PROGRAM}, a session", {"d.iec": application("S : E_DELAY(DT := T#4ms); M : E_MERGE;", "S.EO TO M.EI1;"), "commands": SESSION}
    texts["d.toml"] = resources(("R1", "'S'"), ("R2", "'M'")) + link("R1", "R2", 2)
    with Room(program, {name: text.encode() for name, text in texts.items()}) as room:
        refusals = Refusals(room, ["session", "d.iec", "--deploy", "d.toml"], OUT_OF_MEMORY, given="commands")
        [(_, status, output, _)] = refusals.runs([0])
        if status or not output.endswith(b"end 40\n"):
            return tell(name, [f"with memory: status {status}, {output[:300]!r}"], 0)
        return tell(name, *refusals.faults(status, output))


def try_all(program):
    """Does this for all of RUNS in each way, for all COMMANDS, for a session and for REFUSED, and returns whether there were no faults."""
    runs = [try_run(program, it, way) for it in RUNS for way in WAYS]
    commands = [try_command(program, command, it) for command in COMMANDS for it in TRACED]
    return all(runs + commands + [try_session(program)] + [try_refusal(program, name, *of) for name, of in REFUSED.items()])


def try_refusal(program, name, words, texts, errors):
    """Refuses each request of a call that is refused. With all memory standard error must be as it is given."""
    with Room(program, {name: text.encode() for name, text in texts.items()}) as room:
        reports = Reports(room, words, OUT_OF_MEMORY)
        [(_, status, wrote, _)] = reports.runs([0])
        if (status, wrote) != (REFUSAL, errors.encode()):
            return tell(f"{PROGRAM}, {name}", [f"with memory: status {status}, {wrote[:400]!r}"], 0)
        return tell(f"{PROGRAM}, {name}", *reports.faults(status, wrote))


def try_alone(program, words, memory):
    """Refuses each request of a program with these arguments."""
    with Room(program) as room:
        refusals = Refusals(room, words, memory)
        [(_, status, output, _)] = refusals.runs([0])
        return tell(" ".join([os.path.basename(program), *words]), *refusals.faults(status, output))


def try_tests(crate, program):
    """Refuses each request of those of a crate's tests that are written for it."""
    return all([try_alone(program, [test], FAILED_TEST) for test in TESTS.get(crate, [])])


def main(words):
    memory = OUT_OF_MEMORY
    if words[:1] == ["--memory"] and len(words) > 2 and words[1].isdigit():
        memory, words = int(words[1]), words[2:]
    if words and words[0].startswith("-"):
        print(__doc__)
        return 2
    if words:
        return not try_alone(os.path.abspath(words[0]), words[1:], memory)
    return not try_all(f"{TOP}/crates/{PROGRAM}/out/{PROGRAM}")


if __name__ == "__main__":
    sys.exit(main(sys.argv[1:]))
