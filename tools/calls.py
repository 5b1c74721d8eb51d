#!/usr/bin/env python3
"""tools/calls.py: calls the built program, at least once for each status and with several numbers of workers for each example. It
compares the status, standard output and standard error.

These calls show what no contract can say: which bytes a file, standard input and a named pipe give, up to the greatest length of
each text and beyond; the texts of the help; that the process ends with the status of the call; and what happens with arguments that
are no text, files that can't be read, and outputs that are full, closed or gone.
./gate makes these calls each time it has run the program. Without ./gate they use the program that ./simulate built."""

import glob
import os
import pty
import resource
import shutil
import signal
import subprocess
import sys
import tempfile
import threading
import tty
from typing import NamedTuple, Optional

import unbuilt
from kit import TOP, rt
from source_lines import LaterText, with_source

PROGRAM = "fbsim"
SECONDS = 60

MOST_OF_A_TEXT = 1_048_576
MOST_OF_STIMULI = 16_777_216
# Bytes of memory in which the program starts, and in which stimuli of the greatest length have no room.
LITTLE_MEMORY = 16_000_000

CYCLE = b"""APPLICATION A FBS S : E_RESTART; C : E_CYCLE(DT := T#3ms); END_FBS
EVENT_CONNECTIONS S.COLD TO C.START; END_CONNECTIONS END_APPLICATION
"""
TO_8 = b"0 MAIN < S.COLD\n0 MAIN > C.START DT=3\n3 MAIN < C.EO\n6 MAIN < C.EO\nend 8\n"
# The ticks 1 to 8 are hundredths of 8, each once: there are two lines at tick 0, one at 3 and one at 6.
TOLD_TO_8 = b"".join(b"progress: tick %d of 8, %d lines\n" % at for at in zip(range(1, 9), (2, 2, 2, 3, 3, 3, 4, 4)))
KEYED_TO_8 = b"1 0 0 0 MAIN < S.COLD\n3 0 0 0 MAIN > C.START DT=3\n1 1 0 3 MAIN < C.EO\n1 1 0 6 MAIN < C.EO\nend 8\n"
# What the timer of the cycle does is between the lines.
INSIDE_TO_8 = b"0 MAIN < S.COLD\n0 MAIN > C.START DT=3\n  due 3\n3 MAIN < C.EO\n  due 6\n6 MAIN < C.EO\n  due 9\nend 8\n"
KEYED_INSIDE_TO_8 = b"1 0 0 0 MAIN < S.COLD\n3 0 0 0 MAIN > C.START DT=3\n  due 3\n1 1 0 3 MAIN < C.EO\n  due 6\n1 1 0 6 MAIN < C.EO\n  due 9\nend 8\n"
RING = b"""APPLICATION A FBS S : E_RESTART; M : E_MERGE; END_FBS
EVENT_CONNECTIONS S.COLD TO M.EI1; M.EO TO M.EI2; END_CONNECTIONS END_APPLICATION
"""
STOPPED = b"0 MAIN < S.COLD\n0 MAIN > M.EI1\n0 MAIN < M.EO\n0 MAIN > M.EI2\n0 MAIN < M.EO\nstop 0 MAIN steps\n"
HEADING = b"tick,event,values\n"
# The stimulus comes before the start, and sets the time of the cycle for good.
FED = b"0,C.START,DT=5\n"
FED_TO_6 = b"0 MAIN > C.START DT=5\n0 MAIN < S.COLD\n0 MAIN > C.START DT=5\n5 MAIN < C.EO\nend 6\n"
LINKS = 4000

# A waveform of the cycle, as a value change dump: its signals, their initial values, and the changes of each tick.
SIGNALS = b"""$timescale 1 ms $end
$scope module MAIN $end
$scope module S $end
$var event 1 e0 COLD $end
$var reg 64 n0 COLD_count $end
$var event 1 e1 WARM $end
$var reg 64 n1 WARM_count $end
$var event 1 e2 STOP $end
$var reg 64 n2 STOP_count $end
$upscope $end
$scope module C $end
$var event 1 e3 START $end
$var reg 64 n3 START_count $end
$var event 1 e4 STOP $end
$var reg 64 n4 STOP_count $end
$var event 1 e5 EO $end
$var reg 64 n5 EO_count $end
$var reg 64 v6 DT $end
$upscope $end
$upscope $end
$enddefinitions $end
#0
$dumpvars
b0 n0
b0 n1
b0 n2
b0 n3
b0 n4
b0 n5
b11 v6
$end
"""
WAVE_TO_8 = SIGNALS + b"1e0\nb1 n0\n1e3\nb1 n3\nb11 v6\n#3\n1e5\nb1 n5\n#6\n1e5\nb10 n5\n#8\n"
CUT = b"$comment cut $end\n"
WAVE_CUT = WAVE_TO_8.removesuffix(b"#8\n") + CUT
WAVE_STOPPED = SIGNALS + b"1e0\nb1 n0\n$comment stop MAIN steps $end\n"
# The graph of the same application, in its one resource.
GRAPH = b"""digraph "A" {
  graph [rankdir=LR, compound=true, newrank=true];
  node [shape=record];
  "S" [label="{{ }|{ <COLD> COLD|<WARM> WARM|<STOP> STOP}}|S\\nE_RESTART|{{ }|{ }}"];
  "C" [label="{{ <START> START|<STOP> STOP}|{ <EO> EO}}|C\\nE_CYCLE\\nDT := 3|{{ <DT> DT}|{ }}"];
  "S":"COLD" -> "C":"START";
  subgraph "cluster MAIN" {
    label="DEV.MAIN";
    "resource MAIN" [shape=point, style=invis];
    "S";
    "C";
  }
}
"""
# A trace of this many lines, and the changes of each of its ticks.
BEATS = 20_000
LONG_TRACE = b"".join(b"%d MAIN < C.EO\n" % (tick + 1) for tick in range(BEATS)) + b"end %d\n" % (BEATS + 1)
LONG_WAVE = SIGNALS + b"".join(b"#%d\n1e5\nb%s n5\n" % (tick + 1, f"{tick + 1:b}".encode()) for tick in range(BEATS)) + b"#%d\n" % (BEATS + 1)


def crowd(count):
    """Returns a declaration of this many blocks."""
    blocks = "".join(f" M{i} : E_MERGE;" for i in range(count))
    return f"APPLICATION A FBS{blocks} END_FBS END_APPLICATION\n".encode()


def crowd_wave(count):
    """Returns the dump of this many blocks in which nothing happens: each has two event inputs and an event output."""
    lines = ["$timescale 1 ms $end", "$scope module MAIN $end"]
    for block in range(count):
        lines.append(f"$scope module M{block} $end")
        for number, port in enumerate(("EI1", "EI2", "EO"), 3 * block):
            lines += [f"$var event 1 e{number} {port} $end", f"$var reg 64 n{number} {port}_count $end"]
        lines.append("$upscope $end")
    lines += ["$upscope $end", "$enddefinitions $end", "#0", "$dumpvars", *(f"b0 n{number}" for number in range(3 * count)), "$end", "#1", ""]
    return "\n".join(lines).encode()


def chain():
    """Returns a declaration in which one event goes from block to block, and its trace, which has lines of each block."""
    blocks = "".join(f"M{i} : E_MERGE;\n" for i in range(LINKS))
    ways = "".join(f"M{i}.EO TO M{i + 1}.EI1;\n" for i in range(LINKS - 1))
    text = f"APPLICATION A FBS S : E_RESTART;\n{blocks}END_FBS\nEVENT_CONNECTIONS S.COLD TO M0.EI1;\n{ways}END_CONNECTIONS END_APPLICATION\n"
    trace = "0 MAIN < S.COLD\n" + "".join(f"0 MAIN > M{i}.EI1\n0 MAIN < M{i}.EO\n" for i in range(LINKS)) + "end 1\n"
    return text.encode(), trace.encode()


CHAIN, ALONG_THE_CHAIN = chain()
FILES = {
    "cycle": CYCLE,
    "ring": RING,
    "twice": b"APPLICATION A FBS S : E_MERGE; S : E_MERGE; END_FBS END_APPLICATION\n",
    "slip": b"APPLICATION A FBS F : E_SR; W : E_SWITCH; END_FBS EVENT_CONNECTIONS F.EO TO W.EJ; END_CONNECTIONS END_APPLICATION\n",
    "longest": CYCLE.ljust(MOST_OF_A_TEXT),
    "too_long": CYCLE.ljust(MOST_OF_A_TEXT + 1),
    "far_too_long": CYCLE.ljust(2 * MOST_OF_A_TEXT),
    "last": CYCLE.rjust(MOST_OF_A_TEXT),
    "chain": CHAIN,
    "crowd": crowd(4096),
    "too_many": crowd(4097),
    "locked": CYCLE,
    "longest_stimuli": HEADING.ljust(MOST_OF_STIMULI, b"\n"),
    "last_stimuli": HEADING.ljust(MOST_OF_STIMULI - len(FED), b"\n") + FED,
    "too_long_stimuli": HEADING.ljust(MOST_OF_STIMULI + 1, b"\n"),
}
FILES |= {
    "trace": TO_8,
    "stopped_trace": b"0 MAIN < S.COLD\nstop 0 MAIN steps\n",
    "cut_trace": TO_8[:-3],
    "strange_trace": TO_8.replace(b"6 MAIN", b"6 NONE"),
    "long_trace": LONG_TRACE,
    "no_trace": b"",
    "still_trace": b"end 1\n",
}
FILES |= {
    "cycle_plan": b"[[resource]]\ndevice = \"D\"\nname = \"MAIN\"\ninstances = [\"S\", \"C\"]\n",
    "other_plan": b"[[resource]]\ndevice = \"D\"\nname = \"R1\"\ninstances = [\"S\", \"C\"]\n",
    "no_plan": b"[",
    "cut_plan": b"[[resource]]\nname",
    "fed": HEADING + FED,
    "no_rows": HEADING,
    "no_heading": b"tick,event\n",
    "no_text": b"?",
    "empty": b"APPLICATION A FBS END_FBS END_APPLICATION",
    "merge": b"APPLICATION A FBS M : E_MERGE; END_FBS END_APPLICATION",
    "merge_plan": b"[[resource]]\ndevice = \"D\"\nname = \"R\"\ninstances = [\"M\", \"N\"]\n",
    "merge_fed": HEADING + b"0,N.EI1,\n",
    "late": b"APPLICATION A FBS S : E_RESTART; D : E_DELAY(DT := T#3ms); M : E_MERGE; END_FBS EVENT_CONNECTIONS S.COLD TO D.START; "
    b"D.EO TO M.EI1; M.EO TO M.EI2; END_CONNECTIONS END_APPLICATION",
    "keyed_trace": KEYED_TO_8,
    "cut_name_trace": b"0 MAIN < S.COLD\n0 MAIN > C.START DT=3\n3 MAIN",
    "no_block_trace": b"0 MAIN < S.COLD\n0 MAIN > C.START DT=3\n3 MAIN < D.EO\nend 8\n",
    "falling_trace": b"3 MAIN < C.EO\n2 MAIN < C.EO\nend 8\n",
    "longer_trace": b"0 MAIN < S.COLD\nend 8\nend 9\n",
}
# A lamp's type, in a file of its own that no line feed ends, an application of it, and what that writes: the lamp goes on and off
# again by itself.
LAMP = b"""FUNCTION_BLOCK LAMP
EVENT_INPUT GO; END_EVENT EVENT_OUTPUT DONE; END_EVENT
EC_STATES OFF; ON : -> DONE; END_STATES
EC_TRANSITIONS OFF TO ON := GO; ON TO OFF := 1; END_TRANSITIONS
END_FUNCTION_BLOCK"""
LIT = b"""APPLICATION A FBS S : E_RESTART; L : LAMP; END_FBS
EVENT_CONNECTIONS S.COLD TO L.GO; END_CONNECTIONS END_APPLICATION
"""
LIT_TO_1 = b"0 MAIN < S.COLD\n0 MAIN > L.GO\n0 MAIN < L.DONE\nend 1\n"
INSIDE_LIT_TO_1 = b"0 MAIN < S.COLD\n0 MAIN > L.GO\n  OFF -> ON by GO\n0 MAIN < L.DONE\n  ON -> OFF by 1\nend 1\n"
LIT_COVERED = b"states 2 of 2, transitions 2 of 2, algorithms 0 of 0, events 1 of 1, ports 1 of 1\n"
MARK = b"\xef\xbb\xbf"
# A composite of two lamps, which needs the other file, and an application of it.
PAIR = b"""FUNCTION_BLOCK PAIR
EVENT_INPUT GO; END_EVENT
FBS X : LAMP; Y : LAMP; END_FBS
EVENT_CONNECTIONS GO TO X.GO; X.DONE TO Y.GO; END_CONNECTIONS
END_FUNCTION_BLOCK
"""
LIT_PAIR = b"APPLICATION A FBS S : E_RESTART; P : PAIR; END_FBS EVENT_CONNECTIONS S.COLD TO P.GO; END_CONNECTIONS END_APPLICATION\n"
LIT_PAIR_TO_1 = (
    b"0 MAIN < S.COLD\n0 MAIN > P.GO\n0 MAIN > P.X.GO\n0 MAIN < P.X.DONE\n0 MAIN > P.Y.GO\n0 MAIN < P.Y.DONE\nend 1\n"
)
# A division that stops its resource, in a session, and what the session writes.
HALVES = b"""FUNCTION_BLOCK HALVES
EVENT_INPUT GO WITH X; END_EVENT
VAR_INPUT X : INT; END_VAR
VAR Y : INT; END_VAR
EC_STATES IDLE; RUN : HALVE; END_STATES
EC_TRANSITIONS IDLE TO RUN := GO; END_TRANSITIONS
ALGORITHM HALVE IN ST: Y := 2 / X; END_ALGORITHM
END_FUNCTION_BLOCK
APPLICATION A FBS D : HALVES; END_FBS END_APPLICATION
"""
TO_A_STOP = b"give 5 D.GO X=0\nuntil 9\nshow D\n"
STOPPED_AT_5 = b"= row 0 5,D.GO,X=0\n5 MAIN > D.GO X=0\nstop 5 MAIN divide\n"
SHOWN_AT_5 = STOPPED_AT_5 + b"= D RUN X=0 Y=0\n"
# Files whose names have control characters: a line feed, an escape and a delete.
ODD_NAME = "odd\n\x1b\x7fname"
HALF = MOST_OF_A_TEXT // 2
FILES |= {
    "lamp": LAMP,
    "lit": LIT,
    "pair": PAIR,
    "lit_pair": LIT_PAIR,
    "halves": HALVES,
    "some_rows": b"tick,event,values\n0,D.GO,X=1\n9,D.GO,X=2\n4,D.GO,X=3\n10,D.GO,X=4\n",
    ODD_NAME: b"APPLICATION A FBS D : E_DELAY END_FBS END_APPLICATION\n",
    "marked_lamp": MARK + LAMP,
    "marked_pair": MARK + PAIR,
    "marked_lit": MARK + LIT,
    "twice_marked_lit": MARK + MARK + LIT,
    "noted_lamp": LAMP + b" // the end",
    "open_lamp": LAMP + b" (* the end",
    "closing_lit": b"*) " + LIT,
    "half_a_lamp": LAMP[: LAMP.index(b"EC_STATES")],
    "rest_of_a_lamp": LAMP[LAMP.index(b"EC_STATES") :],
    "no_name": b"(* a type *)\nFUNCTION_BLOCK ;\n",
    "strange_byte": b"\n\n  \xff",
    "cut_lit": LIT[: LIT.index(b" S.COLD")],
    "half": b" " * HALF,
    "open_half": b" " * (HALF - 2) + b"(*",
    "rest": CYCLE.rjust(HALF - 1),
    "more_than_the_rest": CYCLE.ljust(HALF),
}
RULE = b'[[rule]]\nname = "the cycle answers"\nafter = "MAIN > C.START"\nwithin = %d\nsee = "MAIN < C.EO"\n'
FILES |= {"rules": RULE % 3, "broken_rules": RULE % 2, "negative_rules": RULE % -1, "no_pattern": RULE.replace(b"MAIN > ", b"> ") % 3}
FILES["many_rules"] = FILES["rules"] * 1001
REPORT = b"TAP version 14\n1..1\nok 1 - the cycle answers\n# decided 1 time\n"
REPORT_OF_TWO = b"TAP version 14\n1..2\nok 1 - the cycle answers (trace)\n# decided 1 time\nok 2 - the cycle answers (keyed_trace)\n# decided 1 time\n"
# The cycle starts in the second line, at tick 0, and its answer comes at 3.
BROKEN_REPORT = (
    b"TAP version 14\n1..1\nnot ok 1 - the cycle answers\n  ---\n  message: \"the expected event does not follow in time\"\n  trace: \"trace\"\n"
    b"  line: 2\n  tick: 0\n  ...\n# decided 1 time\n"
)
# The same reports as JUnit XML.
JUNIT = b'<?xml version="1.0" encoding="UTF-8"?>\n<testsuites>\n%s</testsuites>\n'
SUITE = b'<testsuite name="%s" tests="1" failures="%d" errors="0" skipped="%d">\n<testcase classname="%s" name="the cycle answers" assertions="%d">%s</testcase>\n</testsuite>\n'
JUNIT_OF_TWO = JUNIT % (SUITE % (b"trace", 0, 0, b"trace", 1, b"") + SUITE % (b"keyed_trace", 0, 0, b"keyed_trace", 1, b""))
BROKEN_JUNIT = JUNIT % (SUITE % (b"trace", 1, 0, b"trace", 1, b'<failure message="the expected event does not follow in time">line 2, tick 0</failure>'))
SKIPPED_JUNIT = JUNIT % (SUITE % (b"trace_pipe", 0, 1, b"trace_pipe", 0, b'<skipped message="never applied"/>'))
STRICT_JUNIT = JUNIT % (SUITE % (b"trace_pipe", 1, 0, b"trace_pipe", 0, b'<failure message="never applied"/>'))
# The line about the slip, after its fault.
AT_THE_SLIP = b":1:79: E21: application A: event connection F.EO TO W.EJ: E_SWITCH has no event input EJ (it has EI)\n"
STRANGE = b"APPLICATION A FBS S \xff"
BLANKS = b" " * (MOST_OF_A_TEXT + 1)


def placed(refusal, note, text=None):
    """What standard error gets of a refusal with the note of a place: its source line too, by default that of the file in the note."""
    name = note.split(b":")[0]
    return refusal + with_source(note, {name: FILES[name.decode()] if text is None else text})


# Named pipes, and what is written into each before it ends.
PIPES = {"trace_pipe": LONG_TRACE, "pipe": CYCLE, "cut_pipe": CYCLE[:40], "empty_pipe": b"", "long_pipe": FILES["longest"]}

# Parts of the help of `run` and `check`: each argument's name and words of its sentence, with the range, and an example.
HELP_OF_FILES = (
    "DECL", "declaration of the types", "--types", "once for each file", "--deploy", "in TOML", "at most 1 MiB", "--stim", "in CSV", "at most 16 MiB", "--why", "locations of a refusal", "or a stop",
)
HELP_OF_RUN = (
    *HELP_OF_FILES, "--horizon", "in milliseconds, at which the run ends, 1 to 1000000000000", "--steps", "number of steps", "1 to 10000000",
    "--workers", "threads run resources", "1 to 64", "--serial", "on one thread", "--progress", "each hundredth of the horizon", "--trace", "form of the trace",
    "Example: fbsim run ",
)
HELP_OF_CHECK = (*HELP_OF_FILES, "--lint", "Reports warnings", "--allow", "as L06:MOTOR", "--deny", "--no-why", "Example: fbsim check ")
HELP_OF_WAVE = (
    "DECL", "declaration of the types", "TRACE", "file with the trace", "--types", "--deploy", "in TOML", "at most 1 MiB", "--cut", "cut off", "--states", "state of each basic block", "--steps", "limit of steps", "--why",
    "Prints the location", "Example: fbsim wave ",
)
HELP_OF_EXPECT = (
    "RULES", "in TOML", "1000 rules", "TRACE", "--decl", "all names of the rules", "--types", "--deploy", "--strict", "never applied, as broken", "--applied", "in how many of the traces", "--cut", "without a last line", "--junit", "JUnit XML",
    "Example: fbsim expect ",
)
HELP_OF_DIFF = ("first trace", "second trace", "--no-ticks", "--why", "Example: fbsim diff ")
HELP_OF_DRAW = ("DECL", "declaration of the types", "--types", "once for each file", "--deploy", "in TOML", "--type", "type to draw", "network of a composite", "Example: fbsim draw ")
HELP_OF_INSPECT = (
    "DECL", "declaration of the types", "TRACE", "file with the trace", "--types", "--deploy", "in TOML", "--only", "path of an instance", "--from", "--to", "--lost", "--steps", "limit of steps of the run", "--cut", "--why", "Example: fbsim inspect ",
)
# Of the blocks of CYCLE, S starts once, and C is started and never stopped. A trace to 0 has no tick of the cycle.
COVERED_TO_8 = b"""\
ports without a connection
  event C.STOP was never taken
states 0 of 0, transitions 0 of 0, algorithms 0 of 0, events 0 of 0, ports 2 of 2
"""
COVERED_TO_0 = COVERED_TO_8.replace(b"never taken\n", b"never taken\n  event C.EO was never emitted\n")
HELP_OF_COVERAGE = (
    "DECL", "declaration of the types", "TRACE", "files with the traces", "--types", "--deploy", "in TOML", "--steps", "limit of steps of the runs", "--least", "in percent", "--cut", "--why", "Example: fbsim coverage ",
)
HELP_OF_EXPLAIN = ("NAME", "name of the refusal", "E01 to E45", "L01 to L23", "steps, divide or range", "Example: fbsim explain E21")
HELP_OF_ALL = (
    "run", "writes its trace", "check", "the first fault", "session", "by commands", "wave", "value change dump", "expect", "Checks rules", "diff", "the same bytes", "draw", "graphviz", "inspect", "inside the blocks", "coverage", "do not cover", "explain",
    "what a refusal or the reason of a stop means", "a millisecond", "Example: fbsim run ",
)

# The ways to run an example.
WAYS = [["--serial"], *(["--workers", count] for count in ("1", "2", "7", "64"))]


class Call(NamedTuple):
    """A call, by its arguments, and its result. If `out` or `err` is None, it is some text that ends with a line feed. Each of the words
    of `has` is in the output. The call is made in the folder of this example, or in that of FILES. Its standard output and its standard
    error are pipes that are read to their end, unless they are among OUTPUTS, or standard error is a terminal."""

    words: list
    status: int
    out: Optional[bytes] = b""
    err: Optional[bytes] = b""
    given: bytes = b""
    memory: Optional[int] = None
    to: str = "pipe"
    errors_to: str = "pipe"
    closes_input: bool = False
    has: tuple = ()
    example: str = ""
    room: int = 10


# The kinds of outputs: a device that has no room, closed, a pipe that nobody reads, or a file that takes ten bytes or as many as the call
# says, and no more.
OUTPUTS = ("full", "closed", "gone", "short")
ROOM = 10


CALLS = [
    Call(["--help"], 0, out=None, has=HELP_OF_ALL),
    Call(["help"], 0, out=None, has=HELP_OF_ALL),
    Call(["check", "-h"], 0, out=None, has=HELP_OF_CHECK),
    Call(["run", "--help"], 0, out=None, has=HELP_OF_RUN),
    Call(["explain", "--help"], 0, out=None, has=HELP_OF_EXPLAIN),
    Call(["explain", "file fault"], 0, out=None, has=("file fault: A file can't be read.", "For example:", "Look at: ")),
    Call(["wave", "--help"], 0, out=None, has=HELP_OF_WAVE),
    Call(["expect", "--help"], 0, out=None, has=HELP_OF_EXPECT),
    Call(["diff", "--help"], 0, out=None, has=HELP_OF_DIFF),
    Call(["draw", "--help"], 0, out=None, has=HELP_OF_DRAW),
    Call(["inspect", "--help"], 0, out=None, has=HELP_OF_INSPECT),
    Call(["coverage", "--help"], 0, out=None, has=HELP_OF_COVERAGE),
    # The version is that of CHANGELOG.md.
    *(Call([it], 0, out=f"fbsim {unbuilt.version()}\n".encode()) for it in ("--version", "-V")),
    Call(["--version"], 3, err=b"write fault after 0 bytes\n", to="full"),
    Call(["run", "--version"], 5, err=None),
    # A waveform, of both forms of a trace, from a file, a pipe and standard input.
    Call(["wave", "cycle", "trace"], 0, out=WAVE_TO_8),
    Call(["wave", "-", "trace"], 0, out=WAVE_TO_8, given=CYCLE),
    Call(["wave", "cycle", "-"], 0, out=WAVE_TO_8, given=TO_8),
    Call(["wave", "cycle", "-"], 0, out=WAVE_TO_8, given=KEYED_TO_8),
    Call(["wave", "cycle", "stopped_trace"], 0, out=WAVE_STOPPED),
    Call(["wave", "cycle", "long_trace"], 0, out=LONG_WAVE),
    Call(["wave", "crowd", "still_trace"], 0, out=crowd_wave(4096)),
    Call(["wave", "--states", "crowd", "still_trace"], 0, out=crowd_wave(4096)),
    Call(["inspect", "crowd", "still_trace"], 0, out=b"end 1\n"),
    Call(["wave", "cycle", "trace_pipe"], 0, out=LONG_WAVE),
    Call(["wave", "pipe", "-"], 0, out=LONG_WAVE, given=LONG_TRACE),
    # A text that is no trace is refused with its line, but after the declaration and the deployment.
    Call(["wave", "cycle", "cut_trace"], 2, err=b"refused trace line 5\n"),
    Call(["wave", "cycle", "cut_trace", "--cut"], 0, out=WAVE_CUT),
    Call(["wave", "cycle", "-", "--cut"], 0, out=WAVE_CUT, given=KEYED_TO_8[:-1]),
    Call(["wave", "cycle", "no_trace", "--cut"], 0, out=SIGNALS + CUT),
    Call(["wave", "cycle", "trace", "--cut"], 0, out=WAVE_TO_8),
    Call(["wave", "cycle", "strange_trace", "--cut"], 2, err=b"refused trace line 4\n"),
    Call(["wave", "cycle", "longer_trace", "--cut"], 2, err=b"refused trace line 3\n"),
    Call(["wave", "cycle", "cut_trace", "--cut"], 3, err=b"write fault after 0 bytes\n", to="full"),
    Call(["wave", "cycle", "trace", "--states"], 0, out=WAVE_TO_8),
    Call(["wave", "cycle", "-", "--states"], 0, out=WAVE_TO_8, given=KEYED_TO_8),
    Call(["wave", "cycle", "-", "--states"], 2, err=b"refused trace line 3\n", given=TO_8.replace(b"3 MAIN <", b"4 MAIN <")),
    Call(["wave", "cycle", "no_trace", "--states"], 2, err=b"refused trace line 1\n"),
    Call(["wave", "cycle", "nowhere", "--states"], 3, err=b"file fault\n"),
    Call(["wave", "cycle", "trace", "--states"], 3, err=b"write fault after 0 bytes\n", to="full"),
    Call(["wave", "cycle", "trace", "--states", "--steps", "0"], 5, err=None),
    Call(["wave", "cycle", "strange_trace"], 2, err=b"refused trace line 4\n"),
    Call(["wave", "cycle", "no_trace"], 2, err=b"refused trace line 1\n"),
    Call(["wave", "ring", "trace"], 2, err=b"refused trace line 2\n"),
    Call(["wave", "cycle", "cycle"], 2, err=b"refused trace line 1\n"),
    Call(["wave", "twice", "no_trace"], 2, err=b"refused E20\n"),
    Call(["wave", "cycle", "--deploy", "cut_pipe", "trace"], 2, err=b"refused E10\n"),
    # Files that are missing or can't be read.
    Call(["wave", "cycle", "-", "--why"], 2, err=b"refused trace line 4\ntrace: line 4: there is no resource \"NONE\"\n", given=FILES["strange_trace"]),
    Call(["wave", "twice", "no_trace", "--why"], 2, err=placed(b"refused E20\n", b"twice:1:32: E20: application A: instance S is given twice\n")),
    Call(["wave", "nowhere", "trace"], 3, err=b"file fault\n"),
    Call(["wave", "nowhere", "trace", "--why"], 3, err=b"file fault\ndeclaration nowhere: no file of this name can be read\n"),
    Call(["wave", "cycle", "nowhere", "--why"], 3, err=b"file fault\ntrace nowhere: no file of this name can be read\n"),
    Call(["wave", "-", "-", "--why"], 3, err=b"file fault\ntrace -: standard input can't be read, or was read before\n", given=CYCLE),
    Call(["wave", "twice", "nowhere"], 3, err=b"file fault\n"),
    Call(["wave", "cycle", "."], 3, err=b"file fault\n"),
    Call(["wave", "cycle", ".", "--why"], 3, err=b"file fault\ntrace .: this is a folder, not a file\n"),
    Call(["wave", "cycle", "locked"], 3, err=b"file fault\n"),
    Call(["wave", "-", "-"], 3, err=b"file fault\n", given=CYCLE),
    Call(["wave", "cycle", "-"], 3, err=b"file fault\n", closes_input=True),
    Call(["wave", "cycle"], 5, err=None),
    Call(["wave", "cycle", "trace", "--stim", "trace"], 5, err=None),
    *(Call(["wave", "cycle", "trace"], 3, err=b"write fault after 0 bytes\n", to=it) for it in OUTPUTS[:3]),
    Call(["wave", "cycle", "long_trace"], 3, out=SIGNALS[:ROOM], err=b"write fault after 10 bytes\n", to="short"),
    *(Call(["wave", "cycle", "no_trace"], 2, errors_to=it) for it in OUTPUTS[:3]),
    Call(["check", "cycle"], 0, out=b"accepted\n"),
    Call(["check", "-"], 0, out=b"accepted\n", given=CYCLE),
    Call(["run", "cycle", "--horizon", "8"], 0, out=TO_8),
    Call(["run", "-", "--horizon", "8"], 0, out=TO_8, given=CYCLE),
    Call(["run", "cycle", "--horizon", "8", "--workers", "64"], 0, out=TO_8),
    Call(["run", "cycle", "--horizon", "8", "--serial"], 0, out=TO_8),
    Call(["run", "ring", "--horizon", "1", "--steps", "3"], 1, out=STOPPED),
    Call(["run", "ring", "--horizon", "1", "--steps", "3", "--workers", "2"], 1, out=STOPPED),
    Call(["run", "ring", "--horizon", "1", "--steps", "3", "--serial"], 1, out=STOPPED),
    # Progress, which only a run with workers reports.
    Call(["run", "cycle", "--horizon", "8", "--progress"], 0, out=TO_8, err=TOLD_TO_8),
    Call(["run", "-", "--horizon", "8", "--progress", "--workers", "7", "--trace", "2"], 0, out=KEYED_TO_8, err=TOLD_TO_8, given=CYCLE),
    Call(["run", "cycle", "--horizon", "8", "--progress", "--serial"], 0, out=TO_8),
    Call(["run", "ring", "--horizon", "1", "--steps", "3", "--progress"], 1, out=STOPPED),
    Call(["run", "twice", "--horizon", "8", "--progress"], 2, err=b"refused E20\n"),
    Call(["run", "cycle", "--horizon", "8", "--progress"], 3, err=b"write fault after 0 bytes\n", to="full"),
    Call(["run", "cycle", "--horizon", "8", "--progress"], 3, out=TO_8[:ROOM], err=b"write fault after 10 bytes\n", to="short"),
    *(Call(["run", "cycle", "--horizon", "8", "--progress"], 0, out=TO_8, errors_to=it) for it in OUTPUTS[:3]),
    Call(["check", "cycle", "--progress"], 5, err=None),
    Call(["check", "twice"], 2, err=b"refused E20\n"),
    Call(["check", "twice", "--why"], 2, err=placed(b"refused E20\n", b"twice:1:32: E20: application A: instance S is given twice\n")),
    Call(["check", "-", "--why"], 2, err=placed(b"refused E03 line 1\n", b"-:1:41: E03: found the end of the text, expected one of ; (\n", CYCLE[:40]), given=CYCLE[:40]),
    Call(["check", "slip"], 2, err=b"refused E21\n"),
    Call(["check", "slip", "--why"], 2, err=placed(b"refused E21\n", b"slip" + AT_THE_SLIP)),
    Call(["run", "-", "--horizon", "8", "--why"], 2, err=placed(b"refused E21\n", b"-" + AT_THE_SLIP, FILES["slip"]), given=FILES["slip"]),
    Call(["check", "-", "--why"], 2, err=placed(b"refused E01\n", b"-:1:21: E01: byte 255 is allowed only in comments\n", STRANGE), given=STRANGE),
    Call(["check", "-", "--why"], 2, err=placed(b"refused E04\n", b"-:1:1048577: E04: a text has at most 1048576 bytes\n", BLANKS), given=BLANKS),
    Call(["check", "cycle", "--deploy", "cut_plan", "--why"], 2, err=placed(b"refused E10\n", b"cut_plan:2:5: E10: this is no TOML\n")),
    Call(["check", "too_many", "--why"], 2, err=placed(b"refused E30\n", b"too_many:1:13: E30: application: there are more than 4,096 instances, components included\n")),
    Call(["check", "cycle", "--why"], 0, out=b"accepted\n"),
    Call(["check", "nowhere", "--why"], 3, err=b"file fault\ndeclaration nowhere: no file of this name can be read\n"),
    Call(["check", "cycle", "--deploy", "cell.toml", "--why"], 3, err=b"file fault\ndeployment cell.toml: no file of this name can be read\n"),
    Call(["check", "cycle", "--stim", ".", "--why"], 3, err=b"file fault\nstimuli .: this is a folder, not a file\n"),
    Call(
        ["check", "-", "--deploy", "-", "--why"], 3,
        err=b"file fault\ndeployment -: standard input can't be read, or was read before\n", given=CYCLE,
    ),
    Call(["check", "longest"], 0, out=b"accepted\n"),
    Call(["check", "too_long"], 2, err=b"refused E04\n"),
    Call(["check", "-"], 0, out=b"accepted\n", given=FILES["longest"]),
    Call(["check", "-"], 2, err=b"refused E04\n", given=FILES["too_long"]),
    Call(["run", "longest", "--horizon", "8"], 0, out=TO_8),
    Call(["check", "cycle", "--stim", "longest_stimuli"], 0, out=b"accepted\n"),
    Call(["check", "cycle", "--stim", "too_long_stimuli"], 2, err=b"refused E15\n"),
    Call(["check", "cycle", "--stim", "-"], 0, out=b"accepted\n", given=FILES["longest_stimuli"]),
    Call(["check", "cycle", "--stim", "-"], 2, err=b"refused E15\n", given=FILES["too_long_stimuli"]),
    Call(["check", "far_too_long"], 2, err=b"refused E04\n"),
    Call(["check", "-"], 2, err=b"refused E04\n", given=FILES["far_too_long"]),
    # Each file is the one that its argument names.
    Call(["run", "last", "--horizon", "8"], 0, out=TO_8),
    Call(["run", "-", "--horizon", "8"], 0, out=TO_8, given=FILES["last"]),
    Call(["run", "chain", "--horizon", "1"], 0, out=ALONG_THE_CHAIN),
    Call(["run", "-", "--horizon", "1"], 0, out=ALONG_THE_CHAIN, given=CHAIN),
    Call(["run", "cycle", "--horizon", "6", "--stim", "last_stimuli"], 0, out=FED_TO_6),
    Call(["check", "crowd"], 0, out=b"accepted\n"),
    Call(["check", "too_many"], 2, err=b"refused E30\n"),
    # Pipes give less at a time than is asked for, and may end early.
    Call(["run", "pipe", "--horizon", "8"], 0, out=TO_8),
    Call(["run", "long_pipe", "--horizon", "8"], 0, out=TO_8),
    Call(["check", "cut_pipe"], 2, err=b"refused E03 line 1\n"),
    Call(["run", "empty_pipe", "--horizon", "8"], 2, err=b"refused E03 line 1\n"),
    Call(["check", "cycle", "--deploy", "cut_pipe"], 2, err=b"refused E10\n"),
    Call(["check", "-"], 2, err=b"refused E03 line 1\n", given=CYCLE[:40]),
    # What is no file, may not be read, or was read before.
    Call(["check", "nowhere"], 3, err=b"file fault\n"),
    Call(["check", "no/such/file"], 3, err=b"file fault\n"),
    Call(["check", "cycle/in"], 3, err=b"file fault\n"),
    Call(["check", ""], 3, err=b"file fault\n"),
    Call(["check", "."], 3, err=b"file fault\n"),
    Call(["check", "/"], 3, err=b"file fault\n"),
    Call(["check", "locked"], 3, err=b"file fault\n"),
    Call(["run", "locked", "--horizon", "8"], 3, err=b"file fault\n"),
    Call(["run", "cycle", "--horizon", "8", "--deploy", "."], 3, err=b"file fault\n"),
    Call(["run", "cycle", "--horizon", "8", "--stim", "."], 3, err=b"file fault\n"),
    Call(["check", "twice", "--stim", "locked"], 3, err=b"file fault\n"),
    Call(["check", "-", "--stim", "-"], 3, err=b"file fault\n", given=CYCLE),
    Call(["run", "-", "--deploy", "-", "--horizon", "8"], 3, err=b"file fault\n", given=CYCLE),
    Call(["check", "-"], 3, err=b"file fault\n", closes_input=True),
    Call(["check", "cycle"], 0, out=b"accepted\n", closes_input=True),
    # Outputs that fail.
    *(Call(["run", "cycle", "--horizon", "8"], 3, err=b"write fault after 0 bytes\n", to=it) for it in OUTPUTS[:3]),
    *(Call(["run", "cycle", "--horizon", "8", *way], 3, out=TO_8[:ROOM], err=b"write fault after 10 bytes\n", to="short") for way in WAYS),
    *(Call(["run", "ring", "--horizon", "1", *way], 3, err=b"write fault after 0 bytes\n", to="full") for way in WAYS),
    *(Call(["check", "cycle"], 3, err=b"write fault after 0 bytes\n", to=it) for it in OUTPUTS[:3]),
    *(Call(["--help"], 3, err=b"write fault after 0 bytes\n", to=it) for it in OUTPUTS[:3]),
    *(Call(["check", "twice"], 2, err=b"refused E20\n", to=it) for it in OUTPUTS),
    *(Call(["check", "nowhere"], 3, err=b"file fault\n", to=it) for it in OUTPUTS),
    *(Call(["run", "cycle", "--horizon", "8"], 0, out=TO_8, errors_to=it) for it in OUTPUTS[:3]),
    Call(["explain", "E21"], 3, err=b"write fault after 0 bytes\n", to="full"),
    *(Call(["check", "slip", "--why"], 2, errors_to=it) for it in OUTPUTS[:3]),
    *(Call(["check", "twice"], 2, errors_to=it) for it in OUTPUTS[:3]),
    *(Call(["check", "nowhere"], 3, errors_to=it) for it in OUTPUTS[:3]),
    *(Call(["walk"], 5, errors_to=it) for it in OUTPUTS[:3]),
    Call(["run", "cycle", "--horizon", "8"], 3, to="full", errors_to="full"),
    Call(["check", "cycle", "--stim", "longest_stimuli"], 4, err=b"out of memory\n", memory=LITTLE_MEMORY),
    Call(["check", b"\xff"], 5, err=b"error: the words of the command line are no text\n"),
]


# Texts that are refused, and the lines that say so.
REFUSED = [
    (b"APPLICATION A ! FBS", b"refused E02\n"),
    (b"APPLICATION \xc3\xa9", b"refused E01\n"),
    (b"", b"refused E03 line 1\n"),
    (b"APPLICATION A\nFBS", b"refused E03 line 2\n"),
    (b"APPLICATION A\nFBS END_FBS\n", b"refused E03 line 3\n"),
    (b"APPLICATION A FBS X : E_NONE; END_FBS END_APPLICATION", b"refused E21\n"),
]
# All refusals and reasons of stops, and names that are none. The line of the fault has the name as it was given.
EXPLAINED = (*(f"E{at:02}" for at in (*range(1, 6), *range(10, 17), *range(20, 31), *range(40, 46))), "steps", "divide", "range", "file fault")
NOT_EXPLAINED = ("", "E", "E00", "E06", "E17", "E31", "E46", "E021", "e99", "E21 ", "file", "stop", "Steps ")
SLIP_EXPLAINED = b"""E21: Nothing of the required kind has this name.
For example:
- `F.EO TO W.EJ;` where `W` is an E_SWITCH: it has no event input `EJ`.
- `S.COLD TO C;` in an application: only composites have ports that are named without an instance.
Look at: Typing errors; an input where an output is required, or the other way round; an event among the data connections; an instance that a resource lists and the application does not have.
"""
DIVIDE_EXPLAINED = b"""divide: A divisor was 0 in an algorithm or a guard, and the run stopped.
For example:
- `Q := GOOD / TOTAL;` before `TOTAL` has counted anything.
- `A / (B - C)` where `B` equals `C`.
Look at: The last line `>` of the trace: the block of that line stopped. Test each divisor of `/` with IF, or in the guard, before it divides. MOD never stops a run: `A MOD 0` is 0.
"""
# Arguments that are no call.
FAULTS = [
    ["cycle"],
    ["walk", "cycle"],
    ["check"],
    ["run"],
    ["run", "--horizon", "8"],
    ["run", "cycle", "--horizon"],
    ["run", "cycle", "--horizon", "x"],
    ["run", "cycle", "--horizon", "-1"],
    ["run", "cycle", "--horizon", "1000000000001"],
    ["run", "cycle", "--horizon", "1", "--steps", "0"],
    ["run", "cycle", "--horizon", "1", "--horizon", "1"],
    ["run", "cycle", "ring", "--horizon", "1"],
    ["check", "cycle", "--horizon", "1"],
    ["run", "cycle", "--horizon", "1", "--deploy"],
    ["check", "cycle", "--stim", "ring", "--stim", "ring"],
    ["run", "cycle", "--horizon", "1", "--trace"],
    ["run", "cycle", "--horizon", "1", "--trace", "1", "--trace", "1"],
    ["check", "cycle", "--trace", "1"],
    ["run", "cycle", "--horizon", "1", "--workers", "0"],
    ["run", "cycle", "--horizon", "1", "--workers"],
    ["check", "cycle", "--workers", "1"],
    ["run", "cycle", "--horizon", "1", "--serial=1"],
    ["run", "cycle", "--horizon", "1", "--serial", "--serial"],
    ["check", "cycle", "--serial"],
    ["run", "cycle", "--horizon", "1", "--why=1"],
    ["check", "cycle", "--why", "--why"],
    ["explain"],
    ["explain", "E21", "E22"],
    ["explain", "E21", "--why"],
    ["explain", "E21", "--types", "lamp"],
    ["diff", "trace", "trace", "--types", "lamp"],
    ["check", "lit", "--types"],
    ["check", "--types", "lamp"],
    ["wave"],
    ["wave", "cycle"],
    ["wave", "--deploy", "cycle", "cycle"],
    ["wave", "cycle", "cycle", "cycle"],
    ["wave", "cycle", "cycle", "--stim", "cycle"],
    ["wave", "cycle", "cycle", "--horizon", "1"],
    ["run", "cycle", "--horizon", "8", "--trace", "0"],
    ["run", "cycle", "--horizon", "8", "--trace", "x"],
    ["run", "cycle", "--horizon", "8", "--trace", "01"],
    ["run", "cycle", "--horizon", "8", "--trace", "+1"],
    ["run", "cycle", "--horizon", "8", "--trace", "12"],
    ["run", "cycle", "--horizon", "8", "--trace", "1 "],
    ["run", "cycle", "--horizon", "8", "--trace", "1,2"],
    ["run", "cycle", "--horizon", "8", "--trace", "One"],
    ["run", "cycle", "--horizon", "8", "--trace", ""],
]
# .. and some with what the parser of command lines says of them.
MORE = b"\n\nFor more information, try '--help'.\n"
NO_COMMAND = b"""error: 'fbsim' requires a subcommand but one was not provided
  [subcommands: run, check, session, wave, expect, diff, draw, inspect, coverage, explain, help]

Usage: fbsim <COMMAND>"""
NO_HORIZON = b"""error: the following required arguments were not provided:
  --horizon <horizon>

Usage: fbsim run --horizon <horizon> <DECL>"""
TOLD = [
    ("", NO_COMMAND),
    ("run cycle", NO_HORIZON),
    ("run cycle --horizon 0", b"error: invalid value '0' for '--horizon <horizon>': 0 is not in 1..=1000000000000"),
    ("run cycle --horizon 8 --steps 10000001", b"error: invalid value '10000001' for '--steps <steps>': 10000001 is not in 1..=10000000"),
    ("run cycle --horizon 8 --workers 65", b"error: invalid value '65' for '--workers <workers>': 65 is not in 1..=64"),
    ("run cycle --horizon 8 --trace 3", b"error: invalid value '3' for '--trace <trace>'\n  [possible values: 1, 2]"),
]
# Three blocks in three resources, of which the second runs on without end once it has begun.
LOOP = b"""FUNCTION_BLOCK LOOPER EVENT_INPUT GO; END_EVENT EVENT_OUTPUT TICKED; END_EVENT
EC_STATES IDLE; BUSY : -> TICKED; END_STATES
EC_TRANSITIONS IDLE TO BUSY := GO; BUSY TO BUSY := 1; END_TRANSITIONS END_FUNCTION_BLOCK
APPLICATION A FBS A : E_MERGE; L : LOOPER; C : E_MERGE; END_FBS END_APPLICATION
"""
APART = b"".join(b"[[resource]]\ndevice = 'D'\nname = 'R%d'\ninstances = ['%c']\n" % at for at in zip((1, 2, 3), b"ALC"))
AT_SEVEN = HEADING + b"7,C.EI1,\n7,L.GO,\n7,A.EI1,\n"
LOOP_STOPPED = b"7 R1 > A.EI1\n7 R1 < A.EO\n7 R2 > L.GO\n" + 4 * b"7 R2 < L.TICKED\n" + b"stop 7 R2 steps\n"
FILES |= {"loop": LOOP, "apart": APART, "at_seven": AT_SEVEN}
KEYED_STOPPED = (
    b"1 0 0 0 MAIN < S.COLD\n3 0 0 0 MAIN > M.EI1\n3 0 0 0 MAIN < M.EO\n3 1 0 0 MAIN > M.EI2\n3 1 0 0 MAIN < M.EO\nstop 0 MAIN steps\n"
)
# The run stops at tick 3.
STOPPED_LATE = b"0 MAIN < S.COLD\n0 MAIN > D.START DT=3\n3 MAIN < D.EO\n3 MAIN > M.EI1\n3 MAIN < M.EO\nstop 3 MAIN steps\n"
TOLD_LATE = b"".join(b"progress: tick %d of 5, 2 lines\n" % at for at in (1, 2, 3))
TO_4 = b"0 MAIN < S.COLD\n0 MAIN > C.START DT=3\n3 MAIN < C.EO\nend 4\n"
TO_6_ELSEWHERE = b"0 R1 < S.COLD\n0 R1 > C.START DT=3\n3 R1 < C.EO\nend 6\n"


def of(words, *ending, **how):
    """A call with these arguments, which are separated by blanks."""
    return Call(words.split(), *ending, **how)


LACKING = b"error: an option lacks another one: --allow and --deny need --lint; --deploy and --types of expect need --decl\n"

# Declarations in several files: block types in files of their own, which are read before the declaration, in their order.
CALLS += [
    *(Call(["run", "--types", "lamp", "lit", "--horizon", "1", *way], 0, out=LIT_TO_1) for way in WAYS),
    of("run lit --horizon 1 --types lamp", 0, out=LIT_TO_1),
    of("run lit --horizon 1 --types=lamp", 0, out=LIT_TO_1),
    of("run lit_pair --types lamp --types pair --horizon 1", 0, out=LIT_PAIR_TO_1),
    of("run lit_pair --types pair --types lamp --horizon 1", 0, out=LIT_PAIR_TO_1),
    of("run lit --types half_a_lamp --types rest_of_a_lamp --horizon 1", 0, out=LIT_TO_1),
    of("run cycle --types lamp --horizon 8", 0, out=TO_8),
    of("check lit --types lamp", 0, out=b"accepted\n"),
    of("check lit --types lamp --why", 0, out=b"accepted\n"),
    of("wave lit --types lamp no_trace", 2, err=b"refused trace line 1\n"),
    of("draw lit --types lamp --type lamp", 0, out=None, has=('digraph "LAMP" {', '"OFF" -> "ON"')),
    of("inspect lit --types lamp -", 0, out=INSIDE_LIT_TO_1, given=LIT_TO_1),
    of("coverage lit --types lamp -", 0, out=LIT_COVERED, given=LIT_TO_1),
    of("session lit --types lamp", 0, out=LIT_TO_1, given=b"end 1\n"),
    of("expect rules trace --decl cycle --types lamp", 0, out=REPORT),
    of("expect rules trace --decl lit --types lamp", 2, err=b"refused E45\n"),
    # Without the type there is no application, and a type that comes twice is one given twice.
    *(of(words, 2, err=b"refused E21\n") for words in ("check lit", "inspect lit trace", "coverage lit trace", "session lit", "wave lit trace", "draw lit", "run lit --horizon 1")),
    of("check lit --types pair", 2, err=b"refused E21\n"),
    of("check lit --types lamp --types lamp", 2, err=b"refused E20\n"),
    of("check lit --types lamp --types lamp --why", 2, err=placed(b"refused E20\n", b"lamp:1:16: E20: block type LAMP is given twice\n")),
    # A byte order mark at the beginning of each file; a second one is no blank.
    of("run lit_pair --types marked_lamp --types marked_pair --horizon 1", 0, out=LIT_PAIR_TO_1),
    of("run marked_lit --types lamp --horizon 1", 0, out=LIT_TO_1),
    of("check twice_marked_lit --types lamp --why", 2, err=placed(b"refused E01\n", b"twice_marked_lit:1:4: E01: byte 239 is allowed only in comments\n", LaterText(MARK + MARK + LIT))),
    # A comment ends with its file: one that `//` begins is over, and one that `(*` begins is refused, whatever comes next.
    of("run lit --types noted_lamp --horizon 1", 0, out=LIT_TO_1),
    of("check lit --types open_lamp", 2, err=b"refused E02\n"),
    of("check closing_lit --types open_lamp", 2, err=b"refused E02\n"),
    of("check closing_lit --types open_lamp --why", 2, err=placed(b"refused E02\n", b"open_lamp:5:20: E02: the comment that begins here is not closed\n")),
    of("check closing_lit --types pair --types open_lamp --why", 2, err=placed(b"refused E02\n", b"open_lamp:5:20: E02: the comment that begins here is not closed\n")),
    of("check nowhere --types open_lamp", 3, err=b"file fault\n"),
    # Refusals have the name of the file and the line in it.
    of("check lit --types no_name", 2, err=b"refused E03 no_name line 2\n"),
    of("check lit --types lamp --types no_name", 2, err=b"refused E03 no_name line 2\n"),
    of("check lit --types no_name --types lamp --why", 2, err=placed(b"refused E03 no_name line 2\n", b"no_name:2:16: E03: found ;, expected name\n")),
    of("check lit --types lamp --types no_name --why", 2, err=placed(b"refused E03 no_name line 2\n", b"no_name:2:16: E03: found ;, expected name\n")),
    of("run lit --types lamp --types no_name --horizon 1", 2, err=b"refused E03 no_name line 2\n"),
    of("wave lit --types lamp --types no_name trace", 2, err=b"refused E03 no_name line 2\n"),
    of("wave lit --types lamp --types no_name trace --why", 2, err=placed(b"refused E03 no_name line 2\n", b"no_name:2:16: E03: found ;, expected name\n")),
    of("draw lit --types lamp --types no_name", 2, err=b"refused E03 no_name line 2\n"),
    of("expect rules trace --decl lit --types lamp --types no_name", 2, err=b"refused E03 no_name line 2\n"),
    of("expect rules trace --decl lit --types lamp --types no_name --why", 2, err=placed(b"refused E03 no_name line 2\n", b"no_name:2:16: E03: found ;, expected name\n")),
    of("check cut_lit --types lamp", 2, err=b"refused E03 cut_lit line 2\n"),
    of("check cut_lit --types lamp --why", 2, err=placed(b"refused E03 cut_lit line 2\n", b"cut_lit:2:18: E03: found the end of the text, expected one of name END_CONNECTIONS\n")),
    of("check - --types lamp", 2, err=b"refused E03 - line 2\n", given=FILES["cut_lit"]),
    of("check lit --types half_a_lamp", 2, err=b"refused E03 lit line 1\n"),
    of("check lit --types lamp --types strange_byte", 2, err=b"refused E01\n"),
    of("check lit --types lamp --types strange_byte --why", 2, err=placed(b"refused E01\n", b"strange_byte:3:3: E01: byte 255 is allowed only in comments\n")),
    # All texts together, with the line feeds between them, have at most 1,048,576 bytes. That comes before a comment that is open.
    of("run rest --types half --horizon 8", 0, out=TO_8),
    of("check more_than_the_rest --types half", 2, err=b"refused E04\n"),
    of("check more_than_the_rest --types half --why", 2, err=placed(b"refused E04\n", b"more_than_the_rest:3:%d: E04: a text has at most 1048576 bytes\n" % (HALF - len(CYCLE)))),
    of("check rest --types open_half", 2, err=b"refused E02\n"),
    of("check more_than_the_rest --types open_half", 2, err=b"refused E04\n"),
    of("check cycle --types far_too_long", 2, err=b"refused E04\n"),
    # Standard input is one of all files, and files are read in their order.
    of("run lit --types - --horizon 1", 0, out=LIT_TO_1, given=LAMP),
    of("run - --types lamp --horizon 1", 0, out=LIT_TO_1, given=LIT),
    of("check - --types - --why", 3, err=b"file fault\ndeclaration -: standard input can't be read, or was read before\n", given=LAMP),
    of("check lit --types - --types - --why", 3, err=b"file fault\ntypes -: standard input can't be read, or was read before\n", given=LAMP),
    of("check nowhere --types lamp --types gone --why", 3, err=b"file fault\ntypes gone: no file of this name can be read\n"),
    of("check nowhere --types lamp --why", 3, err=b"file fault\ndeclaration nowhere: no file of this name can be read\n"),
    of("check nowhere --types no_name", 3, err=b"file fault\n"),
    of("wave lit --types gone trace", 3, err=b"file fault\n"),
    of("wave lit --types gone trace --why", 3, err=b"file fault\ntypes gone: no file of this name can be read\n"),
    of("draw lit --types gone", 3, err=b"file fault\n"),
    of("expect rules trace --decl lit --types gone --why", 3, err=b"file fault\ntypes gone: no file of this name can be read\n"),
    # Block types are those of a declaration.
    of("expect rules trace --types lamp", 5, err=LACKING),
]

# Which events of a trace are shown: from a tick on, before a tick, and those that cleared no transition.
LOSING = (
    b"FUNCTION_BLOCK T EVENT_INPUT R; END_EVENT EC_STATES A; B; END_STATES EC_TRANSITIONS A TO B := R; END_TRANSITIONS END_FUNCTION_BLOCK\n"
    b"APPLICATION P FBS S : E_RESTART; C : T; END_FBS EVENT_CONNECTIONS S.COLD TO C.R; END_CONNECTIONS END_APPLICATION\n"
)
FILES |= {"losing": LOSING, "losing_trace": b"0 MAIN < S.COLD\n0 MAIN > C.R\n5 MAIN > C.R\nend 8\n"}
LOST = b"5 MAIN > C.R\n  lost in B\n"
FROM_3 = b"3 MAIN < C.EO\n  due 6\n6 MAIN < C.EO\n  due 9\nend 8\n"
CALLS += [
    of("inspect cycle trace --from 3", 0, out=FROM_3),
    of("inspect cycle trace --from 1", 0, out=FROM_3),
    of("inspect cycle trace --to 3", 0, out=b"0 MAIN < S.COLD\n0 MAIN > C.START DT=3\n  due 3\nend 8\n"),
    of("inspect cycle trace --from 3 --to 6", 0, out=b"3 MAIN < C.EO\n  due 6\nend 8\n"),
    of("inspect cycle trace --from 6 --to 3", 0, out=b"end 8\n"),
    of("inspect cycle trace --from 0 --to 1000000000000", 0, out=INSIDE_TO_8),
    of("inspect cycle trace --from 3 --only S", 0, out=b"end 8\n"),
    of("inspect cycle trace --lost", 0, out=b"end 8\n"),
    of("inspect losing losing_trace", 0, out=b"0 MAIN < S.COLD\n0 MAIN > C.R\n  A -> B by R\n" + LOST + b"end 8\n"),
    of("inspect losing losing_trace --lost", 0, out=LOST + b"end 8\n"),
    of("inspect losing losing_trace --lost --from 5 --only C", 0, out=LOST + b"end 8\n"),
    of("inspect losing losing_trace --lost --to 5", 0, out=b"end 8\n"),
    of("inspect cycle trace --from 1000000000001", 5, err=None),
    of("inspect cycle trace --to -1", 5, err=None),
    of("inspect cycle no_trace --from 3", 2, err=b"refused trace line 1\n"),
]

# How much traces must cover: two of four ports before the cycle's first answer, and all with it.
PACE = b"""APPLICATION A FBS S : E_RESTART; C : E_CYCLE(DT := T#3ms); M : E_MERGE; END_FBS
EVENT_CONNECTIONS S.COLD TO C.START; C.EO TO M.EI1; END_CONNECTIONS END_APPLICATION
"""
FILES |= {
    "pace": PACE,
    "half_trace": b"0 MAIN < S.COLD\n0 MAIN > C.START DT=3\nend 2\n",
    "full_trace": b"0 MAIN < S.COLD\n0 MAIN > C.START DT=3\n3 MAIN < C.EO\n3 MAIN > M.EI1\n3 MAIN < M.EO\nend 4\n",
}
HALF_COVERED = b"""instance C
  event EO was never emitted
instance M
  event EI1 was never taken
ports without a connection
  event C.STOP was never taken
  event M.EI2 was never taken
  event M.EO was never emitted
states 0 of 0, transitions 0 of 0, algorithms 0 of 0, events 0 of 0, ports 2 of 4
"""
ALL_COVERED = b"""ports without a connection
  event C.STOP was never taken
  event M.EI2 was never taken
states 0 of 0, transitions 0 of 0, algorithms 0 of 0, events 0 of 0, ports 4 of 4
"""
CALLS += [
    of("coverage pace half_trace", 0, out=HALF_COVERED),
    of("coverage pace half_trace --least 0", 0, out=HALF_COVERED),
    of("coverage pace half_trace --least 50", 0, out=HALF_COVERED),
    of("coverage pace half_trace --least 51", 1, out=HALF_COVERED),
    of("coverage pace half_trace --least 100", 1, out=HALF_COVERED),
    of("coverage pace half_trace full_trace --least 100", 0, out=ALL_COVERED),
    of("coverage pace half_trace --least 51", 3, to="full", err=b"write fault after 0 bytes\n"),
    of("coverage pace no_trace --least 100", 2, err=b"refused trace line 1\n"),
    *(of(f"coverage pace half_trace --least {word}", 5, err=None) for word in ("101", "-1", "half")),
]

# Warnings that are left out, and that are faults. A name of warnings is a number or `all`, and the name of a type or an instance.
WARNED = (
    b"FUNCTION_BLOCK T EVENT_INPUT R; END_EVENT EC_STATES A; B; END_STATES EC_TRANSITIONS A TO B := R; END_TRANSITIONS END_FUNCTION_BLOCK\n"
    b"FUNCTION_BLOCK U EVENT_INPUT R; END_EVENT EC_STATES A; B; END_STATES EC_TRANSITIONS A TO B := R; END_TRANSITIONS END_FUNCTION_BLOCK\n"
    b"APPLICATION P FBS S : E_RESTART; C : T; D : U; G : E_DELAY; END_FBS\n"
    b"EVENT_CONNECTIONS S.COLD TO C.R; S.COLD TO D.R; S.COLD TO G.START; END_CONNECTIONS END_APPLICATION\n"
)
FILES["warned"] = WARNED
STAYS_IN_T = b"warned:1:56: L06: block type T: state B: no transition leaves it\n"
STAYS_IN_U = b"warned:2:56: L06: block type U: state B: no transition leaves it\n"
UNFED = b"warned:3:48: L02: application P: instance G : E_DELAY, data input DT: it has no source, no parameter and no stimulus\n"
WARNINGS = STAYS_IN_T + STAYS_IN_U + UNFED
NOTHING_IS = b"there is no type or instance "
LINTED = (
    ("", 0, WARNINGS),
    ("--allow L06", 0, UNFED),
    ("--allow l06", 0, UNFED),
    ("--allow L06:T", 0, STAYS_IN_U + UNFED),
    ("--allow L06:t", 0, STAYS_IN_U + UNFED),
    ("--allow L06:T --allow L06:U", 0, UNFED),
    ("--allow L02:G", 0, STAYS_IN_T + STAYS_IN_U),
    ("--allow L02:e_delay", 0, STAYS_IN_T + STAYS_IN_U),
    ("--allow L02:C", 0, WARNINGS),
    ("--allow L06:G", 0, WARNINGS),
    ("--allow L07", 0, WARNINGS),
    ("--allow all", 0, b""),
    ("--allow ALL:G", 0, STAYS_IN_T + STAYS_IN_U),
    ("--deny L06", 1, WARNINGS),
    ("--deny L06:U", 1, WARNINGS),
    ("--deny L06:C", 0, WARNINGS),
    ("--deny L07", 0, WARNINGS),
    ("--deny L07 --deny L02", 1, WARNINGS),
    ("--deny all", 1, WARNINGS),
    ("--deny all --allow L02 --allow L06", 0, b""),
    ("--deny L06 --allow L06:T", 1, STAYS_IN_U + UNFED),
    ("--deny L06:T --allow L06:T", 0, STAYS_IN_U + UNFED),
    # Names that no type and no instance has: a line each, and a fault of --deny. Of equally near names the first one is named.
    ("--allow L06:E_DELAI", 0, WARNINGS + b"--allow: " + NOTHING_IS + b"E_DELAI (the nearest name is E_DELAY)\n"),
    ("--allow L06:x --allow L02:d_g", 0, WARNINGS + b"--allow: " + NOTHING_IS + b"X (the nearest name is T)\n--allow: " + NOTHING_IS + b"D_G (the nearest name is D)\n"),
    ("--deny L06:e_restar", 1, WARNINGS + b"--deny: " + NOTHING_IS + b"E_RESTAR (the nearest name is E_RESTART)\n"),
    ("--deny all:X1 --allow all", 1, b"--deny: " + NOTHING_IS + b"X1 (the nearest name is T)\n"),
    ("--deny L06:P --allow L07:P", 1, WARNINGS + b"--allow: " + NOTHING_IS + b"P (the nearest name is T)\n--deny: " + NOTHING_IS + b"P (the nearest name is T)\n"),
    ("--deny L06:E_RESTART --allow L02:S --allow L06:D", 0, WARNINGS),
)
NO_WARNINGS = ("L6", "L00", "L99", "M06", "L06:", "L06T", "L061", "al", "every", "L0x", "Lx6", "L06:1X", "L06:A.B", "L06:exit")
CALLS += [
    *(of(f"check warned --lint {words}", status, out=b"accepted\n", err=lines) for words, status, lines in LINTED),
    *(of(f"check warned --lint {option} {name}", 5, err=f"error: no warning is called {name}\n".encode()) for name in NO_WARNINGS for option in ("--allow", "--deny")),
    *(of(f"check warned {words}", 5, err=LACKING) for words in ("--allow L06", "--deny L06", "--allow L99", "--allow L06 --deny all")),
    of("check nowhere --lint --allow L99", 5, err=b"error: no warning is called L99\n"),
    of("check slip --lint --deny all", 2, err=b"refused E21\n"),
    of("run cycle --horizon 1 --allow L06", 5, err=None),
    of("check cycle --lint --deny all", 0, out=b"accepted\n"),
    of("check warned --lint --deny all", 3, to="full", err=b"write fault after 0 bytes\n"),
    # A type without instances is a fault of the declaration, and not of a file of block types.
    of("check cycle --types lamp --lint --deny all", 0, out=b"accepted\n"),
    of("check lamp_and_cycle --lint --deny L10", 1, out=b"accepted\n", err=b"lamp_and_cycle:1:16: L10: block type LAMP: no network has an instance of it\n"),
]
FILES["lamp_and_cycle"] = LAMP + b"\n" + CYCLE

# Where standard error is a terminal, places are printed without --why, and --no-why leaves them out.
TWICE_PLACED = placed(b"refused E20\n", b"twice:1:32: E20: application A: instance S is given twice\n")
CALLS += [
    of("check twice", 2, err=TWICE_PLACED, errors_to="terminal"),
    of("check twice --why", 2, err=TWICE_PLACED, errors_to="terminal"),
    of("check twice --no-why", 2, err=b"refused E20\n", errors_to="terminal"),
    of("check --no-why --why twice", 2, err=b"refused E20\n", errors_to="terminal"),
    of("check twice --why --no-why", 2, err=b"refused E20\n"),
    of("check twice --no-why", 2, err=b"refused E20\n"),
    of("check twice", 2, err=b"refused E20\n"),
    of("run cycle --horizon 8", 0, out=TO_8, errors_to="terminal"),
    of("run nowhere --horizon 8", 3, err=b"file fault\ndeclaration nowhere: no file of this name can be read\n", errors_to="terminal"),
    of("wave cycle nowhere", 3, err=b"file fault\ntrace nowhere: no file of this name can be read\n", errors_to="terminal"),
    of("inspect cycle nowhere", 3, err=b"file fault\ntrace nowhere: no file of this name can be read\n", errors_to="terminal"),
    of("coverage cycle nowhere", 3, err=b"file fault\ntrace nowhere: no file of this name can be read\n", errors_to="terminal"),
    of("expect nowhere trace", 3, err=b"file fault\nrules nowhere: no file of this name can be read\n", errors_to="terminal"),
    of("diff nowhere trace", 3, err=b"file fault\ntrace nowhere: no file of this name can be read\n", errors_to="terminal"),
    *(
        of(f"{words} --no-why", 3, err=b"file fault\n", errors_to="terminal")
        for words in ("run nowhere --horizon 8", "wave cycle nowhere", "inspect cycle nowhere", "coverage cycle nowhere", "expect nowhere trace", "diff nowhere trace", "draw nowhere")
    ),
    # Where both are given, --no-why counts.
    *(
        of(f"{words} {both}", 3, err=b"file fault\n")
        for words in ("run nowhere --horizon 8", "check nowhere", "wave cycle nowhere", "inspect cycle nowhere", "coverage cycle nowhere", "expect nowhere trace", "diff nowhere trace", "draw nowhere")
        for both in ("--why --no-why", "--no-why --why")
    ),
    of("draw nowhere", 3, err=b"file fault\ndeclaration nowhere: no file of this name can be read\n", errors_to="terminal"),
    of("draw cycle --no-why", 0, out=GRAPH),
    of("draw lit --types lamp --type lump", 2, err=b"refused E21\n--type: E21: there is no declared type lump (the nearest name is LAMP)\n", errors_to="terminal"),
    of("draw lit --types lamp --type lump --no-why", 2, err=b"refused E21\n", errors_to="terminal"),
    of("inspect cycle trace --only SS", 2, err=b"refused E21\n--only: E21: there is no instance SS (the nearest name is S)\n", errors_to="terminal"),
    of("inspect cycle trace --only SS --no-why", 2, err=b"refused E21\n", errors_to="terminal"),
    of("session cycle --no-why", 5, err=None),
    of("explain E99", 5, err=b"error: no refusal or stop is called E99\n", errors_to="terminal"),
]

# The same calls with other arguments, the files that are read, and the fault that is reported first if there are several.
CALLS += [
    *(of(words, 2, err=line, given=text) for text, line in REFUSED for words in ("check -", "run - --horizon 5")),
    of("run nowhere --horizon 1", 3, err=b"file fault\n"),
    *(Call(words, 5, err=None) for words in FAULTS),
    *(of(words, 5, err=text + MORE) for words, text in TOLD),
    *(of(f"run loop --deploy apart --stim at_seven --steps 10 --horizon 9 --workers {count}", 1, out=LOOP_STOPPED) for count in (1, 2, 64)),
    # A fault of a file comes before the refusal of a file that was read before it.
    of("check cut_lit --deploy - --stim -", 3, err=b"file fault\n"),
    of("check cycle --stim nowhere", 3, err=b"file fault\n"),
    *(Call(["explain", name], 0, out=None, has=(f"{name}: ", "\nFor example:\n- ", "\nLook at: ")) for name in EXPLAINED),
    *(Call(["explain", name], 5, err=f"error: no refusal or stop is called {name}\n".encode()) for name in NOT_EXPLAINED),
    of("explain E21", 0, out=SLIP_EXPLAINED),
    of("explain e21", 0, out=SLIP_EXPLAINED),
    of("explain divide", 0, out=DIVIDE_EXPLAINED),
    of("explain DIvide", 0, out=DIVIDE_EXPLAINED),
    Call(["explain", "File Fault"], 0, out=None, has=("file fault: A file can't be read.",)),
    # Numbers at their limits, other forms of a number, and another order of the arguments.
    of("run cycle --horizon 8 --trace 1", 0, out=TO_8),
    of("run cycle --horizon 8 --trace=1", 0, out=TO_8),
    of("run cycle --horizon 8 --trace 2", 0, out=KEYED_TO_8),
    of("run cycle --horizon 8 --trace=2", 0, out=KEYED_TO_8),
    of("run ring --horizon 1 --steps 3 --trace 1", 1, out=STOPPED),
    of("run ring --horizon 1 --steps 3 --trace=2", 1, out=KEYED_STOPPED),
    of("run empty --steps 10000000 --horizon 1000000000000", 0, out=b"end 1000000000000\n"),
    of("run --horizon 1 --steps 1 empty", 0, out=b"end 1\n"),
    of("run empty --horizon 8", 0, out=b"end 8\n"),
    of("run empty --horizon +8", 0, out=b"end 8\n"),
    of("run empty --horizon 008", 0, out=b"end 8\n"),
    of("run empty --horizon 8 --workers 64", 0, out=b"end 8\n"),
    # The location of a fault is printed if it is asked for.
    of("run slip --horizon 1 --why", 2, err=placed(b"refused E21\n", b"slip" + AT_THE_SLIP)),
    of("check merge --deploy merge_plan --why", 2, err=placed(b"refused E21\n", b"merge_plan:4:19: E21: resource R: instance N: application A has no instance N\n")),
    of("check - --why", 2, err=placed(b"refused E03 line 2\n", b"-:2:7: E03: found the end of the text, expected :\n", b"APPLICATION A\nFBS M "), given=b"APPLICATION A\nFBS M "),
    of("check merge --stim merge_fed --why", 2, err=placed(b"refused E29\n", b"merge_fed:2:3: E29: row 0: there is no instance N\n")),
    of("check slip --deploy nowhere --why", 3, err=b"file fault\ndeployment nowhere: no file of this name can be read\n"),
    of("check nowhere --deploy nowhere --why", 3, err=b"file fault\ndeclaration nowhere: no file of this name can be read\n"),
    of(
        "run slip --horizon 1 --stim - --why", 3,
        err=b"file fault\nstimuli -: standard input can't be read, or was read before\n", closes_input=True,
    ),
    # The progress of a run that stops: what it reached before is reported.
    of("run late --horizon 5 --steps 2 --progress", 1, out=STOPPED_LATE, err=TOLD_LATE),
    of("run cycle --horizon 8 --progress --workers 3", 0, out=TO_8, err=TOLD_TO_8),
    of("run cycle --horizon 8 --progress --trace 2", 0, out=KEYED_TO_8, err=TOLD_TO_8),
    # Stimuli without rows change nothing. The deployment is refused before the stimuli, and these before the check.
    of("run cycle --horizon 4 --stim no_rows", 0, out=TO_4),
    of("check twice --stim no_heading --deploy no_plan", 2, err=b"refused E10\n"),
    of("check twice --stim no_heading", 2, err=b"refused E13\n"),
    of("check cycle --deploy other_plan", 0, out=b"accepted\n"),
    of("check cycle --stim fed", 0, out=b"accepted\n"),
    of("run cycle --horizon 6 --deploy other_plan", 0, out=TO_6_ELSEWHERE),
    of("run cycle --horizon 6 --stim fed", 0, out=FED_TO_6),
    # All files are read before any of them is refused.
    of("check no_text --deploy nowhere", 3, err=b"file fault\n"),
    of("check no_text --stim nowhere", 3, err=b"file fault\n"),
    of("check nowhere --stim no_text", 3, err=b"file fault\n"),
    of("run no_text --horizon 1 --deploy nowhere", 3, err=b"file fault\n"),
    of("run no_text --horizon 1 --stim nowhere --deploy no_plan", 3, err=b"file fault\n"),
    of("run nowhere --horizon 1 --deploy no_plan --stim no_text", 3, err=b"file fault\n"),
    # Waveforms of traces: the resource is that of the deployment. The declaration and the deployment are refused before the trace.
    of("wave cycle keyed_trace", 0, out=WAVE_TO_8),
    of("wave cycle --deploy cycle_plan trace", 0, out=WAVE_TO_8),
    of("wave --deploy cycle_plan cycle trace", 0, out=WAVE_TO_8),
    of("wave cycle cut_name_trace", 2, err=b"refused trace line 3\n"),
    of("wave cycle no_block_trace", 2, err=b"refused trace line 3\n"),
    of("wave cycle falling_trace", 2, err=b"refused trace line 2\n"),
    of("wave cycle longer_trace", 2, err=b"refused trace line 3\n"),
    of("wave cycle cut_trace --why", 2, err=b"refused trace line 5\ntrace: line 5: it does not end in a line feed\n"),
    of("wave cycle strange_trace --why", 2, err=b"refused trace line 4\ntrace: line 4: there is no resource \"NONE\"\n"),
    of("wave cycle no_block_trace --why", 2, err=b"refused trace line 3\ntrace: line 3: there is no instance \"D\"\n"),
    of("wave cycle falling_trace --why", 2, err=b"refused trace line 2\ntrace: line 2: tick 2 comes after tick 3\n"),
    of("wave cycle longer_trace --why", 2, err=b"refused trace line 3\ntrace: line 3: the trace has ended before it\n"),
    of("wave cycle no_trace --why", 2, err=b"refused trace line 1\ntrace: line 1: the trace has no last line\n"),
    of("wave cycle trace --why", 0, out=WAVE_TO_8),
    of("wave cycle --deploy other_plan trace", 2, err=b"refused trace line 1\n"),
    of("wave twice --deploy no_plan no_trace", 2, err=b"refused E10\n"),
    of("wave cycle --deploy nowhere trace", 3, err=b"file fault\n"),
    # Insides of traces. The declaration and the deployment are refused before the trace is opened, and a path before it is read.
    of("inspect cycle trace", 0, out=INSIDE_TO_8),
    of("inspect - trace", 0, out=INSIDE_TO_8, given=CYCLE),
    of("inspect cycle -", 0, out=KEYED_INSIDE_TO_8, given=KEYED_TO_8),
    of("inspect cycle trace --only c", 0, out=INSIDE_TO_8[16:]),
    of("inspect cycle trace --only S --only C", 0, out=INSIDE_TO_8),
    of("inspect cycle trace --only D", 2, err=b"refused E21\n"),
    of("inspect cycle no_trace --only D", 2, err=b"refused E21\n"),
    of("inspect cycle no_trace", 2, err=b"refused trace line 1\n"),
    of("inspect cycle - --deploy other_plan", 2, err=b"refused trace line 1\n", given=TO_8),
    of("inspect cycle - --deploy other_plan", 0, out=INSIDE_TO_8.replace(b"MAIN", b"R1"), given=TO_8.replace(b"MAIN", b"R1")),
    # The timer does not go off at this tick.
    of("inspect cycle -", 2, err=b"refused trace line 3\n", given=TO_8.replace(b"3 MAIN <", b"4 MAIN <")),
    of("inspect ring - --steps 3", 0, out=STOPPED, given=STOPPED),
    of("inspect ring -", 2, err=b"refused trace line 6\n", given=STOPPED),
    of("inspect ring - --steps 2", 2, err=b"refused trace line 6\n", given=STOPPED),
    of("inspect cycle - --cut", 0, out=INSIDE_TO_8[:INSIDE_TO_8.index(b"  due 6")] + b"  cut\n", given=TO_8[:TO_8.index(b"6 MAIN") + 4]),
    of("inspect cycle - --cut --why", 0, out=INSIDE_TO_8, given=TO_8),
    of("inspect cycle - --why", 2, err=b"refused trace line 1\ntrace: line 1: the trace has no last line\n", given=b""),
    of("inspect cycle nowhere --why", 3, err=b"file fault\ntrace nowhere: no file of this name can be read\n"),
    of("inspect twice trace", 2, err=b"refused E20\n"),
    of("inspect cycle nowhere", 3, err=b"file fault\n"),
    of("inspect cycle --deploy nowhere trace", 3, err=b"file fault\n"),
    of("inspect cycle trace --steps 0", 5, err=None),
    of("inspect cycle", 5, err=None),
    *(of("inspect cycle trace", 3, err=b"write fault after 0 bytes\n", to=it) for it in OUTPUTS[:3]),
    of("inspect cycle trace", 3, out=INSIDE_TO_8[:ROOM], err=b"write fault after 10 bytes\n", to="short"),
    # What traces cover. They are opened one after the other, and a refusal names the trace where there are several.
    of("coverage cycle trace", 0, out=COVERED_TO_8),
    of("coverage - trace", 0, out=COVERED_TO_8, given=CYCLE),
    of("coverage cycle -", 0, out=COVERED_TO_0, given=TO_8[:TO_8.index(b"3 MAIN")] + b"end 2\n"),
    of("coverage cycle trace -", 0, out=COVERED_TO_8, given=TO_8[:TO_8.index(b"3 MAIN")] + b"end 2\n"),
    of("coverage cycle - trace", 0, out=COVERED_TO_8, given=KEYED_TO_8),
    of("coverage cycle no_trace", 2, err=b"refused trace line 1\n"),
    of("coverage cycle trace no_trace nowhere", 2, err=b"refused trace no_trace line 1\n"),
    of("coverage cycle trace -", 2, err=b"refused trace - line 3\n", given=TO_8.replace(b"3 MAIN <", b"4 MAIN <")),
    of("coverage ring - --steps 2", 2, err=b"refused trace line 6\n", given=STOPPED),
    of("coverage cycle - --cut", 0, out=COVERED_TO_0 + b"traces cut 1 of 1\n", given=TO_8[:TO_8.index(b"6 MAIN") + 4]),
    of("coverage cycle trace - --why", 2, err=b"refused trace - line 1\ntrace -: line 1: the trace has no last line\n", given=b""),
    of("coverage twice trace", 2, err=b"refused E20\n"),
    of("coverage cycle nowhere no_trace", 3, err=b"file fault\n"),
    of("coverage cycle nowhere --why", 3, err=b"file fault\ntrace nowhere: no file of this name can be read\n"),
    of("coverage cycle trace . --why", 3, err=b"file fault\ntrace .: this is a folder, not a file\n"),
    of("coverage cycle - - --why", 3, err=b"file fault\ntrace -: standard input can't be read, or was read before\n", given=TO_8),
    of("coverage cycle --deploy other_plan trace", 2, err=b"refused trace line 1\n"),
    of("coverage cycle --deploy other_plan -", 0, out=COVERED_TO_8, given=TO_8.replace(b"MAIN", b"R1")),
    of("coverage cycle --deploy nowhere trace", 3, err=b"file fault\n"),
    of("coverage cycle trace --steps 0", 5, err=None),
    of("coverage cycle", 5, err=None),
    *(of("coverage cycle trace", 3, err=b"write fault after 0 bytes\n", to=it) for it in OUTPUTS[:3]),
    of("coverage cycle trace", 3, out=COVERED_TO_8[:ROOM], err=b"write fault after 10 bytes\n", to="short"),
    # Graphs. What is drawn is refused before the name of a type, in the order of a check.
    of("draw cycle", 0, out=GRAPH),
    of("draw -", 0, out=GRAPH, given=CYCLE),
    of("draw cycle --deploy cycle_plan", 0, out=GRAPH.replace(b"DEV.", b"D.")),
    of("draw --deploy other_plan cycle", 0, out=GRAPH.replace(b"DEV.", b"D.").replace(b"MAIN", b"R1")),
    of("draw cycle --type A", 2, err=b"refused E21\n"),
    of("draw cycle --type E_CYCLE", 2, err=b"refused E21\n"),
    of("draw cycle --type=", 2, err=b"refused E21\n"),
    of("draw lit --types lamp --type lump", 2, err=b"refused E21\n"),
    of("draw lit --types lamp --type lump --why", 2, err=b"refused E21\n--type: E21: there is no declared type lump (the nearest name is LAMP)\n"),
    Call(["draw", "cycle", "--type", "L\nA", "--why"], 2, err=b"refused E21\n--type: E21: there is no declared type L?A\n"),
    of("draw lit --why", 2, err=placed(b"refused E21\n", b"lit:1:38: E21: application A: instance L : LAMP: there is no block type LAMP\n")),
    of("draw lit --types no_name --why", 2, err=placed(b"refused E03 no_name line 2\n", b"no_name:2:16: E03: found ;, expected name\n")),
    of("draw nowhere --why", 3, err=b"file fault\ndeclaration nowhere: no file of this name can be read\n"),
    of("draw cycle --deploy nowhere --why", 3, err=b"file fault\ndeployment nowhere: no file of this name can be read\n"),
    of("draw cycle --type A --why --no-why", 2, err=b"refused E21\n"),
    of("draw twice --type A", 2, err=b"refused E20\n"),
    of("draw twice --deploy no_plan", 2, err=b"refused E10\n"),
    of("draw no_text --deploy nowhere", 3, err=b"file fault\n"),
    of("draw nowhere", 3, err=b"file fault\n"),
    of("draw - --deploy -", 3, err=b"file fault\n", given=CYCLE),
    of("draw cycle trace", 5, err=None),
    of("draw", 5, err=None),
    *(of("draw cycle", 3, err=b"write fault after 0 bytes\n", to=it) for it in OUTPUTS[:3]),
    of("draw cycle", 3, out=GRAPH[:ROOM], err=b"write fault after 10 bytes\n", to="short"),
    # The bytes of a write fault: those of the trace, of the line of a stop and of the answers.
    of("session halves", 1, out=SHOWN_AT_5, given=TO_A_STOP),
    *(of("session halves", 3, out=SHOWN_AT_5[:room], err=b"write fault after %d bytes\n" % room, to="short", room=room, given=TO_A_STOP) for room in range(1, len(SHOWN_AT_5))),
    # A control character in a name of a file is shown as a question mark.
    Call(["check", ODD_NAME, "--why"], 2, err=placed(b"refused E03 line 1\n", b"odd???name:1:31: E03: found END_FBS, expected one of ; (\n", FILES[ODD_NAME])),
    Call(["check", "halves", "--types", ODD_NAME], 2, err=b"refused E03 odd???name line 1\n"),
    Call(["check", "no\nwhere", "--why"], 3, err=b"file fault\ndeclaration no?where: no file of this name can be read\n"),
    Call(["expect", "rules", "trace", ODD_NAME], 2, err=b"refused trace odd???name line 1\n"),
    Call(["diff", ODD_NAME, "no_trace"], 1, out=b"line 1 differs in: length\nodd???name: APPLICATION A FBS D : E_DELAY END_FBS END_APPLICATION\nno_trace has no such line\n"),
    # Rows that a run does not come to.
    of("run halves --stim some_rows --horizon 9 --why", 0, out=None, err=b"stimuli: rows at or beyond the horizon 9: 2 of 4; the run does not take them\n"),
    of("run halves --stim some_rows --horizon 4 --why", 0, out=None, err=b"stimuli: rows at or beyond the horizon 4: 3 of 4; the run does not take them\n"),
    of("run halves --stim some_rows --horizon 9", 0, out=None),
    of("run halves --stim some_rows --horizon 11 --why", 0, out=None),
    of("run halves --horizon 1 --why", 0, out=None),
    of("check halves --stim some_rows --why", 0, out=b"accepted\n"),
    # Rules over traces, of both forms, from files, a pipe and standard input.
    of("expect rules trace nowhere --why", 3, err=b"file fault\ntrace nowhere: no file of this name can be read\n"),
    of("expect rules nowhere", 3, err=b"file fault\n"),
    of("expect rules . --why", 3, err=b"file fault\ntrace .: this is a folder, not a file\n"),
    # A folder in the place of each file.
    *(
        of(f"{words} --why", 3, err=b"file fault\n%s .: this is a folder, not a file\n" % kind)
        for words, kind in (
            ("check .", b"declaration"), ("run . --horizon 1", b"declaration"), ("draw .", b"declaration"), ("wave . trace", b"declaration"), ("inspect . trace", b"declaration"),
            ("coverage . trace", b"declaration"), ("expect rules trace --decl .", b"declaration"), ("check lit --types .", b"types"),
            ("check cycle --deploy .", b"deployment"), ("expect rules trace --decl cycle --deploy .", b"deployment"), ("run cycle --horizon 1 --stim .", b"stimuli"),
            ("expect . trace", b"rules"), ("inspect cycle .", b"trace"), ("coverage cycle .", b"trace"), ("diff . trace", b"trace"), ("expect rules trace .", b"trace"),
        )
    ),
    # A file that opens, and fails where it is read.
    of("expect rules trace /proc/self/mem --why", 3, err=b"file fault\ntrace /proc/self/mem: this file can't be read to its end\n"),
    *(
        of(f"{command} cycle /proc/self/mem --why", 3, err=b"file fault\ntrace /proc/self/mem: this file can't be read to its end\n")
        for command in ("wave", "wave --states", "inspect", "coverage")
    ),
    of("diff trace /proc/self/mem --why", 3, err=b"file fault\ntrace /proc/self/mem: this file can't be read to its end\n"),
    of("diff /proc/self/mem trace --why", 3, err=b"file fault\ntrace /proc/self/mem: this file can't be read to its end\n"),
    of("diff /proc/self/mem trace", 3, err=b"file fault\n"),
    of("expect - - --why", 3, err=b"file fault\ntrace -: standard input can't be read, or was read before\n", given=FILES["rules"]),
    of("expect rules trace", 0, out=REPORT),
    of("expect rules trace keyed_trace", 0, out=REPORT_OF_TWO),
    of("expect - trace", 0, out=REPORT, given=FILES["rules"]),
    of("expect rules -", 0, out=REPORT, given=TO_8),
    of("expect rules trace_pipe", 0, out=None, has=("ok 1 - the cycle answers # SKIP never applied", "# decided 0 times", "# no line of the trace is of: MAIN > C.START")),
    of("expect broken_rules trace", 1, out=BROKEN_REPORT),
    of("expect rules trace keyed_trace --junit", 0, out=JUNIT_OF_TWO),
    of("expect broken_rules trace --junit", 1, out=BROKEN_JUNIT),
    of("expect rules trace_pipe --junit", 0, out=SKIPPED_JUNIT),
    of("expect rules trace_pipe --junit --strict", 1, out=STRICT_JUNIT),
    of("expect rules cut_trace --cut", 0, out=REPORT),
    of("expect rules trace --decl cycle", 0, out=REPORT),
    of("expect rules trace --decl cycle --deploy cycle_plan", 0, out=REPORT),
    # Rules are refused first, then the declaration and the deployment, then names that these do not have, and then traces.
    of("expect no_plan cut_trace --decl twice", 2, err=b"refused E41\n"),
    of("expect cut_plan cut_trace --why", 2, err=placed(b"refused E41\n", b"cut_plan:2:4: E41: this is no TOML\n")),
    of("expect no_pattern cut_trace --decl twice --why", 2, err=placed(b"refused E43\n", b"no_pattern:3:1: E43: 1st rule, \"the cycle answers\": after: \"> C.START\" is no pattern: a pattern is a resource, a sign, a port and conditions, with blanks between\n")),
    of("expect many_rules cut_trace --why", 2, err=b"refused E40\nrules: there are more than 1,000 rules\n"),
    of("expect rules cut_trace --decl twice --why", 2, err=placed(b"refused E20\n", b"twice:1:32: E20: application A: instance S is given twice\n")),
    of("expect rules cut_trace --decl too_many --why", 2, err=placed(b"refused E30\n", b"too_many:1:13: E30: application: there are more than 4,096 instances, components included\n")),
    of("expect rules cut_trace --decl merge --why", 2, err=placed(b"refused E45\n", b"rules:3:1: E45: 1st rule, \"the cycle answers\": after: \"MAIN > C.START\": there is no instance C (the nearest name is M)\n")),
    of("expect nowhere trace --decl nowhere --why", 3, err=b"file fault\nrules nowhere: no file of this name can be read\n"),
    of("expect rules trace --decl nowhere --why", 3, err=b"file fault\ndeclaration nowhere: no file of this name can be read\n"),
    of("expect rules trace --decl cycle --deploy nowhere --why", 3, err=b"file fault\ndeployment nowhere: no file of this name can be read\n"),
    of("expect rules cut_trace --why", 2, err=b"refused trace cut_trace line 5\n"),
    of("expect rules trace --why", 0, out=REPORT),
    of("expect cycle_plan cut_trace --decl twice", 2, err=b"refused E42\n"),
    of("expect no_pattern cut_trace --decl twice", 2, err=b"refused E43\n"),
    of("expect negative_rules cut_trace --decl twice", 2, err=b"refused E44\n"),
    of("expect too_long cut_trace --decl twice", 2, err=b"refused E40\n"),
    of("expect rules cut_trace --decl twice", 2, err=b"refused E20\n"),
    of("expect rules cut_trace --decl merge", 2, err=b"refused E45\n"),
    of("expect rules cut_trace --decl cycle --deploy other_plan", 2, err=b"refused E45\n"),
    of("expect rules trace cut_trace", 2, err=b"refused trace cut_trace line 5\n"),
    of("expect rules nowhere", 3, err=b"file fault\n"),
    of("expect nowhere trace", 3, err=b"file fault\n"),
    of("expect no_plan trace --decl nowhere", 3, err=b"file fault\n"),
    of("expect rules trace --deploy cycle_plan", 5, err=LACKING),
    of("expect rules", 5, err=None),
    *(of("expect rules trace", 3, err=b"write fault after 0 bytes\n", to=it) for it in OUTPUTS[:3]),
    # Where two traces differ.
    of("diff trace trace", 0),
    of("diff trace keyed_trace", 1, out=b"line 1 differs in: key\ntrace, tick 0: 0 MAIN < S.COLD\nkeyed_trace, tick 0: 1 0 0 0 MAIN < S.COLD\n"),
    of("diff trace strange_trace", 1, out=b"line 4 differs in: resource\ntrace, tick 6: 6 MAIN < C.EO\nstrange_trace, tick 6: 6 NONE < C.EO\n"),
    of("diff no_trace trace", 1, out=b"line 1 differs in: length\nno_trace has no such line\ntrace, tick 0: 0 MAIN < S.COLD\n"),
    of("diff - trace", 0, given=TO_8),
    of("diff - -", 3, err=b"file fault\n", given=TO_8),
    of("diff nowhere trace", 3, err=b"file fault\n"),
    of("diff nowhere trace --why", 3, err=b"file fault\ntrace nowhere: no file of this name can be read\n"),
    of("diff trace . --why", 3, err=b"file fault\ntrace .: this is a folder, not a file\n"),
    of("diff - - --why", 3, err=b"file fault\ntrace -: standard input can't be read, or was read before\n", given=TO_8),
    of("diff trace keyed_trace --why", 1, out=b"line 1 differs in: key\ntrace, tick 0: 0 MAIN < S.COLD\nkeyed_trace, tick 0: 1 0 0 0 MAIN < S.COLD\n"),
    of("diff trace", 5, err=None),
]


def content(path):
    with open(path, "rb") as it:
        return it.read()


def calls_of_examples(folder):
    """Copies the examples into this folder, and returns for each the calls that must give its trace."""
    found = []
    shutil.copytree(f"{TOP}/examples", folder, dirs_exist_ok=True)
    for args in sorted(glob.glob(f"{folder}/**/args", recursive=True)):
        example = os.path.dirname(args)
        words, trace = content(args).decode().splitlines(), content(f"{example}/trace")
        status = int(trace.splitlines()[-1].startswith(b"stop"))
        found += [Call([*words, *way], status, out=trace, example=os.path.relpath(example, folder)) for way in WAYS]
    return found


def is_as_expected(wrote, expected):
    return wrote == expected if expected is not None else wrote.endswith(b"\n")


def shown(it):
    """Returns bytes, or that there are too many, in the form of a line."""
    return repr(it) if len(it) <= 300 else f"{len(it)} bytes that begin {it[:80]!r}"


def output(how, room):
    """Returns the file for an output of this kind. A closed one is closed later, by the call itself."""
    if how == "gone":
        read, write = os.pipe()
        os.close(read)
        return open(write, "wb")
    if how == "short":
        return open(f"{room}/short", "w+b")
    return open("/dev/full", "wb")


def content_of_terminal(main):
    """Returns what was written to a terminal, of which this is the main side and the other one is closed."""
    parts = []
    while True:
        try:
            part = os.read(main, 65536)
        except OSError:
            part = b""
        if not part:
            os.close(main)
            return b"".join(parts)
        parts.append(part)


def feed(pipe, text):
    """Writes a text into a named pipe when somebody reads it."""
    try:
        with open(pipe, "wb") as it:
            it.write(text)
    except BrokenPipeError:
        pass


def prepare(call):
    """Sets the call's limits, and closes the outputs that it must find closed. The new process runs this."""
    if call.memory:
        resource.setrlimit(resource.RLIMIT_AS, (call.memory, call.memory))
    if "short" in (call.to, call.errors_to):
        signal.signal(signal.SIGXFSZ, signal.SIG_IGN)
        resource.setrlimit(resource.RLIMIT_FSIZE, (call.room, call.room))
    for number, is_closed in enumerate((call.closes_input, call.to == "closed", call.errors_to == "closed")):
        if is_closed:
            os.close(number)


def make(call, words, room):
    """Makes a call in the folder of this room, and returns what is wrong with its result, a line each."""
    folder = f"{room}/files/{call.example}"
    for name in PIPES.keys() & set(call.words):
        threading.Thread(target=feed, args=(f"{folder}/{name}", PIPES[name]), daemon=True).start()
    main = None
    if call.errors_to == "terminal":
        main, side = pty.openpty()
        tty.setraw(side)
        ends = [None, open(side, "wb")]
    else:
        ends = [None if how == "pipe" else output(how, room) for how in (call.to, call.errors_to)]
    out, err = (subprocess.PIPE if it is None else it for it in ends)
    how = {"stdout": out, "stderr": err, "cwd": folder, "preexec_fn": lambda: prepare(call)}
    ran = subprocess.run([*words, *call.words], input=call.given, timeout=SECONDS, **how)
    wrote, errors = ran.stdout or b"", ran.stderr or b""
    if call.to == "short":
        wrote = content(out.name)
    for it in ends:
        if it is not None:
            it.close()
    if main is not None:
        errors = content_of_terminal(main)
    wrong = []
    if ran.returncode != call.status:
        wrong.append(f"the status is {ran.returncode}, and not {call.status}")
    if not is_as_expected(wrote, call.out) or not all(it.encode() in wrote for it in call.has):
        wrong.append(f"it wrote {shown(wrote)}")
    if call.errors_to in ("pipe", "terminal") and not is_as_expected(errors, call.err):
        wrong.append(f"standard error had {shown(errors)}")
    return wrong


class Prepared:
    """A folder outside the repository with a copy of a program and the files of the calls. It is removed at the end of its `with`."""

    def __init__(self, program):
        self.given = program

    def __enter__(self):
        self.drop = rt.drop_to_nobody()
        self.kept = tempfile.TemporaryDirectory(prefix="calls-")
        self.room = self.kept.name
        os.chmod(self.room, 0o711)
        self.program, folder = f"{self.room}/{PROGRAM}", f"{self.room}/files"
        shutil.copyfile(self.given, self.program)
        os.chmod(self.program, 0o755)
        os.mkdir(folder)
        for name, text in FILES.items():
            with open(f"{folder}/{name}", "wb") as it:
                it.write(text)
        os.chmod(f"{folder}/locked", 0)
        for name in PIPES:
            os.mkfifo(f"{folder}/{name}")
            os.chmod(f"{folder}/{name}", 0o644)
        self.of_examples = calls_of_examples(folder)
        self.words = [*(self.drop or []), self.program]
        return self

    def __exit__(self, *_):
        self.kept.cleanup()


def make_all(program):
    """Makes all calls of the program, outside the repository, and as nobody if this is root. Returns whether all had the expected result."""
    failed = 0
    if rt.drop_to_nobody() is None:
        print(f"{PROGRAM} was not called: as root, it is called only as nobody, and setpriv failed here")
        return False
    with Prepared(program) as prepared:
        made = [*CALLS, *prepared.of_examples]
        for call in made:
            wrong = make(call, prepared.words, prepared.room)
            failed += bool(wrong)
            for it in wrong:
                print(f"{PROGRAM} {call.words}, to {call.to}, {call.errors_to}: {it}")
    print(f"{PROGRAM}: {len(made) - failed} of {len(made)} calls had the expected result", flush=True)
    return not failed


if __name__ == "__main__":
    sys.exit(not make_all(f"{TOP}/crates/{PROGRAM}/out/{PROGRAM}"))
