#!/usr/bin/env python3
"""tools/narrow.py: runs the built program with outputs that take few bytes at a time and then fail, with readers that pause and then
fail, and with files for which there is no memory. tools/narrow.c is loaded before the program's system calls.

This shows what no contract says:
- a writer gets all bytes, however few it takes at a time, or those for which it has room, and their number is reported;
- a failing standard error changes neither status nor trace;
- a pause of a reader is no fault, and a failure is one, unless everything that was needed has been read;
- out of memory for a file is reported as that.

./gate runs this when it has run the program. Without ./gate it uses the program that ./simulate built."""

import sys
from typing import NamedTuple

import refuse
from calls import CYCLE, FILES, INSIDE_TO_8, KEYED_TO_8, LONG_TRACE, LONG_WAVE, MOST_OF_A_TEXT, TO_8, TOLD_TO_8, WAVE_TO_8
from kit import TOP
from program import Room, side_by_side

PROGRAM = "fbsim"
STEPS = (1, 2, 3, 7, 1000)
# The number of bytes that are gathered before they are written, and a number greater than any text's length.
PAGE = 8192
LARGE = 1_000_000
ROOMS_OF_A_PAGE = (0, 8, 9, 10, PAGE - 1, PAGE, PAGE + 1, PAGE + 8, PAGE + 9, PAGE + 10)
# Lengths of a name with which a text is a page long, and one byte less or more: a trace, a line, a name with the text before it, and
# a name alone. The last is much longer than a page.
LETTERS = (8170, 8171, 8172, 8176, 8177, 8178, 8182, 8183, 8184, 8191, 8192, 8193, 10_000)
WAYS = [["--serial"], *(["--workers", count] for count in ("1", "2", "7"))]
NARROW_FILES = {name: FILES[name] for name in ("far_too_long", "twice")} | {
    "cycle": CYCLE,
    "commented": CYCLE + b"(* %s *)\n" % (b"-" * 5_200),
    "part": b"APPLICATION",
    "trace": TO_8,
    "long_trace": LONG_TRACE,
    "stimuli": b"tick,event,values\n0,C.START,DT=5\n",
    "full": CYCLE,
    "many": b"APPLICATION A FBS S : E_RESTART; XXXXXXXXXX : E_CYCLE(DT := T#1ms); END_FBS "
    b"EVENT_CONNECTIONS S.COLD TO XXXXXXXXXX.START; END_CONNECTIONS END_APPLICATION",
}
RUN = ["run", "cycle", "--horizon", "8"]
WRITTEN = [(["check", "cycle"], b"accepted\n"), (RUN, TO_8), ([*RUN, "--serial"], TO_8), ([*RUN, "--trace", "2"], KEYED_TO_8)]
# Calls that fail, their statuses, and how the lines that they print begin.
FAILING = [
    (["check", "part"], 2, b"refused E03"),
    (["run", "part", "--horizon", "1"], 2, b"refused E03"),
    (["check", "nowhere"], 3, b"file fault\n"),
    (["check", "full"], 4, b"out of memory\n"),
    (["walk"], 5, b""),
]
FOR_THE_FULL = [
    ["check", "full"],
    ["check", "full", "--why"],
    ["run", "full", "--horizon", "8"],
    ["check", "cycle", "--stim", "full"],
    ["check", "cycle", "--deploy", "full", "--why"],
    ["wave", "full", "trace"],
    ["wave", "cycle", "full"],
    ["inspect", "full", "trace"],
    ["inspect", "cycle", "full"],
]


class Call(NamedTuple):
    """A call, its settings of narrow.c, and its result. If `err` is a number, that many bytes are reported."""

    words: list
    settings: dict
    status: int
    out: bytes
    err: bytes | int


def output(number, step, room, **how):
    return {"OUTPUT": number, "STEP": step, "ROOM": room, **how}


def reader(piece, given):
    return {"PIECE": piece, "GIVEN": given}


def with_room(words, text, steps, status=0):
    """The calls with these arguments, which write the text and end with this status: with each of these steps, and room for each number
    of its bytes."""
    for room in range(len(text) + 1):
        is_whole = room == len(text)
        reported = b"" if is_whole else b"write fault after %d bytes\n" % room
        for step in steps:
            yield Call(words, output(1, step, room), status if is_whole else 3, text[:room], reported)


def of_resources(it, ways):
    """The calls of a run of several resources: written a byte at a time, and with room for each number of bytes."""
    text = "".join(it.rounds).encode()
    for way in ways:
        words = ["run", "d.iec", *it.words, *way]
        yield Call(words, output(1, 1, len(text)), it.status, text, b"")
        yield from with_room(words, text, STEPS[-1:], it.status)


def at_room(words, text, room, step, **how):
    """A call with these arguments, which writes the text, with this much room: the text, or its beginning and the number of its bytes."""
    is_whole = room >= len(text)
    reported = b"" if is_whole else b"write fault after %d bytes\n" % room
    return Call(words, output(1, step, room, **how), 0 if is_whole else 3, text[:room], reported)


def of_one_failure():
    """Calls whose output fails once, with an error or by taking no byte, and then has room again: nothing is written after a failure."""
    for room in range(len(TO_8) + 1):
        for step in (1, 3, LARGE):
            for once in (0, 1):
                yield at_room(RUN, TO_8, room, step, ONCE=once)


def of_long_names(letters):
    """The calls of a text with a name of this length, around the ends of the pages on which a text is gathered before it is written."""
    text = b"0 MAIN < %s.COLD\nend 8\n" % (b"X" * letters)
    for room in (*ROOMS_OF_A_PAGE, *range(letters + 8, letters + 23)):
        for step in (1000, PAGE, LARGE):
            yield at_room(["run", "named", "--horizon", "8"], text, room, step, ONCE=0)


def of_many_lines():
    """The calls of a text of more than three pages, of lines that are some 25 bytes long."""
    lines = [b"0 MAIN < S.COLD\n", b"0 MAIN > XXXXXXXXXX.START DT=1\n", *(b"%d MAIN < XXXXXXXXXX.EO\n" % at for at in range(1, 1000)), b"end 1000\n"]
    text = b"".join(lines)
    ends = [room for pages in (1, 2, 3) for room in range(pages * PAGE - 40, pages * PAGE + 3)]
    for room in (0, 1, *ends, *range(len(text) - 10, len(text) + 2), 30_000):
        for step in (1000, PAGE, LARGE):
            yield at_room(["run", "many", "--horizon", "1000", "--serial"], text, room, step, ONCE=0)


def of_waves():
    """The calls that write a waveform, of less than a page and of many."""
    for step in STEPS:
        for room in (0, 1, 10, len(WAVE_TO_8) - 1, len(WAVE_TO_8)):
            yield at_room(["wave", "cycle", "trace"], WAVE_TO_8, room, step)
            yield at_room(["wave", "cycle", "trace", "--states"], WAVE_TO_8, room, step)
    for step in (7, PAGE, LARGE):
        for room in (PAGE - 1, PAGE, PAGE + 1, len(LONG_WAVE) - 1, len(LONG_WAVE)):
            yield at_room(["wave", "cycle", "long_trace"], LONG_WAVE, room, step)


def of_errors():
    """Calls whose standard error takes little."""
    for words, status, reported in FAILING:
        for room in (0, 1, 5):
            yield Call(words, output(2, 2, room), status, b"", reported[:room] or room)
    words = [*RUN, "--progress"]
    for room in (0, 1, 40, len(TOLD_TO_8) - 1):
        yield Call(words, output(2, 1000, room), 0, TO_8, TOLD_TO_8[:room])
    # Four bytes of the line at tick 3 are taken, so the run does not come to tick 4.
    room = TO_8.index(b"3 MAIN") + 4
    reported = b"".join(TOLD_TO_8.splitlines(keepends=True)[:3]) + b"write fault after %d bytes\n" % room
    yield Call(words, output(1, 7, room), 3, TO_8[:room], reported)


def of_readers():
    """Calls whose files come in pieces, with pauses, and fail."""
    for piece in (1, 3, 1000):
        yield Call(["check", "cycle"], reader(piece, MOST_OF_A_TEXT), 0, b"accepted\n", b"")
        yield Call(["check", "cycle"], reader(piece, len(CYCLE) - 1), 3, b"", b"file fault\n")
        yield Call(["check", "cycle"], reader(piece, 3), 3, b"", b"file fault\n")
        yield Call(["check", "cycle"], reader(piece, 0), 3, b"", b"file fault\n")
        yield Call([*RUN, "--stim", "stimuli"], reader(piece, len(CYCLE) + 5), 3, b"", b"file fault\n")
    # More than 5,000 pieces of a byte.
    yield Call(["check", "commented"], reader(1, MOST_OF_A_TEXT), 0, b"accepted\n", b"")
    yield Call(["check", "commented"], reader(1, len(NARROW_FILES["commented"]) - 1), 3, b"", b"file fault\n")
    # One byte more than the most is read, and no other is asked for.
    yield Call(["check", "far_too_long"], reader(4096, MOST_OF_A_TEXT + 1), 2, b"", b"refused E04\n")
    yield Call(["check", "far_too_long"], reader(4096, MOST_OF_A_TEXT), 3, b"", b"file fault\n")


def all_calls(help_text):
    for words, text in WRITTEN:
        yield from with_room(words, text, STEPS)
    for count in ("2", "7"):
        yield from with_room([*RUN, "--workers", count], TO_8, STEPS)
    yield from with_room(["--help"], help_text, STEPS[3:4])
    yield from of_waves()
    yield from with_room(["inspect", "cycle", "trace"], INSIDE_TO_8, STEPS)
    yield from of_errors()
    yield from of_readers()
    yield from of_one_failure()
    yield from of_many_lines()
    for words in FOR_THE_FULL:
        yield Call(words, {"STEP": 1}, 4, b"", b"out of memory\n")


def made_in(program, files, calls_of):
    """Makes the calls of the program with these files, and returns how many had the expected result, and how many there are."""
    with Room(program, files) as room:
        before = room.before("narrow")
        made = [*calls_of(room)]

        def try_one(call):
            ran = room.call(call.words, settings=[before, *(f"NARROW_{name}={value}" for name, value in call.settings.items())])
            is_well = (ran.returncode, ran.stdout) == (call.status, call.out) and call.err in (ran.stderr, len(ran.stderr))
            if not is_well:
                print(f"{PROGRAM} {call.words}, {call.settings}: status {ran.returncode}, {ran.stdout[:300]!r}, {ran.stderr[:300]!r}")
            return is_well

        return sum(side_by_side(try_one, made)), len(made)


def try_all(program):
    """Makes all calls of the program, and returns whether each had the expected result."""
    counts = [made_in(program, NARROW_FILES, lambda room: all_calls(room.call(["--help"]).stdout))]
    for it, ways in ((refuse.stopped(), WAYS), (refuse.ring(), WAYS[::2])):
        texts = {name: text.encode() for name, text in it.texts.items()}
        counts.append(made_in(program, texts, lambda _, it=it, ways=ways: of_resources(it, ways)))
    for letters in LETTERS:
        named = b"APPLICATION P FBS %s : E_RESTART; END_FBS END_APPLICATION" % (b"X" * letters)
        counts.append(made_in(program, {"named": named}, lambda _, letters=letters: of_long_names(letters)))
    passed, made = (sum(of) for of in zip(*counts))
    print(f"narrow: {passed} of {made}", flush=True)
    return passed == made


if __name__ == "__main__":
    sys.exit(not try_all(sys.argv[1] if len(sys.argv) > 1 else f"{TOP}/crates/{PROGRAM}/out/{PROGRAM}"))
