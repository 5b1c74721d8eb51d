#!/usr/bin/env python3
"""tools/second_session.py: a second `fbsim session`, over the second simulator, and the stored sessions by it.

It is written only from docs/formats/session.md and docs/PROFILE.md, and shares nothing with the program. Without arguments it
answers the commands of cases/session.toml, and compares its answers with the stored ones. ./gate does so before anything is built.
With the arguments of `fbsim session` it is one."""

import heapq
import re
import sys
import tomllib

import interpreter
from interpreter import Stop, System

MOST_TICK, MOST_BYTES, MOST_BREAKS = 10**12, 65_536, 100
LEAST_NUMBER, GREATEST_NUMBER = -(2**127), 2**127 - 1
STOPPED = "! the run has stopped\n"
NAME = re.compile(r"[A-Za-z_]\w*")
WORDS_OF = {
    "give": "give TICK INSTANCE.EVENT VAR=value ..",
    "until": "until TICK, 1 to 1000000000000",
    "end": "end TICK, 1 to 1000000000000",
    "next": "next",
    "peek": "peek",
    "help": "help",
    "break": "break PATTERN",
    "clear": "clear N, the number of a break",
    "show": "show PATH",
}
HELP = """= give TICK INSTANCE.EVENT VAR=value ..: one more stimulus
= until TICK: takes all events below the tick
= next: takes the least event
= break PATTERN: until pauses after an event with such a line
= clear N: removes break N
= show PATH: what the block at the path has
= peek: the least event that waits
= end TICK: takes all events below the tick, and ends the session
= help: these lines
"""
TYPES = {
    "BOOL": "BOOL: TRUE or FALSE",
    "TIME": "TIME: -9223372036854775808 to 9223372036854775807, in milliseconds, without T#",
    **{f"{sign}{it}": f"{sign}{it}: {low} to {high}" for sign, it, low, high in (
        ("", "SINT", -128, 127), ("", "INT", -32768, 32767), ("", "DINT", -(2**31), 2**31 - 1), ("", "LINT", -(2**63), 2**63 - 1),
        ("U", "SINT", 0, 255), ("U", "INT", 0, 65535), ("U", "DINT", 0, 2**32 - 1), ("U", "LINT", 0, 2**64 - 1))},
}  # fmt: skip


class Wrong(Exception):
    """What is wrong with a row, or with the words of a command; its argument is the text of the error."""


def shown(value):
    return str(value).upper()


def is_name(word):
    return NAME.fullmatch(word) is not None


def holds(kind, value):
    return isinstance(value, bool) == (kind == "BOOL") and interpreter.is_of(kind, value)


class Session(System):
    """A system whose stimuli are given while it goes on."""

    def __init__(self, declaration, deployment, stimuli, steps, form):
        super().__init__(declaration, deployment, (), steps)
        self.form, self.rows, self.least, self.breaks, self.set, self.stopped, self.told = form, 0, 0, {}, 0, None, 0
        self.first = [self.put(tick, *port.upper().split("."), values) for tick, port, values in stimuli]

    # -- Rows

    def put(self, tick, name, event, values):
        """Puts a row on the agenda and returns its answer."""
        block, row = self.root.parts[name], self.rows
        self.add(tick, block.home, 0, row, 0, ("stimulus", block, event, values))
        self.rows += 1
        return f"= row {row} {tick},{name}.{event},{' '.join(f'{it}={shown(value)}' for it, value in values.items())}\n"

    def wrong(self, number, words):
        raise Wrong(f"! E{number}: row {self.rows}: {words}\n")

    def read(self, tick, event, words):
        """Returns the fields of a row that can be read, or raises E13, E14 or E15."""
        names = event.split(".", 1)
        if len(names) != 2 or not all(is_name(it) for it in names):
            self.wrong(13, f'the event "{event}" is not INSTANCE.EVENT')
        for word in words:
            if "=" not in word or not is_name(word.split("=", 1)[0]):
                self.wrong(13, f'the word "{word}" is not NAME=VALUE')
        if not (tick.isascii() and tick.isdigit()):
            self.wrong(14, f'the tick "{tick}" is not a number')
        settings = []
        for word in words:
            name, value = word.split("=", 1)
            if not (value.upper() in ("TRUE", "FALSE") or re.fullmatch(r"-?[0-9]+", value)):
                self.wrong(14, f'the word "{word}": its value is neither a number nor TRUE or FALSE')
            settings.append((name.upper(), interpreter.value_in(value)))
            if settings[-1][1] > GREATEST_NUMBER:
                self.wrong(14, f'the word "{word}": its value is over the greatest number, {GREATEST_NUMBER}')
            if settings[-1][1] < LEAST_NUMBER:
                self.wrong(14, f'the word "{word}": its value is under the least number, {LEAST_NUMBER}')
        if int(tick) > MOST_TICK:
            self.wrong(15, f'the tick "{tick}" is over 1,000,000,000,000')
        return int(tick), *(it.upper() for it in names), settings

    def fit(self, name, event, settings):
        """Raises E29 if a row does not fit."""
        block = self.root.parts.get(name)
        if block is None:
            self.wrong(29, f"there is no instance {name}")
        kind = self.root.network.parts[name][0]
        if event not in block.type.ins:
            self.wrong(29, f"instance {name} : {kind} has no event input {event}")
        for variable, value in settings:
            before = f"{variable}={shown(value)}"
            if (name, variable) in self.root.network.data:
                self.wrong(29, f"{before}: a data connection leads to the variable")
            if variable in block.type.var_in and not holds(block.type.var_in[variable][0], value):
                self.wrong(29, f"{before}: {variable} is {TYPES[block.type.var_in[variable][0]]}")
            if variable not in block.type.ins[event]:
                self.wrong(29, f"{before}: no data input that goes WITH {event} has this name")
        for at, (variable, _) in enumerate(settings):
            if variable in [it for it, _ in settings[:at]]:
                self.wrong(29, f"{variable} is set twice")

    def do_give(self, rest):
        tick, event, *words = rest
        tick, name, event, settings = self.read(tick, event, words)
        self.fit(name, event, settings)
        if tick < self.least:
            return f"! late: tick {tick} has begun\n"
        return self.put(tick, name, event, dict(settings))

    # -- Events

    def waiting(self, below):
        """Returns the key of the least event, if its tick is below this one."""
        while self.agenda and self.agenda[0][2][0] == "timer" and self.agenda[0][2][1].timer != self.agenda[0][0][0]:
            heapq.heappop(self.agenda)
        return self.agenda[0][0] if self.agenda and self.agenda[0][0][0] < below else None

    def take_least(self):
        """Takes the least event, and returns its lines."""
        key, _, what = heapq.heappop(self.agenda)
        self.tick, home = key[:2]
        self.key = "{} {} {} ".format(*key[2:]) if self.form == 2 else ""
        self.left, self.locals = self.meters.get((home, self.tick), (self.steps, 0))
        self.lines, self.least = [], self.tick + 1
        try:
            self.take(what)
        except Stop as it:
            self.stopped = f"stop {self.tick} {self.resources[home][0]} {it.args[0]}\n"
        self.meters = {**{at: kept for at, kept in self.meters.items() if at[1] == self.tick}, (home, self.tick): (self.left, self.locals)}
        return self.lines

    def broken(self, lines):
        """Returns the least number of a break for one of these lines, or None."""
        return min((number for number, meets in self.breaks.items() if any(meets(it) for it in lines)), default=None)

    def go(self, tick, pauses):
        """Takes all events below a tick, and returns their lines and the number of the break at which it paused."""
        all_lines = []
        while not self.stopped and self.waiting(tick):
            lines = self.take_least()
            all_lines += lines
            number = self.broken(lines) if pauses and not self.stopped else None
            if number is not None:
                return all_lines, number
        return all_lines, None

    def do_until(self, tick):
        if tick < self.least:
            return f"! below {self.least}\n"
        lines, number = self.go(tick, pauses=True)
        text = "".join(lines)
        if self.stopped:
            return text + self.stopped
        if number is not None:
            return text + f"= break {number} at {self.tick}\n"
        self.least = tick
        return text + f"= at {tick}\n"

    def do_next(self):
        if not self.waiting(MOST_TICK):
            return "= nothing waits\n"
        text = "".join(self.take_least())
        return text + (self.stopped or f"= took {self.tick}\n")

    def do_peek(self):
        key = self.waiting(MOST_TICK)
        return f"= next {key[0]} {self.resources[key[1]][0]}\n" if key else "= nothing waits\n"

    def end(self, tick):
        """Returns what an end at this tick writes."""
        lines, _ = self.go(tick, pauses=False)
        return "".join(lines) + (self.stopped or f"end {tick}\n")

    # -- Breaks and blocks

    def do_break(self, text):
        meets = pattern_of(text.upper())
        if meets is None:
            return f'! "{text}" is no pattern: expected RESOURCE > PATH.EVENT VAR=value ..\n'
        if len(self.breaks) == MOST_BREAKS:
            return "! 100 breaks are set; clear one first\n"
        self.set += 1
        self.breaks[self.set] = meets
        return f"= break {self.set}\n"

    def do_clear(self, number):
        return f"= cleared {number}\n" if self.breaks.pop(number, None) else f"! there is no break {number}\n"

    def do_show(self, path):
        block = next((it for it in self.blocks if it.path == path.upper()), None)
        if block is None:
            return f"! there is no instance {path.upper()}\n"
        inputs, inner = {it: block.values[it] for it in block.type.var_in}, {}
        outputs = {it: block.published[it] for it in block.type.var_out}
        if block.type.chart:
            outputs, inner = ({it: block.values[it] for it in table} for table in (block.type.var_out, block.type.inner))
        values = "".join(f" {it}={shown(value)}" for it, value in (inputs | outputs | inner).items())
        return f"= {block.path}{self.memory_of(block)}{values}\n"

    def memory_of(self, block):
        """Returns what a block remembers, after a blank."""
        kind = getattr(block.type, "event_block", None)
        if block.type.chart:
            return f" {block.state}"
        if kind in ("E_RESTART", "E_DELAY", "E_CYCLE"):
            return " idle" if block.timer is None else f" due {block.timer}"
        if kind == "E_REND":
            return " has " + (min(block.memory) if block.memory else "none")
        if kind in ("E_SR", "E_D_FF"):
            return " set" if block.values["Q"] else " reset"
        if kind in ("E_R_TRIG", "E_F_TRIG"):
            return " set" if block.memory else " reset"
        return f" count {block.values['CV']}" if kind == "E_CTU" else ""


def pattern_of(text):
    """Returns whether a line has this pattern, as a function, or None if the text is no pattern."""
    words = text.split()
    if len(words) < 3 or words[1] not in "<>*" or not (words[0] == "*" or is_name(words[0])):
        return None
    resource, sign, port, *conditions = words
    names = port.split(".")
    star = names[-1] == "*"
    if not all(is_name(it) for it in names[: len(names) - star]) or (not star and len(names) < 2):
        return None
    tests = [re.fullmatch(r"([A-Z_]\w*)(<>|<=|<|>=|>|=)(TRUE|FALSE|-?[0-9]+)", it) for it in conditions]
    if None in tests or any(it[3] in ("TRUE", "FALSE") and it[2] not in ("=", "<>") for it in tests):
        return None

    def meets(line):
        own = re.fullmatch(r"(?:\d+ \d+ \d+ )?\d+ (\w+) ([<>]) (\S+)(.*)\n", line)
        values = dict(it.split("=") for it in own[4].split())
        at_port = own[3].startswith(port[:-1]) if star else own[3] == port
        return resource in ("*", own[1]) and sign in ("*", own[2]) and at_port and all(compares(values.get(it[1]), it[2], it[3]) for it in tests)

    return meets


def compares(found, sign, wanted):
    if found is None or (found in ("TRUE", "FALSE")) != (wanted in ("TRUE", "FALSE")):
        return False
    a, b = ((it == "TRUE") if it in ("TRUE", "FALSE") else int(it) for it in (found, wanted))
    return {"=": a == b, "<>": a != b, "<": a < b, "<=": a <= b, ">": a > b, ">=": a >= b}[sign]


# ---- Commands


def argument_of(word, rest, text):
    """Returns the arguments of a command, or raises what was expected."""
    number = int(rest[0]) if len(rest) == 1 and rest[0].isascii() and rest[0].isdigit() else -1
    if word in ("until", "end") and 1 <= number <= MOST_TICK:
        return [number]
    if word == "clear" and 0 <= number < 2**64:
        return [number]
    if word == "give" and len(rest) >= 2:
        return [rest]
    if word == "break" and rest:
        return [text]
    if word == "show" and len(rest) == 1:
        return rest
    if word in ("next", "peek", "help") and not rest:
        return []
    raise Wrong(f"! expected {WORDS_OF[word]}\n")


def answer_to(session, line):
    """Returns the answer to a line, and whether the session is over."""
    if len(line) > MOST_BYTES:
        return f"! a line has at most {MOST_BYTES} bytes\n", False
    line = line.removesuffix("\r").strip(" ")
    word, _, text = line.partition(" ")
    if word not in WORDS_OF:
        return "! expected a command; help lists them\n", False
    try:
        given = argument_of(word, [it for it in text.split(" ") if it], text.strip(" "))
        if word == "help":
            return HELP, False
        if word == "end":
            if given[0] < session.least:
                return f"! below {session.least}\n", False
            return (f"= stopped at {session.tick}\n" if session.stopped else session.end(given[0])), True
        if session.stopped and word != "show":
            return STOPPED, False
        return getattr(session, f"do_{word}")(*given), False
    except Wrong as it:
        return it.args[0], False


def talk(session, commands):
    """Returns all that a session writes for these commands."""
    text = "".join(session.first)
    lines = commands.split("\n")
    for line in lines[: -1 if lines[-1] == "" else None]:
        answer, is_over = answer_to(session, line)
        text += answer
        if is_over:
            return text
    return text if session.stopped else text + session.end(max(1, session.least))


def main():
    """Answers the commands of the stored cases, and returns the status."""
    import cases

    tried, faults = 0, []
    for case in cases.cases_of(f"{interpreter.TOP}/cases/session.toml"):
        fields = {name: text.decode() for name, text in case.fields.items()}
        if cases.REFUSAL.fullmatch(fields["answer"]):
            continue
        options = dict(zip(*[iter(fields.get("options", "").split())] * 2))
        deployment = tomllib.loads(fields["deployment"]) if "deployment" in fields else None
        stimuli = interpreter.stimuli_in(fields.get("stimuli", ""))
        session = Session(fields["declaration"], deployment, stimuli, int(options.get("--steps", interpreter.STEPS)), int(options.get("--trace", 1)))
        tried, came = tried + 1, talk(session, fields["commands"])
        if came != fields["answer"]:
            faults.append(f"{case.place}: expected {fields['answer']!r}; got {came!r}")
    print("\n".join(faults[:10]), end="\n" * bool(faults))
    print(f"second session: {tried - len(faults)} of {tried} stored sessions")
    return int(bool(faults))


def called(words):
    """Does what `fbsim session` does with these words, and returns the status."""
    declaration, *options = words
    options = dict(zip(options[::2], options[1::2]))
    deployment = tomllib.loads(interpreter.content(options["--deploy"])) if "--deploy" in options else None
    stimuli = interpreter.stimuli_in(interpreter.content(options["--stim"])) if "--stim" in options else ()
    session = Session(interpreter.content(declaration), deployment, stimuli, int(options.get("--steps", interpreter.STEPS)), int(options.get("--trace", 1)))
    print("".join(session.first), end="", flush=True)
    for line in sys.stdin:
        answer, is_over = answer_to(session, line.removesuffix("\n"))
        print(answer, end="", flush=True)
        if is_over:
            return int(bool(session.stopped))
    print("" if session.stopped else session.end(max(1, session.least)), end="")
    return int(bool(session.stopped))


if __name__ == "__main__":
    sys.exit(called(sys.argv[2:]) if sys.argv[1:2] == ["session"] else main())
