"""Traces, read line by line and never held as a whole, what is worked out from them, and rules over them."""

from __future__ import annotations

import filecmp
import itertools
import os
import re
import shutil
import subprocess
import tempfile
import tomllib
import weakref
from abc import ABC, abstractmethod
from collections.abc import Generator, Iterable, Iterator, Sequence
from io import TextIOWrapper
from pathlib import Path
from typing import IO, TYPE_CHECKING, NamedTuple

from fbsim import figures
from fbsim.extras import needed
from fbsim.faults import FileFault, InputFault, ProgramFault, RulesBroken, Stop, needs, of_system, texts_of
from fbsim.latencies import Latencies, paired
from fbsim.patterns import NAME, PORT, Pattern, ask_lines, ask_pair, ask_patterns, ask_signal
from fbsim.program import call
from fbsim.stimuli import FileName, Stimuli, Value, file_name

if TYPE_CHECKING:
    from matplotlib.figure import Figure
    from pandas import DataFrame

    from fbsim.application import Application

# A point of a report of `fbsim expect`, with the block and the comments after it.
POINT = re.compile(
    r"^(not )?ok \d+ - (.*?)(?: # SKIP (undecided|never applied))?\n"
    r'(?:  ---\n  message: "(.*)"\n  trace: .*\n(?:  line: (\d+)\n  tick: (\d+)\n)?  \.\.\.\n)?'
    r"# (?:decided|applied) (\d+) times?(, none is decided)?(?:, .*)?\n"
    r"((?:# .*\n)*)", re.MULTILINE
)


class Line(NamedTuple):
    """A line of a trace. `words` are its values as they are written; `key` is what form 2 has before the tick."""

    tick: int
    resource: str
    sign: str
    instance: str
    event: str
    words: str = ""
    key: tuple[int, int, int] | None = None

    @property
    def values(self) -> dict[str, Value]:
        """The values by the names of their variables."""
        found = {}
        for word in self.words.split():
            name, _, value = word.partition("=")
            found[name] = value == "TRUE" if value in ("TRUE", "FALSE") else int(value)
        return found

    def __str__(self) -> str:
        before = f"{' '.join(map(str, self.key))} " if self.key else ""
        after = f" {self.words}" if self.words else ""
        return f"{before}{self.tick} {self.resource} {self.sign} {self.instance}.{self.event}{after}"


class Signal(NamedTuple):
    """The values of a variable, and the ticks of the lines that have them."""

    ticks: list[int]
    values: list[Value]

    def __bool__(self) -> bool:
        """Whether there is a value."""
        return bool(self.ticks)


class States(NamedTuple):
    """The states that a basic block enters, and their ticks."""

    ticks: list[int]
    names: list[str]


# What a line has after its tick, and its last line (docs/formats/trace.md, "What is no trace").
HEAD = re.compile(
    rf"({NAME}) ([<>]) ({NAME}(?:\.{NAME})*)\.({NAME})((?: {NAME}=(?:TRUE|FALSE|0|-?[1-9][0-9]*))*)\n", re.ASCII
)
NUMBER = re.compile(r"0|[1-9][0-9]*", re.ASCII)
LAST = re.compile(rf"(?:end ([1-9][0-9]*)|stop (0|[1-9][0-9]*) ({NAME}) (steps|divide|range))\n?", re.ASCII)


def head_of(text: str) -> tuple[str, str, str, str, str]:
    """Returns what a line has after its tick: resource, sign, instance, event and the values as they are written."""
    parts = HEAD.fullmatch(text)
    if parts is None:
        raise ValueError(text)
    resource, sign, instance, event, words = parts.groups()
    # (a number of more than 64 bits has twenty digits, behind a blank, a name and a sign)
    if len(words) > 22 and any(abs(int(it)) >= 2**64 for it in re.findall("-?[0-9]{20,}", words)):
        raise ValueError(text)
    return resource, sign, instance, event, words[1:]


def number_of(text: str, bits: int) -> int:
    """Returns a number of at most so many bits, without needless zeros."""
    if not NUMBER.fullmatch(text) or int(text) >= 2**bits:
        raise ValueError(text)
    return int(text)


def lines_of(texts: Iterator[str], name: str = "", is_whole: bool = True) -> Generator[Line, None, str]:
    """Parses lines of either form, and returns the text of the last one, `end` or `stop`.

    What is no trace is refused, but a part of one, that is not whole, needs no last line.
    """
    first = next(texts, "")
    last, before, least = "", "", 0
    has_keys = not first.startswith(("end", "stop")) and first.partition(" ")[2][:1].isdigit()
    # (most traces have few different ends of lines, all after the tick; so many are kept in parsed form)
    heads: dict[str, tuple[str, str, str, str, str]] = {}
    new, key, number, text = tuple.__new__, None, 0, first
    try:
        for number, text in enumerate(itertools.chain([first] if first else [], texts), 1):
            if last:
                raise ValueError(text)
            if has_keys and text[0].isdigit():
                *parts, text = text.split(" ", 3)
                key = (number_of(parts[0], 8), number_of(parts[1], 128), number_of(parts[2], 128))
            tick, _, rest = text.partition(" ")
            head = heads.get(rest)
            if head is None:
                if tick in ("end", "stop"):
                    last = last_of(text, least, number > 1)
                    continue
                head = head_of(rest)
                if len(heads) < 4096:
                    heads[rest] = head
            if tick != before:
                before, at = tick, number_of(tick, 64)
                if at < least:
                    raise ValueError(text)
                least = at
            yield new(Line, (least, *head, key))
    except (ValueError, IndexError) as it:
        where = f"{name}: line" if name else "line"
        raise InputFault(f"{where} {number} is no line of a trace: {text[:80].rstrip()}") from it
    if is_whole and not last:
        where = f"{name}: line" if name else "line"
        raise InputFault(f"{where} {number + 1} is missing: the last line is neither end nor stop")
    return last


def last_of(text: str, least: int, has_lines: bool) -> str:
    """Returns a last line, if it is one and does not come before the tick of the last event."""
    parts = LAST.fullmatch(text)
    at = int((parts[1] or parts[2]) if parts else -1)
    is_in_order = least <= at < 2**64 and not (parts and parts[1] and has_lines and at == least)
    if parts is None or not text.endswith("\n") or not is_in_order:
        raise ValueError(text)
    return text


def ending(text: str, status: int | None = None, horizon: int | None = None) -> tuple[int | None, Stop | None]:
    """Returns the horizon or the stop of a last line. With the status of a run, it must be the end of that run."""
    parts = LAST.fullmatch(text)
    if parts is None:
        raise InputFault(f"the last line is neither end nor stop: {text[:80].rstrip()}")
    end, stop = (int(parts[1]), None) if parts[1] else (None, Stop(int(parts[2]), parts[3], parts[4]))
    if status is not None and (status, end) not in ((0, horizon), (1, None)):
        raise ProgramFault(f"a run up to {horizon} has the status {status}, and its last line is {text.rstrip()}")
    return end, stop


def parts_of(said: str) -> tuple[tuple[str, ...], str]:
    """Returns what the program said of a run in two parts: what it warned of, and where the run stopped."""
    lines = said.splitlines()
    count = sum(1 for _ in itertools.takewhile(lambda it: it.startswith("stimuli: "), lines))
    return tuple(lines[:count]), "\n".join(lines[count:])


class Lines(ABC):
    """Lines of a trace, in their order, and what is worked out from them.

    If they know their application, a pattern or a signal with a name that nothing of it has is an InputFault.
    """

    application: Application | None = None

    @abstractmethod
    def __iter__(self) -> Iterator[Line]:
        """Goes over the lines, without the last one that says how the run ended."""

    def where(self, pattern: str) -> Selection:
        """Returns the lines that match a pattern as in rules (docs/formats/rules.md): `STATION < GATE.* TAKEN>2`."""
        return Selection(self, self.pattern_of(pattern))

    def pattern_of(self, text: str) -> Pattern:
        """Returns the pattern that a text is."""
        made = Pattern(text)
        ask_patterns(self.its_application(), [text])
        return made

    def its_application(self) -> Application | None:
        """Returns the application that these are lines of, if that is known."""
        return self.application

    def count(self) -> int:
        """Returns how many lines there are."""
        return sum(1 for _ in self)

    def signal(self, name: str) -> Signal:
        """Returns all values of a variable, as GATE.TAKEN, with their ticks."""
        needs(name, str, "the name of a signal, as GATE.TAKEN")
        return self.signals([name])[name]

    def signals(self, names: Iterable[str]) -> dict[str, Signal]:
        """Returns the signals of several variables, in one pass."""
        found = {name: Signal([], []) for name in texts_of(names, "signals")}
        wanted: dict[str, list[tuple[str, Signal]]] = {}
        for name, signal in found.items():
            instance, _, variable = name.upper().rpartition(".")
            if not PORT.fullmatch(name.upper()):
                raise InputFault(f"{name} is no signal: it is INSTANCE.VARIABLE, as GATE.TAKEN")
            ask_signal(self.its_application(), instance, variable)
            wanted.setdefault(instance, []).append((variable, signal))
        for line in self:
            for variable, signal in wanted.get(line.instance, ()):
                values = line.values
                if variable in values:
                    signal.ticks.append(line.tick)
                    signal.values.append(values[variable])
        return found

    def latencies(self, first: str, second: str, pair: str = "queue") -> Latencies:
        """Returns how long it takes from lines of one pattern to lines of another.

        `pair` is `queue`: the k-th first with the k-th second; `next`: each first with the next second after it; or the
        name of a variable: a first with the second that has the same value of it.
        """
        patterns = self.pattern_of(first), self.pattern_of(second)
        ask_pair(self.application, [first, second], pair)
        return paired(self, *patterns, pair)

    def frame(self) -> DataFrame:
        """Returns a pandas data frame: a row for each line, a column for each part and for each variable."""
        return figures.frame_of_lines(self)

    def plot(self, names: Sequence[str], *, states: Sequence[str] = (), title: str | None = None) -> Figure:
        """Returns a figure of matplotlib that draws variables as steps over ticks, and states of blocks as bands."""
        them = {it: self.states(it) for it in texts_of(states, "blocks")}
        signals = self.signals(names) if names or not them else {}
        what = "" if self.application is None else f" of {Path(self.application.declaration).name}"
        return figures.steps(signals, them, getattr(self, "end", None), f"Signals{what}" if title is None else title)

    def states(self, instance: str) -> States:
        """Returns the states that a basic block enters, the initial one at tick 0, as `fbsim inspect` shows them."""
        if not isinstance(self, Trace) or self.application is None:
            raise InputFault("only a trace that knows its application has states")
        needs(instance, str, "the path of a block")
        with self.application.session() as session:
            session.ask(f"show {instance}")
        initial = session.answer.partition(" ")[2].partition(" ")[0]
        if not re.fullmatch(NAME, initial):
            raise InputFault(f"{instance} has no states: it is no basic block")
        found, tick = States([0], [initial]), 0
        for line in self.application.inspect(self, only=instance.upper()).splitlines()[:-1]:
            before, arrow, rest = line.partition(" -> ")
            if not line.startswith("  "):
                words = line.split(" ")
                tick = int(words[3] if words[1].isdigit() else words[0])
            elif arrow:
                found.ticks.append(tick)
                found.names.append(rest.partition(" by ")[0])
        return found


class Selection(Lines):
    """The lines that match a pattern."""

    def __init__(self, lines: Lines, pattern: Pattern) -> None:
        self.lines, self.pattern, self.application = lines, pattern, lines.application

    def __repr__(self) -> str:
        return f"<lines of {self.lines!r} that match {self.pattern.text}>"

    def __iter__(self) -> Iterator[Line]:
        return filter(self.pattern.matches, self.lines)

    def __bool__(self) -> bool:
        """Whether a line matches."""
        return next(iter(self), None) is not None


class Trace(Lines):
    """A trace in a file, which may be read any number of times.

    `Application.run` makes one whose file is temporary, and removed with the trace. `Trace("shift.trace")` is one of
    yours; with `application`, its lines, patterns and rules over it may name only what the application has.
    """

    def __init__(self, path: str | os.PathLike[str], application: Application | None = None) -> None:
        if application is not None and not hasattr(application, "words_from"):
            raise InputFault(f"{application!r} is not an application")
        self.path, self.application, self.where_stopped = Path(file_name(path, "a trace")), application, ""
        # Whether the program wrote the file for this trace, and else its state when it was last read to its end.
        self.is_own, self.known, self.is_asked = False, (0, 0, 0), False
        #: The limit of steps of its run, if it was given one.
        self.steps: int | None = None
        #: What the program warned of in the run: rows of stimuli at or beyond the horizon.
        self.warnings: tuple[str, ...] = ()

    def __repr__(self) -> str:
        return f"<trace {self.path}>"

    def __iter__(self) -> Iterator[Line]:
        with self.opened() as texts:
            about = os.fstat(texts.fileno())
            yield from lines_of(texts, str(self.path))
        self.known = about.st_ino, about.st_mtime_ns, about.st_size

    def its_application(self) -> Application | None:
        """Returns its application, which must have what the lines of the file have. That is asked once."""
        if self.application is not None and not self.is_own and not self.is_asked:
            ask_lines(self.application, self, str(self.path))
            self.is_asked = True
        return self.application

    def opened(self) -> TextIOWrapper:
        """Opens the file, or raises the FileFault of one that can't be read."""
        try:
            return open(self.path, encoding="ascii", errors="replace", newline="\n")
        except OSError as it:
            raise FileFault(it.strerror or "it can't be read", "trace", str(self.path)) from it

    def __eq__(self, other: object) -> bool:
        if not isinstance(other, Trace):
            return NotImplemented
        filecmp.clear_cache()
        for it in (self, other):
            it.opened().close()
        return filecmp.cmp(self.path, other.path, shallow=False)

    __hash__ = None  # type: ignore[assignment]

    @property
    def end(self) -> int | None:
        """The horizon, or None if the run stopped before it."""
        return ending(self.last)[0]

    @property
    def stop(self) -> Stop | None:
        """Why the run stopped before its horizon, or None."""
        stop = ending(self.last)[1]
        return stop and stop._replace(where=self.where_stopped)

    @property
    def last(self) -> str:
        """The text of the last line. The file is read to its end before, unless that was done: it must be a trace."""
        with self.opened() as it:
            about = os.fstat(it.fileno())
            it.buffer.seek(max(0, about.st_size - 1000))
            text = it.buffer.read().decode("ascii", "replace")
        if not text.endswith("\n"):
            raise InputFault(f"{self.path}: the last line is neither end nor stop, or has no line feed at its end")
        last = text.split("\n")[-2]
        ending(last)
        if not self.is_own and self.known != (about.st_ino, about.st_mtime_ns, about.st_size):
            self.count()
        return last

    def take(self, made: subprocess.CompletedProcess[str], horizon: int) -> None:
        """Takes what the program said of the run whose trace this is. They must say the same of its end."""
        self.warnings, self.where_stopped = parts_of(made.stderr)
        ending(self.last, made.returncode, horizon)

    def text(self) -> str:
        """Returns the whole trace as one text."""
        with self.opened() as it:
            return it.read()

    def save(self, path: str | os.PathLike[str]) -> None:
        """Copies the trace into a file."""
        try:
            shutil.copyfile(self.path, file_name(path, "a trace"))
        except OSError as it:
            raise of_system(it, str(path)) from it

    def expect(self, rules: str | os.PathLike[str], strict: bool = False) -> Report:
        """Checks the rules of a file by `fbsim expect`, and raises `RulesBroken` if one does not hold.

        With `strict`, a rule that is undecided or never applied counts as broken, and any of a trace that ends with a
        stop.
        """
        self.its_application()
        report = check_rules(self, rules, strict)
        if report.broken:
            raise RulesBroken(report)
        return report

    def page(
        self, path: FileName, *, rules: FileName | None = None, stimuli: Stimuli = None, steps: int | None = None,
        since: int | None = None, until: int | None = None
    ) -> None:
        """Writes a page of HTML in which you step through the run (docs/PAGE.md).

        `rules` is a file of rules. The page has the lines from tick `since` on, before tick `until`, 100,000 at most.
        A trace that `Application.run` made knows its limit of steps. For another one, `steps` is this limit, and with
        `stimuli` their run must give this trace.
        """
        how = {"rules": rules, "stimuli": stimuli, "steps": steps, "since": since, "until": until}
        needed("fbsim.page.build", "page").write_page(self, path, **how)

    def diff(self, other: Trace) -> str:
        """Returns what `fbsim diff` says of this trace and another one: nothing if they are the same."""
        if not isinstance(other, Trace):
            raise InputFault(f"a trace is compared with a trace, and not with {other!r}")
        return call(["diff", os.fspath(self.path), os.fspath(other.path)], statuses=(0, 1)).stdout


def remove_own(path: str, owner: int) -> None:
    """Removes a temporary file, but not in a process that was forked from the one that made it."""
    if os.getpid() == owner and os.path.exists(path):
        os.remove(path)


def temporary(application: Application | None) -> tuple[Trace, IO[bytes]]:
    """Returns a trace whose temporary file is removed with it, and the open file, in which its lines will be."""
    try:
        number, path = tempfile.mkstemp(prefix="fbsim-", suffix=".trace")
    except OSError as it:
        raise of_system(it) from it
    trace = Trace(path, application)
    trace.is_own = True
    weakref.finalize(trace, remove_own, path, os.getpid())
    return trace, open(number, "wb")


class Verdict(NamedTuple):
    """What a rule comes to: kept, broken, undecided or never applied. A broken one has a message and its line.

    `decided` is how often the rule was decided, or applied if it is undecided. `applied` is whether it was decided at
    least once. `notes` says which patterns no line of the trace meets, and whether the trace ends with a stop.
    """

    rule: str
    verdict: str
    message: str = ""
    line: int | None = None
    tick: int | None = None
    text: str = ""
    notes: tuple[str, ...] = ()
    decided: int = 0
    applied: bool = False

    def __str__(self) -> str:
        place = "" if self.line is None else f" at line {self.line}, tick {self.tick}: {self.text}"
        return f"{self.rule}: {self.message or self.verdict}{place}"


class Report(NamedTuple):
    """The verdicts of all rules, in the order of their file."""

    verdicts: tuple[Verdict, ...]

    def of(self, verdict: str) -> list[Verdict]:
        """Returns the rules that are kept, broken, undecided or never applied."""
        return [it for it in self.verdicts if it.verdict == verdict]

    @property
    def broken(self) -> list[Verdict]:
        """The rules that do not hold."""
        return self.of("broken")


def read_report(text: str, trace: Trace, status: int, number_of_rules: int | None = None) -> Report:
    """Reads a report on a trace, and looks up the lines at which rules break. One that lacks a rule, or whose points
    are not those of its status, is a fault."""
    points = [*POINT.finditer(text)]
    counts = {len(points), len(re.findall("^(?:not )?ok ", text, re.M)), number_of_rules or len(points)}
    plans = re.findall(r"^1\.\.(\d+)$", text, re.M)
    if plans != [str(it) for it in counts]:
        rules = "" if number_of_rules is None else f" for {number_of_rules} rules"
        raise ProgramFault(f"the report has the plan 1..{' '.join(plans)}, and {len(points)} points are read{rules}")
    if (status != 0) != any(it[1] for it in points):
        raise ProgramFault(f"the report has the status {status}, and {sum(bool(it[1]) for it in points)} points not ok")
    wanted = {int(it[5]): "" for it in points if it[5]}
    with open(trace.path, encoding="ascii", errors="replace") as lines:
        for number, line in enumerate(itertools.islice(lines, max(wanted, default=0)), 1):
            if number in wanted:
                wanted[number] = line.rstrip("\n")
    verdicts = []
    for it in points:
        line_number, tick = (int(it[k]) if it[k] else None for k in (5, 6))
        verdict, rule = "broken" if it[1] else it[3] or "kept", re.sub(r"\\([\\#])", r"\1", it[2])
        notes, line = tuple(note[2:] for note in it[9].splitlines()), wanted.get(line_number or 0, "")
        decided, applied = int(it[7]), int(it[7]) > 0 and not it[8]
        verdicts.append(Verdict(rule, verdict, it[4] or "", line_number, tick, line, notes, decided, applied))
    return Report(tuple(verdicts))


def check_rules(
    trace: Trace, rules: str | os.PathLike[str], strict: bool = False, folder: Path | None = None
) -> Report:
    """Returns what the rules, a file in a folder, come to on a trace. They may name only what its application has."""
    words = ["expect", file_name(rules, "a file of rules"), os.fspath(trace.path), "--why", *["--strict"] * strict]
    if trace.application is not None:
        words += ["--decl", *trace.application.words]
    made = call(words, statuses=(0, 1), folder=folder)
    return read_report(made.stdout, trace, made.returncode, number_of_rules(Path(folder or "", rules)))


def number_of_rules(path: Path) -> int | None:
    """Returns how many rules a file has, or None if that is not known: it is a pipe, or later than TOML 1.0."""
    try:
        return len(tomllib.loads(path.read_text("utf-8-sig"))["rule"]) if path.is_file() else None
    except (ValueError, LookupError):
        return None
