"""Patterns of lines of a trace, as in the rules of `fbsim expect` (docs/formats/rules.md, "Rules over traces")."""

from __future__ import annotations

import operator
import re
import string
from collections.abc import Callable, Iterable
from functools import lru_cache
from pathlib import Path
from typing import TYPE_CHECKING, Any, NamedTuple

from fbsim.faults import InputFault, Refused, needs
from fbsim.program import call
from fbsim.stimuli import Value
from fbsim.texts import temporary_folder, write

if TYPE_CHECKING:
    from fbsim.application import Application
    from fbsim.trace import Line

NAME = r"[A-Z_][A-Z0-9_]*"
RESOURCE = re.compile(rf"\*|{NAME}")
# Ports: a star for all names from some place on, names, and names with a star in each.
OPEN_PORT = re.compile(rf"((?:{NAME}\.)*)\*")
PORT = re.compile(rf"{NAME}(?:\.{NAME})+")
STAR_NAME = rf"(?:{NAME}|(?:{NAME})?\*[A-Z0-9_]*)"
STAR_PORT = re.compile(rf"{STAR_NAME}(?:\.{STAR_NAME})+")
CONDITION = re.compile(rf"({NAME})(<>|<=|>=|=|<|>)(TRUE|FALSE|0|-?[1-9][0-9]*|{NAME})")
COMPARISONS: dict[str, Callable[[Any, Any], bool]] = {
    "=": operator.eq, "<>": operator.ne, "<": operator.lt, "<=": operator.le, ">": operator.gt, ">=": operator.ge
}
MOST = 2**64 - 1
# How many rules one call of the program has here: it takes 1,000, and 1 MiB of text.
MOST_RULES = 500
UPPER = str.maketrans(string.ascii_lowercase, string.ascii_uppercase)


class Condition(NamedTuple):
    """A condition: a variable, a comparison, and a value or the name of another variable."""

    name: str
    comparison: str
    value: Value | None
    other: str

    def compares(self, value: Value, other: Value) -> bool:
        """Whether two values of one kind compare so. Truth values have no order."""
        is_truth = isinstance(value, bool)
        if is_truth != isinstance(other, bool) or is_truth and self.comparison not in ("=", "<>"):
            return False
        return COMPARISONS[self.comparison](value, other)

    def is_met(self, values: dict[str, Value]) -> bool:
        """Whether a line with these values meets it."""
        value = values.get(self.name)
        other = self.value if self.value is not None else values.get(self.other)
        return value is not None and other is not None and self.compares(value, other)


def is_possible(conditions: list[Condition]) -> bool:
    """Whether some number or truth value meets all these conditions on one variable."""
    def suits(value: Value) -> bool:
        own = [it for it in conditions if it.value is not None or it.other == it.name]
        return all(it.compares(value, value if it.value is None else it.value) for it in own)

    # (the least number that suits is the least of all, or one that a condition names, or the next one)
    numbers = [it.value for it in conditions if it.value is not None and not isinstance(it.value, bool)]
    tried = [-MOST, *numbers, *(it + 1 for it in numbers)]
    return suits(True) or suits(False) or any(suits(it) for it in tried if abs(it) <= MOST)


def port_of(word: str) -> Callable[[str], bool] | None:
    """Returns a call that says whether a port is one of a pattern, or None if the word is no port."""
    if opened := OPEN_PORT.fullmatch(word):
        front = opened[1]
        return lambda port: port.startswith(front)
    if PORT.fullmatch(word):
        return word.__eq__
    if not STAR_PORT.fullmatch(word):
        return None
    names = word.split(".")
    forms = [re.escape(it).replace(r"\*", "[^.]*") for it in names]
    if names[0] == "*":
        forms[0] = r"[^.]+(?:\.[^.]+)*"
    if names[-1] == "*":
        forms[-1] = r"[^.]+(?:\.[^.]+)*"
    form = re.compile(r"\.".join(forms))
    return lambda port: form.fullmatch(port) is not None


class Pattern:
    """A pattern `RESOURCE SIGN PORT CONDITION..`, for example `STATION < GATE.* TAKEN>2`."""

    def __init__(self, text: str) -> None:
        if not isinstance(text, str):
            raise InputFault(f"{text!r} is no pattern: it is a text")
        self.text = text
        words = [it for it in text.translate(UPPER).split(" ") if it]
        if len(words) < 3:
            raise self.fault("a pattern is a resource, a sign, a port and conditions, with blanks between")
        self.resource, self.sign = words[:2]
        if not RESOURCE.fullmatch(self.resource):
            raise self.fault(f"{self.resource} is no resource: a name, or * for any")
        if self.sign not in ("<", ">", "*"):
            raise self.fault(f"{self.sign} is no sign: >, < or * for both")
        port = port_of(words[2])
        if port is None:
            raise self.fault(f"{words[2]} is no port: two names or more, with a full stop between")
        self.is_port = port
        self.conditions = [self.condition(it) for it in words[3:]]
        for name in {it.name: None for it in self.conditions}:
            if not is_possible([it for it in self.conditions if it.name == name]):
                raise self.fault(f"no value of {name} meets all conditions on it")

    def __repr__(self) -> str:
        return f"<pattern {self.text}>"

    def fault(self, what: str) -> InputFault:
        """Returns what is wrong with the text."""
        return InputFault(f'"{self.text}" is no pattern: {what}')

    def condition(self, word: str) -> Condition:
        """Returns a condition of the pattern."""
        parts = CONDITION.fullmatch(word)
        if not parts:
            form = "VAR=value or VAR=VAR with =, <>, <, <=, > or >=, without blanks"
            raise self.fault(f"{word} is no condition: {form}")
        name, sign, value = parts.groups()
        if value in ("TRUE", "FALSE"):
            if sign not in ("=", "<>"):
                raise self.fault(f"in {word}, a truth value takes only = and <>")
            return Condition(name, sign, value == "TRUE", "")
        if value[0] != "-" and not value[0].isdigit():
            return Condition(name, sign, None, value)
        if abs(int(value)) > MOST:
            raise self.fault(f"in {word}, the number has more than 64 bits")
        return Condition(name, sign, int(value), "")

    def matches(self, line: Line) -> bool:
        """Whether the line matches the pattern."""
        if self.sign not in ("*", line.sign) or self.resource not in ("*", line.resource):
            return False
        if not self.is_port(f"{line.instance}.{line.event}"):
            return False
        values = line.values if self.conditions else {}
        return all(it.is_met(values) for it in self.conditions)


@lru_cache(maxsize=4096)
def unknown(words: tuple[str, ...], _: tuple[object, ...], *patterns: str) -> str | None:
    """Returns the first of these patterns with a name that an application does not have, and which, or None."""
    with temporary_folder() as folder:
        rules = [f'[[rule]]\nname = "{k}"\nnever = "{it}"\n' for k, it in enumerate(patterns)]
        write(folder / "trace", "end 1\n")
        write(folder / "rules", "".join(rules))
        try:
            call(["expect", str(folder / "rules"), str(folder / "trace"), "--why", "--decl", *words])
        except Refused as it:
            if it.number != "E45":
                raise
            return it.text.partition('": never: ')[2]
    return None


def ask(application: Application | None, *patterns: str) -> str | None:
    """Returns what `unknown` does for the files as they are now."""
    if application is None:
        return None
    words = tuple(application.words)
    files = [Path(it) for it in words if not it.startswith("--")]
    stamps = tuple((it.stat().st_mtime_ns, it.stat().st_size) for it in files if it.is_file())
    return unknown(words, stamps, *patterns)


def ask_patterns(application: Application | None, patterns: Iterable[str]) -> None:
    """Raises an InputFault if a pattern has a name that nothing of the application has."""
    for it in patterns:
        if (fault := ask(application, it)) is not None:
            raise InputFault(fault)


def ask_lines(application: Application, lines: Iterable[Line], name: str) -> None:
    """Raises an InputFault if an application has no such port, or variable of it, as one of the lines has."""
    found = dict.fromkeys((it[1:5], tuple(word.partition("=")[0] for word in it.words.split())) for it in lines)
    patterns = [
        f"{resource} {sign} {instance}.{event}" + "".join(f" {it}={it}" for it in variables)
        for (resource, sign, instance, event), variables in found
    ]
    for at in range(0, len(patterns), MOST_RULES):
        if (fault := ask(application, *patterns[at:at + MOST_RULES])) is not None:
            raise InputFault(f"{name} is no trace of the application: {fault}")


def ask_pair(application: Application | None, patterns: Iterable[str], pair: str) -> None:
    """Raises an InputFault if lines can't be paired so: by `queue`, `next`, or a variable that no event of one has."""
    needs(pair, str, "a pairing: it is queue, next or the name of a variable")
    if pair not in ("queue", "next"):
        if not re.fullmatch(NAME, pair.upper()):
            raise InputFault(f"pair is {pair!r}, and neither queue nor next nor the name of a variable")
        ask_patterns(application, [f"{it} {pair}={pair}" for it in patterns])


def ask_signal(application: Application | None, instance: str, variable: str) -> None:
    """Raises an InputFault if no event of an instance has a variable."""
    if ask(application, f"* * {instance}.* {variable}={variable}") is not None:
        there = ask(application, f"* * {instance}.*")
        what = f"there is no instance {instance}" if there else f"no event of {instance} has the variable {variable}"
        raise InputFault(f"{instance}.{variable}: {what}")
