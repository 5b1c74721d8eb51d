"""Stimuli as rows of Python, and their text."""

from __future__ import annotations

import csv
import io
import os
import warnings
from collections.abc import Iterable, Iterator, Mapping
from pathlib import Path

from fbsim.faults import InputFault, encoded, needs, of_system
from fbsim.texts import value_text, whole

Value = int | bool
FileName = str | os.PathLike[str]
Row = tuple[int, str] | tuple[int, str, Mapping[str, Value]]
Stimuli = FileName | Iterable[Row] | None
# What the program takes in a list of stimuli: rows, and bytes of their text (docs/formats/refusals.md, "Limits").
MOST_ROWS, MOST_BYTES = 100_000, 16 * 1024 * 1024


class StimuliWarning(UserWarning):
    """Rows of stimuli that a run did not take, since they are at or beyond its end."""


def warn_of(texts: Iterable[str], level: int) -> None:
    """Warns of rows that a run did not take, at the place of a caller so many calls above."""
    for it in texts:
        warnings.warn(it, StimuliWarning, stacklevel=level)


def file_name(given: object, what: str) -> str:
    """Returns the name of a file as a text."""
    if not isinstance(given, (str, os.PathLike)):
        raise InputFault(f"{what} is named by a text or a path, and not by {given!r}")
    name = os.fsdecode(given)
    encoded(name)
    if "\0" in name:
        raise InputFault(f"{what} is named by {name!r}, in which no file can be: it has a NUL")
    return name


def made_folder(given: object) -> Path:
    """Makes a folder, unless it is there, and returns its path."""
    path = Path(file_name(given, "a folder"))
    try:
        path.mkdir(parents=True, exist_ok=True)
    except OSError as it:
        raise of_system(it, str(path)) from it
    return path


def row_of(given: object) -> tuple[int, str, Mapping[str, Value]]:
    """Returns a row (tick, INSTANCE.EVENT, {VARIABLE: value}), which may have no values."""
    if isinstance(given, (tuple, list)) and len(given) in (2, 3):
        tick, event, *rest = given
        values = rest[0] if rest else {}
        if isinstance(event, str) and isinstance(values, Mapping):
            return whole(tick, "the tick of a row"), event, values
    raise InputFault(f"{given!r} is no row of stimuli: it is (tick, INSTANCE.EVENT, {{VARIABLE: value}})")


def rows_of(given: object) -> Iterator[tuple[int, str, Mapping[str, Value]]]:
    """Goes over rows."""
    if not isinstance(given, Iterable) or hasattr(given, "columns"):
        raise InputFault(f"stimuli are a file or rows, and not of the type {type(given).__name__}")
    count = 0
    for count, it in enumerate(given, 1):
        yield row_of(it)
    if not count and isinstance(given, Iterator):
        raise InputFault("the stimuli are an iterator without rows, as one that was used before: give a list")


def words_of(values: Mapping[str, Value]) -> str:
    """Returns values as words of stimuli: `COVERED=TRUE COUNT=2`."""
    needs(values, Mapping, "the values of an event: {VARIABLE: value}")
    return " ".join(f"{name}={value_text(it)}" for name, it in values.items())


def stimuli_text(rows: Iterable[Row], is_limited: bool = True) -> str:
    """Returns the text of stimuli (CSV) with these rows: (tick, INSTANCE.EVENT, {VARIABLE: value})."""
    text = io.StringIO()
    table = csv.writer(text, lineterminator="\n")
    table.writerow(["tick", "event", "values"])
    count = 0
    for count, (tick, event, values) in enumerate(rows_of(rows), 1):
        table.writerow([tick, event, words_of(values)])
    if count > MOST_ROWS and is_limited:
        raise InputFault(
            f"{count} rows are more than the {MOST_ROWS} that a run takes: a session takes them, and its `save` writes "
            "the command that repeats it"
        )
    return text.getvalue()
