"""What all modules share: places in source files and what is refused there, names of the profile, and tables.toml."""

from __future__ import annotations

import re
import tomllib
from collections.abc import Iterable, Mapping
from pathlib import Path
from typing import NamedTuple, TypeVar

TABLES = tomllib.loads(Path(__file__).with_name("tables.toml").read_text("utf-8"))
KEYWORDS = frozenset(TABLES["profile"]["keywords"].split())
TYPES = TABLES["profile"]["types"].split()
IS_NAME = re.compile(r"[A-Za-z_][A-Za-z0-9_]{0,199}", re.ASCII)
# A place in a text that is written (Place.mark).
MARK = re.compile("\x02(.*?):([0-9]+):([0-9]+)\x03")
T = TypeVar("T")
MOST_SHOWN, MOST_KEPT = 200, 2000


class Place(NamedTuple):
    """A place in a file, shown as FILE:LINE:COLUMN. Columns count characters."""

    path: str
    line: int
    column: int

    def __str__(self) -> str:
        return f"{self.path}:{self.line}:{self.column}"

    @property
    def mark(self) -> str:
        """What stands in a text that is written before what has this place. XML has no such characters."""
        return f"\x02{self}\x03"


class FileFault(Exception):
    """A file or folder that can't be read or written (status 3)."""


class Refused(Exception):
    """The end of an import at which nothing more can be looked at; the faults have the reason."""


def shown(text: str) -> str:
    """Return a text for a message: on one line, printable, at most 60 characters."""
    line = "".join(it if it.isprintable() else "?" for it in text[:61])
    return line if len(line) <= 60 else line[:57] + ".."


def shortened(lines: list[str]) -> list[str]:
    """Return the first lines of a long list, and how many more there are."""
    return [*lines[:MOST_SHOWN], *([f"and {len(lines) - MOST_SHOWN:,} more"] if len(lines) > MOST_SHOWN else [])]


class Faults(set[tuple[Place, str]]):
    """All refusals of one import, so that they can be shown together, and its warnings. The same one at the same place is kept once."""

    def __init__(self) -> None:
        super().__init__()
        self.warnings: set[tuple[Place, str, str]] = set()

    def warn(self, place: Place, number: str, text: str) -> None:
        """Keep a warning with its number in tables.toml. It does not stop an import (report.py)."""
        if len(self.warnings) < MOST_KEPT:
            self.warnings.add((place, number, text))

    def take(self, others: Faults) -> None:
        """Keep what other faults have, too."""
        self.update(others)
        self.warnings |= others.warnings

    def refuse(self, place: Place, text: str) -> Refused:
        """Keep a refusal, and return the exception to raise if the import can't go on after it."""
        self.add((place, text))
        if len(self) >= MOST_KEPT:
            raise Refused
        return Refused()

    def lines(self) -> list[str]:
        """Return a line for each refusal, ordered by file and place."""
        return shortened([f"{place}: {text}" for place, text in sorted(self)])

    def warned(self) -> list[str]:
        """Return a line for each warning, ordered by file and place."""
        return shortened([f"{place}: {number}: {text}" for place, number, text in sorted(self.warnings)])


class Folded(dict[str, T]):
    """A table of names, in which letter case counts only where it has to."""

    def __init__(self, rows: Mapping[str, T] = {}) -> None:
        super().__init__()
        self.folded: dict[str, list[str]] = {}
        for name, value in rows.items():
            self[name] = value

    def __setitem__(self, name: str, value: T) -> None:
        if name not in self:
            self.folded.setdefault(name.upper(), []).append(name)
        super().__setitem__(name, value)

    def find(self, name: str) -> T | None:
        """Return what has this name, or the only name that differs in letter case alone."""
        alike = self.folded.get(name.upper(), [])
        return self[name] if name in self else self[alike[0]] if len(alike) == 1 else None


class Names(Folded[str]):
    """The names of one name space, with what each is called in the profile.

    A name keeps its letters, in upper case. One that is a keyword, or like an earlier one, gets a number: TO_1, BELT_1.
    A full stop, as in the port of an adapter, becomes two underscores."""

    def __init__(self, kind: str, wanted: Iterable[tuple[str, Place]], faults: Faults,
                 taken: Iterable[str] = ()) -> None:
        super().__init__()
        self.renamed: list[str] = []
        names, used = list(wanted), {*taken, *KEYWORDS}
        whole = used | {name.replace(".", "__").upper() for name, _ in names}
        for name, place in names:
            if name in self:
                faults.refuse(place, f"the {kind} {shown(name)} is given twice")
                continue
            out = folded = name.replace(".", "__").upper()
            number = 1
            while out in used or (number > 1 and out in whole):
                out, number = f"{folded}_{number}", number + 1
            if out != folded:
                self.renamed.append(f"{kind} {name}: {out}")
            used.add(out)
            self[name] = out
