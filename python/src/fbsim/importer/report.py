"""Warnings: what is imported as it is written, and yet may not be what a controller does. tables.toml has their numbers."""

from __future__ import annotations

import argparse
import sys

from .common import TABLES, Faults

NUMBERS: dict[str, str] = TABLES["warnings"]
# The warnings of the simulator (docs/formats/refusals.md, "Warnings"), and all numbers.
LINTS = [f"L{number:02}" for number in range(1, TABLES["lints"]["last"] + 1)]
ALL = frozenset({*NUMBERS, *LINTS})
STRICT = frozenset({"I01", "I02"})
ACCEPTED, DENIED, REFUSED = 0, 1, 2


def add_options(parser: argparse.ArgumentParser) -> None:
    """Give a command line the options that decide which warnings end with status 1."""
    parser.add_argument("--deny", action="append", default=[], type=numbers, metavar="NUMBERS",
                        help="status 1 if one of these warnings remains: numbers with commas, or all")
    parser.add_argument("--strict", action="append_const", dest="deny", const=STRICT,
                        help=f"the same as --deny {','.join(sorted(STRICT))}")


def numbers(text: str) -> frozenset[str]:
    """Return the numbers of warnings in a value of --deny: all of them, or those between commas."""
    named = [it.strip().upper() for it in text.split(",")]
    unknown = [it for it in named if it not in ALL]
    if named == ["ALL"]:
        return ALL
    if unknown:
        raise argparse.ArgumentTypeError(f"there is no warning {unknown[0] or 'without a number'}: there are {', '.join(NUMBERS)}, with --lint {LINTS[0]} to {LINTS[-1]}, and all")
    return frozenset(named)


def finish(faults: Faults, deny: list[frozenset[str]]) -> int:
    """Print the refusals, or else `accepted` and the warnings, and return the status that they lead to."""
    if faults:
        print(*faults.lines(), sep="\n", file=sys.stderr)
        return REFUSED
    print(*faults.warned(), sep="\n", end="\n" if faults.warnings else "", file=sys.stderr)
    print("accepted")
    return DENIED if frozenset().union(*deny) & {it for _, it, _ in faults.warnings} else ACCEPTED
