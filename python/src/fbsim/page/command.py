"""The command fbsim-page, also `python3 -m fbsim.page`: writes the page of a run."""

from __future__ import annotations

import argparse
import sys
from collections.abc import Sequence

from fbsim.application import Application
from fbsim.faults import Fault, FileFault, WriteFault
from fbsim.page.build import write_page
from fbsim.trace import Trace

REFUSED, FILES, COMMAND_LINE = 2, 3, 5


def options() -> argparse.ArgumentParser:
    """Returns the options of the command."""
    about = "Writes the page of a run: one file of HTML."
    made = argparse.ArgumentParser(prog="fbsim-page", description=about)
    add = made.add_argument
    add("declaration", metavar="DECL", help="the file with the declaration of the types and the application")
    add("trace", metavar="TRACE", help="the file with the trace, as `fbsim run` writes it")
    add("--out", metavar="FILE", required=True, help="the page that is written, as run.html")
    add("--deploy", metavar="FILE", help="the file with the deployment")
    add("--types", metavar="FILE", action="append", default=[], help="a file with block types; may be repeated")
    add("--stim", metavar="FILE", dest="stimuli", help="the stimuli: their run is repeated, and must give this trace")
    add("--steps", metavar="N", type=int, help="the limit of steps of the run")
    add("--rules", metavar="FILE", help="rules of `fbsim expect`: the page has the lines at which they break")
    add("--from", metavar="T", type=int, dest="since", help="the page has the lines from this tick on")
    add("--to", metavar="T", type=int, dest="until", help="the page has the lines before this tick")
    return made


def main(words: Sequence[str] | None = None) -> int:
    """Writes the page. The status is 0, or, as of the program, 2 for inputs, 3 for files and 5 for the command line."""
    try:
        given = options().parse_args(words)
    except SystemExit as end:
        return COMMAND_LINE if end.code else 0
    try:
        trace = Trace(given.trace, Application(given.declaration, given.types, given.deploy))
        how = {it: getattr(given, it) for it in ("rules", "stimuli", "steps", "since", "until")}
        write_page(trace, given.out, **how)
    except Fault as it:
        print(f"fbsim-page: {it}", file=sys.stderr)
        return FILES if isinstance(it, (FileFault, WriteFault)) else REFUSED
    return 0
