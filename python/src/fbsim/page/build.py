"""Writes the page of a run: one file of HTML, which has its data, its script and its style inside."""

from __future__ import annotations

import base64
import hashlib
import json
import zlib
from functools import lru_cache
from pathlib import Path
from typing import Any

from jinja2 import Environment, StrictUndefined
from markupsafe import Markup

import fbsim
from fbsim.faults import FileFault, InputFault
from fbsim.page.document import MOST_BLOCKS, all_drawings, document
from fbsim.page.inside import Columns, read_inside
from fbsim.page.system import System, read_system
from fbsim.stimuli import FileName, Stimuli, file_name
from fbsim.texts import whole
from fbsim.trace import Trace, check_rules, ending

HERE = Path(__file__).parent
SCRIPTS = ("run.js", "patterns.js", "picture.js", "lines.js", "lanes.js", "block.js", "main.js")
CAUSES = "This page has no causes: it does not say which line led to which."


@lru_cache(maxsize=1)
def script() -> str:
    """Returns the files of JavaScript, joined into one classic script."""
    return '\n"use strict";\n' + "\n".join((HERE / it).read_text("utf-8") for it in SCRIPTS)


def own_hash(text: str) -> str:
    """Returns the hash by which the policy of a page admits its own script or style."""
    return f"'sha256-{base64.b64encode(hashlib.sha256(text.encode()).digest()).decode()}'"


def title_of(trace: Trace) -> str:
    """Returns what the page is of: the file of the trace, or the declaration of a run whose file is temporary."""
    assert trace.application is not None
    return f"a run of {Path(trace.application.declaration).name}" if trace.is_own else trace.path.name


def facts_of(columns: Columns) -> str:
    """Returns what the range is, as a sentence of the heading."""
    count = f"{len(columns.lines):,} lines" if len(columns.lines) != 1 else "1 line"
    ticks = f"ticks {columns.ticks[0]:,} to {columns.ticks[-1]:,}" if columns.ticks else "no tick"
    after = f", after {columns.before:,} lines before the range" if columns.before else ""
    return f"{count}, {ticks}{after}; the trace ends with: {columns.last}"


def note_of(system: System, is_drawn: bool) -> str:
    """Returns what the reader has to know of the picture, or nothing."""
    if not is_drawn:
        return "This is a list and no picture: graphviz (dot) is missing, or takes over 20 seconds."
    if len(system.instances) > MOST_BLOCKS:
        return f"The picture has resources only: there are over {MOST_BLOCKS} blocks. Open a block by its path."
    return ""


def check_own(trace: Trace, stimuli: Stimuli, steps: int | None) -> None:
    """Raises an InputFault if the run of these stimuli has another trace."""
    assert trace.application is not None
    end, stop = ending(trace.last)
    horizon = stop.tick + 1 if stop else end
    assert horizon is not None
    keys = next((line.key is not None for line in trace), False)
    made = trace.application.run(stimuli, horizon=horizon, steps=steps, stop=True, keys=keys)
    if made != trace:
        raise InputFault(f"{trace.path} is not the trace of these stimuli:\n{made.diff(trace).rstrip()}")


def page_text(
    trace: Trace, *, rules: FileName | None = None, stimuli: Stimuli = None, steps: int | None = None,
    since: int | None = None, until: int | None = None
) -> str:
    """Returns the page of a trace that knows its application. The arguments are those of `Trace.page`."""
    if trace.application is None:
        raise InputFault("the trace does not know its application: Trace(path, application)")
    for number, what in ((steps, "steps"), (since, "since"), (until, "until")):
        if number is not None and whole(number, what) < 0:
            raise InputFault(f"{what} is {number}, and not 0 or more")
    if stimuli is not None:
        check_own(trace, stimuli, steps)
    system = read_system(trace.application)
    limit = trace.steps if steps is None else steps
    columns = read_inside(system, trace, limit, since or 0, until)
    verdicts = () if rules is None else check_rules(trace, rules).verdicts
    made = all_drawings(system, columns)
    data = json.dumps(document(system, columns, verdicts, made), separators=(",", ":"))
    return html(system, columns, trace, "" in made, data)


def html(system: System, columns: Columns, trace: Trace, is_drawn: bool, data: str) -> str:
    """Returns the file, with the data compressed."""
    style = (HERE / "page.css").read_text("utf-8")
    own = f"script-src {own_hash(script())}; style-src {own_hash(style)}"
    policy = f"default-src 'none'; {own}; base-uri 'none'; form-action 'none'"
    port = next(iter(columns.ports), None)
    example = "* > GATE.* TAKEN>2" if port is None else f"* {port.sign} {system.instances[port.instance].path}.*"
    environment = Environment(autoescape=True, undefined=StrictUndefined, trim_blocks=True, lstrip_blocks=True)
    return environment.from_string((HERE / "page.html.jinja").read_text("utf-8")).render(
        policy=policy, version=fbsim.__version__, name=system.network.name, title=title_of(trace),
        facts=facts_of(columns), example=example, causes=CAUSES, note=note_of(system, is_drawn),
        style=Markup(style), script=Markup(script()),
        data=base64.b64encode(zlib.compress(data.encode(), 9)).decode(),
    ) + "\n"


def write_page(trace: Trace, out: FileName, **how: Any) -> None:
    """Writes the page of a trace into a file."""
    path = Path(file_name(out, "a page"))
    text = page_text(trace, **how)
    try:
        path.write_text(text, "utf-8", newline="\n")
    except OSError as it:
        raise FileFault(it.strerror or "it can't be written", "page", str(path)) from it
