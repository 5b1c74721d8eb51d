"""The set of projects: each is a file in projects/, with the trace that its system has, worked out by hand.

A file has
    basis     "standard" if the trace follows from IEC 61499-1 or IEC 61131-3, or "tool" if the standard leaves it open:
              then it is what is known of 4diac or another tool, which was not run
    reason    how the trace was worked out
    options   more words of the command line (may be left out)
    horizon   the ticks to run
    stimuli   rows after the head of a file of stimuli (may be left out)
    status    the status of the run, if it is not 0: a stop
    trace     the whole trace
    files     the files by their names: those at the top are imported, those below lib/ are the library
"""

from __future__ import annotations

import tomllib
from pathlib import Path

import pytest
from importing import import_all

PROJECTS = sorted(Path(__file__).with_name("projects").glob("*.toml"))
HEAD = "tick,event,values\n"
KEYS = {"basis", "reason", "options", "horizon", "stimuli", "status", "trace", "files"}


@pytest.mark.parametrize("path", PROJECTS, ids=lambda it: it.stem)
def test_a_project_has_the_trace_that_was_worked_out(path, tmp_path):
    project = tomllib.loads(path.read_text())
    assert set(project) <= KEYS and project["basis"] in ("standard", "tool") and len(project["reason"]) > 40
    done = import_all(tmp_path, project["files"], *project.get("options", []))
    assert done.status == 0, done.lines
    found = done.run(project["horizon"], HEAD + project.get("stimuli", ""), project.get("status", 0))
    assert found == project["trace"], done.lines
