"""What several tests use: the examples as applications, and the second simulator."""

from __future__ import annotations

import resource
import sys
import time
from pathlib import Path
from typing import NamedTuple

import fbsim

TOP = Path(__file__).resolve().parents[2]
EXAMPLES = TOP / "examples"

sys.path.insert(0, str(TOP / "tools"))
import interpreter  # noqa: E402


class Example(NamedTuple):
    """A call that the file `args` of a folder has."""

    folder: Path
    application: fbsim.Application
    stimuli: Path | None
    horizon: int

    def run(self, **options):
        return self.application.run(self.stimuli, horizon=self.horizon, **options)


def example_in(folder):
    """Returns the example in a folder."""
    _, declaration, *words = (folder / "args").read_text().split()
    options = dict(zip(words[::2], words[1::2]))
    deploy, stimuli = (options.get(it) and folder / options[it] for it in ("--deploy", "--stim"))
    return Example(folder, fbsim.Application(folder / declaration, deploy=deploy), stimuli, int(options["--horizon"]))


ALL = [example_in(it.parent) for it in sorted(EXAMPLES.glob("**/args"))]


def second_trace(declaration, deployment, rows, horizon, steps=interpreter.STEPS):
    """Returns the trace that the second simulator works out of texts and of rows of stimuli."""
    plan = None if deployment is None else interpreter.tomllib.loads(deployment)
    return interpreter.System(declaration, plan, rows, steps).run(horizon)


RING = """APPLICATION A FBS S : E_RESTART; M : E_MERGE; END_FBS
EVENT_CONNECTIONS S.COLD TO M.EI1; M.EO TO M.EI2; END_CONNECTIONS END_APPLICATION
"""
CYCLE = """APPLICATION A FBS S : E_RESTART; C : E_CYCLE(DT := T#3ms); END_FBS
EVENT_CONNECTIONS S.COLD TO C.START; END_CONNECTIONS END_APPLICATION
"""


def application(folder, text, name="plant.iec", deploy=None):
    """Writes a declaration, and a deployment, into files of a folder, and returns the application."""
    (folder / name).write_text(text)
    if deploy is not None:
        (folder / "deploy.toml").write_text(deploy)
    return fbsim.Application(folder / name, deploy=None if deploy is None else folder / "deploy.toml")


def program(folder, text):
    """Writes a shell script, which takes the place of the program."""
    version = f'[ "$1" = --version ] && echo "fbsim {fbsim.__version__}" && exit'
    (folder / "program").write_text(f"#!/bin/sh\n{version}\n{text}\n")
    (folder / "program").chmod(0o755)
    return str(folder / "program")


def processor_time():
    """Returns the seconds that this process and those that it waited for used of processors."""
    used = [resource.getrusage(it) for it in (resource.RUSAGE_SELF, resource.RUSAGE_CHILDREN)]
    return sum(it.ru_utime + it.ru_stime for it in used)


def has_ended(process):
    """Waits until a process that another one started has ended. It may still be listed, if nobody waits for it."""
    for _ in range(100):
        try:
            if Path(f"/proc/{process}/stat").read_text().rpartition(") ")[2][0] == "Z":
                return True
        except OSError:
            return True
        time.sleep(0.05)
    return False


def trace_in(folder, *lines, name="some.trace"):
    """Writes lines into a file of a folder, and returns its trace."""
    (folder / name).write_text("".join(f"{it}\n" for it in lines))
    return fbsim.Trace(folder / name)
