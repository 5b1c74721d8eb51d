"""A folder with the conveyor and a file fbsim.toml, and runs of pytest there."""

import shutil

import pytest
from common import EXAMPLES

BENCH = """decl = "conveyor.iec"
deploy = "deploy.toml"
rules = "some.rules"
horizon = 800

[[scenario]]
name = "two parcels"
stim = "stimuli.csv"
reference = "trace"

[[scenario]]
name = "no parcel"
horizon = 50

[[sequence]]
type = "STOP_GATE"
name = "the gate lifts for one parcel"
steps = [["ARRIVE ARRIVED=2", "LIFT TAKEN=1"], ["PASSED", "DROP"], ["wait 250"], ["FREE", "RESUME", "LIFT TAKEN=2"]]

[[sequence]]
type = "E_CTU"
parameters = { PV = 2 }
steps = [["CU", "CUO Q=FALSE CV=1"], ["wait 500"], ["CU", "CUO Q=TRUE CV=2"]]
"""
# (README.md of the example: the belt stops 10 ms after the beam, which is below 20)
RULES = """[[rule]]
name = "the belt stops in time"
after = "LINE < BEHIND.CAME"
within = 20
see = "LINE < BELT.EO Q=FALSE"

[[rule]]
name = "the gate is not lifted while the station works"
never = "STATION < GATE.LIFT"
from = "STATION < GATE.DROP"
to = "STATION < WORK.EO"
"""
PASSED = [
    "two parcels::run", "two parcels::the belt stops in time",
    "two parcels::the gate is not lifted while the station works", "no parcel::run",
    "the gate lifts for one parcel", "E_CTU", "applied::the belt stops in time",
    "applied::the gate is not lifted while the station works",
]
# (before 50 no parcel comes, so no rule applies)
SKIPPED = ["no parcel::the belt stops in time", "no parcel::the gate is not lifted while the station works"]


class Room:
    """A folder with the conveyor and a bench for it, and runs of pytest there."""

    def __init__(self, pytester):
        self.pytester, self.path = pytester, pytester.path
        for name in ("conveyor.iec", "deploy.toml", "stimuli.csv", "trace"):
            shutil.copy(EXAMPLES / "conveyor" / name, self.path)
        self.write("some.rules", RULES)
        self.write("fbsim.toml", BENCH)

    def write(self, name, text):
        (self.path / name).write_text(text)

    def change(self, name, old, new):
        text = (self.path / name).read_text()
        assert text.count(old) == 1
        self.write(name, text.replace(old, new))

    def run(self, *words):
        # (the processes of xdist get the folders of modules that the first one had when it began)
        run = self.pytester.runpytest_subprocess if "-n" in words else self.pytester.runpytest
        return run("-p", "pytest_fbsim", "-p", "no:cacheprovider", *words)


@pytest.fixture
def room(pytester, monkeypatch, top):
    """A folder with a bench. (A job of a CI engine, where nothing is blessed, may run these tests.)"""
    monkeypatch.setenv("PYTHONPATH", str(top / "python" / "src"))
    monkeypatch.delenv("CI", raising=False)
    return Room(pytester)


def names(result, outcome):
    """Returns the names of the tests with this outcome, without the file."""
    found = [it.split(" ", 1)[1] if it.startswith(outcome) else it for it in result.outlines]
    return [it.removeprefix("fbsim.toml::").split(f" {outcome}")[0] for it in found if f" {outcome}" in it]
