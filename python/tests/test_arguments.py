"""Tests of wrong arguments: each of them is a fault of the package, and no other exception."""

import inspect

import numpy
import pytest
from common import EXAMPLES, example_in
from hypothesis.strategies import integers

import fbsim
from fbsim import strategies

CONVEYOR = example_in(EXAMPLES / "conveyor")
APP = CONVEYOR.application
LINK = {"link.LINE->STATION": [4]}
PAIR = ("* < GATE.LIFT", "* < GATE.DROP")


def row(event="BEFORE.SENSE", values={}):
    return [(1, event, values)]


OF_APPLICATIONS = {
    "coverage of a text": lambda: APP.coverage("trace"),
    "coverage of no trace": lambda: APP.coverage(),
    "lints that are none": lambda: APP.lint(deny=None),
    "inside of a text": lambda: APP.inspect("trace"),
    "types of a number": lambda: fbsim.Application("a.iec", types=5),
    "a name with NUL": lambda: fbsim.Application("a\0b").check(),
    "stimuli with NUL": lambda: APP.run("a\0b", horizon=5),
    "a name with half a character": lambda: fbsim.Application("a\ud800b").check(),
    "a row with half a character": lambda: APP.run(row("BEF\ud800.SENSE"), horizon=5),
    "a stream with half a character": lambda: list(APP.stream(row("BEF\ud800.SENSE"), horizon=5)),
    "a horizon of an array": lambda: APP.run(horizon=numpy.array([1, 2])),
    "endless time": lambda: APP.run(horizon=5, timeout=float("inf")),
    "time over clocks": lambda: APP.run(horizon=5, timeout=1e12),
    "times": lambda: APP.run(horizon=5, timeout=[1]),
    "values of a session": lambda: APP.session().give(1, "BEFORE.SENSE", 5),
    "a command with half a character": lambda: APP.session().ask("show \ud800"),
    "values of a row": lambda: APP.session(row(values=5)),
    "rows of a session": lambda: APP.session(5),
    "an application of a text": lambda: fbsim.Trace("trace", "conveyor.iec"),
    "events of a strategy": lambda: strategies.stimuli(None, integers(0, 9)),
    "variables of a strategy": lambda: strategies.stimuli({"A.B": None}, integers(0, 9)),
}
OF_SWEEPS = {
    "parameters of a number": lambda: APP.sweep(5, horizon=5),
    "parameters of a list": lambda: APP.sweep([1], horizon=5),
    "a name of a number": lambda: APP.sweep({5: [1]}, horizon=5),
    "latencies of a number": lambda: APP.sweep(LINK, horizon=5, latencies=5),
    "latencies with a number for a name": lambda: APP.sweep(LINK, horizon=5, latencies={5: PAIR}),
    "latencies by what nothing has": lambda: APP.sweep(LINK, horizon=5, latencies={"x": (*PAIR, "nxt")}),
    "a sample of a text": lambda: APP.sweep(LINK, horizon=5, sample="x"),
    "a sample below one": lambda: APP.sweep(LINK, horizon=5, sample=-1),
    "a seed of a list": lambda: APP.sweep(LINK, horizon=5, sample=1, seed=[]),
    "an executor of a number": lambda: APP.sweep(LINK, horizon=5, executor=5),
    "a jitter of a text": lambda: fbsim.jitter("a", 2),
    "a jitter of a fraction": lambda: fbsim.jitter(1.5, 2),
    "a table up to a text": lambda: fbsim.jitter(1, 2).table("x"),
    "a declaration of a number": lambda: fbsim.check_sequence("E_SR", [["S"]], declaration=5),
    "steps of a number": lambda: fbsim.check_sequence("E_SR", 5),
    "a step of a text": lambda: fbsim.check_sequence("E_SR", ["S"]),
    "a step of a number": lambda: fbsim.check_sequence("E_SR", [[5]]),
    "a type of a number": lambda: fbsim.check_sequence(5, [["S"]]),
    "parameters of a block": lambda: fbsim.check_sequence("E_SR", [["S"]], parameters=5),
}
OF_TRACES = {
    "a signal of a number": lambda it: it.signal(5),
    "signals of a number": lambda it: it.signals(5),
    "a plot of a number": lambda it: it.plot(5),
    "a pairing of a number": lambda it: it.latencies(*PAIR, pair=5),
    "a pairing by nothing": lambda it: it.latencies(*PAIR, pair=""),
    "a pairing by what the second has not": lambda it: it.latencies(*PAIR, pair="TAKEN"),
    "a pairing by what nothing has": lambda it: it.latencies(PAIR[0], PAIR[0] + " TAKEN=77", pair="nxt"),
    "a percentile of a text": lambda it: it.latencies(*PAIR).percentile("x"),
    "a trace with NUL": lambda it: fbsim.Trace("a\0b").count(),
    "a file in no folder": lambda it: it.save("/nowhere/x"),
    "a file that is not there": lambda it: fbsim.Trace("/nowhere/x").save("y"),
}


@pytest.mark.parametrize("call", [pytest.param(it, id=name) for name, it in (OF_APPLICATIONS | OF_SWEEPS).items()])
def test_a_wrong_argument_is_a_fault(call):
    with pytest.raises(fbsim.InputFault):
        call()


@pytest.mark.parametrize("call", [pytest.param(it, id=name) for name, it in OF_TRACES.items()])
def test_a_wrong_argument_of_a_trace_is_a_fault(conveyor, call):
    with pytest.raises(fbsim.Fault):
        call(conveyor)


def test_a_session_that_can_be_saved_nowhere_is_a_fault(tmp_path):
    (tmp_path / "file").write_text("")
    with APP.session() as s:
        pass
    with pytest.raises(fbsim.FileFault, match="file/there"):
        s.save(tmp_path / "file" / "there")


def test_a_program_that_can_not_be_started_is_a_fault(tmp_path, monkeypatch):
    (tmp_path / "program").write_text("no program\n")
    (tmp_path / "program").chmod(0o755)
    monkeypatch.setenv("FBSIM", str(tmp_path / "program"))
    monkeypatch.setenv("FBSIM_ANY_VERSION", "1")
    for call in (APP.check, APP.session, lambda: list(APP.stream(horizon=5))):
        with pytest.raises(fbsim.ProgramMissing, match="program can't be started: "):
            call()


def test_one_text_is_a_list_of_one(conveyor):
    assert APP.lint(allow="L02") == APP.lint(allow=["L02"]) != APP.lint()
    assert conveyor.signals("GATE.TAKEN") == {"GATE.TAKEN": ([104, 434], [1, 2])}


@pytest.mark.parametrize("call", [fbsim.Lines.frame, fbsim.Lines.plot, fbsim.Latencies.plot, strategies.stimuli])
def test_what_calls_return_has_a_type(call):
    assert inspect.signature(call).return_annotation not in ("Any", inspect.Signature.empty)
