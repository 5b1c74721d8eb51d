"""Tests of what a page is made of: what is refused, what it says of itself, and pages without a picture or a tick."""

import base64
import json
import re
import subprocess
import sys
import zlib

import pytest
from common import ALL, CYCLE, EXAMPLES, RING, TOP, application, trace_in

import fbsim
from fbsim.page import inside
from fbsim.page.graphs import Chart, Network, draw, read_graph

CONVEYOR = next(it for it in ALL if it.folder.name == "conveyor")
FOLDER = EXAMPLES / "conveyor"


def data_of(path):
    """Returns the data of a page."""
    text = re.search(r'<script type="text/plain" id="data">([^<]*)</script>', path.read_text("utf-8"))[1]
    return json.loads(zlib.decompress(base64.b64decode(text)))


def command(*words):
    """Runs fbsim-page."""
    ran = [sys.executable, "-B", "-m", "fbsim.page", *map(str, words)]
    return subprocess.run(ran, capture_output=True, text=True, cwd=TOP / "python" / "src")


def conveyor_words(out, *words):
    return [FOLDER / "conveyor.iec", FOLDER / "trace", "--deploy", FOLDER / "deploy.toml", "--out", out, *words]


def test_the_command_writes_the_page_that_a_trace_writes(tmp_path):
    more = ["--stim", FOLDER / "stimuli.csv", "--rules", FOLDER / "conveyor.rules"]
    ran = command(*conveyor_words(tmp_path / "a.html", *more))
    assert (ran.returncode, ran.stdout, ran.stderr) == (0, "", "")
    trace = fbsim.Trace(FOLDER / "trace", CONVEYOR.application)
    trace.page(tmp_path / "b.html", rules=FOLDER / "conveyor.rules")
    assert (tmp_path / "a.html").read_bytes() == (tmp_path / "b.html").read_bytes()


def test_a_page_is_the_same_for_both_forms_of_a_trace(tmp_path):
    for name, keys in (("a", False), ("b", True)):
        CONVEYOR.run(keys=keys).page(tmp_path / f"{name}.html")
    assert (tmp_path / "a.html").read_bytes() == (tmp_path / "b.html").read_bytes()


def test_the_trace_of_other_stimuli_is_refused(tmp_path):
    (tmp_path / "other.csv").write_text("tick,event,values\n100,BEFORE.SENSE,COVERED=TRUE\n")
    ran = command(*conveyor_words(tmp_path / "a.html", "--stim", tmp_path / "other.csv"))
    assert ran.returncode == 2 and not (tmp_path / "a.html").exists()
    assert "trace is not the trace of these stimuli:\nline 8 differs in: kind" in ran.stderr


def test_a_page_has_the_lines_of_its_range_and_the_state_before_them(tmp_path):
    ran = command(*conveyor_words(tmp_path / "a.html", "--from", 434, "--to", 504))
    assert ran.returncode == 0
    data = data_of(tmp_path / "a.html")
    lines = [it for it in (FOLDER / "trace").read_text().splitlines()[:-1] if 434 <= int(it.split()[0]) < 504]
    assert data["columns"]["tick"][0] == 434 and len(data["columns"]["line"]) == len(lines)
    assert data["linesBefore"] == (FOLDER / "trace").read_text().splitlines().index(lines[0])
    # At tick 434 the gate works (docs: examples/conveyor), the second beam is covered, and the belt stands.
    names = [(data["instances"][it["instance"]]["path"], it["name"] or it["role"]) for it in data["slots"]]
    state = dict(zip(names, (it[0] if isinstance(it, list) else it for it in data["whole"])))
    assert data["words"][state["GATE", "state"]] == "WORKING"
    assert (state["GATE", "ARRIVED"], state["GATE", "TAKEN"]) == (2, 1)
    assert (state["BEHIND", "COVERED"], state["BELT", "Q"]) == (1, 0)
    assert data["words"][state["WORK", "memory"]] == "due" and state["WORK", "count"] == 434


def test_the_command_has_the_statuses_of_the_program(tmp_path):
    ran = command(*conveyor_words(tmp_path / "a.html", "--from", "soon"))
    assert ran.returncode == 5 and "invalid int value: 'soon'" in ran.stderr
    ran = command(*conveyor_words(tmp_path / "no" / "a.html"))
    assert ran.returncode == 3 and ran.stderr.startswith("fbsim-page: ")
    ran = command(tmp_path / "none.iec", FOLDER / "trace", "--out", tmp_path / "a.html")
    assert ran.returncode == 3 and "none.iec" in ran.stderr


def test_a_range_of_too_many_lines_is_refused_with_the_options_that_make_it_shorter(tmp_path, monkeypatch):
    app = application(tmp_path, CYCLE.replace("3ms", "1ms"))
    # (two lines at tick 0, and one at each tick after it)
    trace = app.run(horizon=99_999)
    assert trace.count() == inside.MOST_LINES == 100_000
    trace = app.run(horizon=31)
    monkeypatch.setattr(inside, "MOST_LINES", 30)
    with pytest.raises(fbsim.InputFault) as fault:
        trace.page(tmp_path / "a.html")
    assert str(fault.value) == (
        "the range has over 30 lines: a page has no room for those from tick 29 on; "
        "choose a shorter range by --from and --to")
    trace.page(tmp_path / "a.html", until=29)
    assert data_of(tmp_path / "a.html")["columns"]["tick"] == [0, 0, *[1] * 28]
    trace.page(tmp_path / "a.html", since=1)
    assert data_of(tmp_path / "a.html")["columns"]["tick"] == [1] * 30


def test_what_is_no_run_is_refused(tmp_path):
    trace = trace_in(tmp_path, "0 LINE < POWER.COLD", "0 LINE > BELT.R", "0 LINE < BELT.EO Q=TRUE", "end 5")
    trace.application = CONVEYOR.application
    with pytest.raises(fbsim.Refused, match="trace:3: the timer of the block does not emit this event"):
        trace.page(tmp_path / "a.html")
    with pytest.raises(fbsim.InputFault, match="the trace does not know its application"):
        fbsim.Trace(FOLDER / "trace").page(tmp_path / "a.html")
    with pytest.raises(fbsim.FileFault, match="page"):
        fbsim.Trace(FOLDER / "trace", CONVEYOR.application).page(tmp_path / "no" / "a.html")
    for how in ({"since": -1}, {"until": "5"}, {"steps": True}):
        with pytest.raises(fbsim.InputFault):
            fbsim.Trace(FOLDER / "trace", CONVEYOR.application).page(tmp_path / "a.html", **how)


def test_the_page_says_that_it_has_no_causes(tmp_path):
    CONVEYOR.run().page(tmp_path / "a.html")
    said = "This page has no causes: it does not say which line led to which."
    assert said in (tmp_path / "a.html").read_text("utf-8")
    assert data_of(tmp_path / "a.html")["columns"]["cause"] is None


def test_numbers_that_javascript_does_not_have_are_texts(tmp_path):
    text = """FUNCTION_BLOCK B EVENT_INPUT GO; END_EVENT EVENT_OUTPUT OUT WITH BIG, SMALL; END_EVENT
VAR_OUTPUT BIG : ULINT; SMALL : LINT; END_VAR EC_STATES S; T : A -> OUT; END_STATES
EC_TRANSITIONS S TO T := GO; T TO S := 1; END_TRANSITIONS
ALGORITHM A IN ST: BIG := 18446744073709551615; SMALL := -9007199254740991; END_ALGORITHM END_FUNCTION_BLOCK
APPLICATION P FBS R : E_RESTART; B : B; END_FBS EVENT_CONNECTIONS R.COLD TO B.GO; END_CONNECTIONS END_APPLICATION
"""
    application(tmp_path, text).run(horizon=5).page(tmp_path / "a.html")
    # (those of the algorithm, and those of its event)
    assert data_of(tmp_path / "a.html")["columns"]["value"] == ["18446744073709551615", -9007199254740991] * 2


def test_a_run_that_stops_has_a_page(tmp_path):
    text = """FUNCTION_BLOCK B EVENT_INPUT GO; END_EVENT VAR X : INT; END_VAR EC_STATES S; T : A; END_STATES
EC_TRANSITIONS S TO T := GO; END_TRANSITIONS
ALGORITHM A IN ST: X := 7; X := 1 / (X - 7); END_ALGORITHM END_FUNCTION_BLOCK
APPLICATION P FBS R : E_RESTART; B : B; END_FBS EVENT_CONNECTIONS R.COLD TO B.GO; END_CONNECTIONS END_APPLICATION
"""
    trace = application(tmp_path, text).run(horizon=5, stop=True)
    trace.page(tmp_path / "a.html")
    data = data_of(tmp_path / "a.html")
    assert [it["text"] for it in data["acts"]] == ["", "S -> T by GO", "A", "stops: divide"]
    assert "the trace ends with: stop 0 MAIN divide" in (tmp_path / "a.html").read_text("utf-8")
    application(tmp_path, RING, "ring.iec").run(horizon=5, steps=100, stop=True).page(tmp_path / "b.html")
    assert len(data_of(tmp_path / "b.html")["columns"]["line"]) > 40


def test_graphs_are_those_of_the_declaration():
    app = fbsim.Application(EXAMPLES / "bottling" / "bottling.iec", deploy=EXAMPLES / "bottling" / "deploy.toml")
    network = draw(app, "FILL_STATION")
    assert isinstance(network, Network) and [*network.blocks] == ["in", "out", "GATE", "DOSE", "TIMER", "BOTH"]
    assert network.blocks["in"].event_outputs == ("ARRIVE", "NEXT_FREE", "RECIPE", "METERED", "MODE")
    assert network.blocks["out"].data_inputs == ("WAITING", "VALVE", "LEVEL")
    assert network.blocks["DOSE"].parameters == ("FILL_TIME := 1000", "FLOW := 500")
    chart = draw(CONVEYOR.application, "STOP_GATE")
    assert isinstance(chart, Chart) and [it.name for it in chart.states] == ["SHUT", "LIFTED", "WORKING", "DONE"]
    assert chart.states[1].actions == ("TAKE -> LIFT",)
    assert chart.transitions[0] == ("SHUT", "LIFTED", "[ARRIVED > TAKEN]")
    assert draw(CONVEYOR.application, "E_SR") is None
    with pytest.raises(fbsim.ProgramFault, match="the graph of fbsim draw is not read"):
        read_graph('digraph "A" { "B" -> ; }')


def test_scripts_and_styles_are_short():
    folder = TOP / "python" / "src" / "fbsim" / "page"
    files = [it for it in folder.iterdir() if it.suffix in (".js", ".css", ".jinja")]
    assert len(files) > 8
    for it in files:
        text = it.read_text("utf-8")
        assert len(text.splitlines()) < 400
        assert it.suffix == ".jinja" or "</" not in text
