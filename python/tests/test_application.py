"""Tests of runs: their traces, their stops, and each kind of fault."""

import gc
import os
import pickle
import resource
import signal
import time

import numpy
import pandas
import pytest
from common import (
    ALL, CYCLE, EXAMPLES, RING, application, example_in, has_ended, interpreter, processor_time, program, second_trace,
    trace_in
)

import fbsim

PLAN = """[[resource]]
device = "CELL"
name = "R1"
instances = ["F"]
[[resource]]
device = "CELL"
name = "R2"
instances = ["W"]
[[link]]
from = "R1"
to = "R2"
latency = 2
"""
LATCH = """APPLICATION A
FBS F : E_SR; W : E_SWITCH; END_FBS
EVENT_CONNECTIONS F.EO TO W.EI; END_CONNECTIONS
DATA_CONNECTIONS F.Q TO W.G; END_CONNECTIONS
END_APPLICATION
"""
CELL = """resource = [
  { device = "CELL", name = "R1", instances = ["F"] },
  { device = "CELL", name = "R2", instances = ["W"] },
]
link = [{ from = "R1", to = "R2", latency = 2 }]
"""
# The worked example of README.md.
WORKED = """3 R1 > F.S
3 R1 < F.EO Q=TRUE
5 R2 > W.EI G=FALSE
5 R2 < W.EO0
5 R2 > W.EI G=TRUE
5 R2 < W.EO1
end 6
"""
KEYED = """0 0 0 3 R1 > F.S
0 0 0 3 R1 < F.EO Q=TRUE
0 1 0 5 R2 > W.EI G=FALSE
0 1 0 5 R2 < W.EO0
2 0 0 5 R2 > W.EI G=TRUE
2 0 0 5 R2 < W.EO1
end 6
"""
STIMULI = [(3, "F.S"), (5, "W.EI", {})]


@pytest.mark.parametrize("example", ALL, ids=lambda it: it.folder.name)
def test_each_example_has_the_trace_of_the_second_simulator(example):
    trace = example.run()
    assert trace.text() == interpreter.trace_of(str(example.folder))
    assert (trace.end, trace.stop) == (example.horizon, None)


def test_stimuli_are_a_file_or_rows(tmp_path):
    cell = application(tmp_path, LATCH, deploy=CELL)
    (tmp_path / "some.csv").write_text("tick,event,values\n3,F.S,\n5,W.EI,\n")
    for given in (STIMULI, iter(STIMULI), tmp_path / "some.csv", str(tmp_path / "some.csv")):
        assert cell.run(given, horizon=6).text() == WORKED
    assert cell.run(STIMULI, horizon=6, keys=True).text() == KEYED


def test_values_of_rows_are_numbers_and_truth_values():
    from fbsim.stimuli import stimuli_text

    rows = [(1, "A.B", {"X": True, "Y": -7}), (2, 'A.C"'), (3, "A.D", {"Z": False})]
    assert stimuli_text(rows) == 'tick,event,values\n1,A.B,X=TRUE Y=-7\n2,"A.C""",\n3,A.D,Z=FALSE\n'


def test_block_types_in_files_of_their_own(tmp_path):
    text = (EXAMPLES / "conveyor" / "conveyor.iec").read_text()
    at = text.index("APPLICATION CONVEYOR")
    (tmp_path / "lib.iec").write_text(text[:at])
    (tmp_path / "main.iec").write_text(text[at:])
    whole = example_in(EXAMPLES / "conveyor")
    split = fbsim.Application(tmp_path / "main.iec", types=[tmp_path / "lib.iec"], deploy=whole.application.deploy)
    assert split.run(whole.stimuli, horizon=800) == whole.run()


def test_workers_and_steps_are_passed_on(tmp_path, conveyor):
    assert example_in(EXAMPLES / "conveyor").run(workers=4) == conveyor
    ring = application(tmp_path, RING)
    with pytest.raises(fbsim.InputFault, match="65 is not in 1..=64"):
        ring.run(horizon=5, workers=65)
    for steps in (3, 5):
        trace = ring.run(horizon=5, steps=steps, stop=True)
        assert trace.text() == second_trace(RING, None, [], 5, steps)


def test_a_stop_is_raised_unless_it_is_asked_for(tmp_path):
    ring = application(tmp_path, RING)
    with pytest.raises(fbsim.Stopped) as caught:
        ring.run(horizon=5, steps=3)
    stop = caught.value.stop
    assert stop[:3] == (0, "MAIN", "steps")
    assert stop.where.startswith("stop: M, before its event: steps\ntick 0: 2 of 3 steps by M")
    assert [str(it) for it in caught.value.trace][-1] == "0 MAIN < M.EO"
    trace = ring.run(horizon=5, steps=3, stop=True)
    assert (trace.end, trace.stop) == (None, stop)


def test_a_stop_says_where(tmp_path):
    text = CYCLE.replace("END_APPLICATION", "").replace("APPLICATION A", "")
    divides = "FUNCTION_BLOCK D EVENT_INPUT GO; END_EVENT VAR A : INT; END_VAR EC_STATES I; R : X; END_STATES\n"
    divides += "EC_TRANSITIONS I TO R := GO; END_TRANSITIONS\nALGORITHM X IN ST: A := 5 / A; END_ALGORITHM\n"
    divides += "END_FUNCTION_BLOCK APPLICATION A" + text.replace("END_FBS", "X : D; END_FBS")
    plant = application(tmp_path, divides.replace("S.COLD TO C.START;", "S.COLD TO X.GO;") + " END_APPLICATION")
    stop = plant.run(horizon=5, stop=True).stop
    assert stop[:3] == (0, "MAIN", "divide")
    said = "3:27: stop: X (type D), state R, action 1, algorithm X: 5 / A: divide"
    assert stop.where.startswith(f"{tmp_path}/plant.iec:{said}\n")


def test_check_accepts_or_refuses(tmp_path):
    cell = application(tmp_path, LATCH, deploy=CELL)
    assert cell.check() is None and cell.check(STIMULI) is None
    with pytest.raises(fbsim.Refused) as caught:
        cell.check([(3, "F.S"), (4, "G.S")])
    assert (caught.value.number, caught.value.file, caught.value.line, caught.value.column) == ("E29", "-", 3, 3)
    assert caught.value.text == "row 1: there is no instance G"


# A text for each kind of place, with number, line, column and a word of what the program says.
REFUSED = [
    ("plant.iec", "APPLICATION A FBS F : E_SR \xff", ("E01", 1, 28, "195")),
    ("plant.iec", "APPLICATION A FBS\nF : E_SR W", ("E03", 2, 10, "W")),
    ("plant.iec", " " * 1_048_577, ("E04", 1, 1_048_577, "1048576")),
    ("plant.iec", LATCH.replace("W.EI", "W.EJ"), ("E21", 3, 29, "E_SWITCH")),
    ("deploy.toml", "[[resource]]\nname", ("E10", 2, 5, "TOML")),
    ("deploy.toml", PLAN.replace("latency = 2", "latency = 0"), ("E12", 12, 1, "latency")),
    ("deploy.toml", PLAN.replace('to = "R2"', 'to = "R3"'), ("E21", 11, 1, "R3")),
    ("some.csv", "tick,event,values\n5x,F.S,\n", ("E14", 2, 1, "5x")),
    ("some.csv", "tick,event\n", ("E13", 1, 1, "tick")),
]


@pytest.mark.parametrize("name, text, expected", REFUSED, ids=[it[2][0] for it in REFUSED])
def test_a_refusal_has_its_place(tmp_path, name, text, expected):
    for file, given in {"plant.iec": LATCH, "deploy.toml": CELL, "some.csv": "tick,event,values\n"}.items():
        (tmp_path / file).write_text(text if file == name else given)
    plant = fbsim.Application(tmp_path / "plant.iec", deploy=tmp_path / "deploy.toml")
    with pytest.raises(fbsim.Refused) as caught:
        plant.run(tmp_path / "some.csv", horizon=5)
    it = caught.value
    assert (it.number, it.file, it.line, it.column) == (expected[0], str(tmp_path / name), *expected[1:3])
    assert expected[3] in it.text
    assert f"{tmp_path / name}:{it.line}:{it.column}: " in str(it)
    line, mark = it.locations[0].excerpt.split("\n")
    assert mark.strip() == "^" and (len(text) > 1000 or text.split("\n")[it.line - 1].startswith(line[:10]))


def test_all_locations_of_a_refusal(tmp_path):
    plant = application(tmp_path, LATCH.replace("F.EO TO W.EI;", "F.EO TO W.EJ;\nF.EO TO W.EK;"))
    with pytest.raises(fbsim.Refused) as caught:
        plant.check()
    assert [(it.line, it.column) for it in caught.value.locations] == [(3, 29), (4, 11)]


def test_a_file_fault_names_the_file(tmp_path):
    plant = application(tmp_path, CYCLE)
    missing = tmp_path / "no: such.file"
    tries = {
        "declaration": lambda: fbsim.Application(missing).check(),
        "deployment": lambda: fbsim.Application(plant.declaration, deploy=missing).check(),
        "stimuli": lambda: plant.run(missing, horizon=5),
    }
    for kind, call in tries.items():
        with pytest.raises(fbsim.FileFault) as caught:
            call()
        assert (caught.value.kind, caught.value.file) == (kind, str(missing))
        assert caught.value.text == "no file of this name can be read"
    with pytest.raises(fbsim.FileFault, match="this is a folder, not a file"):
        fbsim.Application(tmp_path).check()


@pytest.mark.parametrize("text, kind, said", [
    ("echo 'out of memory' >&2; exit 4", fbsim.OutOfMemory, "out of memory"),
    ("echo 'write fault after 64 bytes' >&2; exit 3", fbsim.WriteFault, "write fault after 64 bytes"),
    ("echo 'file fault' >&2; exit 3", fbsim.FileFault, "a file can't be read"),
    ("echo 'error' >&2; exit 5", fbsim.InputFault, "error"),
    ("echo 'checked' >&2; exit 124", fbsim.ProgramFault, "status 124: checked"),
    ("kill -9 $$", fbsim.ProgramFault, "signal 9"),
    ("exit 2", fbsim.Refused, "refused"),
])
def test_each_status_has_its_exception(tmp_path, monkeypatch, text, kind, said):
    monkeypatch.setenv("FBSIM", program(tmp_path, text))
    plant = fbsim.Application("plant.iec")
    for call in (plant.check, lambda: plant.run(horizon=5), lambda: list(plant.stream(horizon=5))):
        with pytest.raises(kind, match=said):
            call()


@pytest.mark.parametrize("said, status", [
    ("end 4", 0), ("end 6", 0), ("end 5", 1), ("stop 3 MAIN steps", 0),
])
def test_a_run_must_end_as_its_status_says(tmp_path, monkeypatch, said, status):
    """Its trace ends with the horizon that was asked for, or with a stop."""
    monkeypatch.setenv("FBSIM", program(tmp_path, f"echo {said}; exit {status}"))
    plant = fbsim.Application("plant.iec")
    for call in (lambda: plant.run(horizon=5, stop=True), lambda: list(plant.stream(horizon=5, stop=True))):
        with pytest.raises(fbsim.ProgramFault, match=f"up to 5 has the status {status}, and its last line is {said}$"):
            call()


def test_an_output_that_is_full_is_a_write_fault(tmp_path):
    from fbsim.program import call

    plant = application(tmp_path, CYCLE)
    with open("/dev/full", "wb") as full, pytest.raises(fbsim.WriteFault, match="write fault after 0 bytes"):
        call(["run", str(plant.declaration), "--horizon", "8"], to=full)


def test_exceptions_pass_between_processes(tmp_path):
    plant = application(tmp_path, RING)
    faults = [fbsim.FileFault("text", "kind", "file"), fbsim.OutOfMemory("out of memory")]
    for call in (lambda: plant.run(horizon=5, steps=0), lambda: plant.check([(1, "X.Y")])):
        with pytest.raises(fbsim.Fault) as caught:
            call()
        faults.append(caught.value)
    faults.append(fbsim.Stopped(fbsim.Stop(3, "MAIN", "steps", "there")))
    for it in faults:
        same = pickle.loads(pickle.dumps(it))
        assert type(same) is type(it) and str(same) == str(it) and vars(same) == vars(it)


def test_a_temporary_trace_is_removed_with_its_object(tmp_path):
    trace = application(tmp_path, CYCLE).run(horizon=8)
    path = trace.path
    assert path.exists()
    if os.fork() == 0:
        del trace
        gc.collect()
        os._exit(0)
    os.wait()
    assert path.exists(), "a forked process removes no file of its parent"
    del trace
    gc.collect()
    assert not path.exists()


def test_a_refused_run_leaves_no_file(tmp_path, monkeypatch):
    plant = application(tmp_path, "APPLICATION")
    monkeypatch.setattr("tempfile.tempdir", str(tmp_path / "temporary"))
    (tmp_path / "temporary").mkdir()
    with pytest.raises(fbsim.Refused):
        plant.run(horizon=5)
    gc.collect()
    assert os.listdir(tmp_path / "temporary") == []


def test_a_stream_has_the_lines_of_the_run(tmp_path):
    cell = application(tmp_path, LATCH, deploy=CELL)
    stream = cell.stream(STIMULI, horizon=6)
    assert [str(it) for it in stream] == WORKED.splitlines()[:-1]
    assert (stream.end, stream.stop) == (6, None)
    with pytest.raises(fbsim.InputFault, match="read once"):
        list(stream)
    keyed = cell.stream(STIMULI, horizon=6, keys=True)
    assert [str(it) for it in keyed] == KEYED.splitlines()[:-1] and keyed.end == 6


def test_a_stream_raises_faults_and_stops(tmp_path):
    ring = application(tmp_path, RING)
    with pytest.raises(fbsim.InputFault):
        list(ring.stream(horizon=0))
    lines = iter(ring.stream(horizon=5, steps=3))
    assert [str(next(lines)) for _ in range(5)][-1] == "0 MAIN < M.EO"
    with pytest.raises(fbsim.Stopped) as caught:
        next(lines)
    assert caught.value.stop[:3] == (0, "MAIN", "steps") and "2 of 3 steps by M" in caught.value.stop.where
    stream = ring.stream(horizon=5, steps=3, stop=True)
    assert stream.count() == 5 and (stream.end, stream.stop) == (None, caught.value.stop)


def test_a_stream_that_nobody_reads_on_ends_its_run(tmp_path):
    cycle = application(tmp_path, CYCLE)
    lines = iter(cycle.stream(horizon=10**12))
    assert str(next(lines)) == "0 MAIN < S.COLD"
    start = time.monotonic()
    lines.close()
    assert time.monotonic() - start < 5


def test_a_stream_that_is_not_read_to_its_end_has_no_end(tmp_path):
    stream = application(tmp_path, CYCLE).stream(horizon=30)
    lines = iter(stream)
    for _ in range(2):
        for ask in (lambda: stream.end, lambda: stream.stop):
            with pytest.raises(fbsim.InputFault, match="the lines of the stream are not read to their end"):
                ask()
        assert next(lines).tick == 0 and "not read to its end" in repr(stream)
    assert len(list(lines)) > 2 and (stream.end, stream.stop) == (30, None) and repr(stream).endswith(", read>")


def test_a_run_takes_little_longer_than_the_program(tmp_path, monkeypatch):
    monkeypatch.setenv("FBSIM", program(tmp_path, "echo end 8"))
    plant = fbsim.Application("plant.iec")
    taken = []
    for _ in range(9):
        start = processor_time()
        assert plant.run(STIMULI, horizon=8).end == 8
        taken.append(processor_time() - start)
    assert min(taken) < 0.030


def test_a_run_that_takes_too_long_is_ended_with_all_that_it_started(tmp_path, monkeypatch):
    monkeypatch.setenv("FBSIM", program(tmp_path, f"sh -c 'echo $$ > {tmp_path}/pid; sleep 1000; true'; true"))
    start = time.monotonic()
    with pytest.raises(fbsim.TimedOut, match="^fbsim run took over 0.5 seconds, and was ended$") as caught:
        fbsim.Application("plant.iec").run(horizon=5, timeout=0.5)
    assert time.monotonic() - start < 30 and isinstance(caught.value, TimeoutError)
    assert has_ended(int((tmp_path / "pid").read_text()))


def test_what_a_program_started_is_ended_also_if_the_program_has_ended_before(tmp_path, monkeypatch):
    text = f"[ $1 = session ] && echo '= nothing waits'; sleep 1000 & echo $! > {tmp_path}/pid; exit 0"
    monkeypatch.setenv("FBSIM", program(tmp_path, text))
    with pytest.raises(fbsim.TimedOut):
        fbsim.Application("plant.iec").run(horizon=5, timeout=0.5)
    assert has_ended(int((tmp_path / "pid").read_text()))
    with fbsim.Application("plant.iec").session(timeout=0.5) as s, pytest.raises(fbsim.TimedOut):
        s.until(5)
    assert has_ended(int((tmp_path / "pid").read_text()))


def test_an_exception_in_a_run_ends_all_that_it_started(tmp_path, monkeypatch):
    """As the interrupt of a terminal, which only Python gets, or a time limit of pytest."""
    monkeypatch.setenv("FBSIM", program(tmp_path, f"sh -c 'echo $$ > {tmp_path}/pid; sleep 1000; true'; true"))

    def interrupt(*given):
        raise KeyboardInterrupt

    before = signal.signal(signal.SIGALRM, interrupt)
    try:
        signal.setitimer(signal.ITIMER_REAL, 0.5)
        with pytest.raises(KeyboardInterrupt):
            fbsim.Application("plant.iec").run(horizon=5)
    finally:
        signal.setitimer(signal.ITIMER_REAL, 0)
        signal.signal(signal.SIGALRM, before)
    assert has_ended(int((tmp_path / "pid").read_text()))


def test_rows_that_a_run_does_not_take_are_warned_of(tmp_path):
    """At the line of the caller, for a run and for a stream, and apart from where it stopped."""
    plant, rows = application(tmp_path, RING), [(0, "M.EI1"), (7, "M.EI2"), (9, "M.EI2")]
    said = "stimuli: rows at or beyond the horizon 7: 2 of 3; the run does not take them"
    stream = plant.stream(rows, horizon=7, stop=True)
    for call in (lambda: plant.run(rows, horizon=7, stop=True), lambda: list(stream)):
        with pytest.warns(fbsim.StimuliWarning) as caught:
            call()
        assert [(str(it.message), it.filename) for it in caught] == [(said, __file__)]
    assert stream.stop.where.startswith("stop: ")


CALLS = [
    lambda app: app.run(horizon=9), lambda app: list(app.stream(horizon=9)), lambda app: app.session(),
    lambda app: app.sweep({"steps": [9]}, horizon=9),
    lambda app: fbsim.Trace(trace_in(app.declaration.parent, "end 9").path, app).where("* < C.EO"),
    lambda app: fbsim.check_sequence("E_SR", [["S", "EO Q=TRUE"]]),
]


@pytest.mark.parametrize("call", CALLS)
def test_a_system_without_a_folder_for_temporary_files_is_a_file_fault(tmp_path, monkeypatch, call):
    monkeypatch.setattr("tempfile.tempdir", str(tmp_path / "none"))
    with pytest.raises(fbsim.FileFault, match=f"^file fault: file {tmp_path}/none/.*: No such file or directory$"):
        call(application(tmp_path, CYCLE))


def test_a_full_disk_is_a_fault(tmp_path):
    """A file may not grow: a session, a kept variant and a cache need one that does."""
    plant = application(tmp_path, CYCLE)
    found = plant.sweep({"steps": [9]}, horizon=9)
    limits = resource.getrlimit(resource.RLIMIT_FSIZE)
    with plant.session() as s:
        resource.setrlimit(resource.RLIMIT_FSIZE, (0, limits[1]))
        try:
            for call in (lambda: s.ask("end 9000"), lambda: found.keep(found[0], tmp_path / "kept")):
                with pytest.raises(fbsim.FileFault, match="^file fault: file .*: File too large$"):
                    call()
        finally:
            resource.setrlimit(resource.RLIMIT_FSIZE, limits)
    with pytest.raises(fbsim.InputFault, match="was broken off$"):
        s.trace
    (tmp_path / "cache").mkdir()
    plant.sweep({"steps": [9]}, horizon=9, cache=tmp_path / "cache")
    for it in (tmp_path / "cache").iterdir():
        it.unlink()
        it.mkdir()
    with pytest.raises(fbsim.FileFault, match="Is a directory$"):
        plant.sweep({"steps": [9]}, horizon=9, cache=tmp_path / "cache")


def test_a_run_says_which_rows_it_did_not_take(tmp_path):
    plant = application(tmp_path, RING)
    trace = plant.run([(3, "M.EI1"), (8, "M.EI2"), (9, "M.EI1")], horizon=8, steps=3, stop=True)
    said = "stimuli: rows at or beyond the horizon 8: 2 of 3; the run does not take them"
    assert trace.warnings == (said,) and trace.stop.where.startswith("stop: M, before its event: steps\n")
    assert application(tmp_path, CYCLE).run(horizon=8).warnings == ()


@pytest.mark.parametrize("option", ["horizon", "steps", "workers"])
@pytest.mark.parametrize("value", ["5", 5.0, True, numpy.bool_(True)])
def test_numbers_of_a_run_are_whole(tmp_path, option, value):
    plant = application(tmp_path, CYCLE)
    for call in (plant.run, plant.stream):
        with pytest.raises(fbsim.InputFault, match=f"^{option} is .*, and not a whole number$"):
            call(**{"horizon": 5, option: value})
    assert plant.run(horizon=numpy.int64(5)).end == 5


@pytest.mark.parametrize("row", [
    ("1", "C.STOP"), (1.5, "C.STOP"), (True, "C.STOP"), (1,), (1, "C.STOP", {}, 4), (1, 2), (1, "C.STOP", [3]),
    "C.STOP", 7,
])
def test_what_is_no_row_is_a_fault(tmp_path, row):
    with pytest.raises(fbsim.InputFault, match="no row of stimuli|the tick of a row is"):
        application(tmp_path, CYCLE).run([row], horizon=5)


def test_an_iterator_that_was_used_before_is_a_fault(tmp_path):
    plant, rows = application(tmp_path, CYCLE), ((tick, "C.STOP") for tick in (4, 5))
    assert plant.run(rows, horizon=9).count() == 5
    for call in (plant.run, plant.stream):
        with pytest.raises(fbsim.InputFault, match="^the stimuli are an iterator without rows"):
            call(rows, horizon=9)
    with pytest.raises(fbsim.InputFault, match="iterator without rows"):
        plant.session(rows)
    assert plant.run([], horizon=9).count() > 0


@pytest.mark.parametrize("stimuli", [7, pandas.DataFrame({"tick": [1], "event": ["C.STOP"]})])
def test_what_are_no_stimuli_is_a_fault(tmp_path, stimuli):
    with pytest.raises(fbsim.InputFault, match="^stimuli are a file or rows, and not of the type "):
        application(tmp_path, CYCLE).run(stimuli, horizon=5)


def test_values_of_numpy_are_values_and_a_time_is_in_ticks(tmp_path):
    text = CYCLE.replace("E_CYCLE(DT := T#3ms)", "E_SWITCH; D : E_DELAY").replace("S.COLD TO C.START;", "")
    plant = application(tmp_path, text)
    rows = [(numpy.int64(1), "C.EI", {"G": numpy.bool_(True)}), (2, "D.START", {"DT": numpy.uint8(7)})]
    lines = "0 MAIN < S.COLD\n1 MAIN > C.EI G=TRUE\n1 MAIN < C.EO1\n2 MAIN > D.START DT=7\nend 5\n"
    assert plant.run(rows, horizon=5).text() == lines
    with pytest.raises(fbsim.InputFault, match="^'T#250ms' is no value of a row: .*, and a time is in ticks$"):
        plant.run([(2, "D.START", {"DT": "T#250ms"})], horizon=5)


def test_types_may_be_one_file(tmp_path):
    block = "FUNCTION_BLOCK F EVENT_INPUT GO; END_EVENT EC_STATES S; END_STATES END_FUNCTION_BLOCK"
    (tmp_path / "a.iec").write_text(block)
    declaration = application(tmp_path, CYCLE).declaration
    for types in (str(tmp_path / "a.iec"), tmp_path / "a.iec", [tmp_path / "a.iec"]):
        assert fbsim.Application(declaration, types=types).words[2] == str(tmp_path / "a.iec")
        assert fbsim.Application(declaration, types=types).check() is None


def test_coverage_lint_and_inspect(tmp_path, conveyor):
    plant = example_in(EXAMPLES / "conveyor")
    assert "\nstates 6 of 6, transitions 6 of 6, " in plant.application.coverage(conveyor, least=100)
    short = plant.application.run(plant.stimuli, horizon=150)
    with pytest.raises(fbsim.Fault, match="^less than 90 percent are covered:"):
        plant.application.coverage(short, least=90)
    assert plant.application.coverage(short, conveyor) == plant.application.coverage(conveyor)
    assert plant.application.lint(plant.stimuli) == ""
    unused = application(tmp_path, CYCLE.replace("END_FBS", "D : E_MERGE; END_FBS"))
    said = unused.lint()
    assert "L15" in said and unused.lint(allow=["all"]) == ""
    with pytest.raises(fbsim.Fault, match="L15"):
        unused.lint(deny=["all"])
    assert "GATE" in plant.application.inspect(conveyor, only="GATE") and plant.application.inspect(conveyor, lost=True)


@pytest.mark.parametrize("said", ["fbsim 0.9.0", "fbsim 1.999.0", "fbsim", "", "other 1.2.0"])
def test_a_program_of_another_version_is_not_used(tmp_path, monkeypatch, said):
    (tmp_path / "program").write_text(f"#!/bin/sh\n[ $1 = --version ] && echo '{said}' && exit\necho end 5\n")
    (tmp_path / "program").chmod(0o755)
    monkeypatch.setenv("FBSIM", str(tmp_path / "program"))
    plant = fbsim.Application("plant.iec")
    for call in (lambda: plant.run(horizon=5), lambda: plant.session(), lambda: list(plant.stream(horizon=5))):
        with pytest.raises(fbsim.ProgramMissing, match=f"says '{said}', and this package is fbsim .*ANY_VERSION=1"):
            call()
    monkeypatch.setenv("FBSIM_ANY_VERSION", "1")
    assert plant.run(horizon=5).end == 5


def test_a_program_of_another_patch_version_is_used(tmp_path, monkeypatch):
    major, minor, _ = fbsim.__version__.split(".")
    text = f"#!/bin/sh\n[ $1 = --version ] && echo 'fbsim {major}.{minor}.77 (unproved)' && exit\necho end 5\n"
    (tmp_path / "program").write_text(text)
    (tmp_path / "program").chmod(0o755)
    monkeypatch.setenv("FBSIM", str(tmp_path / "program"))
    assert fbsim.Application("plant.iec").run(horizon=5).end == 5
