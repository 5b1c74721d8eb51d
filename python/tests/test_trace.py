"""Tests of traces: their lines, patterns, signals, frames and figures."""

import os
import subprocess
import sys

import pandas
import pytest
from common import ALL, CYCLE, EXAMPLES, application, example_in, program, trace_in

import fbsim
from fbsim import Line
from fbsim.program import find_program


def test_a_line_has_its_parts(tmp_path):
    trace = trace_in(
        tmp_path, "0 MAIN < S.COLD", "7 R_1 > CELL.PRESS.GO X=TRUE N=-12 BIG=18446744073709551615", "end 8"
    )
    cold, go = trace
    assert cold == Line(0, "MAIN", "<", "S", "COLD") and cold.values == {} and str(cold) == "0 MAIN < S.COLD"
    assert (go.tick, go.resource, go.sign, go.instance, go.event) == (7, "R_1", ">", "CELL.PRESS", "GO")
    assert go.values == {"X": True, "N": -12, "BIG": 2**64 - 1} and go.key is None


def test_a_line_of_form_2_has_its_key(tmp_path):
    text = ["3 0 0 0 MAIN > C.START DT=3", "1 1 0 3 MAIN < C.EO", "stop 3 MAIN range"]
    trace = trace_in(tmp_path, *text)
    assert list(trace) == [
        Line(0, "MAIN", ">", "C", "START", "DT=3", (3, 0, 0)), Line(3, "MAIN", "<", "C", "EO", "", (1, 1, 0)),
    ]
    assert [str(it) for it in trace] == text[:2]
    assert (trace.end, trace.stop) == (None, fbsim.Stop(3, "MAIN", "range"))


@pytest.mark.parametrize("example", ALL, ids=lambda it: it.folder.name)
def test_lines_are_written_as_they_were_read(example):
    trace = fbsim.Trace(example.folder / "trace")
    text = trace.text()
    assert [str(it) for it in trace] == text.splitlines()[:-1]
    assert trace.count() == text.count("\n") - 1
    assert text.endswith(f"\nend {trace.end}\n")


@pytest.mark.parametrize("number, text", [
    (1, "hello"), (2, "3 MAIN ! A.B"), (2, "3 MAIN < AB"), (2, "x MAIN < A.B"), (2, "3 MAIN"), (2, ""),
])
def test_a_file_that_is_no_trace_is_named_with_the_line(tmp_path, number, text):
    trace = trace_in(tmp_path, *["0 MAIN < S.COLD"][:number - 1], text, "end 8")
    with pytest.raises(fbsim.InputFault, match=f"line {number} is no line of a trace: {text}"):
        list(trace)


def test_a_trace_that_is_cut_off_has_no_end(tmp_path):
    for lines in ([], ["0 MAIN < S.COLD"], ["end x"], ["stop 3 MAIN"], ["end 0"], ["end 08"], ["stop 3 MAIN wrong"]):
        with pytest.raises(fbsim.InputFault, match="the last line is neither end nor stop"):
            trace_in(tmp_path, *lines).end


@pytest.mark.parametrize("text", [
    "0 R < A.P\r\nend 10\n", "junk\nend 10\n", "end 5\nend 10\n", "x\x0bend 10\n", "x\x85end 10\n", "x\x1cend 10\n",
    "5 R < A.P\n4 R < A.P\nend 10\n", "5 R < A.P\nend 5\n", "5 R < A.P\nstop 4 R steps\n", f"end {2**64}\n",
    f"stop {2**64} R steps\n", "0 R < A.P X=01\nstop 3 R range\n",
])
def test_what_is_no_trace_has_neither_end_nor_stop(tmp_path, text):
    (tmp_path / "some.trace").write_bytes(text.encode())
    trace = fbsim.Trace(tmp_path / "some.trace")
    for ask in (lambda: trace.end, lambda: trace.stop, trace.count):
        with pytest.raises(fbsim.InputFault):
            ask()


def test_a_trace_is_read_again_when_its_file_has_changed(tmp_path):
    trace = trace_in(tmp_path, "0 R < A.P", f"end {2**64 - 1}")
    assert trace.end == 2**64 - 1 and trace.count() == 1 and trace.stop is None
    trace_in(tmp_path, "junk", "0 R < A.P", "end 7")
    with pytest.raises(fbsim.InputFault, match="line 1 is no line of a trace: junk"):
        trace.end


def test_where_is_read_any_number_of_times(conveyor):
    found = conveyor.where("STATION < GATE.*")
    last = found.where("* * GATE.LIFT").where("* * * TAKEN>1")
    expected = ["104 LIFT", "184 DROP", "434 RESUME", "434 LIFT", "504 DROP", "754 RESUME"]
    for _ in range(2):
        assert [f"{it.tick} {it.event}" for it in found] == expected
    assert [it.tick for it in last] == [434] and found.count() == 6


def test_what_has_no_line_is_not_true(conveyor):
    # (`assert trace.where(..)` was true also without a line)
    lift = conveyor.where("* < GATE.LIFT")
    assert lift and conveyor.signal("GATE.TAKEN") and conveyor.latencies("* < GATE.LIFT", "* < GATE.DROP")
    assert not lift.where("* < * TAKEN=77") and not conveyor.where("* < GATE.LIFT TAKEN>2")
    assert not lift.where("* < * TAKEN=77").latencies("* < GATE.LIFT", "* < GATE.DROP")
    assert not lift.where("* < * TAKEN=77").signal("GATE.TAKEN")


def test_signals_are_the_values_of_a_variable(conveyor):
    # (README.md of the example)
    assert conveyor.signal("GATE.TAKEN") == ([104, 434], [1, 2])
    assert conveyor.signal("BEFORE.COVERED") == ([100, 160, 186, 460], [True, False, True, False])
    assert conveyor.signal("belt.q") == ([0, 190, 440, 510, 760], [True, False, True, False, True])
    assert conveyor.signals(["GATE.ARRIVED", "WORK.DT"]) == {
        "GATE.ARRIVED": ([104, 190], [1, 2]), "WORK.DT": ([184, 504], [250, 250]),
    }


def test_a_frame_has_a_row_for_each_line(conveyor):
    frame = conveyor.frame()
    parts = ["tick", "resource", "sign", "instance", "event"]
    assert list(frame.columns) == [*parts, "Q", "COVERED", "COUNT", "ARRIVED", "TAKEN", "DT"]
    assert [tuple(it) for it in frame[parts].values] == [tuple(it)[:5] for it in conveyor]
    assert frame[frame.instance == "GATE"].TAKEN.dropna().tolist() == [1, 2]
    assert [str(it) for it in frame.dtypes[["tick", "Q", "COUNT"]]] == ["int64", "boolean", "Int64"]
    assert frame.Q.isna().sum() == len(frame) - 5
    for line, (_, row) in zip(conveyor, frame.iterrows()):
        assert {k: v for k, v in row[6 - 1:].items() if v is not pandas.NA} == line.values


def test_a_frame_of_numbers_over_64_bits_and_of_no_lines(tmp_path):
    trace = trace_in(tmp_path, "1 A > X.GO N=18446744073709551615", "2 A > Y.GO N=TRUE", "end 5")
    assert trace.where("* * X.*").frame().N.tolist() == [2**64 - 1]
    assert trace.frame().N.tolist() == [2**64 - 1, True]
    empty = trace.where("* * Z.*").frame()
    assert len(empty) == 0 and list(empty.columns) == ["tick", "resource", "sign", "instance", "event"]


def test_a_plot_draws_each_signal_as_steps(conveyor, tmp_path):
    figure = conveyor.plot(["GATE.TAKEN", "BELT.Q"])
    taken, belt = figure.axes
    (steps,) = taken.lines
    assert steps.get_drawstyle() == "steps-post"
    assert (list(steps.get_xdata()), list(steps.get_ydata())) == ([104, 434, 800], [1, 2, 2])
    assert list(belt.lines[0].get_ydata()) == [1, 0, 1, 0, 1, 1]
    assert [it.get_text() for it in belt.get_yticklabels()] == ["FALSE", "TRUE"]
    assert [it.get_ylabel() for it in figure.axes] == ["GATE.TAKEN", "BELT.Q"]
    figure.savefig(tmp_path / "some.png")
    assert (tmp_path / "some.png").read_bytes().startswith(b"\x89PNG")
    with pytest.raises(fbsim.Fault, match="nothing to draw"):
        conveyor.plot([])


def test_a_plot_draws_states_as_bands(conveyor):
    # (docs/formats/trace.md has these transitions)
    states = conveyor.states("gate")
    assert (states.ticks[:6], states.ticks[-1]) == ([0, 104, 184, 434, 434, 434], 754)
    assert states.names[:6] == ["SHUT", "LIFTED", "WORKING", "DONE", "SHUT", "LIFTED"]
    figure = conveyor.plot(["BELT.Q"], states=["GATE"])
    assert [it.get_ylabel() for it in figure.axes] == ["BELT.Q", "GATE"]
    assert figure._suptitle.get_text() == "Signals of conveyor.iec" and figure.axes[-1].get_xlabel() == "tick [ms]"
    bands = figure.axes[1].collections
    assert [it.get_label() for it in bands] == ["SHUT", "LIFTED", "WORKING", "DONE"]
    # SHUT is there up to the first parcel, for no time at tick 434, and from tick 754 to the end of the run.
    spans = [(path.vertices[:, 0].min(), path.vertices[:, 0].max()) for path in bands[0].get_paths()]
    assert spans == [(0, 104), (434, 434), (754, 800)]
    assert conveyor.plot([], states=["GATE"], title="The gate")._suptitle.get_text() == "The gate"
    for wrong, fault in (("WORK", "WORK has no states"), ("NOBODY", "there is no instance NOBODY")):
        with pytest.raises(fbsim.InputFault, match=fault):
            conveyor.states(wrong)
    with pytest.raises(fbsim.InputFault, match="only a trace that knows its application"):
        conveyor.where("* * *").states("GATE")


def test_traces_are_the_same_if_their_bytes_are(conveyor, tmp_path):
    conveyor.save(tmp_path / "same.trace")
    same = fbsim.Trace(tmp_path / "same.trace")
    assert conveyor == same and not conveyor != same and same.diff(conveyor) == ""
    text = conveyor.text()
    for other in (text[:-2] + "1\n", text + "\n", text.replace("434", "435", 1)):
        (tmp_path / "other.trace").write_text(other)
        assert conveyor != fbsim.Trace(tmp_path / "other.trace")
    assert "differs in: tick" in conveyor.diff(fbsim.Trace(tmp_path / "other.trace"))
    assert conveyor != text


READS = """
import resource, sys, time
import fbsim

def most():
    return resource.getrusage(resource.RUSAGE_SELF).ru_maxrss

trace, before, start, count = fbsim.Trace(sys.argv[1]), most(), time.process_time(), 0
for line in trace:
    count, tick = count + 1, line.tick
print(count, tick, trace.end, time.process_time() - start, most() - before)
"""


def test_a_million_lines_in_seconds_and_little_memory(tmp_path, top):
    path = tmp_path / "long.trace"
    with open(path, "w") as it:
        for tick in range(500_000):
            it.write(f"{tick} MAIN > X.CU PV=60000\n{tick} MAIN < X.CUO Q=FALSE CV={tick % 60000}\n")
        it.write("end 500000\n")
    said = subprocess.run([sys.executable, "-c", READS, path], stdout=subprocess.PIPE, text=True, check=True,
                          env={**os.environ, "PYTHONPATH": str(top / "python" / "src")}).stdout.split()
    assert said[:3] == ["1000000", "499999", "500000"]
    # It takes 1.4 to 3.4 s, as the machine is: each line is compared with the form. Twice as much is a fault.
    assert float(said[3]) < 6
    # (in KB; the trace has 26 MB)
    assert int(said[4]) < 10_000


def test_rules_name_only_what_the_application_has(tmp_path):
    trace = application(tmp_path, CYCLE).run(horizon=8)
    (tmp_path / "some.rules").write_text('[[rule]]\nname = "x"\nnever = "MAIN < C.E0"\n')
    with pytest.raises(fbsim.Refused) as caught:
        trace.expect(tmp_path / "some.rules")
    place = (caught.value.number, caught.value.file, caught.value.line, caught.value.column)
    assert place == ("E45", str(tmp_path / "some.rules"), 3, 1)
    assert caught.value.text == '1st rule, "x": never: "MAIN < C.E0": C has no event output E0 (it has EO)'
    assert len(fbsim.Trace(trace.path).expect(tmp_path / "some.rules").of("kept")) == 1


def test_rules_are_kept_broken_or_undecided(tmp_path):
    lines = ["0 MAIN < S.COLD", "0 MAIN > C.START DT=3", "3 MAIN < C.EO", "6 MAIN < C.EO", "end 8"]
    trace = trace_in(tmp_path, *lines)
    rules = [
        ("it starts", 'after = "* < S.COLD"\nwithin = 3\nsee = "* < C.EO"'),
        (r"no # \\ beat", 'never = "* < C.EO"'),
        ("it goes on", 'after = "* < C.EO"\nwithin = 3\nsee = "* < C.EO"'),
        ("a name", 'never = "* < D.EO"'),
    ]
    (tmp_path / "some.rules").write_text("".join(f'[[rule]]\nname = "{name}"\n{text}\n' for name, text in rules))
    with pytest.raises(fbsim.RulesBroken) as caught:
        trace.expect(tmp_path / "some.rules")
    report = caught.value.report
    assert isinstance(caught.value, AssertionError)
    assert [(it.rule, it.verdict) for it in report.verdicts] == [
        ("it starts", "kept"), (r"no # \ beat", "broken"), ("it goes on", "undecided"), ("a name", "kept"),
    ]
    (broken,) = report.broken
    assert (broken.line, broken.tick, broken.text) == (3, 3, "3 MAIN < C.EO")
    assert str(caught.value) == r"no # \ beat: this event is not allowed here at line 3, tick 3: 3 MAIN < C.EO"
    assert report.of("kept")[1].notes == ("no line of the trace is of: * < D.EO",)
    assert [it.decided for it in report.verdicts] == [1, 4, 2, 4]
    with pytest.raises(fbsim.RulesBroken) as caught:
        trace.expect(tmp_path / "some.rules", strict=True)
    assert [it.rule for it in caught.value.broken] == [r"no # \ beat", "it goes on"]
    assert caught.value.broken[1].line is None


@pytest.mark.parametrize("more, ticks, applied", [
    ("see", (1, 3), False), ("not", (1, 3), False), ("see", (1, 2), True), ("not", (0, 2), True),
    ('same = ["N"]\nsee', (1, 3), False), ("each = true\nsee", (1, 3), False), ("each = true\nsee", (1, 2), True),
])
def test_a_rule_of_whose_events_all_wait_has_not_applied(tmp_path, more, ticks, applied):
    # (the deadline is 3 ticks, the end 4: the first START waits unless an answer follows, or it is of tick 0)
    answer = ["2 MAIN < C.EO N=1"] * (applied and "see" in more)
    lines = [f"{ticks[0]} MAIN > C.START N=1", *answer, f"{ticks[1]} MAIN > C.START N=1", "end 4"]
    rule = '[[rule]]\nname = "x"\nafter = "* > C.START"\nwithin = 3\n'
    (tmp_path / "some.rules").write_text(f'{rule}{more} = "* < C.EO"\n')
    (verdict,) = trace_in(tmp_path, *lines).expect(tmp_path / "some.rules").verdicts
    assert (verdict.verdict, verdict.decided, verdict.applied) == ("undecided", 2, applied)


def test_rules_over_a_trace_that_ends_with_a_stop(tmp_path):
    trace = trace_in(tmp_path, "0 MAIN > C.START DT=3", "3 MAIN < C.EO", "stop 5 MAIN steps")
    (tmp_path / "some.rules").write_text(
        '[[rule]]\nname = "x"\nafter = "* > C.START"\nwithin = 3\nsee = "* < C.EO"\n'
        '[[rule]]\nname = "y"\nafter = "* < C.EO"\nwithin = 3\nnot = "* < C.EO"\n'
    )
    held, open_one = trace.expect(tmp_path / "some.rules").verdicts
    stop = "the trace ended in a stop at tick 5"
    assert (held.verdict, held.notes, held.applied) == ("kept", (stop,), True)
    assert (open_one.verdict, open_one.notes, open_one.applied) == ("undecided", (stop,), False)
    with pytest.raises(fbsim.RulesBroken) as caught:
        trace.expect(tmp_path / "some.rules", strict=True)
    assert [it.message for it in caught.value.broken] == [
        "stopped: the rule holds up to the stop that ends the trace", "undecided: the trace ends before that",
    ]


@pytest.mark.parametrize("line, fault", [
    ("PLANT < GATE.LIFT TAKEN=1", "there is no resource PLANT"), ("LINE < GATES.LIFT", "there is no instance GATES"),
    ("STATION < GATE.LEFT", "GATE has no event output LEFT"), ("STATION > GATE.LIFT", "these are event outputs"),
    ("STATION < GATE.LIFT TAKES=1", "LIFT has no variable TAKES"),
])
def test_a_trace_of_another_application_is_a_fault(tmp_path, line, fault):
    """Where a file is read with an application: no line of it would be what a pattern is of."""
    trace_in(tmp_path, "1 LINE < POWER.COLD", f"5 {line}", "end 9")
    other = fbsim.Trace(tmp_path / "some.trace", example_in(EXAMPLES / "conveyor").application)
    rules = EXAMPLES / "conveyor" / "conveyor.rules"
    calls = [
        lambda: other.where("* < BELT.EO"), lambda: other.signal("GATE.TAKEN"), lambda: other.expect(rules),
        lambda: other.latencies("* < BELT.EO", "* > BELT.S"),
    ]
    for call in calls:
        with pytest.raises(fbsim.InputFault, match=f"some.trace is no trace of the application: .*{fault}"):
            call()
    assert other.count() == 2


def test_a_trace_of_many_ports_is_asked_in_parts(tmp_path, monkeypatch, conveyor):
    monkeypatch.setattr("fbsim.patterns.MOST_RULES", 3)
    application, path = conveyor.application, tmp_path / "some.trace"
    conveyor.save(path)
    assert fbsim.Trace(path, application).where("* < GATE.LIFT").count() == 2
    path.write_text(path.read_text().replace("STATION > WORK.START", "STATION > WORK.STAR"))
    with pytest.raises(fbsim.InputFault, match="WORK has no event input STAR"):
        fbsim.Trace(path, application).where("* < GATE.LIFT")


def test_rules_over_a_text_that_is_no_trace(tmp_path):
    (tmp_path / "some.rules").write_text('[[rule]]\nname = "x"\nnever = "* < *"\n')
    with pytest.raises(fbsim.Refused) as caught:
        trace_in(tmp_path, "0 MAIN < S.COLD", "hello").expect(tmp_path / "some.rules")
    assert (caught.value.number, caught.value.line, caught.value.file) == (None, 2, str(tmp_path / "some.trace"))
    (tmp_path / "some.rules").write_text("[[rule\n")
    with pytest.raises(fbsim.Refused) as caught:
        trace_in(tmp_path, "end 8").expect(tmp_path / "some.rules")
    assert (caught.value.number, caught.value.line, caught.value.text) == ("E41", 1, "this is no TOML")
    with pytest.raises(fbsim.FileFault, match="rules .*nowhere"):
        trace_in(tmp_path, "end 8").expect(tmp_path / "nowhere")


def test_the_rules_of_the_bottling_line():
    for name in ("shift", "rejects", "emergency"):
        example = example_in(EXAMPLES / "bottling" / name)
        trace = fbsim.Trace(example.folder / "trace", example.application)
        assert len(trace.expect(EXAMPLES / "bottling" / "bottling.rules").verdicts) == 12


GO = "5 MAIN < S.GO"


@pytest.mark.parametrize("text, number", [
    # Not the form of a line: words, signs, spaces, no line feed.
    (f"{GO}\n{GO} X=1  Y=2\nend 8\n", 2),
    (f"{GO} \nend 8\n", 1),
    (f" {GO}\nend 8\n", 1),
    ("5  MAIN < S.GO\nend 8\n", 1),
    ("5 MAIN < S.GO X\nend 8\n", 1),
    ("5 MAIN < S.GO X=1;\nend 8\n", 1),
    ("5 MAIN < S\nend 8\n", 1),
    ("5 MAIN = S.GO\nend 8\n", 1),
    (f"{GO}\r\nend 8\r\n", 1),
    (f"{GO}\n\nend 8\n", 2),
    (f"{GO}\nend 16", 2),
    (f"{GO}\nend 8 \n", 2),
    # Names in lower case, needless zeros, numbers out of range.
    ("5 main < S.GO\nend 8\n", 1),
    ("5 MAIN < s.GO\nend 8\n", 1),
    ("05 MAIN < S.GO\nend 8\n", 1),
    ("5 MAIN < S.GO X=01\nend 8\n", 1),
    ("5 MAIN < S.GO X=-0\nend 8\n", 1),
    ("5 MAIN < S.GO X=true\nend 8\n", 1),
    (f"5 MAIN < S.GO X={2**64}\nend 8\n", 1),
    (f"{2**64} MAIN < S.GO\nend 8\n", 1),
    ("256 0 0 5 MAIN < S.GO\nend 8\n", 1),
    (f"1 {2**128} 0 5 MAIN < S.GO\nend 8\n", 1),
    ("1 0 00 5 MAIN < S.GO\nend 8\n", 1),
    (f"1 0 0 {GO}\n{GO}\nend 8\n", 2),
    # Ticks that fall, an end that is not after the last line, a stop before it.
    (f"{GO}\n4 MAIN < S.GO\nend 8\n", 2),
    (f"{GO}\nend 5\n", 2),
    ("end 0\n", 1),
    (f"{GO}\nstop 4 MAIN steps\n", 2),
    (f"{GO}\nstop 5 MAIN range divide\n", 2),
    # No last line, and something after it.
    ("", 1),
    (f"{GO}\n", 2),
    (f"end 8\n{GO}\n", 2),
    ("end 8\nend 8\n", 2),
    ("end 8\n\n", 2),
])
def test_what_is_no_trace_is_refused_here_and_by_the_program(tmp_path, text, number):
    (tmp_path / "some.trace").write_bytes(text.encode())
    trace = fbsim.Trace(tmp_path / "some.trace")
    with pytest.raises(fbsim.InputFault, match=f"some.trace: line {number} is "):
        trace.count()
    (tmp_path / "some.rules").write_text('[[rule]]\nname = "x"\nnever = "* < *"\n')
    with pytest.raises(fbsim.Refused) as caught:
        trace.expect(tmp_path / "some.rules")
    assert (caught.value.number, caught.value.line) == (None, number)


def test_a_last_line_that_is_cut_is_no_end(tmp_path):
    (tmp_path / "some.trace").write_text("0 MAIN < S.COLD\nend 16")
    for call in (lambda it: it.end, lambda it: it.stop, lambda it: it.last):
        with pytest.raises(fbsim.InputFault, match="no line feed at its end"):
            call(fbsim.Trace(tmp_path / "some.trace"))


def test_the_greatest_numbers_of_a_trace_are_read(tmp_path):
    most = 2**64 - 1
    trace = trace_in(tmp_path, f"255 {2**128 - 1} 0 {most - 1} R > A.B X={most} Y=-{most}", f"end {most}")
    assert [it.values for it in trace] == [{"X": most, "Y": -most}] and trace.end == most
    assert trace_in(tmp_path, "5 R > A.B", "stop 5 R divide").count() == 1


def test_a_file_that_is_missing_is_a_file_fault(tmp_path):
    nope = fbsim.Trace(tmp_path / "nope")
    tries = [
        nope.count, lambda: nope.end, lambda: nope.stop, lambda: nope.last, nope.text, nope.where("* * *").count,
        lambda: nope.signal("A.B"), lambda: nope == trace_in(tmp_path, "end 8"),
        lambda: trace_in(tmp_path, "end 8") == nope,
    ]
    for call in tries:
        with pytest.raises(fbsim.FileFault, match="file fault: trace .*/nope: "):
            call()


def test_wrong_arguments_are_input_faults(tmp_path, conveyor):
    tries = [
        lambda: conveyor.where(None), lambda: conveyor.diff("x"), lambda: conveyor.expect(None),
        lambda: fbsim.Trace(None),
        lambda: conveyor.latencies("* * *", "* * *", "next").histogram(-1),
        lambda: conveyor.latencies("* * *", "* * *", "next").histogram(0),
        lambda: fbsim.Application(None), lambda: fbsim.Application("a.iec", types=[None]),
        lambda: fbsim.Application("a.iec", deploy=5),
    ]
    for call in tries:
        with pytest.raises(fbsim.InputFault):
            call()


@pytest.mark.parametrize("change", ["s/# decided /# decided: /", "/^ok 2 /d", "/^1\\.\\./d", "s/^1\\.\\..*/1..5/"])
def test_a_report_that_lacks_a_rule_is_a_fault(conveyor, tmp_path, monkeypatch, change):
    rules = EXAMPLES / "conveyor" / "conveyor.rules"
    number = len(conveyor.expect(rules).verdicts)
    assert number == rules.read_text().count("[[rule]]") == 2
    right = find_program()
    monkeypatch.setenv("FBSIM", program(tmp_path, f'"{right}" "$@" | sed "{change}"'))
    with pytest.raises(fbsim.ProgramFault, match="points are read for 2 rules"):
        conveyor.expect(rules)
    found = example_in(EXAMPLES / "conveyor").application
    with pytest.raises(fbsim.ProgramFault, match="the report has the plan"):
        found.sweep({"horizon": [800]}, horizon=800, rules=rules)


@pytest.mark.parametrize("within, after, said", [
    (20, "; exit 1", "the status 1, and 0 points not ok"), (2, "; exit 0", "the status 0, and 1 points not ok"),
    (2, "| sed 's/^not ok/ok/'; exit 1", "the status 1, and 0 points not ok"),
])
def test_a_report_has_the_status_of_its_points(conveyor, tmp_path, monkeypatch, within, after, said):
    rules = tmp_path / "some.rules"
    text = (EXAMPLES / "conveyor" / "conveyor.rules").read_text().replace("within = 20", f"within = {within}")
    rules.write_text(text)
    monkeypatch.setenv("FBSIM", program(tmp_path, f'"{find_program()}" "$@" {after}'))
    with pytest.raises(fbsim.ProgramFault, match=f"^the report has {said}$"):
        conveyor.expect(rules)


def test_a_report_of_fewer_rules_than_the_file_has_is_a_fault(conveyor, tmp_path, monkeypatch):
    rules = EXAMPLES / "conveyor" / "conveyor.rules"
    change = "/^ok 2 /,$ d; s/^1\\.\\..*/1..1/"
    monkeypatch.setenv("FBSIM", program(tmp_path, f'"{find_program()}" "$@" | sed "{change}"'))
    with pytest.raises(fbsim.ProgramFault, match="the plan 1..1, and 1 points are read for 2 rules"):
        conveyor.expect(rules)
