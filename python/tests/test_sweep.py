"""Tests of sweeps, by several executors."""

import json
import os
import re
import shutil
import signal
import subprocess
import sys
import threading
import time
from concurrent.futures import Executor, Future, ProcessPoolExecutor, ThreadPoolExecutor

import numpy
import pytest
from common import (
    CYCLE, EXAMPLES, application, example_in, has_ended, interpreter, processor_time, program, second_trace
)

import fbsim

CONVEYOR = example_in(EXAMPLES / "conveyor")
RULES = EXAMPLES / "conveyor" / "conveyor.rules"
THERE, BACK = "link.LINE->STATION", "link.STATION->LINE"
STOPS = "the belt stops within 20 ms of the second beam"
STOPPING = ("LINE < BEHIND.CAME", "LINE < BELT.EO Q=FALSE", "next")


class Here(Executor):
    """An executor that runs each call at once, in the order of submission."""

    def submit(self, call, /, *given, **named):
        made = Future()
        made.set_result(call(*given, **named))
        return made


def sweep(parameters, **options):
    """Sweeps examples/conveyor in this process."""
    options = {"horizon": 800, "executor": Here(), **options}
    return CONVEYOR.application.sweep(parameters, options.pop("stimuli", CONVEYOR.stimuli), **options)


def test_a_thousand_variants_whose_answer_is_known():
    """The belt stops when a message has gone there and back: within 20 ms if the latencies add up to at most 20."""
    start = processor_time()
    found = CONVEYOR.application.sweep(
        {THERE: range(1, 41), BACK: range(1, 26)}, CONVEYOR.stimuli, horizon=800, rules=RULES,
        latencies={"stopping": STOPPING},
    )
    taken = processor_time() - start
    assert len(found.rows) == 1000 and [it.number for it in found.rows] == list(range(1000))
    for it in found.rows:
        there, back = it.parameters[THERE], it.parameters[BACK]
        assert it.number == (there - 1) * 25 + back - 1
        assert (it.end, it.stop, it.broken) == (800, None, [STOPS] if there + back > 20 else [])
        assert it.latencies["stopping"].least == it.latencies["stopping"].most == there + back
    assert (found.first_broken.parameters[THERE], found.first_broken.parameters[BACK]) == (1, 20)
    assert len(found.broken(STOPS)) == len(found.broken()) == 1000 - 190
    assert found.broken("the gate is not lifted while the station works") == []
    # (it is 20 to 40 s; on a busy machine the time of a clock says nothing)
    assert taken <= 120


def test_the_product_has_the_last_parameter_fastest():
    found = sweep({"WORK.DT": [200, 300], THERE: [1, 2]}, latencies={"work": ("* > WORK.START", "* < WORK.EO")})
    assert [tuple(it.parameters.values()) for it in found.rows] == [(200, 1), (200, 2), (300, 1), (300, 2)]
    assert [it.latencies["work"].most for it in found.rows] == [200, 200, 300, 300]


def test_each_kind_of_parameter_is_what_the_second_simulator_makes_of_it(tmp_path):
    parameters = {
        THERE: [7, [(0, 9), (180, 1)], fbsim.jitter(1, 40, changes=5, seed=2)],
        "WORK.DT": ["T#100ms"], "stimuli[3].tick": [190, 450], "stimuli[4].COVERED": [True, False],
        "horizon": [700],
    }
    found = sweep(parameters)
    assert len(found.rows) == 12
    for it in found.rows:
        found.keep(it, tmp_path / "kept")
        text, plan, stimuli = ((tmp_path / "kept" / name).read_text() for name in (
            "application.iec", "deploy.toml", "stimuli.csv"))
        expected = second_trace(text, plan, interpreter.stimuli_in(stimuli), 700)
        assert found.plan.variant(tuple(it.parameters.values())).files["stimuli.csv"] == stimuli
        env = {**os.environ, "PATH": f"{tmp_path}:{os.environ['PATH']}"}
        if not (tmp_path / "fbsim").exists():
            (tmp_path / "fbsim").symlink_to(fbsim.find_program())
        assert subprocess.run([tmp_path / "kept" / "run.sh"], env=env).returncode == 0
        assert (tmp_path / "kept" / "trace").read_text() == expected
        assert it.end == 700 and f"end {it.end}\n" in expected


def test_a_kept_variant_fails_by_hand_as_it_did_in_the_sweep(tmp_path):
    found = sweep({THERE: [4, 15]}, rules=RULES)
    line = found.keep(found.first_broken, tmp_path / "some where")
    assert line == "fbsim run application.iec --deploy deploy.toml --why --stim stimuli.csv --horizon 800 > trace"
    (tmp_path / "fbsim").symlink_to(fbsim.find_program())
    env = {**os.environ, "PATH": f"{tmp_path}:{os.environ['PATH']}"}
    made = subprocess.run([tmp_path / "some where" / "run.sh"], env=env, capture_output=True, text=True)
    assert made.returncode == 1 and f"not ok 1 - {STOPS}" in made.stdout


def test_steps_and_stops(tmp_path):
    ring = "APPLICATION A FBS S : E_RESTART; D : E_DELAY(DT := 2); M : E_MERGE; END_FBS EVENT_CONNECTIONS "
    ring += "S.COLD TO D.START; D.EO TO M.EI1; M.EO TO M.EI2; END_CONNECTIONS END_APPLICATION"
    plant = application(tmp_path, ring)
    found = plant.sweep({"D.DT": [1, 5], "steps": [3, 9]}, horizon=5, executor=Here())
    assert [it.end for it in found.rows] == [None, None, 5, 5]
    assert [it.stop and it.stop[:3] for it in found.rows] == [(1, "MAIN", "steps")] * 2 + [None] * 2
    assert found.rows[1].stop.where.startswith("stop: M")
    assert list(found.frame().end.isna()) == [True, True, False, False]


def test_a_sample_is_drawn_by_its_seed():
    parameters = {THERE: range(1, 1001), BACK: range(1, 1001)}
    found, again, other = (sweep(parameters, sample=6, seed=seed) for seed in (7, 7, 8))
    numbers = [it.number for it in found.rows]
    assert len(set(numbers)) == 6 and numbers == sorted(numbers) and numbers[-1] < 1_000_000
    assert numbers == [it.number for it in again.rows] != [it.number for it in other.rows]
    assert all(it.number == (it.parameters[THERE] - 1) * 1000 + it.parameters[BACK] - 1 for it in found.rows)
    assert [it.number for it in sweep({THERE: [1, 2, 3]}, sample=7).rows] == [0, 1, 2]


def test_stimuli_as_rows_and_files_of_types(tmp_path):
    (tmp_path / "lib.iec").write_text((EXAMPLES / "conveyor" / "conveyor.iec").read_text().split("APPLICATION CONV")[0])
    text = "APPLICATION A FBS B : BARRIER; END_FBS END_APPLICATION"
    plant = fbsim.Application(application(tmp_path, text).declaration, types=[tmp_path / "lib.iec"])
    rows = [(1, "B.SENSE", {"COVERED": True}), (3, "B.SENSE", {"COVERED": True})]
    came = {"came": ("* > B.SENSE", "* < B.CAME")}
    found = plant.sweep({"stimuli[0].COVERED": [True, False]}, rows, horizon=5, latencies=came, executor=Here())
    assert [(it.latencies["came"].most, it.latencies["came"].waiting) for it in found.rows] == [(0, 1), (2, 1)]
    found.keep(found.rows[0], tmp_path / "kept")
    assert sorted(os.listdir(tmp_path / "kept")) == ["application.iec", "run.sh", "stimuli.csv", "types0.iec"]


@pytest.mark.parametrize("kind", [ThreadPoolExecutor, ProcessPoolExecutor])
def test_any_executor_gives_the_same_rows(kind):
    parameters = {THERE: range(8, 14), BACK: [8, 9]}
    with kind(2) as executor:
        found = sweep(parameters, rules=RULES, executor=executor)
    expected = sweep(parameters, rules=RULES)
    assert found.rows == expected.rows and [len(it.broken) for it in found.rows] == [0] * 9 + [1] * 3


class Watched(Executor):
    """An executor that passes calls on, and keeps their futures."""

    def __init__(self, executor):
        self.executor, self.made = executor, []

    def submit(self, call, /, *given, **named):
        self.made.append(self.executor.submit(call, *given, **named))
        return self.made[-1]


def test_dask_tries_again_what_a_killed_worker_had():
    from distributed import Client, LocalCluster

    cluster = LocalCluster(n_workers=2, threads_per_worker=1, processes=True, host="127.0.0.1", dashboard_address=None)
    with cluster, Client(cluster) as client:
        executor, left = Watched(client.get_executor()), []
        victim = next(iter(cluster.workers.values())).pid

        def kill():
            while sum(it.done() for it in executor.made) < 4:
                time.sleep(0.01)
            os.kill(victim, signal.SIGKILL)
            left.append(sum(not it.done() for it in executor.made))

        killer = threading.Thread(target=kill)
        killer.start()
        found = sweep({THERE: range(5, 15), BACK: [6, 8, 10, 12]}, rules=RULES, executor=executor)
        killer.join()
        workers = [it.pid for it in cluster.workers.values()]
    assert left[0] > 10 and victim not in workers
    assert [bool(it.broken) for it in found.rows] == [a + b > 20 for a in range(5, 15) for b in [6, 8, 10, 12]]


def test_a_frame_has_a_row_for_each_variant():
    frame = sweep({THERE: [4, 15], "WORK.DT": [250, 300]}, rules=RULES, latencies={"stopping": STOPPING}).frame()
    assert list(frame.columns) == [
        THERE, "WORK.DT", "end", "stop", STOPS, "the gate is not lifted while the station works",
        "stopping.count", "stopping.waiting", "stopping.least", "stopping.median", "stopping.most",
    ]
    assert frame[STOPS].tolist() == ["kept", "kept", "broken", "broken"]
    assert frame["stopping.most"].tolist() == [10, 10, 21, 21]


def test_a_plot_marks_broken_variants(tmp_path):
    found = sweep({THERE: [4, 14, 15], BACK: [6]}, rules=RULES, latencies={"stopping": STOPPING})
    (axes,) = found.plot().axes
    assert (axes.get_xlabel(), axes.get_ylabel()) == (THERE, BACK)
    kept, broken = axes.lines
    assert (list(kept.get_xdata()), list(broken.get_xdata()), list(broken.get_ydata())) == ([4, 14], [15], [6])
    figure = found.plot(y="stopping.most")
    assert list(figure.axes[0].lines[1].get_ydata()) == [21]
    figure.savefig(tmp_path / "some.png")
    assert sweep({THERE: [4, 14]}, latencies={"stopping": STOPPING}).plot().axes[0].get_ylabel() == "stopping.most"


def test_two_parameters_make_a_map(tmp_path):
    found = sweep({THERE: [4, 14, 16], BACK: [5, 6]}, rules=RULES, latencies={"stopping": STOPPING})
    figure = found.plot()
    (cells,) = figure.axes[0].collections
    places = [path.get_extents().extents.tolist() for path in cells.get_paths()]
    # (a cell ends halfway to its neighbours: that of 4 and that of 14 at 9, that of 14 and that of 16 at 15)
    assert places[::2] == [[-1, 4.5, 9, 5.5], [9, 4.5, 15, 5.5], [15, 4.5, 17, 5.5]]
    assert len({tuple(it) for it in cells.get_facecolor()}) == 2
    assert figure._suptitle.get_text().startswith("6 variants: ")
    figure = found.plot(colour="stopping.most")
    assert figure.axes[1].get_ylabel() == "stopping.most [ms]"
    assert list(figure.axes[0].collections[0].get_array()) == found.frame()["stopping.most"].tolist()
    figure.savefig(tmp_path / "some.png")
    with pytest.raises(fbsim.InputFault, match="there is no column 'nope'"):
        found.plot(colour="nope")
    assert not found.plot(y="stopping.most").axes[0].collections


def test_jitter_is_a_table_within_its_bounds():
    one, same, other = (fbsim.jitter(1, 40, changes=8, seed=seed).table(1000) for seed in (3, 3, 4))
    assert one == same != other
    ticks, latencies = zip(*one)
    assert ticks[0] == 0 and len(one) == 9 and list(ticks) == sorted(set(ticks)) and ticks[-1] < 1000
    assert all(1 <= it <= 40 for it in latencies)
    assert len(fbsim.jitter(1, 2).table(3)) == 3
    assert fbsim.jitter(7, 7, changes=0).table(5) == [(0, 7)]
    for given in ((0, 5), (5, 4), (1, 1_000_001), (1, 2, 64)):
        with pytest.raises(fbsim.Fault, match="jitter"):
            fbsim.jitter(*given)


@pytest.mark.parametrize("parameters, fault", [
    ({"GATE": [1]}, "GATE is no parameter"),
    ({"link.LINE-STATION": [1]}, "is no parameter: these are link.A->B"),
    ({"link.LINE->GATE": [1]}, "the deployment has no such link; it has link.LINE->STATION"),
    ({"GATES.X": [1]}, "the application has no instance GATES"),
    ({"stimuli[7].tick": [1]}, "the stimuli have the rows 0 to 6"),
    ({THERE: []}, "at least one value"),
    ({}, "at least one parameter"),
])
def test_what_is_no_sweep(parameters, fault):
    with pytest.raises(fbsim.Fault, match=fault):
        sweep(parameters)


def test_a_sweep_over_what_the_application_lacks(tmp_path):
    plant = application(tmp_path, CYCLE)
    for name, missing in ((THERE, "deploy.toml"), ("stimuli[0].tick", "stimuli.csv")):
        with pytest.raises(fbsim.Fault, match=f"the application has no {missing}"):
            plant.sweep({name: [1]}, horizon=5, executor=Here())


def test_faults_of_the_inputs_come_before_any_variant(tmp_path):
    with pytest.raises(fbsim.Refused, match="E29"):
        sweep({THERE: [1]}, stimuli=[(1, "GATES.X")])
    (tmp_path / "some.rules").write_text(RULES.read_text().replace("BEHIND.CAME", "BEHIND.CANE"))
    with pytest.raises(fbsim.Refused, match="E45"):
        sweep({THERE: [1]}, rules=tmp_path / "some.rules")


def test_a_variant_that_is_refused_is_named():
    with pytest.raises(fbsim.Refused) as caught:
        sweep({THERE: [3, 0]})
    assert caught.value.number == "E12" and caught.value.__notes__ == [f"variant 1: {THERE} = 0"]
    with ProcessPoolExecutor(2) as executor, pytest.raises(fbsim.Refused) as caught:
        sweep({THERE: [3, 0]}, executor=executor)
    assert caught.value.number == "E12"


def test_a_bar_of_progress_on_a_terminal_only(capsys, monkeypatch):
    sweep({THERE: range(1, 5)})
    assert capsys.readouterr().err == ""
    monkeypatch.setattr(sys.stderr, "isatty", lambda: True)
    sweep({THERE: range(1, 5)})
    said = capsys.readouterr().err
    assert said.endswith("\r[" + "#" * 30 + "] 4 of 4 variants\n") and "1 of 4" in said


ROUND = "APPLICATION A FBS S : E_RESTART; D : E_DELAY(DT := 2); M : E_MERGE; END_FBS EVENT_CONNECTIONS "
ROUND += "S.COLD TO D.START; D.EO TO M.EI1; M.EO TO M.EI2; END_CONNECTIONS END_APPLICATION"
RULE = '[[rule]]\nname = "it starts"\nafter = "* < S.COLD"\nwithin = 9\nsee = "* > D.START"\n'


def stopping(folder, **options):
    """Sweeps an application that stops in the tick of its timer, in two of three variants."""
    (folder / "some.rules").write_text(RULE)
    plant = application(folder, ROUND)
    return plant.sweep({"D.DT": [1, 5, 2]}, horizon=5, steps=9, rules=folder / "some.rules", executor=Here(), **options)


def test_a_variant_that_stops_is_broken_unless_it_may(tmp_path):
    found, other = stopping(tmp_path), stopping(tmp_path, stops=True)
    for it in (found, other):
        assert [row.number for row in it.stopped] == [0, 2]
        assert list(it.frame().stop.isna()) == [False, True, False] and it.failed == []
    assert found.broken() == found.broken("it starts") == found.stopped and found.first_broken == found[0]
    assert other.broken() == other.broken("it starts") == [] and other.first_broken is None
    assert repr(found) == "<sweep over D.DT, variants: 3, broken: 2, stopped: 2, failed: 0>"
    assert len(found) == 3 and list(found) == found.rows
    kept, stopped = found.plot(y="D.DT").axes[0].lines
    assert (list(kept.get_xdata()), list(stopped.get_xdata())) == ([5], [1, 2])
    assert [it.get_label() for it in (kept, stopped)] == ["all rules hold", "the run stopped"]
    with pytest.raises(fbsim.InputFault, match="^there is no column 'nope'; the columns are D.DT, end, stop, it"):
        found.plot(y="nope")


def test_a_kept_variant_that_stops_has_its_status(tmp_path):
    found = stopping(tmp_path)
    found.keep(found[0], tmp_path / "kept")
    (tmp_path / "bin").mkdir()
    (tmp_path / "bin" / "mine").symlink_to(fbsim.find_program())
    env = {**os.environ, "FBSIM": "bin/mine", "PATH": "/usr/bin:/bin"}
    made = subprocess.run(["kept/run.sh"], cwd=tmp_path, env=env, capture_output=True, text=True)
    assert made.returncode == 1 and "\nok 1 - it starts\n" in made.stdout
    assert (tmp_path / "kept" / "trace").read_text().endswith("\nstop 1 MAIN steps\n")


def test_a_sweep_without_rules_does_not_say_that_they_hold():
    found = sweep({THERE: [4, 5]})
    assert [it.state for it in found] == ["there are no rules"] * 2 and not found.broken()
    assert [it.get_label() for it in found.plot(y="end").axes[0].lines] == ["there are no rules"]


def test_rows_that_variants_do_not_take_are_warned_of(tmp_path):
    where = tmp_path / "cache"
    for _ in range(2):
        with pytest.warns(fbsim.StimuliWarning) as caught:
            found = sweep({"stimuli[6].tick": [500, 800], "steps": [1, 1000]}, stops=True, cache=where)
        said = "stimuli: rows at or beyond the horizon 800: 1 of 7; the run does not take them"
        assert [str(it.message) for it in caught] == [f"in 2 of 4 variants, as variant 2: {said}"]
        assert caught[0].filename == __file__
        assert [it.warnings for it in found] == [(), (), (said,), (said,)]
        assert [it.stop and it.stop.where.split(",")[0] for it in found] == ["stop: BELT", None, "stop: BELT", None]


def test_a_variant_of_another_sweep_is_not_kept(tmp_path):
    found, other = sweep({THERE: [4]}), sweep({BACK: [4]})
    with pytest.raises(fbsim.InputFault, match=f"^this variant is of another sweep: {BACK} = 4$"):
        found.keep(other[0], tmp_path / "kept")
    with pytest.raises(fbsim.InputFault, match="is not a variant$"):
        found.keep(0, tmp_path / "kept")
    assert not (tmp_path / "kept").exists()


@pytest.mark.parametrize("rule, latencies", [
    ("end", {}), ("stop", {}), ("D.DT", {}), ("x.most", {"x": ("* < S.COLD", "* < D.EO")}),
])
def test_two_columns_of_one_name_are_a_fault(tmp_path, rule, latencies):
    (tmp_path / "some.rules").write_text(RULE.replace(RULE.split('"')[1], rule))
    options = {"rules": tmp_path / "some.rules", "latencies": latencies, "executor": Here()}
    found = application(tmp_path, ROUND).sweep({"D.DT": [5]}, horizon=5, steps=9, stops=True, **options)
    with pytest.raises(fbsim.InputFault, match=f"^two columns of the frame are '{rule}'"):
        found.frame()


def test_rules_that_apply_in_no_variant_are_named():
    # (the first parcel comes at 100: README.md of the example)
    gate = "the gate is not lifted while the station works"
    with pytest.warns(fbsim.RuleWarning, match=f"^rules that applied in none of 2 variants: '{STOPS}', '{gate}'$"):
        found = sweep({THERE: [4, 9]}, horizon=50, rules=RULES)
    assert found.unapplied == [STOPS, gate] and found.broken() == []
    assert [it.state for it in found] == ["no rule applied"] * 2
    assert repr(found).endswith(" failed: 0, rules that never applied: 2>")
    assert [it.get_label() for it in found.plot(y="end").axes[0].lines] == ["no rule applied"]


def test_a_rule_that_applies_in_one_variant_has_applied(recwarn):
    found = sweep({"horizon": [50, 800]}, rules=RULES)
    assert found.unapplied == [] and [it.state for it in found] == ["no rule applied", "all rules hold"]
    assert [it.category for it in recwarn] == [fbsim.StimuliWarning] and "never" not in repr(found)


def test_a_rule_that_there_is_not_is_a_fault(tmp_path):
    with pytest.raises(fbsim.InputFault, match="^there is no rule 'it start'; the rules are 'it starts'$"):
        stopping(tmp_path).broken("it start")
    with pytest.raises(fbsim.InputFault, match="^there is no rule 'x'; the rules are none$"):
        sweep({THERE: [1]}).broken("x")


def test_values_of_numpy_are_taken():
    found = sweep({
        THERE: numpy.arange(5, 15, 5), BACK: [numpy.array([[0, 9], [180, 1]])], "WORK.DT": numpy.array([250]),
        "stimuli[4].COVERED": numpy.array([True]), "horizon": numpy.array([700], dtype=numpy.uint16),
    })
    assert [it.parameters[THERE] for it in found] == [5, 10] and type(found[0].parameters[THERE]) is int
    plain = sweep({
        THERE: [5, 10], BACK: [[(0, 9), (180, 1)]], "WORK.DT": [250], "stimuli[4].COVERED": [True], "horizon": [700],
    })
    assert found.rows == plain.rows and found.rows[1].end == 700


@pytest.mark.parametrize("parameters, fault", [
    ({"horizon": ["800"]}, "horizon is '800', and not a whole number"),
    ({"stimuli[0].tick": [1.5]}, r"stimuli\[0\].tick is 1.5, and not a whole number"),
    ({"stimuli[0].COVERED": ["T#1ms"]}, "'T#1ms' is no value of a row"),
    ({THERE: [object()]}, "is no latency"),
    ({THERE: 5}, "its values are a list, and not 5"),
    ({THERE: "567"}, "its values are a list, and not '567'"),
])
def test_values_that_are_none(parameters, fault):
    with pytest.raises(fbsim.InputFault, match=fault) as caught:
        sweep(parameters)
    is_of_variant = isinstance(next(iter(parameters.values())), list)
    assert not is_of_variant or caught.value.__notes__[0].startswith("variant 0: ")


@pytest.mark.parametrize("given", [("LINE < BEHIND.CAME",), "LINE < BEHIND.CAME", ("a", "b", "c", "d"), (1, 2), None])
def test_latencies_that_are_none(given):
    with pytest.raises(fbsim.InputFault, match="^latencies x: .* is not .pattern, pattern. or "):
        sweep({THERE: [1]}, latencies={"x": given})
    with pytest.raises(fbsim.InputFault, match="is no pattern"):
        sweep({THERE: [1]}, latencies={"x": ("LINE < BEHIND.CAME", "LINE")})


def test_other_arguments_that_are_none(tmp_path):
    with pytest.raises(fbsim.InputFault, match='^on_error is \'stop\', and not "raise" or "keep"$'):
        sweep({THERE: [1]}, on_error="stop")
    with pytest.raises(fbsim.FileFault, match="rules .*no.rules"):
        sweep({THERE: [1]}, rules=tmp_path / "no.rules")
    with pytest.raises(fbsim.InputFault, match="timeout is 0"):
        sweep({THERE: [1]}, timeout=0)
    (tmp_path / "a file").touch()
    for name in (5, "a\0b"):
        with pytest.raises(fbsim.InputFault, match="^a cache is named by "):
            sweep({THERE: [4]}, cache=name)
    with pytest.raises(fbsim.InputFault, match="the cache .*/a file can't be made"):
        sweep({THERE: [1]}, cache=tmp_path / "a file")


def test_each_fault_names_its_variant(tmp_path):
    """Also those of latencies, and those by other processes."""
    first = {"x": ("* < GATE.LIFT", "* > BEFORE.SENSE", "queue")}
    for executor in (Here(), None):
        with pytest.raises(fbsim.InputFault, match="comes before") as caught:
            sweep({THERE: [3]}, latencies=first, executor=executor)
        assert caught.value.__notes__ == [f"variant 0: {THERE} = 3"]
        with pytest.raises(fbsim.Refused) as caught:
            sweep({THERE: [3, 0]}, executor=executor)
        assert caught.value.__notes__ == [f"variant 1: {THERE} = 0"]


def test_no_text_names_a_folder_that_is_gone(tmp_path):
    with pytest.raises(fbsim.Refused) as caught:
        sweep({THERE: [0]})
    assert caught.value.file == "deploy.toml" and str(caught.value).splitlines()[1].startswith("deploy.toml:")
    one, same = stopping(tmp_path), stopping(tmp_path)
    assert one.rows == same.rows and "/" not in one[0].stop.where
    text = "FUNCTION_BLOCK D EVENT_INPUT GO; END_EVENT VAR_INPUT N : INT; END_VAR VAR M : INT; END_VAR\n"
    text += "EC_STATES I; R : X; END_STATES\n"
    text += "EC_TRANSITIONS I TO R := GO; END_TRANSITIONS ALGORITHM X IN ST: M := 5 / N; END_ALGORITHM\n"
    text += "END_FUNCTION_BLOCK APPLICATION A FBS X : D; END_FBS END_APPLICATION"
    plant = application(tmp_path, text)
    found = plant.sweep({"X.N": [1, 0]}, [(0, "X.GO")], horizon=5, executor=Here())
    assert [it.stop and it.stop.where.partition(": ")[0] for it in found] == [None, "application.iec:3:72"]


def test_faults_can_be_kept(tmp_path):
    found = sweep({THERE: [3, 0, 9]}, rules=RULES, latencies={"stopping": STOPPING}, on_error="keep")
    assert [it.number for it in found.failed] == [1] and [it.state for it in found][1] == "it failed"
    fault = found[1].fault
    assert (fault.number, found[1].end, found[1].latencies) == ("E12", None, {})
    assert found.broken() == found.broken(STOPS) == [found[1]]
    frame = found.frame()
    assert list(frame.columns)[-1] == "fault" and list(frame.fault.isna()) == [True, False, True]
    assert frame[STOPS].tolist()[::2] == ["kept", "kept"]
    assert found.plot(y="end").axes[0].get_legend() is not None


def test_rows_come_one_after_another(tmp_path):
    app, stimuli = CONVEYOR.application, CONVEYOR.stimuli
    rows = app.variants({THERE: [4, 9, 15]}, stimuli, horizon=800, rules=RULES, executor=Here())
    found = {it.number: it.broken for it in (next(rows), *rows)}
    assert found == {0: [], 1: [], 2: [STOPS]}
    with pytest.raises(fbsim.InputFault, match="at least one parameter"):
        app.variants({}, horizon=800)
    with ThreadPoolExecutor(2) as executor:
        some = app.variants({THERE: range(1, 41)}, stimuli, horizon=800, executor=executor)
        assert next(some).end == 800
        some.close()


class Counting(Here):
    """An executor of this process that counts variants, and breaks off after some."""

    def __init__(self, most=1000):
        self.most, self.count = most, 0

    def submit(self, call, plan, batch):
        self.count += len(batch)
        if self.count > self.most:
            made = Future()
            made.set_exception(KeyboardInterrupt())
            return made
        return super().submit(call, plan, batch)


def test_a_sweep_with_a_cache_goes_on_where_it_was_broken_off(tmp_path):
    options = {"rules": RULES, "latencies": {"stopping": STOPPING}, "cache": tmp_path / "cache"}
    parameters = {THERE: range(8, 14), BACK: [8, 9]}
    with pytest.raises(KeyboardInterrupt):
        sweep(parameters, executor=Counting(7), **options)
    rest, again = Counting(), Counting()
    found, same = sweep(parameters, executor=rest, **options), sweep(parameters, executor=again, **options)
    assert (rest.count, again.count) == (5, 0)
    plain = sweep(parameters, rules=RULES, latencies={"stopping": STOPPING})
    assert found.rows == same.rows == plain.rows and found.frame().equals(plain.frame())
    # A wider sweep runs what is new.
    more = Counting()
    assert len(sweep({THERE: range(8, 15), BACK: [8, 9]}, executor=more, **options)) == 14 and more.count == 2


def test_a_cache_asks_for_all_that_a_variant_depends_on(tmp_path, monkeypatch):
    (tmp_path / "some.rules").write_text(RULE)
    (tmp_path / "lib.iec").write_text("")
    plant = application(tmp_path, ROUND)

    def count(**changed):
        executor, options = Counting(), {"horizon": 9, "steps": 9, "rules": tmp_path / "some.rules", **changed}
        fbsim.Application(plant.declaration, types=options.pop("types", [])).sweep(
            {"D.DT": [1, 5]}, options.pop("stimuli", None), cache=tmp_path / "cache", executor=executor, **options)
        return executor.count

    changes = [
        {}, {"horizon": 8}, {"steps": 8}, {"types": [tmp_path / "lib.iec"]}, {"stimuli": [(3, "D.STOP")]},
        {"latencies": {"x": ("* < S.COLD", "* < D.EO")}}, {"latencies": {"x": ("* < S.COLD", "* < D.EO", "next")}},
        {"rules": None},
    ]
    for _ in range(2):
        assert [count(**it) for it in changes] == [2] * len(changes)
        assert [count(**it) for it in changes] == [0] * len(changes)
        (tmp_path / "plant.iec").write_text(ROUND + "\n")
    (tmp_path / "some.rules").write_text(RULE + "\n")
    assert (count(), count()) == (2, 0)
    # Another version of the program, and a file that is damaged.
    monkeypatch.setattr("fbsim.cache.version", lambda of_package=False: "fbsim 1.0.1")
    assert (count(), count()) == (2, 0)
    for it in (tmp_path / "cache").iterdir():
        it.write_bytes(it.read_bytes()[:-9])
    assert (count(), count()) == (2, 0)
    # Files that somebody has changed.
    for it in (tmp_path / "cache").iterdir():
        it.unlink()
    assert (count(), count()) == (2, 0)
    for change in ({"verdicts": []}, {"end": 5}, {"latencies": {"x": {}}}, {"sum": ""}):
        for it in (tmp_path / "cache").iterdir():
            it.write_text(json.dumps(json.loads(it.read_text()) | change))
        assert (count(), count()) == (2, 0)
    for text in ("", "[]", "null", "{}"):
        for it in (tmp_path / "cache").iterdir():
            it.write_text(text)
        assert (count(), count()) == (2, 0)


def test_a_cache_keeps_stops_and_no_faults(tmp_path):
    first = stopping(tmp_path, cache=tmp_path / "cache")
    again = stopping(tmp_path, cache=tmp_path / "cache")
    assert again.rows == first.rows and again[0].stop.where and len(list((tmp_path / "cache").iterdir())) == 3
    options = {"on_error": "keep", "cache": tmp_path / "other"}
    counts = []
    for _ in range(2):
        executor = Counting()
        found = sweep({THERE: [0, 1, 2]}, executor=executor, **options)
        assert [bool(it.fault) for it in found] == [True, False, False]
        counts.append(executor.count)
    assert counts == [3, 1]


def test_a_variant_that_takes_too_long_is_named(tmp_path, monkeypatch):
    """The program hangs in the run of one variant."""
    real = fbsim.find_program()
    hangs = f"if grep -q '= 9$' deploy.toml; then echo $$ > {tmp_path}/pid; sleep 1000; true; fi"
    text = f'case "$*" in run*) {hangs} ;; esac'
    monkeypatch.setenv("FBSIM", program(tmp_path, f'{text}\nexec {real} "$@"'))
    with pytest.raises(fbsim.TimedOut, match="^fbsim run took over 1.5 seconds, and was ended$") as caught:
        sweep({THERE: [3, 9]}, timeout=1.5)
    assert caught.value.__notes__ == [f"variant 1: {THERE} = 9"]
    assert has_ended(int((tmp_path / "pid").read_text()))
    found = sweep({THERE: [3, 9, 4]}, timeout=1.5, on_error="keep")
    assert [type(it.fault) for it in found] == [type(None), fbsim.TimedOut, type(None)]


def test_processes_that_end_are_a_fault_that_says_what_to_do():
    with pytest.raises(fbsim.Fault, match="^a process of the sweep ended: put the sweep under .*__main__"):
        sweep({Dies(): [1], THERE: [1]}, executor=None)


class Dies(str):
    """The name of a parameter with which a process ends."""

    def __new__(cls):
        return super().__new__(cls, "WORK.DT")

    def __reduce__(self):
        return os._exit, (3,)


CHECKED = "\nimport multiprocessing\nassert multiprocessing.get_start_method() == 'forkserver'\n"
PROGRAM_OF_A_PAGE = re.compile(r"^`(\w+\.py)`:\n\n```python\n(.*?)^```$", re.DOTALL | re.MULTILINE)


def test_programs_of_the_page_run_with_the_start_method_forkserver(tmp_path, top):
    """As from Python 3.14 on. It is set before a program begins, so that the processes of a sweep have it too."""
    for it in (EXAMPLES / "conveyor").iterdir():
        shutil.copy(it, tmp_path)
    method = "import multiprocessing\nmultiprocessing.set_start_method('forkserver', force=True)\n"
    (tmp_path / "sitecustomize.py").write_text(method)
    env = {**os.environ, "PYTHONPATH": f"{tmp_path}:{top / 'python' / 'src'}"}
    found = PROGRAM_OF_A_PAGE.findall((top / "docs" / "PYTHON.md").read_text())
    programs = {name: text for name, text in found if "import pytest" not in text and not name.startswith("test_")}
    assert {"first.py", "sweep.py", "cluster.py", "loop.py"} <= set(programs)
    said = {}
    for name, text in programs.items():
        (tmp_path / name).write_text(text + CHECKED)
        words = [sys.executable, name]
        made = subprocess.run(words, cwd=tmp_path, env=env, capture_output=True, text=True, timeout=100)
        assert made.returncode == 0, made.stderr
        said[name] = made.stdout
    assert "variants: 49, broken: 10, stopped: 0, failed: 0" in said["sweep.py"]


@pytest.mark.parametrize("one, other", [
    (THERE, THERE.lower()), ("stimuli[0].tick", "stimuli[00].TICK"), ("WORK.DT", "work.dt"),
])
def test_two_names_of_one_parameter_are_a_fault(one, other):
    with pytest.raises(fbsim.InputFault, match="are one parameter$"):
        sweep({one: [4], other: [7]})


class Loses(Executor):
    """An executor that gives back something else than what its calls return."""

    def __init__(self, change):
        self.change = change

    def submit(self, call, /, *given, **named):
        made = Future()
        self.change(made, call(*given, **named))
        return made


def is_cancelled(made, _):
    made.cancel()
    made.set_running_or_notify_cancel()


@pytest.mark.parametrize("change, why", [
    (lambda made, rows: made.set_result(rows[1:]), "it returned others"),
    (lambda made, rows: made.set_result(rows[:-1]), "it returned others"),
    (lambda made, rows: made.set_result(rows * 2), "it returned others"),
    (lambda made, rows: made.set_result(None), "TypeError"),
    (lambda made, rows: made.set_exception(OSError("the worker has gone")), "OSError: the worker has gone"),
    (is_cancelled, "CancelledError"),
])
def test_variants_that_an_executor_loses_are_a_fault(change, why):
    what = {"rules": RULES, "executor": Loses(change)}
    with pytest.raises(fbsim.Fault, match=f"^the executor did not run variant 0: {why}") as caught:
        sweep({THERE: [9]}, **what)
    assert caught.value.__notes__ == [f"variant 0: {THERE} = 9"]
    found = sweep({THERE: [9, 10]}, on_error="keep", **what)
    assert len(found) == len(found.failed) == len(found.broken(STOPS)) == 2
    with pytest.raises(fbsim.Fault, match=why):
        list(CONVEYOR.application.variants({THERE: [9]}, CONVEYOR.stimuli, horizon=800, executor=Loses(change)))


def test_a_batch_that_is_lost_names_its_variants():
    with pytest.raises(fbsim.Fault, match="^the executor did not run variants [0-9]+ to [0-9]+: it returned others$"):
        sweep({THERE: range(1, 70)}, executor=Loses(lambda made, rows: made.set_result([])))


def test_an_executor_that_takes_nothing_is_a_fault():
    with ThreadPoolExecutor(1) as executor:
        pass
    with pytest.raises(fbsim.Fault, match="^the executor takes no variants: RuntimeError: cannot schedule"):
        sweep({THERE: [9]}, executor=executor)
