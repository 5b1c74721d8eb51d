"""Tests of sessions: the plant in the loop, breaks, errors, and the run of the rows that were taken."""

import os
import signal
import subprocess
import time
import warnings

import pytest
from common import CYCLE, EXAMPLES, RING, application, has_ended, program

import fbsim

DELAY = "APPLICATION A FBS D : E_DELAY(DT := T#4ms); END_FBS END_APPLICATION"


def texts(lines):
    return [str(it) for it in lines]


def test_a_session_takes_rows_and_shows_blocks(tmp_path):
    app = application(tmp_path, DELAY)
    with app.session() as s:
        s.give(0, "D.START", {"DT": 9})
        assert texts(s.until(3)) == ["0 MAIN > D.START DT=9"]
        assert s.answer == "at 3"
        assert s.show("d") == {"DT": 9} and s.answer == "D due 9 DT=9"
        s.give(4, "D.STOP")
        assert texts(s.ask("end 20")) == ["4 MAIN > D.STOP"]
        assert (s.answer, s.stop) == ("end 20", None)
    assert s.rows == [(0, "D.START", {"DT": 9}), (4, "D.STOP", {})]
    assert app.run(s.rows, horizon=20).text() == "0 MAIN > D.START DT=9\n4 MAIN > D.STOP\nend 20\n"


def test_other_commands_are_asked(tmp_path):
    with application(tmp_path, CYCLE).session() as s:
        assert s.ask("break * < C.EO") == [] and s.answer == "break 1"
        assert texts(s.until(100)) == ["0 MAIN < S.COLD", "0 MAIN > C.START DT=3", "3 MAIN < C.EO"]
        assert s.answer == "break 1 at 3"
        assert s.ask("peek") == [] and s.answer == "next 6 MAIN"
        assert texts(s.ask("next")) == ["6 MAIN < C.EO"] and s.answer == "took 6"
        with pytest.raises(fbsim.InputFault, match="^there is no break 7$"):
            s.ask("clear 7")


def test_errors_change_nothing(tmp_path):
    with application(tmp_path, DELAY).session() as s:
        s.until(5)
        with pytest.raises(fbsim.InputFault, match="^late: tick 4 has begun$"):
            s.give(4, "D.START")
        with pytest.raises(fbsim.InputFault, match="^below 5$"):
            s.until(4)
        with pytest.raises(fbsim.Refused) as refused:
            s.give(6, "X.START")
        assert (refused.value.number, refused.value.text) == ("E29", "row 0: there is no instance X")
        with pytest.raises(fbsim.InputFault, match="is no value of a row"):
            s.give(6, "D.START", {"DT": "x y"})
        assert s.ask("end 9") == [] and s.rows == []


@pytest.mark.parametrize("end", [lambda s: s.ask("end 9"), lambda s: s.close(), lambda s: s.__exit__(None, None, None)])
def test_a_stop_is_kept_and_then_raised(tmp_path, end):
    s = application(tmp_path, RING).session(steps=2)
    assert texts(s.until(1))[0] == "0 MAIN < S.COLD"
    assert s.stop == fbsim.Stop(0, "MAIN", "steps")
    with pytest.raises(fbsim.Stopped):
        s.give(1, "M.EI1")
    with pytest.raises(fbsim.Stopped) as caught:
        end(s)
    assert (caught.value.stop, caught.value.trace) == (s.stop, s.trace) and s.trace.stop == s.stop
    s.close()


def test_a_session_that_stops_raises_it_at_its_end_unless_it_may(tmp_path):
    plant = application(tmp_path, RING)
    with pytest.raises(fbsim.Stopped), plant.session(steps=2) as s:
        pass
    assert s.trace.stop.reason == "steps"
    with plant.session(steps=2, stop=True) as s:
        assert len(s.ask("end 9")) > 0 and s.answer == "stop 0 MAIN steps"
    with pytest.raises(ZeroDivisionError), plant.session(steps=2) as s:
        s.until(1)
        1 / 0


@pytest.mark.parametrize("use, count", [
    (lambda s: s.give(4, "D.STOP"), "1: 1 of 1"), (lambda s: s.ask("end 4"), "4: 1 of 2"), (lambda s: s.until(4), None),
])
def test_rows_that_a_session_does_not_take_are_warned_of(tmp_path, use, count):
    """At the line that ends it, which has them as `use` or its `with`."""
    with warnings.catch_warnings(record=True) as found:
        warnings.simplefilter("always")
        with application(tmp_path, DELAY).session([(0, "D.START"), (4, "D.STOP")] if count != "1: 1 of 1" else ()) as s:
            use(s)
            if count is None:
                s.ask("end 5")
    said = f"stimuli: rows at or beyond the end {count}; the session did not take them"
    assert [str(it.message) for it in found] == ([] if count is None else [said])
    assert all((it.category, it.filename) == (fbsim.StimuliWarning, __file__) for it in found)


@pytest.mark.parametrize("pattern, fault", [
    ("* < X.EO", "there is no instance X"), ("* < D.EI", "D has no event output EI"),
    ("B * D.*", "there is no resource B"),
    ("* > D.START DT=1 DT=2", "no value of DT meets all conditions on it"), ("* > D.START N=1", "has no variable N"),
])
def test_a_break_with_a_name_that_nothing_has_is_a_fault(tmp_path, pattern, fault):
    with application(tmp_path, DELAY).session() as s:
        with pytest.raises(fbsim.InputFault, match=fault):
            s.ask(f" break  {pattern}")
        assert s.ask("break  * < d.eo") == [] and s.answer == "break 1"


def test_first_stimuli_are_rows(tmp_path):
    (tmp_path / "first.csv").write_text("tick,event,values\n2,D.START,DT=1\n")
    app = application(tmp_path, DELAY)
    with app.session(tmp_path / "first.csv") as s:
        s.give(3, "D.STOP")
    with app.session(s.rows) as other:
        assert texts(other.ask("end 9")) == ["2 MAIN > D.START DT=1", "3 MAIN > D.STOP"]
    assert other.rows == s.rows == [(2, "D.START", {"DT": 1}), (3, "D.STOP", {})]


def test_faults_of_the_beginning_are_raised(tmp_path):
    with pytest.raises(fbsim.Refused, match="E03"), application(tmp_path, "APPLICATION").session():
        pass
    with pytest.raises(fbsim.FileFault), fbsim.Application(tmp_path / "missing.iec").session():
        pass


def test_a_refusal_at_the_beginning_has_its_place(tmp_path):
    plant = application(tmp_path, DELAY)
    with pytest.raises(fbsim.FileFault) as missing:
        plant.session(tmp_path / "nope.csv")
    assert (missing.value.kind, missing.value.file) == ("stimuli", str(tmp_path / "nope.csv"))
    (tmp_path / "some.csv").write_text("tick,event,values\n1,D.START,\n2,X.START,\n")
    for stimuli in (tmp_path / "some.csv", [(2, "X.START")]):
        with pytest.raises(fbsim.Refused) as refused:
            plant.session(stimuli)
        assert refused.value.number == "E29"
    with pytest.raises(fbsim.Refused) as refused:
        plant.session(tmp_path / "some.csv")
    assert (refused.value.file, refused.value.line) == (str(tmp_path / "some.csv"), 3)


def test_the_plant_of_the_tank_in_the_loop():
    """The model of examples/tank/session/plant.py gives its trace."""
    app = fbsim.Application(EXAMPLES / "tank" / "tank.iec", deploy=EXAMPLES / "tank" / "session" / "deploy.toml")
    level, is_open, lines = 120000, False, []
    with app.session() as s:
        for tick in range(100, 15000, 100):
            lines += s.until(tick)
            is_open = s.show("VALVE")["OPENED"]
            level = min(level - level // 100 + (3000 if is_open else 0), 200000)
            s.give(tick, "PROBE.PLANT", {"RAW": level * 4095 // 200000})
        lines += s.ask("end 15000")
    kept = (EXAMPLES / "tank" / "session" / "trace").read_text()
    assert "".join(f"{it}\n" for it in lines) + "end 15000\n" == kept
    assert app.run(s.rows, horizon=15000).text() == kept


def test_nothing_is_kept_back_in_the_body(tmp_path):
    """Also not the exceptions that the pipes of the session raise themselves."""
    plant = application(tmp_path, DELAY)
    for kind in (AssertionError, BrokenPipeError, ValueError, KeyboardInterrupt, fbsim.InputFault):
        with pytest.raises(kind, match="^mine$"), plant.session() as s:
            raise kind("mine")
        assert s.is_broken_off and "broken off" in repr(s)


@pytest.mark.parametrize("call", [
    lambda s: s.show("D"), lambda s: s.until(20), lambda s: s.give(9, "D.START"), lambda s: s.ask("help"),
])
def test_a_call_after_the_end_is_a_fault(tmp_path, call):
    with application(tmp_path, DELAY).session() as s:
        s.ask("end 9")
        with pytest.raises(fbsim.InputFault, match="^the session has ended: '.*' comes too late$"):
            call(s)
    with pytest.raises(fbsim.InputFault, match="has ended"):
        call(s)
    assert (s.end, s.answer) == (9, "end 9")


def test_a_session_without_with_is_closed_once_or_twice(tmp_path):
    s = application(tmp_path, DELAY).session()
    assert s.give(0, "D.START", {"DT": 9}) is None
    assert texts(s.ask("next")) == ["0 MAIN > D.START DT=9"]
    s.close()
    s.close()
    # (the least tick is the one after the last event)
    assert (s.end, s.stop, s.trace.text()) == (1, None, "0 MAIN > D.START DT=9\nend 1\n")


def test_help_and_blanks_leave_the_answers_in_step(tmp_path):
    with application(tmp_path, DELAY).session() as s:
        assert s.ask("help") == []
        assert len(s.answer.splitlines()) == 9 and s.answer.splitlines()[-1] == "help: these lines"
        assert s.ask(" help  ") == [] and s.answer.startswith("give TICK")
        with pytest.raises(fbsim.InputFault, match="^expected help$"):
            s.ask("help me")
        for command, answer in [
            ("  give 0 D.START DT=9", "row 0 0,D.START,DT=9"), ("give  1   D.STOP", "row 1 1,D.STOP,"),
            (" peek", "next 0 MAIN"),
        ]:
            assert s.ask(command) == [] and s.answer == answer
        for command in ("", "  ", "help\t", "give\t5 D.START"):
            with pytest.raises(fbsim.InputFault, match="^expected a command"):
                s.ask(command)
        assert texts(s.until(3)) == ["0 MAIN > D.START DT=9", "1 MAIN > D.STOP"] and s.answer == "at 3"


@pytest.mark.parametrize("feed", ["\n", "\r", "\r\n"])
def test_a_word_with_a_line_feed_is_not_sent(tmp_path, feed):
    with application(tmp_path, DELAY).session() as s:
        tries = [
            lambda: s.give(5, f"D.START{feed}until 100"), lambda: s.give(5, "D.START", {f"DT=3{feed}until 100 ": 4}),
            lambda: s.show(f"D{feed}peek"), lambda: s.ask(f"peek{feed}"),
        ]
        for call in tries:
            with pytest.raises(fbsim.InputFault, match="it is a text of one line"):
                call()
        assert s.until(7) == [] and s.answer == "at 7" and s.show("D") == {"DT": 4}


@pytest.mark.parametrize("tick", ["5", "5 D.START", 5.0, None, True])
def test_a_tick_is_a_whole_number(tmp_path, tick):
    with application(tmp_path, DELAY).session() as s:
        for call in (lambda: s.until(tick), lambda: s.give(tick, "D.START")):
            with pytest.raises(fbsim.InputFault, match="^tick is .*, and not a whole number$"):
                call()


@pytest.mark.parametrize("text, kind, said", [
    ("exit 0", fbsim.ProgramFault, "^the program ended with status 0 and without its answer$"),
    ("echo 'the moon is full' >&2; exit 1", fbsim.ProgramFault, "status 1 .*: the moon is full$"),
    ("echo 'no such option' >&2; exit 5", fbsim.InputFault, "^no such option$"),
    ("echo 'out of memory' >&2; exit 4", fbsim.OutOfMemory, "out of memory"),
    ("kill -9 $$", fbsim.ProgramFault, "signal 9"),
])
def test_a_program_that_ends_at_once_is_a_fault_with_its_message(tmp_path, monkeypatch, text, kind, said):
    monkeypatch.setenv("FBSIM", program(tmp_path, text))
    with pytest.raises(kind, match=said), application(tmp_path, DELAY).session():
        pass


def test_a_killed_program_is_a_fault_of_the_next_call(tmp_path):
    s = application(tmp_path, DELAY).session()
    os.kill(s._talk.process.pid, signal.SIGKILL)
    with pytest.raises(fbsim.ProgramFault, match="signal 9"):
        s.until(5)
    with pytest.raises(fbsim.InputFault, match="was broken off: 'until 6' comes too late"):
        s.until(6)
    with pytest.raises(fbsim.InputFault, match="there is no trace: the session was broken off"):
        s.trace


def test_an_answer_that_comes_too_late_ends_the_program_with_all_that_it_started(tmp_path, monkeypatch):
    text = f"echo $$ > {tmp_path}/pid; read it; echo '= nothing waits'; sleep 1000; echo no"
    monkeypatch.setenv("FBSIM", program(tmp_path, f"sh -c \"{text.replace('$', chr(92) + '$')}\"; true"))
    start = time.monotonic()
    with application(tmp_path, DELAY).session(timeout=0.3) as s:
        child = int((tmp_path / "pid").read_text())
        with pytest.raises(fbsim.TimedOut, match="^the session did not answer within 0.3 seconds, and was ended$"):
            s.until(5)
        with pytest.raises(fbsim.InputFault, match="was broken off"):
            s.until(5)
    assert time.monotonic() - start < 30
    assert has_ended(child)


@pytest.mark.parametrize("timeout", [0, -1, "5", True])
def test_a_time_limit_is_over_zero(tmp_path, timeout):
    with pytest.raises(fbsim.InputFault, match="^timeout is .*, and not a number of seconds over 0$"):
        application(tmp_path, DELAY).session(timeout=timeout)


def test_an_exception_between_a_command_and_its_answer_breaks_the_session_off(tmp_path, monkeypatch):
    """The answer would be taken for that of the next command."""
    with application(tmp_path, DELAY).session() as s:
        def interrupted(limit):
            raise KeyboardInterrupt

        monkeypatch.setattr(s._talk, "line", interrupted)
        with pytest.raises(KeyboardInterrupt):
            s.until(5)
        with pytest.raises(fbsim.InputFault, match="was broken off"):
            s.show("D")


def test_the_lines_so_far_and_the_trace_at_the_end(tmp_path):
    plant = application(tmp_path, CYCLE)
    with plant.session() as s:
        s.until(4)
        assert texts(s) == ["0 MAIN < S.COLD", "0 MAIN > C.START DT=3", "3 MAIN < C.EO"]
        assert s.where("* < C.EO").count() == 1 and s.signal("C.DT") == ([0], [3])
        assert repr(s) == f"<session of {tmp_path / 'plant.iec'}, rows: 0, goes on>"
        with pytest.raises(fbsim.InputFault, match="there is no trace: the session goes on: end it by"):
            s.trace
        s.give(4, "C.STOP")
        s.ask("end 20")
    assert s.trace.text() == "0 MAIN < S.COLD\n0 MAIN > C.START DT=3\n3 MAIN < C.EO\n4 MAIN > C.STOP\nend 20\n"
    assert s.trace == plant.run(s.rows, horizon=20) and s.trace.end == s.end == 20 and list(s) == list(s.trace)
    assert repr(s) == f"<session of {tmp_path / 'plant.iec'}, rows: 1, end 20>"


def again(folder, elsewhere):
    """Runs a saved session from another folder, by a relative name of the program."""
    (elsewhere / "bin").mkdir(parents=True, exist_ok=True)
    (elsewhere / "bin" / "mine").symlink_to(fbsim.find_program())
    env = {**os.environ, "FBSIM": "bin/mine", "PATH": "/usr/bin:/bin"}
    return subprocess.run([folder / "run.sh"], cwd=elsewhere, env=env, capture_output=True, text=True)


def test_a_saved_session_is_a_case_that_runs_anywhere(tmp_path):
    block = "FUNCTION_BLOCK F EVENT_INPUT GO; END_EVENT EC_STATES S; END_STATES END_FUNCTION_BLOCK"
    (tmp_path / "lib.iec").write_text(block)
    plant = fbsim.Application(application(tmp_path, DELAY).declaration, types=[tmp_path / "lib.iec"])
    with plant.session() as s:
        s.give(2, "D.START", {"DT": 3})
        s.ask("end 9")
    line = s.save(tmp_path / "some where" / "case")
    assert line == "fbsim run ../../plant.iec --types ../../lib.iec --stim stimuli.csv --horizon 9"
    case = tmp_path / "some where" / "case"
    assert (case / "stimuli.csv").read_text() == "tick,event,values\n2,D.START,DT=3\n"
    assert (case / "trace").read_text() == "2 MAIN > D.START DT=3\n5 MAIN < D.EO\nend 9\n"
    made = again(case, tmp_path / "elsewhere")
    assert (made.returncode, made.stdout, made.stderr) == (0, s.trace.text(), "")


def test_a_saved_session_that_stopped_stops_again(tmp_path):
    with application(tmp_path, RING).session(steps=2, stop=True) as s:
        s.until(1)
    assert s.save(tmp_path / "case").endswith("run ../plant.iec --steps 2 --stim stimuli.csv --horizon 1")
    made = again(tmp_path / "case", tmp_path / "elsewhere")
    assert made.returncode == 1 and made.stdout == s.trace.text() and made.stdout.endswith("\nstop 0 MAIN steps\n")


def test_a_session_of_more_rows_than_run_takes_says_how_it_is_repeated(tmp_path):
    plant, count = application(tmp_path, DELAY), 100_001
    with plant.session() as s:
        for tick in range(count):
            s.give(tick, "D.STOP")
        s.ask(f"end {count}")
    with pytest.raises(fbsim.InputFault, match="^100001 rows are more than the 100000 that a run takes: .* `save`"):
        plant.run(s.rows, horizon=count)
    assert s.save(tmp_path / "case") == "fbsim session ../plant.iec < commands | grep -v '^[=!]'"
    made = again(tmp_path / "case", tmp_path / "elsewhere")
    assert made.stdout == s.trace.text() and made.stdout.count("\n") == count + 1
    with plant.session(s.rows[:2]) as few, pytest.raises(fbsim.InputFault, match="the session goes on"):
        few.save(tmp_path / "few")


def test_a_session_that_is_forgotten_ends_its_program(tmp_path):
    s = application(tmp_path, DELAY).session()
    process, path = s._talk.process, s._trace.path
    del s
    assert process.poll() == -signal.SIGKILL and not path.exists()
