"""Tests of the plugin: how a scenario must end, the coverage of all scenarios, and warnings of the application."""

import time

import fbsim
import pytest
from common import CYCLE, RING, program
from rooms import BENCH

STOPS = 'decl = "{}.iec"\nhorizon = 8\n[[scenario]]\nname = "it"\nsteps = {}\n{}\n'


def run_stops(room, name, steps, *keys):
    """Runs a bench with one scenario with these keys."""
    room.write("ring.iec", RING)
    room.write("cycle.iec", CYCLE)
    room.write("slip.iec", CYCLE.replace("C.START", "C.STAR"))
    room.write("broken.iec", CYCLE.replace("END_FBS", ""))
    room.write("late.csv", "tick,event,values\n0,C.START,DX=4\n")
    room.write("fbsim.toml", STOPS.format(name, steps, "\n".join(keys)))
    return room.run()


@pytest.mark.parametrize("name, steps, status, said", [
    ("ring", 5, 1, None),
    ("ring", 5, 0, "the run has status 1, and not 0: stop 0 MAIN steps"),
    ("cycle", 5, 1, "the run has status 0, and not 1: end 8"),
    ("slip", 5, 2, None),
    ("slip", 5, 0, "refused E21"),
    ("slip", 5, 1, "refused E21"),
    ("ring", 5, 2, "the run has status 1, and not 2: stop 0 MAIN steps"),
    ("cycle", 0, 2, "error: invalid value '0' for '--steps*"),
])
def test_the_status_of_a_scenario(room, name, steps, status, said):
    result = run_stops(room, name, steps, f"status = {status}")
    result.assert_outcomes(passed=said is None, failed=said is not None, warnings=said is None)
    result.stdout.fnmatch_lines([f"*{said or '1 passed'}*"])


@pytest.mark.parametrize("name, status, said", [
    ("ring", 1, 'it: status = 1 is any stop: write stop = "steps" or stop = "0 MAIN steps"'),
    ("slip", 2, 'it: status = 2 is any refusal: write refused = "E21"'),
])
def test_a_status_alone_warns_and_names_the_key_that_says_more(room, name, status, said):
    result = run_stops(room, name, 5, f"status = {status}")
    result.assert_outcomes(passed=1, warnings=1)
    result.stdout.fnmatch_lines([f"*BenchWarning: {said}"])


@pytest.mark.parametrize("name, keys, said", [
    ("slip", ['refused = "E21"'], None),
    ("slip", ['refused = "E21"', "status = 2"], None),
    ("slip", ['refused = "E29"'], "the inputs are refused by E21, and not by E29:"),
    ("broken", ['refused = "E03"'], None),
    ("broken", ['refused = "E21"'], "the inputs are refused by E03, and not by E21:"),
    ("cycle", ['stim = "late.csv"', 'refused = "E29"'], None),
    ("slip", ['stim = "late.csv"', 'refused = "E29"'], "the inputs are refused by E21, and not by E29:"),
    ("cycle", ['refused = "E21"'], "the run has status 0, and not 2: end 8"),
    ("cycle", ['stim = "no.csv"', 'refused = "E29"'], "file fault: stimuli *no.csv: *"),
    ("ring", ['stop = "steps"'], None),
    ("ring", ['stop = "steps"', "status = 1"], None),
    ("ring", ['stop = "0 MAIN steps"'], None),
    ("ring", ['stop = "range"'], "the run does not stop as it must, by range:"),
    ("ring", ['stop = "1 MAIN steps"'], "the run does not stop as it must, by 1 MAIN steps:"),
    ("ring", ['stop = "0 SIDE steps"'], "the run does not stop as it must, by 0 SIDE steps:"),
    ("cycle", ['stop = "steps"'], "the run has status 0, and not 1: end 8"),
    ("slip", ['stop = "steps"'], "refused E21"),
])
def test_how_a_scenario_must_end(room, name, keys, said):
    result = run_stops(room, name, 5, *keys)
    result.assert_outcomes(passed=said is None, failed=said is not None)
    result.stdout.fnmatch_lines([f"*{said or '1 passed'}*"])


@pytest.mark.parametrize("keys, said", [
    (['refused = "29"'], "refused is no number of a refusal, as E29: '29'"),
    (['refused = "E03 line 5"'], "refused is no number of a refusal, as E29: 'E03 line 5'"),
    (['stop = "step"'], 'stop is neither steps, divide or range nor a whole stop, as "2600 SORTER range"'),
    (['stop = "MAIN steps"'], 'stop is neither steps, divide or range nor a whole stop, as "2600 SORTER range"'),
    (['stop = "steps"', 'refused = "E21"'], "a run is refused (status 2), or it stops (status 1), or it ends: *"),
    (['stop = "steps"', "status = 0"], "a run is refused (status 2), or it stops (status 1), or it ends: *"),
    (['refused = "E21"', "status = 1"], "a run is refused (status 2), or it stops (status 1), or it ends: *"),
    (['refused = "E21"', 'reference = "trace"'], "a run that is refused has no trace, and so no reference"),
    (["status = 2", 'reference = "trace"'], "a run that is refused has no trace, and so no reference"),
    (["timeout = 0"], "timeout is not a number of seconds"),
    (['timeout = "3"'], "timeout is not a number of seconds"),
])
def test_keys_of_a_scenario_that_are_wrong(room, keys, said):
    result = run_stops(room, "ring", 5, *keys)
    result.assert_outcomes(errors=1)
    result.stdout.fnmatch_lines([f"*fbsim.toml: scenario 1: {said}"])


def test_a_scenario_that_takes_too_long_is_ended_once(room, monkeypatch):
    real = fbsim.find_program()
    monkeypatch.setenv("FBSIM", program(room.path, f'[ "$1" = run ] && exec sleep 60\nexec {real} "$@"'))
    room.write("fbsim.toml", "timeout = 1.5\n" + BENCH[:BENCH.index("[[scenario]]\nname = \"no")])
    begun = time.monotonic()
    result = room.run()
    result.assert_outcomes(failed=5)
    result.stdout.fnmatch_lines(["fbsim run took over 1.5 seconds, and was ended", "two parcels: its run failed"])
    assert time.monotonic() - begun < 50


# Of the four ports with a connection, S.COLD and D.START have events at once, and D.EO and L.S at 5.
DELAY = """APPLICATION A FBS S : E_RESTART; D : E_DELAY(DT := T#5ms); L : E_SR; END_FBS
EVENT_CONNECTIONS S.COLD TO D.START; D.EO TO L.S; END_CONNECTIONS END_APPLICATION
"""
SHORT = '[[scenario]]\nname = "short"\nhorizon = 3\n'
LONG = '[[scenario]]\nname = "long"\nhorizon = 8\n'


def run_delay(room, text, *words):
    """Runs a bench of this application."""
    room.write("delay.iec", DELAY)
    room.write("fbsim.toml", f'decl = "delay.iec"\n{text}')
    return room.run(*words)


@pytest.mark.parametrize("text, said", [
    ("coverage = 50\n" + SHORT, None),
    ("coverage = 51\n" + SHORT, "50.0 percent are covered, and not 51:"),
    ("coverage = 100\n" + LONG, None),
    ("coverage = 100\n" + SHORT + LONG, None),
    ("coverage = 100\n" + SHORT + SHORT.replace("short", "again"), "  event EO was never emitted"),
    ("coverage = 100\n" + LONG + SHORT.replace("horizon = 3", 'horizon = 0'), "short: its run failed, *"),
    ("coverage = 100\n" + LONG + SHORT + "steps = 100\n", "coverage: the scenarios have different steps, *"),
])
def test_the_coverage_of_all_scenarios_is_a_test(room, text, said):
    for words in ((), ("-k", "coverage"), ("-n", "2")):
        result = run_delay(room, text, *words)
        failed = result.parseoutcomes().get("failed", 0)
        assert failed >= 1 if said else not failed
        result.stdout.fnmatch_lines([f"*{said or 'passed'}*"])


@pytest.mark.parametrize("text, said", [
    ("coverage = 101\n" + SHORT, "coverage is not a number from 1 to 100"),
    ("coverage = 0\n" + SHORT, "coverage is not a number from 1 to 100"),
    ('lint = { allow = ["L04", "all"] }\n', "lint: what allows all warnings asks for nothing"),
    ("coverage = 90\n", "there is no scenario"),
    ("coverage = 90\n" + SHORT.replace("short", "coverage"), "there are two with the name coverage: *"),
    ('lint = { denied = ["all"] }\n', "lint: unknown key denied; the keys are deny, allow"),
    ('lint = ["all"]\n', "lint is not a table"),
])
def test_keys_of_the_whole_file_that_are_wrong(room, text, said):
    result = run_delay(room, text)
    result.assert_outcomes(errors=1)
    result.stdout.fnmatch_lines([f"*fbsim.toml: {said}"])


# Only stimuli lead to EI1 and EI2, and no network has a K.
LINT = """FUNCTION_BLOCK K EVENT_INPUT R; END_EVENT EVENT_OUTPUT O; END_EVENT
EC_STATES A; B : -> O; END_STATES
EC_TRANSITIONS A TO B := R; B TO A := 1; END_TRANSITIONS
END_FUNCTION_BLOCK
APPLICATION A FBS E : E_REND; L : E_SR; END_FBS EVENT_CONNECTIONS E.EO TO L.S; END_CONNECTIONS END_APPLICATION
"""
TWO = "".join(f'[[scenario]]\nname = "{it}"\nstim = "{it}.csv"\nhorizon = 9\n' for it in ("one", "two"))


@pytest.mark.parametrize("lint, failed, said", [
    ('{ deny = ["all"] }', 1, "*L10: block type K: *"),
    ("{ }", 1, "*L10: block type K: *"),
    ('{ deny = ["all"], allow = ["L10"] }', 0, "*3 passed*"),
    ('{ allow = ["L10:K"] }', 0, "*3 passed*"),
    ('{ deny = ["L16"] }', 0, "*BenchWarning: *L10: block type K: *"),
    ('{ deny = ["L5"] }', 1, "*no warning is called L5*"),
])
def test_warnings_of_the_application_are_a_test(room, lint, failed, said):
    room.write("lint.iec", LINT)
    # (each of the stimuli alone would leave an event input to which nothing leads, L16)
    room.write("one.csv", "tick,event,values\n1,E.EI1,\n1,E.EI1,\n")
    room.write("two.csv", "tick,event,values\n0,E.EI2,\n")
    room.write("fbsim.toml", f'decl = "lint.iec"\nlint = {lint}\n{TWO}')
    result = room.run()
    result.assert_outcomes(passed=3 - failed, failed=failed, warnings="BenchWarning" in said)
    result.stdout.fnmatch_lines([said])
    result.stdout.no_fnmatch_line("*L16*")


def test_without_one_of_the_stimuli_there_is_another_warning(room):
    room.write("lint.iec", LINT)
    room.write("one.csv", "tick,event,values\n1,E.EI1,\n")
    room.write("fbsim.toml", f'decl = "lint.iec"\nlint = {{ allow = ["L10"] }}\n{TWO[:TWO.rindex("[[scenario]]")]}')
    result = room.run()
    result.assert_outcomes(passed=1, failed=1)
    result.stdout.fnmatch_lines(["*L16: *event input EI2: *"])


@pytest.mark.parametrize("key", ['unapplied = ["it"]', "strict = true"])
def test_what_is_asked_of_rules_needs_rules(room, key):
    room.change("fbsim.toml", 'rules = "some.rules"\n', f"{key}\n")
    result = room.run()
    result.assert_outcomes(errors=1)
    result.stdout.fnmatch_lines(["*unapplied and strict are about rules, and there are no rules"])


@pytest.mark.parametrize("name", ["", "  "])
def test_a_scenario_has_a_name(room, name):
    room.change("fbsim.toml", 'name = "no parcel"', f'name = "{name}"')
    room.run().assert_outcomes(errors=1)


def test_a_byte_order_mark_is_no_part_of_the_file(room):
    room.write("fbsim.toml", "\ufeff" + (room.path / "fbsim.toml").read_text())
    room.run().assert_outcomes(passed=8, skipped=2)
