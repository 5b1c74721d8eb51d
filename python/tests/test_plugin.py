"""Tests of the plugin: references, and folders with a file fbsim.toml, in runs of pytest."""

import pytest
from junitparser import Failure, JUnitXml
from rooms import PASSED, names


def test_a_folder_is_a_test_for_each_run_rule_and_sequence(room):
    result = room.run("-v")
    result.assert_outcomes(passed=8, skipped=2)
    assert names(result, "PASSED") == PASSED


def test_a_broken_rule_is_a_failure_of_its_own(room):
    room.change("deploy.toml", "latency = 4", "latency = 15")
    room.change("fbsim.toml", 'reference = "trace"\n', "")
    result = room.run("-v")
    result.assert_outcomes(passed=7, failed=1, skipped=2)
    assert names(result, "FAILED") == ["two parcels::the belt stops in time"]
    # (the second beam comes at 180, and the belt stops at 201)
    result.stdout.fnmatch_lines([
        "the belt stops in time: the expected event does not follow in time at line *, tick 180: "
        "180 LINE < BEHIND.CAME COUNT=1"
    ])


def test_another_trace_than_the_reference_shows_where_they_differ(room):
    room.change("deploy.toml", "latency = 4", "latency = 5")
    result = room.run()
    result.assert_outcomes(passed=7, failed=1, skipped=2)
    result.stdout.fnmatch_lines([
        "the trace is not that of */trace", "line 6 differs in: tick",
        "*/trace, tick 104: 104 STATION > GATE.ARRIVE ARRIVED=1", "the run, tick 105: *", "*--fbsim-bless*",
    ])


def test_a_scenario_whose_file_is_missing_is_a_failure(room):
    room.change("fbsim.toml", 'stim = "stimuli.csv"', 'stim = "stimulus.csv"')
    result = room.run()
    result.assert_outcomes(passed=3, failed=5, skipped=2)
    result.stdout.fnmatch_lines(["file fault: stimuli */stimulus.csv: no file of this name can be read"])


def test_a_broken_sequence_is_a_failure_of_its_step(room):
    room.change("fbsim.toml", 'CUO Q=FALSE CV=1', 'CUO Q=FALSE CV=2')
    result = room.run()
    result.assert_outcomes(passed=7, failed=1, skipped=2)
    result.stdout.fnmatch_lines(["step 1, CU: expected CUO Q=FALSE CV=2, came CUO Q=FALSE CV=1"])


@pytest.mark.parametrize("old, new, fault", [
    ('horizon = 800', 'horison = 800', "*fbsim.toml: unknown key horison; the keys are decl, types, *"),
    ('stim = "', 'stin = "', "*fbsim.toml: scenario 1: unknown key stin; the keys are name, stim, *"),
    ('type = "STOP_GATE"', 'typ = "STOP_GATE"', "*fbsim.toml: sequence 1: unknown key typ; the keys are type, *"),
    ('type = "STOP_GATE"\n', '', "*fbsim.toml: sequence 1: there is no type"),
    ('name = "two parcels"\n', '', "*fbsim.toml: scenario 1: there is no name"),
    ('horizon = 800', '', "*fbsim.toml: scenario 1: there is no horizon*"),
    ('horizon = 800', 'horizon = "800"', "*fbsim.toml: horizon is not a number"),
    ('horizon = 800', 'horizon = true', "*fbsim.toml: horizon is not a number"),
    ('horizon = 800', 'types = "lib.iec"', "*fbsim.toml: types is not a list of texts"),
    ('[["CU", "CUO Q=FALSE CV=1"], ["wait 500"], ', '["CU", ',
     "*fbsim.toml: sequence 2: steps is not a list of lists of texts"),
    ('horizon = 50', 'status = 7', "*fbsim.toml: scenario 2: status is not 0 *"),
    ('name = "no parcel"', 'name = "two parcels"', "*fbsim.toml: there are two with the name two parcels"),
    ('decl = "conveyor.iec"\n', '', "*fbsim.toml: there is no decl"),
    ('decl = "conveyor.iec"\n', 'decl = \n', "*fbsim.toml: Invalid value*"),
    ('rules = "some.rules"', 'rules = "no.rules"', "file fault: rules */no.rules: no file of this name can be read"),
    ('decl = "conveyor.iec"', 'decl = "convey.iec"', "file fault: declaration */convey.iec: no file*"),
])
def test_a_file_that_is_wrong_is_an_error_that_names_it(room, old, new, fault):
    room.change("fbsim.toml", old, new)
    result = room.run()
    result.assert_outcomes(errors=1)
    result.stdout.fnmatch_lines([fault])


@pytest.mark.parametrize("text", ["", 'decl = "conveyor.iec"\ndeploy = "deploy.toml"\nrules = "some.rules"\n'])
def test_a_file_without_tests_is_a_project(room, text):
    room.write("fbsim.toml", text)
    room.write("test_it.py", "def test_it():\n    pass\n")
    room.run().assert_outcomes(passed=1)


def test_rules_that_name_nothing_are_an_error(room):
    room.change("some.rules", "GATE.DROP", "GATE.DROPS")
    result = room.run()
    result.assert_outcomes(errors=1)
    result.stdout.fnmatch_lines(["refused E45", "*some.rules:10:1: 2nd rule, *: from: *"])


def test_a_sequence_needs_no_declaration(room):
    room.write("fbsim.toml", '[[sequence]]\ntype = "E_SR"\nsteps = [["S", "EO Q=TRUE"], ["S"]]\n')
    room.run().assert_outcomes(passed=1)


def test_several_processes_of_xdist_and_a_report_for_junit(room):
    room.change("deploy.toml", "latency = 4", "latency = 15")
    result = room.run("-n", "2", "--junitxml", "out.xml")
    result.assert_outcomes(passed=6, failed=2, skipped=2)
    suite = next(iter(JUnitXml.fromfile(str(room.path / "out.xml"))))
    assert (suite.tests, suite.failures, suite.errors, suite.skipped) == (10, 2, 0, 2)
    failed = {it.name: it.result[0].text for it in suite if any(isinstance(how, Failure) for how in it.result)}
    assert set(failed) == {"run", "the belt stops in time"}
    assert "180 LINE < BEHIND.CAME COUNT=1" in failed["the belt stops in time"]
    assert sorted(it.name for it in suite if not it.result)[:2] == ["E_CTU", "run"]
