"""Tests of the plugin: rules that a trace does not decide, and rules that no scenario decides."""

import os
import subprocess

import fbsim
import pytest
from junitparser import JUnitXml
from rooms import BENCH, RULES, SKIPPED, names

# The gate lifts for parcels 1 and 2 (README.md of the example), and never for a 77th.
NEVER = """[[rule]]
name = "the 77th parcel is worked on"
after = "STATION < GATE.LIFT TAKEN=77"
within = 1
see = "STATION < GATE.DROP"
"""
SCENARIOS = BENCH[:BENCH.index("[[sequence]]")]
BELT = "the belt stops in time"
NOTE = "no such line of the trace meets: STATION < GATE.LIFT TAKEN=77"


def junit_of(room, *words):
    """Returns the cases of the report for JUnit, by their ends of names."""
    result = room.run("--junitxml", "out.xml", *words)
    cases = list(next(iter(JUnitXml.fromfile(str(room.path / "out.xml")))))
    return result, {f"{it.classname.rpartition('.')[2]}::{it.name}": it for it in cases}


def test_a_rule_that_never_applied_is_skipped_as_the_program_says(room):
    result, cases = junit_of(room, "-v", "-rs")
    assert result.ret == 0
    assert sorted(names(result, "SKIPPED")) == sorted(SKIPPED)
    (room.path / "no.trace").write_text("end 50\n")
    words = [fbsim.find_program(), "expect", "--junit", "some.rules", "no.trace"]
    said = next(iter(JUnitXml.fromstring(subprocess.check_output(words, cwd=room.path))))
    of_program = {it.name: it.result[0].message for it in said}
    of_plugin = {name: cases[f"no parcel::{name}"].result[0].message for name in of_program}
    assert of_program == {name: "never applied" for name in of_program}
    assert all(it.startswith("never applied; no line of the trace is of: ") for it in of_plugin.values())
    # (the second scenario begins in line 11 of the file)
    result.stdout.fnmatch_lines(["SKIPPED [[]1[]] *fbsim.toml:11: never applied; no line of the trace is of: LINE < *"])


def test_an_undecided_rule_is_skipped(room):
    # The second beam comes at 180, and the belt has until 200.
    room.write("fbsim.toml", BENCH.replace("horizon = 50", 'horizon = 186\nstim = "stimuli.csv"'))
    result, cases = junit_of(room)
    result.assert_outcomes(passed=9, skipped=1)
    assert cases[f"no parcel::{BELT}"].result[0].message.startswith("undecided")


def test_a_rule_that_no_scenario_decides_is_a_failure(room):
    room.write("some.rules", NEVER + RULES)
    result = room.run("-v")
    result.assert_outcomes(passed=8, failed=1, skipped=4)
    assert names(result, "FAILED") == ["applied::the 77th parcel is worked on"]
    result.stdout.fnmatch_lines([
        "the 77th parcel is worked on: applied in none of 2 scenarios",
        f"two parcels: never applied; {NOTE}", "no parcel: never applied; no line of the trace is of: *",
        'if it need not apply: unapplied = [[]"the 77th parcel is worked on"[]] in fbsim.toml',
    ])


@pytest.mark.parametrize("words", [("-k", "applied and 77th"), ("-n", "2"), ("-n", "2", "-k", "77th")])
def test_it_is_a_failure_also_if_it_is_the_only_test_or_in_another_process(room, words):
    room.write("some.rules", NEVER + RULES)
    result = room.run(*words)
    assert result.ret == 1
    result.stdout.fnmatch_lines(["the 77th parcel is worked on: applied in none of 2 scenarios"])
    assert result.parseoutcomes()["failed"] == 1


def test_a_rule_that_need_not_apply(room):
    room.write("some.rules", NEVER + RULES)
    room.write("fbsim.toml", 'unapplied = ["the 77th parcel is worked on"]\n' + BENCH)
    room.run().assert_outcomes(passed=8, skipped=4)
    room.write("fbsim.toml", 'unapplied = ["the 77th parcel"]\n' + BENCH)
    result = room.run()
    result.assert_outcomes(errors=1)
    result.stdout.fnmatch_lines(["*fbsim.toml: unapplied: there is no rule 'the 77th parcel' in */some.rules"])


def test_a_broken_rule_has_applied(room):
    room.change("deploy.toml", "latency = 4", "latency = 15")
    result = room.run("-v", "-k", "belt")
    assert names(result, "FAILED") == [f"two parcels::{BELT}"]
    assert names(result, "PASSED") == [f"applied::{BELT}"]


def test_a_scenario_may_not_take_the_name_of_these_tests(room):
    room.change("fbsim.toml", "no parcel", "applied")
    result = room.run()
    result.assert_outcomes(errors=1)
    result.stdout.fnmatch_lines(["*fbsim.toml: there are two with the name applied: *"])


def test_without_scenarios_there_is_nothing_to_apply_in(room):
    room.write("fbsim.toml", 'rules = "some.rules"\n' + BENCH[BENCH.rindex("[[sequence]]"):])
    result = room.run()
    result.assert_outcomes(passed=1, warnings=1)
    result.stdout.fnmatch_lines(["*BenchWarning: rules are checked over the traces of scenarios, and there is no *"])


def test_strict_wants_each_rule_decided_in_each_scenario(room):
    room.write("fbsim.toml", "strict = true\n" + BENCH)
    result = room.run("-v")
    result.assert_outcomes(passed=8, failed=2)
    assert sorted(names(result, "FAILED")) == sorted(SKIPPED)
    result.stdout.fnmatch_lines([f"{BELT}: never applied; no line of the trace is of: LINE < BEHIND.CAME*"])
    # A scenario may say so for itself, and a rule may need not apply.
    room.write("fbsim.toml", BENCH.replace("horizon = 50", "horizon = 50\nstrict = true"))
    room.run().assert_outcomes(passed=8, failed=2)
    room.write("fbsim.toml", "strict = true\n" + BENCH.replace("horizon = 50", "horizon = 50\nstrict = false"))
    room.run().assert_outcomes(passed=8, skipped=2)
    room.write("fbsim.toml", f'strict = true\nunapplied = ["{BELT}"]\n' + BENCH)
    room.run().assert_outcomes(passed=7, failed=1, skipped=1)


@pytest.mark.parametrize("key, failed", [("", 1), ('stop = "434 STATION steps"\n', 0)])
def test_a_rule_of_a_run_that_stopped_is_not_shown_to_hold(room, key, failed):
    """Also where its test alone is selected. It was decided before the stop, and could break after it."""
    room.change("fbsim.toml", 'reference = "trace"\n', f"steps = 5\n{key}")
    result = room.run("-k", "parcels and belt")
    result.assert_outcomes(passed=1 - failed, failed=failed, deselected=9)
    if failed:
        result.stdout.fnmatch_lines(["the run stopped, so nobody knows whether *", "stop 434 STATION steps"])


def test_the_coverage_of_a_run_that_stopped_is_not_known(room):
    room.change("fbsim.toml", 'reference = "trace"\n', "steps = 5\n")
    room.change("fbsim.toml", "horizon = 50\n", "horizon = 50\nsteps = 5\n")
    room.write("fbsim.toml", "coverage = 1\n" + (room.path / "fbsim.toml").read_text())
    result = room.run("-k", "coverage")
    result.assert_outcomes(failed=1, deselected=10)
    result.stdout.fnmatch_lines(["two parcels: its run failed, so nobody knows what it covers"])


def test_rows_that_the_run_does_not_take_are_shown(room):
    # Of the seven rows, those of 186, 460, 470 and 500 are late.
    room.write("fbsim.toml", BENCH.replace("horizon = 800", "horizon = 186").replace('reference = "trace"\n', ""))
    said = "two parcels: stimuli: rows at or beyond the horizon 186: 4 of 7; the run does not take them"
    for words in ((), ("-n", "2"), ("-k", "applied")):
        result = room.run(*words)
        result.stdout.fnmatch_lines([f"*BenchWarning: {said}"])
        # (the belt has until 200, so its rule is undecided in the one scenario and never applied in the other)
        assert result.ret == 1 and result.parseoutcomes()["failed"] == 1
    result = room.run("-W", "error::fbsim.pytest_plugin.BenchWarning", "-v")
    assert "two parcels::run" in names(result, "FAILED")
    result.stdout.fnmatch_lines([said])


COUNTS = """#!/bin/sh
[ "$1" = run ] && { echo run; ls "$TMPDIR" | grep -c 'fbsim-.*trace'; } >> "$LOG"
exec "$REAL" "$@"
"""


@pytest.fixture
def counted(room, monkeypatch):
    """A program that notes each run, and the temporary traces that there are before it."""
    (room.path / "counts.sh").write_text(COUNTS)
    (room.path / "counts.sh").chmod(0o755)
    (room.path / "tmp").mkdir()
    settings = {"REAL": fbsim.find_program(), "LOG": "log", "TMPDIR": "tmp", "FBSIM": "counts.sh"}
    for name, it in settings.items():
        monkeypatch.setenv(name, it if name == "REAL" else os.fspath(room.path / it))
    return lambda: (room.path / "log").read_text().split()


def test_a_scenario_is_run_once_and_its_trace_goes_when_it_is_judged(room, counted):
    room.write("fbsim.toml", SCENARIOS + '\n[[scenario]]\nname = "again"\nstim = "stimuli.csv"\nreference = "trace"\n')
    result = room.pytester.runpytest_subprocess("-p", "pytest_fbsim", "-p", "no:cacheprovider", "-q")
    result.assert_outcomes(passed=9, skipped=2)
    assert counted() == ["run", "1"] * 3


def test_a_failed_scenario_is_not_run_again_for_each_rule(room, counted):
    room.write("fbsim.toml", SCENARIOS.replace("stimuli.csv", "stimulus.csv"))
    result = room.pytester.runpytest_subprocess("-p", "pytest_fbsim", "-p", "no:cacheprovider", "-q")
    result.assert_outcomes(passed=1, failed=5, skipped=2)
    assert counted()[::2] == ["run"] * 2
    result.stdout.fnmatch_lines(["two parcels: its run failed", "no parcel: never applied; *"])
