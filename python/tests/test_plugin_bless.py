"""Tests of the plugin: references, their blessing, and what a failure shows."""

import pytest

MISSED = "*not blessed, since {}; --fbsim-bless=force makes it the reference*"


def changed(room):
    """Makes a message take 5 ticks, with which the rules hold, and returns the reference as it is."""
    room.change("deploy.toml", "latency = 4", "latency = 5")
    return (room.path / "trace").read_text()


def broken(room):
    """Makes a message take 15 ticks: the belt stops at 180 + 15 + 6, which is over the limit 200."""
    room.change("deploy.toml", "latency = 4", "latency = 15")
    return (room.path / "trace").read_text()


def has(room, kept):
    """Whether the reference is what it was."""
    return (room.path / "trace").read_text() == kept


def test_bless_makes_the_new_trace_the_reference_and_says_so(room):
    kept = changed(room)
    result = room.run("--fbsim-bless")
    result.assert_outcomes(passed=8, skipped=2)
    result.stdout.fnmatch_lines(["*references changed by --fbsim-bless*", "*/trace"])
    assert not has(room, kept) and "105 STATION" in (room.path / "trace").read_text()
    result = room.run("--fbsim-bless")
    result.assert_outcomes(passed=8, skipped=2)
    result.stdout.no_fnmatch_line("*references changed*")


def test_a_missing_reference_is_a_failure_and_bless_makes_it(room):
    room.change("fbsim.toml", 'reference = "trace"', 'reference = "references/two.trace"')
    result = room.run()
    result.assert_outcomes(passed=7, failed=1, skipped=2)
    result.stdout.fnmatch_lines(["there is no reference */references/two.trace: --fbsim-bless makes it"])
    room.run("--fbsim-bless").assert_outcomes(passed=8, skipped=2)
    assert (room.path / "references" / "two.trace").read_text() == (room.path / "trace").read_text()


def test_bless_with_several_processes(room):
    changed(room)
    result = room.run("-n", "2", "--fbsim-bless")
    result.assert_outcomes(passed=8, skipped=2)
    result.stdout.fnmatch_lines(["*references changed by --fbsim-bless*", "*/trace"])


@pytest.mark.parametrize("words", [(), ("-n", "2")])
def test_a_trace_that_breaks_a_rule_is_not_blessed(room, words):
    kept = broken(room)
    result = room.run("--fbsim-bless", *words)
    result.assert_outcomes(passed=6, failed=2, skipped=2)
    missed = MISSED.format("the trace breaks rules: the belt stops in time")
    result.stdout.fnmatch_lines(["line 6 differs in: tick", missed])
    result.stdout.no_fnmatch_line("*references changed*")
    assert has(room, kept)
    result = room.run("--fbsim-bless=force", *words)
    result.assert_outcomes(passed=7, failed=1, skipped=2)
    result.stdout.fnmatch_lines(["*references changed by --fbsim-bless*", "*/trace"])
    assert not has(room, kept)


@pytest.mark.parametrize("unapplied, failed, skipped", [("", 3, 3), ('unapplied = ["unmet"]\n', 0, 4)])
def test_a_strict_scenario_whose_rules_are_not_decided_is_not_blessed(room, unapplied, failed, skipped):
    kept = changed(room)
    never = '[[rule]]\nname = "unmet"\nnever = "STATION < WORK.EO"\nfrom = "STATION < GATE.LIFT TAKEN=77"\n'
    room.write("some.rules", (room.path / "some.rules").read_text() + never)
    bench = (room.path / "fbsim.toml").read_text().replace('stim =', 'strict = true\nstim =')
    room.write("fbsim.toml", unapplied + bench)
    result = room.run("--fbsim-bless")
    # (the run, the rule, and whether it applied in any scenario)
    result.assert_outcomes(passed=7 if failed else 8, failed=failed, skipped=skipped)
    if failed:
        result.stdout.fnmatch_lines([MISSED.format("the trace breaks rules: unmet")])
    assert has(room, kept) == bool(failed)


def test_rules_that_break_matter_also_if_only_the_run_is_selected(room):
    kept = broken(room)
    room.run("--fbsim-bless", "-k", "two and run").assert_outcomes(failed=1)
    assert has(room, kept)
    # (and if the run is not selected, nothing is blessed)
    room.run("--fbsim-bless=force", "-k", "two and belt").assert_outcomes(failed=1)
    assert has(room, kept)


@pytest.mark.parametrize("setting, words, failed", [
    ("true", (), 1), ("1", ("-n", "2"), 1), ("false", (), 1), ("", (), 0), ("", ("-n", "2"), 0),
])
def test_in_a_ci_engine_nothing_is_blessed(room, monkeypatch, setting, words, failed):
    kept = changed(room)
    monkeypatch.setenv("CI", setting)
    result = room.run("--fbsim-bless", *words)
    result.assert_outcomes(passed=8 - failed, failed=failed, skipped=2)
    assert has(room, kept) == bool(failed)
    if failed:
        result.stdout.fnmatch_lines([MISSED.format("the environment variable CI is set")])
        room.run("--fbsim-bless=force", *words).assert_outcomes(passed=8, skipped=2)
        assert not has(room, kept)


def test_where_nothing_changed_a_ci_engine_may_bless(room, monkeypatch):
    monkeypatch.setenv("CI", "true")
    room.run("--fbsim-bless").assert_outcomes(passed=8, skipped=2)


def test_the_option_takes_no_word_after_it(room):
    kept = changed(room)
    room.run("--fbsim-bless", "fbsim.toml").assert_outcomes(passed=8, skipped=2)
    assert not has(room, kept)
    result = room.run("--fbsim-bless=always", "fbsim.toml")
    assert result.ret == pytest.ExitCode.USAGE_ERROR


IN_PYTHON = """
import fbsim
APP = fbsim.Application("conveyor.iec", deploy="deploy.toml")
def test_the_shift(reference):
    trace = APP.run("stimuli.csv", horizon=800)
    trace.expect("some.rules")
    reference("trace").check(trace)
"""
CHECK = 'reference("trace").check(trace)'


def in_python(room, text=IN_PYTHON):
    """Makes a bench in Python, in place of the file."""
    (room.path / "fbsim.toml").unlink(missing_ok=True)
    room.write("test_it.py", text)


def test_a_bench_in_python(room):
    in_python(room)
    room.run().assert_outcomes(passed=1)
    changed(room)
    result = room.run()
    result.assert_outcomes(failed=1)
    result.stdout.fnmatch_lines(["E*the trace is not that of */trace", "E*line 6 differs in: tick", "*--fbsim-bless*"])
    room.run("--fbsim-bless").assert_outcomes(passed=1)
    room.run().assert_outcomes(passed=1)
    (room.path / "trace").unlink()
    result = room.run()
    result.assert_outcomes(failed=1)
    result.stdout.fnmatch_lines(["E*there is no reference */trace: --fbsim-bless makes it"])
    room.change("deploy.toml", "latency = 5", "latency = 15")
    result = room.run()
    result.assert_outcomes(failed=1)
    result.stdout.fnmatch_lines(["E*RulesBroken: the belt stops in time: *tick 180: 180 LINE < BEHIND.CAME COUNT=1"])


def test_a_check_in_a_ci_engine_blesses_nothing(room, monkeypatch):
    in_python(room)
    kept = changed(room)
    monkeypatch.setenv("CI", "true")
    result = room.run("--fbsim-bless")
    result.assert_outcomes(failed=1)
    result.stdout.fnmatch_lines([MISSED.format("the environment variable CI is set")])
    assert has(room, kept)
    room.run("--fbsim-bless=force").assert_outcomes(passed=1)
    assert not has(room, kept)


@pytest.mark.parametrize("after, words, outcomes", [
    ("    assert trace.count() == 0\n", (), {"failed": 1}),
    ("    assert trace.count() == 0\n", ("-n", "2"), {"failed": 1}),
    ("    __import__('pytest').skip('later')\n", (), {"skipped": 1}),
    ("    __import__('pytest').xfail('later')\n", (), {"xfailed": 1}),
])
def test_what_a_blessing_changed_is_listed_whatever_becomes_of_the_test(room, after, words, outcomes):
    in_python(room, IN_PYTHON + after)
    kept = changed(room)
    result = room.run("--fbsim-bless", *words)
    result.assert_outcomes(**outcomes)
    result.stdout.fnmatch_lines(["*references changed by --fbsim-bless*", "*/trace"])
    assert not has(room, kept)


def test_what_a_blessing_changed_is_listed_where_the_test_is_interrupted(room):
    in_python(room, IN_PYTHON + "    raise KeyboardInterrupt\n")
    kept = changed(room)
    words = ("-p", "pytest_fbsim", "-p", "no:cacheprovider", "--fbsim-bless")
    result = room.pytester.runpytest_subprocess(*words)
    assert result.ret == pytest.ExitCode.INTERRUPTED
    result.stdout.fnmatch_lines(["*references changed by --fbsim-bless*", "*/trace"])
    assert not has(room, kept)


def test_comparing_by_equality_changes_no_file(room):
    in_python(room, IN_PYTHON.replace(CHECK, 'assert trace == reference("trace")'))
    said = "*DeprecationWarning: <reference */trace> is compared by ==, which blesses nothing: use *.check(trace)"
    result = room.run()
    result.assert_outcomes(passed=1, warnings=1)
    result.stdout.fnmatch_lines([said])
    kept = changed(room)
    for words in ((), ("--fbsim-bless",), ("--fbsim-bless=force",)):
        result = room.run(*words)
        result.assert_outcomes(failed=1, warnings=1)
        result.stdout.fnmatch_lines(["E*the trace is not that of */trace", "E*line 6 differs in: tick", said])
        result.stdout.no_fnmatch_line("*references changed*")
        assert has(room, kept)


def test_a_reference_at_the_left_shows_the_difference_too(room):
    in_python(room, IN_PYTHON.replace(CHECK, 'assert reference("trace") == trace'))
    room.run().assert_outcomes(passed=1, warnings=1)
    changed(room)
    result = room.run()
    result.assert_outcomes(failed=1, warnings=1)
    result.stdout.fnmatch_lines(["E*the trace is not that of */trace", "E*line 6 differs in: tick", "E*the run, *"])


def test_two_traces_that_differ_show_where(room):
    in_python(room, IN_PYTHON.replace(CHECK, 'assert trace == APP.run("stimuli.csv", horizon=801)'))
    result = room.run()
    result.assert_outcomes(failed=1)
    result.stdout.fnmatch_lines(["E*the traces differ", "E*line 39 differs in: tick"])


@pytest.mark.parametrize("old, new", [
    (CHECK, 'reference("no.trace").check(trace)'),
    ("stimuli.csv", "stimulus.csv"),
    ("some.rules", "no.rules"),
    (CHECK, 'trace.where("GATE")'),
    (CHECK, 'fbsim.check_sequence("E_SR", [["S", "EO Q=FALSE"]])'),
    (CHECK, "trace.plot(['GATE'])"),
])
def test_a_failure_shows_the_lines_of_the_test_and_none_of_the_package(room, old, new):
    in_python(room, IN_PYTHON.replace(old, new))
    result = room.run()
    result.assert_outcomes(failed=1)
    result.stdout.fnmatch_lines(["test_it.py:*"])
    result.stdout.no_fnmatch_line("*src/fbsim/*.py:[0-9]*")


def test_a_fault_of_the_package_itself_shows_its_lines(room):
    in_python(room, IN_PYTHON.replace(CHECK, "trace.path = None\n    trace.count()"))
    result = room.run()
    result.assert_outcomes(failed=1)
    result.stdout.fnmatch_lines(["*src/fbsim/trace.py:[0-9]*"])


def test_a_reference_that_is_compared_with_nothing_is_a_failure(room):
    in_python(room, 'def test_the_shift(reference):\n    assert reference("trace")\n')
    result = room.run()
    result.assert_outcomes(failed=1)
    result.stdout.fnmatch_lines(["E*InputFault: <reference */trace> is neither true nor false: use reference(*"])


@pytest.mark.parametrize("body, said", [
    ('reference("trace")', "<reference */trace> is compared with no trace: use reference('trace').check(trace)"),
    ('assert reference("no.trace").check', "<reference */no.trace> is compared with no trace: use reference(*"),
    ('reference("trace").check(fbsim.Trace("trace"))', "*/trace is the reference and the trace: a file is always *"),
    ('reference("no.trace").check(None)', "None is not a trace"),
    ("reference(5)", "a reference is named by a text or a path, and not by 5"),
    ('reference("no.trace"); pytest.skip("later")', None), ('reference("no.trace"); pytest.xfail("later")', None),
    ('reference("trace").check(app.run("stimuli.csv", horizon=800))', None),
])
def test_a_reference_is_compared_with_a_trace_of_its_own(room, body, said):
    start = 'import fbsim\nimport pytest\napp = fbsim.Application("conveyor.iec", deploy="deploy.toml")\n'
    room.write("test_it.py", f"{start}def test_it(reference):\n    {body}\n")
    result = room.run("test_it.py", "--fbsim-bless")
    assert result.parseoutcomes().get("failed", 0) == (said is not None) and not (room.path / "no.trace").exists()
    if said is not None:
        result.stdout.fnmatch_lines([f"E*Fault: {said}"])


def test_the_module_that_was_the_plugin_before_loads_it(room):
    result = room.pytester.runpytest("-p", "fbsim.pytest_plugin", "-p", "no:cacheprovider")
    result.assert_outcomes(passed=8, skipped=2)


def test_two_traces_are_not_blessed_as_one_reference(room):
    """The first one is the reference then, so the second one is not."""
    kept = (room.path / "trace").read_text()
    room.change("fbsim.toml", 'name = "no parcel"\n', 'name = "no parcel"\nreference = "one.trace"\n')
    room.change("fbsim.toml", 'reference = "trace"', 'reference = "one.trace"')
    result = room.run("--fbsim-bless")
    result.assert_outcomes(passed=7, failed=1, skipped=2)
    result.stdout.fnmatch_lines(["*one.trace was blessed before in this run, with another trace"])
    assert (room.path / "one.trace").read_text() == kept
