"""Tests of the strategies of Hypothesis."""

import pytest
from common import EXAMPLES, processor_time
from hypothesis import HealthCheck, find, given, settings
from hypothesis.errors import NoSuchExample
from hypothesis.strategies import booleans, integers

import fbsim
from fbsim.strategies import stimuli

QUIET = settings(database=None, deadline=None, derandomize=True, suppress_health_check=list(HealthCheck))
BOTTLING = EXAMPLES / "bottling"
EVENTS = {
    "LINE.START": {}, "LINE.STOP": {}, "LINE.EMERGENCY": {}, "LINE.RESET": {}, "FILL.ARRIVE": {},
    "CAP.PRESSED": {"AIR": integers(0, 100)},
}
# The gate of the filler, and the same gate that does not ask whether the line runs.
RIGHT, WRONG = "COUNTED TO PASSED := [RUN AND IS_FREE];", "COUNTED TO PASSED := [IS_FREE];"


@settings(QUIET, max_examples=100)
@given(stimuli({"A.B": {"X": booleans(), "N": integers(-5, 5)}, "C.D": {}}, integers(3, 9), min_size=1, max_size=4))
def test_stimuli_are_rows_in_the_order_of_their_ticks(rows):
    assert 1 <= len(rows) <= 4
    assert [tick for tick, _, _ in rows] == sorted(tick for tick, _, _ in rows)
    for tick, event, values in rows:
        assert 3 <= tick <= 9
        assert values == {} if event == "C.D" else (event, set(values)) == ("A.B", {"X", "N"})


def test_stimuli_shrink_to_few_with_small_values():
    some = stimuli({"A.B": {"N": integers(0, 99)}, "C.D": {}}, integers(0, 1000))
    found = find(some, lambda rows: sum(row[2].get("N", 0) > 6 for row in rows) > 1, settings=QUIET)
    assert found == [(0, "A.B", {"N": 7})] * 2


def breaks(application):
    """Returns a call that tells whether stimuli break a rule of the bottling line."""
    def is_broken(rows):
        try:
            application.run(rows, horizon=500).expect(BOTTLING / "bottling.rules")
        except fbsim.RulesBroken as it:
            assert it.broken[0].rule == "the valve stays closed while the filler knows that the line does not run"
            return True
        return False

    return is_broken


def test_a_planted_fault_is_found_in_under_a_minute_and_shrinks_to_two_stimuli(tmp_path):
    """The filler hears of the emergency at tick 40, before what a bottle of that tick causes inside the filler. So that
    bottle is let in, though nothing may move; one of tick 39 came before."""
    text = (BOTTLING / "bottling.iec").read_text()
    assert text.count(RIGHT) == 1
    (tmp_path / "wrong.iec").write_text(text.replace(RIGHT, WRONG))
    wrong = fbsim.Application(tmp_path / "wrong.iec", deploy=BOTTLING / "deploy.toml")
    assert not breaks(wrong)([(0, "LINE.EMERGENCY", {}), (39, "FILL.ARRIVE", {})])
    some = stimuli(EVENTS, integers(0, 300), max_size=6)
    start = processor_time()
    found = find(some, breaks(wrong), settings=settings(QUIET, max_examples=300))
    taken = processor_time() - start
    assert found == [(0, "LINE.EMERGENCY", {}), (40, "FILL.ARRIVE", {})]
    assert taken < 60


def test_the_bottling_line_has_no_such_fault():
    right = fbsim.Application(BOTTLING / "bottling.iec", deploy=BOTTLING / "deploy.toml")
    assert not breaks(right)([(0, "LINE.EMERGENCY", {}), (40, "FILL.ARRIVE", {})])
    some = stimuli(EVENTS, integers(0, 300), max_size=6)
    with pytest.raises(NoSuchExample):
        find(some, breaks(right), settings=settings(QUIET, max_examples=60))


@pytest.mark.parametrize("events, options", [({}, {}), ({"A.B": {}}, {"max_size": 0})])
def test_a_strategy_of_no_stimuli_is_a_fault(events, options):
    with pytest.raises(fbsim.InputFault, match="^these are always no stimuli"):
        stimuli(events, integers(0, 9), **options)
