"""Tests of latencies, against worked figures, numpy and datamash."""

import random
import subprocess

import numpy
import pytest
from common import EXAMPLES, trace_in

import fbsim

SHIFT = fbsim.Trace(EXAMPLES / "bottling" / "shift" / "trace")


def trace_of(folder, *events):
    """Writes a trace of events `TICK SIGN NUMBER`: > for the first, < for the second."""
    lines = []
    for it in events:
        tick, sign, number = it.split()
        lines.append(f"{tick} MAIN {sign} X.{'GO' if sign == '>' else 'DONE'} NUMBER={number}")
    return trace_in(folder, *lines, "end 1000000")


def pairs(trace, pair):
    return trace.latencies("* > X.GO", "* < X.DONE", pair=pair)


def test_a_queue_pairs_the_kth_with_the_kth(tmp_path):
    found = pairs(trace_of(tmp_path, "1 > 1", "3 > 2", "4 < 9", "8 > 3", "9 < 9", "20 > 4"), "queue")
    assert (list(found.ticks), found.waiting, found.count) == ([3, 6], 2, 2)
    assert [str(it) for it in found.most_lines] == ["3 MAIN > X.GO NUMBER=2", "9 MAIN < X.DONE NUMBER=9"]


def test_next_pairs_each_with_the_next_after_it(tmp_path):
    found = pairs(trace_of(tmp_path, "0 < 0", "1 > 1", "3 > 2", "4 < 9", "8 > 3", "9 < 9", "9 < 9", "20 > 4"), "next")
    assert (list(found.ticks), found.waiting) == ([3, 1, 1], 1)
    both = trace_of(tmp_path, "1 > 1", "4 > 1", "9 > 1").latencies("* > X.GO", "* > X.GO", pair="next")
    assert (list(both.ticks), both.waiting) == ([3, 5], 1)


def test_a_name_pairs_equal_values(tmp_path):
    found = pairs(trace_of(tmp_path, "1 > 1", "2 > 2", "3 > 1", "5 < 2", "6 < 1", "9 < 1", "9 < 7"), "number")
    assert (list(found.ticks), found.waiting) == ([3, 5, 6], 0)
    with pytest.raises(fbsim.InputFault, match='"1 MAIN > X.GO NUMBER=1" has no SERIAL'):
        pairs(trace_of(tmp_path, "1 > 1"), "SERIAL")


def test_a_second_line_before_its_first_is_a_fault(tmp_path):
    trace = trace_of(tmp_path, "1 < 1", "2 > 1", "3 < 1")
    for pair in ("queue", "NUMBER"):
        with pytest.raises(fbsim.InputFault, match='X.DONE NUMBER=1" comes before "2 MAIN > X.GO NUMBER=1"'):
            pairs(trace, pair)


def test_no_latencies(tmp_path):
    found = pairs(trace_of(tmp_path, "1 > 1"), "queue")
    assert (found.count, found.waiting, found.most_lines) == (0, 1, None)
    for call in (lambda: found.least, lambda: found.most, lambda: found.median, lambda: found.percentile(50)):
        with pytest.raises(fbsim.Fault, match="there are no latencies"):
            call()


def test_worked_figures_of_the_conveyor(conveyor):
    # (README.md of the example: 4 ms to the station, 6 ms back, 250 ms of work)
    there = conveyor.latencies("LINE < BEFORE.CAME", "STATION > GATE.ARRIVE")
    back = conveyor.latencies("STATION < GATE.DROP", "LINE > BELT.R")
    work = conveyor.latencies("STATION > WORK.START", "STATION < WORK.EO", pair="next")
    assert [(it.least, it.median, it.most, it.count) for it in (there, back, work)] == [
        (4, 4, 4, 2), (6, 6, 6, 2), (250, 250, 250, 2),
    ]


def test_bottles_of_the_shift_by_hand():
    """A filling takes what README.md says of the recipes: 1,000 ms of recipe 1, 1,500 of 2, 2,000 of 3."""
    found = SHIFT.latencies("INFEED < FILL.DOSE.OPENED", "INFEED < FILL.DOSE.CLOSED")
    assert set(found.ticks) == {1000, 1500, 2000} and found.count == 20
    assert found.most_lines[0].tick == 39500 and found.most_lines[1].tick == 41500


def drawn(count, seed):
    chance = random.Random(seed)
    return [int(chance.expovariate(0.01)) for _ in range(count)]


@pytest.mark.parametrize("count", [1, 2, 3, 10, 99, 1000])
def test_statistics_are_those_of_numpy_and_datamash(tmp_path, count):
    ticks = drawn(count, count)
    events = [(at * 7, ">", at) for at in range(count)] + [(at * 7 + it, "<", at) for at, it in enumerate(ticks)]
    events.sort(key=lambda it: (it[0], it[1] == "<"))
    found = pairs(trace_of(tmp_path, *(f"{at} {sign} {number}" for at, sign, number in events)), "NUMBER")
    assert sorted(found.ticks) == sorted(ticks)
    assert found.most == numpy.max(ticks) and found.least == numpy.min(ticks) and found.median == numpy.median(ticks)
    # (numpy takes 99.9 percent of 1000 for more than 999, so here are only numbers that it has exactly)
    for percent in [*range(101), 99.5, 12.25]:
        assert found.percentile(percent) == numpy.percentile(ticks, percent, method="inverted_cdf"), percent
    for width in (None, 1, 7, 1000):
        rows = found.histogram(width)
        counts, _ = numpy.histogram(ticks, [low for low, _, _ in rows] + [rows[-1][1]])
        assert [it for _, _, it in rows] == counts.tolist()
        assert len(rows) <= 10 or width is not None
    said = subprocess.run(
        ["datamash", "count", "1", "min", "1", "median", "1", "max", "1"],
        input="".join(f"{it}\n" for it in ticks), capture_output=True, text=True, check=True,
    ).stdout.split()
    assert [float(it) for it in said] == [found.count, found.least, found.median, found.most]


def test_percentiles_by_hand(tmp_path):
    ticks = [15, 20, 35, 40, 50]
    events = [it for k, ticks in enumerate(ticks) for it in (f"{k * 100} > 1", f"{k * 100 + ticks} < 1")]
    found = pairs(trace_of(tmp_path, *events), "queue")
    # (the worked example of the nearest rank in textbooks)
    assert [found.percentile(it) for it in (5, 30, 40, 50, 100)] == [15, 20, 20, 35, 50]
    assert found.percentile(0) == 15
    found = pairs(trace_of(tmp_path, *["0 > 1"] * 1000, *(f"{k} < 1" for k in range(1, 1001))), "NUMBER")
    assert [found.percentile(it) for it in (0.1, 0.11, 99.9, 99.91)] == [1, 2, 999, 1000]
    with pytest.raises(fbsim.Fault, match="0 to 100"):
        found.percentile(101)


def test_a_histogram_is_drawn(tmp_path):
    figure = SHIFT.latencies("INFEED < FILL.DOSE.OPENED", "INFEED < FILL.DOSE.CLOSED").plot(width=500)
    (axes,) = figure.axes
    assert [(it.get_x(), it.get_width()) for it in axes.patches] == [(1000, 500), (1500, 500), (2000, 500)]
    assert sum(it.get_height() for it in axes.patches) == 20
    figure.savefig(tmp_path / "some.png")
