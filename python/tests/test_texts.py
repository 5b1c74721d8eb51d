"""Tests of changes in the texts of an application, worked by hand."""

import pytest
from common import CYCLE, application

import fbsim
from fbsim import texts

# Comments, letter case, an instance of the same name inside a type, and instances with and without parameters.
PLANT = """(* APPLICATION A FBS C : E_CYCLE(DT := 1); END_FBS *)
FUNCTION_BLOCK T EVENT_INPUT GO; END_EVENT
FBS C : E_CYCLE(DT := T#9s); END_FBS
EVENT_CONNECTIONS GO TO C.START; END_CONNECTIONS END_FUNCTION_BLOCK // END_APPLICATION
application A
FBS S : E_RESTART; c : E_CYCLE ( Dt (* C.DT := 5; *) := T#3ms ) ; D : E_DELAY;
  U : E_CTU(PV := -2#1_0); N : Pair ( A := 1 , b := TRUE, C := T#-1s ); END_FBS
EVENT_CONNECTIONS S.COLD TO C.START; END_CONNECTIONS
END_APPLICATION
"""


@pytest.mark.parametrize("instance, parameter, value, old, new", [
    ("C", "DT", 7, ":= T#3ms )", ":= 7 )"),
    ("c", "dt", "T#1s_5ms", ":= T#3ms )", ":= T#1s_5ms )"),
    ("D", "DT", 250, "D : E_DELAY;", "D : E_DELAY(DT := 250);"),
    ("U", "PV", 3, "PV := -2#1_0)", "PV := 3)"),
    ("U", "CV", False, "-2#1_0)", "-2#1_0, CV := FALSE)"),
    ("N", "A", -1, "A := 1 ,", "A := -1 ,"),
    ("N", "B", False, "b := TRUE,", "b := FALSE,"),
    ("N", "C", 5, "C := T#-1s )", "C := 5 )"),
    ("N", "D", "16#FF", "C := T#-1s )", "C := T#-1s , D := 16#FF)"),
])
def test_a_parameter_is_changed_at_its_instance(instance, parameter, value, old, new):
    assert PLANT.count(old) == 1
    assert texts.with_parameter(PLANT, instance, parameter, value) == PLANT.replace(old, new)


@pytest.mark.parametrize("instance, value, fault", [
    ("X", 1, "the application has no instance X"), ("E_CYCLE", 1, "no instance E_CYCLE"),
    ("C", 1.5, "1.5 is no constant"), ("C", "5); X : E_SR", "is no constant"), ("C", None, "None is no constant"),
])
def test_what_is_no_parameter(instance, value, fault):
    with pytest.raises(fbsim.Fault, match=fault):
        texts.with_parameter(PLANT, instance, "DT", value)


def test_a_declaration_without_an_application():
    with pytest.raises(fbsim.InputFault, match="C.DT: the application has no instance C"):
        texts.with_parameter("(* APPLICATION END_APPLICATION *)", "C", "DT", 1)


def test_the_program_takes_what_was_changed(tmp_path):
    for value, ticks in ((1, [1, 2, 3, 4]), ("T#2ms", [2, 4])):
        text = texts.with_parameter(CYCLE, "C", "DT", value)
        trace = application(tmp_path, text).run(horizon=5)
        assert [it.tick for it in trace.where("* < C.EO")] == ticks


DEPLOYMENT = """# links
resource = [{ device = "D", name = "A", instances = ["S", "C"] }, { device = "D", name = "b", instances = [] }]
[[link]]
from = "A"
to = "b"
latency = 5
[[link]]
from = "b"
to = "A"
latencies = [[0, 5], [7, 2]]
"""
RESOURCES = """[[resource]]
device = "D"
name = "A"
instances = ["S", "C"]

[[resource]]
device = "D"
name = "b"
instances = []

"""


def test_a_latency_is_changed_in_its_link():
    link = '[[link]]\nfrom = "{}"\nto = "{}"\n{}\n'
    back = link.format("b", "A", "latencies = [[0, 5], [7, 2]]")
    for value, text in ((9, "latency = 9"), ([(0, 3), (5, 1)], "latencies = [[0, 3], [5, 1]]")):
        expected = f"{RESOURCES}{link.format('A', 'b', text)}\n{back}"
        assert texts.with_latency(DEPLOYMENT, "a", "B", value) == expected
    there = link.format("A", "b", "latency = 5")
    assert texts.with_latency(DEPLOYMENT, "B", "A", 1) == f"{RESOURCES}{there}\n{link.format('b', 'A', 'latency = 1')}"


def test_an_unknown_link_names_those_that_there_are():
    with pytest.raises(fbsim.Fault, match="link.A->C: the deployment has no such link; it has link.A->b, link.b->A"):
        texts.with_latency(DEPLOYMENT, "A", "C", 1)
    with pytest.raises(fbsim.Fault, match="TOML 1.0"):
        texts.with_latency("[[", "A", "C", 1)


STIMULI = 'tick,event,values\r\n\n5,"A.B", X=TRUE  Y=-3 \n7,A.C,\n'


@pytest.mark.parametrize("row, key, value, expected", [
    (0, "tick", 9, ["9,A.B, X=TRUE  Y=-3 ", "7,A.C,"]),
    (1, "tick", 0, ["5,A.B, X=TRUE  Y=-3 ", "0,A.C,"]),
    (0, "y", 4, ["5,A.B,X=TRUE Y=4", "7,A.C,"]),
    (1, "Z", True, ["5,A.B, X=TRUE  Y=-3 ", "7,A.C,Z=TRUE"]),
])
def test_a_stimulus_is_changed_in_its_row(row, key, value, expected):
    assert texts.with_stimulus(STIMULI, str(row), key, value) == "\n".join(["tick,event,values", *expected, ""])


def test_a_row_that_is_not_there():
    with pytest.raises(fbsim.Fault, match=r"stimuli\[2\].tick: the stimuli have the rows 0 to 1"):
        texts.with_stimulus(STIMULI, "2", "tick", 1)
