"""Tests of service sequences."""

import pytest
from common import EXAMPLES

import fbsim
from fbsim import check_sequence

CONVEYOR = EXAMPLES / "conveyor" / "conveyor.iec"
# Sequences of event blocks, worked by hand from docs/PROFILE.md.
GOOD = [
    ("E_CTU", {"PV": 2},
     [["CU", "CUO Q=FALSE CV=1"], ["wait 500"], ["CU", "CUO Q=TRUE CV=2"], ["R", "RO Q=FALSE CV=0"]]),
    ("E_DELAY", {}, [["START DT=500"], ["wait 499"], ["wait 1", "EO"], ["START"], ["wait 3"], ["STOP"], ["wait 1000"]]),
    ("E_DELAY", {"DT": "T#5ms"}, [["START"], ["wait 5", "EO"]]),
    ("E_CYCLE", {"DT": 3}, [["START"], ["wait 9", "EO", "EO", "EO"], ["STOP"], ["wait 9"]]),
    ("E_RESTART", {}, [["wait 1", "COLD"]]),
    ("E_SR", {}, [["S", "EO Q=TRUE"], ["S"], ["R", "eo q=false"], ["R"]]),
    ("E_SWITCH", {"G": True}, [["EI", "EO1"], ["EI G=FALSE", "EO0"], ["EI", "EO0"]]),
    ("E_SPLIT", {}, [["EI", "EO1", "EO2"]]),
]


@pytest.mark.parametrize("name, parameters, steps", GOOD)
def test_event_blocks_answer_as_worked_by_hand(name, parameters, steps):
    check_sequence(name, steps, parameters=parameters)


@pytest.mark.parametrize("name, parameters, steps, fault", [
    ("E_CTU", {}, [["CU", "CUO CV=2"]], "step 1, CU: expected CUO CV=2, came CUO Q=TRUE CV=1"),
    ("E_CTU", {}, [["CU", "CUO CX=1"]], "step 1, CU: expected CUO CX=1, came CUO Q=TRUE CV=1"),
    ("E_CTU", {}, [["CU", "CUO Q=1"]], "step 1, CU: expected CUO Q=1, came CUO Q=TRUE CV=1"),
    ("E_CTU", {}, [["CU", "CUO"], ["wait 5", "RO"]], "step 2, wait 5: expected RO, came nothing"),
    ("E_CTU", {}, [["CU"]], "step 1, CU: expected nothing, came CUO Q=TRUE CV=1"),
    ("E_SPLIT", {}, [["EI", "EO2", "EO1"]], "step 1, EI: expected EO2, EO1, came EO1, EO2"),
    ("E_SPLIT", {}, [["EI", "EO1"]], "step 1, EI: expected EO1, came EO1, EO2"),
    ("E_DELAY", {}, [["START DT=5"], ["wait 4", "EO"], ["wait 1"]],
     "step 2, wait 4: expected EO, came nothing\nstep 3, wait 1: expected nothing, came EO"),
])
def test_another_answer_is_a_failure_of_its_step(name, parameters, steps, fault):
    with pytest.raises(fbsim.SequenceBroken) as caught:
        check_sequence(name, steps, parameters=parameters)
    assert str(caught.value) == fault and isinstance(caught.value, AssertionError)


def test_types_of_a_declaration_and_of_files(tmp_path):
    steps = [["ARRIVE ARRIVED=1", "LIFT TAKEN=1"], ["ARRIVE ARRIVED=2"], ["PASSED", "DROP"]]
    steps.append(["FREE", "RESUME", "LIFT TAKEN=2"])
    check_sequence("stop_gate", steps, declaration=CONVEYOR)
    text = CONVEYOR.read_text()
    (tmp_path / "lib.iec").write_text("// APPLICATION\n" + text[:text.index("APPLICATION CONVEYOR")])
    check_sequence("STOP_GATE", steps, types=[tmp_path / "lib.iec"])
    check_sequence("STOP_GATE", steps, declaration=tmp_path / "lib.iec")
    with pytest.raises(fbsim.Refused) as caught:
        check_sequence("STOP_GATE", steps)
    assert caught.value.number == "E21" and "STOP_GATE" in caught.value.text


def test_only_outputs_of_the_block_itself_count():
    """The filler of the bottling line has components, whose events do not count."""
    steps = [
        ["NEXT_FREE"], ["ARRIVE", "QUEUED WAITING=1"],
        ["MODE RUN=TRUE", "VALVE_CHANGED VALVE=TRUE"], ["wait 999"],
        ["wait 1", "VALVE_CHANGED VALVE=FALSE", "FILLED LEVEL=500"],
    ]
    declaration = EXAMPLES / "bottling" / "bottling.iec"
    check_sequence("FILL_STATION", steps, declaration=declaration)


@pytest.mark.parametrize("steps, fault", [
    ([], "at least one step"),
    ([[]], "step 1: '' is neither"),
    ([["CU"], ["wait 0"]], "step 2: 'WAIT 0' is neither"),
    ([["CU", "CUO Q"]], "step 1: 'CUO Q' is neither"),
    ([["CU", "wait 5"]], "step 1: 'WAIT 5' is neither"),
    ([["X.CU"]], "step 1: 'X.CU' is neither"),
])
def test_steps_that_are_none(steps, fault):
    with pytest.raises(fbsim.Fault, match=fault):
        check_sequence("E_CTU", steps)


def test_an_unknown_event_is_refused():
    with pytest.raises(fbsim.Refused) as caught:
        check_sequence("E_CTU", [["CU", "CUO"], ["CX"]])
    assert caught.value.number == "E29" and "CX" in caught.value.text
    with pytest.raises(fbsim.Fault, match="'T 5' is no constant"):
        check_sequence("E_DELAY", [["START"]], parameters={"DT": "T 5"})


@pytest.mark.parametrize("step, said", [
    (["CU", "CUO CV=99 CV=1"], "step 1: 'CUO CV=99 CV=1' has CV twice"),
    (["CU", "CUO cv=1 Q=FALSE CV=1"], "step 1: 'CUO CV=1 Q=FALSE CV=1' has CV twice"),
    (["R PV=1 PV=1"], "step 1: 'R PV=1 PV=1' has PV twice"),
])
def test_an_event_has_each_variable_once(step, said):
    with pytest.raises(fbsim.InputFault, match=f"^{said}$"):
        fbsim.check_sequence("E_CTU", [step], parameters={"PV": 2})
