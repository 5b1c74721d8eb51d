"""share/annex_a.iec: a service sequence for each type, worked out by hand from the comment of the type."""

from __future__ import annotations

import subprocess

import pytest
from fbsim import check_sequence
from fbsim.program import find_program
from importing import TOP

FILE = TOP / "share" / "annex_a.iec"
TIMES = "DT0=1 DT1=2 DT2=3 DT3=4"
# A type, and its steps: an event with values or a time in ms, and the events that must come.
SEQUENCES = {
    "E_RS": [["R"], ["S", "EO Q=TRUE"], ["S"], ["R", "EO Q=FALSE"], ["R"], ["S", "EO Q=TRUE"]],
    "E_T_FF": [["CLK", "EO Q=TRUE"], ["CLK", "EO Q=FALSE"], ["CLK", "EO Q=TRUE"]],
    "E_DEMUX": [
        ["EI K=0", "EO0"],
        ["EI K=3", "EO3"],
        ["EI K=1", "EO1"],
        ["EI K=2", "EO2"],
        ["EI K=4"],
        ["EI K=0", "EO0"],
    ],
    # A START during a train, and one with no events, change nothing.
    "E_TRAIN": [
        ["START DT=2 N=3"],
        ["wait 2", "EO CV=0"],
        ["wait 2", "EO CV=1"],
        ["START DT=5 N=9"],
        ["wait 1", "EO CV=2"],
        ["wait 9"],
        ["START DT=1 N=0"],
        ["wait 5"],
        ["START DT=4 N=2"],
        ["wait 4", "EO CV=0"],
        ["STOP"],
        ["wait 9"],
        ["START DT=1 N=1"],
        ["wait 1", "EO CV=0"],
        ["wait 5"],
    ],
    # N over 4 counts as 4.
    "E_TABLE": [
        [f"START {TIMES} N=4"],
        ["wait 1", "EO CV=0"],
        ["wait 2", "EO CV=1"],
        ["wait 3", "EO CV=2"],
        ["wait 4", "EO CV=3"],
        ["wait 20"],
        ["START DT0=2 DT1=2 DT2=2 DT3=2 N=9"],
        ["wait 1"],
        ["wait 7", "EO CV=0", "EO CV=1", "EO CV=2", "EO CV=3"],
        ["wait 9"],
        ["START N=2"],
        ["wait 2", "EO CV=0"],
        ["STOP"],
        ["wait 9"],
    ],
    "E_N_TABLE": [
        [f"START {TIMES} N=4"],
        ["wait 1", "EO0"],
        ["wait 2", "EO1"],
        ["wait 3", "EO2"],
        ["wait 4", "EO3"],
        ["wait 9"],
        ["START N=2"],
        ["wait 9", "EO0", "EO1"],
        ["START N=4"],
        ["wait 1", "EO0"],
        ["STOP"],
        ["wait 9"],
    ],
    "E_SPLIT_3": [["EI", "EO1", "EO2", "EO3"], ["EI", "EO1", "EO2", "EO3"]],
    "E_SPLIT_4": [["EI", "EO1", "EO2", "EO3", "EO4"], ["EI", "EO1", "EO2", "EO3", "EO4"]],
    "E_MERGE_3": [["EI1", "EO"], ["EI3", "EO"], ["EI2", "EO"], ["EI2", "EO"]],
    "E_MERGE_4": [["EI4", "EO"], ["EI1", "EO"], ["EI2", "EO"], ["EI3", "EO"]],
    "E_T_FF_SR": [
        ["CLK", "EO Q=TRUE"],
        ["S"],
        ["R", "EO Q=FALSE"],
        ["R"],
        ["S", "EO Q=TRUE"],
        ["CLK", "EO Q=FALSE"],
    ],
    # At 0 a CD does nothing.
    "E_CTD": [
        ["CD"],
        ["LD PV=2", "LDO Q=FALSE CV=2"],
        ["CD", "CDO Q=FALSE CV=1"],
        ["CD", "CDO Q=TRUE CV=0"],
        ["CD"],
        ["LD PV=0", "LDO Q=TRUE CV=0"],
    ],
    "E_CTUD": [
        ["CD"],
        ["CU PV=2", "CO QU=FALSE QD=FALSE CV=1"],
        ["CU", "CO QU=TRUE QD=FALSE CV=2"],
        ["CD", "CO QU=FALSE QD=FALSE CV=1"],
        ["CD", "CO QU=FALSE QD=TRUE CV=0"],
        ["LD PV=65535", "LDO QU=TRUE QD=FALSE CV=65535"],
        ["CU"],
        ["R", "RO QU=FALSE QD=TRUE CV=0"],
    ],
    # The second START comes one tick before the end of the first, and DT begins anew.
    "E_RDELAY": [
        ["START DT=3"],
        ["wait 1"],
        ["START DT=3"],
        ["wait 2"],
        ["wait 1", "EO"],
        ["START DT=4"],
        ["STOP"],
        ["wait 9"],
    ],
    "E_PULSE": [
        ["REQ PT=3", "CNF Q=TRUE"],
        ["REQ PT=9"],
        ["wait 1"],
        ["wait 1", "CNF Q=FALSE"],
        ["REQ PT=5", "CNF Q=TRUE"],
        ["R", "CNF Q=FALSE"],
        ["wait 9"],
    ],
    "E_TON": [
        ["REQ IN=FALSE PT=3"],
        ["REQ IN=TRUE"],
        ["wait 2"],
        ["wait 1", "CNF Q=TRUE"],
        ["REQ IN=TRUE"],
        ["REQ IN=FALSE", "CNF Q=FALSE"],
        ["wait 9"],
        ["REQ IN=TRUE"],
        ["REQ IN=FALSE"],
        ["wait 9"],
        ["REQ IN=TRUE"],
        ["wait 2"],
        ["wait 1", "CNF Q=TRUE"],
        ["R", "CNF Q=FALSE"],
        ["wait 9"],
    ],
    "E_TOF": [
        ["REQ IN=FALSE PT=3"],
        ["REQ IN=TRUE", "CNF Q=TRUE"],
        ["wait 9"],
        ["REQ IN=FALSE"],
        ["wait 2"],
        ["wait 1", "CNF Q=FALSE"],
        ["REQ IN=TRUE", "CNF Q=TRUE"],
        ["REQ IN=FALSE"],
        ["REQ IN=TRUE"],
        ["wait 9"],
        ["R", "CNF Q=FALSE"],
        ["wait 9"],
    ],
    # The input falls and rises during the first pulse; as it stays, there is no second one until it has been FALSE.
    "E_TP": [
        ["REQ IN=FALSE PT=3"],
        ["REQ IN=TRUE", "CNF Q=TRUE"],
        ["REQ IN=FALSE"],
        ["REQ IN=TRUE"],
        ["wait 1", "CNF Q=FALSE"],
        ["REQ IN=TRUE"],
        ["REQ IN=FALSE"],
        ["REQ IN=TRUE", "CNF Q=TRUE"],
        ["R", "CNF Q=FALSE"],
        ["wait 9"],
    ],
    # An event takes a tick. The clock begins at 1 and ends at 4, in the tick of a REQ; then at 9, where nothing asks.
    "TON": [
        ["REQ IN=FALSE PT=3", "CNF Q=FALSE"],
        ["REQ IN=TRUE", "CNF Q=FALSE"],
        ["REQ IN=TRUE", "CNF Q=FALSE"],
        ["wait 1"],
        ["REQ IN=TRUE", "CNF Q=TRUE"],
        ["REQ IN=FALSE", "CNF Q=FALSE"],
        ["REQ IN=TRUE", "CNF Q=FALSE"],
        ["wait 5"],
        ["REQ IN=TRUE", "CNF Q=TRUE"],
        ["REQ IN=FALSE", "CNF Q=FALSE"],
        ["REQ IN=TRUE", "CNF Q=FALSE"],
        ["REQ IN=FALSE", "CNF Q=FALSE"],
        ["wait 9"],
        ["REQ IN=TRUE", "CNF Q=FALSE"],
        # With PT = 0 the time has passed at once. A new PT does not change a time that runs.
        ["REQ IN=FALSE PT=0", "CNF Q=FALSE"],
        ["REQ IN=TRUE", "CNF Q=TRUE"],
        ["REQ IN=FALSE PT=-1", "CNF Q=FALSE"],
        ["REQ IN=TRUE", "CNF Q=TRUE"],
        ["REQ IN=FALSE PT=2", "CNF Q=FALSE"],
        ["REQ IN=TRUE", "CNF Q=FALSE"],
        ["REQ IN=TRUE PT=50", "CNF Q=FALSE"],
        ["REQ IN=TRUE", "CNF Q=TRUE"],
    ],
    "TOF": [
        ["REQ IN=FALSE PT=3", "CNF Q=FALSE"],
        ["REQ IN=TRUE", "CNF Q=TRUE"],
        ["wait 9"],
        ["REQ IN=FALSE", "CNF Q=TRUE"],
        ["wait 2"],
        ["REQ IN=FALSE", "CNF Q=FALSE"],
        ["REQ IN=TRUE", "CNF Q=TRUE"],
        ["REQ IN=FALSE", "CNF Q=TRUE"],
        ["REQ IN=FALSE", "CNF Q=TRUE"],
        ["REQ IN=TRUE", "CNF Q=TRUE"],
        ["wait 9"],
        ["REQ IN=FALSE", "CNF Q=TRUE"],
        ["wait 9"],
        ["REQ IN=FALSE", "CNF Q=FALSE"],
        ["REQ IN=TRUE PT=0", "CNF Q=TRUE"],
        ["REQ IN=TRUE", "CNF Q=TRUE"],
        ["REQ IN=FALSE", "CNF Q=FALSE"],
        ["REQ IN=TRUE PT=1", "CNF Q=TRUE"],
        ["REQ IN=FALSE", "CNF Q=TRUE"],
    ],
    # The first pulse ends with the input TRUE, so there is none until it has been FALSE. The second ends with it FALSE, and the input
    # rises at the next REQ: that is the third pulse.
    "TP": [
        ["REQ IN=FALSE PT=4", "CNF Q=FALSE"],
        ["REQ IN=TRUE", "CNF Q=TRUE"],
        ["REQ IN=FALSE", "CNF Q=TRUE"],
        ["REQ IN=TRUE", "CNF Q=TRUE"],
        ["wait 1"],
        ["REQ IN=TRUE", "CNF Q=FALSE"],
        ["REQ IN=FALSE", "CNF Q=FALSE"],
        ["REQ IN=TRUE", "CNF Q=TRUE"],
        ["REQ IN=FALSE", "CNF Q=TRUE"],
        ["wait 5"],
        ["REQ IN=TRUE", "CNF Q=TRUE"],
        ["wait 9"],
        ["REQ IN=FALSE", "CNF Q=FALSE"],
        ["REQ IN=TRUE", "CNF Q=TRUE"],
        # A pulse of no time is none, and also spends the rise of the input.
        ["wait 9"],
        ["REQ IN=FALSE PT=0", "CNF Q=FALSE"],
        ["REQ IN=TRUE", "CNF Q=FALSE"],
        ["REQ IN=TRUE PT=4", "CNF Q=FALSE"],
        ["REQ IN=FALSE", "CNF Q=FALSE"],
        ["REQ IN=TRUE", "CNF Q=TRUE"],
        ["REQ IN=FALSE PT=0", "CNF Q=TRUE"],
        ["wait 9"],
        ["REQ IN=TRUE", "CNF Q=FALSE"],
    ],
    "CTU": [
        ["REQ CU=FALSE PV=2", "CNF Q=FALSE CV=0"],
        ["REQ CU=TRUE", "CNF Q=FALSE CV=1"],
        ["REQ CU=TRUE", "CNF Q=FALSE CV=1"],
        ["REQ CU=FALSE", "CNF Q=FALSE CV=1"],
        ["REQ CU=TRUE", "CNF Q=TRUE CV=2"],
        ["REQ CU=FALSE R=TRUE", "CNF Q=FALSE CV=0"],
    ],
    "CTD": [
        ["REQ CD=FALSE LD=TRUE PV=2", "CNF Q=FALSE CV=2"],
        ["REQ CD=TRUE LD=FALSE", "CNF Q=FALSE CV=1"],
        ["REQ CD=TRUE", "CNF Q=FALSE CV=1"],
        ["REQ CD=FALSE", "CNF CV=1"],
        ["REQ CD=TRUE", "CNF Q=TRUE CV=0"],
        ["REQ CD=FALSE", "CNF Q=TRUE CV=0"],
        ["REQ CD=TRUE", "CNF Q=TRUE CV=-1"],
    ],
    # Both edges at once do nothing; R comes before LD.
    "CTUD": [
        ["REQ PV=2", "CNF QU=FALSE QD=TRUE CV=0"],
        ["REQ CU=TRUE", "CNF QU=FALSE QD=FALSE CV=1"],
        ["REQ CU=FALSE", "CNF CV=1"],
        ["REQ CU=TRUE", "CNF QU=TRUE QD=FALSE CV=2"],
        ["REQ CD=TRUE", "CNF QU=FALSE CV=1"],
        ["REQ CU=FALSE CD=FALSE", "CNF CV=1"],
        ["REQ CU=TRUE CD=TRUE", "CNF CV=1"],
        ["REQ CU=FALSE CD=FALSE LD=TRUE", "CNF QU=TRUE CV=2"],
        ["REQ R=TRUE", "CNF QD=TRUE CV=0"],
    ],
    "SR": [
        ["REQ S1=TRUE R=TRUE", "CNF Q1=TRUE"],
        ["REQ S1=FALSE", "CNF Q1=FALSE"],
        ["REQ S1=TRUE R=FALSE", "CNF Q1=TRUE"],
        ["REQ S1=FALSE", "CNF Q1=TRUE"],
        ["REQ R=TRUE", "CNF Q1=FALSE"],
    ],
    "RS": [
        ["REQ S=TRUE R1=TRUE", "CNF Q1=FALSE"],
        ["REQ R1=FALSE", "CNF Q1=TRUE"],
        ["REQ S=FALSE", "CNF Q1=TRUE"],
        ["REQ R1=TRUE", "CNF Q1=FALSE"],
    ],
}


@pytest.mark.parametrize("name", SEQUENCES)
def test_a_type_answers_as_its_service_sequence_says(name):
    check_sequence(name, SEQUENCES[name], types=[FILE])


def test_all_types_are_accepted_without_a_warning_and_have_a_comment(tmp_path):
    inputs = {
        "E_TRAIN": "DT := 1, N := 1",
        "E_DEMUX": "K := 1",
        "CTU": "CU := FALSE, R := FALSE, PV := 1",
        "CTD": "CD := FALSE, LD := FALSE, PV := 1",
        "SR": "S1 := FALSE, R := FALSE",
        "RS": "S := FALSE, R1 := FALSE",
        "CTUD": "CU := FALSE, CD := FALSE, R := FALSE, LD := FALSE, PV := 1",
    }
    inputs |= {it: "DT0 := 1, DT1 := 1, DT2 := 1, DT3 := 1, N := 1" for it in ("E_TABLE", "E_N_TABLE")}
    inputs |= {it: "IN := FALSE, PT := 1" for it in ("TON", "TOF", "TP", "E_TON", "E_TOF", "E_TP")}
    inputs |= {"E_CTD": "PV := 1", "E_CTUD": "PV := 1", "E_RDELAY": "DT := 1", "E_PULSE": "PT := 1"}
    rows = "".join(f"I_{it} : {it}{f'({inputs[it]})' if it in inputs else ''};\n" for it in SEQUENCES)
    (tmp_path / "all.iec").write_text(f"APPLICATION A FBS {rows} END_FBS END_APPLICATION\n")
    words = [find_program(), "check", str(tmp_path / "all.iec"), "--types", str(FILE), "--lint", "--why"]
    done = subprocess.run(words, capture_output=True, text=True)
    # (nothing leads to the instances of this application)
    others = [it for it in done.stderr.splitlines() if ": L15: application A: " not in it]
    assert (done.returncode, done.stdout, others) == (0, "accepted\n", [])
    text = FILE.read_text()
    for name in SEQUENCES:
        assert "*)\nFUNCTION_BLOCK " + name + "\n" in text
