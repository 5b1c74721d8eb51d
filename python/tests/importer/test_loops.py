"""The warning I03: a variable of FOR that is read after its loop, where controllers have another value."""

from __future__ import annotations

import pytest
from importing import basic, import_all, place_of

OTHER = "VAR C : INT; END_VAR "
LOOP = "FOR B := 0 TO 2 DO SUM := B; END_FOR; "
# A body over A, B, SUM : INT, and the text up to each use that is reported.
BODIES = [
    (LOOP + "SUM := B;", [LOOP + "SUM := "]),
    (LOOP + "IF B > 2 THEN SUM := B; END_IF;", [LOOP + "IF "]),
    (LOOP + "SUM := A; B := B + 1; SUM := B;", [LOOP + "SUM := A; B := "]),
    (LOOP + "B := 0; SUM := B;", []),
    (LOOP + "SUM := A;", []),
    (LOOP + "IF A > 0 THEN B := 0; END_IF; SUM := B;", [LOOP + "IF A > 0 THEN B := 0; END_IF; SUM := "]),
    (LOOP + "IF A > 0 THEN B := 0; SUM := B; END_IF;", []),
    (LOOP + "IF A > 0 THEN B := 0; ELSE SUM := B; END_IF;", [LOOP + "IF A > 0 THEN B := 0; ELSE SUM := "]),
    (LOOP + "REPEAT B := A; UNTIL B > 3 END_REPEAT; SUM := B;", []),
    (LOOP + "FOR B := 5 TO 6 DO SUM := B; END_FOR;", []),
    (LOOP + "FOR B := B TO 6 DO SUM := B; END_FOR;", [LOOP + "FOR B := "]),
    (OTHER + LOOP + "FOR C := 5 TO 6 DO SUM := B; END_FOR;", [OTHER + LOOP + "FOR C := 5 TO 6 DO SUM := "]),
    ("IF A > 0 THEN " + LOOP + "ELSIF B > 1 THEN SUM := B; ELSE SUM := B; END_IF;", []),
    ("IF A > 0 THEN " + LOOP + "END_IF; SUM := B;", ["IF A > 0 THEN " + LOOP + "END_IF; SUM := "]),
    ("CASE A OF 1: " + LOOP + "2: SUM := B; END_CASE;", []),
    (OTHER + "FOR C := 0 TO 1 DO " + LOOP + "END_FOR; SUM := C + B;",
     [OTHER + "FOR C := 0 TO 1 DO " + LOOP + "END_FOR; SUM := ", OTHER + "FOR C := 0 TO 1 DO " + LOOP + "END_FOR; SUM := C + "]),
    ("WHILE B < 3 DO B := B + 1; END_WHILE; SUM := B;", []),
    ("SUM := B; " + LOOP, []),
]


@pytest.mark.parametrize("body, before", BODIES, ids=[it[0] for it in BODIES])
def test_uses_of_what_a_loop_left_are_reported(body, before, tmp_path):
    text = basic("\n" + body)
    done = import_all(tmp_path, {"Adder.fbt": text})
    line, column = place_of(text, body).split(":")
    assert done.status == 0, done.lines
    found = [it.split(": ")[0] for it in done.lines if ": I03: " in it]
    assert found == [f"Adder.fbt:{line}:{int(column) + len(it)}" for it in before]


def test_the_warning_says_what_differs_and_can_be_denied(tmp_path):
    text = basic(LOOP + "SUM := B;")
    done = import_all(tmp_path, {"Adder.fbt": text}, "--deny", "I03")
    assert done.status == 1
    assert [it.partition(": ")[2] for it in done.lines if ": I03: " in it] == [
        "I03: B is the variable of a FOR that has ended: here it is the last value within the limit, on most controllers the next one. "
        "Keep what is needed in another variable"]


def test_the_simulator_keeps_the_last_value_within_the_limit(tmp_path):
    done = import_all(tmp_path, {"Adder.fbt": basic(LOOP + "SUM := B * 10;")})
    assert "SUM=20" in done.run(1, "tick,event,values\n0,ADDER.REQ,\n")
