"""The warning I01: operators that a controller computes in a width that may be too narrow."""

from __future__ import annotations

import re

import pytest
from importing import TOP, basic, import_all, place_of

# A body over A, B, SUM : INT, D : DINT, U : UINT, S : SINT, and the operators that are reported, as the text up to each.
BODIES = [
    ("D := A * 200;", ["D := A "]),
    ("D := INT_TO_DINT(A) * 200;", []),
    ("D := INT_TO_DINT(A * 200);", []),
    ("SUM := A * 200;", []),
    ("SUM := A * B + A - 1;", []),
    ("SUM := (A + B) / 2;", ["SUM := (A "]),
    ("SUM := DINT_TO_INT((INT_TO_DINT(A) * 10000 + 13824) / 27648);", []),
    ("SUM := DINT_TO_INT((INT_TO_DINT(A) * 100000 + 3) / 27648);",
     ["SUM := DINT_TO_INT((INT_TO_DINT(A) ", "SUM := DINT_TO_INT((INT_TO_DINT(A) * 100000 "]),
    ("SUM := (A * 10000 + 13824) / 27648;", ["SUM := (A ", "SUM := (A * 10000 "]),
    ("IF A + B > 100 THEN SUM := 1; END_IF;", ["IF A "]),
    ("IF S * S > 100 THEN SUM := 1; END_IF;", ["IF S "]),
    ("IF A > 100 - 1 THEN SUM := A MOD 10 * 3000; END_IF;", []),
    ("D := A MOD 10 * 3000;", []),
    ("D := A MOD 10 * 4000;", ["D := A MOD 10 "]),
    ("D := LIMIT(0, A, 100) * 300;", []),
    ("D := MAX(A, 0) + 1;", ["D := MAX(A, 0) "]),
    ("D := U - 1;", ["D := U "]),
    ("D := UINT_TO_DINT(U - 1);", []),
    ("U := U - 1;", []),
    ("FOR B := 0 TO U - 1 DO SUM := B; END_FOR;", ["FOR B := 0 TO U "]),
    ("D := A + 100000;", []),
    ("D := A + U;", []),
    ("D := -A;", ["D := "]),
    ("SUM := -A;", []),
    ("D := SEL(QI, A + 1, A);", ["D := SEL(QI, A "]),
    ("SUM := SEL(QI, A + 1, A);", []),
    ("SUM := MAX(A + 1, 0);", ["SUM := MAX(A "]),
    ("VAR CONSTANT K : INT := 3; END_VAR D := K * 10000;", []),
    ("VAR CONSTANT K : INT := 4; END_VAR D := K * 10000;", ["VAR CONSTANT K : INT := 4; END_VAR D := K "]),
    ("D := 1000 * 1000;", []),
    ("T := T#1ms * A;", []),
    ("D := DINT_TO_INT(D) * 2;", ["D := DINT_TO_INT(D) "]),
    ("D := MUL(A, 200);", ["D := "]),
]


def widened(body, condition="REQ"):
    more = "".join(f'<VarDeclaration Name="{name}" Type="{kind}"/>' for name, kind in (("D", "DINT"), ("U", "UINT"), ("S", "SINT")))
    return basic(body, condition).replace("<InternalVars>", f"<InternalVars>{more}")


def reported(done):
    return [it.split(": ")[0] for it in done.lines if ": I01: a controller computes this in " in it]


@pytest.mark.parametrize("body, before", BODIES, ids=[it[0] for it in BODIES])
@pytest.mark.parametrize("words", [(), ("--overflow", "wrap")], ids=["stop", "wrap"])
def test_operators_that_may_overflow_unseen_are_reported(body, before, words, tmp_path):
    text = widened("\n" + body)
    done = import_all(tmp_path, {"Adder.fbt": text}, *words)
    line, column = place_of(text, body).split(":")
    assert done.status == 0, done.lines
    assert reported(done) == [f"Adder.fbt:{line}:{int(column) + len(it)}" for it in before]


def test_the_warning_names_the_type_and_the_numbers(tmp_path):
    text = widened("D := A * 200;")
    done = import_all(tmp_path, {"Adder.fbt": text}, "--deny", "I01")
    line = f"Adder.fbt:{place_of(text, '* 200')}: I01: a controller computes this in INT, which does not have all numbers from " \
           "-6,553,600 to 6,553,400: convert an operand to a wider type before"
    assert done.status == 1 and line in done.lines, done.lines


def test_a_guard_is_looked_at(tmp_path):
    text = widened("", "REQ[A + 1 &gt; 5]")
    done = import_all(tmp_path, {"Adder.fbt": text}, "--strict")
    assert done.status == 1 and reported(done) == [f"Adder.fbt:{place_of(text, '+ 1')}"]


def test_the_scaling_example_of_the_page_has_no_warning(tmp_path):
    page = (TOP / "docs" / "FROM_4DIAC.md").read_text()
    [formula] = re.findall(r"`([^`]*INT_TO_DINT\(RAW\)[^`]*)`", page)
    text = widened(f"SUM := {formula};".replace("RAW", "A"))
    done = import_all(tmp_path, {"Adder.fbt": text}, "--deny", "all")
    assert done.status == 0, done.lines
    # 0 to 27648 is 0 to 10000: 9000 is 3255.2
    assert "SUM=3255" in done.run(1, "tick,event,values\n0,ADDER.REQ,A=9000\n")
