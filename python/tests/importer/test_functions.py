"""Functions by position and by name, constants in CASE, CONTINUE, and variables with the names of words."""

from __future__ import annotations

import re

import pytest
from importing import basic, import_all, place_of

# A body over A : INT and QI : BOOL, a row of inputs, and SUM, by hand.
COMPUTED = [
    ("SUM := LIMIT(MN := 1, IN := A, MX := 3);", "A=7", 3),
    ("SUM := LIMIT(IN := A, MX := 3, MN := 1);", "A=-7", 1),
    ("SUM := SEL(G := QI, IN0 := 10, IN1 := A);", "A=4 QI=TRUE", 4),
    ("SUM := SEL(g := 0, in1 := 10, in0 := A);", "A=4", 4),
    ("SUM := MAX(1, A, 5, 2);", "A=3", 5),
    ("SUM := MIN(IN1 := A, IN2 := 9, IN3 := -2);", "A=3", -2),
    ("SUM := MUX(A, 10, 11, 12);", "A=2", 12),
    ("SUM := MUX(K := A + 1, IN0 := 10, IN1 := 11, IN2 := 12);", "A=-1", 10),
    ("SUM := MUX(1, 10, 11);", "A=0", 11),
    ("ON := MUX(A, 0, 1, QI); SUM := SEL(ON, 0, 1);", "A=2 QI=TRUE", 1),
    ("SUM := ADD(A, 2, 3) + SUB(A, 1) * MUL(2, A, 3);", "A=4", 81),
    ("SUM := DIV(A, 4) + MOD(A, 4) + MOVE(100);", "A=-7", 96),
    ("IF GT(3, A, 1) AND GE(A, 2) AND EQ(A, 2, 2) AND NE(A, 3) AND LE(A, 2) AND LT(1, A) THEN SUM := 1; END_IF;", "A=2", 1),
    ("IF GT(3, A, 1) THEN SUM := 1; ELSE SUM := 2; END_IF;", "A=1", 2),
    ("IF OR(QI, A > 3) AND AND(QI, 1, A = 0) AND NOT XOR(QI, TRUE) THEN SUM := 1; END_IF;", "A=0 QI=TRUE", 1),
    ("SUM := ABS(IN := A);", "A=-9", 9),
    # CONTINUE: the odd numbers up to 9, without 5; EXIT beside it leaves the outer loop
    ("SUM := 0; FOR B := 1 TO 20 DO IF B = 5 OR B MOD 2 = 0 THEN CONTINUE; END_IF; IF B > A THEN EXIT; END_IF; SUM := SUM + B; END_FOR;",
     "A=9", 20),
    ("SUM := 0; B := 0; WHILE B < A DO B := B + 1; IF B MOD 3 <> 0 THEN CONTINUE; END_IF; SUM := SUM + B; END_WHILE;", "A=10", 18),
    # the condition of REPEAT is tested after CONTINUE
    ("SUM := 0; B := 0; REPEAT B := B + 1; IF B > 2 THEN CONTINUE; END_IF; SUM := SUM + 10; UNTIL B >= A END_REPEAT;", "A=5", 20),
    # loops inside each other, both with CONTINUE and EXIT: pairs of B and T below 4 that differ, T before 3, B before 3
    ("""VAR_TEMP C : INT; END_VAR SUM := 0; FOR B := 0 TO 9 DO IF B = 1 THEN CONTINUE; END_IF; IF B = 3 THEN EXIT; END_IF;
FOR C := 0 TO 9 DO IF C = B THEN CONTINUE; END_IF; IF C = 3 THEN EXIT; END_IF; SUM := SUM + 10 * B + C; END_FOR; END_FOR;""", "A=0", 44),
    ("SUM := 0; FOR B := 1 TO 3 DO SUM := SUM + 1; CONTINUE; SUM := 100; END_FOR", "A=0", 3),
    # constants as labels
    ("VAR CONSTANT LOW : INT := -3; HIGH : INT := INT#16#10; END_VAR CASE A OF LOW: SUM := 1; HIGH, 20: SUM := 2; LOW..HIGH: SUM := 3; END_CASE;",
     "A=16", 2),
    ("VAR CONSTANT LOW : INT := -3; HIGH : INT := 16; END_VAR CASE A OF LOW: SUM := 1; LOW..HIGH: SUM := 3; END_CASE;", "A=-2", 3),
]


def result(done, row):
    trace = done.run(1, f"tick,event,values\n0,ADDER.REQ,{row}\n")
    return int(re.search(r"SUM=(-?\d+)", trace)[1])


@pytest.mark.parametrize("body, row, expected", COMPUTED, ids=[f"{it[0]} {it[1]}" for it in COMPUTED])
def test_a_body_computes_what_the_standard_says(body, row, expected, tmp_path):
    done = import_all(tmp_path, {"Adder.fbt": basic(body)})
    assert done.status == 0, done.lines
    assert result(done, row) == expected


@pytest.mark.parametrize("row", ["A=3", "A=-1"])
def test_an_index_that_no_input_has_stops_the_run(row, tmp_path):
    for condition, body in (("REQ", "SUM := MUX(A * 1, 10, 11, 12);"), ("REQ[MUX(A, QI, TRUE, QI)]", "SUM := 1;")):
        done = import_all(tmp_path, {"Adder.fbt": basic(body, condition)}, out=condition[:4])
        assert done.status == 0, done.lines
        assert done.stop(1, f"tick,event,values\n0,ADDER.REQ,{row}\n").endswith("\nstop 0 MAIN range\n")


def test_constants_of_a_type_are_labels(tmp_path):
    text = basic("CASE A OF cIDLE: SUM := 1; cRUN: SUM := 2; ELSE SUM := 3; END_CASE;").replace(
        "</InternalVars>", '</InternalVars><InternalConstVars><VarDeclaration Name="cIdle" Type="INT" InitialValue="4"/>'
        '<VarDeclaration Name="cRun" Type="INT" InitialValue="INT#5"/></InternalConstVars>')
    done = import_all(tmp_path, {"Adder.fbt": text})
    assert done.status == 0, done.lines
    assert [result(done, f"A={it}") for it in (4, 5, 6)] == [1, 2, 3]
    again = import_all(tmp_path, {"Adder.fbt": text.replace("CASE A", "cRun := 3; CASE A")}, out="again")
    assert again.status == 2 and any("assigns the constant CRUN" in it for it in again.lines), again.lines


@pytest.mark.parametrize("name", ["Time", "INT", "not", "True", "false", "And", "Mod", "of", "VAR", "Sel"])
def test_a_variable_with_the_name_of_a_word(name, tmp_path):
    text = basic(f"{name} := A + 1; SUM := ({name} + {name}) * 2 - {name};").replace('Name="B"', f'Name="{name}"')
    done = import_all(tmp_path, {"Adder.fbt": text})
    assert done.status == 0, done.lines
    assert result(done, "A=3") == 12


def test_not_before_an_operand_is_the_operator_beside_a_variable_not(tmp_path):
    text = basic("Not := 5; IF NOT QI AND Not = 5 THEN SUM := Not; END_IF;").replace('Name="B"', 'Name="Not"')
    done = import_all(tmp_path, {"Adder.fbt": text})
    assert done.status == 0, done.lines
    assert result(done, "QI=FALSE") == 5


# A body, the part at which it is refused, and what the line says.
REFUSED = [
    ("SUM := LIMIT(MN := 1, A, MX := 3);", "LIMIT", "LIMIT has the arguments MN, IN, MX, all with their names or all without"),
    ("SUM := LIMIT(MN := 1, IN := A, MAX := 3);", "LIMIT", "LIMIT has the arguments MN, IN, MX"),
    ("SUM := MAX(A);", "MAX", "MAX has the arguments IN1, IN2, .., all with their names or all without"),
    ("SUM := ABS(EN := QI, IN := A);", "ABS", "ABS has an argument EN, ENO or with =>"),
    ("SUM := INT_TO_DINT(A, A);", "INT_TO_DINT", "INT_TO_DINT has the arguments IN"),
    ("IF QI THEN CONTINUE; END_IF;", "CONTINUE", "CONTINUE is in no loop"),
    ("CASE A OF B: SUM := 1; END_CASE;", "B:", "B is no constant: a label of CASE is a number"),
    ("VAR CONSTANT K : INT := 1; END_VAR SUM := 1; K := 2;", ":= 2", "assigns the constant ADD__K"),
]


@pytest.mark.parametrize("body, part, says", REFUSED, ids=[it[0] for it in REFUSED])
def test_what_does_not_fit_is_refused_at_its_place(body, part, says, tmp_path):
    text = basic("\n" + body)
    done = import_all(tmp_path, {"Adder.fbt": text})
    line, column = place_of(text, body).split(":")
    assert done.status == 2
    assert [it for it in done.lines if it.startswith(f"Adder.fbt:{line}:{int(column) + body.index(part)}: ") and says in it], done.lines
