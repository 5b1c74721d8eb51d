"""Conversions, and what a number does that does not fit: the simulator computes, and Python says what must come out."""

from __future__ import annotations

import random
import re

import pytest
from importing import basic, import_all, place_of

SIZES = {"SINT": 8, "INT": 16, "DINT": 32, "LINT": 64, "USINT": 8, "UINT": 16, "UDINT": 32, "ULINT": 64}


def cut(value, kind):
    """Returns a number in two's complement, by the bytes of a machine."""
    data = (value % 2**128).to_bytes(16, "little")[:SIZES[kind] // 8]
    return int.from_bytes(data, "little", signed=not kind.startswith("U"))


def chosen(kind):
    """Returns numbers of a type: the ends of all types, and 500 random ones of all sizes."""
    ends = {sign * 2**size + step for size in (0, 7, 8, 15, 16, 31, 32, 63, 64) for sign in (-1, 1) for step in (-1, 0, 1)}
    draw = random.Random(kind)
    some = {cut(draw.getrandbits(draw.randint(1, 70)), kind) for _ in range(500)}
    return sorted(it for it in ends | some if cut(it, kind) == it)


def converter(source, algorithms):
    """Returns a type that samples X and has an event input for each of its algorithms, whose result is R."""
    events = "".join(f'<Event Name="{it}"><With Var="X"/></Event>' for it in algorithms)
    states = "".join(f'<ECState Name="S{it}"><ECAction Algorithm="{it}" Output="CNF"/></ECState>' for it in algorithms)
    transitions = "".join(f'<ECTransition Source="START" Destination="S{it}" Condition="{it}"/>'
                          f'<ECTransition Source="S{it}" Destination="START" Condition="1"/>' for it in algorithms)
    bodies = "".join(f'<Algorithm Name="{it}"><ST><![CDATA[{body}]]></ST></Algorithm>' for it, body in algorithms.items())
    results = "".join(f'<VarDeclaration Name="{name}" Type="{kind}"/>'
                      for name, kind in (("R", "LINT"), ("U", "ULINT"), ("B", "BOOL"), *((f"V{it}", it) for it in SIZES)))
    withs = "".join(f'<With Var="{it}"/>' for it in ("R", "U", "B"))
    return f"""<FBType Name="Conv"><InterfaceList><EventInputs>{events}</EventInputs>
<EventOutputs><Event Name="CNF">{withs}</Event></EventOutputs>
<InputVars><VarDeclaration Name="X" Type="{source}"/></InputVars><OutputVars>{results}</OutputVars></InterfaceList>
<BasicFB><ECC><ECState Name="START"/>{states}{transitions}</ECC>{bodies}</BasicFB></FBType>"""


def imported(tmp_path, source, algorithms, *words):
    done = import_all(tmp_path, {"Conv.fbt": converter(source, algorithms)}, *words)
    assert done.status == 0, done.lines
    return done


def rows(*events):
    return "tick,event,values\n" + "".join(f"{tick},CONV.{it},X={value}\n" for tick, (it, value) in enumerate(events))


def results(done, name, *events):
    """Returns the values of an output, one for each event."""
    trace = done.run(len(events), rows(*events))
    return re.findall(rf"CONV\.CNF.* {name}=(\S+)", trace)


def pairs(source):
    """Returns an algorithm for each target: its result is read as a number of 64 bits with or without a sign."""
    return {f"TO_{it}": f"V{it} := {source}_TO_{it}(X); {'U' if it.startswith('U') else 'R'} := V{it};"
            for it in SIZES if it != source}


@pytest.mark.parametrize("source", SIZES)
def test_a_conversion_wraps_if_that_is_asked_for(source, tmp_path):
    done = imported(tmp_path, source, pairs(source), "--overflow", "wrap")
    for event in pairs(source):
        target = event[3:]
        found = results(done, "U" if target.startswith("U") else "R", *((event, it) for it in chosen(source)))
        assert [int(it) for it in found] == [cut(it, target) for it in chosen(source)], target


@pytest.mark.parametrize("source", SIZES)
def test_a_conversion_stops_at_what_does_not_fit(source, tmp_path):
    done = imported(tmp_path, source, pairs(source))
    for event in pairs(source):
        target = event[3:]
        fits = [it for it in chosen(source) if cut(it, target) == it]
        found = results(done, "U" if target.startswith("U") else "R", *((event, it) for it in fits))
        assert [int(it) for it in found] == fits, target
        ends = [it for it in chosen(source) if cut(it, target) != it]
        for value in {*ends[:1], *ends[-1:], *sorted(ends, key=abs)[:2]}:
            assert done.stop(2, rows((event, value))).endswith("\nstop 0 MAIN range\n"), (target, value)


# An algorithm over X, a value of X, and its result with --overflow wrap, by hand; with stop each ends the run.
INSIDE = [
    ("DINT", "B := DINT_TO_INT(X) > 0;", 40000, "B", "FALSE"),
    ("UINT", "R := UINT_TO_DINT(X - 1);", 0, "R", "65535"),
    ("DINT", "R := 2 * DINT_TO_SINT(X) + 1;", 130, "R", "-251"),
    ("DINT", "R := MAX(DINT_TO_USINT(X + 1), 3);", -2, "R", "255"),
    ("DINT", "IF DINT_TO_INT(X) = -32768 THEN R := 1; ELSE R := 2; END_IF;", 32768, "R", "1"),
    ("DINT", "R := DINT_TO_SINT(DINT_TO_INT(X));", 65535 + 300, "R", "43"),
    ("LINT", "R := TO_INT(X);", 32769, "R", "-32767"),
    ("INT", "VSINT := X + 1; R := VSINT;", 127, "R", "-128"),
    ("UINT", "VUINT := X - 1; R := VUINT;", 0, "R", "65535"),
    ("DINT", "VDINT := X * X; R := VDINT;", 65537, "R", "131073"),
]


@pytest.mark.parametrize("source, body, value, name, wrapped", INSIDE, ids=[it[1] for it in INSIDE])
def test_a_number_that_does_not_fit_inside_an_expression(source, body, value, name, wrapped, tmp_path):
    done = imported(tmp_path, source, {"GO": body})
    assert done.stop(2, rows(("GO", value))).endswith("\nstop 0 MAIN range\n")
    done = import_all(tmp_path, {"Conv.fbt": converter(source, {"GO": body})}, "--overflow", "wrap", out="wrapped")
    assert done.status == 0, done.lines
    assert results(done, name, ("GO", value)) == [wrapped]


# An algorithm over X, a value of X and its result, by hand. Nothing stops and nothing wraps.
FITS = [
    ("INT", "R := INT_TO_DINT(X) * 10000;", -32768, "R", "-327680000"),
    ("INT", "U := TO_UDINT(X);", 32767, "U", "32767"),
    ("INT", "B := INT_TO_BOOL(X);", 0, "B", "FALSE"),
    ("INT", "B := INT_TO_BOOL(X);", -3, "B", "TRUE"),
    ("INT", "B := TO_BOOL(X);", 2, "B", "TRUE"),
    ("BOOL", "R := BOOL_TO_INT(X);", "TRUE", "R", "1"),
    ("BOOL", "R := TO_DINT(X) + 4;", "TRUE", "R", "5"),
    ("BOOL", "R := BOOL_TO_USINT(1);", "FALSE", "R", "1"),
    ("BOOL", "B := BOOL_TO_BOOL(X);", "TRUE", "B", "TRUE"),
    ("DINT", "R := DINT_TO_SINT(LIMIT(-128, X, 127));", 4000, "R", "127"),
    ("DINT", "R := DINT_TO_SINT(X MOD 128);", -129, "R", "-1"),
]


@pytest.mark.parametrize("source, body, value, name, result", FITS, ids=[f"{it[1]} {it[2]}" for it in FITS])
def test_a_number_that_fits_is_kept(source, body, value, name, result, tmp_path):
    assert results(imported(tmp_path, source, {"GO": body}), name, ("GO", value)) == [result]


@pytest.mark.parametrize("words, last", [((), "stop 0 MAIN range"), (("--overflow", "wrap"), "end 1")])
def test_a_conversion_in_a_guard(words, last, tmp_path):
    text = basic("SUM := 1;", "REQ[DINT_TO_INT(A) &gt; 0]").replace('Name="A" Type="INT"', 'Name="A" Type="DINT"')
    done = import_all(tmp_path, {"Adder.fbt": text}, *words)
    assert done.status == 0, done.lines
    trace = done.stop if not words else done.run
    # 40000 is -25536 as an INT: the transition does not clear
    assert trace(1, "tick,event,values\n0,ADDER.REQ,A=40000 QI=TRUE\n").splitlines()[1:] == [last]


def test_what_becomes_of_conversions_is_in_the_report(tmp_path):
    text = basic("SUM := DINT_TO_INT(A * 2);\nB := INT_TO_INT(A);")
    done = import_all(tmp_path, {"Adder.fbt": text})
    place = place_of(text, "DINT_TO_INT")
    assert f"  Adder.fbt:{place}: DINT_TO_INT: a value that does not fit stops the run\n" in done.text("import.txt")
    assert f"  Adder.fbt:{place_of(text, 'INT_TO_INT', 2)}: INT_TO_INT goes away: each value fits\n" in done.text("import.txt")


def test_a_guard_that_gets_too_long_is_refused(tmp_path):
    guard = "A &gt; " + " + ".join(["DINT_TO_SINT(A)"] * 50)
    text = basic(condition=f"REQ[{guard}]")
    done = import_all(tmp_path, {"Adder.fbt": text})
    assert done.status == 2
    assert done.lines == [f"Adder.fbt:{place_of(text, '[A')}: a guard has at most 4,000 characters when it is expanded "
                          "(DINT_TO_SINT): compute it in an algorithm"]


@pytest.mark.parametrize("depth", [64, 5_000])
def test_an_expression_that_nests_too_deep_is_refused_at_its_place(depth, tmp_path):
    text = basic("SUM := " + "(" * depth + "A" + ")" * depth + ";")
    done = import_all(tmp_path, {"Adder.fbt": text})
    line, column = place_of(text, "((").split(":")
    assert done.status == 2
    assert f"Adder.fbt:{line}:{int(column) + depth - 64}: an expression nests at most 64 deep: " \
           "assign a part of it to a variable" in done.lines


def test_an_expression_that_is_too_deep_when_it_is_expanded_is_refused_at_its_place(tmp_path):
    text = basic("SUM := " + "DINT_TO_INT(" * 30 + "A + A" + ")" * 30 + ";")
    done = import_all(tmp_path, {"Adder.fbt": text})
    assert done.status == 0, done.lines
    text = basic("SUM := " + "DINT_TO_UINT(A + " * 30 + "A" + ")" * 30 + ";")
    done = import_all(tmp_path, {"Adder.fbt": text}, out="other")
    assert done.status == 2
    assert done.lines == [f"Adder.fbt:{place_of(text, 'DINT_TO')}: this nests deeper than 64 when it is expanded "
                          "(DINT_TO_UINT): assign a part of it to a variable"]


def test_another_overflow_is_a_wrong_command_line(tmp_path):
    assert import_all(tmp_path, {"Adder.fbt": basic()}, "--overflow", "saturate").status == 5
