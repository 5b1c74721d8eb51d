"""Structured Text, conditions and constants."""

from __future__ import annotations

import pytest
from importing import basic, import_all, place_of

# A body in XML, and what it becomes, worked out by hand.
BODIES = {
    "SUM := A + INT#5;": "SUM := A + 5;",
    "SUM := INT#16#1F - INT#-3;": "SUM := 16#1F - -3;",
    "SUM := +A;": "SUM := A;",
    "ON := 1;": "ON := TRUE;",
    "ON := 0;": "ON := FALSE;",
    "ON := BOOL#1; ON := BOOL#FALSE;": "ON := TRUE; ON := FALSE;",
    "ON := QI = 1;": "ON := QI = TRUE;",
    "ON := A = 1;": "ON := A = 1;",
    "ON := NOT (0) OR (QI AND 1);": "ON := NOT (FALSE) OR (QI AND TRUE);",
    "IF 1 THEN SUM := 1; ELSIF QI <> 0 THEN SUM := 0; END_IF;":
        "IF TRUE THEN SUM := 1; ELSIF QI <> FALSE THEN SUM := 0; END_IF;",
    "WHILE 0 DO SUM := 1; END_WHILE;": "WHILE FALSE DO SUM := 1; END_WHILE;",
    "REPEAT SUM := 1; UNTIL 1 END_REPEAT": "REPEAT SUM := 1; UNTIL TRUE END_REPEAT;",
    "SUM := SEL(0, 1, A);": "SUM := SEL(FALSE, 1, A);",
    "ON := SEL(QI, 0, ON);": "ON := SEL(QI, FALSE, ON);",
    "SUM := BOOL_TO_INT(QI);": "SUM := SEL(QI, 0, 1);",
    "SUM := INT_TO_DINT(A * 1);": "SUM := (A * 1);",
    "SUM := DINT_TO_INT(A * 2);": "SUM := (A * 2 * 5192296858534827628530496329220096 / 5192296858534827628530496329220096);",
    "T := T#1.5s;": "T := T#1500ms;",
    "T := TIME#1d2h3m4s5ms + t#0.001s;": "T := T#93784005ms + T#1ms;",
    "T := T#-1m_30s;": "T := T#-90000ms;",
    "T := T#2_000us;": "T := T#2ms;",
    "(* a *) SUM := (* b * c *) 1; // d\n/* e */ SUM := 2;": "SUM := 1; SUM := 2;",
    "sum := a; oN := qi;": "SUM := A; ON := QI;",
    "ALGORITHM ADD\nSUM := A;\nEND_ALGORITHM": "SUM := A;",
    "VAR_TEMP X : INT := 4; Y, Z : BOOL; END_VAR SUM := X; ON := Y OR Z;":
        "ADD__X := 4; ADD__Y := FALSE; ADD__Z := FALSE; SUM := ADD__X; ON := ADD__Y OR ADD__Z;",
    "VAR_TEMP ok : BOOL := 1; END_VAR ON := ok;": "ADD__OK := TRUE; ON := ADD__OK;",
    "VAR CONSTANT K : INT := 5; END_VAR VAR L : TIME; END_VAR SUM := K;": "ADD__K := 5; ADD__L := 0; SUM := ADD__K;",
    "VAR_TEMP by, text : INT; END_VAR FOR by := 1 TO 3 BY 1 DO SUM := by + text; END_FOR;":
        "ADD__BY := 0; ADD__TEXT := 0; FOR ADD__BY := 1 TO 3 BY 1 DO SUM := ADD__BY + ADD__TEXT; END_FOR;",
    "IF QI THEN SUM := 1; END_IF SUM := 2;": "IF QI THEN SUM := 1; END_IF; SUM := 2;",
    "CASE A OF 1: SUM := 1; INT#2, 3..5: SUM := 2; ELSE ON := 1; END_CASE":
        "CASE A OF 1: SUM := 1; 2, 3..5: SUM := 2; ELSE ON := TRUE; END_CASE;",
    "FOR B := 1 TO 3 BY 2 DO SUM := SUM + B; EXIT; END_FOR; RETURN;":
        "FOR B := 1 TO 3 BY 2 DO SUM := SUM + B; EXIT; END_FOR; RETURN;",
    "": "",
}
CONDITIONS = {
    "1": "1",
    "TRUE": "1",
    "REQ": "REQ",
    "req": "REQ",
    "REQ &amp; QI": "REQ[QI]",
    "REQ AND QI AND A &gt; 3": "REQ[QI AND A > 3]",
    "REQ[QI]": "REQ[QI]",
    "REQ [NOT QI OR A = 0]": "REQ[NOT QI OR A = 0]",
    "REQ &amp; (QI OR ON)": "REQ[(QI OR ON)]",
    "[QI]": "[QI]",
    "QI": "[QI]",
    "A &gt; 5": "[A > 5]",
    "QI = 1": "[QI = TRUE]",
    "[1]": "[TRUE]",
    "REQ[QI = 0]": "REQ[QI = FALSE]",
}


def squeezed(text):
    """Returns a text without blanks, to compare it."""
    return "".join(text.split())


@pytest.mark.parametrize("body", BODIES)
def test_a_body_is_converted(body, tmp_path):
    done = import_all(tmp_path, {"Adder.fbt": basic(body)})
    assert done.status == 0, done.lines
    found = done.text("types.iec").split("IN ST:")[1].split("END_ALGORITHM")[0]
    assert squeezed(found) == squeezed(BODIES[body])


@pytest.mark.parametrize("condition", CONDITIONS)
def test_a_condition_is_converted(condition, tmp_path):
    done = import_all(tmp_path, {"Adder.fbt": basic(condition=condition)})
    assert done.status == 0, done.lines
    found = done.text("types.iec").split("START TO ADD :=")[1].split(";")[0]
    assert squeezed(found) == squeezed(CONDITIONS[condition])


def test_a_body_is_the_same_in_an_attribute_in_cdata_and_as_text(tmp_path):
    body = "IF A &lt; 3 &amp; QI THEN&#13;&#10;SUM := A; &#x2F;&#47; to the end&#10;END_IF;"
    forms = {
        "a": f'<ST Text="{body}"/>',
        "b": "<ST><![CDATA[IF A < 3 & QI THEN\r\nSUM := A; // to the end\nEND_IF;]]></ST>",
        "c": f"<ST>{body}</ST>",
        "d": "<ST>IF A &lt; 3 <![CDATA[& QI THEN]]><!-- here -->\nSUM := A;\nEND_IF;</ST>",
        "e": f'<Other Language="ST" Text="{body}"/>',
    }
    texts = set()
    for name, form in forms.items():
        whole = basic("").replace("<ST><![CDATA[]]></ST>", form)
        done = import_all(tmp_path / name, {"Adder.fbt": whole})
        assert done.status == 0, done.lines
        texts.add(squeezed(done.text("types.iec")))
    assert len(texts) == 1
    assert "IFA<3&QITHENSUM:=A;END_IF;" in texts.pop()


# A body, the part at which it is refused, and what the line says.
REFUSED = [
    ("SUM := 1.5;", "1.5", "1.5 is a REAL"),
    ("SUM := 2E3;", "2E3", "2E3 is a REAL"),
    ("SUM := REAL#2;", "REAL#2", "is no literal of the profile"),
    ("SUM := WORD#x;", "WORD#x", "is no literal of the profile"),
    ("SUM := INT#x;", "INT#x", "is no literal of the profile"),
    ("SUM := 'a;b';", "'a;b'", "is a text"),
    ("SUM := \"ab\";", '"ab"', "is a text"),
    ("T := T#1.5ms;", "T#1.5ms", "is no time in whole milliseconds"),
    ("T := T#5s5m;", "T#5s5m", "is no time in whole milliseconds"),
    ("T := DATE#2020-01-01;", "DATE#2020-01-01", "is no literal of the profile"),
    ("SUM := B[3];", "[3]", "is used as an array"),
    ("SUM := B.X;", "B.X", "there is no variable B.X"),
    ("SUM := CONCAT(A, B);", "CONCAT", "CONCAT is no function of the profile"),
    ("SUM := REAL_TO_INT(A);", "REAL_TO_INT", "REAL_TO_INT is no function of the profile"),
    ("SUM := TIME_TO_DINT(T);", "TIME_TO_DINT", "TIME_TO_DINT is no function of the profile"),
    ("SUM := A ** 2;", "**", "** is not in the profile"),
    ("TIMER(IN := QI);", "TIMER", "calls as statements"),
    ("SUM := %IW0;", "%", "% is not in the profile"),
    ("SUM := NOWHERE;", "NOWHERE", "there is no variable NOWHERE"),
    ("SUM := REQ;", "REQ;", "there is no variable REQ"),
    ("SUM := A +;", ";", "found ;, expected a value"),
    ("SUM := (* open", "(* open", "is a comment that is not closed"),
    ("VAR_TEMP X : REAL; END_VAR SUM := 1;", "REAL", "REAL is no type of the profile"),
    ("VAR_TEMP X : ARRAY[0..3] OF INT; END_VAR SUM := 1;", "ARRAY", "ARRAY is no type of the profile"),
    ("{pragma} SUM := 1;", "{", "{ is not in the profile"),
    ("VAR_TEMP X : INT := 1", "", "found the end, expected END_VAR"),
    ("FOR B := 1 DO END_FOR;", "DO", "found DO, expected TO"),
    ("CASE A OF RED: SUM := 1; END_CASE;", "RED", "RED is no constant"),
    ("SUM := (A + 1;", ";", "found ;, expected )"),
]


@pytest.mark.parametrize("body, part, says", REFUSED, ids=[it[0] for it in REFUSED])
def test_what_the_profile_lacks_is_refused_at_its_place(body, part, says, tmp_path):
    text = basic("\n  " + body)
    done = import_all(tmp_path, {"Adder.fbt": text})
    assert done.status == 2
    line, column = place_of(text, body).split(":")
    place = f"Adder.fbt:{line}:{int(column) + (body.index(part) if part else len(body))}: "
    assert [it for it in done.lines if it.startswith(place) and says in it], done.lines
    assert not done.out.exists()


@pytest.mark.parametrize(
    "condition, part, says",
    [
        ("", "", "expected a value"),
        ("REQ OR QI", "OR", "found OR, expected &amp;"),
        ("REQ &amp; QI OR ON", "OR ON", "expected the end"),
        ("QI &amp; REQ", "REQ", "there is no variable REQ"),
        ("NOWHERE", "NOWHERE", "there is no variable NOWHERE"),
        ("REQ[QI", "", "expected ]"),
        ("[A &gt; 1.5]", "1.5", "1.5 is a REAL"),
    ],
)
def test_a_condition_is_refused_at_its_place(condition, part, says, tmp_path):
    text = basic(condition=condition)
    done = import_all(tmp_path, {"Adder.fbt": text})
    assert done.status == 2
    line, column = place_of(text, f'Condition="{condition}"').split(":")
    offset = len('Condition="') + (condition.index(part) if part else len(condition))
    assert [
        it
        for it in done.lines
        if it.startswith(f"Adder.fbt:{line}:{int(column) + offset}: ") and says.replace("&amp;", "&") in it
    ], done.lines


def test_all_refusals_come_in_one_go(tmp_path):
    text = basic(
        "SUM := 1.5;\nT := DT#2020-01-01-00:00:00;\nSUM := FOO(2.5) + B[1];\nSUM := ;\nSUM := 'x';", "REQ[3.5 > A]"
    )
    text = text.replace('Name="B" Type="INT"', 'Name="B" Type="LREAL"').replace(
        '<VarDeclaration Name="SUM" Type="INT"/>', '<VarDeclaration Name="SUM" Type="STRING"/>'
    )
    done = import_all(tmp_path, {"Adder.fbt": text})
    assert done.status == 2
    parts = ["LREAL", "STRING", "1.5", "DT#2020", "FOO", "2.5", "[1]", " ;", "'x'", "3.5"]
    for part in parts:
        line, column = place_of(text, part).split(":")
        place = f"Adder.fbt:{line}:{int(column) + (part == ' ;')}: "
        assert sum(it.startswith(place) for it in done.lines) == 1, (part, done.lines)
    assert len(done.lines) == len(parts)


def test_faults_that_only_the_simulator_sees_are_mapped_back(tmp_path):
    text = basic("SUM := A;\n  SUM := QI + 1;\n  ON := A;")
    done = import_all(tmp_path, {"Adder.fbt": text})
    assert done.status == 2
    # the operand that does not fit, and the expression of a kind that its variable can't hold
    assert done.lines[0].startswith(
        f"Adder.fbt:{place_of(text, 'QI + 1')}: E22: block type ADDER: algorithm ADD: statement 2"
    )
    line, column = place_of(text, "ON := A").split(":")
    assert done.lines[1].startswith(f"Adder.fbt:{line}:{int(column) + len('ON := ')}: E22")


def test_a_fault_of_syntax_that_only_the_simulator_sees_is_mapped_back(tmp_path):
    text = basic("IF QI THEN\n  SUM := 1;\n  ELSE ELSE SUM := 2; END_IF;")
    done = import_all(tmp_path, {"Adder.fbt": text})
    assert done.status == 2
    assert done.lines == [f"Adder.fbt:{place_of(text, 'ELSE SUM')}: E03: " + done.lines[0].split("E03: ")[1]]


def test_a_semicolon_that_is_missing_is_shown_at_the_end(tmp_path):
    text = basic("SUM := A;\n  SUM := A + 1")
    done = import_all(tmp_path, {"Adder.fbt": text})
    line, column = place_of(text, "A + 1").split(":")
    assert done.status == 2 and len(done.lines) == 1
    assert done.lines[0].startswith(f"Adder.fbt:{line}:{int(column) + len('A + 1')}: E03: "), done.lines


@pytest.mark.parametrize(
    "kind, value, out",
    [
        ("BOOL", "1", "TRUE"),
        ("BOOL", "0", "FALSE"),
        ("BOOL", "true", "TRUE"),
        ("BOOL", "BOOL#0", "FALSE"),
        ("INT", "-5", "-5"),
        ("INT", "INT#5", "5"),
        ("UINT", "16#FF", "16#FF"),
        ("TIME", "T#1.5s", "T#1500ms"),
        ("TIME", "t#2h", "T#7200000ms"),
        ("LINT", " LINT#7 ", "7"),
    ],
)
def test_an_initial_value_is_converted(kind, value, out, tmp_path):
    text = basic("").replace('Name="B" Type="INT"', f'Name="B" Type="{kind}" InitialValue="{value}"')
    done = import_all(tmp_path, {"Adder.fbt": text})
    assert done.status == 0, done.lines
    assert f"B : {kind} := {out};" in done.text("types.iec")


@pytest.mark.parametrize(
    "kind, value",
    [("INT", "1.5"), ("INT", "[1, 2]"), ("BOOL", "-1"), ("TIME", "T#1.5ms"), ("INT", "X + 1"), ("INT", "'a'")],
)
def test_an_initial_value_that_the_profile_lacks_is_refused(kind, value, tmp_path):
    text = basic("").replace('Name="B" Type="INT"', f'Name="B" Type="{kind}" InitialValue="{value}"')
    done = import_all(tmp_path, {"Adder.fbt": text})
    assert done.status == 2
    assert any(it.startswith(f"Adder.fbt:{place_of(text, value)}: ") for it in done.lines), done.lines


@pytest.mark.parametrize(
    "kind", ["REAL", "LREAL", "STRING", "WSTRING", "DATE", "ANY", "COLOR", ""]
)
def test_a_type_that_the_profile_lacks_is_refused(kind, tmp_path):
    text = basic("").replace('Name="B" Type="INT"', f'Name="B" Type="{kind}"')
    done = import_all(tmp_path, {"Adder.fbt": text})
    column = place_of(text, f'Name="B" Type="{kind}"').split(":")
    place = f"{column[0]}:{int(column[1]) + len('Name=') + len('.B. Type=.')}"
    assert len(done.lines) == 1 and done.lines[0].startswith(f"Adder.fbt:{place}: {kind or 'nothing'} is no type of the profile: ")
