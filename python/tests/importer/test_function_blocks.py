"""Function blocks: F_ADD, F_SEL, F_INT_TO_DINT and so on, with types that are found over connections and literals."""

from __future__ import annotations

import re

import pytest
from importing import connections, import_all, place_of, system

# A basic type with an output of each type, whose event SEND samples them from inputs of the same names with an I in front.
KINDS = ["BOOL", "SINT", "INT", "DINT", "UINT", "TIME", "BYTE", "WORD", "DWORD"]


def source():
    inputs = "".join(f'<VarDeclaration Name="I{it}" Type="{it}"/>' for it in KINDS)
    outputs = "".join(f'<VarDeclaration Name="O{it}" Type="{it}"/>' for it in KINDS)
    body = " ".join(f"O{it} := I{it};" for it in KINDS)
    return f"""<FBType Name="Source"><InterfaceList>
<EventInputs><Event Name="SEND">{"".join(f'<With Var="I{it}"/>' for it in KINDS)}</Event></EventInputs>
<EventOutputs><Event Name="SENT">{"".join(f'<With Var="O{it}"/>' for it in KINDS)}</Event></EventOutputs>
<InputVars>{inputs}</InputVars><OutputVars>{outputs}</OutputVars></InterfaceList>
<BasicFB><ECC><ECState Name="START"/><ECState Name="GO"><ECAction Algorithm="COPY" Output="SENT"/></ECState>
<ECTransition Source="START" Destination="GO" Condition="SEND"/><ECTransition Source="GO" Destination="START" Condition="1"/></ECC>
<Algorithm Name="COPY"><ST><![CDATA[{body}]]></ST></Algorithm></BasicFB></FBType>"""


def one_block(kind, **inputs):
    """Returns a system with a block F of a type, whose inputs have outputs of the source S (a type's name) or literals."""
    given = "".join(f'<Parameter Name="{name}" Value="{it}"/>' for name, it in inputs.items() if it not in KINDS)
    data = [f"S.O{it} F.{name}" for name, it in inputs.items() if it in KINDS]
    return system(f'<FB Name="S" Type="Source"/><FB Name="F" Type="{kind}">{given}</FB>'
                  + connections("Event", "S.SENT F.REQ") + (connections("Data", *data) if data else ""))


def computed(tmp_path, kind, values, *words, stop=False, **inputs):
    """Returns what a block computes from the values of the source, and the type that was made for it."""
    done = import_all(tmp_path, {"App.sys": one_block(kind, **inputs), "lib/Source.fbt": source()}, *words)
    assert done.status == 0, done.lines
    row = " ".join(f"I{name}={value}" for name, value in values.items())
    trace = (done.stop if stop else done.run)(1, f"tick,event,values\n0,S.SEND,{row}\n")
    found = re.search(r"< F\.CNF OUT=(\S+)", trace)
    return found[1] if found else trace.splitlines()[-1], re.search(r" F : (\w+)", done.text("application.iec"))[1]


# A block, what its inputs have, values of the source, what it computes, and the type that is made. All by hand.
BLOCKS = [
    ("F_ADD", {"IN1": "INT", "IN2": "5"}, {"INT": -7}, "-2", "F_ADD__INT"),
    ("F_ADD", {"IN1": "INT", "IN2": "DINT"}, {"INT": 30000, "DINT": 70000}, "100000", "F_ADD__INT__DINT"),
    ("F_ADD", {"IN1": "INT", "IN2": "UINT"}, {"INT": 30000, "UINT": 60000}, "90000", "F_ADD__INT__UINT"),
    ("F_ADD_3", {"IN1": "INT", "IN2": "2", "IN3": "INT"}, {"INT": 4}, "10", "F_ADD_3__INT"),
    ("F_ADD", {"IN1": "TIME", "IN2": "T#1s"}, {"TIME": 20}, "1020", "F_ADD__TIME"),
    ("F_ADD", {"IN1": "INT#3", "IN2": "4"}, {}, "7", "F_ADD__INT"),
    ("F_SUB", {"IN1": "DINT", "IN2": "DINT#1"}, {"DINT": -4}, "-5", "F_SUB__DINT"),
    ("F_MUL", {"IN1": "TIME", "IN2": "INT"}, {"TIME": 15, "INT": 3}, "45", "F_MUL__TIME__INT"),
    ("F_DIV", {"IN1": "INT", "IN2": "4"}, {"INT": -7}, "-1", "F_DIV__INT"),
    ("F_MOD", {"IN1": "INT", "IN2": "4"}, {"INT": -7}, "-3", "F_MOD__INT"),
    ("F_ABS", {"IN": "SINT"}, {"SINT": -7}, "7", "F_ABS__SINT"),
    ("F_MOVE", {"IN": "BOOL"}, {"BOOL": "TRUE"}, "TRUE", "F_MOVE__BOOL"),
    ("F_SEL", {"G": "BOOL", "IN0": "1", "IN1": "UINT"}, {"BOOL": "TRUE", "UINT": 9}, "9", "F_SEL__UINT"),
    ("F_SEL", {"G": "TRUE", "IN0": "BOOL", "IN1": "FALSE"}, {"BOOL": "TRUE"}, "FALSE", "F_SEL__BOOL"),
    ("F_LIMIT", {"MN": "0", "IN": "INT", "MX": "10"}, {"INT": 11}, "10", "F_LIMIT__INT"),
    ("F_MAX", {"IN1": "INT", "IN2": "SINT"}, {"INT": -11, "SINT": -3}, "-3", "F_MAX__INT__SINT"),
    ("F_MIN_3", {"IN1": "INT", "IN2": "4", "IN3": "-2"}, {"INT": 3}, "-2", "F_MIN_3__INT"),
    ("F_MUX_3", {"K": "INT", "IN0": "WORD", "IN1": "7", "IN2": "WORD#8"}, {"INT": 2, "WORD": 5}, "8", "F_MUX_3__WORD"),
    ("F_MUX_2", {"K": "1", "IN0": "DINT", "IN1": "6"}, {"DINT": 5}, "6", "F_MUX_2__DINT"),
    ("F_AND", {"IN1": "WORD", "IN2": "16#F0"}, {"WORD": 0x1234}, str(0x30), "F_AND__WORD"),
    ("F_AND", {"IN1": "BOOL", "IN2": "1"}, {"BOOL": "TRUE"}, "TRUE", "F_AND__BOOL"),
    ("F_OR", {"IN1": "BYTE", "IN2": "BYTE"}, {"BYTE": 0b101}, "5", "F_OR__BYTE"),
    ("F_XOR", {"IN1": "BYTE", "IN2": "2#11"}, {"BYTE": 0b101}, "6", "F_XOR__BYTE"),
    ("F_NOT", {"IN": "WORD"}, {"WORD": 1}, "65534", "F_NOT__WORD"),
    ("F_NOT", {"IN": "BOOL"}, {}, "TRUE", "F_NOT__BOOL"),
    ("F_SHL", {"IN": "BYTE", "N": "3"}, {"BYTE": 0b11100001}, "8", "F_SHL__BYTE"),
    ("F_ROR", {"IN": "WORD", "N": "INT"}, {"WORD": 1, "INT": 4}, "4096", "F_ROR__WORD"),
    ("F_GT", {"IN1": "INT", "IN2": "5"}, {"INT": 6}, "TRUE", "F_GT__INT"),
    ("F_GE", {"IN1": "INT", "IN2": "DINT"}, {"INT": 5, "DINT": 5}, "TRUE", "F_GE__INT__DINT"),
    ("F_EQ", {"IN1": "BOOL", "IN2": "TRUE"}, {"BOOL": "FALSE"}, "FALSE", "F_EQ__BOOL"),
    ("F_NE", {"IN1": "WORD", "IN2": "0"}, {"WORD": 1}, "TRUE", "F_NE__WORD"),
    ("F_LE", {"IN1": "TIME", "IN2": "T#5ms"}, {"TIME": 6}, "FALSE", "F_LE__TIME"),
    ("F_LT", {"IN1": "INT", "IN2": "7"}, {"INT": 6}, "TRUE", "F_LT__INT"),
    ("F_INT_TO_DINT", {"IN": "INT"}, {"INT": -6}, "-6", "F_INT_TO_DINT"),
    ("F_WORD_TO_INT", {"IN": "WORD"}, {"WORD": 65535}, "-1", "F_WORD_TO_INT"),
    ("F_BOOL_TO_INT", {"IN": "BOOL"}, {"BOOL": "TRUE"}, "1", "F_BOOL_TO_INT"),
    ("iec61131::arithmetic::F_ADD", {"IN1": "INT", "IN2": "5"}, {"INT": -7}, "-2", "F_ADD__INT"),
]


@pytest.mark.parametrize("kind, inputs, values, result, made", BLOCKS, ids=[f"{it[0]} {' '.join(it[1].values())}" for it in BLOCKS])
def test_a_function_block_computes_out(kind, inputs, values, result, made, tmp_path):
    assert computed(tmp_path, kind, values, **inputs) == (result, made)


@pytest.mark.parametrize("kind, inputs, values, result", [
    ("F_ADD", {"IN1": "INT", "IN2": "1"}, {"INT": 32767}, "-32768"),
    ("F_MUL", {"IN1": "UINT", "IN2": "UINT"}, {"UINT": 65535}, "1"),
    ("F_DINT_TO_INT", {"IN": "DINT"}, {"DINT": 40000}, "-25536"),
])
def test_what_does_not_fit_stops_or_wraps(kind, inputs, values, result, tmp_path):
    assert computed(tmp_path / "stop", kind, values, stop=True, **inputs)[0] == "stop 0 MAIN range"
    assert computed(tmp_path / "wrap", kind, values, "--overflow", "wrap", **inputs)[0] == result


def test_types_go_along_chains_in_both_directions(tmp_path):
    # A and B have literals alone, so their types come from the counter; M is behind B, and N leads to a TIME
    blocks = "".join(f'<FB Name="{name}" Type="{kind}"><Parameter Name="{one}" Value="{value}"/></FB>'
                     for name, kind, one, value in (("A", "F_MOVE", "IN", "2"), ("B", "F_ADD", "IN2", "3"), ("N", "F_MOVE", "IN", "T#7ms")))
    data = ["A.OUT B.IN1", "B.OUT M.IN", "M.OUT C.PV", "N.OUT D.DT"]
    events = ["E.EO A.REQ", "A.CNF B.REQ", "B.CNF M.REQ", "M.CNF C.CU", "C.CUO N.REQ", "N.CNF D.START"]
    text = system('<FB Name="E" Type="E_MERGE"/><FB Name="M" Type="F_MOVE"/><FB Name="C" Type="E_CTU"/><FB Name="D" Type="E_DELAY"/>'
                  + blocks + connections("Event", *events) + connections("Data", *data))
    done = import_all(tmp_path, {"App.sys": text})
    assert done.status == 0, done.lines
    assert re.findall(r" (\w) : (F_\w+)", done.text("application.iec")) == [
        ("M", "F_MOVE__UINT"), ("A", "F_MOVE__UINT"), ("B", "F_ADD__UINT"), ("N", "F_MOVE__TIME")]
    assert done.run(9, "tick,event,values\n1,E.EI1,\n").splitlines()[-8:] == [
        "1 MAIN < M.CNF OUT=5", "1 MAIN > C.CU PV=5", "1 MAIN < C.CUO Q=FALSE CV=1", "1 MAIN > N.REQ IN=7", "1 MAIN < N.CNF OUT=7",
        "1 MAIN > D.START DT=7", "8 MAIN < D.EO", "end 9"]


def test_inputs_of_several_widths_meet_in_one_that_has_all(tmp_path):
    # INT and UINT meet in DINT, which goes on to the next block, where it meets a SINT
    blocks = '<FB Name="S" Type="Source"/><FB Name="A" Type="F_ADD"/><FB Name="B" Type="F_SUB"/>'
    text = system(blocks + connections("Event", "S.SENT A.REQ", "A.CNF B.REQ")
                  + connections("Data", "S.OINT A.IN1", "S.OUINT A.IN2", "A.OUT B.IN1", "S.OSINT B.IN2"))
    done = import_all(tmp_path, {"App.sys": text, "lib/Source.fbt": source()})
    assert done.status == 0, done.lines
    assert "OUT : DINT" in done.text("types.iec") and " B : F_SUB__DINT__SINT" in done.text("application.iec")
    assert "< B.CNF OUT=97635" in done.run(1, "tick,event,values\n0,S.SEND,IINT=32000 IUINT=65535 ISINT=-100\n")


def test_blocks_in_composites_and_subapplications(tmp_path):
    inside = ('<FB Name="F" Type="F_GT"><Parameter Name="IN2" Value="9"/></FB>'
              + connections("Event", "REQ F.REQ", "F.CNF CNF") + connections("Data", "X F.IN1", "F.OUT Y"))
    ports = ('<{0}EventInputs><{0}Event Name="REQ"><With Var="X"/></{0}Event></{0}EventInputs><{0}EventOutputs><{0}Event Name="CNF">'
             '<With Var="Y"/></{0}Event></{0}EventOutputs><InputVars><VarDeclaration Name="X" Type="INT"/></InputVars>'
             '<OutputVars><VarDeclaration Name="Y" Type="BOOL"/></OutputVars>')
    high = f'<FBType Name="High"><InterfaceList>{ports.format("")}</InterfaceList><FBNetwork>{inside}</FBNetwork></FBType>'
    part = (f'<SubAppType Name="Part"><SubAppInterfaceList>{ports.format("SubApp")}</SubAppInterfaceList>'
            f'<SubAppNetwork>{inside}</SubAppNetwork></SubAppType>')
    text = system('<FB Name="S" Type="Source"/><FB Name="H" Type="High"/><SubApp Name="P" Type="Part"/><FB Name="N" Type="F_AND"/>'
                  + connections("Event", "S.SENT H.REQ", "H.CNF P.REQ", "P.CNF N.REQ")
                  + connections("Data", "S.OINT H.X", "S.OINT P.X", "H.Y N.IN1", "P.Y N.IN2"))
    done = import_all(tmp_path, {"App.sys": text, "lib/Source.fbt": source(), "lib/High.fbt": high, "lib/Part.sub": part})
    assert done.status == 0, done.lines
    assert done.text("types.iec").count("FUNCTION_BLOCK F_GT__INT\n") == 1
    for value, result in ((9, "FALSE"), (10, "TRUE")):
        assert f"< N.CNF OUT={result}" in done.run(1, f"tick,event,values\n0,S.SEND,IINT={value}\n")


# A block, what its inputs have, and what the refusal says.
REFUSED = [
    ("F_MOVE", {"IN": "5"}, "F: nothing says the type of IN, OUT of F_MOVE: connect it, or give a literal with its type, as INT#5"),
    ("F_ADD", {"IN1": "INT", "IN2": "BOOL"}, "F: F_ADD does not take these types: IN1 is INT (from S.OINT, App.sys:{IN1}), "
     "IN2 is BOOL (from S.OBOOL, App.sys:{IN2})"),
    ("F_AND", {"IN1": "INT", "IN2": "INT"}, "F: F_AND does not take these types: IN1 is INT (from S.OINT, App.sys:{IN1}), "
     "IN2 is INT (from S.OINT, App.sys:{IN2})"),
    ("F_MOD", {"IN1": "TIME", "IN2": "TIME"}, "F: F_MOD does not take these types: IN1 is TIME (from S.OTIME, App.sys:{IN1}), "
     "IN2 is TIME (from S.OTIME, App.sys:{IN2})"),
    ("F_SHL", {"IN": "UINT", "N": "1"}, "F: F_SHL does not take these types: IN is UINT (from S.OUINT, App.sys:{IN}), N is INT"),
]


@pytest.mark.parametrize("kind, inputs, says", REFUSED, ids=[it[0] for it in REFUSED])
def test_types_that_do_not_fit_are_refused_with_the_ends(kind, inputs, says, tmp_path):
    text = one_block(kind, **inputs)
    done = import_all(tmp_path, {"App.sys": text, "lib/Source.fbt": source()})
    places = {name: place_of(text, f'S.O{it}" Destination="F.{name}"') for name, it in inputs.items() if it in KINDS}
    line, column = place_of(text, 'Name="F"').split(":")
    assert done.status == 2
    assert done.lines == [f"App.sys:{line}:{int(column) + len('Name=.')}: {says.format(**places)}"]


STORED = """<FBType Name="F_ADD"><Identification Standard="61131-3"/><CompilerInfo packageName="iec61131::arithmetic"/>
<InterfaceList><EventInputs><Event Name="REQ" Type="Event"><With Var="IN1"/><With Var="IN2"/></Event></EventInputs>
<EventOutputs><Event Name="CNF" Type="Event"><With Var="OUT"/></Event></EventOutputs>
<InputVars><VarDeclaration Name="IN1" Type="ANY_MAGNITUDE"/><VarDeclaration Name="IN2" Type="ANY_MAGNITUDE"/></InputVars>
<OutputVars><VarDeclaration Name="OUT" Type="ANY_MAGNITUDE"/></OutputVars></InterfaceList>
<Service LeftInterface="INPUT" RightInterface="OUTPUT"/></FBType>"""


def test_the_file_of_the_library_has_no_chart_and_the_block_is_made(tmp_path):
    files = {"App.sys": one_block("iec61131::arithmetic::F_ADD", IN1="INT", IN2="5"), "lib/Source.fbt": source(), "lib/F_ADD.fbt": STORED}
    done = import_all(tmp_path, files)
    assert done.status == 0, done.lines
    assert "< F.CNF OUT=9" in done.run(1, "tick,event,values\n0,S.SEND,IINT=4\n")


def test_a_file_with_a_chart_is_used_instead(tmp_path):
    own = source().replace('Name="Source"', 'Name="F_ADD"')
    text = system('<FB Name="F" Type="F_ADD"/>')
    done = import_all(tmp_path, {"App.sys": text, "lib/F_ADD.fbt": own})
    assert done.status == 0, done.lines
    assert "EVENT_INPUT\n  SEND" in done.text("types.iec")


def test_a_file_with_other_ports_and_no_chart_is_refused(tmp_path):
    text = one_block("F_ADD", IN1="INT", IN2="5")
    done = import_all(tmp_path, {"App.sys": text, "lib/Source.fbt": source(), "lib/F_ADD.fbt": STORED.replace("IN2", "ADDEND")})
    assert done.status == 2 and any("F_ADD is of a library of events or functions" in it for it in done.lines), done.lines
