"""Types of each kind, and where they come from."""

from __future__ import annotations

import pytest
from importing import TOP, basic, connections, import_all, place_of, service, system

ADAPTER = """<AdapterType Name="Drive">
  <InterfaceList>
    <EventInputs><Event Name="DONE" Type="Event"><With Var="COUNT"/></Event></EventInputs>
    <EventOutputs><Event Name="RUN" Type="Event"><With Var="SPEED"/></Event></EventOutputs>
    <InputVars><VarDeclaration Name="COUNT" Type="INT"/></InputVars>
    <OutputVars><VarDeclaration Name="SPEED" Type="INT"/></OutputVars>
  </InterfaceList>
</AdapterType>
"""
MASTER = """<FBType Name="Master">
  <InterfaceList>
    <EventInputs><Event Name="GO"/></EventInputs>
    <EventOutputs><Event Name="READY"><With Var="N"/></Event></EventOutputs>
    <OutputVars><VarDeclaration Name="N" Type="INT"/></OutputVars>
    <Plugs><AdapterDeclaration Name="P" Type="Drive"/></Plugs>
  </InterfaceList>
  <BasicFB><ECC>
    <ECState Name="START"/>
    <ECState Name="ASK"><ECAction Algorithm="ASK" Output="P.RUN"/></ECState>
    <ECState Name="TOLD"><ECAction Algorithm="TELL" Output="READY"/></ECState>
    <ECTransition Source="START" Destination="ASK" Condition="GO"/>
    <ECTransition Source="ASK" Destination="TOLD" Condition="P.DONE[P.COUNT &gt; 0]"/>
    <ECTransition Source="TOLD" Destination="START" Condition="1"/>
  </ECC>
  <Algorithm Name="ASK"><ST Text="P.SPEED := P.SPEED + 7;"/></Algorithm>
  <Algorithm Name="TELL"><ST Text="N := p.count;"/></Algorithm>
  </BasicFB>
</FBType>
"""
SLAVE = """<FBType Name="Slave">
  <InterfaceList><Sockets><AdapterDeclaration Name="S" Type="Drive"/></Sockets></InterfaceList>
  <BasicFB><ECC>
    <ECState Name="START"/>
    <ECState Name="DO"><ECAction Algorithm="DO" Output="S.DONE"/></ECState>
    <ECTransition Source="START" Destination="DO" Condition="S.RUN"/>
    <ECTransition Source="DO" Destination="START" Condition="1"/>
  </ECC>
  <Algorithm Name="DO"><ST Text="S.COUNT := S.COUNT + S.SPEED;"/></Algorithm>
  </BasicFB>
</FBType>
"""
# A composite with a socket, which it hands on to a slave inside.
SHELL = """<FBType Name="Shell">
  <InterfaceList><Sockets><AdapterDeclaration Name="OUTER" Type="Drive"/></Sockets></InterfaceList>
  <FBNetwork><FB Name="INNER" Type="Slave"/>
    <AdapterConnections><Connection Source="OUTER" Destination="INNER.S"/></AdapterConnections></FBNetwork>
</FBType>
"""
MASTER_AND_SLAVE = system(
    '<FB Name="M" Type="Master"/><FB Name="W" Type="Slave"/>'
    '<AdapterConnections><Connection Source="M.P" Destination="W.S"/></AdapterConnections>'
)
FILES = {"lib/Drive.adp": ADAPTER, "lib/Master.fbt": MASTER, "lib/Slave.fbt": SLAVE, "lib/Shell.fbt": SHELL}
TWO = "tick,event,values\n1,M.GO,\n2,M.GO,\n"


def test_an_adapter_becomes_ports(tmp_path):
    done = import_all(tmp_path, {**FILES, "A.sys": MASTER_AND_SLAVE})
    assert done.status == 0, done.lines
    # The master asks with 7 and then 14; the slave adds up: 7, 21.
    assert (
        done.run(3, TWO)
        == """\
1 MAIN > M.GO
1 MAIN < M.P__RUN P__SPEED=7
1 MAIN > W.S__RUN S__SPEED=7
1 MAIN < W.S__DONE S__COUNT=7
1 MAIN > M.P__DONE P__COUNT=7
1 MAIN < M.READY N=7
2 MAIN > M.GO
2 MAIN < M.P__RUN P__SPEED=14
2 MAIN > W.S__RUN S__SPEED=14
2 MAIN < W.S__DONE S__COUNT=21
2 MAIN > M.P__DONE P__COUNT=21
2 MAIN < M.READY N=21
end 3
"""
    )


def test_a_composite_hands_an_adapter_on(tmp_path):
    done = import_all(
        tmp_path, {**FILES, "A.sys": MASTER_AND_SLAVE.replace('"Slave"', '"Shell"').replace("W.S", "W.OUTER")}
    )
    assert done.status == 0, done.lines
    assert (
        done.run(2, TWO)
        == """\
1 MAIN > M.GO
1 MAIN < M.P__RUN P__SPEED=7
1 MAIN > W.OUTER__RUN OUTER__SPEED=7
1 MAIN > W.INNER.S__RUN S__SPEED=7
1 MAIN < W.INNER.S__DONE S__COUNT=7
1 MAIN < W.OUTER__DONE OUTER__COUNT=7
1 MAIN > M.P__DONE P__COUNT=7
1 MAIN < M.READY N=7
end 2
"""
    )


@pytest.mark.parametrize(
    "source, target, part, says",
    [
        ("W.S", "M.P", "W.S", "W.S: type Slave has no plug S (it has none)"),
        ("M.P", "M.P", 'Destination="M.P', "M.P: type Master has no socket P (it has none)"),
        ("M.X", "W.S", "M.X", "M.X: type Master has no plug X (it has P)"),
        ("X.P", "W.S", "X.P", "there is no instance X"),
    ],
)
def test_an_adapter_connection_is_refused_at_its_place(source, target, part, says, tmp_path):
    text = MASTER_AND_SLAVE.replace('Source="M.P" Destination="W.S"', f'Source="{source}" Destination="{target}"')
    done = import_all(tmp_path, {**FILES, "A.sys": text})
    line, column = place_of(text, part).split(":")
    column = int(column) + (len('Destination="') if part.startswith("Dest") else 0)
    assert done.status == 2 and f"A.sys:{line}:{column}: {says}" in done.lines, done.lines


def test_adapters_of_two_types_do_not_fit(tmp_path):
    other = {
        "lib/Other.adp": ADAPTER.replace('"Drive"', '"Other"').replace('"RUN"', '"GO"'),
        "lib/Slave.fbt": SLAVE.replace('"Drive"', '"Other"').replace("S.RUN", "S.GO"),
    }
    done = import_all(tmp_path, {**FILES, **other, "A.sys": MASTER_AND_SLAVE})
    place = place_of(MASTER_AND_SLAVE, "M.P")
    assert done.lines == [f"A.sys:{place}: a plug of type Drive does not fit a socket of type Other"]


COMPOSITE = """<FBType Name="Twice">
  <InterfaceList>
    <EventInputs><Event Name="EI"><With Var="N"/></Event></EventInputs>
    <EventOutputs><Event Name="EO"><With Var="M"/></Event></EventOutputs>
    <InputVars><VarDeclaration Name="N" Type="INT"/></InputVars>
    <OutputVars><VarDeclaration Name="M" Type="INT"/></OutputVars>
  </InterfaceList>
  <FBNetwork>
    <FB Name="ONE" Type="Adder"/><FB Name="TWO" Type="Adder"><Parameter Name="QI" Value="1"/></FB>
    <EventConnections><Connection Source="EI" Destination="ONE.REQ"/>
      <Connection Source="ONE.CNF" Destination="TWO.REQ"/>
      <Connection Source="TWO.CNF" Destination="EO"/></EventConnections>
    <DataConnections><Connection Source="N" Destination="ONE.A"/><Connection Source="ONE.SUM" Destination="TWO.A"/>
      <Connection Source="TWO.SUM" Destination="M"/></DataConnections>
  </FBNetwork>
</FBType>
"""


def test_a_composite_stays_one_and_keeps_the_order_of_its_connections(tmp_path):
    network = '<FB Name="T" Type="Twice"/>'
    files = {"lib/Twice.fbt": COMPOSITE, "lib/Adder.fbt": basic("SUM := A * 2;"), "A.sys": system(network)}
    done = import_all(tmp_path, files)
    assert done.status == 0, done.lines
    assert (
        done.run(1, "tick,event,values\n0,T.EI,N=21\n")
        == """\
0 MAIN > T.EI N=21
0 MAIN > T.ONE.REQ A=21 QI=FALSE
0 MAIN < T.ONE.CNF SUM=42
0 MAIN > T.TWO.REQ A=42 QI=TRUE
0 MAIN < T.TWO.CNF SUM=84
0 MAIN < T.EO M=84
end 1
"""
    )


def test_types_are_written_if_they_are_reached_and_after_those_that_they_use(tmp_path):
    files = {
        "lib/Twice.fbt": COMPOSITE,
        "lib/sub/Adder.fbt": basic(),
        "lib/Other.fbt": basic().replace("Adder", "Other"),
        "A.sys": system('<FB Name="T" Type="Twice"/>'),
    }
    done = import_all(tmp_path, files)
    assert done.status == 0, done.lines
    text = done.text("types.iec")
    assert 0 < text.index("FUNCTION_BLOCK ADDER") < text.index("FUNCTION_BLOCK TWICE")
    assert "OTHER" not in text


def test_types_alone_become_an_application_with_one_instance_of_each(tmp_path):
    done = import_all(tmp_path, {"Adder.fbt": basic(), "Twice.fbt": COMPOSITE})
    assert done.status == 0, done.lines
    assert "APPLICATION TYPES FBS ADDER : ADDER; TWICE : TWICE; END_FBS" in done.declaration()


SIMPLE = """<FBType Name="Simple">
  <InterfaceList>
    <EventInputs><Event Name="REQ"><With Var="A"/></Event><Event Name="CLEAR"/></EventInputs>
    <EventOutputs><Event Name="CNF"><With Var="B"/></Event></EventOutputs>
    <InputVars><VarDeclaration Name="A" Type="INT"/></InputVars>
    <OutputVars><VarDeclaration Name="B" Type="INT"/></OutputVars>
  </InterfaceList>
  <SimpleFB><Algorithm Name="REQ"><ST>B := B + A;</ST></Algorithm>
    <Algorithm Name="CLEAR"><ST>B := 0;</ST></Algorithm></SimpleFB>
</FBType>
"""


def test_a_simple_type_gets_a_chart(tmp_path):
    done = import_all(tmp_path, {"Simple.fbt": SIMPLE})
    assert done.status == 0, done.lines
    assert (
        done.run(4, "tick,event,values\n0,SIMPLE.REQ,A=3\n1,SIMPLE.REQ,A=4\n2,SIMPLE.CLEAR,\n")
        == """\
0 MAIN > SIMPLE.REQ A=3
0 MAIN < SIMPLE.CNF B=3
1 MAIN > SIMPLE.REQ A=4
1 MAIN < SIMPLE.CNF B=7
2 MAIN > SIMPLE.CLEAR
2 MAIN < SIMPLE.CNF B=0
end 4
"""
    )


def test_a_simple_type_with_states_of_its_own(tmp_path):
    states = (
        '<SimpleECState Name="REQ"><SimpleECAction Algorithm="CLEAR" Output="CNF"/></SimpleECState>'
        '<SimpleECState Name="CLEAR"><SimpleECAction Algorithm="REQ"/><SimpleECAction Output="CNF"/></SimpleECState>'
    )
    done = import_all(tmp_path, {"Simple.fbt": SIMPLE.replace("<SimpleFB>", f"<SimpleFB>{states}")})
    assert done.status == 0, done.lines
    assert "ON__REQ : CLEAR -> CNF; ON__CLEAR : REQ, -> CNF;" in done.declaration()


def test_a_simple_type_without_an_algorithm_for_an_event_is_refused(tmp_path):
    text = SIMPLE.replace('<Algorithm Name="CLEAR"', '<Algorithm Name="OTHER"')
    done = import_all(tmp_path, {"Simple.fbt": text})
    assert done.status == 2
    assert done.lines[0].startswith(f"Simple.fbt:{place_of(text, 'CLEAR')}: there is no algorithm for CLEAR")


# ---- Annex A

BUILT_IN = """<FBType Name="E_SR">
  <InterfaceList>
    <EventInputs><Event Name="S"/><Event Name="R"/></EventInputs>
    <EventOutputs><Event Name="EO"><With Var="Q"/></Event></EventOutputs>
    <OutputVars><VarDeclaration Name="Q" Type="BOOL"/></OutputVars>
  </InterfaceList>
  <BasicFB><ECC><ECState Name="A"/><ECState Name="B"><ECAction Algorithm="ON" Output="EO"/></ECState>
    <ECState Name="C"><ECAction Algorithm="OFF" Output="EO"/></ECState>
    <ECTransition Source="A" Destination="B" Condition="S"/><ECTransition Source="B" Destination="C" Condition="R"/>
    <ECTransition Source="C" Destination="B" Condition="S"/></ECC>
    <Algorithm Name="ON"><ST Text="Q := TRUE;"/></Algorithm><Algorithm Name="OFF"><ST Text="Q := FALSE;"/></Algorithm></BasicFB>
</FBType>
"""


def test_a_file_with_the_interface_and_the_chart_of_a_built_in_block_is_that_block(tmp_path):
    done = import_all(tmp_path, {"lib/E_SR.fbt": BUILT_IN, "A.sys": system('<FB Name="F" Type="E_SR"/>')})
    assert done.status == 0, done.lines
    assert "F : E_SR;" in done.declaration() and "FUNCTION_BLOCK" not in done.declaration()


def test_a_file_with_another_interface_is_another_type(tmp_path):
    text = BUILT_IN.replace('<Event Name="R"/>', '<Event Name="R"/><Event Name="T"/>')
    done = import_all(tmp_path, {"lib/E_SR.fbt": text, "A.sys": system('<FB Name="F" Type="E_SR"/>')})
    assert done.status == 0, done.lines
    assert "F : E_SR_1;" in done.declaration() and "FUNCTION_BLOCK E_SR_1" in done.declaration()
    assert "type E_SR: E_SR_1" in done.text("import.txt")


ANNEX = """E_RS E_TRAIN E_TABLE E_N_TABLE E_T_FF E_DEMUX E_SPLIT_3 E_SPLIT_4 E_MERGE_3 E_MERGE_4 E_T_FF_SR E_CTD E_CTUD E_RDELAY
    E_PULSE E_TON E_TOF E_TP E_SPLIT_17 E_MERGE_2 TON TOF TP CTU CTD CTUD RS SR"""


@pytest.mark.parametrize("name", ANNEX.split())
def test_types_of_annex_a_come_with_all_that_they_need(name, tmp_path):
    done = import_all(tmp_path, {"A.sys": system(f'<FB Name="F" Type="{name}"/>')})
    assert done.status == 0, done.lines
    assert f"F : {name};" in done.declaration() and f"FUNCTION_BLOCK {name} " in done.declaration()


def test_the_names_of_4diac_for_timers_are_known(tmp_path):
    text = service("FB_TON").replace("SHOW", "REQ")
    done = import_all(tmp_path, {"lib/FB_TON.fbt": text, "A.sys": system('<FB Name="F" Type="FB_TON"/>')})
    assert done.status == 0, done.lines
    assert "F : TON;" in done.declaration()


# Files of tools without a chart, and names without a file.
@pytest.mark.parametrize("has_file", [True, False])
def test_splits_and_merges_of_any_number_are_made(has_file, tmp_path):
    network = '<FB Name="S" Type="E_SPLIT_5"/><FB Name="M" Type="iec61499::events::E_MERGE_6"/>'
    network += connections("Event", "S.EO5 M.EI1", "S.EO2 M.EI6")
    files = {f"lib/{it}.fbt": service(it).replace("SHOW", "EI").replace("PRESSED", "EO") for it in ("E_SPLIT_5", "E_MERGE_6")}
    done = import_all(tmp_path, {**(files if has_file else {}), "A.sys": system(network)})
    assert done.status == 0, done.lines
    assert (
        done.run(1, "tick,event,values\n0,S.EI,\n")
        == """\
0 MAIN > S.EI
0 MAIN < S.EO1
0 MAIN < S.EO2
0 MAIN < S.EO3
0 MAIN < S.EO4
0 MAIN < S.EO5
0 MAIN > M.EI6
0 MAIN < M.EO
0 MAIN > M.EI1
0 MAIN < M.EO
end 1
"""
    )


@pytest.mark.parametrize("name", ["E_SPLIT_1", "E_SPLIT_201", "E_MERGE_X", "E_MERGE_²", "E_REND_3"])
def test_other_names_like_splits_are_no_types(name, tmp_path):
    done = import_all(tmp_path, {"A.sys": system(f'<FB Name="S" Type="{name}"/>')})
    assert done.status == 2 and len(done.lines) == 1, done.lines


def test_a_list_of_times_is_given_to_the_inputs_of_a_table(tmp_path):
    values = '<Parameter Name="DT" Value="[T#1s, T#2.5s,T#3ms]"/><Parameter Name="N" Value="3"/>'
    network = f'<FB Name="F" Type="E_TABLE">{values}</FB>'
    done = import_all(tmp_path, {"A.sys": system(network)})
    assert done.status == 0, done.lines
    assert "F : E_TABLE(DT0 := T#1000ms, DT1 := T#2500ms, DT2 := T#3ms, N := 3);" in done.declaration()


def test_the_package_has_the_file_of_the_repository():
    package = TOP / "python" / "src" / "fbsim" / "importer" / "annex_a.iec"
    assert package.read_bytes() == (TOP / "share" / "annex_a.iec").read_bytes()


# ---- What is refused


@pytest.mark.parametrize(
    "old, new, part, says",
    [
        (
            '<ECState Name="ADD">',
            '<ECState Name="ADD" Colour="red">',
            "Colour",
            "the attribute Colour of ECState is not known",
        ),
        ("<InternalVars>", "<Methods/><InternalVars>", "<Methods", "the element Methods in BasicFB is not known"),
        ("<InternalVars>", "<InternalVars>some text", "some", "InternalVars has a text, which is not known"),
        (
            "</OutputVars>",
            '</OutputVars><InOutVars><VarDeclaration Name="Z" Type="INT"/></InOutVars>',
            "<InOutVars",
            "VAR_IN_OUT",
        ),
        ('Name="B" Type="INT"', 'Name="B" Type="INT" ArraySize="4"', '4"', "B is an array"),
        ('<With Var="A"/>', '<With Var="SUM"/>', 'SUM"', "type Adder has no data input SUM"),
        ('Name="REQ" Type="Event"', 'Name="REQ" Type="Alarm"', "Alarm", "Alarm is no type of an event here"),
        ('Algorithm="ADD"', 'Algorithm="SUB"', "SUB", "there is no algorithm SUB"),
        ('Output="CNF"', 'Output="REQ"', 'REQ"/></ECState', "type Adder has no event output REQ"),
        ('Destination="ADD"', 'Destination="AD"', 'AD" Cond', "there is no state AD"),
        ("<ST>", '<Other Language="C" Text="x"/><ST>', "<Other", "algorithm ADD is not in Structured Text"),
        ("<ST><![CDATA[SUM := A;]]></ST>", '<FBD/>', "<FBD", "the element FBD in Algorithm is not known"),
        ('Name="B"', 'Name="A"', 'A" Type="INT"/><VarDeclaration Name="ON', "the variable A is given twice"),
        ('Name="B"', 'Name="B-1"', "B-1", "'B-1' is no name"),
        ('Name="Adder"', 'Name=""', '" Comment="adds', "'' is no name"),
    ],
)
def test_what_is_not_known_is_refused_at_its_place(old, new, part, says, tmp_path):
    text = basic().replace(old, new, 1)
    done = import_all(tmp_path, {"Adder.fbt": text})
    assert done.status == 2
    place = place_of(text, part)
    assert [it for it in done.lines if it.startswith(f"Adder.fbt:{place}: ") and says in it], (place, done.lines)


def test_constants_of_a_type_are_internal_variables(tmp_path):
    text = basic("SUM := A + LIMIT_1;").replace(
        "<ECC>",
        '<InternalConstVars><VarDeclaration Name="LIMIT_1" Type="INT" InitialValue="7"/></InternalConstVars><ECC>',
    )
    done = import_all(tmp_path, {"Adder.fbt": text})
    assert done.status == 0, done.lines
    assert "LIMIT_1 : INT := 7;" in done.declaration()


def test_a_type_that_is_missing_is_refused_where_it_is_used(tmp_path):
    text = system('<FB Name="F" Type="Nowhere"/><FB Name="G" Type="E_SR"/>' + connections("Event", "F.EO G.S"))
    done = import_all(tmp_path, {"A.sys": text})
    assert done.lines == [
        f"A.sys:{place_of(text, 'Nowhere')}: there is no type Nowhere in the files: give its folder by --lib"
    ]


def test_a_type_in_a_file_with_another_name_is_refused(tmp_path):
    done = import_all(tmp_path, {"lib/Summer.fbt": basic(), "A.sys": system('<FB Name="F" Type="Summer"/>')})
    assert done.lines == ["lib/Summer.fbt:2:15: the type Adder is in a file with the name Summer"]


def test_a_composite_that_contains_itself_is_refused(tmp_path):
    text = COMPOSITE.replace("Adder", "Twice").replace('Name="TWO" Type="Twice"', 'Name="TWO" Type="E_SR"')
    text = text[: text.index("<EventConnections>")] + "</FBNetwork></FBType>"
    text = text.replace('<Parameter Name="QI" Value="1"/>', "")
    done = import_all(tmp_path, {"Twice.fbt": text})
    assert done.status == 2 and "E25" in done.lines[0], done.lines
    assert done.lines[0].startswith(f"Twice.fbt:{place_of(text, 'ONE')}: ")


def test_what_means_nothing_is_counted(tmp_path):
    text = basic().replace("<BasicFB>", '<BasicFB><!-- a --><?b c?><Attribute Name="x"><Strange y="1"/></Attribute>')
    text = text.replace(
        "<FBType ",
        '<FBType xmlns:xsi="http://www.w3.org/2001/XMLSchema-instance" '
        'xsi:noNamespaceSchemaLocation="http://www.holobloc.com/xml/LibraryElement.xsd" ',
    )
    done = import_all(tmp_path, {"Adder.fbt": text})
    assert done.status == 0, done.lines
    assert "attribute Comment: 1" in done.text("import.txt") and "element Attribute: 1" in done.text("import.txt")
