"""Files as EcoStruxure Automation Expert stores them, and simple types in both spellings."""

from __future__ import annotations

import pytest
from importing import import_all, place_of

HEAD = '<?xml version="1.0" encoding="utf-8"?>\r\n<!DOCTYPE FBType SYSTEM "../LibraryElement.dtd">\r\n'
VALVE = HEAD + """<FBType GUID="5b1a64ec-6bd3-4f6b-a0d4-3f0d1e62b0f1" Name="Valve" Comment="Basic Function Block Type" Namespace="Main">
  <Attribute Name="Configuration.FB.IDCounter" Value="0" />
  <Identification Standard="61499-2" />
  <VersionInfo Organization="Plant" Version="0.0" Author="a" Date="1/7/2023" Remarks="template" />
  <InterfaceList>
    <EventInputs><Event Name="REQ"><With Var="OPEN" /></Event></EventInputs>
    <EventOutputs><Event Name="CNF"><With Var="MOVES" /></Event></EventOutputs>
    <InputVars><VarDeclaration Name="OPEN" Type="BOOL" /></InputVars>
    <OutputVars><VarDeclaration Name="MOVES" Type="INT" InitialValue="10" /></OutputVars>
  </InterfaceList>
  <BasicFB>
    <Attribute Name="FBType.Basic.Algorithm.Order" Value="REQ" />
    <ECC>
      <ECState Name="START" Comment="Initial State" x="552" y="429" />
      <ECState Name="REQ" x="217" y="752"><ECAction Algorithm="REQ" Output="CNF" /></ECState>
      <ECTransition Source="START" Destination="REQ" Condition="REQ AND OPEN" x="336" y="600">
        <Attribute Name="Configuration.Transaction.BezierPoints" Value="61.5,150.25,46.75,172.75" /></ECTransition>
      <ECTransition Source="REQ" Destination="START" Condition="1" x="415" y="613" />
    </ECC>
    <Algorithm Name="REQ" Comment="Normally executed algorithm"><ST><![CDATA[MOVES := MOVES + 1;]]></ST></Algorithm>
  </BasicFB>
</FBType>
"""
PAIR = HEAD + """<FBType GUID="c1d8c5b5-2f8b-46aa-8a1e-9a4c8f1b9f6d" Name="Pair" Namespace="Main">
  <InterfaceList>
    <EventInputs><Event Name="INIT"><With Var="QI" /></Event></EventInputs>
    <EventOutputs><Event Name="INITO"><With Var="N" /></Event></EventOutputs>
    <InputVars><VarDeclaration Name="QI" Type="BOOL" /></InputVars>
    <OutputVars><VarDeclaration Name="N" Type="INT" /></OutputVars>
  </InterfaceList>
  <FBNetwork>
    <FB ID="1" Name="V" Type="Valve" x="1020" y="460" Namespace="Main" />
    <FB ID="2" Name="W" Type="Valve" x="2020" y="460" Namespace="Main"><Parameter Name="OPEN" Value="TRUE" /></FB>
    <FB ID="7" Name="M" Type="E_MERGE" x="900" y="300" Namespace="IEC61499.Standard" />
    <Input Name="INIT" x="200" y="500" Type="Event" />
    <Input Name="QI" x="200" y="600" Type="Data" />
    <Output Name="INITO" x="3000" y="500" Type="Event" />
    <Output Name="N" x="3000" y="600" Type="Data" />
    <EventConnections>
      <Connection Source="$INIT" Destination="M.EI1" />
      <Connection Source="M.EO" Destination="V.REQ" dx1="40" />
      <Connection Source="V.CNF" Destination="W.REQ" />
      <Connection Source="W.CNF" Destination="$INITO" />
    </EventConnections>
    <DataConnections>
      <Connection Source="$QI" Destination="V.OPEN" />
      <Connection Source="W.MOVES" Destination="$N" />
    </DataConnections>
  </FBNetwork>
</FBType>
"""
STIMULI = "tick,event,values\n1,PAIR.INIT,QI=FALSE\n2,PAIR.INIT,QI=TRUE\n"


def test_a_basic_and_a_composite_type_come_in_unchanged(tmp_path):
    done = import_all(tmp_path, {"Pair.fbt": "\ufeff" + PAIR, "lib/Valve.fbt": "\ufeff" + VALVE})
    assert done.status == 0, done.lines
    # With QI=FALSE the chart of V stays; with TRUE both count, from 10 to 11.
    assert done.run(3, STIMULI) == """\
1 MAIN > PAIR.INIT QI=FALSE
1 MAIN > PAIR.M.EI1
1 MAIN < PAIR.M.EO
1 MAIN > PAIR.V.REQ OPEN=FALSE
2 MAIN > PAIR.INIT QI=TRUE
2 MAIN > PAIR.M.EI1
2 MAIN < PAIR.M.EO
2 MAIN > PAIR.V.REQ OPEN=TRUE
2 MAIN < PAIR.V.CNF MOVES=11
2 MAIN > PAIR.W.REQ OPEN=TRUE
2 MAIN < PAIR.W.CNF MOVES=11
2 MAIN < PAIR.INITO N=11
end 3
"""


def test_namespaces_distinguish_types_of_one_name(tmp_path):
    other = VALVE.replace('Namespace="Main"', 'Namespace="Spare"').replace("MOVES + 1", "MOVES + 5")
    text = PAIR.replace('Name="W" Type="Valve" x="2020" y="460" Namespace="Main"', 'Name="W" Type="Valve" x="2020" y="460" Namespace="Spare"')
    done = import_all(tmp_path, {"Pair.fbt": text, "lib/Main/Valve.fbt": VALVE, "lib/Spare/Valve.fbt": other})
    assert done.status == 0, done.lines
    assert "2 MAIN < PAIR.INITO N=15\n" in done.run(3, STIMULI)
    text = text.replace('Namespace="Spare"', 'Namespace="Third"')
    done = import_all(tmp_path, {"Pair.fbt": text, "lib/Main/Valve.fbt": VALVE, "lib/Spare/Valve.fbt": other}, out="third")
    assert done.status == 2 and "there is no type Third::Valve in the files: " in done.lines[0]


@pytest.mark.parametrize("wrong, says", [
    ("$INIX", "there is no port INIX"), ("$V.REQ", "there is no port V.REQ"), ("$QI", "has no event input QI"),
])
def test_a_port_of_the_network_itself_is_one(wrong, says, tmp_path):
    text = PAIR.replace('Source="$INIT"', f'Source="{wrong}"')
    done = import_all(tmp_path, {"Pair.fbt": text, "lib/Valve.fbt": VALVE})
    assert done.status == 2 and len(done.lines) == 1, done.lines
    assert done.lines[0].startswith(f"Pair.fbt:{place_of(text.replace(chr(13), ''), wrong)}: ") and says in done.lines[0]


SIMPLE = """<FBType Name="Sum">
  <InterfaceList>
    <EventInputs><Event Name="REQ"><With Var="A"/></Event><Event Name="CLR"/></EventInputs>
    <EventOutputs><Event Name="CNF"><With Var="S"/></Event><Event Name="DONE"/></EventOutputs>
    <InputVars><VarDeclaration Name="A" Type="INT"/></InputVars><OutputVars><VarDeclaration Name="S" Type="INT"/></OutputVars>
  </InterfaceList>
  <SimpleFB><STATE Name="REQ"><ACTION Algorithm="REQ" Output="CNF"/></STATE>
    <STATE Name="CLR"><ACTION Algorithm="CLR"/><ACTION Output="CNF"/><ACTION Output="DONE"/></STATE>
    <Algorithm Name="REQ"><ST Text="S := S + A;"/></Algorithm><Algorithm Name="CLR"><ST Text="S := 0;"/></Algorithm></SimpleFB>
</FBType>
"""


def simple(state="ECState", action="ECAction"):
    """Returns a simple type in a spelling."""
    return SIMPLE.replace("STATE", state).replace("ACTION", action)


@pytest.mark.parametrize("spelling", [("ECState", "ECAction"), ("SimpleECState", "SimpleECAction"), ("SimpleECState", "ECAction")])
def test_a_simple_type_has_states_in_both_spellings(spelling, tmp_path):
    done = import_all(tmp_path, {"Sum.fbt": simple(*spelling)})
    assert done.status == 0, done.lines
    assert done.run(4, "tick,event,values\n1,SUM.REQ,A=4\n2,SUM.REQ,A=3\n3,SUM.CLR,\n") == """\
1 MAIN > SUM.REQ A=4
1 MAIN < SUM.CNF S=4
2 MAIN > SUM.REQ A=3
2 MAIN < SUM.CNF S=7
3 MAIN > SUM.CLR
3 MAIN < SUM.CNF S=0
3 MAIN < SUM.DONE
end 4
"""


@pytest.mark.parametrize("old, new, part, says", [
    ('<ECState Name="CLR">', '<ECState Name="CLEAR">', 'CLEAR"', "type Sum has no event input CLEAR, so no event enters this state"),
    ('<ECState Name="CLR">', '<ECState Name="REQ">', 'REQ"><ECAction Algorithm="CLR', "the state REQ is given twice"),
])
def test_a_state_of_a_simple_type_has_the_name_of_an_event(old, new, part, says, tmp_path):
    text = simple().replace(old, new)
    done = import_all(tmp_path, {"Sum.fbt": text})
    assert f"Sum.fbt:{place_of(text, part)}: {says}" in done.lines
