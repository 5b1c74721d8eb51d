"""Stubs of service interface types: how they answer, which types become stubs, and which ports are left out."""

from __future__ import annotations

import pytest
from importing import basic, connections, import_all, place_of, service, system

PANEL = system(
    '<FB Name="P" Type="Panel"/><FB Name="A" Type="Adder"/>'
    + connections("Event", "P.PRESSED A.REQ", "A.CNF P.SHOW")
    + connections("Data", "P.KEY A.A", "A.SUM P.N")
)
IX = """<FBType Name="IX">
  <InterfaceList>
    <EventInputs><Event Name="INIT"><With Var="QI"/><With Var="PARAMS"/></Event>
      <Event Name="REQ"><With Var="QI"/></Event></EventInputs>
    <EventOutputs><Event Name="INITO"><With Var="QO"/><With Var="STATUS"/></Event>
      <Event Name="CNF"><With Var="QO"/><With Var="STATUS"/><With Var="IN"/></Event>
      <Event Name="IND"><With Var="QO"/><With Var="STATUS"/><With Var="IN"/></Event></EventOutputs>
    <InputVars><VarDeclaration Name="QI" Type="BOOL"/><VarDeclaration Name="PARAMS" Type="STRING"/></InputVars>
    <OutputVars><VarDeclaration Name="QO" Type="BOOL"/><VarDeclaration Name="STATUS" Type="STRING"/>
      <VarDeclaration Name="IN" Type="BOOL"/></OutputVars>
  </InterfaceList>
  <Service LeftInterface="APPLICATION" RightInterface="RESOURCE">SEQUENCES</Service>
</FBType>
"""
INPUT = '<FB Name="I" Type="IX"><Parameter Name="QI" Value="1"/><Parameter Name="PARAMS" Value="&quot;pin 3&quot;"/></FB>'


def sequence(*rows):
    """Returns a service sequence; a row has its primitives, that of the application without a side."""
    text = ""
    for row in rows:
        primitives = []
        for number, word in enumerate(row.split()):
            side, _, event = word.rpartition("/")
            tag = "OutputPrimitive" if number else "InputPrimitive"
            primitives.append(f'<{tag} Interface="{side or "APPLICATION"}" Event="{event}" Parameters="IN"/>')
        text += f"<ServiceTransaction>{''.join(primitives)}</ServiceTransaction>"
    return f'<ServiceSequence Name="S" ServiceSequenceType="POSSIBLE" Comment="">{text}</ServiceSequence>'


def import_input(folder, sequences="", *words, network=INPUT, **files):
    stub = words or ("--stub", "IX")
    return import_all(folder, {"lib/IX.fbt": IX.replace("SEQUENCES", sequences), "A.sys": system(network), **files}, *stub)


# The input has its value when it is asked, and keeps it; IND is what nobody asked for.
@pytest.mark.parametrize(
    "sequences",
    ["", sequence("INIT+ RESOURCE/open INITO+", "REQ+ RESOURCE/get CNF+", "REQ+ CNF-")],
    ids=["names", "sequences"],
)
def test_a_stub_answers_requests_in_the_same_tick(sequences, tmp_path):
    done = import_input(tmp_path, sequences)
    assert done.status == 0, done.lines
    stimuli = "0,I.INIT,\n1,I.REQ,GIVE_IN=TRUE\n2,I.REQ,\n3,I.REQ,QI=FALSE\n4,I.GIVE_IND,GIVE_IN=FALSE\n5,I.GIVE_CNF,GIVE_QO=FALSE\n"
    assert (
        done.run(9, "tick,event,values\n" + stimuli)
        == """\
0 MAIN > I.INIT QI=TRUE
0 MAIN < I.INITO QO=TRUE
1 MAIN > I.REQ QI=TRUE GIVE_IN=TRUE
1 MAIN < I.CNF QO=TRUE IN=TRUE
2 MAIN > I.REQ QI=TRUE GIVE_IN=TRUE
2 MAIN < I.CNF QO=TRUE IN=TRUE
3 MAIN > I.REQ QI=FALSE GIVE_IN=TRUE
3 MAIN < I.CNF QO=FALSE IN=TRUE
4 MAIN > I.GIVE_IND GIVE_QO=TRUE GIVE_IN=FALSE
4 MAIN < I.IND QO=TRUE IN=FALSE
5 MAIN > I.GIVE_CNF GIVE_QO=FALSE GIVE_IN=FALSE
5 MAIN < I.CNF QO=FALSE IN=FALSE
end 9
"""
    )


# By its sequences REQ leads to IND, then to CNF; INIT leads to nothing of the application, so its name decides.
def test_the_service_sequences_say_what_a_stub_answers(tmp_path):
    done = import_input(tmp_path, sequence("REQ- CNF-", "INIT+ RESOURCE/open", "RESOURCE/opened IND+") + sequence("REQ IND CNF"))
    assert done.status == 0, done.lines
    lines = done.run(3, "tick,event,values\n0,I.INIT,\n1,I.REQ,GIVE_IN=TRUE\n").splitlines()
    assert [it for it in lines if " < " in it] == [
        "0 MAIN < I.INITO QO=TRUE", "1 MAIN < I.IND QO=TRUE IN=TRUE", "1 MAIN < I.CNF QO=TRUE IN=TRUE"]
    assert "IX is a stub: REQ leads to IND, CNF, INIT leads to INITO" in done.text("import.txt")


def test_an_event_without_an_answer_leads_to_nothing(tmp_path):
    files = {"lib/Panel.fbt": service(), "lib/Adder.fbt": basic("SUM := A + 1;"), "A.sys": PANEL}
    done = import_all(tmp_path, files, "--stub", "Panel")
    assert done.status == 0, done.lines
    assert "P.PRESSED: the stimulus P.GIVE_PRESSED GIVE_KEY=.." in done.text("import.txt")
    assert "Panel is a stub: SHOW to nothing" in done.text("import.txt")
    assert (
        done.run(9, "tick,event,values\n5,P.GIVE_PRESSED,GIVE_KEY=41\n")
        == """\
5 MAIN > P.GIVE_PRESSED GIVE_KEY=41
5 MAIN < P.PRESSED KEY=41
5 MAIN > A.REQ A=41 QI=FALSE
5 MAIN < A.CNF SUM=42
5 MAIN > P.SHOW N=42
end 9
"""
    )


# ---- Which types become stubs


def test_a_service_interface_type_is_refused_by_name(tmp_path):
    text = service()
    files = {"lib/Panel.fbt": text, "lib/Adder.fbt": basic(), "A.sys": PANEL}
    for words in ([], ["--stub", "QX,IX"]):
        done = import_all(tmp_path / str(len(words)), files, *words)
        assert done.status == 2
        assert done.lines == [
            f"lib/Panel.fbt:{place_of(text, 'Panel')}: Panel is a service interface type: "
            "the simulator has none (see --stub Panel)"
        ]


@pytest.mark.parametrize(
    "words",
    [["--stub", "all"], ["--stub", "IX,Panel"], ["--stub", "ix", "--stub", "io::PANEL"], ["--stub", "All"]],
)
def test_stubs_are_named_one_by_one_or_all(words, tmp_path):
    network = INPUT + '<FB Name="P" Type="Panel"/>'
    done = import_input(tmp_path, "", *words, network=network, **{"lib/Panel.fbt": service()})
    assert done.status == 0, done.lines


@pytest.mark.parametrize("words", [["A.sys", "--stub"], ["--stub", "A.sys"], ["A.sys", "--stub", "QX,,IX"], ["A.sys", "--stub="]])
def test_stub_without_names_is_a_wrong_command_line(words, tmp_path, capsys):
    done = import_all(tmp_path, {}, *words)
    assert done.status == 5
    assert "give the names of service interface types, as QX,IX, or all" in done.lines[-1], done.lines


LOGIC = """<FBType Name="{0}">{2}
  <InterfaceList><EventInputs><Event Name="START"/><Event Name="STOP"/></EventInputs>
    <EventOutputs><Event Name="EO"/></EventOutputs></InterfaceList>
  {1}
</FBType>
"""
SERVICE = '<Service LeftInterface="A" RightInterface="B"/>'


@pytest.mark.parametrize(
    "name, inside, package, says",
    [
        ("E_STOPWATCH", SERVICE, "", "E_STOPWATCH is of a library of events or functions, and its file has no chart"),
        ("Watch", SERVICE, '<CompilerInfo packageName="plant::events"/>', "Watch is of a library of events or functions"),
        ("F_NEW", SERVICE, "", "F_NEW is of a library of events or functions"),
        ("Watch", "", "", "Watch has neither a chart nor a <Service>: the simulator has none (see --stub Watch)"),
    ],
)
def test_logic_without_a_chart_becomes_a_stub_by_its_name_alone(name, inside, package, says, tmp_path):
    text = LOGIC.format(name, inside, package)
    files = {f"lib/{name}.fbt": text, "A.sys": system(f'<FB Name="W" Type="{name}"/>')}
    done = import_all(tmp_path, files, "--stub", "all")
    assert done.status == 2 and len(done.lines) == 1
    assert done.lines[0].startswith(f"lib/{name}.fbt:{place_of(text, name)}: {says}"), done.lines
    assert import_all(tmp_path / "named", files, "--stub", name).status == 0


# ---- Ports of types that the profile lacks


def test_ports_of_other_types_are_left_out_with_what_is_at_them(tmp_path):
    shown = service("Show").replace('Name="N" Type="INT"', 'Name="N" Type="STRING"')
    network = INPUT + '<FB Name="S" Type="Show"/>' + connections("Event", "I.CNF S.SHOW") + connections("Data", "I.STATUS S.N")
    done = import_input(tmp_path, "", "--stub", "all", network=network, **{"lib/Show.fbt": shown})
    assert done.status == 0, done.lines
    text = system(network)
    report = done.text("import.txt")
    assert f"lib/IX.fbt:{place_of(IX, 'PARAMS', 2)}: PARAMS of IX is left out: STRING is no type of the profile" in report
    assert f"lib/IX.fbt:{place_of(IX, 'STATUS', 4)}: STATUS of IX is left out" in report
    assert f"A.sys:{place_of(text, 'PARAMS')}: the parameter PARAMS is left out: STRING is no type" in report
    assert f"A.sys:{place_of(text, 'I.STATUS')}: the connection of I.STATUS (STRING) and S.N (STRING) is left out" in report
    assert "0 MAIN > S.SHOW\n" in done.run(1, "tick,event,values\n0,I.REQ,\n")


@pytest.mark.parametrize(
    "kind, row, says",
    [
        ("Data", "I.STATUS A.A", "I.STATUS (STRING) and A.A (INT)"),
        ("Data", "A.SUM I.PARAMS", "A.SUM (INT) and I.PARAMS (STRING)"),
    ],
)
def test_a_connection_of_a_left_out_port_is_refused_with_both_ends(kind, row, says, tmp_path):
    network = INPUT + '<FB Name="A" Type="Adder"/>' + connections(kind, row)
    done = import_input(tmp_path, network=network, **{"lib/Adder.fbt": basic()})
    assert done.status == 2
    assert done.lines == [
        f"A.sys:{place_of(system(network), row.split()[0])}: {says}: STRING is no type of the profile, "
        "so such a port can be connected only to another one"
    ]


# The parameter of a stub comes through a subapplication and a composite type, whose ports are left out too.
def test_subapplications_and_composite_types_hand_on_what_is_left_out(tmp_path):
    interface = """<InterfaceList><EventInputs><Event Name="ASK"><With Var="WHERE"/></Event></EventInputs>
      <EventOutputs><Event Name="GOT"><With Var="IN"/></Event></EventOutputs>
      <InputVars><VarDeclaration Name="WHERE" Type="STRING"/></InputVars>
      <OutputVars><VarDeclaration Name="IN" Type="BOOL"/></OutputVars></InterfaceList>"""
    inside = f"""<FBNetwork><FB Name="I" Type="IX"/>{connections("Event", "ASK I.REQ", "I.CNF GOT")}
      {connections("Data", "WHERE I.PARAMS", "I.IN IN")}</FBNetwork>"""
    outer = inside.replace("IX", "Box").replace("I.REQ", "I.ASK").replace("I.CNF", "I.GOT").replace("I.PARAMS", "I.WHERE")
    files = {
        "lib/Box.fbt": f'<FBType Name="Box">{interface}{inside}</FBType>',
        "lib/Part.sub": f'<SubAppType Name="Part">{interface}{outer}</SubAppType>',
    }
    network = '<SubApp Name="S" Type="Part"><Parameter Name="WHERE" Value="\'pin 3\'"/></SubApp>'
    done = import_input(tmp_path, network=network, **files)
    assert done.status == 0, done.lines
    assert "STRING" not in done.declaration()
    assert (
        done.run(1, "tick,event,values\n0,S__I.ASK,\n")
        == """\
0 MAIN > S__I.ASK
0 MAIN > S__I.I.REQ QI=FALSE GIVE_IN=FALSE
0 MAIN < S__I.I.CNF QO=FALSE IN=FALSE
0 MAIN < S__I.GOT IN=FALSE
end 1
"""
    )
    # A block with a chart has no port that can be left out.
    box = files["lib/Box.fbt"].replace('Type="IX"', 'Type="Adder"').replace("I.PARAMS", "I.A").replace("I.IN", "I.SUM")
    done = import_all(tmp_path / "two", {"lib/Box.fbt": box, "lib/Adder.fbt": basic(), "A.sys": system('<FB Name="B" Type="Box"/>')})
    assert f"lib/Box.fbt:{place_of(box, 'WHERE', 3)}: WHERE (STRING) and I.A (INT): STRING is no type" in done.lines[0], done.lines


def test_names_of_stubs_that_stand_for_nothing_are_listed(tmp_path):
    files = {"lib/Panel.fbt": service(), "lib/Adder.fbt": basic(), "lib/Other.fbt": service("Other")}
    network = system('<FB Name="P" Type="Panel"/><FB Name="A" Type="Adder"/>')
    done = import_all(tmp_path, {**files, "P.sys": network}, "--stub", "Zzz,Panel", "--stub", "Adder,other")
    assert done.status == 0, done.lines
    listed = [it.strip() for it in done.text("import.txt").splitlines() if "--stub" in it]
    # (Adder has a chart, Other is in a file that nothing uses, and there is no Zzz)
    assert listed == [f"--stub {it}: no service interface type of this name is used" for it in ("ADDER", "OTHER", "ZZZ")]


def test_stubs_for_all_list_no_name(tmp_path):
    done = import_all(tmp_path, {"lib/Panel.fbt": service(), "P.sys": system('<FB Name="P" Type="Panel"/>')}, "--stub", "all")
    assert done.status == 0 and "--stub" not in done.text("import.txt"), done.lines
