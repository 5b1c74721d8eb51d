"""Which file has a type: packages, hidden folders, files that are not imported, and types that the simulator has too."""

from __future__ import annotations

import random
import subprocess

import pytest
from fbsim.importer.bodies import declared
from fbsim.importer.blocks import packaged
from fbsim.program import find_program
from importing import basic, connections, import_all, place_of, service, system


def valve(value, package=""):
    """Returns the type Valve, whose REQ leads to CNF with this number."""
    about = f'<CompilerInfo packageName="{package}" header="h"><Import declaration="x::y"/></CompilerInfo>' if package else ""
    return f"""<FBType Name="Valve">{about}
  <InterfaceList><EventInputs><Event Name="REQ"/></EventInputs>
    <EventOutputs><Event Name="CNF"><With Var="R"/></Event></EventOutputs>
    <OutputVars><VarDeclaration Name="R" Type="INT"/></OutputVars></InterfaceList>
  <BasicFB><ECC><ECState Name="S"/><ECState Name="T"><ECAction Algorithm="A" Output="CNF"/></ECState>
    <ECTransition Source="S" Destination="T" Condition="REQ"/><ECTransition Source="T" Destination="S" Condition="1"/></ECC>
    <Algorithm Name="A"><ST Text="R := {value};"/></Algorithm></BasicFB>
</FBType>
"""


TWO = system('<FB Name="A" Type="aa::Valve"/><FB Name="B" Type="bb::Valve"/>')
STIMULI = "tick,event,values\n1,A.REQ,\n2,B.REQ,\n"


def test_types_of_one_name_are_distinguished_by_package(tmp_path):
    files = {"lib/aa/Valve.fbt": valve(1, "aa"), "lib/bb/Valve.fbt": valve(2, "bb"), "P.sys": TWO}
    done = import_all(tmp_path, files)
    assert done.status == 0, done.lines
    assert done.run(3, STIMULI) == "1 MAIN > A.REQ\n1 MAIN < A.CNF R=1\n2 MAIN > B.REQ\n2 MAIN < B.CNF R=2\nend 3\n"
    assert "type bb::Valve: VALVE_1" in done.text("import.txt")


def test_a_package_finds_a_file_in_any_folder_and_one_without_a_package(tmp_path):
    # (the folders have other names than the packages, and come in the other order)
    done = import_all(tmp_path, {"lib/1/Valve.fbt": valve(2, "bb"), "lib/2/Valve.fbt": valve(1), "P.sys": TWO})
    assert done.status == 0, done.lines
    assert done.run(3, STIMULI) == "1 MAIN > A.REQ\n1 MAIN < A.CNF R=1\n2 MAIN > B.REQ\n2 MAIN < B.CNF R=2\nend 3\n"


@pytest.mark.parametrize("first, second, names", [
    (valve(1, "aa"), valve(2, "bb"), "Valve"), (valve(1), valve(2), "Valve"), (valve(1, "aa"), valve(2, "aa"), "aa::Valve"),
])
def test_a_type_that_two_files_have_is_refused_with_both(first, second, names, tmp_path):
    text = system(f'<FB Name="A" Type="{names}"/>')
    done = import_all(tmp_path, {"lib/aa/Valve.fbt": first, "lib/bb/Valve.fbt": second, "P.sys": text})
    assert done.status == 2 and len(done.lines) == 1
    assert done.lines[0].startswith(
        f"P.sys:{place_of(text, names)}: Valve is in 2 files, lib/aa/Valve.fbt and lib/bb/Valve.fbt: give its package")


@pytest.mark.parametrize("package, says", [("aa", "aa::Valve"), ("bb", "bb::Valve"), ("cc", "bb::Valve"), ("", "bb::Valve")])
def test_the_advice_in_a_composite_is_its_own_package(package, says, tmp_path):
    about = f'<CompilerInfo packageName="{package}"/>' if package else ""
    box = f"""<FBType Name="Box">{about}<InterfaceList><EventInputs><Event Name="REQ"/></EventInputs></InterfaceList>
<FBNetwork><FB Name="V" Type="Valve"/></FBNetwork></FBType>"""
    files = {"lib/aa/Valve.fbt": valve(1, "aa"), "lib/bb/Valve.fbt": valve(2, "bb"), "lib/Box.fbt": box, "P.sys": system('<FB Name="A" Type="Box"/>')}
    done = import_all(tmp_path, files)
    assert done.status == 2 and f"give its package, as {says}, or keep one of the files" in done.lines[0], done.lines


def test_a_type_of_another_package_is_none(tmp_path):
    done = import_all(tmp_path, {"lib/Valve.fbt": valve(1, "bb"), "P.sys": system('<FB Name="A" Type="aa::Valve"/>')})
    assert done.status == 2
    assert done.lines[0].endswith("there is no type aa::Valve in the files: lib/Valve.fbt has the package bb")


def test_two_files_with_one_text_are_one_type_and_a_folder_counts_once(tmp_path):
    files = {"lib/a/Valve.fbt": valve(1), "lib/b/Valve.fbt": valve(1), "P.sys": system('<FB Name="A" Type="Valve"/>')}
    done = import_all(tmp_path, files, "--lib", "lib/a")
    assert done.status == 0, done.lines


def test_a_hidden_folder_or_file_has_no_types(tmp_path):
    files = {"lib/.backup/Valve.fbt": valve(1), "lib/cell/Valve.fbt": valve(2), "lib/cell/.Valve.fbt": valve(3),
             "P.sys": system('<FB Name="A" Type="Valve"/>')}
    done = import_all(tmp_path, files)
    assert done.status == 0, done.lines
    assert done.run(2, "tick,event,values\n1,A.REQ,\n") == "1 MAIN > A.REQ\n1 MAIN < A.CNF R=2\nend 2\n"


def test_a_type_of_the_command_line_keeps_its_package(tmp_path):
    files = {"Valve.fbt": valve(1, "aa"), "lib/Valve.fbt": valve(2, "bb")}
    done = import_all(tmp_path, files)
    assert done.status == 0, done.lines
    assert "R := 1;" in done.text("types.iec")
    done = import_all(tmp_path, {**files, "lib/Valve.fbt": valve(2, "aa")}, out="second")
    assert done.status == 2 and "Valve is in 2 files, " in done.lines[0]


@pytest.mark.parametrize("end, says", [
    (".dtp", "a data type (lib/x/Clamp.dtp)"), (".fct", "a function (lib/x/Clamp.fct)"),
    (".gcf", "a set of global constants (lib/x/Clamp.gcf)"),
])
def test_a_file_that_is_not_imported_is_named(end, says, tmp_path):
    text = system('<FB Name="A" Type="Clamp"/>')
    done = import_all(tmp_path, {f"lib/x/Clamp{end}": "<any/>", "P.sys": text})
    assert done.status == 2
    assert done.lines[0].startswith(f"P.sys:{place_of(text, 'Clamp')}: Clamp is {says}, ")


FUNCTION = '<FunctionFBType Name="Clamp"><CompilerInfo packageName="plant"/></FunctionFBType>'
GLOBALS = '<GlobalConstants Name="{}"><GlobalConstants><VarDeclaration Name="{}" Type="INT" InitialValue="5"/></GlobalConstants></GlobalConstants>'
# A body or a guard, the part at which it is refused, and what the line says of the file of --lib.
OF_FILES = [
    ("SUM := clamp(A);", "REQ", "clamp(", "clamp is a function (lib/x/Clamp.fct), and functions are not in the profile: write its formula"),
    ("", "REQ[Clamp(A) &gt; 3]", "Clamp(", "Clamp is a function (lib/x/Clamp.fct), and functions are not in the profile: write its formula"),
    ("SUM := MAXV;", "REQ", "MAXV", "there is no variable MAXV: it is in a set of global constants (lib/H.gcf), which are not imported: declare"),
    ("", "REQ[A &gt; maxv]", "maxv", "there is no variable maxv: it is in a set of global constants (lib/H.gcf), which are not imported: declare"),
    ("SUM := H.MAXV;", "REQ", "H.MAXV", "there is no variable H.MAXV: it is in a set of global constants (lib/H.gcf), which are not"),
    ("CASE A OF MAXV: SUM := 1; END_CASE;", "REQ", "MAXV", "MAXV is no constant: it is in a set of global constants (lib/H.gcf), which are not"),
    ("SUM := LOWV;", "REQ", "LOWV", "there is no variable LOWV: it may be in a set of global constants (lib/G.gcf, lib/H.gcf), which are not"),
]


@pytest.mark.parametrize("body, condition, part, says", OF_FILES, ids=[f"{it[0]} {it[1]}" for it in OF_FILES])
def test_a_function_or_a_global_constant_is_refused_with_its_file(body, condition, part, says, tmp_path):
    text = basic(body, condition)
    files = {"lib/x/Clamp.fct": FUNCTION, "lib/G.gcf": GLOBALS.format("G", "MAXVAL"), "lib/H.gcf": GLOBALS.format("H", "MAXV")}
    done = import_all(tmp_path, {**files, "Adder.fbt": text})
    assert done.status == 2 and done.lines[0].startswith(f"Adder.fbt:{place_of(text, part)}: {says}"), done.lines


@pytest.mark.parametrize("text", [b"\xff\xfe\x00", b"<!-- ", b"x" * (2**22 + 1), "<a Name='MAXV'/>".encode("utf-16")], ids=["odd", "open", "long", "utf-16"])
def test_a_file_of_constants_that_can_not_be_read_may_have_the_name(text, tmp_path):
    done = import_all(tmp_path, {"lib/G.gcf": text, "Adder.fbt": basic("SUM := MAXV;")})
    verb = "is" if len(text) == 34 else "may be"
    assert done.status == 2 and f"there is no variable MAXV: it {verb} in a set of global constants (lib/G.gcf), which" in done.lines[0], done.lines


# ---- Types that the simulator has too

BISTABLE = """<FBType Name="SR">
  <InterfaceList><EventInputs><Event Name="REQ"><With Var="S1"/><With Var="R"/></Event></EventInputs>
    <EventOutputs><Event Name="CNF"><With Var="Q1"/></Event></EventOutputs>
    <InputVars><VarDeclaration Name="S1" Type="BOOL"/><VarDeclaration Name="R" Type="BOOL"/></InputVars>
    <OutputVars><VarDeclaration Name="Q1" Type="BOOL"/></OutputVars></InterfaceList>
  <BasicFB><ECC><ECState Name="OFF"/><ECState Name="ON"><ECAction Algorithm="SET" Output="CNF"/></ECState>
    <ECState Name="AGAIN"><ECAction Algorithm="CLEAR" Output="CNF"/></ECState>
    <ECTransition Source="OFF" Destination="ON" Condition="REQ[S1]"/>
    <ECTransition Source="ON" Destination="AGAIN" Condition="REQ[R AND NOT S1]"/>
    <ECTransition Source="AGAIN" Destination="ON" Condition="REQ[S1]"/></ECC>
    <Algorithm Name="SET"><ST Text="Q1 := TRUE;"/></Algorithm><Algorithm Name="CLEAR"><ST Text="Q1 := FALSE;"/></Algorithm>
  </BasicFB>
</FBType>
"""


def test_a_bistable_of_the_project_is_not_replaced(tmp_path):
    network = '<FB Name="B" Type="SR"><Parameter Name="S1" Value="TRUE"/></FB><FB Name="N" Type="E_CTU"/>' + connections("Event", "B.CNF N.CU")
    done = import_all(tmp_path, {"lib/SR.fbt": BISTABLE, "P.sys": system(network)})
    assert done.status == 0, done.lines
    # It confirms a change alone, so three events REQ count once. The SR of the standard confirms each.
    assert done.run(9, "tick,event,values\n1,B.REQ,\n2,B.REQ,\n3,B.REQ,\n") == """\
1 MAIN > B.REQ S1=TRUE R=FALSE
1 MAIN < B.CNF Q1=TRUE
1 MAIN > N.CU PV=0
1 MAIN < N.CUO Q=TRUE CV=1
2 MAIN > B.REQ S1=TRUE R=FALSE
3 MAIN > B.REQ S1=TRUE R=FALSE
end 9
"""
    assert "lib/SR.fbt:1:15: SR is not the simulator's SR: this file is used" in done.text("import.txt")


def test_the_faults_of_a_file_with_a_body_are_shown(tmp_path):
    text = BISTABLE.replace('<VarDeclaration Name="R" Type="BOOL"/>', '<VarDeclaration Name="R" Type="BOOL"/><VarDeclaration Name="T" Type="STRING"/>')
    done = import_all(tmp_path, {"lib/SR.fbt": text, "P.sys": system('<FB Name="B" Type="SR"/>')})
    assert done.status == 2 and done.lines[0].startswith(f"lib/SR.fbt:{place_of(text, 'STRING')}: STRING is no type of the profile")


def test_a_type_alone_is_the_users_too(tmp_path):
    done = import_all(tmp_path, {"SR.fbt": BISTABLE})
    assert done.status == 0 and "SR : SR_1;" in done.declaration(), done.lines


# As libraries of types store them, with conditions in several spellings.
STORED = {
    "E_SR": """<InterfaceList><EventInputs><Event Name="S"/><Event Name="R"/></EventInputs>
      <EventOutputs><Event Name="EO"><With Var="Q"/></Event></EventOutputs><OutputVars><VarDeclaration Name="Q" Type="BOOL"/></OutputVars></InterfaceList>
      <BasicFB><ECC><ECState Name="Q0"/><ECState Name="RESET"><ECAction Algorithm="RESET" Output="EO"/></ECState>
        <ECState Name="SET"><ECAction Algorithm="SET" Output="EO"/></ECState>
        <ECTransition Source="Q0" Destination="SET" Condition="S"/><ECTransition Source="SET" Destination="RESET" Condition="R"/>
        <ECTransition Source="RESET" Destination="SET" Condition="S"/></ECC>
        <Algorithm Name="SET"><ST Text="Q:=TRUE; (* on *)"/></Algorithm><Algorithm Name="RESET"><ST><![CDATA[Q := FALSE;]]></ST></Algorithm></BasicFB>""",
    "E_D_FF": """<InterfaceList><EventInputs><Event Name="CLK"><With Var="D"/></Event></EventInputs>
      <EventOutputs><Event Name="EO"><With Var="Q"/></Event></EventOutputs><InputVars><VarDeclaration Name="D" Type="BOOL"/></InputVars>
      <OutputVars><VarDeclaration Name="Q" Type="BOOL"/></OutputVars></InterfaceList>
      <BasicFB><ECC><ECState Name="Q0"/><ECState Name="RESET"><ECAction Algorithm="LATCH" Output="EO"/></ECState>
        <ECState Name="SET"><ECAction Algorithm="LATCH" Output="EO"/></ECState>
        <ECTransition Source="Q0" Destination="SET" Condition="CLK&amp;D"/><ECTransition Source="SET" Destination="RESET" Condition="CLK AND (NOT D)"/>
        <ECTransition Source="RESET" Destination="SET" Condition="CLK[D = TRUE]"/></ECC>
        <Algorithm Name="LATCH"><ST Text="Q:=D;"/></Algorithm></BasicFB>""",
    "E_CTU": """<InterfaceList><EventInputs><Event Name="CU"><With Var="PV"/></Event><Event Name="R"/></EventInputs>
      <EventOutputs><Event Name="CUO"><With Var="Q"/><With Var="CV"/></Event><Event Name="RO"><With Var="Q"/><With Var="CV"/></Event></EventOutputs>
      <InputVars><VarDeclaration Name="PV" Type="UINT"/></InputVars>
      <OutputVars><VarDeclaration Name="Q" Type="BOOL"/><VarDeclaration Name="CV" Type="UINT"/></OutputVars></InterfaceList>
      <BasicFB><ECC><ECState Name="START"/><ECState Name="R"><ECAction Algorithm="R" Output="RO"/></ECState>
        <ECState Name="CU"><ECAction Algorithm="CU" Output="CUO"/></ECState>
        <ECTransition Source="START" Destination="R" Condition="R"/><ECTransition Source="R" Destination="START" Condition="1"/>
        <ECTransition Source="START" Destination="CU" Condition="CU[CV&lt;65535]"/><ECTransition Source="CU" Destination="START" Condition="1"/></ECC>
        <Algorithm Name="R"><ST Text="CV:=0;&#10;Q:=FALSE;"/></Algorithm><Algorithm Name="CU"><ST Text="CV:=CV+1;&#10;Q:=(CV&gt;=PV);"/></Algorithm></BasicFB>""",
    "E_R_TRIG": """<InterfaceList><EventInputs><Event Name="EI"><With Var="QI"/></Event></EventInputs>
      <EventOutputs><Event Name="EO"/></EventOutputs><InputVars><VarDeclaration Name="QI" Type="BOOL"/></InputVars></InterfaceList>
      <FBNetwork><FB Name="SWITCH" Type="iec61499::events::E_SWITCH"/><FB Name="FF" Type="iec61499::events::E_D_FF"/>
        <EventConnections><Connection Source="FF.EO" Destination="SWITCH.EI"/><Connection Source="SWITCH.EO1" Destination="EO"/>
          <Connection Source="EI" Destination="FF.CLK"/></EventConnections>
        <DataConnections><Connection Source="QI" Destination="FF.D"/><Connection Source="FF.Q" Destination="SWITCH.G"/></DataConnections></FBNetwork>""",
}


@pytest.mark.parametrize("name", STORED)
def test_a_file_of_the_event_library_is_the_built_in_block(name, tmp_path):
    text = f'<FBType Name="{name}">{STORED[name]}</FBType>'
    done = import_all(tmp_path, {f"lib/events/{name}.fbt": text, "P.sys": system(f'<FB Name="F" Type="{name}"/>')})
    assert done.status == 0, done.lines
    assert f"F : {name};" in done.declaration() and "FUNCTION_BLOCK" not in done.declaration()
    assert f"{name} is a type of the event library: the simulator's {name} is used" in done.text("import.txt")


@pytest.mark.parametrize("name, old, new", [
    ("E_SR", "Q:=TRUE;", "Q:=FALSE;"), ("E_SR", 'Source="RESET" Destination="SET"', 'Source="SET" Destination="SET"'),
    ("E_D_FF", "CLK AND (NOT D)", "CLK"), ("E_CTU", "CV&gt;=PV", "CV=PV"), ("E_CTU", 'Condition="CU[CV&lt;65535]"', 'Condition="CU"'),
    ("E_R_TRIG", "SWITCH.EO1", "SWITCH.EO0"), ("E_R_TRIG", 'Type="iec61499::events::E_D_FF"/>', 'Type="E_D_FF"><Parameter Name="D" Value="TRUE"/></FB>'),
    ("E_SR", '<ECAction Algorithm="SET" Output="EO"/>', '<ECAction Algorithm="SET" Output="EO"/><ECAction Output="EO"/>'),
    ("E_SR", "<BasicFB>", '<BasicFB><InternalVars><VarDeclaration Name="Z" Type="INT"/></InternalVars>'),
])
def test_a_file_with_another_chart_or_network_is_used(name, old, new, tmp_path):
    assert old in STORED[name]
    text = f'<FBType Name="{name}">{STORED[name].replace(old, new)}</FBType>'
    done = import_all(tmp_path, {f"lib/{name}.fbt": text, "P.sys": system(f'<FB Name="F" Type="{name}"/>')})
    assert done.status == 0, done.lines
    assert f"F : {name}_1;" in done.declaration() and f"FUNCTION_BLOCK {name}_1 " in done.declaration()
    assert f"{name} is not the simulator's {name}: this file is used" in done.text("import.txt")


@pytest.mark.parametrize("package, status", [("iec61499::events", 0), ("IEC61499.Standard", 0), ("cell", 2)])
def test_a_block_of_the_simulator_is_in_a_package_of_the_standards(package, status, tmp_path):
    done = import_all(tmp_path, {"P.sys": system(f'<FB Name="F" Type="{package}::E_SR"/>')})
    assert done.status == status, done.lines


def in_package(text, package):
    return text.replace(">", f'><CompilerInfo packageName="{package}"/>', 1)


@pytest.mark.parametrize("name, text", [
    ("SR", BISTABLE), ("FB_TON", BISTABLE.replace('"SR"', '"FB_TON"')), ("E_SPLIT_3", BISTABLE.replace('"SR"', '"E_SPLIT_3"')),
    ("E_SR", f'<FBType Name="E_SR">{STORED["E_SR"].replace("TRUE", "FALSE")}</FBType>'),
], ids=["SR", "FB_TON", "E_SPLIT_3", "E_SR"])
def test_the_only_file_of_a_name_is_used_by_its_plain_name(name, text, tmp_path):
    inside = f'<FB Name="F" Type="{name}"/><FB Name="G" Type="cell::{name}"/><FB Name="H" Type="iec61499::{name}"/>'
    done = import_all(tmp_path, {f"lib/{name}.fbt": in_package(text, "cell"), "P.sys": system(inside)})
    assert done.status == 0, done.lines
    usual = name.removeprefix("FB_")
    own = name if name != usual else f"{name}_1"
    assert f"F : {own}; G : {own}; H : {usual};" in done.declaration()
    assert f"lib/{name}.fbt:1:15: {name} is not the simulator's {usual}: this file is used" in done.text("import.txt")


def test_a_file_of_the_standards_comes_before_one_of_another_package(tmp_path):
    files = {"lib/a/SR.fbt": in_package(BISTABLE, "cell"), "lib/b/SR.fbt": in_package(BISTABLE, "iec61131::bistable").replace("R AND NOT S1", "R")}
    done = import_all(tmp_path, {**files, "P.sys": system('<FB Name="F" Type="SR"/>')})
    assert done.status == 0 and "lib/b/SR.fbt:1:15: SR is not the simulator's SR: this file is used" in done.text("import.txt"), done.lines


def test_two_files_with_other_packages_are_refused_by_their_plain_name(tmp_path):
    files = {f"lib/{it}/SR.fbt": in_package(BISTABLE, it).replace("R AND NOT S1", f"R OR {it}") for it in ("S1", "R")}
    text = system('<FB Name="F" Type="SR"/>')
    done = import_all(tmp_path, {**files, "P.sys": text})
    place = f"P.sys:{place_of(text, 'SR')}: SR is in 2 files, lib/R/SR.fbt and lib/S1/SR.fbt: give its package"
    assert done.status == 2 and done.lines[0].startswith(place), done.lines


BODIES = declared()


@pytest.mark.parametrize("number", range(len(BODIES)), ids=[f"{name}-{number}" for number, (name, _) in enumerate(BODIES)])
def test_a_known_body_does_what_the_built_in_block_does(number, tmp_path):
    name, body = BODIES[number]
    block = packaged("event_blocks.iec")[name]
    inside = block.text.partition(name)[2].rpartition("END_FUNCTION_BLOCK")[0]
    (tmp_path / "types.iec").write_text(f"FUNCTION_BLOCK MINE{inside}{body}END_FUNCTION_BLOCK\n")
    random.seed(number)
    events, data = block.side("event", False), block.side("data", False)
    rows = []
    for tick in range(1, 300):
        event = random.choice(events)
        carried = [it for it in data if it.name in [one for one, _ in event.withs]]
        values = [f"{it.name}={random.randint(0, 3) if it.type == 'UINT' else random.choice(['TRUE', 'FALSE'])}" for it in carried]
        rows.append(f"{tick},B.{event.name},{' '.join(values)}\n")
    traces = []
    for kind in (name, "MINE"):
        (tmp_path / "a.iec").write_text(f"APPLICATION A FBS B : {kind}; END_FBS END_APPLICATION\n")
        (tmp_path / "s.csv").write_text("tick,event,values\n" + "".join(rows))
        words = [find_program(), "run", "a.iec", "--types", "types.iec", "--stim", "s.csv", "--horizon", "400"]
        done = subprocess.run(words, cwd=tmp_path, capture_output=True, text=True)
        assert done.returncode == 0, done.stderr
        traces.append([it for it in done.stdout.splitlines() if it.count(".") < 2])
    assert traces[0] == traces[1] and sum(" < B." in it for it in traces[0]) > 20


def test_a_timer_without_a_body_is_that_of_the_simulator(tmp_path):
    text = service("FB_TON").replace("SHOW", "REQ")
    done = import_all(tmp_path, {"lib/FB_TON.fbt": text, "A.sys": system('<FB Name="F" Type="FB_TON"/>')})
    assert done.status == 0, done.lines
    assert "FB_TON is a type of the event library: the simulator's TON is used" in done.text("import.txt")
