"""--lint: warnings at their places in the XML, also where a part of the project is refused."""

from __future__ import annotations

import contextlib
import io

import pytest
from fbsim.importer.command import main
from importing import connections, mappings, place_of, resource, system

# A state that nothing enters, a variable that nothing reads, and an input that no event samples.
TANK = """<FBType Name="Tank">
  <InterfaceList>
    <EventInputs><Event Name="Fill"><With Var="Amount"/></Event></EventInputs>
    <EventOutputs><Event Name="Full"><With Var="Level"/></Event></EventOutputs>
    <InputVars><VarDeclaration Name="Amount" Type="INT"/></InputVars>
    <OutputVars><VarDeclaration Name="Level" Type="INT"/></OutputVars>
  </InterfaceList>
  <BasicFB><InternalVars><VarDeclaration Name="Spare" Type="INT"/></InternalVars>
    <ECC><ECState Name="Wait"/><ECState Name="Add"><ECAction Algorithm="Add" Output="Full"/></ECState><ECState Name="Lost"/>
    <ECTransition Source="Wait" Destination="Add" Condition="Fill"/><ECTransition Source="Add" Destination="Wait" Condition="1"/>
    <ECTransition Source="Lost" Destination="Wait" Condition="Fill"/></ECC>
    <Algorithm Name="Add"><ST Text="Level := Amount;"/></Algorithm></BasicFB>
</FBType>
"""
CLEAN = TANK.replace('<VarDeclaration Name="Spare" Type="INT"/>', "").replace('<ECState Name="Lost"/>', "").replace(
    '<ECTransition Source="Lost" Destination="Wait" Condition="Fill"/>', "")
# (the panel has a text, so that it is refused)
PANEL = TANK.replace('"Tank"', '"Panel"').replace('Name="Spare" Type="INT"', 'Name="Spare" Type="STRING"')
STATE = "block type Tank: state Lost: no transitions lead to it from the initial state"
SPARE = "block type Tank: variable Spare: no guard and no algorithm reads it"


def linted(folder, files, *words):
    """Writes files, lints those at the top with those below `lib` as the library, and returns status, errors and output."""
    for name, text in files.items():
        path = folder / name
        path.parent.mkdir(parents=True, exist_ok=True)
        path.write_text(text)
    given = [name for name in files if "/" not in name]
    library = ["--lib", "lib"] if (folder / "lib").is_dir() else []
    said, out = io.StringIO(), io.StringIO()
    with contextlib.chdir(folder), contextlib.redirect_stderr(said), contextlib.redirect_stdout(out):
        try:
            status = main(["--lint", *given, *library, *words])
        except SystemExit as end:
            status = end.code
    return status, said.getvalue().splitlines(), out.getvalue()


def driven(*names):
    """Returns a block that starts, and connections from it to the inputs Fill of instances."""
    rows = [f"Start.COLD {it}.Fill" for it in names]
    values = "".join(f'<FB Name="{it}" Type="Tank"><Parameter Name="Amount" Value="3"/></FB>' for it in names)
    return f'<FB Name="Start" Type="E_RESTART"/>{values}', rows


def test_warnings_are_at_their_places_in_the_xml(tmp_path):
    blocks, rows = driven("A")
    files = {"lib/Tank.fbt": TANK, "P.sys": system(blocks + connections("Event", *rows))}
    status, said, out = linted(tmp_path, files)
    lost, spare = place_of(TANK, 'Lost"'), place_of(TANK, 'Spare"')
    assert (status, out) == (0, "linted 1 of 1 types and 2 of 2 instances\n")
    assert said == [f"lib/Tank.fbt:{lost}: L05: {STATE}", f"lib/Tank.fbt:{spare}: L22: {SPARE}"]


@pytest.mark.parametrize("words, status", [
    (["--deny", "L22"], 1), (["--deny", "l05"], 1), (["--deny", "L06"], 0), (["--deny", "all"], 1), (["--strict"], 0),
    (["--deny", "L24"], 5), (["--out", "x"], 5), (["--latency", "0"], 5),
])
def test_deny_gives_a_status(words, status, tmp_path):
    blocks, rows = driven("A")
    files = {"lib/Tank.fbt": TANK, "P.sys": system(blocks + connections("Event", *rows))}
    assert linted(tmp_path, files, *words)[0] == status
    if status != 5:
        assert linted(tmp_path, {**files, "lib/Tank.fbt": CLEAN}, *words) == (0, [], "linted 1 of 1 types and 2 of 2 instances\n")


def test_an_import_denies_no_number_of_the_simulator(tmp_path):
    (tmp_path / "P.sys").write_text(system('<FB Name="A" Type="E_SR"/>'))
    with contextlib.chdir(tmp_path), contextlib.redirect_stderr(io.StringIO()) as said, pytest.raises(SystemExit) as end:
        main(["P.sys", "--out", "out", "--deny", "L05"])
    assert end.value.code == 5 and "needs --lint" in said.getvalue()


def test_what_is_refused_is_left_out_with_what_hangs_on_it(tmp_path):
    blocks, rows = driven("A")
    # B and its value come from a block that is refused: that B has no source is no warning then. So it is for the type Missing.
    network = (blocks + '<FB Name="P" Type="Panel"/><FB Name="M" Type="Missing"/><FB Name="B" Type="Tank"/>' +
               connections("Event", *rows, "P.Full B.Fill", "A.Full P.Fill", "M.X A.Fill") + connections("Data", "P.Level B.Amount"))
    files = {"lib/Tank.fbt": TANK, "lib/Panel.fbt": PANEL, "P.sys": system(network)}
    status, said, out = linted(tmp_path, files)
    assert status == 0
    assert said == [
        f"P.sys:{place_of(files['P.sys'], 'Missing')}: refused: there is no type Missing in the files: give its folder by --lib",
        f"lib/Panel.fbt:{place_of(PANEL, 'STRING')}: refused: STRING is no type of the profile: give each text a number",
        f"lib/Tank.fbt:{place_of(TANK, 'Lost' + chr(34))}: L05: {STATE}",
        f"lib/Tank.fbt:{place_of(TANK, 'Spare' + chr(34))}: L22: {SPARE}",
    ]
    assert out == ("linted 1 of 3 types and 3 of 5 instances; refused: 2, left out with what hangs on it; "
                   "warnings not shown, since what is left out may cause them: 2\n")
    # Without the connections it is a warning: nothing leads to B, and its input has no source.
    files["P.sys"] = system(blocks + '<FB Name="P" Type="Panel"/><FB Name="B" Type="Tank"/>' + connections("Event", *rows))
    said = linted(tmp_path, files)[1]
    place = place_of(files["P.sys"], 'B" Type')
    assert f"P.sys:{place}: L15: application App: instance B: no event connection and no stimulus leads to it" in said
    assert [it for it in said if f"P.sys:{place}: L02: application App: instance B : Tank, data input Amount: " in it]


def test_connections_and_parameters_that_are_refused_are_left_out_alone(tmp_path):
    blocks, rows = driven("A", "B")
    network = blocks.replace('Value="3"', 'Value="3.5"', 1) + connections("Event", *rows, "A.Nothing B.Fill")
    files = {"lib/Tank.fbt": CLEAN, "P.sys": system(network)}
    status, said, out = linted(tmp_path, files)
    assert status == 0 and [it.partition(": refused: ")[0] for it in said] == [
        f"P.sys:{place_of(files['P.sys'], '3.5')}", f"P.sys:{place_of(files['P.sys'], 'A.Nothing')}"]
    assert out.startswith("linted 1 of 1 types and 3 of 3 instances; refused: 2, left out with what hangs on it; warnings not shown")


def test_what_the_simulator_refuses_is_left_out_too(tmp_path):
    wide = CLEAN.replace('"Tank"', '"Wide"').replace('Name="Level" Type="INT"', 'Name="Level" Type="DINT"')
    blocks, rows = driven("A")
    network = blocks + '<FB Name="W" Type="Wide"><Parameter Name="Amount" Value="1"/></FB>' + connections(
        "Event", *rows, "A.Full W.Fill") + connections("Data", "W.Level A.Amount")
    files = {"lib/Tank.fbt": TANK, "lib/Wide.fbt": wide, "P.sys": system(network.replace('<Parameter Name="Amount" Value="3"/>', ""))}
    status, said, out = linted(tmp_path, files)
    assert status == 0 and said[0].startswith(f"P.sys:{place_of(files['P.sys'], 'W.Level')}: refused: E23: ")
    assert len(said) == 3 and "refused: 1" in out


def test_a_composite_without_a_part_keeps_its_other_parts(tmp_path):
    box = """<FBType Name="Box"><InterfaceList><EventInputs><Event Name="Go"/></EventInputs><EventOutputs><Event Name="Out"/></EventOutputs></InterfaceList>
  <FBNetwork><FB Name="T" Type="Tank"><Parameter Name="Amount" Value="1"/></FB><FB Name="P" Type="Panel"/>
    <EventConnections><Connection Source="Go" Destination="T.Fill"/><Connection Source="P.Full" Destination="Out"/></EventConnections></FBNetwork></FBType>
"""
    network = '<FB Name="Start" Type="E_RESTART"/><FB Name="B" Type="Box"/>' + connections("Event", "Start.COLD B.Go")
    status, said, out = linted(tmp_path, {"lib/Tank.fbt": TANK, "lib/Panel.fbt": PANEL, "lib/Box.fbt": box, "P.sys": system(network)})
    assert status == 0 and [it.split(": ")[1] for it in said] == ["refused", "L05", "L22"]
    assert out.startswith("linted 2 of 3 types and 3 of 4 instances; refused: 1")


def test_a_type_with_an_adapter_that_is_refused_hangs_on_it(tmp_path):
    adapter = ('<AdapterType Name="Drive"><InterfaceList><EventOutputs><Event Name="RUN"><With Var="S"/></Event></EventOutputs>'
               '<OutputVars><VarDeclaration Name="S" Type="REAL"/></OutputVars></InterfaceList></AdapterType>')
    master = TANK.replace('"Tank"', '"Master"').replace("</OutputVars>", '</OutputVars><Plugs><AdapterDeclaration Name="D" Type="Drive"/></Plugs>').replace(
        'Output="Full"/>', 'Output="Full"/><ECAction Output="D.RUN"/>')
    blocks, rows = driven("A")
    files = {"lib/Drive.adp": adapter, "lib/Master.fbt": master, "lib/Tank.fbt": CLEAN,
             "P.sys": system(blocks + '<FB Name="M" Type="Master"/>' + connections("Event", *rows, "A.Full M.Fill"))}
    status, said, out = linted(tmp_path, files)
    assert status == 0 and len(said) == 1 and said[0].startswith(f"lib/Drive.adp:{place_of(adapter, 'REAL')}: refused: REAL "), said
    assert out.startswith("linted 1 of 2 types and 2 of 3 instances; refused: 1")


def test_warnings_of_the_importer_are_shown(tmp_path):
    blocks, rows = driven("A", "B")
    text = system(blocks + connections("Event", *rows, "A.Full B.Fill"), resource("D", "R") + resource("E", "S"),
                  mappings("App", Start="D.R", A="D.R", B="E.S"))
    status, said, _ = linted(tmp_path, {"lib/Tank.fbt": CLEAN, "P.sys": text}, "--deny", "I02")
    assert status == 1 and all(": I02: " in it for it in said) and len(said) == 2, said


def test_a_file_that_is_no_xml_has_status_2(tmp_path):
    assert linted(tmp_path, {"P.sys": "<System"})[0::2] == (2, "")
    status, said, out = linted(tmp_path, {"P.sys": '<System Name="S"><Application Name="1x"><FBNetwork/></Application></System>'})
    assert status == 0 and "refused: '1x' is no name" in said[0], (said, out)


def test_a_subapplication_keeps_what_is_not_refused(tmp_path):
    sub = ('<SubAppType Name="Sub"><Strange/><SubAppInterfaceList><SubAppEventInputs><SubAppEvent Name="GO"><With Var="S"/></SubAppEvent></SubAppEventInputs>'
           '<InputVars><VarDeclaration Name="S" Type="STRING"/></InputVars></SubAppInterfaceList><SubAppNetwork>'
           '<FB Name="T" Type="Tank"><Parameter Name="Amount" Value="1"/></FB><FB Name="P" Type="Panel"/>' +
           connections("Event", "GO T.Fill", "P.Full T.Fill") + connections("Data", "S P.Amount") + "</SubAppNetwork></SubAppType>")
    network = '<FB Name="Start" Type="E_RESTART"/><SubApp Name="U" Type="Sub"/>' + connections("Event", "Start.COLD U.GO")
    files = {"lib/Sub.sub": sub, "lib/Tank.fbt": TANK, "lib/Panel.fbt": PANEL, "P.sys": system(network)}
    status, said, out = linted(tmp_path, files)
    assert status == 0 and [it.split(": ")[1] for it in said] == ["refused"] * 3 + ["L05", "L22"], said
    assert out.startswith("linted 1 of 2 types and 2 of 3 instances; refused: 3")
