"""map.json and what uses it: names and places of the project in traces and reports, its names in stimuli and rules, a second import."""

from __future__ import annotations

import contextlib
import io
import json
import subprocess
import sys

import pytest
from fbsim.importer.command import main
from fbsim.program import find_program
from importing import connections, import_all, mappings, place_of, resource, system

DOSER = """<FBType Name="Doser">
  <InterfaceList>
    <EventInputs><Event Name="Req"><With Var="Parts"/></Event></EventInputs>
    <EventOutputs><Event Name="Cnf"><With Var="Each"/></Event></EventOutputs>
    <InputVars><VarDeclaration Name="Parts" Type="INT"/></InputVars>
    <OutputVars><VarDeclaration Name="Each" Type="INT"/></OutputVars>
    <Plugs><AdapterDeclaration Name="Out" Type="Feed"/></Plugs>
  </InterfaceList>
  <BasicFB><ECC><ECState Name="Wait"/><ECState Name="Share"><ECAction Algorithm="Divide" Output="Cnf"/><ECAction Output="Out.Go"/></ECState>
    <ECTransition Source="Wait" Destination="Share" Condition="Req[Parts &lt; 50]"/>
    <ECTransition Source="Share" Destination="Wait" Condition="1"/></ECC>
\t<Algorithm Name="Divide"><ST Text="Each := 100 / Parts;&#10;Out.Size := Each;"/></Algorithm>
  </BasicFB>
</FBType>
"""
FEED = """<AdapterType Name="Feed"><InterfaceList><EventOutputs><Event Name="Go"><With Var="Size"/></Event></EventOutputs>
  <OutputVars><VarDeclaration Name="Size" Type="INT"/></OutputVars></InterfaceList></AdapterType>
"""
# A composite with a doser inside.
BOX = """<FBType Name="Box"><InterfaceList><EventInputs><Event Name="Ask"><With Var="N"/></Event></EventInputs>
  <InputVars><VarDeclaration Name="N" Type="INT"/></InputVars></InterfaceList>
  <FBNetwork><FB Name="inner" Type="Doser"/><EventConnections><Connection Source="Ask" Destination="inner.Req"/></EventConnections>
    <DataConnections><Connection Source="N" Destination="inner.Parts"/></DataConnections></FBNetwork></FBType>
"""
NETWORK = ('<SubApp Name="Cell"><FBNetwork><FB Name="Dose" Type="Doser"/><FB Name="Count" Type="E_CTU"/>' +
           connections("Event", "Dose.Cnf Count.CU") + '</FBNetwork></SubApp><FB Name="to" Type="Doser"/><FB Name="Box1" Type="Box"/>')
PLACES = {"Cell": "D1.Res", "to": "D1.Res", "Box1": "D2.Other"}
TEXT = system(NETWORK, resource("D1", "Res") + resource("D2", "Other"), mappings("App", **PLACES))
FILES = {"lib/Doser.fbt": DOSER, "lib/Feed.adp": FEED, "lib/Box.fbt": BOX, "P.sys": TEXT}
DECL = ["application.iec", "--types", "types.iec", "--deploy", "deploy.toml"]
STIMULI = """tick,event,values
1,Cell.Dose.Req,Parts=4
2,to.Req,Parts=60
2,Box1.Ask,N=20
3,cell.dose.REQ,parts=0
"""


def filtered(folder, *words, text=""):
    """Returns the status and the output of the importer as a filter, called in a folder."""
    said = io.StringIO()
    old, sys.stdin = sys.stdin, io.StringIO(text)
    try:
        with contextlib.chdir(folder), contextlib.redirect_stdout(said), contextlib.redirect_stderr(said):
            status = main(words)
    finally:
        sys.stdin = old
    return status, said.getvalue()


def simulated(done, *words):
    """Returns what the simulator writes to both outputs, in the folder of an import."""
    return subprocess.run([find_program(), *words], cwd=done.out, capture_output=True, text=True)


@pytest.fixture
def plant(tmp_path):
    """An import, with its stimuli, its trace and where it stopped."""
    done = import_all(tmp_path, FILES)
    assert done.status == 0, done.lines
    (tmp_path / "given.csv").write_text(STIMULI)
    status, text = filtered(tmp_path, "--names", "out", "given.csv")
    assert status == 0, text
    (done.out / "s.csv").write_text(text)
    ran = simulated(done, "run", *DECL, "--stim", "s.csv", "--horizon", "9", "--why")
    (done.out / "t.trace").write_text(ran.stdout)
    return done, text, ran


def test_stimuli_have_the_names_of_the_project(plant):
    _, text, _ = plant
    assert text == ("tick,event,values\n1,CELL__DOSE.REQ,PARTS=4\n2,TO_1.REQ,PARTS=60\n2,BOX1.ASK,N=20\n3,CELL__DOSE.REQ,PARTS=0\n")


def test_a_trace_gets_the_names_of_the_project(plant, tmp_path):
    done, _, ran = plant
    status, text = filtered(tmp_path, "--trace", "out", text=ran.stdout)
    assert (status, text) == (0, """\
1 Res > Cell.Dose.Req Parts=4
1 Res < Cell.Dose.Cnf Each=25
1 Res < Cell.Dose.Out.Go Out.Size=25
1 Res > Cell.Count.CU PV=0
1 Res < Cell.Count.CUO Q=TRUE CV=1
2 Res > to.Req Parts=60
2 Other > Box1.Ask N=20
2 Other > Box1.inner.Req Parts=20
2 Other < Box1.inner.Cnf Each=5
2 Other < Box1.inner.Out.Go Out.Size=5
3 Res > Cell.Dose.Req Parts=0
stop 3 Res divide
""")
    second = simulated(done, "run", *DECL, "--stim", "s.csv", "--horizon", "2", "--trace", "2").stdout.splitlines()[0]
    assert filtered(tmp_path, "--trace", "out", text=second)[1].endswith(" Res > Cell.Dose.Req Parts=4\n")


def test_a_stop_has_its_place_in_the_project(plant, tmp_path):
    _, _, ran = plant
    status, text = filtered(tmp_path, "--trace", "out", text=ran.stderr)
    first, line, mark = text.splitlines()
    assert status == 0 and first.startswith("lib/Doser.fbt:")
    assert first.endswith(": stop: Cell.Dose (type Doser), state Share, action 1, algorithm Divide: 100 / Parts: divide")
    at = first.split(":")
    assert line == DOSER.splitlines()[int(at[1]) - 1] and "Each := 100 / Parts" in line
    # (a tab of the line is one under it, so that the mark is below the character of the column)
    assert mark[:-1] == "\t" + " " * (int(at[2]) - 2) and mark[-1] == "^"
    # (the simulator marks the operator)
    assert int(at[2]) - 1 == line.index("/ Parts")


def test_inspect_and_coverage_have_the_names_of_the_project(plant, tmp_path):
    done, _, _ = plant
    said = simulated(done, "inspect", *DECL, "t.trace").stdout
    status, text = filtered(tmp_path, "--trace", "out", text=said)
    assert status == 0 and text.startswith("""\
1 Res > Cell.Dose.Req Parts=4
  Wait -> Share by Req [Parts < 50]
  Divide: Each=25 Out.Size=25
1 Res < Cell.Dose.Cnf Each=25
1 Res < Cell.Dose.Out.Go Out.Size=25
  Share -> Wait by 1
1 Res > Cell.Count.CU PV=0
  count 1
1 Res < Cell.Count.CUO Q=TRUE CV=1
2 Res > to.Req Parts=60
  lost in Wait
"""), text
    simulated(done, "run", *DECL, "--horizon", "9")
    (done.out / "none.trace").write_text("end 9\n")
    said = simulated(done, "coverage", *DECL, "none.trace").stdout
    status, text = filtered(tmp_path, "--trace", "out", text=said)
    assert status == 0 and text == """\
type Doser
  state Share was never entered
  transition Wait -> Share by Req [Parts < 50] never cleared
  transition Share -> Wait by 1 never cleared
  algorithm Divide never ran
  event Req was never taken
instance Cell.Count
  event CU was never taken
instance Box1
  event Ask was never taken
ports without a connection
  event Cell.Count.R was never taken
  event Cell.Count.CUO was never emitted
  event Cell.Count.RO was never emitted
states 1 of 2, transitions 0 of 2, algorithms 0 of 1, events 0 of 1, ports 0 of 2
""", text


def test_a_file_may_be_filtered_and_what_is_unknown_stays(plant, tmp_path):
    assert filtered(tmp_path, "--trace", "out", "out/t.trace")[1].startswith("1 Res > Cell.Dose.Req Parts=4\n")
    last = place_of(BOX, 'N" Destination="inner.Parts"')
    text = "# a comment\n5 NOWHERE > X.Y Z=1\nend 9\ntypes.iec:99999:1: x\n"
    assert filtered(tmp_path, "--trace", "out", text=text) == (0, text.replace("types.iec:99999:1", f"lib/Box.fbt:{last}"))


RULES = """
# what must hold
[[rule]]
name = "each portion is counted"
after = "Res < Cell.Dose.Cnf Each>=1"
within = 10
see = "res > Cell.Count.CU"

[[rule]]
name = "the feed follows"
after = "Res < Cell.Dose.Out.Go Out.Size=25"
within = 0
not = "* < *.Out.Go Out.Size<0"
same = ["Out.Size"]

[[rule]]
name = "stars"
never = "* > Cell.* "
from = "Res > to.*"
to = "* < Cell.*.CUO CV=CV"

[[rule]]
name = "count"
count = "* * Box1.inner.*"
least = 1
"""


def test_rules_have_the_names_of_the_project(plant, tmp_path):
    (tmp_path / "watch.toml").write_text(RULES)
    status, text = filtered(tmp_path, "--names", "out", "watch.toml")
    assert (status, text) == (0, """\
[[rule]]
name = "each portion is counted"
after = "RES < CELL__DOSE.CNF EACH>=1"
within = 10
see = "RES > CELL__COUNT.CU"

[[rule]]
name = "the feed follows"
after = "RES < CELL__DOSE.OUT__GO OUT__SIZE=25"
within = 0
not = "* < *.OUT__GO OUT__SIZE<0"
same = ["OUT__SIZE"]

[[rule]]
name = "stars"
never = "* > CELL__*.*"
from = "RES > TO_1.*"
to = "* < CELL__*.CUO CV=CV"

[[rule]]
name = "count"
count = "* * BOX1.INNER.*"
least = 1
""")


@pytest.mark.parametrize("text, place, says", [
    ("tick,event,values\n1,to.Req,\n2,Cell.Dos.Req,Parts=1\n", "3:3", "the project has no instance for Cell.Dos.Req (the nearest one is Cell.Dose)"),
    ('[[rule]]\nname = "a"\nnever = "* > Cel.Dose.Req"\n', "3:1", "the project has nothing for Cel.Dose.Req (the nearest one is Cell.Dose)"),
    ("[[rule]\n", "1:1", "this is neither stimuli (tick,event,values) nor TOML: "),
    ("x = 1\n", "1:1", "there are no rules: each begins with [[rule]]"),
])
def test_a_name_that_the_project_lacks_is_refused(text, place, says, plant, tmp_path):
    (tmp_path / "given").write_text(text)
    status, said = filtered(tmp_path, "--names", "out", "given")
    assert status == 2 and said.startswith(f"given:{place}: {says}"), said


def test_the_map_has_each_place_and_each_instance(plant, tmp_path):
    done, _, _ = plant
    content = json.loads(done.text("map.json"))
    source = content["sources"].index("../P.sys")
    line, column = map(int, place_of(TEXT, 'Dose"').split(":"))
    assert content["instances"]["CELL__DOSE"] == {"name": "Cell.Dose", "type": "DOSER", "at": [source, line, column, "Dose"]}
    row = next(it for it in content["places"]["application.iec"] if it[2:] == [source, line, column, "Dose"])
    assert done.text("application.iec").splitlines()[row[0] - 1][row[1] - 1:].startswith("CELL__DOSE : DOSER")
    row = content["instances"]["BOX1.INNER"]
    assert row["name"] == "Box1.inner" and content["sources"][row["at"][0]] == "../lib/Box.fbt"
    assert content["types"]["DOSER"]["states"] == {"WAIT": "Wait", "SHARE": "Share"}
    # Each place has the name that the XML has there, and each name of the texts begins at its column.
    for name, rows in content["places"].items():
        lines = done.text(name).splitlines()
        for at_line, at_column, _, _, _, word in rows:
            if word and name != "deploy.toml" and at_line <= len(lines):
                assert lines[at_line - 1][at_column - 1:] or word, (name, at_line, at_column)


@pytest.mark.parametrize("text, says", [
    (None, "out/map.json: No such file or directory: give the folder that fbsim-import wrote"), ("{", "this is no map of an import"),
    ("[]", "this is no map of an import"), ('{"format": 1}', "this is no map of an import"), ('{"format": 99}', "this is no map of an import"),
])
def test_a_folder_without_a_map_has_status_3(text, says, tmp_path):
    (tmp_path / "out").mkdir()
    if text is not None:
        (tmp_path / "out" / "map.json").write_text(text)
    for mode in ("--trace", "--names"):
        status, said = filtered(tmp_path, mode, "out")
        assert status == 3 and said.startswith("fbsim-import: ") and says in said


@pytest.mark.parametrize("words", [[], ["--trace", "out", "a", "b"], ["--trace", "out", "--out", "x"], ["--out", "x"]])
def test_a_wrong_mode_is_a_wrong_command_line(words, tmp_path):
    with pytest.raises(SystemExit) as end, contextlib.redirect_stderr(io.StringIO()):
        main(words)
    assert end.value.code == 5


# ---- A second import

def import_again(folder, *words, text=TEXT):
    """Imports into the folder of an import again."""
    return import_all(folder, {**FILES, "P.sys": text}, *words)


def test_a_second_import_renews_what_nobody_edited(tmp_path):
    assert import_again(tmp_path).status == 0
    (tmp_path / "out" / "mine.csv").write_text("kept")
    done = import_again(tmp_path, text=TEXT.replace('Name="Count"', 'Name="Total"').replace("Count.CU", "Total.CU"))
    assert done.status == 0, done.lines
    assert "CELL__TOTAL" in done.text("application.iec") and "CELL__TOTAL" in done.text("map.json") and done.text("mine.csv") == "kept"
    assert sorted(it.name for it in tmp_path.iterdir()) == ["P.sys", "lib", "out"]
    before = {it.name: it.read_bytes() for it in done.out.iterdir()}
    assert import_again(tmp_path, text=TEXT.replace("Dose.Cnf", "Dose.Nothing")).status == 2
    assert {it.name: it.read_bytes() for it in done.out.iterdir()} == before


@pytest.mark.parametrize("name", ["types.iec", "application.iec", "deploy.toml", "import.txt"])
def test_a_file_that_somebody_edited_is_kept(name, tmp_path):
    done = import_again(tmp_path)
    text = done.text(name)
    (done.out / name).write_text(text.replace("CELL__DOSE", "CELL__DOZE") + "\n")
    again = import_again(tmp_path)
    assert again.status == 3 and again.lines == [f"fbsim-import: out/{name}: somebody edited this file: take the changes out, or give --force"]
    assert import_again(tmp_path, "--force").status == 0 and done.text(name) == text


CROSSED = system(NETWORK.replace('<FB Name="to"', '<FB Name="M" Type="E_MERGE"/><FB Name="W" Type="E_MERGE"/><FB Name="to"') +
                 connections("Event", "M.EO to.Req", "M.EO W.EI1"), resource("D1", "Res") + resource("D2", "Other") + resource("D3", "Third"),
                 mappings("App", M="D1.Res", W="D3.Third", **{**PLACES, "to": "D2.Other"}))


def test_latencies_that_were_set_are_kept(tmp_path):
    done = import_again(tmp_path, "--latency", "4", text=CROSSED)
    assert done.status == 0, done.lines
    text = done.text("deploy.toml")
    assert text.count("latency = 4") == 2
    first, second = (f'[[link]]\nfrom = "RES"\nto = "{it}"\n' for it in ("OTHER", "THIRD"))
    (done.out / "deploy.toml").write_text(text.replace(f"{first}latency = 4", f"{first}latencies = [[0, 7],\n  [10, 2]] # measured"))
    # A link that was not set takes the new latency.
    again = import_again(tmp_path, "--latency", "6", text=CROSSED)
    assert again.status == 0, again.lines
    assert f"{first}latencies = [[0, 7],\n  [10, 2]] # measured" in done.text("deploy.toml") and f"{second}latency = 6" in done.text("deploy.toml")
    assert "  RES to OTHER: as set in deploy.toml\n  RES to THIRD: 6 ms\n" in done.text("import.txt")
    again = import_again(tmp_path, "--latency", "6", text=CROSSED.replace('<Connection Source="M.EO" Destination="to.Req"/>', ""))
    assert again.status == 0 and "latencies" not in done.text("deploy.toml")


def test_another_folder_is_never_written(tmp_path):
    (tmp_path / "out").mkdir()
    (tmp_path / "out" / "types.iec").write_text("mine")
    done = import_again(tmp_path, "--force")
    assert done.status == 3 and done.lines == ["fbsim-import: out: this is no new or empty folder, and no folder that fbsim-import wrote"]
    (tmp_path / "out" / "map.json").write_text('{"format": 1, "sums": {"../P.sys": "x"}}')
    assert import_again(tmp_path, "--force").status == 3 and done.text("types.iec") == "mine"
