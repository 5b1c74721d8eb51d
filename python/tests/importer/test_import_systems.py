"""Systems: subapplications, mapping, links and START."""

from __future__ import annotations

import random
import subprocess
import tomllib

import pytest
from fbsim.program import find_program
from importing import PARCELS, basic, connections, import_all, mappings, place_of, resource, system

LINK = connections("Event", "A.EO B.S") + connections("Data", "A.Q C.D")
THREE = '<FB Name="A" Type="E_SR"/><FB Name="B" Type="E_SR"/><FB Name="C" Type="E_D_FF"/>'


def deployment(done):
    return tomllib.loads(done.text("deploy.toml"))


def import_parcels(folder):
    files = {"Parcels.sys": (PARCELS / "Parcels.sys").read_bytes()}
    files |= {f"lib/{it.name}": it.read_bytes() for it in (PARCELS / "lib").iterdir()}
    return import_all(folder, files, "--latency", "5")


def answer(folder, *words):
    """Returns what a run of 4,000 ms in a folder gives, which may end in a stop: its status and its trace."""
    words = [find_program(), "run", *words, "--deploy", "deploy.toml", "--horizon", "4000"]
    done = subprocess.run(words, cwd=folder, capture_output=True, text=True)
    return done.returncode, done.stdout


# `text/` was written from the XML by hand, by somebody who did not write the importer and had not seen what it writes.
def test_instances_in_two_devices_have_the_trace_of_the_same_application_in_text(tmp_path):
    done = import_parcels(tmp_path)
    assert done.status == 0, done.lines
    plan = deployment(done)
    assert sum(len(it["instances"]) for it in plan["resource"]) == 31
    assert {it["device"] for it in plan["resource"]} == {"CONVEYING", "SORTING"}
    assert done.run(2500) == (PARCELS / "trace").read_text()
    for name in ("types.iec", "application.iec", "deploy.toml", "import.txt", "map.json"):
        assert done.text(name) == (PARCELS / "imported" / name).read_text(), name


# Events of the parcel line that stimuli may give, with the input that each may set.
GIVEN = """CONTROL.ON BASE, CONTROL.OFF, BEAT.START DT, BEAT.STOP, FEEDER.NEXT, SCALE.REQ LIGHT, SCALE.REQ HEAVY, LONGS.EI,
    LONG_COUNT.CU PV, LONG_COUNT.R, STOP_AT.EI, OVERS.REQ BY_1, FIRST_OVER.S, FIRST_OVER.R, LAMP__BLINK.START DT,
    LAMP__BLINK.STOP, LAMP__FLIP.CLK, TOTALS.REQ, MOTOR.DRV__RUN, MOTOR.DRV__HALT, CONTROL.DRV__STARTED, SORTER__ROUTE.EI,
    SORTER__LANE0__GATE.OPEN, SORTER__LANE0__GATE.CLOSE, SORTER__LANE0__PUSH.START DT, SORTER__LANE1__GATE.OPEN,
    SORTER__LANE1__PUSH.STOP, SORTER__LANE2__COUNT.REQ BY_1, SORTER__ANY1.EI1, SORTER__ANY2.EI2, WATCH.START DT, WATCH.STOP,
    IDLE.S, IDLE.R, PASSED.REQ BY_1""".split(",")


@pytest.mark.parametrize("seed", range(8))
def test_stimuli_give_the_same_trace_as_in_text(seed, tmp_path):
    chance, rows = random.Random(seed), ["tick,event,values"]
    for _ in range(150):
        event, *names = chance.choice(GIVEN).split()
        values = [f"{it}={chance.randrange(1, 60)}" for it in names if chance.random() < 0.5]
        rows.append(f"{chance.randrange(4000)},{event},{' '.join(values)}")
    done = import_parcels(tmp_path)
    stimuli = done.out / "stimuli.csv"
    stimuli.write_text("\n".join(rows) + "\n")
    found = answer(done.out, "application.iec", "--types", "types.iec", "--stim", stimuli)
    assert found == answer(PARCELS / "text", "parcels.iec", "--stim", stimuli)
    assert len(found[1].splitlines()) > 800


# ---- Subapplications

LANE = """<SubAppType Name="Lane">
  <SubAppInterfaceList>
    <SubAppEventInputs><SubAppEvent Name="GO"/></SubAppEventInputs>
    <SubAppEventOutputs><SubAppEvent Name="DONE"/><SubAppEvent Name="PASSED"/></SubAppEventOutputs>
    <InputVars><VarDeclaration Name="TIME_1" Type="TIME" InitialValue="T#7ms"/></InputVars>
  </SubAppInterfaceList>
  <SubAppNetwork><FB Name="D" Type="E_DELAY"/><FB Name="E" Type="E_DELAY"/>
    <EventConnections><Connection Source="GO" Destination="E.START"/><Connection Source="GO" Destination="D.START"/>
      <Connection Source="GO" Destination="PASSED"/><Connection Source="D.EO" Destination="DONE"/></EventConnections>
    <DataConnections><Connection Source="TIME_1" Destination="D.DT"/>
      <Connection Source="TIME_1" Destination="E.DT"/></DataConnections>
  </SubAppNetwork>
</SubAppType>
"""


def test_nested_subapplications_are_flattened(tmp_path):
    outer = LANE.replace('"Lane"', '"Outer"').replace('<FB Name="D" Type="E_DELAY"/>', '<SubApp Name="D" Type="Lane"/>')
    outer = outer.replace("D.START", "D.GO").replace("D.EO", "D.DONE").replace("D.DT", "D.TIME_1")
    network = (
        '<FB Name="P" Type="E_SPLIT"/><SubApp Name="SORT" Type="Outer"><Parameter Name="TIME_1" Value="T#2s"/></SubApp>'
        '<SubApp Name="Plain"><SubAppNetwork><FB Name="M" Type="E_MERGE"/></SubAppNetwork></SubApp>'
        '<FB Name="L" Type="E_MERGE"/>'
        + connections("Event", "P.EO1 L.EI1", "P.EO1 SORT.GO", "P.EO1 L.EI2", "SORT.PASSED P.EI", "SORT.DONE L.EI1")
    )
    done = import_all(tmp_path, {"lib/Lane.sub": LANE, "lib/Outer.sub": outer, "A.sys": system(network)})
    assert done.status == 0, done.lines
    assert (
        "FBS P : E_SPLIT; SORT__D__D : E_DELAY(DT := T#2000ms); SORT__D__E : E_DELAY(DT := T#2000ms); "
        "SORT__E : E_DELAY(DT := T#2000ms); PLAIN__M : E_MERGE; L : E_MERGE; END_FBS"
    ) in done.declaration()
    # What the events of P become, in the order of the connections from outside to inside; and what comes out.
    assert (
        "P.EO1 TO L.EI1; P.EO1 TO SORT__E.START; P.EO1 TO SORT__D__E.START; P.EO1 TO SORT__D__D.START; P.EO1 TO P.EI; "
        "P.EO1 TO L.EI2;"
    ) in done.declaration()
    assert "SORT__D__D.EO TO L.EI1;" in done.declaration()
    assert done.declaration().count(" TO ") == 7


def test_an_initial_value_of_a_subapplication_is_a_parameter_inside(tmp_path):
    done = import_all(tmp_path, {"lib/Lane.sub": LANE, "A.sys": system('<SubApp Name="S" Type="Lane"/>')})
    assert "S__D : E_DELAY(DT := T#7ms); S__E : E_DELAY(DT := T#7ms);" in done.declaration(), done.lines


def test_a_subapplication_in_itself_and_a_circle_are_refused(tmp_path):
    text = LANE.replace('<FB Name="D" Type="E_DELAY"/>', '<SubApp Name="D" Type="Lane"/>').replace("D.START", "D.GO")
    text = text.replace("D.EO", "D.DONE").replace("D.DT", "D.TIME_1")
    done = import_all(tmp_path, {"lib/Lane.sub": text, "A.sys": system('<SubApp Name="S" Type="Lane"/>')})
    place = place_of(text, 'D" Type="Lane"')
    assert done.lines == [f"lib/Lane.sub:{place}: subapplication Lane contains itself, or they nest more than 16 deep"]
    network = '<FB Name="P" Type="E_SPLIT"/><SubApp Name="S" Type="Lane"/>' + connections(
        "Event", "P.EO1 S.GO", "S.PASSED S.GO"
    )
    text = system(network)
    done = import_all(tmp_path / "two", {"lib/Lane.sub": LANE, "A.sys": text})
    assert done.status == 2 and "lead in a circle" in done.lines[0], done.lines


# Three subapplications without a type and with the name that Eclipse 4diac gives them, inside each other.
def test_untyped_subapplications_of_one_name_nest(tmp_path):
    interface = (
        '<SubAppInterfaceList><SubAppEventInputs><SubAppEvent Name="GO"/></SubAppEventInputs>'
        '<SubAppEventOutputs><SubAppEvent Name="DONE"/></SubAppEventOutputs></SubAppInterfaceList>'
    )
    text, through = '<FB Name="M" Type="E_MERGE"/>' + connections("Event", "GO M.EI1", "M.EO DONE"), ""
    for _ in range(3):
        text = f'<SubApp Name="SubApp">{interface}<SubAppNetwork>{text}{through}</SubAppNetwork></SubApp>'
        through = connections("Event", "GO SubApp.GO", "SubApp.DONE DONE")
    text += '<FB Name="L" Type="E_MERGE"/>' + connections("Event", "L.EO SubApp.GO")
    done = import_all(tmp_path, {"A.sys": system(text)})
    assert done.status == 0, done.lines
    lines = done.run(1, "tick,event,values\n0,L.EI1,\n").splitlines()
    assert lines[2:4] == ["0 MAIN > SUBAPP__SUBAPP__SUBAPP__M.EI1", "0 MAIN < SUBAPP__SUBAPP__SUBAPP__M.EO"]


# ---- Mapping and links


def test_each_pair_of_resources_that_a_connection_crosses_gets_a_link(tmp_path):
    network = (
        THREE + connections("Event", "A.EO B.S", "B.EO A.R", "C.EO A.S", "A.EO C.CLK") + connections("Data", "A.Q C.D")
    )
    text = system(
        network,
        resource("D1", "R1") + resource("D2", "R2") + resource("D3", "R3"),
        mappings("App", A="D1.R1", B="D2.R2", C="D3.R3"),
    )
    done = import_all(tmp_path, {"A.sys": text}, "--latency", "12")
    assert done.status == 0, done.lines
    pairs = [(it["from"], it["to"], it["latency"]) for it in deployment(done)["link"]]
    assert pairs == [("R1", "R2", 12), ("R1", "R3", 12), ("R2", "R1", 12), ("R3", "R1", 12)]
    assert "R1 to R2: 12 ms" in done.text("import.txt")


def test_resources_of_one_name_get_the_device_in_front(tmp_path):
    text = system(
        THREE,
        resource("D1", "EMB_RES") + resource("D2", "EMB_RES") + resource("D3", "Main"),
        mappings("App", A="D1.EMB_RES", B="D2.EMB_RES"),
    )
    done = import_all(tmp_path, {"A.sys": text})
    assert done.status == 0, done.lines
    found = [(it["device"], it["name"], it["instances"]) for it in deployment(done)["resource"]]
    assert found == [
        ("D1", "D1__EMB_RES", ["A"]),
        ("D2", "D2__EMB_RES", ["B"]),
        ("D3", "MAIN", []),
        ("DEV", "MAIN_1", ["C"]),
    ]
    assert "mapped nowhere, and so in resource MAIN_1 together: C" in done.text("import.txt")


def test_the_instances_of_a_subapplication_follow_its_mapping_or_their_own(tmp_path):
    text = system(
        '<SubApp Name="S" Type="Lane"/>',
        resource("D1", "R1") + resource("D2", "R2"),
        mappings("App", S="D1.R1") + '<Mapping From="App.S.E" To="D2.R2.E"/>',
    )
    done = import_all(tmp_path, {"lib/Lane.sub": LANE, "A.sys": text})
    assert done.status == 0, done.lines
    assert [it["instances"] for it in deployment(done)["resource"]] == [["S__D"], ["S__E"]]


def test_a_crossing_without_an_event_that_carries_it_is_reported_and_not_repaired(tmp_path):
    text = system(
        THREE + LINK, resource("D1", "R1") + resource("D2", "R2"), mappings("App", A="D1.R1", B="D1.R1", C="D2.R2")
    )
    done = import_all(tmp_path, {"A.sys": text})
    assert done.status == 2
    assert done.lines == [
        f"A.sys:{place_of(text, 'A.Q')}: E28: application APP: data connection A.Q TO C.D: "
        "no output event of A WITH Q goes to resource R2"
    ]
    assert not done.out.exists()


# The connection that crosses is in the application; those at its ends are inside the subapplications.
def test_a_crossing_of_subapplications_is_reported_where_it_crosses(tmp_path):
    sender = """<SubAppType Name="Sender"><SubAppInterfaceList>
      <OutputVars><VarDeclaration Name="ON" Type="BOOL"/></OutputVars></SubAppInterfaceList>
      <SubAppNetwork><FB Name="F" Type="E_SR"/>{}</SubAppNetwork></SubAppType>""".format(connections("Data", "F.Q ON"))
    receiver = """<SubAppType Name="Receiver"><SubAppInterfaceList>
      <InputVars><VarDeclaration Name="ON" Type="BOOL"/></InputVars></SubAppInterfaceList>
      <SubAppNetwork><FB Name="G" Type="E_D_FF"/>{}</SubAppNetwork></SubAppType>""".format(connections("Data", "ON G.D"))
    text = system(
        '<SubApp Name="S" Type="Sender"/><SubApp Name="R" Type="Receiver"/>' + connections("Data", "S.ON R.ON"),
        resource("D1", "R1") + resource("D2", "R2"),
        mappings("App", S="D1.R1", R="D2.R2"),
    )
    done = import_all(tmp_path, {"lib/Sender.sub": sender, "lib/Receiver.sub": receiver, "A.sys": text})
    assert done.lines == [
        f"A.sys:{place_of(text, 'S.ON')}: E28: application APP: data connection S__F.Q TO R__G.D: "
        "no output event of S__F WITH Q goes to resource R2"
    ]


# A.EO to B.S stays in R1; the others lead to R2. What a PUBLISH carries is no such connection.
def test_a_connection_between_resources_that_nothing_carries_is_a_warning(tmp_path):
    blocks = THREE + connections("Event", "A.EO B.S", "A.EO C.CLK") + connections("Data", "A.Q C.D")
    block = '<FB Name="{}" Type="{}"><Parameter Name="ID" Value="&quot;1&quot;"/></FB>'
    sender = block.format("P", "PUBLISH_0") + connections("Event", "B.EO P.REQ", "A.EO P.INIT")
    receiver = block.format("S", "SUBSCRIBE_0") + connections("Event", "S.IND C.CLK")
    resources = resource("D1", "R1", sender) + resource("D2", "R2", receiver)
    text = system(blocks, resources, mappings("App", A="D1.R1", B="D1.R1", C="D2.R2"))
    done = import_all(tmp_path, {"A.sys": text}, "--latency", "2")
    assert done.status == 0
    says = "this connection leads from resource R1 to R2 without a communication block: a controller has none there"
    assert done.lines == [
        f"A.sys:{place_of(text, 'A.EO', 2)}: I02: {says}",
        f"A.sys:{place_of(text, 'A.Q')}: I02: {says}",
        "accepted",
    ]
    assert import_all(tmp_path / "strict", {"A.sys": text}, "--strict").status == 1


@pytest.mark.parametrize(
    "old, new, part, says",
    [
        ('From="App.A"', 'From="App.X"', "App.X", "there is no instance X"),
        ('From="App.A"', 'From="Other.A"', "Other.A", "Other.A is no instance of application App"),
        ('To="D1.R1.A"', 'To="D1.R9.A"', "D1.R9.A", "D1.R9.A is no instance of a resource"),
        ('From="App.B"', 'From="App.A"', 'App.A" To="D2', "A is mapped twice"),
        ("A.EO B.S", "A.EO B.X", "B.X", "B.X: type E_SR has no event input X (it has S, R)"),
        ("A.EO B.S", "A.X B.S", "A.X", "A.X: type E_SR has no event output X (it has EO)"),
        ("A.EO B.S", "X.EO B.S", "X.EO", "there is no instance X"),
        ("A.EO B.S", "EO B.S", "EO", "there is no port EO"),
        ("A.EO B.S", "A.Q B.S", 'A.Q" Destination="B', "A.Q: type E_SR has no event output Q (it has EO)"),
        ('<FB Name="B"', '<FB Name="A"', 'A" Type="E_SR"/><FB Name="C', "the instance A is given twice"),
    ],
)
def test_a_name_of_a_system_is_refused_at_its_place(old, new, part, says, tmp_path):
    network = THREE + connections("Event", new if old == "A.EO B.S" else "A.EO B.S")
    text = system(network, resource("D1", "R1") + resource("D2", "R2"), mappings("App", A="D1.R1", B="D2.R2"))
    text = text.replace(old, new, 1)
    done = import_all(tmp_path, {"A.sys": text})
    assert done.status == 2 and f"A.sys:{place_of(text, part)}: {says}" in done.lines, done.lines


def test_one_application_and_one_system(tmp_path):
    text = system(THREE).replace("</Application>", '</Application><Application Name="Two"/>')
    done = import_all(tmp_path, {"A.sys": text})
    assert done.lines == [
        f"A.sys:{place_of(text, '<Application', 2)}: the profile has one application: "
        "make a system of each, or draw them as one"
    ]
    done = import_all(tmp_path / "two", {"A.sys": system(THREE), "B.sys": system(THREE)})
    assert done.lines == ["B.sys:1:1: there is more than one system: import them one by one"]


# ---- Networks of resources


def test_the_start_of_each_resource_is_an_instance(tmp_path):
    text = system(
        THREE,
        resource("D1", "R1", connections("Event", "START.COLD A.S"))
        + resource(
            "D2",
            "R2",
            '<FB Name="START" Type="E_RESTART"/><FB Name="A" Type="E_SPLIT"/>'
            + connections("Event", "START.COLD A.EI", "A.EO1 B.S", "START.COLD C.CLK"),
        ),
        mappings("App", A="D1.R1", B="D2.R2", C="D2.R2"),
    )
    done = import_all(tmp_path, {"A.sys": text})
    assert done.status == 0, done.lines
    assert (
        done.run(1)
        == """\
0 R1 < R1__START.COLD
0 R1 > A.S
0 R1 < A.EO Q=TRUE
0 R2 < R2__START.COLD
0 R2 > R2__A.EI
0 R2 < R2__A.EO1
0 R2 < R2__A.EO2
0 R2 > C.CLK D=FALSE
0 R2 > B.S
0 R2 < B.EO Q=TRUE
end 1
"""
    )


def test_a_resource_may_repeat_instances_and_connections_of_the_application(tmp_path):
    inside = '<FB Name="A" Type="E_SR"/><FB Name="X" Type="E_D_FF"><Parameter Name="D" Value="1"/></FB>' + connections(
        "Event", "A.EO X.CLK"
    )
    network = THREE + connections("Event", "A.EO C.CLK")
    text = system(
        network,
        resource("D1", "R1", inside),
        '<Mapping From="App.A" To="D1.R1.A"/><Mapping From="App.C" To="D1.R1.X"/>',
    )
    done = import_all(tmp_path, {"A.sys": text})
    assert done.status == 0, done.lines
    assert (
        "FBS A : E_SR; B : E_SR; C : E_D_FF(D := TRUE); END_FBS EVENT_CONNECTIONS A.EO TO C.CLK; END_CONNECTIONS"
        in done.declaration()
    )
    assert (
        f"A.sys:{place_of(text, 'A.EO', 2)}: this connection of the application is given again in a resource"
        in done.text("import.txt")
    )


def test_a_system_with_networks_of_resources_alone(tmp_path):
    inside = '<FB Name="C" Type="E_CYCLE"><Parameter Name="DT" Value="T#2ms"/></FB>' + connections(
        "Event", "START.COLD C.START"
    )
    text = f'<System Name="Sys">{resource("D1", "R1", inside)}{resource("D2", "R2", inside)}</System>'
    done = import_all(tmp_path, {"A.sys": text})
    assert done.status == 0, done.lines
    assert [it["instances"] for it in deployment(done)["resource"]] == [["R1__START", "R1__C"], ["R2__START", "R2__C"]]
    assert done.run(3).splitlines()[-3:] == ["2 R1 < R1__C.EO", "2 R2 < R2__C.EO", "end 3"]


# ---- Sizes and types


def test_too_many_instances_are_refused(tmp_path):
    ten = "".join(f'<SubApp Name="S{it}" Type="NEXT"/>' for it in range(10))
    files = {
        f"lib/L{it}.sub": f'<SubAppType Name="L{it}"><SubAppNetwork>'
        f'{ten.replace("NEXT", f"L{it + 1}")}</SubAppNetwork></SubAppType>'
        for it in range(9)
    }
    files["lib/L9.sub"] = '<SubAppType Name="L9"><SubAppNetwork><FB Name="A" Type="E_SR"/></SubAppNetwork></SubAppType>'
    done = import_all(tmp_path, {**files, "A.sys": system('<SubApp Name="S" Type="L0"/>')})
    assert done.status == 2 and done.lines == [
        f"lib/L9.sub:1:{len('<SubAppType Name=.L9.><SubAppNetwork><FB Name=.') + 1}: "
        "there are more than 4,096 instances"
    ], done.lines


# 41 composite types with 99 components each are 4,100 instances: the limit is passed at the last one.
def test_instances_in_composite_types_count(tmp_path):
    inside = "".join(f'<FB Name="M{it}" Type="E_MERGE"/>' for it in range(99))
    box = f'<FBType Name="Box"><InterfaceList/><FBNetwork>{inside}</FBNetwork></FBType>'
    text = system("".join(f'<FB Name="B{it}" Type="Box"/>' for it in range(41)))
    done = import_all(tmp_path, {"lib/Box.fbt": box, "A.sys": text})
    assert done.status == 2 and done.lines == [
        f"A.sys:{place_of(text, 'B40')}: with B40 (composite type Box), which is 100 instances with its components, "
        "there are more than 4,096 instances"
    ]
    # A timer of the event library is four instances.
    text = system("".join(f'<FB Name="T{it}" Type="E_TON"/>' for it in range(1025)))
    done = import_all(tmp_path / "two", {"A.sys": text})
    assert done.lines == [
        f"A.sys:{place_of(text, 'T1024')}: with T1024 (declared type E_TON), which is 4 instances with its components, "
        "there are more than 4,096 instances"
    ]


# Each type has 2,800 variables with lines of 200 bytes, so two of them are over 1 MiB.
def test_texts_that_get_too_long_are_refused_with_the_type(tmp_path):
    rows = "".join(f'<VarDeclaration Name="V{it:04}{"_LONG" * 36}" Type="INT"/>' for it in range(2_800))
    long = basic().replace("<InternalVars>", f"<InternalVars>{rows}")
    files = {f"lib/{it}.fbt": long.replace('"Adder"', f'"{it}"') for it in ("T0", "T1")}
    text = system('<FB Name="A" Type="T0"/><FB Name="B" Type="T1"/><FB Name="C" Type="T0"/>')
    done = import_all(tmp_path, {**files, "A.sys": text})
    assert done.status == 2 and len(done.lines) == 1, done.lines[:3]
    place = place_of(files["lib/T1.fbt"], "T1")
    assert done.lines[0].startswith(f"lib/T1.fbt:{place}: with the basic type T1, which has 5"), done.lines
    assert done.lines[0].endswith("bytes after its expansion, the texts have more than 1,048,576 bytes")


# A relay: the event; 4 transitions, each tried at most twice; two actions, IND and CNF; and the statement of the copy.
def test_the_report_has_the_steps_of_expansions(tmp_path):
    network = "".join(
        f'<FB Name="{name}" Type="{kind}"><Parameter Name="ID" Value="&quot;1&quot;"/></FB>'
        for name, kind in (("P", "PUBLISH_1"), ("S", "SUBSCRIBE_1"))
    )
    network += THREE + connections("Event", "A.EO P.REQ", "S.IND C.CLK") + connections("Data", "A.Q P.SD_1", "S.RD_1 C.D")
    done = import_all(tmp_path, {"A.sys": system(network)})
    assert done.status == 0, done.lines
    report = done.text("import.txt")
    assert "PUBLISH_1__BOOL: at most 12 steps for an event" in report
    assert "if the application needs at most 10,000 steps in a tick without its expansions: --steps 130000" in report
    # REQ takes 9: the event; INIT and REQ tried; two actions and a statement; the way back; INIT and REQ tried in vain. C takes one.
    words = "run application.iec --types types.iec --deploy deploy.toml --stim s.csv --horizon 1 --steps".split()
    (done.out / "s.csv").write_text("tick,event,values\n0,P.REQ,\n")
    for steps, end in ((10, "end 1"), (9, "stop 0 MAIN steps")):
        ran = subprocess.run([find_program(), *words, str(steps)], cwd=done.out, capture_output=True, text=True)
        assert ran.stdout.splitlines()[-1] == end


def test_a_basic_type_in_two_devices(tmp_path):
    network = (
        '<FB Name="A" Type="Adder"/><FB Name="B" Type="Adder"/>'
        + connections("Event", "A.CNF B.REQ")
        + connections("Data", "A.SUM B.A")
    )
    text = system(network, resource("D1", "R1") + resource("D2", "R2"), mappings("App", A="D1.R1", B="D2.R2"))
    done = import_all(tmp_path, {"lib/Adder.fbt": basic("SUM := A + 1;"), "A.sys": text}, "--latency", "4")
    assert (
        done.run(9, "tick,event,values\n2,A.REQ,A=5\n")
        == """\
2 R1 > A.REQ A=5 QI=FALSE
2 R1 < A.CNF SUM=6
6 R2 > B.REQ A=6 QI=FALSE
6 R2 < B.CNF SUM=7
end 9
"""
    ), done.lines
