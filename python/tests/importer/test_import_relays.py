"""Communication blocks: what their relays do, in traces that were worked out by hand, and what is refused."""

from __future__ import annotations

import pytest
from importing import connections, import_all, mappings, place_of, resource, system

COUNTER = '<FB Name="N" Type="E_CTU"/><FB Name="L" Type="E_CTU"/><FB Name="K" Type="E_MERGE"/>'


def service_block(name, kind, identifier="1.2.3.4:5", parameters=""):
    return (
        f'<FB Name="{name}" Type="{kind}"><Parameter Name="QI" Value="1"/>'
        f'<Parameter Name="ID" Value="&quot;{identifier}&quot;"/>{parameters}</FB>'
    )


def two_resources(sender, receiver, blocks=COUNTER, **places):
    """Returns a system: N and K are in R1 with the sender, L is in R2 with the receiver."""
    places = {"N": "D1.R1", "K": "D1.R1", "L": "D2.R2"} | places
    return system(blocks, resource("D1", "R1", sender) + resource("D2", "R2", receiver), mappings("App", **places))


def test_publish_sends_confirms_and_is_initialized(tmp_path):
    sender = (
        service_block("P", "PUBLISH_1")
        + connections("Event", "START.COLD P.INIT", "P.INITO N.CU", "N.CUO P.REQ", "P.CNF K.EI1")
        + connections("Data", "N.CV P.SD_1")
    )
    receiver = (
        service_block("S", "SUBSCRIBE_1") + connections("Event", "S.IND L.CU") + connections("Data", "S.RD_1 L.PV")
    )
    done = import_all(tmp_path, {"A.sys": two_resources(sender, receiver)}, "--latency", "3")
    assert done.status == 0, done.lines
    assert (
        done.run(5)
        == """\
0 R1 < R1__START.COLD
0 R1 > R1__P.INIT
0 R1 < R1__P.INITO
0 R1 > N.CU PV=0
0 R1 < N.CUO Q=TRUE CV=1
0 R1 > R1__P.REQ SD_1=1
0 R1 < R1__P.IND RD_1=1
0 R1 < R1__P.CNF
0 R1 > K.EI1
0 R1 < K.EO
3 R2 > L.CU PV=1
3 R2 < L.CUO Q=TRUE CV=1
end 5
"""
    )


# The cycle sends the count at 10 and at 20; N counts at 1, 2 and 13, without sending.
def test_publish_sends_a_value_of_another_block(tmp_path):
    sender = (
        '<FB Name="C" Type="E_CYCLE"><Parameter Name="DT" Value="T#10ms"/></FB>'
        + service_block("P", "PUBLISH_1")
        + connections("Event", "C.EO P.REQ")
        + connections("Data", "N.CV P.SD_1")
    )
    receiver = (
        service_block("S", "SUBSCRIBE_1") + connections("Event", "S.IND L.CU") + connections("Data", "S.RD_1 L.PV")
    )
    done = import_all(tmp_path, {"A.sys": two_resources(sender, receiver)})
    assert done.status == 0, done.lines
    stimuli = "tick,event,values\n0,R1__C.START,\n1,N.CU,\n2,N.CU,\n13,N.CU,\n"
    lines = done.run(25, stimuli).splitlines()
    assert [it for it in lines if "L.CU" in it] == [
        "11 R2 > L.CU PV=2",
        "11 R2 < L.CUO Q=FALSE CV=1",
        "21 R2 > L.CU PV=3",
        "21 R2 < L.CUO Q=FALSE CV=2",
    ]


# N sends 1 at 2; M, in the third resource, sends 1 at 3 and 2 at 4. Each message is an IND of its own.
def test_several_publishers_send_to_one_subscriber(tmp_path):
    blocks = COUNTER + '<FB Name="M" Type="E_CTU"/>'
    sender = service_block("P", "PUBLISH_1") + connections("Event", "{0}.CUO P.REQ") + connections("Data", "{0}.CV P.SD_1")
    receiver = (
        service_block("S", "SUBSCRIBE_1") + connections("Event", "S.IND L.CU") + connections("Data", "S.RD_1 L.PV")
    )
    resources = resource("D1", "R1", sender.format("N")) + resource("D2", "R2", receiver)
    resources += resource("D3", "R3", sender.format("M"))
    places = mappings("App", N="D1.R1", K="D1.R1", L="D2.R2", M="D3.R3")
    done = import_all(tmp_path, {"A.sys": system(blocks, resources, places)}, "--latency", "5")
    assert done.status == 0, done.lines
    stimuli = "tick,event,values\n2,N.CU,PV=9\n3,M.CU,PV=9\n4,M.CU,\n"
    found = [it for it in done.run(12, stimuli).splitlines() if " R2 " in it]
    assert found == [
        "7 R2 > R2__S.FROM_1 RD_1__FROM_1=1",
        "7 R2 < R2__S.IND RD_1=1",
        "7 R2 > L.CU PV=1",
        "7 R2 < L.CUO Q=TRUE CV=1",
        "8 R2 > R2__S.FROM_2 RD_1__FROM_2=1",
        "8 R2 < R2__S.IND RD_1=1",
        "8 R2 > L.CU PV=1",
        "8 R2 < L.CUO Q=TRUE CV=2",
        "9 R2 > R2__S.FROM_2 RD_1__FROM_2=2",
        "9 R2 < R2__S.IND RD_1=2",
        "9 R2 > L.CU PV=2",
        "9 R2 < L.CUO Q=TRUE CV=3",
    ]


# The first message comes at 4, the second at 7. The cycle of the receiver looks at 3, 6 and 9.
def test_a_received_value_is_read_without_its_event(tmp_path):
    sender = (
        service_block("P", "PUBLISH_1") + connections("Event", "N.CUO P.REQ") + connections("Data", "N.CV P.SD_1")
    )
    receiver = (
        '<FB Name="C" Type="E_CYCLE"><Parameter Name="DT" Value="T#3ms"/></FB>'
        + service_block("S", "SUBSCRIBE_1")
        + connections("Event", "C.EO L.CU")
        + connections("Data", "S.RD_1 L.PV")
    )
    done = import_all(tmp_path, {"A.sys": two_resources(sender, receiver)})
    assert done.status == 0, done.lines
    stimuli = "tick,event,values\n0,R2__C.START,\n3,N.CU,\n6,N.CU,\n"
    lines = done.run(10, stimuli).splitlines()
    assert [it for it in lines if "> L.CU" in it] == ["3 R2 > L.CU PV=0", "6 R2 > L.CU PV=1", "9 R2 > L.CU PV=2"]


# What R2 receives it sends on to R3: by its event, or when its own block asks.
@pytest.mark.parametrize("asked", [True, False])
def test_what_was_received_is_sent_on(asked, tmp_path):
    first = service_block("P", "PUBLISH_1") + connections("Event", "N.CUO P.REQ") + connections("Data", "N.CV P.SD_1")
    second = (
        service_block("S", "SUBSCRIBE_1")
        + service_block("T", "PUBLISH_1", "9:9")
        + connections("Event", "K.EO T.REQ" if asked else "S.IND T.REQ")
        + connections("Data", "S.RD_1 T.SD_1")
    )
    third = (
        service_block("U", "SUBSCRIBE_1", "9:9")
        + connections("Event", "U.IND L.CU")
        + connections("Data", "U.RD_1 L.PV")
    )
    resources = resource("D1", "R1", first) + resource("D2", "R2", second) + resource("D3", "R3", third)
    text = system(COUNTER, resources, mappings("App", N="D1.R1", K="D2.R2", L="D3.R3"))
    done = import_all(tmp_path, {"A.sys": text}, "--latency", "2")
    assert done.status == 0, done.lines
    stimuli = "tick,event,values\n0,N.CU,PV=8\n10,K.EI1,\n"
    lines = done.run(20, stimuli).splitlines()
    at = 12 if asked else 4
    assert [it for it in lines if "L.CU" in it] == [f"{at} R3 > L.CU PV=1", f"{at} R3 < L.CUO Q=TRUE CV=1"]


# C asks at 1, S is asked at 3, L counts and answers, and N is reset at 5, which asks nothing.
def test_client_and_server_exchange_values(tmp_path):
    client = (
        service_block("C", "CLIENT_1_1")
        + connections("Event", "START.COLD C.INIT", "N.CUO C.REQ", "C.INITO K.EI2", "C.CNF N.R", "C.CNF K.EI1")
        + connections("Data", "N.CV C.SD_1", "C.RD_1 N.PV")
    )
    server = (
        service_block("S", "SERVER_1_1")
        + connections("Event", "S.IND L.CU", "L.CUO S.RSP")
        + connections("Data", "S.RD_1 L.PV", "L.CV S.SD_1")
    )
    done = import_all(tmp_path, {"A.sys": two_resources(client, server)}, "--latency", "2")
    assert done.status == 0, done.lines
    assert (
        done.run(20, "tick,event,values\n1,N.CU,\n8,N.CU,\n")
        == """\
0 R1 < R1__START.COLD
0 R1 > R1__C.INIT
0 R1 < R1__C.INITO
0 R1 > K.EI2
0 R1 < K.EO
1 R1 > N.CU PV=0
1 R1 < N.CUO Q=TRUE CV=1
1 R1 > R1__C.REQ SD_1=1
1 R1 < R1__C.SEND SENT_1=1
3 R2 > L.CU PV=1
3 R2 < L.CUO Q=TRUE CV=1
3 R2 > R2__S.RSP SD_1=1
3 R2 < R2__S.SEND SENT_1=1
5 R1 > N.R
5 R1 < N.RO Q=FALSE CV=0
5 R1 > K.EI1
5 R1 < K.EO
8 R1 > N.CU PV=1
8 R1 < N.CUO Q=TRUE CV=1
8 R1 > R1__C.REQ SD_1=1
8 R1 < R1__C.SEND SENT_1=1
10 R2 > L.CU PV=1
10 R2 < L.CUO Q=TRUE CV=2
10 R2 > R2__S.RSP SD_1=2
10 R2 < R2__S.SEND SENT_1=2
12 R1 > N.R
12 R1 < N.RO Q=FALSE CV=0
12 R1 > K.EI1
12 R1 < K.EO
end 20
"""
    )


# Two subscribers with one ID lead to one event input: it gets both events.
def test_a_publisher_has_several_subscribers(tmp_path):
    sender = service_block("P", "PUBLISH_0") + connections("Event", "N.CUO P.REQ")
    receiver = (
        service_block("S", "SUBSCRIBE_0")
        + service_block("T", "SUBSCRIBE_0")
        + connections("Event", "S.IND L.CU", "T.IND L.CU")
    )
    done = import_all(tmp_path, {"A.sys": two_resources(sender, receiver)})
    assert done.status == 0, done.lines
    found = done.run(9, "tick,event,values\n2,N.CU,\n").splitlines()
    assert [it for it in found if "< L." in it] == ["3 R2 < L.CUO Q=TRUE CV=1", "3 R2 < L.CUO Q=TRUE CV=2"]


def test_each_receiver_of_an_initialization_gets_its_event(tmp_path):
    receiver = (
        service_block("S", "SUBSCRIBE_0")
        + service_block("T", "SUBSCRIBE_0")
        + connections("Event", "START.COLD S.INIT", "S.INITO T.INIT", "T.INITO L.CU", "START.COLD L.CU", "S.IND L.R")
    )
    sender = service_block("P", "PUBLISH_0")
    done = import_all(tmp_path, {"A.sys": two_resources(sender, receiver)})
    assert done.status == 0, done.lines
    assert (
        done.run(1)
        == """\
0 R2 < R2__START.COLD
0 R2 > R2__S.INIT
0 R2 < R2__S.INITO
0 R2 > L.CU PV=0
0 R2 < L.CUO Q=TRUE CV=1
0 R2 > R2__T.INIT
0 R2 < R2__T.INITO
0 R2 > L.CU PV=0
0 R2 < L.CUO Q=TRUE CV=2
end 1
"""
    )


def test_the_type_of_a_value_is_that_of_its_literal_or_of_its_receiver(tmp_path):
    for literal in ("UINT#7", "7"):
        sender = service_block("P", "PUBLISH_1", parameters=f'<Parameter Name="SD_1" Value="{literal}"/>')
        sender += connections("Event", "N.CUO P.REQ")
        receiver = (
            service_block("S", "SUBSCRIBE_1") + connections("Event", "S.IND L.CU") + connections("Data", "S.RD_1 L.PV")
        )
        folder = tmp_path / literal[:1]
        done = import_all(folder, {"A.sys": two_resources(sender, receiver)})
        assert done.status == 0, done.lines
        assert "1 R2 > L.CU PV=7\n" in done.run(2, "tick,event,values\n0,N.CU,\n")


def test_the_output_qo_is_true_from_the_start(tmp_path):
    sender = service_block("P", "PUBLISH_0") + connections("Event", "N.CUO P.REQ")
    receiver = (
        service_block("S", "SUBSCRIBE_0") + connections("Event", "S.IND X.EI") + connections("Data", "S.QO X.PERMIT")
    )
    blocks = COUNTER + '<FB Name="X" Type="E_PERMIT"/>'
    text = two_resources(sender, receiver, blocks, X="D2.R2")
    done = import_all(tmp_path, {"A.sys": text})
    assert done.status == 0, done.lines
    stimuli = "tick,event,values\n0,X.EI,\n0,N.CU,\n"
    found = [it for it in done.run(2, stimuli).splitlines() if "X." in it]
    assert found == ["0 R2 > X.EI PERMIT=TRUE", "0 R2 < X.EO", "1 R2 > X.EI PERMIT=TRUE", "1 R2 < X.EO"]
    assert f"A.sys:{place_of(text, 'S.QO')}: QO of R2.S is TRUE" in done.text("import.txt")


def test_what_is_not_simulated_of_communication_is_listed(tmp_path):
    sender = service_block("P", "PUBLISH_0") + connections("Event", "N.CUO P.REQ") + connections("Data", "N.Q P.QI")
    receiver = service_block("S", "SUBSCRIBE_0").replace('"1"', '"FALSE"') + connections("Event", "S.IND L.CU")
    text = two_resources(sender, receiver)
    done = import_all(tmp_path, {"A.sys": text})
    assert done.status == 0, done.lines
    report = done.text("import.txt")
    assert "not simulated of communication blocks: QI = FALSE, QO = FALSE, lost messages, and a CNF that comes" in report
    assert f"A.sys:{place_of(text, 'N.Q')}: QI of R1.P is not simulated" in report
    assert f"A.sys:{place_of(text, 'FALSE')}: QI of R2.S is FALSE, and taken as TRUE" in report


@pytest.mark.parametrize(
    "block, other, says",
    [
        (service_block("P", "PUBLISH_1"), "", "there is no SUBSCRIBE with its ID 1.2.3.4:5"),
        (
            service_block("S", "SUBSCRIBE_1"),
            service_block("P", "PUBLISH_1", "9:9"),
            "there is no PUBLISH with its ID 1.2.3.4:5",
        ),
        (service_block("C", "CLIENT_1_1"), "", "there is no SERVER with its ID 1.2.3.4:5"),
        ('<FB Name="P" Type="PUBLISH_1"/>', "", "it has no ID as a parameter"),
        (
            service_block("C", "CLIENT_1"),
            service_block("D", "CLIENT_1") + service_block("S", "SERVER_1"),
            "there is more than one CLIENT",
        ),
        (
            service_block("S", "SUBSCRIBE_2"),
            service_block("P", "PUBLISH_1"),
            "S receives 2 values, and P sends 1: give both the same number",
        ),
    ],
)
def test_a_communication_block_without_a_partner_is_refused(block, other, says, tmp_path):
    text = system(COUNTER + block + other)
    done = import_all(tmp_path, {"A.sys": text})
    name = block.split('"')[1]
    place = place_of(text, f'{name}" Type="{block.split(chr(34))[3]}')
    assert done.status == 2
    assert [it for it in done.lines if it.startswith(f"A.sys:{place}: ") and says in it.replace("'", "")], (
        place,
        done.lines,
    )


@pytest.mark.parametrize(
    "rows, part, says",
    [
        (
            "S.STATUS L.PV",
            "S.STATUS",
            "S.STATUS (STRING) and L.PV (UINT): STRING is no type of the profile, "
            "so such a port can be connected only to another one",
        ),
        ("S.QO L.PV", "S.QO", "QO is a BOOL, and L.PV is none"),
        ("N.Q X.PERMIT S.QO X.PERMIT", "S.QO", "X.PERMIT has more than one source"),
    ],
)
def test_a_status_of_communication_that_does_not_fit_is_refused(rows, part, says, tmp_path):
    words = rows.split()
    pairs = [" ".join(words[it:it + 2]) for it in range(0, len(words), 2)]
    text = system(
        COUNTER
        + service_block("P", "PUBLISH_0")
        + service_block("S", "SUBSCRIBE_0")
        + '<FB Name="X" Type="E_PERMIT"/>'
        + connections("Data", *pairs)
    )
    done = import_all(tmp_path, {"A.sys": text})
    assert done.lines == [f"A.sys:{place_of(text, part)}: {says}"]


def test_communication_inside_a_composite_type_is_refused(tmp_path):
    text = (
        '<FBType Name="Box"><InterfaceList/><FBNetwork>'
        + service_block("P", "PUBLISH_0")
        + service_block("S", "SUBSCRIBE_0")
        + "</FBNetwork></FBType>"
    )
    done = import_all(tmp_path, {"Box.fbt": text})
    assert done.status == 2 and all(
        "communication blocks are for applications and resources" in it for it in done.lines
    ), done.lines
