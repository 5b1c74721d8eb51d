"""What a file has twice, or in two ways, is refused with both places. Advice, and reasons of their own, in refusals."""

from __future__ import annotations

import pytest
from importing import basic, connections, import_all, mappings, place_of, resource, system

SUB = """<SubAppType Name="Sub"><SubAppInterfaceList><SubAppEventInputs><SubAppEvent Name="GO"><With Var="DT"/></SubAppEvent></SubAppEventInputs>
  <InputVars><VarDeclaration Name="DT" Type="TIME"/></InputVars></SubAppInterfaceList>
  <SubAppNetwork><FB Name="D" Type="E_DELAY"/>
    <EventConnections><Connection Source="GO" Destination="D.START"/></EventConnections>
    <DataConnections><Connection Source="DT" Destination="D.DT"/></DataConnections></SubAppNetwork>
</SubAppType>
"""


@pytest.mark.parametrize("old, new, part, first", [
    ("</ECC>", '</ECC>\n<ECC><ECState Name="X"/></ECC>', "<ECC><ECState Name=\"X", "<ECC>"),
    ("</BasicFB>", "</BasicFB>\n<BasicFB/>", "<BasicFB/>", "<BasicFB>"),
    ("</BasicFB>", "</BasicFB>\n<FBNetwork/>", "<FBNetwork/>", "<BasicFB>"),
    ("</BasicFB>", "</BasicFB>\n<SimpleFB/>", "<SimpleFB/>", "<BasicFB>"),
    ("</ST>", "</ST><ST Text=\"SUM := 2;\"/>", "<ST Text", "<ST>"),
    ("</ST>", "</ST><Other Language=\"ST\" Text=\"SUM := 2;\"/>", "<Other", "<ST>"),
    ("</InternalVars>", "</InternalVars><InternalVars/>", "<InternalVars/>", "<InternalVars>"),
    ("</InputVars>", "</InputVars><InputVars/>", "<InputVars/>", "<InputVars>"),
    ("</InterfaceList>", "</InterfaceList><InterfaceList/>", "<InterfaceList/>", "<InterfaceList>"),
])
def test_a_part_that_is_there_twice_is_refused_with_both_places(old, new, part, first, tmp_path):
    text = basic().replace(old, new, 1)
    done = import_all(tmp_path, {"Adder.fbt": text})
    assert done.status == 2
    line = next(it for it in done.lines if it.startswith(f"Adder.fbt:{place_of(text, part)}: "))
    assert f" has a second part {part.strip('<>').split('>')[0].split(' ')[0].strip('/')}, beside " in line
    assert f"at Adder.fbt:{place_of(text, first)}: keep one of the two" in line


@pytest.mark.parametrize("part", ["EventConnections", "DataConnections"])
def test_a_network_has_connections_of_a_kind_once(part, tmp_path):
    text = system(f'<FB Name="A" Type="E_SR"/><{part}/><{part}/>')
    done = import_all(tmp_path, {"A.sys": text})
    place = f"A.sys:{place_of(text, f'<{part}/>', 2)}"
    assert done.lines == [f"{place}: FBNetwork has a second part {part}, beside {part} at A.sys:{place_of(text, f'<{part}/>')}: keep one of the two"]


def test_a_body_is_an_attribute_or_a_text(tmp_path):
    text = basic().replace("<ST>", '<ST Text="SUM := 3;">')
    done = import_all(tmp_path, {"Adder.fbt": text})
    assert done.lines == [f"Adder.fbt:{place_of(text, 'SUM := A')}: ST has a text beside its attribute Text: keep one of the two"]
    # (blanks are no text)
    done = import_all(tmp_path, {"Adder.fbt": text.replace("<![CDATA[SUM := A;]]>", "\n  ")})
    assert done.status == 0 and "SUM := 3;" in done.text("types.iec"), done.lines


def test_a_service_beside_a_chart_is_no_second_body(tmp_path):
    done = import_all(tmp_path, {"Adder.fbt": basic().replace("</BasicFB>", '</BasicFB><Service LeftInterface="A" RightInterface="B"/>')})
    assert done.status == 0, done.lines


# ---- Values

def test_the_application_and_a_resource_agree_on_a_parameter(tmp_path):
    def text(there):
        inside = f'<FB Name="A" Type="E_DELAY"><Parameter Name="DT" Value="{there}"/></FB>'
        return system('<FB Name="A" Type="E_DELAY"><Parameter Name="DT" Value="T#500ms"/></FB>', resource("D", "R", inside), mappings("App", A="D.R"))
    files = {"A.sys": text("T#200ms")}
    done = import_all(tmp_path, files)
    other = f"A.sys:{place_of(files['A.sys'], 'T#500ms')}"
    assert done.status == 2 and done.lines == [
        f"A.sys:{place_of(files['A.sys'], 'T#200ms')}: this input has the value T#200ms here and T#500ms at {other}: keep one of the two"]
    done = import_all(tmp_path, {"A.sys": text("TIME#0.5s")})
    assert done.status == 0 and "A : E_DELAY(DT := T#500ms);" in done.declaration(), done.lines


def test_a_parameter_is_given_once(tmp_path):
    text = system('<FB Name="A" Type="E_CTU"><Parameter Name="PV" Value="3"/><Parameter Name="PV" Value="4"/></FB>')
    done = import_all(tmp_path, {"A.sys": text})
    assert done.lines == [f"A.sys:{place_of(text, '4')}: this input has the value 4 here and 3 at A.sys:{place_of(text, '3')}: keep one of the two"]
    assert import_all(tmp_path, {"A.sys": text.replace('"4"', '"UINT#3"')}, out="same").status == 0


def test_a_subapplication_and_the_block_inside_agree(tmp_path):
    sub = SUB.replace('Type="E_DELAY"/>', 'Type="E_DELAY"><Parameter Name="DT" Value="T#7ms"/></FB>')
    text = system('<SubApp Name="S" Type="Sub"><Parameter Name="DT" Value="T#9ms"/></SubApp>')
    done = import_all(tmp_path, {"lib/Sub.sub": sub, "A.sys": text})
    assert done.lines == [f"A.sys:{place_of(text, 'T#9ms')}: this input has the value T#9ms here and T#7ms at lib/Sub.sub:{place_of(sub, 'T#7ms')}:"
                          " keep one of the two"]
    # The value of the instance comes before the one that the subapplication declares.
    declared = SUB.replace('Type="TIME"', 'Type="TIME" InitialValue="T#7ms"')
    done = import_all(tmp_path, {"lib/Sub.sub": declared, "A.sys": text})
    assert done.status == 0 and "S__D : E_DELAY(DT := T#9ms);" in done.declaration(), done.lines


@pytest.mark.parametrize("value, status", [("500", 2), ("-1", 2), ("T#500ms", 0), ("0", 0)])
def test_a_time_has_a_unit(value, status, tmp_path):
    text = basic().replace('Name="T" Type="TIME"', f'Name="T" Type="TIME" InitialValue="{value}"')
    done = import_all(tmp_path, {"Adder.fbt": text})
    assert done.status == status, done.lines
    if status:
        assert done.lines == [f"Adder.fbt:{place_of(text, value)}: {value} is no time: write its unit, such as T#{value}ms"]
    text = system(f'<FB Name="A" Type="E_DELAY"><Parameter Name="DT" Value="{value}"/></FB>')
    assert import_all(tmp_path, {"A.sys": text}, out="second").status == status


# ---- Reasons and advice

def test_names_of_attributes_are_listed(tmp_path):
    more = '<Attribute Name="GenericClassName" Type="STRING" Value="\'GEN_X\'"/><Attribute Name="VarConfig" Value="true"/><Attribute Name="VarConfig"/>'
    done = import_all(tmp_path, {"Adder.fbt": basic().replace("<BasicFB>", f"{more}<BasicFB>")})
    assert done.status == 0, done.lines
    lines = done.text("import.txt").splitlines()
    assert "  element Attribute: 3" in lines and "  element Attribute GenericClassName: 1" in lines and "  element Attribute VarConfig: 2" in lines


def test_very_many_names_of_attributes_are_not_all_listed(tmp_path):
    more = "".join(f'<Attribute Name="N{it}"/>' for it in range(1000))
    done = import_all(tmp_path, {"Adder.fbt": basic().replace("<BasicFB>", f"{more}<BasicFB>")})
    assert done.status == 0 and done.text("import.txt").count("element Attribute N") == 200


@pytest.mark.parametrize("data, says", [
    (basic().encode("utf-16-le"), "1:1: this is UTF-16 without a byte order mark: save the file as UTF-8"),
    (basic().encode("utf-16-be"), "1:1: this is UTF-16 without a byte order mark: save the file as UTF-8"),
    (basic().replace("<BasicFB", "<BasicFB " + " ".join(f'a{it}="1"' for it in range(65))).encode(), "9:3: an element has more than 64 attributes"),
    (basic().replace("<BasicFB", "<BasicFB a=1").encode(), "9:3: this is no well-formed XML"),
])
def test_files_that_are_no_xml_have_their_own_reasons(data, says, tmp_path):
    assert import_all(tmp_path, {"Adder.fbt": data}).lines == [f"Adder.fbt:{says}"]


@pytest.mark.parametrize("old, new, part, says", [
    ('Name="B" Type="INT"', 'Name="B" Type="STRING"', "STRING", "STRING is no type of the profile: give each text a number"),
    ('Name="B" Type="INT"', 'Name="B" Type="String[20]"', "String", "String[20] is no type of the profile: give each text a number"),
    ('Name="B" Type="INT"', 'Name="B" Type="REAL"', "REAL", "REAL is no type of the profile: use whole numbers of a smaller unit (docs/IMPORT.md, \"REAL\")"),
    ('Name="B" Type="INT"', 'Name="B" Type="Part"', 'Part"', "Part is a data type (lib/Part.dtp), and structures are not in the profile: use a variable for each element"),
    ('Name="B" Type="INT"', 'Name="B" Type="cell::Other"', "cell", "cell::Other is no type of the profile: of a structure, use a variable for each element"),
    ('Name="B" Type="INT"', 'Name="B" Type="INT" ArraySize="4"', '4"', "B is an array, and the profile has none: use a variable for each element"),
    ("<InternalVars>", "<InternalFBs/><InternalVars>", "<InternalFBs",
     "the element InternalFBs in BasicFB is not known: make each of these blocks an instance beside this type, in a composite type"),
    ("<InternalVars>", "<Method/><InternalVars>", "<Method", "the element Method in BasicFB is not known: write its statements into the algorithms that call it"),
])
def test_a_refusal_says_what_to_do(old, new, part, says, tmp_path):
    text = basic().replace(old, new, 1)
    done = import_all(tmp_path, {"Adder.fbt": text, "lib/Part.dtp": "<DataType/>"})
    assert done.lines == [f"Adder.fbt:{place_of(text, part)}: {says}"]


def test_a_connection_that_is_given_twice_counts_once_in_a_resource(tmp_path):
    inside = connections("Event", "A.EO B.S")
    text = system('<FB Name="A" Type="E_SR"/><FB Name="B" Type="E_SR"/>' + inside,
                  resource("D", "R", '<FB Name="A" Type="E_SR"/><FB Name="B" Type="E_SR"/>' + inside), mappings("App", A="D.R", B="D.R"))
    done = import_all(tmp_path, {"A.sys": text})
    assert done.status == 0 and done.declaration().count("A.EO TO B.S;") == 1
