"""Names: letter case, keywords, and names of the same letters."""

from __future__ import annotations

import pytest
from importing import basic, connections, import_all, place_of, system


def test_letter_case_is_folded_and_keywords_are_no_names(tmp_path):
    network = (
        '<FB Name="Belt" Type="E_SR"/><FB Name="BELT" Type="E_SR"/><FB Name="to" Type="E_SR"/>'
        '<FB Name="mod" Type="E_SR"/>'
        '<FB Name="belt_1" Type="E_SR"/><FB Name="bElt" Type="E_SR"/>'
        + connections("Event", "Belt.EO BELT.S", "BELT.EO to.S", "to.EO mod.S", "mod.EO belt_1.S", "belt_1.EO bElt.S")
    )
    done = import_all(tmp_path, {"A.sys": system(network, name="With")})
    assert done.status == 0, done.lines
    assert (
        "APPLICATION WITH_1 FBS BELT : E_SR; BELT_2 : E_SR; TO_1 : E_SR; MOD_1 : E_SR; BELT_1 : E_SR; BELT_3 : E_SR;"
        in done.declaration()
    )
    assert (
        "BELT.EO TO BELT_2.S; BELT_2.EO TO TO_1.S; TO_1.EO TO MOD_1.S; MOD_1.EO TO BELT_1.S; BELT_1.EO TO BELT_3.S;"
        in done.declaration()
    )
    for row in ("instance BELT: BELT_2", "instance to: TO_1", "instance mod: MOD_1", "instance bElt: BELT_3"):
        assert f"  {row}\n" in done.text("import.txt")


def test_two_names_of_one_spelling_get_the_first_number_that_is_free(tmp_path):
    done = import_all(tmp_path, {"A.sys": system('<FB Name="Belt" Type="E_SR"/><FB Name="BELT" Type="E_SR"/>')})
    assert "FBS BELT : E_SR; BELT_1 : E_SR; END_FBS" in done.declaration()
    assert "instance BELT: BELT_1" in done.text("import.txt")


def test_a_name_in_other_letters_is_found_if_only_one_is_meant(tmp_path):
    network = '<FB Name="Belt" Type="E_SR"/>' + connections("Event", "belt.eo BELT.r")
    done = import_all(tmp_path, {"A.sys": system(network)})
    assert "BELT.EO TO BELT.R;" in done.declaration(), done.lines
    text = system('<FB Name="Belt" Type="E_SR"/><FB Name="BELT" Type="E_SR"/>' + connections("Event", "belt.EO BELT.R"))
    done = import_all(tmp_path / "two", {"A.sys": text})
    assert done.lines == [f"A.sys:{place_of(text, 'belt.EO')}: there is no instance belt"]


def test_variables_states_algorithms_and_ports_are_renamed_where_they_are_used(tmp_path):
    text = basic("by := A; b := by + B; SUM := b;", "do &amp; QI").replace('Name="REQ"', 'Name="do"')
    text = text.replace(
        '<VarDeclaration Name="ON"',
        '<VarDeclaration Name="by" Type="INT"/><VarDeclaration Name="b" Type="INT"/>' '<VarDeclaration Name="ON"',
    )
    text = text.replace('"ADD"', '"end_if"').replace('"START"', '"exit"')
    done = import_all(tmp_path, {"Adder.fbt": text})
    assert done.status == 0, done.lines
    found = done.declaration()
    assert "DO_1 WITH A, QI;" in found
    assert "EXIT_1; END_IF_1 : END_IF_1 -> CNF;" in found
    assert "EXIT_1 TO END_IF_1 := DO_1[QI]; END_IF_1 TO EXIT_1 := 1;" in found
    assert "BY_1 := A; B_1 := BY_1 + B; SUM := B_1;" in found
    for row in (
        "variable do: DO_1",
        "variable by: BY_1",
        "variable b: B_1",
        "state exit: EXIT_1",
        "algorithm end_if: END_IF_1",
    ):
        assert f"type ADDER: {row}\n" in done.text("import.txt")


def test_types_of_one_spelling_are_one_file(tmp_path):
    text = basic()
    done = import_all(tmp_path, {"Adder.fbt": text, "b.fbt": text.replace('"Adder"', '"ADDER"')})
    assert done.status == 2
    assert done.lines == [f"b.fbt:{place_of(text, 'Adder')}: type ADDER is given in two files"]


@pytest.mark.parametrize("name", ["../up", "a/b", "a.b", "..", "", "1a", "a b", "Stra\u00dfe", "a\u200b", "x" * 300])
def test_what_is_no_name_is_refused(name, tmp_path):
    text = system(f'<FB Name="{name}" Type="E_SR"/>')
    done = import_all(tmp_path, {"A.sys": text})
    assert done.status == 2
    line = text[: text.index("<FB ")].count("\n") + 1
    assert done.lines[0].startswith(f"A.sys:{line}:11: '") and "is no name" in done.lines[0], done.lines
