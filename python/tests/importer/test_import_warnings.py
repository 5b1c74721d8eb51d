"""Warnings: their lines, and the statuses that --deny and --strict give."""

from __future__ import annotations

import argparse

import pytest
from importing import basic, import_all

from fbsim.importer.common import Faults, Place
from fbsim.importer.report import add_options, finish


def options(*words):
    """Returns what the options of a command line deny."""
    parser = argparse.ArgumentParser(exit_on_error=False)
    add_options(parser)
    return parser.parse_args(words).deny


def warned():
    """Returns faults with two warnings, one of them twice, and the later place first."""
    faults = Faults()
    faults.warn(Place("B.fbt", 3, 4), "I01", "X * 200 may not fit INT")
    faults.warn(Place("A.sys", 9, 12), "I02", "no communication block")
    faults.warn(Place("A.sys", 9, 12), "I02", "no communication block")
    return faults


@pytest.mark.parametrize("words, status", [
    ((), 0), (("--deny", "I02"), 1), (("--deny", "i01,I02"), 1), (("--deny", "all"), 1), (("--strict",), 1),
    (("--deny", "I01", "--deny", "I02"), 1),
])
def test_warnings_have_their_places_and_end_with_the_status_of_deny(words, status, capsys):
    assert finish(warned(), options(*words)) == status
    said = capsys.readouterr()
    assert said.out == "accepted\n"
    assert said.err == "A.sys:9:12: I02: no communication block\nB.fbt:3:4: I01: X * 200 may not fit INT\n"


def test_only_a_warning_that_is_there_is_denied(capsys):
    faults = Faults()
    faults.warn(Place("B.fbt", 3, 4), "I01", "X * 200 may not fit INT")
    assert finish(faults, options("--deny", "I02")) == 0
    assert finish(Faults(), options("--deny", "all")) == 0
    assert capsys.readouterr().out == "accepted\n" * 2


def test_a_refusal_hides_warnings(capsys):
    faults = warned()
    faults.refuse(Place("A.sys", 1, 1), "this is refused")
    assert finish(faults, options("--deny", "all")) == 2
    assert capsys.readouterr() == ("", "A.sys:1:1: this is refused\n")


def test_long_lists_of_warnings_are_shortened():
    faults = Faults()
    for line in range(1, 204):
        faults.warn(Place("A.sys", line, 1), "I02", "no communication block")
    assert faults.warned()[199:] == ["A.sys:200:1: I02: no communication block", "and 3 more"]


@pytest.mark.parametrize("value, name", [("I99", "I99"), ("I01,X", "X"), ("I01,", "without a number"), ("all,I77", "ALL")])
def test_an_unknown_number_is_a_wrong_command_line(tmp_path, value, name):
    done = import_all(tmp_path, {"Adder.fbt": basic()}, "--deny", value)
    assert done.status == 5
    assert done.lines[-1] == (f"fbsim-import: error: argument --deny: there is no warning {name}:"
                              " there are I01, I02, I03, with --lint L01 to L23, and all")
