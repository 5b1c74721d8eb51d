"""Tests of where the program is found."""

import os
import re
import shutil
import subprocess

import pytest

import fbsim
from fbsim import program as program_module


def test_version_is_that_of_the_changelog(top):
    newest = re.search(r"^## (\d+\.\d+\.\d+) \(\d", (top / "CHANGELOG.md").read_text(), re.M)
    assert newest and fbsim.__version__ == newest[1]


def test_program_has_the_version_of_the_package():
    said = subprocess.run([fbsim.find_program(), "--version"], capture_output=True, text=True, check=True).stdout
    assert said == f"fbsim {fbsim.__version__}\n"


def copy_of_true(folder, name):
    folder.mkdir(parents=True, exist_ok=True)
    return shutil.copy("/bin/true", folder / name)


def test_the_environment_comes_first_and_then_the_path(tmp_path, monkeypatch):
    first, second = copy_of_true(tmp_path / "a", "mine"), copy_of_true(tmp_path / "b", "fbsim")
    monkeypatch.setenv("PATH", str(tmp_path / "b"), prepend=os.pathsep)
    monkeypatch.setenv("FBSIM", str(first))
    assert fbsim.find_program() == str(first)
    monkeypatch.delenv("FBSIM")
    assert fbsim.find_program() == str(second)


SITES = [("lib/python3.11/site-packages", ""), ("lib/python3/dist-packages", ""), ("at", "at")]


@pytest.mark.parametrize("site, to", SITES)
def test_the_program_of_the_installation_comes_before_the_path(site, to, tmp_path, monkeypatch):
    monkeypatch.delenv("FBSIM", raising=False)
    monkeypatch.setattr(program_module, "__file__", str(tmp_path / "env" / site / "fbsim" / "program.py"))
    on_path = copy_of_true(tmp_path / "b", "fbsim")
    monkeypatch.setenv("PATH", str(tmp_path / "b"), prepend=os.pathsep)
    assert fbsim.find_program() == str(on_path)
    own = copy_of_true(tmp_path / "env" / to / "bin", "fbsim")
    assert fbsim.find_program() == str(own)
    monkeypatch.setenv("FBSIM", str(on_path))
    assert fbsim.find_program() == str(on_path)


def test_a_folder_bin_beside_a_checkout_is_no_installation(tmp_path, monkeypatch):
    monkeypatch.delenv("FBSIM", raising=False)
    monkeypatch.setattr(program_module, "__file__", str(tmp_path / "python" / "src" / "fbsim" / "program.py"))
    on_path = copy_of_true(tmp_path / "b", "fbsim")
    monkeypatch.setenv("PATH", str(tmp_path / "b"), prepend=os.pathsep)
    copy_of_true(tmp_path / "bin", "fbsim")
    copy_of_true(tmp_path / "python" / "bin", "fbsim")
    assert fbsim.find_program() == str(on_path)


def test_a_relative_name_is_found_from_the_current_folder(tmp_path, monkeypatch):
    given = copy_of_true(tmp_path / "a", "mine")
    monkeypatch.chdir(tmp_path)
    monkeypatch.setenv("FBSIM", "a/mine")
    assert fbsim.find_program() == str(given)


def test_the_repository_comes_last_and_there_the_proved_one_first(tmp_path, monkeypatch):
    top = tmp_path / "repository"
    monkeypatch.delenv("FBSIM", raising=False)
    monkeypatch.setenv("PATH", str(tmp_path / "nothing"))
    monkeypatch.setattr(program_module, "__file__", str(top / "python" / "src" / "fbsim" / "program.py"))
    copy_of_true(top, "simulate")
    unproved = copy_of_true(top / "crates" / "fbsim" / "out", "fbsim.unproved")
    assert fbsim.find_program() == str(unproved)
    proved = copy_of_true(top / "crates" / "fbsim" / "out", "fbsim")
    assert fbsim.find_program() == str(proved)


def test_a_missing_program_is_named(tmp_path, monkeypatch):
    monkeypatch.setenv("FBSIM", str(tmp_path / "nowhere"))
    with pytest.raises(fbsim.ProgramMissing, match="nowhere"):
        fbsim.find_program()
    monkeypatch.delenv("FBSIM")
    monkeypatch.setenv("PATH", str(tmp_path))
    monkeypatch.setattr(program_module, "__file__", str(tmp_path / "program.py"))
    with pytest.raises(fbsim.ProgramMissing, match="set FBSIM to its path"):
        fbsim.find_program()
