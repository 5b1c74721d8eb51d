"""Tests of the commands where a package that they need is missing, and of what the plugin imports."""

import os
import re
import subprocess
import sys

import pytest

COMMANDS = {
    "fbsim-import": ("fbsim.importer", "import", ["lxml", "lark", "jinja2"]),
    "fbsim-page": ("fbsim.page", "page", ["lark", "jinja2"]),
}


def without(names, folder, top, *words):
    """Runs Python where packages of these names are missing."""
    (folder / "hidden").mkdir(exist_ok=True)
    (folder / "hidden" / "sitecustomize.py").write_text(f"import sys\nsys.modules.update(dict.fromkeys({names!r}))\n")
    path = os.pathsep.join([str(folder / "hidden"), str(top / "python" / "src")])
    how = {"capture_output": True, "text": True, "cwd": folder, "env": os.environ | {"PYTHONPATH": path}}
    return subprocess.run([sys.executable, "-B", *words], **how)


def missing(extra, packages):
    debian = " ".join(f"python3-{it}" for it in packages)
    how = f'install it by `pip install "fbsim[{extra}]"`, or on Debian by `apt install {debian}`'
    return f"the extra {extra} is missing ({', '.join(packages)}): {how}"


@pytest.mark.parametrize("command", COMMANDS)
def test_a_command_names_the_extra_that_is_missing(command, tmp_path, top):
    module, extra, packages = COMMANDS[command]
    for names in ([packages[0]], packages):
        ran = without(names, tmp_path, top, "-m", module, "--help")
        assert (ran.returncode, ran.stdout, ran.stderr) == (5, "", f"{command}: {missing(extra, names)}\n")


CALLS = [
    ("frame", "pandas", "trace.frame()"), ("plot", "matplotlib", "trace.plot(['LAMP.Q'])"),
    ("page", "jinja2", "trace.page('run.html')")
]


@pytest.mark.parametrize("extra, package, call", CALLS)
def test_a_call_names_the_extra_that_is_missing(extra, package, call, tmp_path, top, examples):
    declaration = str(examples / "flasher" / "flasher.iec")
    code = f"import fbsim\ntrace = fbsim.Application({declaration!r}).run(horizon=10)\n{call}"
    ran = without([package], tmp_path, top, "-c", code)
    assert ran.returncode == 1
    assert ran.stderr.splitlines()[-1] == f"fbsim.faults.Fault: {missing(extra, [package])}"


def test_the_manual_page_has_each_option(top, monkeypatch):
    monkeypatch.setenv("PYTHONPATH", str(top / "python" / "src"))
    for command, (module, _, _) in COMMANDS.items():
        words = [sys.executable, "-B", "-m", module, "--help"]
        usage = subprocess.run(words, capture_output=True, text=True, check=True).stdout.partition("\n\n")[0]
        page = (top / "python" / "man" / f"{command}.1").read_text().replace("\\-", "-")
        options = {*re.findall(r"--[a-z]+", usage)}
        assert options and options == {*re.findall(r"^\.BI? (--[a-z]+)", page, re.M)}


@pytest.fixture
def folder(pytester, monkeypatch, top):
    """A folder of tests, of which one shows what of the package is loaded when it begins."""
    monkeypatch.setenv("PYTHONPATH", str(top / "python" / "src"))
    pytester.makepyfile("import sys\n\n\ndef test():\n    assert not [it for it in sys.modules if it[:5] == 'fbsim']\n")
    return pytester


def test_the_plugin_imports_nothing_where_no_file_needs_it(folder):
    result = folder.runpytest_subprocess("-p", "pytest_fbsim", "-p", "no:cacheprovider")
    result.assert_outcomes(passed=1)


def test_the_plugin_imports_the_package_for_a_file(folder, examples):
    declaration = (examples / "flasher" / "flasher.iec").read_text()
    folder.makefile(".iec", flasher=declaration)
    folder.makefile(".toml", fbsim='decl = "flasher.iec"\nhorizon = 10\n\n[[scenario]]\nname = "one"\n')
    result = folder.runpytest_subprocess("-p", "pytest_fbsim", "-p", "no:cacheprovider")
    result.assert_outcomes(passed=1, failed=1)


def test_a_failure_is_shown_without_the_frames_of_the_package(pytester, monkeypatch, top):
    monkeypatch.setenv("PYTHONPATH", str(top / "python" / "src"))
    pytester.makepyfile(
        test_loading="import fbsim\nfbsim.Application('missing.iec').check()\n",
        test_running="import fbsim\n\n\ndef test():\n    fbsim.Application('missing.iec').check()\n",
    )
    for name in ("test_loading.py", "test_running.py"):
        result = pytester.runpytest_subprocess("-p", "pytest_fbsim", "-p", "no:cacheprovider", name)
        text = result.stdout.str()
        assert "FileFault" in text and "missing.iec" in text
        assert "def call(" not in text and "raise fault_of" not in text
