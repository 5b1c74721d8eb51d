#!/usr/bin/env python3
"""tools/python_package.py [PROGRAM]: tests the Python package in python/ with the built program, or PROGRAM.

By the system's Python, in a copy of the repository without its crates, as nobody if this is root: the style of the package (flake8), its
types (mypy) and its length, its tests (pytest), of which none may be left out, and docs/PYTHON.md as its reader follows it, from the
install on. A package of the system that is missing is a failure that names it. ./gate runs this when it has run the program."""

import os
import re
import shutil
import subprocess
import sys
import tempfile
import xml.etree.ElementTree

import pages
from kit import TOP, rt
from system_packages import lacks, required

# The system's own Python, which sees the system's packages.
PYTHON = "/usr/bin/python3"
PAGE = "docs/PYTHON.md"
# What the tests of the package use, by the system's package.
MODULES = {
    "pytest": "python3-pytest", "xdist": "python3-pytest-xdist", "hypothesis": "python3-hypothesis", "pandas": "python3-pandas",
    "numpy": "python3-numpy", "matplotlib": "python3-matplotlib", "distributed": "python3-distributed",
    "junitparser": "python3-junitparser", "lxml": "python3-lxml", "lark": "python3-lark",
    "jinja2": "python3-jinja2", "build": "python3-build", "wheel": "python3-wheel",
    "setuptools": "python3-setuptools", "ensurepip": "python3-venv", "mypy": "mypy", "flake8": "flake8", "selenium": "python3-selenium",
}
# Folders of the package, with the lines of Python that each may have.
MOST_LINES = {"fbsim": 3_700, "fbsim/importer": 4_960, "fbsim/page": 1_100}
SECONDS = 1_200


def missing():
    """Returns the system's packages that are missing."""
    look = "import importlib.util, sys; print(*[it for it in sys.argv[1:] if importlib.util.find_spec(it) is None])"
    ran = subprocess.run([PYTHON, "-c", look, *MODULES], capture_output=True, text=True)
    return [MODULES[it] for it in ran.stdout.split()] if ran.returncode == 0 else ["python3"]


class Copy:
    """A copy of the repository without its crates, in a folder where nobody may write, and commands there."""

    def __init__(self, room, program):
        self.room, self.top, self.page, self.status = room, f"{room}/repository", f"{room}/page", 0
        self.drop = rt.drop_to_nobody()
        if self.drop is None:
            sys.exit("as root, programs are called only as nobody, and setpriv failed here")
        without = shutil.ignore_patterns("crates", "bench", "out", ".*", "__pycache__", "env", "wheel")
        shutil.copytree(TOP, self.top, ignore=without)
        for name in ("bin", "home", "tmp", "page", "pictures"):
            os.mkdir(f"{room}/{name}")
        for name in ("python", "examples"):
            shutil.copytree(f"{self.top}/{name}", f"{room}/fbsim/{name}")
        shutil.copy(f"{TOP}/python/.flake8", f"{self.top}/python")
        shutil.copyfile(program, f"{room}/bin/fbsim")
        for folder, _, _ in os.walk(room):
            os.chmod(folder, 0o777)
        os.chmod(f"{room}/bin/fbsim", 0o755)

    def run(self, words, folder, settings=()):
        """Runs a command in a folder, and returns its status and what it said."""
        known = {"PATH": f"{self.room}/bin:/usr/bin:/bin", "HOME": f"{self.room}/home", "TMPDIR": f"{self.room}/tmp", "LANG": "C.UTF-8"}
        how = {"stdin": subprocess.DEVNULL, "stdout": subprocess.PIPE, "stderr": subprocess.STDOUT, "text": True, "timeout": SECONDS}
        ran = subprocess.run([*self.drop, *words], cwd=folder, env={**known, "PYTHONDONTWRITEBYTECODE": "1", **dict(settings)}, **how)
        return ran.returncode, ran.stdout

    def check(self, tool):
        """Returns whether a tool finds nothing in the package, and prints what it finds."""
        status, said = self.run([PYTHON, "-m", tool], f"{self.top}/python")
        print(f"python: {tool} finds nothing" if status == 0 else f"{said}python: {tool} ended with status {status}", flush=True)
        return status == 0

    def test(self):
        """Runs the tests, and returns whether all pass and none was left out."""
        words = [PYTHON, "-m", "pytest", "-q", f"--junitxml={self.room}/tmp/report.xml"]
        settings = {"FBSIM": f"{self.room}/bin/fbsim", "GATE_ARTEFACTS": f"{self.room}/pictures"}
        status, said = self.run(words, f"{self.top}/python", settings)
        # (what pages look like, for people)
        shutil.copytree(f"{self.room}/pictures", os.environ.get("GATE_ARTEFACTS") or f"{TOP}/out", dirs_exist_ok=True)
        try:
            suite = xml.etree.ElementTree.parse(f"{self.room}/tmp/report.xml").getroot().find("testsuite")
            count, failed, left = int(suite.get("tests")), int(suite.get("failures")) + int(suite.get("errors")), int(suite.get("skipped"))
        except OSError:
            count, failed, left = 0, 0, 0
        is_well = status == 0 and count > 0 and not failed and not left
        print("" if is_well else said, end="")
        print(f"python: {count - failed - left} of {count} tests pass, {left} were left out", flush=True)
        return is_well

    # A reader of the page (tools/pages.py).

    def write(self, name, lines):
        with open(f"{self.page}/{name}", "w", encoding="utf-8") as it:
            it.writelines(line + "\n" for line in lines)

    def does(self, command):
        """Returns the lines that a command of the page prints."""
        return self.run(["sh", "-c", f"exec 2>&1\n{command}\n"], self.page)[1].splitlines()

    def follows(self, lines):
        """Returns a line for each system package that a command of the page installs and ./gate does not."""
        named = re.findall(r"\bpython3-\w+", "\n".join(lines))
        return [f"tools/system_packages.txt lacks {it}" for it in named if it not in required()]

    def follow(self):
        """Returns whether each command of the page prints what the page has, and the repository beside it is as it was but for what git ignores."""
        # (in a new home, matplotlib says once that it looks for fonts)
        self.run([PYTHON, "-c", "import matplotlib.font_manager"], self.page)
        with open(f"{TOP}/{PAGE}", encoding="utf-8") as it:
            count, faults = pages.follow(PAGE, it.read(), self)
        left = [it for top in ("", "python") for it in os.listdir(f"{self.room}/fbsim/{top}") if it not in {"python", "examples", "build"}]
        faults += [f"{PAGE}: the commands left {it} in the repository" for it in left if not os.path.exists(f"{self.top}/python/{it}")]
        print(*faults, sep="\n", end="\n" * bool(faults))
        print(f"{PAGE}: {count - len(faults)} of {count} commands print what the page has", flush=True)
        return count > 0 and not faults


def is_short():
    """Returns whether no folder of the package has more lines than it may have."""
    is_well = True
    for folder, most in MOST_LINES.items():
        lines = 0
        for name in os.listdir(f"{TOP}/python/src/{folder}"):
            if name.endswith(".py"):
                with open(f"{TOP}/python/src/{folder}/{name}", encoding="utf-8") as it:
                    lines += len(it.readlines())
        print(f"python: {folder} has {lines} of at most {most} lines", flush=True)
        is_well &= lines <= most
    return is_well


def try_all(program):
    """Returns whether everything of the package is as it must be."""
    lacking = missing()
    for it in lacking:
        print(f"python: the system package {it} is missing (tools/system_packages.py)")
    programs = [("datamash", "datamash"), ("dot", "graphviz"), ("chromium", "chromium"), ("chromedriver", "chromium-driver")]
    if lacking or any([lacks(*it) for it in programs]):
        return False
    with tempfile.TemporaryDirectory(prefix="python-") as room:
        copy = Copy(room, program)
        return all([is_short(), copy.check("flake8"), copy.check("mypy"), copy.test(), copy.follow()])


if __name__ == "__main__":
    sys.exit(not try_all(sys.argv[1] if len(sys.argv) > 1 else pages.PROGRAM))
