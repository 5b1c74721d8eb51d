"""Installs the packages in an empty root of Debian's packages (tools/package_root.py), and uses them there as root and as a user.

For each way to install: an example has its trace, the Python package finds the program that was installed with it, folders with a file
fbsim.toml are tests of pytest, which pass, and of which one fails after a change of the reference, a project in XML is imported, and the
page of a run is written. A command whose other packages are missing names them."""

import base64
import os
import re
import shutil
import zlib
from pathlib import Path
from typing import NamedTuple

from package_files import bytes_of
from package_root import HOME, Root
from kit import TOP

PACKAGES, FILES = "/srv/packages", "/srv/files"
PYTHON = ("python3", "python3-venv", "python3-pytest", "python3-setuptools", "python3-wheel")
EXTRAS = ("python3-lxml", "python3-lark", "python3-jinja2")
# Each command with the extra that it needs, and with the packages of that as pip calls them.
COMMANDS = {"fbsim-import": ("import", ("lxml", "lark", "jinja2")), "fbsim-page": ("page", ("lark", "jinja2"))}
MISSING = "{}: the extra {} is missing ({}): install it by `pip install \"fbsim[{}]\"`, or on Debian by `apt install {}`\n"
# (the example has one run, and two rules, each of which is a test of its own and one of whether it applied)
BENCH = """decl = "conveyor.iec"
deploy = "deploy.toml"
rules = "conveyor.rules"
horizon = 800

[[scenario]]
name = "two parcels"
stim = "stimuli.csv"
reference = "trace"
"""
FOUND = "import fbsim; print(fbsim.find_program())"


class Way(NamedTuple):
    """A way by which the packages were installed: where its commands are, which Python it is for, the program that this finds, and who
    uses it. `path` is what has to come before PATH."""

    name: str
    bin: str
    python: str
    program: str
    is_root: bool = False
    path: str = ""

    def __str__(self):
        return f"{self.name}, as {'root' if self.is_root else 'a user'}"


def expect(root, what, words, wanted, way=Way("", "", "", ""), **how):
    """Runs a command, and yields a fault if its status or what it prints is another one. A pattern for a text is enough."""
    status, said = root.run(words, way.is_root, path=way.path, **how)
    text = wanted[1]
    is_same = re.search(text, said) if isinstance(text, re.Pattern) else text in (None, said)
    if status != wanted[0] or not is_same:
        yield f"{what}: {' '.join(words)}: status {status}: {said[-1000:]}"


def faults_of_program(root, way):
    """Runs an example, and yields what differs from its trace."""
    args, trace = (bytes_of(f"{TOP}/examples/flasher/{it}").decode() for it in ("args", "trace"))
    yield from expect(root, way, [f"{way.bin}/fbsim", *args.splitlines()], (0, trace), way, folder=f"{FILES}/flasher")


def faults_of_python(root, way):
    """Finds the program from Python, and runs a bench in pytest, whole and broken. Yields what is wrong."""
    tests = [way.python, "-m", "pytest", "-q", "-p", "no:cacheprovider"]
    yield from expect(root, way, [way.python, "-c", FOUND], (0, f"{way.program}\n"), way)
    count = 1 + 2 * bytes_of(f"{TOP}/examples/conveyor/conveyor.rules").decode().count("[[rule]]")
    yield from expect(root, way, tests, (0, re.compile(rf"\b{count} passed in")), way, folder=f"{FILES}/conveyor")
    yield from expect(root, way, tests, (1, re.compile(rf"(?s)line 1 differs.*\b1 failed, {count - 1} passed in")), way, folder=f"{FILES}/broken")


def faults_of_import(root, way):
    """Imports a project, has the program check it, and yields what is wrong."""
    to = f"{'/tmp' if way.is_root else HOME}/parcels"
    yield from expect(root, way, ["sh", "-c", f"rm -rf {to} && {way.bin}/fbsim-import Parcels.sys --lib lib --latency 5 --out {to}"], (0, None), way, folder=f"{FILES}/parcels")


def faults_of_page(root, way):
    """Writes the page of a run, and yields what is wrong with it."""
    to = f"{'/tmp' if way.is_root else HOME}/run.html"
    words = f"{way.bin}/fbsim-page conveyor.iec trace --deploy deploy.toml --rules conveyor.rules --out {to} && cat {to}"
    status, said = root.run(["sh", "-c", words], way.is_root, folder=f"{FILES}/conveyor")
    data = re.search(r'(?s)\A<!doctype html>.* id="data">([\w+/=]+)</script>.*</html>\s*\Z', said)
    # (the data are packed, and name the instances of the application)
    if status or not data or not all(it in zlib.decompress(base64.b64decode(data[1])) for it in (b"BEHIND", b"GATE", b"the belt stops")):
        yield f"{way}: {words}: status {status}: {said[-1000:]}"


def faults_of_missing(root, way):
    """Yields a fault for each command that does not name the packages that it lacks."""
    for command, (extra, packages) in COMMANDS.items():
        debian = " ".join(f"python3-{it}" for it in packages)
        wanted = 5, MISSING.format(command, extra, ", ".join(packages), extra, debian)
        yield from expect(root, way, [f"{way.bin}/{command}", "--help"], wanted, way)


def put_files(root, made):
    """Puts packages and what examples need into a root."""
    for it in (PACKAGES, FILES):
        os.makedirs(f"{root.folder}{it}")
    for it in made:
        shutil.copy(it, f"{root.folder}{PACKAGES}")
    for name, to in (("flasher", "flasher"), ("conveyor", "conveyor"), ("conveyor", "broken"), ("xml/parcels", "parcels")):
        shutil.copytree(f"{TOP}/examples/{name}", f"{root.folder}{FILES}/{to}")
    for name in ("conveyor", "broken"):
        Path(f"{root.folder}{FILES}/{name}/fbsim.toml").write_text(BENCH)
    trace = Path(f"{root.folder}{FILES}/broken/trace")
    trace.write_text(f"1 {trace.read_text().partition(' ')[2]}")


def environment(root, at, is_root=False):
    """Makes a virtual environment that sees the packages of the system."""
    yield from expect(root, at, ["python3", "-m", "venv", "--system-site-packages", at], (0, ""), Way("", "", "", "", is_root))


def in_environment(root, at, files, way, *words):
    """Installs by pip, and yields what is wrong with that and with the way."""
    pip = [f"{at}/bin/pip", "--quiet", "--disable-pip-version-check"]
    yield from expect(root, way, [*pip, "install", "--no-index", *words, files], (0, ""), way)
    for look in (faults_of_missing, faults_of_python):
        yield from look(root, way)


def removed(root, at):
    """Removes by pip what was installed, and yields what is left of it."""
    yield from expect(root, at, [f"{at}/bin/pip", "--quiet", "uninstall", "--yes", "fbsim"], (0, ""))
    yield from expect(root, at, ["sh", "-c", f"find {at} | grep -i fbsim"], (1, ""))


def faults(made, version, folder):
    """Yields what is wrong with the installed packages: those made of a version, in a folder that is empty."""
    archive, of_program, of_python, wheel, sdist = (f"{PACKAGES}/{os.path.basename(it)}" for it in made)
    root, top, env = Root(f"{folder}/root", *PYTHON), f"/opt/fbsim-{version}-x86_64-linux", f"{HOME}/env"
    put_files(root, made)
    yield from expect(root, "the archive", ["sh", "-c", f"mkdir /opt && tar -C /opt -xzf {archive}"], (0, ""), Way("", "", "", "", True), folder="/")
    for is_root in (True, False):
        yield from faults_of_program(root, Way("the archive", f"{top}/bin", "", "", is_root))
    # By pip.
    for is_root, at in ((True, "/opt/env"), (False, env)):
        yield from environment(root, at, is_root)
        way = Way("the wheel", f"{at}/bin", f"{at}/bin/python", f"{at}/bin/fbsim", is_root, f"{top}/bin")
        yield from in_environment(root, at, wheel, way)
        yield from faults_of_program(root, way)
    yield from removed(root, env)
    for name, file, words in (("the source distribution", sdist, ["--no-build-isolation"]), ("the wheel of the archive", f"{top}/python/fbsim-{version}-py3-none-any.whl", [])):
        yield from in_environment(root, env, file, Way(name, f"{env}/bin", f"{env}/bin/python", f"{top}/bin/fbsim", False, f"{top}/bin"), *words)
        yield from removed(root, env)
    # By dpkg.
    yield from expect(root, "without the program", ["dpkg", "--install", of_python], (1, re.compile("python3-fbsim depends on fbsim")), Way("", "", "", "", True), folder="/")
    yield from expect(root, "the packages for Debian", ["dpkg", "--install", of_program, of_python], (0, None), Way("", "", "", "", True), folder="/")
    ways = [Way("the packages for Debian", "/usr/bin", "/usr/bin/python3", "/usr/bin/fbsim", is_root, f"{top}/bin") for is_root in (True, False)]
    for way in ways:
        for look in (faults_of_program, faults_of_missing, faults_of_python):
            yield from look(root, way)
    # With the other packages.
    root.add(*EXTRAS)
    for way in [*ways, Way("the wheel", "/opt/env/bin", "/opt/env/bin/python", "/opt/env/bin/fbsim", True)]:
        for look in (faults_of_import, faults_of_page):
            yield from look(root, way)
    yield from expect(root, "the packages for Debian", ["dpkg", "--purge", "python3-fbsim", "fbsim"], (0, None), ways[0], folder="/")
    yield from expect(root, "after dpkg --purge", ["sh", "-c", "find /usr /var /etc -path /var/log -prune -o -print | grep -i fbsim"], (1, ""), ways[0], folder="/")
