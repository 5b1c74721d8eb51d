#!/usr/bin/env python3
"""tools/package.py [--check] [--no-gate-line] DIR: makes the packages of the proved program, for `./simulate package`.

DIR gets, of a version V:
- fbsim-V-x86_64-linux.tar.gz, an archive with the program, the pages for users, and a wheel without the program
- fbsim_V_amd64.deb and python3-fbsim_V_all.deb, the program with the pages and the Python package, for Debian
- fbsim-V-py3-none-manylinux_2_34_x86_64.whl, a wheel with the program and the Python package
- fbsim-V.tar.gz, the source distribution of the Python package, without the program

Each has LICENSE and NOTICE. Those with the program have it without its symbol table, its man page, completions, the licences of others,
and PROVED: the commit, the last line of ./gate, and the sums of the kit. From one commit they have the same bytes each time: all times are
that of the commit, or SOURCE_DATE_EPOCH.

This refuses a tree that differs from its commit, or on which ./gate has not passed here. With --no-gate-line PROVED says so instead. With
--check it only refuses, and makes nothing: ./simulate asks this before it proves and builds the program."""

import functools
import json
import os
import re
import shutil
import sys
import tempfile

import clauses
import notice
import package_debian
import package_python
import unbuilt
from install import NO_FOLDER, hindrance
from kit import TOP, rtlib
from package_files import File, archive, by_llvm, bytes_of, git, listed, sum_of
from package_pages import pages
from system_packages import missing

# The proved program, as ./simulate and ./gate build it. PROVED can be true of no other one.
PROGRAM = f"{TOP}/crates/fbsim/out/fbsim"
# What ./gate leaves when it passes: the tree of files on which it ran, and its last line.
RECORD = f"{TOP}/crates/fbsim/out/gate.json"
# What builds the packages.
NEEDED = ("dpkg", "python3-build", "python3-setuptools", "python3-wheel")


# ---- The commit and the gate


def tree():
    """Returns the name that git has for the files of the commit, or None if files here differ from it."""
    return git("rev-parse", "HEAD^{tree}") if git("status", "--porcelain") == "" else None


def record_gate(line, tree_before):
    """Records the last line of a gate that has passed, if it ran on the files of the commit from its beginning to its end."""
    if tree_before and tree() == tree_before:
        os.makedirs(os.path.dirname(RECORD), exist_ok=True)
        with open(RECORD, "w", encoding="utf-8") as it:
            json.dump({"tree": tree_before, "line": line}, it)


def gate_line():
    """Returns the last line of the gate that has passed on this tree, or None."""
    try:
        with open(RECORD, encoding="utf-8") as it:
            record = json.load(it)
    except (OSError, ValueError):
        return None
    return record["line"] if record["tree"] == tree() else None


def seconds():
    """Returns the time of all files of the packages: SOURCE_DATE_EPOCH, or when the commit was made."""
    given = os.environ.get("SOURCE_DATE_EPOCH") or git("log", "-1", "--format=%ct")
    return int(given) if given else sys.exit("package: this is no repository of git: set SOURCE_DATE_EPOCH to the time of the packages' files")


# ---- Contents


@functools.cache
def kit_sums():
    """Returns the sums of the kit's programs and archives, a line for each."""
    folders = ("bin", "c", "toolchain/bin", "toolchain/lib")
    paths = sorted(f"{folder}/{it}" for folder in folders for it in os.listdir(f"{rtlib.KIT}/{folder}") if os.path.isfile(f"{rtlib.KIT}/{folder}/{it}"))
    return [f"{sum_of(bytes_of(f'{rtlib.KIT}/{it}'))}  {it}" for it in paths]


def stripped(program):
    """Returns the bytes of a program without its symbol table."""
    with tempfile.TemporaryDirectory(prefix="package-") as room:
        by_llvm("llvm-strip", "--strip-all", "-o", f"{room}/fbsim", program)
        return bytes_of(f"{room}/fbsim")


def proved(program, packaged, line):
    """Returns the text of PROVED."""
    rows = [
        f"fbsim {unbuilt.version()}",
        f"commit: {git('describe', '--always', '--dirty', '--abbrev=40', '--exclude=*') or 'unknown'}",
        f"gate: {line or 'no gate has passed on these files where this was packaged'}",
        "",
        "Every function of the program is proved to meet its contract. The prover is part of the kit.",
        *clauses.sentences(),
        "",
        'A program that always answered "out of memory" would meet the contracts, since no clause says that memory suffices. Tests and a list',
        "of each place that answers so, with its cause, stand for that: tools/memory_answers.toml of the sources.",
        "",
        "sha256 of the program:",
        f"{sum_of(bytes_of(program))}  as it was built",
        f"{sum_of(packaged)}  in this package, without its symbol table",
        "",
        "The kit:",
        *bytes_of(f"{rtlib.KIT}/KIT-ID").decode().splitlines(),
        "",
        "sha256 of its programs and archives:",
        *kit_sums(),
    ]
    return "\n".join(rows) + "\n"


def licences():
    """Returns the licence files of the libraries that the program links, by their names in the folder licences."""
    found = {it: notice.licences(it) for it in notice.libraries()}
    return {f"licences/{library}/{it}": File(bytes_of(f"{rtlib.KIT}/rattle/{library}/{it}")) for library, files in found.items() for it in files}


def contents(program, line):
    """Returns the files of a package: those of the system's folders, and those of users."""
    packaged = stripped(program)
    # (a library of block types is of no other program)
    of_share = {re.sub(r"^share/(?=[^/]+$)", "share/fbsim/", it): File(bytes_of(f"{TOP}/{it}")) for it in listed("share")}
    of_system = {**of_share, "bin/fbsim": File(packaged, True)}
    return of_system, {**pages(unbuilt.version()), **licences(), "PROVED": File(proved(program, packaged, line).encode())}


# ---- Packages


def of_wheel(of_users):
    """Returns the files for users that a wheel with the program has beside its own LICENSE and NOTICE."""
    return {name: it for name, it in of_users.items() if name == "PROVED" or name.startswith("licences/")}


def made(program, room, line):
    """Makes all packages in a folder for a while, and returns their paths."""
    time, version = seconds(), unbuilt.version()
    of_system, of_users = contents(program, line)
    wheel, sdist, of_all = package_python.make(of_system, of_wheel(of_users), room, version, time)
    beside = {f"python/{os.path.basename(of_all)}": File(bytes_of(of_all))}
    yield archive({**of_system, **of_users, **beside}, room, f"fbsim-{version}-x86_64-linux", time)
    yield package_debian.of_program(of_system, of_users, program, room, version, time)
    yield package_debian.of_python(of_all, of_users["NOTICE"], room, version, time)
    yield from (wheel, sdist)


def make(program, folder, line):
    """Makes all packages in a folder, and returns their paths."""
    os.makedirs(folder, exist_ok=True)
    with tempfile.TemporaryDirectory(prefix="package-") as room:
        return [shutil.copy(it, folder) for it in made(program, room, line)]


def main(words):
    """Makes the packages, or says why not, and returns the status."""
    needs_line, only_checks = "--no-gate-line" not in words, "--check" in words
    words = [it for it in words if it not in ("--no-gate-line", "--check")]
    if len(words) != 1 or not words[0] or words[0].startswith("-"):
        print("usage: ./simulate package [--no-gate-line] DIR", file=sys.stderr)
        return 5
    if reason := hindrance(words[0]):
        print(f"package: {reason}", file=sys.stderr)
        return NO_FOLDER
    if lacking := missing(NEEDED) if shutil.which("dpkg-query") else NEEDED:
        print(f"package: {', '.join(lacking)} is missing: `apt install {' '.join(lacking)}` installs it", file=sys.stderr)
        return 1
    line = gate_line()
    if needs_line and not line:
        why = "files differ from the commit: commit them first" if tree() is None else "./gate has not passed here on this commit: run it first"
        print(f"package: {why}; --no-gate-line makes packages that say so", file=sys.stderr)
        return 1
    if only_checks:
        return 0
    for path in make(PROGRAM, *words, line):
        print(f"{sum_of(bytes_of(path))}  {path}")
    return 0


if __name__ == "__main__":
    sys.exit(main(sys.argv[1:]))
