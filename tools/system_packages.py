#!/usr/bin/env python3
"""tools/system_packages.py: installs the system packages of tools/system_packages.txt that are missing, or says how to.

As root it installs them by apt-get. Otherwise it prints the one command that does so, and ends with status 1. ./gate begins with this,
so that no test is left out because a program of another package is missing."""

import os
import shutil
import subprocess
import sys
import time

LIST = f"{os.path.dirname(os.path.realpath(__file__))}/system_packages.txt"
# Another run may hold the locks of the package manager.
TURNS, SECONDS_OF_A_LOCK = 3, 300


def required():
    """Returns the packages of the list."""
    with open(LIST, encoding="utf-8") as it:
        return [line.split()[0] for line in it if line.strip() and not line.startswith("#")]


def missing(packages):
    """Returns those of the packages that are not installed."""
    ran = subprocess.run(["dpkg-query", "-W", "-f=${Package} ${db:Status-Status}\n", *packages], capture_output=True, text=True)
    installed = {line.split()[0] for line in ran.stdout.splitlines() if line.endswith(" installed")}
    return [it for it in packages if it not in installed]


def apt_get(*words):
    """Calls apt-get without questions, and returns whether it succeeded, with what it said."""
    settings = {**os.environ, "DEBIAN_FRONTEND": "noninteractive"}
    words = ["apt-get", "-y", "-o", f"DPkg::Lock::Timeout={SECONDS_OF_A_LOCK}", *words]
    ran = subprocess.run(words, env=settings, stdin=subprocess.DEVNULL, stdout=subprocess.PIPE, stderr=subprocess.STDOUT, text=True, errors="replace")
    return ran.returncode == 0, ran.stdout


def install(packages):
    """Installs packages, and returns what apt-get said if it failed."""
    for turn in range(TURNS):
        time.sleep(10 * bool(turn))
        # (a list that can't be renewed may still be good enough)
        apt_get("update")
        is_well, said = apt_get("install", "--no-install-recommends", *packages)
        if is_well:
            return ""
    return said


def set_up():
    """Installs what is missing, and returns whether everything is there."""
    if not shutil.which("dpkg-query"):
        print(f"set-up: this needs Debian 12, or the packages of {LIST} by another way and a dpkg-query that knows them")
        return False
    lacking = missing(required())
    if not lacking:
        return True
    command = f"apt-get update && apt-get install -y --no-install-recommends {' '.join(lacking)}"
    if os.geteuid() != 0:
        print(f"set-up: {len(lacking)} system packages are missing; this command installs them:\nsudo sh -c '{command}'")
        return False
    print(f"set-up: installing {', '.join(lacking)}", flush=True)
    said = install(lacking)
    lacking = missing(lacking)
    if lacking:
        print(f"{said}set-up: {', '.join(lacking)} could not be installed; this command does so:\n{command}")
    return not lacking


def lacks(program, package):
    """Whether a program is missing. Then this prints the package that has it."""
    if shutil.which(program):
        return False
    print(f"{program} is missing: install the system package {package} (tools/system_packages.py)", flush=True)
    return True


if __name__ == "__main__":
    sys.exit(0 if set_up() else 1)
