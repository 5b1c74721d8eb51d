"""Checks what an import made, and writes it into a new folder, or over what an earlier import wrote there."""

from __future__ import annotations

import os
import re
import shutil
import subprocess
import tempfile
from collections.abc import Callable, Mapping
from typing import Any

from fbsim.program import find_program

from .common import MARK, FileFault, Faults
from .mapping import FILES, LATENCY, NAME, read_mapping, sum_of, written
from .writing import place_in

FINDING = re.compile(r"(application\.iec|types\.iec|deploy\.toml):(\d+):(\d+): (.*)")
# The texts of an import with marks of places, by the names of their files, and what makes their map for a folder.
Texts = Mapping[str, str]
MakeMap = Callable[[str], Mapping[str, Any]]


def check(folder: str, texts: Texts, faults: Faults) -> None:
    """Have the simulator check the texts in a folder, and map the places of what it refuses back to the XML."""
    words = ["check", "application.iec", "--types", "types.iec", "--deploy", "deploy.toml", "--why"]
    done = subprocess.run([find_program(), *words], cwd=folder, capture_output=True, text=True, errors="replace")
    for name, line, column, text in FINDING.findall(done.stderr):
        place = place_in(texts[name], int(line), int(column))
        if place:
            faults.refuse(place, text)
    if done.returncode and not faults:
        raise FileFault(f"the simulator answers: {done.stderr.strip() or done.returncode}")


def earlier_latencies(shown: str, is_forced: bool) -> dict[tuple[str, str], str]:
    """Return the latencies that were set in a folder after an earlier import, by the resources of their links.

    A file of that import which somebody edited is a fault, unless it is forced. So is another folder that is not empty."""
    if not os.path.lexists(shown) or os.path.isdir(shown) and not os.listdir(shown):
        return {}
    if not os.path.isdir(shown) or not os.path.exists(os.path.join(shown, NAME)):
        raise FileFault(f"{shown}: this is no new or empty folder, and no folder that fbsim-import wrote")
    earlier, kept = read_mapping(shown), dict[tuple[str, str], str]()
    for name in FILES:
        try:
            with open(os.path.join(shown, name), encoding="utf-8", newline="", errors="surrogateescape") as file:
                text = file.read()
        except FileNotFoundError:
            continue
        if not is_forced and sum_of(name, text) != earlier["sums"].get(name):
            raise FileFault(f"{os.path.join(shown, name)}: somebody edited this file: take the changes out, or give --force")
        if name == "deploy.toml":
            kept = {(one[2], one[3]): one[4] for one in LATENCY.finditer(text)}
    return {link: it for link, it in kept.items() if it != f"latency = {earlier.get('latency')}"}


def write(shown: str, texts: Texts, make_map: MakeMap, faults: Faults) -> None:
    """Write texts and their map into a folder beside the one that is asked for, check them, and put them in its place."""
    out, made = os.path.realpath(shown), ""
    try:
        made = tempfile.mkdtemp(prefix=".fbsim-import-", dir=os.path.dirname(out))
        for name, text in texts.items():
            keep(made, name, MARK.sub("", text))
        check(made, texts, faults)
        if not faults:
            keep(made, NAME, written(make_map(out)))
            put(made, out)
    except OSError as fault:
        raise FileFault(f"{shown}: {fault.strerror}") from None
    finally:
        shutil.rmtree(made, ignore_errors=True)


def keep(folder: str, name: str, text: str) -> None:
    """Write a new file."""
    with open(os.path.join(folder, name), "x", encoding="utf-8", newline="\n") as file:
        file.write(text)


def put(made: str, out: str) -> None:
    """Put a folder in the place of a new or empty one, or its files in the place of those of an earlier import."""
    os.umask(mask := os.umask(0o022))
    if os.path.isdir(out) and os.listdir(out):
        for name in sorted(os.listdir(made), key=lambda it: it == NAME):
            os.chmod(os.path.join(made, name), 0o666 & ~mask)
            os.replace(os.path.join(made, name), os.path.join(out, name))
    else:
        os.chmod(made, 0o777 & ~mask)
        os.rename(made, out)
