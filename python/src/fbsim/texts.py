"""The texts of an application, changed at one place: a parameter of an instance, a latency, a stimulus.

The program judges what results. Here a text is only read so far that the place is found, in any letter case, and that
nothing in a comment is taken for it.
"""

from __future__ import annotations

import csv
import io
import json
import os
import re
import tempfile
import tomllib
from collections.abc import Iterator
from contextlib import contextmanager
from operator import index
from pathlib import Path
from typing import IO

from fbsim.faults import FileFault, InputFault, of_system

# A comment or a token of a declaration (docs/formats/declaration.md, "Tokens").
TOKEN = re.compile(r"(\(\*.*?\*\)|//[^\n]*)|[A-Za-z0-9_]+(?:#-?[A-Za-z0-9_]+)?|:=|[^\sA-Za-z0-9_]", re.DOTALL)
CONSTANT = re.compile(r"-?[0-9_]+|-?(?:2|8|16)#\w+|(?:T|TIME)#-?\w+|TRUE|FALSE", re.IGNORECASE)


def read(path: str | os.PathLike[str]) -> str:
    """Reads a file. What is no UTF-8 in it is kept."""
    try:
        return Path(path).read_bytes().decode("utf-8", "surrogateescape")
    except OSError as it:
        raise FileFault(it.strerror or "it can't be read", None, os.fspath(path)) from it


def write(path: Path, text: str) -> None:
    """Writes a file with a text that was read."""
    try:
        path.write_bytes(text.encode("utf-8", "surrogateescape"))
    except OSError as it:
        raise of_system(it, str(path)) from it


@contextmanager
def temporary_folder() -> Iterator[Path]:
    """Makes a folder that is removed at the end."""
    try:
        made = tempfile.TemporaryDirectory(prefix="fbsim-")
    except OSError as it:
        raise of_system(it) from it
    with made as name:
        yield Path(name)


def temporary_file(content: bytes = b"") -> IO[bytes]:
    """Makes a file without a name, to be read from its beginning."""
    try:
        made = tempfile.TemporaryFile()
        made.write(content)
        made.seek(0)
    except OSError as it:
        raise of_system(it) from it
    return made


# How a script of a kept case begins. A program that is named by a path from here is found after the change of folder.
SCRIPT = """#!/bin/sh
# {about}
case ${{FBSIM:=fbsim}} in /*) ;; */*) FBSIM=$PWD/$FBSIM ;; esac
cd "$(dirname "$0")" || exit
"""


def write_script(folder: Path, about: str, *lines: str) -> str:
    """Writes run.sh, in which the environment variable FBSIM may name the program, and returns its first line."""
    text = SCRIPT.format(about=about.replace("\n", " "))
    write(folder / "run.sh", text + "".join(re.sub("^fbsim ", '"$FBSIM" ', it) + "\n" for it in lines))
    (folder / "run.sh").chmod(0o755)
    return lines[0]


def of_application(declaration: str) -> list[re.Match[str]]:
    """Returns the tokens of the application of a declaration, or none, without comments."""
    found = [it for it in TOKEN.finditer(declaration) if it[1] is None]
    words = [it[0].upper() for it in found]
    if "APPLICATION" not in words or "END_APPLICATION" not in words:
        return []
    return found[words.index("APPLICATION"):words.index("END_APPLICATION") + 1]


def is_truth(value: object) -> bool:
    """Whether it is a truth value, which may be of numpy."""
    return type(value).__name__ in ("bool", "bool_")


def value_text(value: object) -> str:
    """Returns a value as stimuli have it: a whole number or a truth value, which may be of numpy."""
    if is_truth(value):
        return "TRUE" if value else "FALSE"
    if hasattr(value, "__index__"):
        return str(index(value))
    raise InputFault(f"{value!r} is no value of a row: it is a whole number or a truth value, and a time is in ticks")


def constant(value: object) -> str:
    """Returns a value as a constant of a declaration. A text is one itself, as T#250ms."""
    if isinstance(value, str) and CONSTANT.fullmatch(value):
        return value
    if is_truth(value) or hasattr(value, "__index__"):
        return value_text(value)
    raise InputFault(f"{value!r} is no constant: it is a whole number, a truth value, or a text as T#250ms")


def whole(value: object, what: str) -> int:
    """Returns a whole number, which may be of numpy. A truth value and a text are none."""
    if is_truth(value) or not hasattr(value, "__index__"):
        raise InputFault(f"{what} is {value!r}, and not a whole number")
    try:
        return index(value)
    except TypeError as it:  # (an array of numpy)
        raise InputFault(f"{what} is {value!r}, and not a whole number") from it


def with_parameter(declaration: str, instance: str, parameter: str, value: object) -> str:
    """Returns the declaration with another value for a parameter of an instance of the application."""
    found = of_application(declaration)
    words = [it[0].upper() for it in found]
    ends = words.index("END_FBS") if "END_FBS" in words else 0
    for at in range(1, ends - 2):
        if words[at] == instance.upper() and words[at + 1] == ":" and words[at - 1] in ("FBS", ";"):
            break
    else:
        raise InputFault(f"{instance}.{parameter}: the application has no instance {instance}")
    end = words.index(";", at)
    for k in range(at + 4, end - 2):
        if words[k] == parameter.upper() and words[k + 1] == ":=":
            to = next(it for it in range(k, end) if words[it] in (",", ")"))
            return f"{declaration[:found[k + 2].start()]}{constant(value)}{declaration[found[to - 1].end():]}"
    text = f"{parameter.upper()} := {constant(value)}"
    if words[end - 1] == ")":
        return f"{declaration[:found[end - 1].start()]}, {text}{declaration[found[end - 1].start():]}"
    return f"{declaration[:found[end - 1].end()]}({text}){declaration[found[end - 1].end():]}"


def with_latency(deployment: str, source: str, target: str, latency: object) -> str:
    """Returns the deployment, written anew, with another latency of a link: a number, or a table of pairs."""
    try:
        plan = tomllib.loads(deployment.removeprefix("\ufeff"))
    except tomllib.TOMLDecodeError as fault:
        raise InputFault(f"a sweep over links needs a deployment in TOML 1.0: {fault}") from fault
    links = plan.get("link", [])
    for it in links:
        if (it["from"].upper(), it["to"].upper()) == (source.upper(), target.upper()):
            it.pop("latency", it.pop("latencies", None))
            it["latency" if isinstance(latency, int) else "latencies"] = latency
            break
    else:
        known = ", ".join(f"link.{it['from']}->{it['to']}" for it in links)
        raise InputFault(f"link.{source}->{target}: the deployment has no such link; it has {known or 'none'}")
    lines = []
    for kind in ("resource", "link"):
        for table in plan.get(kind, []):
            # (these texts, numbers and lists are in TOML as in JSON)
            try:
                lines += [f"[[{kind}]]", *(f"{key} = {json.dumps(value)}" for key, value in table.items()), ""]
            except TypeError as fault:
                raise InputFault(f"link.{source}->{target}: {latency!r} is no latency: {fault}") from fault
    return "\n".join(lines)


def with_stimulus(stimuli: str, number: str, key: str, value: object) -> str:
    """Returns the stimuli with another tick, or another value of a variable, in a row. Rows are counted from 0."""
    row = int(number)
    table = [it for it in csv.reader(io.StringIO(stimuli.removeprefix("\ufeff"))) if it]
    if not 0 <= row < len(table) - 1:
        raise InputFault(f"stimuli[{row}].{key}: the stimuli have the rows 0 to {len(table) - 2}")
    tick, event, values = table[row + 1]
    if key == "tick":
        tick = str(whole(value, f"stimuli[{row}].tick"))
    else:
        words = dict(it.partition("=")[::2] for it in values.upper().split(" ") if it)
        words[key.upper()] = value_text(value)
        values = " ".join(f"{name}={it}" for name, it in words.items())
    table[row + 1] = [tick, event, values]
    text = io.StringIO()
    csv.writer(text, lineterminator="\n").writerows(table)
    return text.getvalue()
