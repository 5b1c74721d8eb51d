#!/usr/bin/env python3
"""tools/unbuilt.py WORD..: answers a call of the program that needs no program, for ./simulate.

The version is that of CHANGELOG.md, with the commit if git knows it. The help is that of docs/HELP.md, an explanation is from the
tables of fb_why. A first word that is no command and no option is refused by the names in the help. ./gate compares all four with
what the program prints (tools/launcher.py). The status is that of the program, or 64 for any other call."""

import ast
import os
import re
import subprocess
import sys

TOP = os.path.dirname(os.path.dirname(os.path.realpath(__file__)))
HELP = f"{TOP}/docs/HELP.md"
TABLE = f"{TOP}/crates/fb_why/src/table.rt"
NEEDS_PROGRAM = 64
TEXT = r'("(?:[^"\\]|\\.)*")'
ENTRY = re.compile(
    r"Explanation \{\s*name: TEXT,\s*meaning:\s*TEXT,\s*example:\s*TEXT,\s*other:\s*TEXT,\s*look:\s*TEXT,\s*\}".replace("TEXT", TEXT)
)


def content(path):
    with open(path, encoding="utf-8") as it:
        return it.read()


def version():
    """Returns the newest version of CHANGELOG.md that has a date. One that is not released yet has none."""
    return re.search(r"^## (\d+\.\d+\.\d+) \(\d", content(f"{TOP}/CHANGELOG.md"), re.M)[1]


def commit():
    """Returns the commit in brackets, marked if files differ from it, or nothing outside a repository."""
    words = ["git", "-C", TOP, "describe", "--always", "--dirty", "--abbrev=12", "--exclude=*"]
    try:
        ran = subprocess.run(words, capture_output=True, text=True)
    except OSError:
        return ""
    return "" if ran.returncode else f" (commit {ran.stdout.strip()})"


def helps():
    """Returns the texts of the help by the command that they are for; the program's own has no name."""
    found = re.findall(r"^```console\n\$ fbsim (?:(\w+) )?--help\n(.*?)^```$", content(HELP), re.M | re.S)
    return dict(found)


def entries(table):
    """Returns the explanations of a table in the sources: of each its name, meaning, two examples and what to look at."""
    return [[ast.literal_eval(text) for text in it.groups()] for it in ENTRY.finditer(table)]


def explanations():
    """Returns the explanations of refusals and reasons by name, as the program prints them."""
    form = "{0}: {1}\nFor example:\n- {2}\n- {3}\nLook at: {4}\n"
    return {row[0]: form.format(*row) for row in entries(content(TABLE))}


def refusal(words):
    """Returns what the program prints, but for its tips, if the first word is no command and no option of its own, or None."""
    word, top = words[0] if words else "", helps()[""]
    if not word or word in re.findall(r"^  (\w+) ", top, re.M) or re.match(r"-[hV-]$|-[hV]|--(help|version)\b", word):
        return None
    option = word.partition("=")[0] if word.startswith("--") else word[:2]
    what = f"unexpected argument '{option}' found" if word.startswith("-") and word != "-" else f"unrecognized subcommand '{word}'"
    return f"error: {what}\n\nUsage: fbsim <COMMAND>\n\nFor more information, try '--help'.\n"


def asked_help(words):
    """Returns the command whose help these words ask for, or None."""
    match words:
        case ["--help" | "-h" | "help"]:
            return ""
        case [command, "--help" | "-h"] | ["help", command] if command in helps():
            return command
    return None


def answer(words):
    """Answers the call and returns the status."""
    command, wrong = asked_help(words), refusal(words)
    match words:
        case ["--version" | "-V"]:
            print(f"fbsim {version()}{commit()}")
        case ["explain", name] if not name.startswith("-"):
            text = {it.lower(): text for it, text in explanations().items()}.get(name.lower())
            if text is None:
                print(f"error: no refusal or stop is called {name}", file=sys.stderr)
                return 5
            print(text, end="")
        case _ if command is not None:
            print(helps()[command], end="")
        case _ if wrong is not None:
            print(wrong, end="", file=sys.stderr)
            return 5
        case _:
            return NEEDS_PROGRAM
    return 0


if __name__ == "__main__":
    sys.exit(answer(sys.argv[1:]))
