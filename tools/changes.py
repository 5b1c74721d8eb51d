#!/usr/bin/env python3
"""tools/changes.py: tries the worked examples of docs/maintain/CHANGING.md, which are patches in cases/changes/.

    python3 -B tools/changes.py               applies all of them, one after another, to a copy of the repository, builds the copy
                                              once, without proofs (tools/unproved.py), and tries the case of each effect
    python3 -B tools/changes.py --copy DIR    makes the copy in DIR and leaves it there, as a repository with a commit for each example

The effects are the cases of cases/changes/effects.toml, which tools/cases.py tries with the copy's program, and CALLS. An example that no
longer applies is made again in the copy: `git diff HEAD~1 > cases/changes/NAME.patch`. The gate calls this without words, next to
the calls of the program."""

import os
import shutil
import subprocess
import sys
import tempfile
from dataclasses import dataclass
from pathlib import Path

TOP = Path(__file__).resolve().parent.parent
CHANGES = TOP / "cases" / "changes"
# The examples, in the order in which they are applied.
EXAMPLES = ("block", "refusal", "statement", "option")
# What no copy needs.
LEFT_OUT = shutil.ignore_patterns("out", ".git", "__pycache__")
# No application of these tests has a mistake that the program's own checks could find (see ./simulate --unproved).
CHECKED = {"ASAN_OPTIONS": "abort_on_error=0:exitcode=124"}


@dataclass(frozen=True)
class Call:
    """A call of the copy's program, and a text that it must print, with the status 0."""

    words: tuple[str, ...]
    shows: str
    given: str = ""


# Files of the copy have their names in it.
CALLS = (
    Call(("explain", "E31"), "E31: The application has no instances.\n"),
    Call(("inspect", "--help"), "--no-lost"),
    Call(("check", "-", "--types", "share/annex_a.iec"), "accepted\n", "APPLICATION A FBS T : E_T_FF; D : E_DEMUX; END_FBS END_APPLICATION"),
)


def patch_of(example: str) -> Path:
    return CHANGES / f"{example}.patch"


def git(folder: Path, *words: str) -> subprocess.CompletedProcess[str]:
    """Calls git in a folder that is no part of another repository."""
    own = {"GIT_CEILING_DIRECTORIES": str(folder.parent), "GIT_CONFIG_GLOBAL": os.devnull, "GIT_CONFIG_SYSTEM": os.devnull}
    return subprocess.run(["git", *words], cwd=folder, env={**os.environ, **own}, capture_output=True, text=True, check=False)


def copy_into(folder: Path) -> str:
    """Makes the copy with all examples, and returns what is wrong, or nothing."""
    shutil.copytree(TOP, folder, ignore=LEFT_OUT, symlinks=True)
    for example in EXAMPLES:
        applied = git(folder, "apply", str(patch_of(example)))
        if applied.returncode:
            return f"cases/changes/{example}.patch does not apply: the sources have changed\n{applied.stderr}"
    return ""


def kept_copy(folder: Path) -> str:
    """Makes the copy as a repository with a commit for each example, and returns what is wrong, or nothing."""
    commit = ("-c", "user.name=changes", "-c", "user.email=changes@localhost", "commit", "--quiet", "--all", "--message")
    shutil.copytree(TOP, folder, ignore=LEFT_OUT, symlinks=True)
    for words in (("init", "--quiet"), ("add", "--all"), (*commit, "before")):
        git(folder, *words)
    for example in EXAMPLES:
        applied = git(folder, "apply", "--reject", str(patch_of(example)))
        git(folder, "add", "--all")
        git(folder, *commit, example)
        if applied.returncode:
            return f"cases/changes/{example}.patch: its parts that do not apply are in files *.rej\n{applied.stderr}"
    return ""


def fault_of(call: Call, program: Path, folder: Path) -> str:
    """Returns what is wrong with the result of a call, or nothing."""
    ran = subprocess.run([program, *call.words], cwd=folder, env={**os.environ, **CHECKED}, input=call.given, capture_output=True, text=True, check=False)
    is_well = ran.returncode == 0 and call.shows in ran.stdout
    return "" if is_well else f"{' '.join(call.words)}: expected {call.shows!r}; got status {ran.returncode}, {ran.stdout!r}, {ran.stderr!r}"


def try_copy(folder: Path) -> bool:
    """Builds the copy, and returns whether each effect is there."""
    program, python = folder / "crates" / "fbsim" / "out" / "fbsim.unproved", [sys.executable, "-B"]
    if subprocess.run([*python, "tools/unproved.py", program], cwd=folder, check=False).returncode:
        print("changes: the worked examples do not build")
        return False
    faults = [it for it in (fault_of(call, program, folder) for call in CALLS) if it]
    print(*faults, sep="\n", end="\n" * bool(faults))
    cases = subprocess.run([*python, "tools/cases.py", "--program", program, "cases/changes/effects.toml"], cwd=folder, env={**os.environ, **CHECKED}, check=False)
    return not faults and cases.returncode == 0


def main(words: list[str]) -> int:
    """Returns the status."""
    match words:
        case ["--copy", name]:
            fault = kept_copy(Path(name))
            print(fault or f"changes: {name} has the worked examples", end="" if fault else "\n")
            return int(bool(fault))
        case []:
            with tempfile.TemporaryDirectory(prefix="changes-") as room:
                folder = Path(room) / "copy"
                if fault := copy_into(folder):
                    print(fault, end="")
                    return 1
                is_well = try_copy(folder)
                print(f"changes: {len(EXAMPLES)} worked examples {'have their effects' if is_well else 'fail'}")
                return int(not is_well)
        case _:
            sys.exit(__doc__)


if __name__ == "__main__":
    sys.exit(main(sys.argv[1:]))
