#!/usr/bin/env python3
"""tools/proof_times.py CRATE [ROWS]: shows where the time of a crate's proof goes.

It proves the crate from scratch with one job. rattle saves each module when it has checked it, so the time from one module to the
next is that of the latter. (Lines of `rattle check --progress` mislead: the time up to a function's line is also that of what was
checked before it, as the borrow checker's part of the functions that call it.)

Each row has the seconds of a function, or of a module of specs/ or proofs/: those of the borrow checker's part, of the proof with its
searches and answers, and of the rest. They are seconds of a clock, so run this on a quiet machine. The libraries below the crate must
be built."""

import os
import re
import subprocess
import sys
import tempfile
import time

from kit import TOP, crates_as_built, rtlib

ROWS = 30
KINDS = BORROWS, PROOF, REST = "borrows", "proof", "rest"
# The modules that rattle makes of a function, by what they are of.
PARTS = {
    "Lts": BORROWS,
    **dict.fromkeys(["Answers", "Goals", "Invariants", "Proof"], PROOF),
    **dict.fromkeys("Code Given Key Kinds Layout Met Mir Named Reads Statement Symbol TheKnot TheLaws TheLink Tie View".split(), REST),
}
SAVED = re.compile(r"Rattle-(?P<crate>\w+?)(?:-(?:specs|proofs))?(?:\.(?P<path>.*?))?(?:\.decls)?\.oantt")


def prove(crate, room):
    """Proves the crate, has rattle save its modules in this folder, and returns how long that took."""
    words = [*rtlib.guarded(), rtlib.RATTLE, "check", *crate.words(["--jobs", "1"], keeps=False), "--incremental", room]
    how = {"stdin": subprocess.DEVNULL, "stdout": subprocess.PIPE, "stderr": subprocess.STDOUT, "errors": "replace"}
    begun = time.time()
    ran = subprocess.run(words, cwd=crate.folder, **how)
    if ran.returncode:
        sys.exit(f"{ran.stdout}\n{crate.name} could not be proved: see above")
    return time.time() - begun


def modules_of(crate, room):
    """Returns when each module of the crate was saved, and its path, in this order."""
    found = []
    for folder, _, names in os.walk(room):
        for it in filter(None, map(SAVED.fullmatch, names)):
            if it["crate"] == crate.name:
                found.append((os.stat(f"{folder}/{it.string}").st_mtime_ns / 1e9, it["path"] or crate.name))
    return sorted(found)


def owner_of(path):
    """Returns the function, or other module, to which a module's path leads, and what of it this module is."""
    names, kind = re.sub(r"^(specs\.|proofs\.)?(contracts\.)?", "", path).split("."), REST
    while len(names) > 1 and names[-1].partition("-")[0] in PARTS:
        kind = PARTS[names.pop().partition("-")[0]]
    return ".".join(names), kind


def times_of(modules):
    """Returns the seconds of each function or other module, by kind. What came before the first module is no part of them."""
    found, before = {}, modules[0][0]
    for at, path in modules:
        name, kind = owner_of(path)
        found.setdefault(name, dict.fromkeys(KINDS, 0))[kind] += at - before
        before = at
    return found


def tell(times, took, rows):
    """Prints the sums, and these many functions and other modules, those that took longest first."""

    def line(seconds, name):
        print("".join(f"{it:>10}" if isinstance(it, str) else f"{it:10.1f}" for it in seconds), name, sep="  ")

    found = sorted(((sum(it.values()), *it.values(), name) for name, it in times.items()), reverse=True)
    line(["seconds", *KINDS], "")
    line([took - sum(it[0] for it in found), "", "", ""], "before the first module and after the last")
    line([sum(it[at] for it in found) for at in range(4)], f"all {len(found)} functions and other modules")
    for *seconds, name in found[:rows]:
        line(seconds, name)


def main(words):
    if not words or words[0] in ("-h", "--help"):
        print(__doc__)
        return 0
    os.chdir(TOP)
    crate = next((it for it in crates_as_built() if it.name == words[0]), None) or rtlib.stop(f"crates.txt names no {words[0]}")
    with tempfile.TemporaryDirectory(prefix="proof-times-") as room:
        took = prove(crate, room)
        tell(times_of(modules_of(crate, room)), took, int(words[1]) if len(words) > 1 else ROWS)
    return 0


if __name__ == "__main__":
    sys.exit(main(sys.argv[1:]))
