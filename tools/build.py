#!/usr/bin/env python3
"""Builds the program and its libraries, several at a time. `./simulate` calls it if the program is missing or old.

A library that has not changed is not built again, so you can interrupt a build. If the kit caches on the machine what the gate
proved, that is used, in other clones too. Progress goes to standard error. `fb_tests` is left out."""

import copy
import os
import shutil
import signal
import sys
import tempfile
import threading
import time

from kit import KEEPS, crates_as_built, rt, rtlib
from lanes import in_lanes

PROGRAM = "fbsim"


class Progress:
    """Prints how many of the crates are built."""

    def __init__(self, count):
        self.count, self.done, self.start, self.lock = count, 0, time.time(), threading.Lock()

    def tell(self, crate, how="built"):
        with self.lock:
            self.done += 1
            minutes = (time.time() - self.start) / 60
            say(f"crate {self.done} of {self.count} is {how}, {crate.name}; {minutes:.0f} minutes so far")


class Proved:
    """What the gate proved on this machine, for kits that cache it, by the sums of a crate's files, of the kit, and of the libraries below it."""

    def __init__(self, crates, built):
        self.kept = rt.Kept(crates) if KEEPS else None
        for it in built:
            self.note(it)

    def note(self, crate):
        """Records a library of the crate's out/: the sums of those above depend on it."""
        if self.kept:
            self.kept.is_built(crate)

    def take(self, crate):
        """Takes the crate's library from the gate's cache, and returns whether it is there."""
        if not self.kept:
            return False
        if not crate.is_program:
            # (an older library's files among those that are given would count as damage)
            shutil.rmtree(os.path.dirname(crate.rlib), ignore_errors=True)
        if not self.kept.give(crate, False, self.kept.key(crate)):
            return False
        if not crate.is_program:
            mark(crate, crate.stamp())
        return True


def say(text):
    print(f"simulate: {text}", file=sys.stderr, flush=True)


def mark(crate, stamp):
    """Records next to a library what it was made of."""
    with open(f"{os.path.dirname(crate.rlib)}/stamp", "w", encoding="utf-8") as file:
        file.write(stamp)


def build_library(crate, flags):
    """Proves a library and keeps what the crates above read: its code and the statements of what is proved. (The kit's own
    command keeps the proofs too, which each crate above would load again.) Returns the status."""
    stamp, kept = crate.stamp(), os.path.dirname(crate.rlib)
    shutil.rmtree(kept, ignore_errors=True)
    os.makedirs(kept)
    status = crate.call(rtlib.RATTLE, "build", *crate.words(flags, keeps=False), "--statements", "-o", crate.rlib)
    if status == 0:
        mark(crate, stamp)
    return status


def build(crate, jobs, progress, proved):
    """Proves and builds a library or the program, and returns whether it succeeded. If it failed, this prints what the prover said."""
    crate = copy.copy(crate)
    os.makedirs(f"{crate.folder}/out", exist_ok=True)
    if proved.take(crate):
        proved.note(crate)
        progress.tell(crate, "taken, as the gate proved it on this machine")
        return True
    flags = ["--jobs", str(jobs)]
    with tempfile.TemporaryFile("a+", errors="replace") as crate.out:
        if crate.is_program:
            made = f"out/{crate.name}"
            status = crate.compile(flags, f"{made}.o") or crate.link(f"{made}.o", made)
        else:
            status = build_library(crate, flags)
        crate.out.seek(0)
        said = crate.out.read()
    if status:
        print(said, file=sys.stderr)
        say(f"{crate.name} could not be built: see above")
    else:
        proved.note(crate)
        progress.tell(crate)
    return status == 0


def main():
    os.environ.pop(rtlib.BACKEND, None)
    rtlib.guarded()
    # (with its own handler, Python would wait for the threads, and they for the prover)
    signal.signal(signal.SIGINT, signal.SIG_DFL)
    crates = crates_as_built()
    program = next(it for it in crates if it.name == PROGRAM)
    needed = [*program.below(), program]
    held = rtlib.lock(needed)
    left = [it for it in needed if it.is_program or not it.is_built()]
    progress, names = Progress(len(left)), {it.name for it in left}
    proved = Proved(needed, [it for it in needed if it not in left])
    say(f"proving and building the program, {len(left)} crates; it can be interrupted, and goes on the next time")

    def work(crate, given, jobs):
        return all(given[it.name, "proof"] for it in crate.below() if it.name in names) and build(crate, jobs, progress, proved)

    tasks = {}
    for crate in left:
        waits = [(it.name, "proof") for it in crate.below() if it.name in names]
        tasks[crate.name, "proof"] = waits, crate.count(rb"\n"), rt.need(crate), lambda given, jobs, it=crate: work(it, given, jobs)
    given = in_lanes(tasks)
    for it in held:
        os.close(it)
    return 0 if all(given.values()) else 1


if __name__ == "__main__":
    sys.exit(main())
