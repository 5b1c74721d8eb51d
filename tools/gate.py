#!/usr/bin/env python3
"""./gate [--jobs N] [CRATE..]: the test command and merge gate of this repository.

First it installs the system packages of tools/system_packages.txt that are missing, or prints the command for it and ends
(tools/system_packages.py). Without a crate it is the whole gate. In order:

- pages: each example's page explains its trace, docs/HELP.md shows the explanations of the refusals, and what the documents name
  exists (tools/documents.py); the way of one event is as long and as deep as docs/maintain/ARCHITECTURE.md says (tools/way.py); NOTICE names each library of the program with its licence (tools/notice.py); the traces of the examples
  and the stored sessions are those of a second simulator (tools/interpreter.py, tools/second_session.py), and they keep the rules of their page (tools/bottling.py); the syntax files of
  editors/ colour declarations right (tools/editors.py); each place that answers "out of memory" or "file fault" is listed with its
  cause (tools/memory_answers.py)
- tools: those that compare figures and sections of pages, install packages, and try stored cases and wrong implementations distinguish right from wrong
  (TESTS_OF_TOOLS and tools/must_fail_test.py)
- proofs, from scratch: every crate and its tests are proved, and every wrong implementation in crates/*/must-fail is refused
- tests and programs
- worked examples: the patches of docs/maintain/CHANGING.md apply, build, and do what they say (tools/changes.py)
- calls of the program: each status (tools/calls.py), the commands that pages of docs/ show (tools/pages.py), the suite of
  examples/bottling, whole and broken (tools/bottling_suite.py), the warnings about mistakes in copies of the examples
  (tools/slips.py), ./simulate (tools/launcher.py), the packages (tools/packages.py),
  waveforms of the examples (tools/waves.py), graphs of declarations (tools/graphs.py), what happens inside traces (tools/insides.py),
  waveforms with it (tools/state_waves.py), texts that are no traces (tools/traces.py), the stored cases of cases/ (tools/cases.py),
  rings of resources (tools/rings.py), sessions (tools/sessions.py), random systems (tools/drawn.py), random types (tools/drawn_types.py), where they stop
  (tools/stops.py), each token at each place of a declaration (tools/expected.py), types with more events than 16 bits can number
  (tools/wide.py), traces of more than a million lines (tools/long.py), a system at all limits at once (tools/limits.py), outputs that
  take little and readers that fail (tools/narrow.py), texts that are cut or changed in one byte (tools/hostile.py), deployments in random
  forms of TOML (tools/forms.py), the Python package with docs/PYTHON.md (tools/python_package.py), and each request for memory refused
  (tools/refuse.py)

Then it prints the processor seconds and the memory of each crate. The last line is 'N passed, M failed', and the status is 0 if none
failed. With crates it does the same only for these and those below them, on a copy of their files. --jobs N uses N processors.

It runs the kit's own `rt ci`, so it proves and judges like that; tools/kit.py has all that it replaces there. Some kits cache on the machine what passed, by the checksums of
everything that it depends on. With such a kit a later run, in another clone too, proves and tries only what changed and what depends
on that. With others each run is from scratch. Five things differ: a crate that has only tests is proved only with them, and LLVM does
not optimize them; all wrong implementations of a crate are in one check, each in its own function (tools/must_fail.py); each check
has one job, and those with the longest chain of others after them begin first (tools/lanes.py); and both compilers build the program
at the same time."""

import os
import re
import resource
import shutil
import subprocess
import sys
import tempfile
import time

import bottling
import bottling_suite
import calls
import cases
import cases_test
import citations_test
import clauses_test
import counts_test
import documents
import drawn
import drawn_types
import editors
import expected
import explained
import figures_test
import forms
import graphs
import hostile
import insides
import interpreter
import kit
import kit_test
import launcher
import limits
import long
import memory_answers
import memory_answers_test
import narrow
import notice
import package
import packages
import pages
import python_package
import refuse
import rings
import second_session
import sessions
import slips
import state_waves
import stops
import system_packages
import system_packages_test
import texts_test
import traces
import versions_test
import waves
import way
import wide
from kit import EACH, KEEPS, TOP, rt, rtlib, toolchain_with
from lanes import in_lanes
from must_fail import add_edits, try_all

# Runs a command and adds to a file how much processor time and memory it took, as a line 'seconds', 'MB', folder, and the
# command's words.
MEASURE = """
import os, sys
log, *words = sys.argv[1:]
child = os.fork()
if not child:
    os.execvp(words[0], words)
_, status, used = os.wait4(child, 0)
with open(log, "a") as it:
    row = [str(used.ru_utime + used.ru_stime), str(used.ru_maxrss // 1000), os.getcwd(), *words]
    it.write("\\t".join(row).replace("\\n", " ") + "\\n")
if os.WIFSIGNALED(status):
    os.kill(os.getpid(), os.WTERMSIG(status))
sys.exit(os.WEXITSTATUS(status))
"""
TASKS = ("proof", "tests", "edits", "runs")
TESTS_OF_TOOLS = (
    cases_test,
    texts_test,
    figures_test,
    clauses_test,
    versions_test,
    citations_test,
    counts_test,
    kit_test,
    system_packages_test,
    memory_answers_test,
)
# The folder of a copy of a crate in which a wrong implementation is tried.
OF_EDITS = re.compile(r"/(rt-edit|gate-edits)-")
# What a line of a crate takes of each task, where its proof takes one. LLVM compiles tests with all that they reach.
WORK = {"tests": 2, "edits": 0.5}
# The lines of a library whose proof takes as long as both compilers take for the program. By its own few lines the program would begin
# after everything that can run at the same time, and then alone.
LINES_OF_COMPILERS = 2000
# The most jobs of one check. A second one costs a sixth more processor time, and the gate is to take little of it.
MOST_JOBS = 1
# A clang that does not optimize. LLVM compiles tests with all that they reach, which takes up to two minutes at -O3.
QUICK_CLANG = """#!/bin/sh
for it do
    shift
    [ "$it" = -O3 ] && it=-O0
    set -- "$@" "$it"
done
exec {given} "$@"
"""


class Times:
    """The processor seconds of each crate's tasks. Each command that the kit starts reports its own when it ends."""

    def __init__(self, room):
        self.log, self.runs, self.start = f"{room}/times", {}, time.time()
        open(self.log, "w").close()
        kit.begin_commands_with([os.path.realpath("/proc/self/exe"), "-ISc", MEASURE, self.log])
        kit.wrap_runs(self.timed)

    def timed(self, run):
        """Returns a call that runs a program or tests and adds its time. Nothing else runs at the same time."""

        def timed_run(crate, *given):
            before = used_by_children()
            is_well = run(crate, *given)
            self.runs[crate.name] = self.runs.get(crate.name, 0) + used_by_children() - before
            return is_well

        return timed_run

    def of_crates(self):
        """Returns the seconds by crate and task, those of edits that the crate's common check did not settle ("alone", a part of "edits"),
        and by crate the most memory of one of its checks."""
        found = {(name, "runs"): seconds for name, seconds in self.runs.items()}
        with open(self.log, encoding="utf-8", errors="replace") as it:
            rows = [line.rstrip("\n").split("\t") for line in it]
        for seconds, most, folder, *words in rows:
            name = words[words.index("--crate-name") + 1] if "--crate-name" in words else os.path.basename(folder)
            is_of_tests = "--test" in words or any(it.endswith("_tests.o") for it in words)
            task = "edits" if OF_EDITS.search(folder) else "tests" if is_of_tests else "proof"
            found[name, task] = found.get((name, task), 0) + float(seconds)
            found[name, "MB"] = max(found.get((name, "MB"), 0), int(most))
            if task == "edits" and "--allow-holes" not in words:
                found[name, "alone"] = found.get((name, "alone"), 0) + float(seconds)
        return found

    def tell(self):
        found = self.of_crates()
        names = sorted({name for name, _ in found}, key=lambda it: -sum(found.get((it, task), 0) for task in TASKS))
        row = "{:24}" + "{:>8}" * (len(TASKS) + 2)
        print(row.format("processor seconds", *TASKS, "sum", "MB"))
        sums = [0] * (len(TASKS) + 1)
        for name in names:
            seconds = [found.get((name, task), 0) for task in TASKS]
            seconds.append(sum(seconds))
            sums = [a + b for a, b in zip(sums, seconds)]
            print(row.format(name, *[f"{it:.0f}" for it in seconds], found.get((name, "MB"), 0)))
        most = max((found.get((it, "MB"), 0) for it in names), default=0)
        print(row.format(f"all {len(names)} crates", *[f"{it:.0f}" for it in sums], most))
        for name in names:
            if (name, "alone") in found:
                print(f"{name}: {found[name, 'alone']:.0f} s of them for edits that were tried alone (docs/notes/PROOF_COST.md)")
        used, minutes = used_by_children() / 60, (time.time() - self.start) / 60
        print(f"{used:.0f} processor minutes in {minutes:.0f} minutes on {rt.processors()} processors", flush=True)


def used_by_children():
    """Returns the processor seconds of all commands that have ended, with what they started."""
    used = resource.getrusage(resource.RUSAGE_CHILDREN)
    return used.ru_utime + used.ru_stime


def call_after_each_run():
    """Has the gate make the calls of calls.py each time it has run the program, for both compilers, and with the first compiler also
    the calls with changed texts and with refused memory. Tests are also run with refused memory when they have passed."""

    def tries(made):
        yield pages.main(made) == 0
        yield bottling_suite.try_all(made)
        yield slips.try_all(made)
        yield launcher.main(made) == 0
        yield packages.main(made) == 0
        yield waves.make_all(made)
        yield graphs.make_all(made)
        yield insides.make_all(made)
        yield state_waves.make_all(made)
        yield traces.try_all(made)
        yield cases.run_all(made)
        # (the reader of JUnit is a package of the system's Python)
        yield subprocess.run([python_package.PYTHON, "-B", "tools/junit_reports.py", made]).returncode == 0
        yield rings.try_all(made)
        yield sessions.try_all(made)
        yield drawn.try_all(made)
        yield drawn_types.try_all(made)
        yield stops.try_all(made)
        yield wide.main([made]) == 0
        yield long.main([made]) == 0
        yield limits.main([made]) == 0
        yield narrow.try_all(made)
        yield hostile.try_all(made)
        yield forms.try_all(made)
        yield expected.try_all(made)
        yield python_package.try_all(made)
        yield refuse.try_all(made)

    def calling(run):
        def run_and_call(crate, tests, ending=""):
            is_well = run(crate, tests, ending)
            if is_well and not tests and crate.name == calls.PROGRAM:
                made = f"{crate.folder}/out/{crate.name}{ending}"
                if ending:
                    return calls.make_all(made)
                # (not beside the proofs: both need much memory)
                examples = Beside(f"{TOP}/tools/changes.py")
                is_well = calls.make_all(made) and all([*tries(made)])
                return not examples.has_failed() and is_well
            if is_well and tests and not ending:
                return refuse.try_tests(crate.name, f"{crate.folder}/out/{crate.name}_tests")
            return is_well

        return run_and_call

    kit.wrap_runs(calling)


def share_processors():
    """Has the tasks share the processors by lanes.py, with an estimate of their work, in lines that are proved, and of their memory."""

    def by_work(tasks):
        for key, (waits, lines, needs, call) in tasks.items():
            more = LINES_OF_COMPILERS if key == (calls.PROGRAM, "proof") else 0
            # (a check of edits proves few of the crate's functions)
            needs = (EACH + needs) // 2 if key[1] == "edits" else needs
            tasks[key] = (waits, int(lines * WORK.get(key[1], 1)) + more, needs, call)
        return in_lanes(tasks, MOST_JOBS)

    kit.share_lanes_by(by_work)


class Beside:
    """A check that runs next to the rest of the gate, and its output."""

    def __init__(self, *words):
        self.said = tempfile.TemporaryFile("w+")
        words, how = [sys.executable, "-B", *words], {"stdin": subprocess.DEVNULL, "stderr": subprocess.STDOUT}
        self.command = subprocess.Popen(words, stdout=self.said, **how)

    def has_failed(self):
        """Waits for its end, prints its output, and returns whether it found a fault."""
        status = self.command.wait()
        self.said.seek(0)
        print(self.said.read(), end="", flush=True)
        return status != 0


def tell_before_the_last_line(times, look):
    """Has the kit's script print the times before its last line, which says how many passed and failed. Returns a call that counts a
    check that has failed there, and a list that gets the last line."""
    failed, line = [], []

    def tell(*texts, **how):
        counts = texts and re.match(r"(\d+) passed, (\d+) failed", str(texts[0]))
        if not counts:
            return print(*texts, **how)
        failed.append(look.has_failed())
        times.tell()
        passed, missed = (int(it) for it in counts.groups())
        line.append(f"{passed + (not failed[0])} passed, {missed + failed[0]} failed{texts[0][counts.end() :]}")
        print(*line, **how)

    kit.print_by(tell)
    return lambda: any(failed), line


def copy_of(names, room):
    """Makes a copy of these crates and those below them in a folder, and returns it."""
    crates = rtlib.crates_below(TOP)
    lacking = sorted({*names} - {it.name for it in crates})
    if lacking:
        rtlib.stop(f"crates.txt names no {', '.join(lacking)}")
    needed = {*names} | {below.name for it in crates if it.name in names for below in it.below()}
    top = f"{room}/copy"
    for it in needed:
        shutil.copytree(f"{TOP}/crates/{it}", f"{top}/crates/{it}", ignore=shutil.ignore_patterns("out"))
    shutil.copy(f"{TOP}/HANDLES", top)
    with open(f"{TOP}/crates.txt", encoding="utf-8") as lines, open(f"{top}/crates.txt", "w", encoding="utf-8") as it:
        it.writelines(line for line in lines if re.split(r"[\s:]", line)[0] in needed)
    return top


def ci(names, room):
    """Runs the kit's `rt ci` with one task for all wrong implementations of a crate, and returns its status. A kit that caches nothing
    takes no names of crates, so it gets a copy of these crates."""
    kit.try_edits_by(add_edits, try_all)
    if KEEPS:
        return rt.ci(False, names)
    if names:
        os.chdir(copy_of(names, room))
    return rt.ci()


def main(words):
    if words[:1] in (["-h"], ["--help"]):
        print(__doc__)
        return 0
    os.chdir(TOP)
    if words[:1] == ["--jobs"] and len(words) > 1 and words[1].isdigit() and int(words[1]):
        jobs, words = int(words[1]), words[2:]
        kit.use_processors(jobs)
    if any(it.startswith("-") for it in words):
        print(__doc__, file=sys.stderr)
        return 2
    if not system_packages.set_up():
        print("0 passed, 1 failed")
        return 1
    failed = explained.main([]) or documents.main() or notice.main() or bottling.main() or interpreter.main([]) or second_session.main() or editors.main() or memory_answers.main() or way.main()
    if subprocess.run(["examples/check"]).returncode or failed or any(it.main() for it in TESTS_OF_TOOLS):
        print("0 passed, 1 failed")
        return 1
    with tempfile.TemporaryDirectory(prefix="gate-") as room:
        look = Beside("tools/must_fail_test.py")
        kit.use_crates_of_the_gate(toolchain_with(room, "clang", QUICK_CLANG))
        call_after_each_run()
        share_processors()
        (has_failed, last_line), tree = tell_before_the_last_line(Times(room), look), package.tree()
        status = ci(words, room)
        os.chdir(TOP)
        status = status or int(has_failed())
        if not status and not words:
            package.record_gate(*last_line, tree)
        return status


if __name__ == "__main__":
    sys.exit(main(sys.argv[1:]))
