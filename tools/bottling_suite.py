#!/usr/bin/env python3
"""tools/bottling_suite.py [PROGRAM]: breaks copies of examples/bottling in many ways, and checks that its suite is red in each.

In each copy one thing is wrong: a reference is missing or cut off, a scenario is half deleted, a file can't be read, a run or a command
of the program fails, and so on. The status must be the one in the table, the name of the file must be reported, and the report must have
no plan or a point `not ok`. The make file of docs/BENCH.md must fail on each too, from scratch and after it has passed. Copies with
nothing wrong must be green, with the same points each time. So it is with single scenarios and a report on them. `suite bless` must list what it adds, changes and drops, and keep the
reference of a run that fails. shellcheck must find nothing in the suite.

./gate runs this each time it has run the program. Without ./gate it uses the program that ./simulate built."""

import os
import re
import shutil
import subprocess
import sys
from typing import Callable, NamedTuple

from kit import TOP
from program import Room, side_by_side

PROGRAM = f"{TOP}/crates/fbsim/out/fbsim"
EXAMPLE = f"{TOP}/examples/bottling"
PAGE = f"{TOP}/docs/BENCH.md"
SCENARIOS = ["emergency", "rejects", "shift"]
EMERGENCY = "the filler hears of an emergency within the latency of its link"
# In how many of the three traces a rule applies, if not in all: only in `shift` a pallet gets full, and a recipe is refused.
APPLIED = {"nothing is put on a full pallet": 1, "a refused recipe is not loaded": 1}
# Calls in the folder of a copy, as what runs programs makes no other folder its own.
CALL = ["sh", "-c", 'cd "$1" && shift && exec "$@"', "sh"]


def content(path):
    with open(path, encoding="utf-8") as it:
        return it.read()


class Bench:
    """A copy of the example in a room, and the program with which it is called."""

    def __init__(self, room, name, source=None):
        self.room, self.folder, self.program = room, f"{room.folder}/{name}/line", f"{room.folder}/program"
        # (with the times of files, by which make goes)
        source = source or EXAMPLE
        shutil.copytree(source, self.folder, ignore=shutil.ignore_patterns(*["out"] * (source == EXAMPLE)))
        for top, _, names in os.walk(os.path.dirname(self.folder)):
            for it in [top, *(f"{top}/{name}" for name in names)]:
                os.chmod(it, 0o777)
        self.write("Makefile", re.search(r"^```make\n(.*?)^```$", content(PAGE), re.M | re.S)[1])

    def write(self, name, text):
        os.makedirs(os.path.dirname(f"{self.folder}/{name}"), exist_ok=True)
        os.chmod(os.path.dirname(f"{self.folder}/{name}"), 0o777)
        with open(f"{self.folder}/{name}", "w", encoding="utf-8") as it:
            it.write(text)
        os.chmod(f"{self.folder}/{name}", 0o777)

    def remove(self, *names):
        for it in names:
            os.remove(f"{self.folder}/{it}")

    def lock(self, name):
        os.chmod(f"{self.folder}/{name}", 0)

    def edit(self, name, old, new):
        text = content(f"{self.folder}/{name}")
        assert old in text, f"{name} has no {old!r}"
        self.write(name, text.replace(old, new, 1))

    def cut(self, name, part):
        text = content(f"{self.folder}/{name}")
        self.write(name, text[: int(len(text) * part)])

    def copy(self, name, to, *lacking):
        for it in os.listdir(f"{self.folder}/{name}"):
            if it not in lacking:
                self.write(f"{to}/{it}", content(f"{self.folder}/{name}/{it}"))

    def wrap(self, command, action):
        """Calls a program that does this for one of its commands, for a run only that of `shift`, and is the right one for all others."""
        case = f"run:*/shift) {action} ;; run:*) ;;" if command == "run" else f"{command}:*) {action} ;;"
        self.write("wrapped", f'#!/bin/sh\nprogram={self.program}\ncase $1:$PWD in {case} esac\nexec "$program" "$@"\n')
        self.program = f"{self.folder}/wrapped"

    def call(self, *words, out=None, ci=""):
        settings = [f"FBSIM={self.program}", f"CI={ci}", *[f"OUT={out}"] * bool(out)]
        ran = self.room.run([*CALL, self.folder, *words], settings=settings)
        return ran.returncode, ran.stdout.decode(), ran.stderr.decode()


class Break(NamedTuple):
    """A way to break a bench: what is reported of it, and the status of the suite."""

    what: str
    change: Callable
    named: str
    status: int = 1


def delete_all(bench):
    for it in SCENARIOS:
        shutil.rmtree(f"{bench.folder}/{it}")


def without_program(bench):
    bench.program = "/nowhere/fbsim"


def folder_as_trace(bench):
    bench.remove("shift/trace")
    os.mkdir(f"{bench.folder}/shift/trace")


def link_to_nothing(bench):
    bench.remove("shift/trace")
    os.symlink("/nowhere", f"{bench.folder}/shift/trace")


def copy_of_declaration(bench):
    bench.write("shift/bottling.iec", content(f"{EXAMPLE}/bottling.iec"))
    bench.edit("shift/args", "../bottling.iec", "bottling.iec")


def other_application(bench):
    bench.write("shift/other.iec", content(f"{TOP}/examples/crossing/crossing.iec"))
    bench.write("shift/args", "run\nother.iec\n--horizon\n48000\n")


def blessed(bench):
    assert bench.call("./suite", "bless")[0] == 0


def without_stimuli(bench):
    for it in SCENARIOS:
        bench.write(f"{it}/stimuli.csv", "tick,event,values\n")
    blessed(bench)


def stimuli_beyond_horizon(bench):
    for it in SCENARIOS:
        rows = content(f"{bench.folder}/{it}/stimuli.csv").splitlines()
        bench.write(f"{it}/stimuli.csv", "\n".join([rows[0], *(f"90{row}" for row in rows[1:] if len(row.split(",")[0]) > 3), ""]))
    blessed(bench)


def horizon_of_one(bench):
    for it in SCENARIOS:
        args = content(f"{bench.folder}/{it}/args").splitlines()
        bench.write(f"{it}/args", "\n".join([*args[:-1], "1", ""]))
    blessed(bench)


def link_to_result(bench):
    bench.remove("shift/trace")
    os.symlink("../out/shift.trace", f"{bench.folder}/shift/trace")


def program_that_does_nothing(bench):
    bench.program = "/bin/true"


BREAKS = [
    Break("a reference is missing", lambda it: it.remove("shift/trace"), "shift/trace: there is no such reference"),
    Break("a reference is empty", lambda it: it.write("shift/trace", ""), "shift/trace"),
    Break("a reference is cut off", lambda it: it.cut("shift/trace", 0.5), "shift/trace"),
    Break("a reference has no last line", lambda it: it.edit("shift/trace", "end 48000\n", ""), "shift/trace"),
    Break("a reference differs in one digit", lambda it: it.edit("rejects/trace", "LEVEL=450", "LEVEL=451"), "rejects/trace"),
    Break("a reference can't be read", lambda it: it.lock("shift/trace"), "shift/trace"),
    Break("a reference is a folder", folder_as_trace, "shift/trace: there is no such reference"),
    Break("a reference is a link to nothing", link_to_nothing, "shift/trace: there is no such reference"),
    Break("a new scenario was never blessed", lambda it: it.copy("rejects", "night", "trace"), "night/trace: there is no such reference"),
    Break("the reference of a deleted scenario is left", lambda it: it.remove("shift/args", "shift/stimuli.csv"), "shift/args"),
    Break("a scenario has no args", lambda it: it.copy("rejects", "night", "args", "trace"), "night/args"),
    Break("the folder of a scenario is empty", lambda it: os.mkdir(f"{it.folder}/night"), "night/args"),
    Break("there is no scenario", delete_all, "there is no scenario", 3),
    Break("args can't be read", lambda it: it.lock("shift/args"), "shift/args"),
    Break("args are empty", lambda it: it.write("shift/args", ""), "shift/args: no word names the declaration"),
    Break("args name a copy of the declaration", copy_of_declaration, "shift/args: no word names the declaration"),
    Break("args run another application", other_application, "shift/args: no word names the declaration"),
    Break("args have no deployment", lambda it: it.edit("shift/args", "--deploy\n../deploy.toml\n", ""), "shift/args: there is no --deploy"),
    Break("a rule applies in no trace", lambda it: it.edit("bottling.rules", "MODE=2", "MODE=4"), f"{EMERGENCY}: applied in 0 of 3 traces"),
    Break("all stimuli are removed, and this is blessed", without_stimuli, f"{EMERGENCY}: applied in 0 of 3 traces"),
    Break("all stimuli are beyond the horizon, and this is blessed", stimuli_beyond_horizon, f"{EMERGENCY}: applied in 0 of 3 traces"),
    Break("all runs end at once, and this is blessed", horizon_of_one, f"{EMERGENCY}: applied in 0 of 3 traces"),
    Break("a reference is a link to the trace of the run", link_to_result, "shift/trace: this is a link to the trace of the run"),
    Break("a scenario has the name of the folder for results", lambda it: it.copy("shift", "out"), "out: this folder is for results", 3),
    Break("the program is another one", program_that_does_nothing, "/bin/true: this is no fbsim", 127),
    Break("the commands do nothing", lambda it: it.wrap("*", "[ $1 = --version ] || exit 0"), "there are 0 points for 3 traces and 12 rules"),
    Break("a report lacks a point", lambda it: it.wrap("expect", '"$program" "$@" | sed "/^ok 7 /d"; exit 0'), "there are 47 points for 3 traces and 12 rules"),
    Break("args are cut off", lambda it: it.edit("shift/args", "--horizon\n48000\n", "--horizon\n"), "shift: the status of its run is 5, expected 0"),
    Break("args name no file", lambda it: it.edit("shift/args", "stimuli.csv", "nothing.csv"), "shift: the status of its run is 3, expected 0"),
    Break("stimuli are missing", lambda it: it.remove("shift/stimuli.csv"), "shift: the status of its run is 3, expected 0"),
    Break("stimuli are refused", lambda it: it.edit("shift/stimuli.csv", "LINE.START", "LINE.STRAT"), "shift: the status of its run is 2, expected 0"),
    Break("the declaration is refused", lambda it: it.edit("bottling.iec", "POWER : E_RESTART", "POWER : E_RESTRAT"), "E21", 2),
    Break("the declaration is missing", lambda it: it.remove("bottling.iec"), "bottling.iec", 3),
    Break("the deployment is refused", lambda it: it.edit("deploy.toml", "latency = 15", "latency = 0"), "deploy.toml", 2),
    Break("a run stops", lambda it: it.edit("shift/args", "run\n", "run\n--steps\n5\n"), "shift: the status of its run is 1, expected 0"),
    Break("a run does not stop as expected", lambda it: it.write("shift/status", "1\n"), "shift: the status of its run is 0, expected 1"),
    Break("a run is expected to be refused", lambda it: it.write("shift/status", "2\n"), "shift: the status of its run is 0, expected 2"),
    Break("the expected status is no number", lambda it: it.write("shift/status", "stop\n"), "shift: the status of its run is 0, expected stop"),
    Break("the expected status is empty", lambda it: it.write("shift/status", ""), "shift: the status of its run is 0, expected"),
    Break("the expected status can't be read", lambda it: (it.write("shift/status", "0\n"), it.lock("shift/status")), "shift/status"),
    Break("a rule breaks", lambda it: it.edit("bottling.rules", "within = 2000", "within = 1999"), "the valve is open for two seconds at most"),
    Break("the rules are refused", lambda it: it.edit("bottling.rules", "within = 2000", "within = -1"), "bottling.rules", 2),
    Break("a rule names no instance", lambda it: it.edit("bottling.rules", "FILL.FILLED", "FILL.FULL"), "bottling.rules", 2),
    Break("the rules are empty", lambda it: it.write("bottling.rules", ""), "bottling.rules", 2),
    Break("the rules are missing", lambda it: it.remove("bottling.rules"), "bottling.rules", 3),
    Break("the rules can't be read", lambda it: it.lock("bottling.rules"), "bottling.rules", 3),
    Break("the program is missing", without_program, "/nowhere/fbsim", 127),
    Break("a run fails", lambda it: it.wrap("run", '"$program" "$@" | head -n 9; exit 4'), "shift: the status of its run is 4, expected 0"),
    Break("a run is killed", lambda it: it.wrap("run", "kill -9 $$"), "shift: the status of its run is 137, expected 0"),
    Break("a run writes a part of its trace", lambda it: it.wrap("run", '"$program" "$@" | head -n 9; exit 0'), "shift/trace", 2),
    Break("a run writes nothing", lambda it: it.wrap("run", "exit 0"), "shift/trace", 2),
    Break("diff has a fault", lambda it: it.wrap("diff", "exit 3"), "shift/trace: the status of `fbsim diff` is 3"),
    Break("diff is out of memory", lambda it: it.wrap("diff", "exit 4"), "shift/trace: the status of `fbsim diff` is 4"),
    Break("diff differs and says nothing", lambda it: it.wrap("diff", "exit 1"), "shift/trace: the status of `fbsim diff` is 1"),
    Break("diff is killed", lambda it: it.wrap("diff", "kill -9 $$"), "shift/trace: the status of `fbsim diff` is 137"),
    Break("expect has a fault", lambda it: it.wrap("expect", "exit 3"), "bottling.rules: the status of `fbsim expect` is 3", 3),
    Break("expect is killed", lambda it: it.wrap("expect", "kill -9 $$"), "bottling.rules: the status of `fbsim expect` is 137", 137),
]


def has_red_report(said):
    """Whether a reader of the report sees a fault: there is none, it has no plan, or a point has failed."""
    return not re.search(r"^1\.\.\d+$", said, re.M) or bool(re.search(r"^not ok \d+ - ", said, re.M))


def fault_of(room, passed, at):
    """Returns what is wrong where one thing is broken, or None. In the copy `passed`, make has passed."""
    it = BREAKS[at]
    bench = Bench(room, f"suite{at}")
    it.change(bench)
    # (what an earlier run left must not count)
    for name in SCENARIOS:
        bench.write(f"out/{name}.passed", "")
        bench.write(f"out/{name}.trace", content(f"{EXAMPLE}/{name}/trace"))
    status, out, err = bench.call("./suite")
    if status != it.status or it.named not in out + err or not has_red_report(out):
        return f"{it.what}: status {status}, not {it.status}, or nothing about {it.named}: {out}{err}"
    fresh, later = Bench(room, f"make{at}"), Bench(room, f"again{at}", passed.folder)
    it.change(fresh)
    it.change(later)
    for how, tried in [("from scratch", fresh), ("again", later)]:
        status, out, err = tried.call("make", "-s")
        if status == 0:
            return f"{it.what}: make {how} passes: {out}{err}"
    return None


def points_of(said):
    return re.findall(r"^ok \d+ - (.*?)(?: # SKIP never applied)?$", said, re.M)


def faults_of_green(room):
    """Yields what is wrong where nothing is broken: the points, and that they are the same each time."""
    bench = Bench(room, "green")
    rules = re.findall(r'^name = "(.*)"$', content(f"{EXAMPLE}/bottling.rules"), re.M)
    expected = [*SCENARIOS, "bottling.rules", *(f"{rule} ({name}.trace)" for name in SCENARIOS for rule in rules)]
    expected += [f"{rule}: applied in {APPLIED.get(rule, 3)} of 3 traces" for rule in rules]
    first = bench.call("./suite")
    if (first[0], points_of(first[1]), first[2]) != (0, expected, "") or not first[1].endswith(f"1..{len(expected)}\n"):
        yield f"nothing is broken: {first}"
    bench.write("out/old.trace", "end 5\n")
    if bench.call("./suite") != first or bench.call("./suite", out="../elsewhere") != first or bench.call("./suite", out=f"{room.folder}/there") != first:
        yield "the report of a second run, or with OUT, is another one"
    if not first[1].endswith(f"\n# 3 scenarios, {len(rules)} rules\n1..{len(expected)}\n"):
        yield f"the number of scenarios: {first[1][-99:]}"
    # Without FBSIM the program is ./simulate of the repository, and before that the one on the PATH.
    os.mkdir(f"{room.folder}/bin")
    for link in ("simulate", "bin/fbsim"):
        os.symlink(bench.program, f"{room.folder}/{link}")
        ran = room.run([*CALL, bench.folder, "./suite"], settings=[f"PATH={room.folder}/bin:{os.environ['PATH']}"])
        if (ran.returncode, ran.stdout.decode(), ran.stderr.decode()) != first:
            yield f"without FBSIM, with {link}: {ran}"
        os.remove(f"{room.folder}/{link}")


def results(bench):
    """Returns what is in the folder for results, by the ends of names."""
    return sorted(os.listdir(f"{bench.folder}/out"))


def faults_of_one(room):
    """Yields what is wrong with single scenarios, in a copy without results and in one where older ones are left, and with reports on them."""
    expected = Bench(room, "all").call("./suite")
    bench = Bench(room, "one")
    if (said := bench.call("./suite", "--one", "shift")) != (0, "", "") or results(bench) != ["shift.passed", "shift.trace", "shift.wrong"]:
        yield f"a scenario alone: {said}, {results(bench)}"
    status, out, err = bench.call("./suite", "--report")
    if status != 1 or "not ok 1 - emergency\n# it was not run\n" not in out or "ok 3 - shift\n" not in out:
        yield f"a report on one of three scenarios: {status}, {out}{err}"
    for name in SCENARIOS[:2]:
        bench.call("./suite", "--one", name)
    # (the trace of a scenario that is no longer there is not judged)
    bench.write("out/night.trace", "end 5\n")
    if (said := bench.call("./suite", "--report")) != expected:
        yield f"a report on all scenarios: {said}"
    bench.edit("rejects/trace", "LEVEL=450", "LEVEL=451")
    status, out, err = bench.call("./suite", "--report")
    if status != 1 or "not ok 2 - rejects\n" not in out:
        yield f"a report after a reference has changed: {status}, {out}{err}"
    bench.edit("shift/stimuli.csv", "LINE.START", "LINE.STRAT")
    status, out, err = bench.call("./suite", "--one", "shift")
    if status != 1 or "expected 0" not in err or {"shift.passed", "shift.trace"} & set(results(bench)):
        yield f"a scenario alone that fails: {status}, {out}{err}, {results(bench)}"
    if (said := bench.call("./suite", "--report"))[0] != 1:
        yield f"a report on a scenario that failed: {said}"
    for words in (["--one"], ["--one", "shift", "rejects"], ["--report", "shift"], ["shift"]):
        if (said := bench.call("./suite", *words))[0] != 5 or not said[2].startswith("usage: suite [--one NAME"):
            yield f"{words}: {said}"
    bench.call("./suite", "--one", "rejects")
    for bench.program in ("/bin/true", "/bin/echo", "/nowhere/fbsim"):
        said = bench.call("./suite", "--one", "rejects")
        if said[0] != 1 or f"{bench.program}: this is no fbsim" not in said[2] or {"rejects.passed", "rejects.trace"} & set(results(bench)):
            yield f"a scenario alone with another program: {said}, {results(bench)}"


def faults_of_places(room):
    """Yields what is wrong where a scenario is hidden, or results are to go into the folder of one."""
    bench = Bench(room, "hidden")
    os.rename(f"{bench.folder}/emergency", f"{bench.folder}/.emergency")
    os.mkdir(f"{bench.folder}/.cache")
    status, out, err = bench.call("./suite")
    if status or not out.endswith("\n# skipped: .emergency, since its name begins with a dot\n# 2 scenarios, 12 rules\n1..39\n") or ".cache" in out:
        yield f"a hidden scenario: {status}, {out}{err}"
    bench = Bench(room, "late")
    bench.copy("rejects", "night", "trace")
    bench.edit("night/args", "12000", "9000")
    late = sum(int(row.split(",")[0]) >= 9000 for row in content(f"{bench.folder}/night/stimuli.csv").splitlines()[1:])
    blessed(bench)
    for words in ((), ("--report",)):
        status, out, err = bench.call("./suite", *words)
        if status or not late or f"ok 2 - night\n# stimuli: rows at or beyond the horizon 9000: {late} of " not in out:
            yield f"stimuli beyond the horizon: {status}, {out}{err}"
    # (where a shell would look for the folder of the suite first, there is one without a bench)
    bench = Bench(room, "called")
    bench.write("other/line/README.md", "")
    status, out, err = bench.call("sh", "-c", "cd .. && CDPATH=$PWD/line/other line/suite --one shift")
    if status or out or err:
        yield f"a suite that is called by a path where CDPATH is set: {status}, {out}{err}"
    bench = Bench(room, "into")
    status, out, err = bench.call("./suite", out="shift")
    if status != 3 or "shift: this folder is for results" not in err or content(f"{bench.folder}/shift/trace") != content(f"{EXAMPLE}/shift/trace"):
        yield f"results in the folder of a scenario: {status}, {out}{err}"


def faults_of_times(room, passed):
    """Yields what is wrong with make where a file changes and has an older time, and where only times change."""
    changes = [("bottling.iec", "E_RESTART", "E_RESTRAT"), ("shift/stimuli.csv", "LINE.START", "LINE.STRAT"), ("bottling.rules", "2000", "1999")]
    for name, old, new in changes:
        bench = Bench(room, f"old_{os.path.basename(name)}", passed.folder)
        if (said := bench.call("make"))[0] or "--one" in said[1]:
            yield f"make runs a scenario where nothing changed: {said}"
        os.utime(f"{bench.folder}/{name}")
        if (said := bench.call("make"))[0] or "--one" in said[1]:
            yield f"make runs a scenario where the time of {name} changed: {said}"
        bench.edit(name, old, new)
        os.utime(f"{bench.folder}/{name}", (1577836800, 1577836800))
        if (said := bench.call("make"))[0] == 0:
            yield f"make does not see that {name} changed: {said}"


def faults_of_stops(room):
    """Yields what is wrong with a scenario that is expected to stop, has a name with a blank, and args without a last line end."""
    bench = Bench(room, "stops")
    bench.copy("rejects", "five steps", "trace")
    bench.edit("five steps/args", "run\n", "run\n--steps\n5\n")
    bench.cut("five steps/args", 0.999)
    said = bench.call("./suite", "bless")
    if said[:2] != (1, "not blessed: five steps\n") or os.path.exists(f"{bench.folder}/five steps/trace"):
        yield f"bless of a run that stops: {said}"
    bench.write("five steps/status", "1\n")
    said = bench.call("./suite", "bless")
    if said[:2] != (0, "added five steps/trace\n") or not said[2].startswith("../bottling.iec:") or ": stop: " not in said[2]:
        yield f"bless of a run that is expected to stop: {said}"
    if "stop 0 PACKING steps" not in (text := content(f"{bench.folder}/five steps/trace")) and not re.search(r"^stop \d+ \w+ steps$", text, re.M):
        yield f"the trace of a run that stops: {text}"
    status, out, err = bench.call("./suite")
    if status not in (0, 1) or "five steps" not in points_of(out) or "not ok 1 " in out or "\n# the run ends with: stop " not in out:
        yield f"a run that is expected to stop: {status}, {out}{err}"


def faults_of_bless(room):
    """Yields what is wrong with the list of what bless adds, changes and drops, and with the suite after it."""
    bench = Bench(room, "bless")
    bench.copy("rejects", "night", "trace")
    bench.edit("rejects/trace", "LEVEL=450", "LEVEL=451")
    bench.remove("emergency/args")
    said = bench.call("./suite", "bless")
    if said[:2] != (0, "dropped emergency/trace\nadded night/trace\nchanged rejects/trace\n"):
        yield f"bless: {said}"
    if [content(f"{bench.folder}/{it}/trace") for it in ("night", "rejects")] != [content(f"{EXAMPLE}/rejects/trace")] * 2:
        yield "bless made another trace the reference"
    shutil.rmtree(f"{bench.folder}/emergency")
    if (said := bench.call("./suite"))[0] or points_of(said[1])[:3] != ["night", "rejects", "shift"]:
        yield f"the suite after bless: {said}"
    if (said := bench.call("./suite", "bless")) != (0, "", ""):
        yield f"bless again: {said}"
    bench.edit("shift/args", "run\n", "run\n--steps\n5\n")
    said = bench.call("./suite", "bless")
    if said[:2] != (1, "not blessed: shift\n") or content(f"{bench.folder}/shift/trace") != content(f"{EXAMPLE}/shift/trace"):
        yield f"bless of a run that stops: {said}"


def faults_of_bless_with_names(room):
    """Yields what is wrong where only some scenarios are blessed, a trace breaks a rule, or a CI engine runs the suite."""
    bench = Bench(room, "some")
    bench.edit("rejects/trace", "LEVEL=450", "LEVEL=451")
    bench.edit("shift/trace", "LEVEL=1000", "LEVEL=1001")
    if (said := bench.call("./suite", "bless", "night"))[0] != 5 or "there is no scenario night" not in said[2]:
        yield f"bless of no scenario: {said}"
    said = bench.call("./suite", "bless", "shift", ci="true")
    if said != (1, "", "not blessed, since the variable CI is set, and --force is not given\n") or "LEVEL=1001" not in content(f"{bench.folder}/shift/trace"):
        yield f"bless in a CI engine: {said}"
    if (said := bench.call("./suite", "bless", "shift/")) != (0, "changed shift/trace\n", "") or "LEVEL=451" not in content(f"{bench.folder}/rejects/trace"):
        yield f"bless of one scenario: {said}"
    if (said := bench.call("./suite", "bless", "--force", ci="true")) != (0, "changed rejects/trace\n", ""):
        yield f"bless by force in a CI engine: {said}"
    # (the valve is open for exactly two seconds)
    bench.edit("bottling.rules", "within = 2000", "within = 1999")
    bench.edit("shift/trace", "LEVEL=1000", "LEVEL=1001")
    said = bench.call("./suite", "bless")
    expected = "not blessed: shift: the status of `fbsim expect` is 1, and --force is not given\n# broken: the valve is open for two seconds at most\n"
    if said[:2] != (1, expected) or "LEVEL=1001" not in content(f"{bench.folder}/shift/trace"):
        yield f"bless of a trace that breaks a rule: {said}"
    if (said := bench.call("./suite", "bless", "--force", "shift", "rejects")) != (0, "changed shift/trace\n", ""):
        yield f"bless by force of a trace that breaks a rule: {said}"


def faults_of_shell():
    """Returns what shellcheck finds in the suite."""
    ran = subprocess.run(["shellcheck", "--shell=sh", f"{EXAMPLE}/suite"], capture_output=True, text=True)
    return [ran.stdout + ran.stderr] * (ran.returncode != 0)


def try_all(program):
    """Tries all of this, prints what is wrong, and returns whether nothing is."""
    with Room(program) as room:
        # (make looks for it in its folder, which it must be able to list)
        shutil.copy(room.program, f"{room.folder}/program")
        os.chmod(f"{room.folder}/program", 0o755)
        passed = Bench(room, "passed")
        said = passed.call("make", "-s", "-j")
        faults = faults_of_shell() + [f"make does not pass: {said}"] * (said[0] != 0)
        faults += [it for it in side_by_side(lambda at: fault_of(room, passed, at), range(len(BREAKS))) if it]
        faults += faults_of_times(room, passed)
        for call in (faults_of_green, faults_of_one, faults_of_places, faults_of_stops, faults_of_bless, faults_of_bless_with_names):
            faults += call(room)
    for it in faults:
        print(f"examples/bottling/suite: {it}", file=sys.stderr)
    print(f"bottling suite: {len(faults)} faults with {len(BREAKS)} broken copies", flush=True)
    return not faults


if __name__ == "__main__":
    sys.exit(not try_all(sys.argv[1] if len(sys.argv) > 1 else PROGRAM))
