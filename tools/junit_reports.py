#!/usr/bin/env python3
"""tools/junit_reports.py [PROGRAM]: reads the reports of `expect --junit` with Debian's junitparser, and compares them with those without it.

The rules and traces are those of examples/bottling and a few here: rules that hold, break, are undecided, never apply and are cut short by a
stop, with names that XML must escape. Suites, cases, failures and skips are those of the Test Anything Protocol, and so are line, tick and how often a rule was
decided."""

import glob
import os
import re
import sys

from junitparser import JUnitXml

from kit import TOP
from program import Room

POINT = re.compile(
    r"^(not )?ok [0-9]+ - (.*?)(?: # SKIP (undecided|never applied))?\n"
    r'(?:  ---\n  message: "(.*)"\n  trace: "(.*)"\n(?:  line: ([0-9]+)\n  tick: ([0-9]+)\n)?  \.\.\.\n)?# (?:decided|applied) ([0-9]+) ', re.MULTILINE
)
RULE = '[[rule]]\nname = "%s"\n%s\n'
RULES = "".join(RULE % it for it in (
    ('a < b & \\"c\\" > d', 'after = "R > A.P"\nwithin = 2\nsee = "R > A.Q"'),
    ("größe", 'never = "R > A.P"'),
    ("tab \\t and # here", 'count = "* * *"\nleast = 1'),
    ("never", 'before = "R > A.X"\nwithin = 1\nsee = "R > A.P"'),
))
TRACES = {
    "held": "1 R > A.P\n2 R > A.Q\nend 9\n", "waits & <ends>": "1 R > A.P\nend 2\n", "empty": "end 1\n",
    "stopped": "1 R > A.P\n2 R > A.Q\nstop 9 R steps\n",
}


def expected_cases(report, traces):
    """Returns the cases of a report in the Test Anything Protocol: suite, name, kind, message, line, tick and count."""
    found = []
    for point in POINT.finditer(report):
        name = re.sub(r"\\([\\#])", r"\1", point[2])
        suite = next((it for it in traces if name.endswith(f" ({it})")), traces[0])
        kind = "failed" if point[1] else "skipped" if point[3] else "passed"
        found.append((suite, name.removesuffix(f" ({suite})"), kind, point[8], point[6], point[7]))
    return found


def read_cases(path):
    """Returns the cases of a report in JUnit XML, and whether the counts of its suites are those of its cases."""
    found, is_counted = [], True
    for suite in JUnitXml.fromfile(path):
        kinds = []
        for case in suite:
            results = case.result
            kind = {"Failure": "failed", "Skipped": "skipped"}[type(results[0]).__name__] if results else "passed"
            place = re.fullmatch(r"line ([0-9]+), tick ([0-9]+)", (results[0].text or "") if results else "")
            kinds.append(kind)
            found.append((suite.name, case.name, kind, case._elem.get("assertions"), place and place[1], place and place[2]))
        is_counted &= (suite.tests, suite.failures, suite.skipped, suite.errors) == (len(kinds), kinds.count("failed"), kinds.count("skipped"), 0)
    return found, is_counted


def try_report(room, rules, traces, options):
    """Returns whether the two reports of a call say the same."""
    texts = [room.call(["expect", rules, *traces, *options, *more]) for more in ([], ["--junit"])]
    path = f"{room.folder}/report.xml"
    with open(path, "wb") as it:
        it.write(texts[1].stdout)
    wanted = expected_cases(texts[0].stdout.decode(), traces)
    came, is_counted = read_cases(path)
    is_well = bool(wanted) and came == wanted and is_counted and texts[0].returncode == texts[1].returncode
    if not is_well:
        print(f"expect {rules} {' '.join(traces)} {' '.join(options)}: {wanted} is {came}")
    return is_well


def run_all(program):
    """Returns whether all reports say the same."""
    example = f"{TOP}/examples/bottling"
    files = {"rules": RULES.encode(), **{name: text.encode() for name, text in TRACES.items()}}
    names = []
    for path in sorted(glob.glob(f"{example}/*/trace")):
        names.append(path.split("/")[-2])
        with open(path, "rb") as it:
            files[names[-1]] = it.read()
    with open(f"{example}/bottling.rules", "rb") as it:
        files["bottling"] = it.read()
    with Room(program, files) as room:
        calls = [(rules, traces, options) for rules, traces in (("rules", [*TRACES]), ("rules", ["held"]), ("bottling", names)) for options in ([], ["--strict"])]
        results = [try_report(room, *it) for it in calls]
    print(f"JUnit reports: {sum(results)} of {len(results)}", flush=True)
    return bool(results) and all(results)


if __name__ == "__main__":
    sys.exit(not run_all(os.path.abspath(sys.argv[1] if len(sys.argv) > 1 else f"{TOP}/crates/fbsim/out/fbsim")))
