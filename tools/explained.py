#!/usr/bin/env python3
"""tools/explained.py [--write]: checks that pages show the program's explanations of refusals and lines of --why.

The explanations are in the tables of crates/fb_why/src/table.rt. With --write this writes them into docs/HELP.md,
between the two marks there. Each line of --why that docs/formats/program.md shows must be expected by a stored case or by a call of tools/calls.py. Each number
of a refusal in the sources must have one explanation, and each explanation of a refusal must have one number. Otherwise this
reports it and ends with status 1. ./gate runs it."""

import glob
import re
import sys
import tomllib

import calls
from kit import TOP
from unbuilt import TABLE, entries

# The stored cases of --why, and what they call the files of a deployment, of stimuli and of rules, which have these names on the page.
CASES = sorted(glob.glob(f"{TOP}/cases/why*.toml"))
NAMES = {"DEPLOY:": "plan.toml:", "STIM:": "stim.csv:", "RULES:": "cell.rules:"}
PAGE = f"{TOP}/docs/HELP.md"
PAGE_OF_WHY = f"{TOP}/docs/formats/program.md"
FIRST = "<!-- The explanations of crates/fb_why/src/table.rt, by tools/explained.py --write -->\n"
LAST = "<!-- The end of the explanations -->\n"
# The files that give refusals their numbers, and how they do.
NUMBERED = ["fb_read/src/error.rt", "fb_inputs/src/error.rt", "fb_check/src/fault.rt", "fb_expect/src/error.rt"]
NUMBER = re.compile(r"=> (?:Some\()?(\d+)\)?,|_NAME: u8 = (\d+);")
HEADING = "| name | means | for example | look at |\n|---|---|---|---|\n"
WHY_HEADING = "| refusal | a line that `--why` prints |\n|---|---|\n"


def rows(table):
    """Returns the explanations as rows of a table for the page."""
    found = entries(table)
    declared = sum(map(int, re.findall(r"\[Explanation; (\d+)\]", table)))
    if len(found) != declared:
        sys.exit(f"{TABLE}: {declared} explanations are declared, and {len(found)} were read")
    cells = [[name, meaning, f"{first} {second}", look] for name, meaning, first, second, look in found]
    if any("|" in cell for row in cells for cell in row):
        sys.exit(f"{TABLE}: a stroke would end a cell of the page")
    return "".join(f"| {' | '.join(row)} |\n" for row in cells)


def expected_lines():
    """Returns the lines that a stored case or a call expects."""
    texts = [call.err.decode() for call in calls.CALLS if call.err]
    for path in CASES:
        with open(path, "rb") as it:
            texts += [text for group in tomllib.load(it)["group"] for row in group.get("rows", ()) for text in row if isinstance(text, str)]
    return {named_as_on_the_page(line) for text in texts for line in text.splitlines()}


def named_as_on_the_page(line):
    """Returns a line of a case with the names that the page gives to the files."""
    name = next((it for it in NAMES if line.startswith(it)), "")
    return NAMES.get(name, "") + line.removeprefix(name)


def untried(page):
    """Returns the rows of the page's table of lines of --why that no case and no call expects."""
    if page.count(WHY_HEADING) != 1:
        sys.exit(f"{PAGE_OF_WHY}: the table of lines of --why must be there once")
    shown = page.split(WHY_HEADING)[1].split("\n\n")[0].splitlines()
    expected = expected_lines()
    return [row for row in shown if row.split(" | ", 1)[1].removesuffix(" |").strip("`") not in expected]


def numbers():
    """Returns the names of all refusals that have a number in the sources."""
    found = []
    for name in NUMBERED:
        with open(f"{TOP}/crates/{name}") as it:
            found += [f"E{int(one or other):02}" for one, other in NUMBER.findall(it.read())]
    return sorted(found)


def main(words):
    """Compares the page with the table, or writes it, and returns the status."""
    with open(TABLE) as it:
        table = it.read()
    expected = HEADING + rows(table)
    if (explained := sorted(name for name, *_ in entries(table) if re.fullmatch(r"E\d\d", name))) != numbers():
        print(f"{TABLE}: explains {explained}, and the sources number {numbers()}", file=sys.stderr)
        return 1
    with open(PAGE) as it, open(PAGE_OF_WHY) as of_why:
        page, lines = it.read(), of_why.read()
    if page.count(FIRST) != 1 or page.count(LAST) != 1:
        sys.exit(f"{PAGE}: the marks of the explanations must be there once")
    before, rest = page.split(FIRST)
    shown, after = rest.split(LAST)
    if words == ["--write"]:
        with open(PAGE, "w") as it:
            it.write(before + FIRST + expected + LAST + after)
    elif words:
        sys.exit(__doc__)
    elif shown != expected:
        print(f"{PAGE}: shows other explanations than {TABLE} has: tools/explained.py --write", file=sys.stderr)
        return 1
    if rows_untried := untried(lines):
        print(f"{PAGE_OF_WHY}: neither cases/why*.toml nor tools/calls.py expects these lines:", *rows_untried, sep="\n", file=sys.stderr)
        return 1
    print("explained: the page shows the explanations of the program, and lines that it prints")
    return 0


if __name__ == "__main__":
    sys.exit(main(sys.argv[1:]))
