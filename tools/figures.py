"""The figures of README.md and CONTRIBUTING.md, compared with their sources. tools/documents.py prints the faults.

- Each amount of time or memory, and each factor of speed, has a date in its paragraph, or in the one before or after its table: it
  was measured then.
- The rows of README's table of speed are those of bench/README.md, rounded, with the same commit and date.
- The minutes of the gate are those of a row of bench/README.md with the same date, and those of the install are those there.
- The lines of model in README's table of other simulators are those of bench/peers.
- Numbers of crates, stored cases and wrong implementations are those that there are.
- The kit is the one that NOTICE names."""

import functools
import glob
import re
from importlib.machinery import SourceFileLoader
from importlib.util import module_from_spec, spec_from_loader

from cases import cases_of
from kit import TOP

PAGES = ("README.md", "CONTRIBUTING.md")
SPEED = "bench/README.md"
DATE = re.compile(r"\b20\d\d-\d\d-\d\d\b")
NUMBER = r"(?:\d[\d,.]*|two|three|four|five|six|seven|eight|nine|ten|twenty)"
UNIT = r"(?:minutes|seconds|s|hours|GB|MB|(?:million )?lines a second|times as (?:long|fast|much))"
AMOUNT = re.compile(rf"\b{NUMBER}(?: to {NUMBER})? (?:processor )?{UNIT}\b|\b(?:a|an) (?:minute|hour)\b")
COUNT = re.compile(r"\b(\d[\d,]*) (crates|stored cases|wrong implementations)\b")
TABLE = re.compile(r"^\| application \| ticks \|(.*)\|\n\|[-|]+\|\n((?:\|.*\|\n)+)", re.M)
PEERS = re.compile(r"^\| \|(.*)\|\n\|[-|]+\|\n((?:\|.*\|\n)+)", re.M)
MEASURED = re.compile(r"at\s+commit\s+([0-9a-f]{8})\s+on\s+(20\d\d-\d\d-\d\d)")
OF_GATE = re.compile(r"took\s+(\d+)\s+minutes\s+on\s+four\s+processors\s+\((20\d\d-\d\d-\d\d)\)")
ROW_OF_GATE = re.compile(r"^\| [0-9a-f]{8} \| (20\d\d-\d\d-\d\d) \| (\d+) \|", re.M)
INSTALL = re.compile(r"(\d+)\s+minutes\s+on\s+four\s+processors\s+and\s+(\d+)\s+on\s+two")
KIT = re.compile(r"rattle-kit-\w+")


def text_of(page):
    with open(f"{TOP}/{page}", encoding="utf-8") as it:
        return it.read()


def undated(page, text):
    """Yields the amounts of a page whose paragraph has no date. A table has the date of the paragraph before or after it."""
    parts = re.sub(r"^```.*?^```$", "", text, flags=re.M | re.S).split("\n\n")
    for place, part in enumerate(parts):
        near = parts[max(place - 1, 0) : place + 2] if part.startswith("|") else [part]
        if not any(DATE.search(it) for it in near):
            yield from (f"{page}: '{' '.join(it[0].split())}' has no date" for it in AMOUNT.finditer(part))


@functools.cache
def counts():
    """Returns how many crates, stored cases and wrong implementations there are."""
    cases = sum(len(cases_of(it)) for it in glob.glob(f"{TOP}/cases/*.toml"))
    edits = len(glob.glob(f"{TOP}/crates/*/must-fail/*.edit"))
    return {"crates": len(re.findall(r"^\w.*:", text_of("crates.txt"), re.M)), "stored cases": cases, "wrong implementations": edits}


def rows(page):
    """Returns the rows of a page's table of speed: the seconds of each column by application and ticks."""
    columns, found = TABLE.search(text_of(page)).groups()
    names, by_application = [it.strip() for it in columns.split("|")], {}
    for row in found.splitlines():
        first, ticks, *cells = [it.strip() for it in row.strip("|").split("|")]
        by_application[re.match(r"`(\w+)`", first)[1], ticks] = dict(zip(names, cells))
    return by_application


def speed_faults():
    """Yields what README's table has that is not in that of bench/README.md."""
    of_page, source = rows("README.md"), rows(SPEED)
    if MEASURED.findall(text_of("README.md")) != MEASURED.findall(text_of(SPEED))[:1] or "best of seven" not in text_of("README.md"):
        yield "README.md: the table of speed has not the commit and the date of bench/README.md, or not 'best of seven'"
    for key, cells in of_page.items():
        for column, seconds in cells.items():
            known = source.get(key, {}).get(column)
            if known is None or abs(float(known) - float(seconds)) > 0.0051:
                yield f"README.md: {' '.join(key)}, {column}: {seconds}, where bench/README.md has {known}"


def peer_faults():
    """Yields the lines of model in README's table of other simulators that are not those of bench/peers."""
    loader = SourceFileLoader("peers", f"{TOP}/bench/peers")
    peers = module_from_spec(spec_from_loader("peers", loader))
    loader.exec_module(peers)
    simulators, found = PEERS.search(text_of("README.md")).groups()
    names = [it.strip() for it in simulators.split("|")]
    shown = {(cells[0], which): int(cell.split(", ")[2]) for cells in ([it.strip() for it in row.strip("|").split("|")] for row in found.splitlines()) for which, cell in zip(names, cells[1:])}
    known = {(model, which): lines for model in peers.IN_A_TICK for which, lines in peers.sizes(model).items()}
    for key in sorted({*shown, *known}):
        if shown.get(key) != known.get(key):
            yield f"README.md: {' '.join(key)}: {shown.get(key)} lines of model, where bench/peers has {known.get(key)}"


def faults():
    """Returns the faults of all figures."""
    found, known, kits = [*speed_faults(), *peer_faults()], counts(), set(KIT.findall(text_of("NOTICE")))
    of_page, source = (INSTALL.findall(text_of(it)) for it in ("README.md", SPEED))
    found += [] if of_page and of_page == source else [f"README.md: the minutes of the install are {of_page}, where bench/README.md has {source}"]
    gates = {(minutes, date) for date, minutes in ROW_OF_GATE.findall(text_of(SPEED))}
    for page in PAGES:
        text = text_of(page)
        found += undated(page, text)
        found += [f"{page}: '{it[0]}', where there are {known[it[2]]:,}" for it in COUNT.finditer(text) if it[1] != f"{known[it[2]]:,}"]
        found += [f"{page}: the gate took {it[0]} minutes on {it[1]}, which bench/README.md does not have" for it in OF_GATE.findall(text) if it not in gates]
        found += [f"{page}: {it}, where NOTICE has {', '.join(kits)}" for it in {*KIT.findall(text)} - kits]
    return found
