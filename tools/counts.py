#!/usr/bin/env python3
"""tools/counts.py [--write]: counts what pages say of the repository's size, and finds counts that are no longer right.

- docs/ without docs/notes and docs/HELP.md has at most MOST_WORDS_OF_DOCS words.
- Where docs/maintain/CHANGING.md says that a `grep -rl ..` lists so many files, it does. Each worked example there changes as many files
  as the page says.
- The table of lines by layer in docs/maintain/ARCHITECTURE.md, and the crates over the bounds in CONTRIBUTING.md, are off by at most a
  twentieth. --write counts both anew.
- No more lines of src/ and specs/ are wider than 120 columns than CONTRIBUTING.md says. --write takes fewer in.

tools/documents.py calls this; the tables are renewed when they are off, not with each change."""

import datetime
import glob
import os
import re
import subprocess
import sys
from collections.abc import Iterator

from kit import TOP

MOST_WORDS_OF_DOCS = 62_000
CHANGING, ARCHITECTURE, CONTRIBUTING = "docs/maintain/CHANGING.md", "docs/maintain/ARCHITECTURE.md", "CONTRIBUTING.md"
# A listing of files, as in: `grep -rlw Permit crates/*/proofs` lists 11 files. Such a text has no quotation marks inside others.
LISTING = re.compile(r"`(grep -rl[^`]*)`\s+lists\s+(\d+)\s+files")
EXAMPLE = re.compile(r"`(cases/changes/\w+\.patch)` changes (\d+)\s+files")
# The most lines of src/ and the most files in it, folders not counted, with which a crate gets a feature more.
MOST_LINES, MOST_FILES = 5_000, 30
KINDS = {"src": "rt", "specs": "antt", "proofs": "antt"}
# The part by which a count may be off.
TOLERANCE = 0.05
TABLE = re.compile(r"^Lines on (\d{4}-\d\d-\d\d), by layer:\n\n(?:\|.*\n)+", re.M)
OVER = re.compile(r"^On (\d{4}-\d\d-\d\d)\s+these\s+are\s+over\s+it:\s+[^.]*\.\n", re.M)
# What CONTRIBUTING.md says of lines that are too wide.
WIDE = re.compile(r"^On (\d{4}-\d\d-\d\d),\s+[\d,]+\s+lines\s+of\s+`src/`\s+and\s+[\d,]+\s+of\s+`specs/`\s+are\s+wider.\n", re.M)
MOST_COLUMNS = 120
LAYER = re.compile(r"^ (.{14}) ((?:fb\w+)(?:, fb\w+)*)(?: .*)?$", re.M)


def text_of(place: str) -> str:
    with open(f"{TOP}/{place}", encoding="utf-8") as it:
        return it.read()


def word_faults() -> Iterator[str]:
    """Yields what is wrong if the pages have too many words."""
    pages = [it for it in glob.glob(f"{TOP}/docs/**/*.md", recursive=True) if not it.startswith(f"{TOP}/docs/notes/") and not it.endswith("/HELP.md")]
    words = sum(len(text_of(os.path.relpath(it, TOP)).split()) for it in pages)
    if words > MOST_WORDS_OF_DOCS:
        yield f"docs/ has {words} words, and is to have at most {MOST_WORDS_OF_DOCS}: leave out what is said twice"


def listed_by(command: str) -> int:
    """Returns how many files a `grep -rl` lists."""
    ran = subprocess.run(["sh", "-c", command], cwd=TOP, capture_output=True, text=True, check=False)
    return len(ran.stdout.splitlines())


def listing_faults() -> Iterator[str]:
    """Yields the counts of files of the page that are not right, and the page without a count."""
    page = text_of(CHANGING)
    listings, examples = LISTING.findall(page), EXAMPLE.findall(page)
    for command, count in listings:
        if (found := listed_by(command)) != int(count):
            yield f"{CHANGING}: `{command}` lists {found} files, not {count}"
    for place, count in examples:
        if (found := len(re.findall(r"^diff --git ", text_of(place), re.M))) != int(count):
            yield f"{CHANGING}: {place} changes {found} files, not {count}"
    patches = {os.path.relpath(it, TOP) for it in glob.glob(f"{TOP}/cases/changes/*.patch")}
    yield from (f"{CHANGING}: {it} is not named with its count of files" for it in sorted(patches - {place for place, _ in examples}))
    if not listings:
        yield f"{CHANGING}: no `grep -rl ..` lists files"


def texts_of(crate: str, kind: str) -> Iterator[str]:
    """Yields the texts of a crate's src, specs or proofs."""
    places = glob.glob(f"{TOP}/crates/{crate}/{kind}/**/*.{KINDS[kind]}", recursive=True)
    return (text_of(os.path.relpath(it, TOP)) for it in places if os.path.isfile(it))


def lines_of(crate: str, kind: str) -> int:
    """Returns the lines of a crate's src, specs or proofs."""
    return sum(it.count("\n") for it in texts_of(crate, kind))


def wide_lines(kind: str) -> int:
    """Returns how many lines of all crates are wider than MOST_COLUMNS."""
    return sum(len(line) > MOST_COLUMNS for text in texts_of("*", kind) for line in text.split("\n"))


def layers() -> dict[str, list[str]]:
    """Returns the crates of each layer of ARCHITECTURE's figure, from the top down, and those of tests."""
    found: dict[str, list[str]] = {}
    figure = text_of(ARCHITECTURE).partition("\n## Layers\n")[2].split("```")[1]
    name = ""
    for label, names in LAYER.findall(figure):
        name = label.strip() or name
        found.setdefault(name, []).extend(names.split(", "))
    known = {it for names in found.values() for it in names}
    of_tests = sorted({os.path.basename(it) for it in glob.glob(f"{TOP}/crates/*")} - known)
    return {**found, "tests": of_tests}


def table_of(day: str) -> str:
    """Returns the table of lines by layer."""
    rows = {name: [sum(lines_of(it, kind) for it in names) for kind in KINDS] for name, names in layers().items()}
    rows["all"] = [sum(column) for column in zip(*rows.values())]
    lines = [f"Lines on {day}, by layer:", "", "| layer | src | specs | proofs |", "|---|---|---|---|"]
    return "\n".join(lines + [f"| {name} | " + " | ".join(f"{it:,}" for it in row) + " |" for name, row in rows.items()]) + "\n"


def over_of(day: str) -> str:
    """Returns the sentence with the crates over a bound, wrapped."""
    found = []
    for folder in sorted(glob.glob(f"{TOP}/crates/*")):
        crate, files = os.path.basename(folder), len(glob.glob(f"{folder}/src/*.rt"))
        if (lines := lines_of(crate, "src")) > MOST_LINES or files > MOST_FILES:
            found.append(f"`{crate}` ({lines:,} lines, {files} files)")
    words = f"On {day} these are over it: {', '.join(found)}."
    # (a name and its parentheses may be apart, and each word is short)
    made: list[str] = []
    line = ""
    for word in words.split(" "):
        if len(line) + 1 + len(word) > 120:
            made, line = [*made, line], word
        else:
            line = f"{line} {word}".strip()
    return "\n".join([*made, line]) + "\n"


def wide_said(sentence: str) -> list[int]:
    """Returns what the sentence about lines that are too wide says: how many of src and of specs."""
    return [int(it.replace(",", "")) for it in re.findall(r"\b\d[\d,]*(?= lines| of)", sentence)]


def wide_of(day: str) -> str:
    """Returns the sentence about lines that are too wide, with the counts of now or, if they are less, those that it has."""
    shown = WIDE.search(text_of(CONTRIBUTING))
    now = [wide_lines("src"), wide_lines("specs")]
    src, specs = (min(pair) for pair in zip(now, wide_said(shown[0]) if shown else now))
    return f"On {day}, {src:,} lines of `src/` and {specs:,} of `specs/` are wider.\n"


def wide_faults() -> Iterator[str]:
    """Yields what is wrong with the count of lines that are too wide: it may only fall."""
    shown = WIDE.search(text_of(CONTRIBUTING))
    if not shown:
        yield f"{CONTRIBUTING}: does not say how many lines are wider than {MOST_COLUMNS} columns"
        return
    for kind, most in zip(("src", "specs"), wide_said(shown[0])):
        if (count := wide_lines(kind)) > most:
            yield f"{count - most} lines more of {kind}/ than before are wider than {MOST_COLUMNS} columns: break them"
        elif count < (1 - TOLERANCE) * most:
            yield f"{CONTRIBUTING}: only {count} lines of {kind}/ are wider than {MOST_COLUMNS} columns: tools/counts.py --write"


TABLES = ((ARCHITECTURE, TABLE, table_of), (CONTRIBUTING, OVER, over_of))


def are_near(shown: str, counted: str) -> bool:
    """Whether two texts are the same but for numbers that differ by the tolerance, or by less than 10."""
    number = re.compile(r"\d[\d,]*")
    if number.sub("0", " ".join(shown.split())) != number.sub("0", " ".join(counted.split())):
        return False
    pairs = zip(*([int(it.replace(",", "")) for it in number.findall(text)] for text in (shown, counted)))
    return all(abs(a - b) <= max(10, TOLERANCE * b) for a, b in pairs)


def table_faults() -> Iterator[str]:
    """Yields the pages whose counts are off."""
    for page, form, counted in TABLES:
        shown = form.search(text_of(page))
        if not shown or not are_near(shown[0], counted(shown[1])):
            yield f"{page}: the counts that begin with {counted('..').splitlines()[0][:20]!r} are off by more than a twentieth: tools/counts.py --write"


def faults() -> list[str]:
    return [*word_faults(), *listing_faults(), *table_faults(), *wide_faults()]


def write() -> None:
    """Counts the tables anew."""
    today = datetime.datetime.now(datetime.UTC).date().isoformat()
    for page, form, counted in (*TABLES, (CONTRIBUTING, WIDE, wide_of)):
        text, count = form.subn(lambda _, made=counted(today): made, text_of(page))  # type: ignore[misc]
        if count != 1:
            sys.exit(f"{page} has {count} tables of counts, and is to have one")
        with open(f"{TOP}/{page}", "w", encoding="utf-8") as it:
            it.write(text)


if __name__ == "__main__":
    if sys.argv[1:] == ["--write"]:
        write()
    elif sys.argv[1:]:
        sys.exit(__doc__)
    for one in faults():
        print(one)
