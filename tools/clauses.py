#!/usr/bin/env python3
"""tools/clauses.py [--write | --list]: counts the functions that have no clause about their result, by kinds.

Of such a function it is proved only that it keeps the rules of each Rattle function. docs/maintain/PROOFS.md, "Functions without a clause",
has the counts by kinds and says why, and README.md has the sum. This compares both; with --write it writes them, and with --list it prints
the functions. A method of a trait has the clauses of the trait. Tests, and the crates of tests, are not counted.
tools/documents.py runs this, and PROVED of a package has the counts."""

import functools
import re
import sys
from collections import Counter
from typing import NamedTuple

from functions import BLOCK, Sources, begin_of_body
from kit import TOP, crates_as_built, rtlib

PAGE, README = "docs/maintain/PROOFS.md", "README.md"
HEADING = "## Functions without a clause"
ENSURES = re.compile(r"^\s*ensures\b", re.M)
# A trait of the kit whose clause says nothing of an implementation that does not set this definition.
OPEN = {"From": "from_gives", "Display": "output"}
# The traits of the kit whose methods have clauses, of those that crates here implement.
OF_KIT = {"PartialEq", "PartialOrd", "Ord", "Comparable", "Read", "From", "Display"}
TRAIT_OF = re.compile(r"^impl\b(?:<.*?> (?=\w))?\s*(?:.*::)?(\w+)(?:<[^{]*>)? for ")
# The kinds in the order in which they are tried, each with files in which a function is of that kind, or its name.
TEXTS = "fb_why/|fb_read_positions/|fb_stop/|fb_lint/src/words|fb_text/src/keywords|fb_read/src/(cursor|expected|nesting)|fb_inspect/src/refused/|fbsim_session/src/(answer|command)|fbsim_command/src/(unknown_pattern|\\w*notes|located_stop|files)"
SPEED = "fb_phase/|fb_sim/src/(rounds|one_agenda|runs)|fb_agenda/src/(least|store)|fb_trace/src/merging|fb_window/src/job|fb_st/src/(compile_expr|slot_list)|fb_types/src/reference|fb_wave/src/table|fb_system/src/heads_of"
KINDS = (
    ("frees memory", None, {"drop", "discard"}),
    ("makes one error of another", None, {"from"}),
    ("makes texts for people", re.compile(TEXTS), {"fmt"}),
    ("is a guess, a count or a time", re.compile(SPEED), set()),
    ("makes an empty value, or gives its allocator", None, {"new", "nothing", "none_shown", "allocator", "alloc"}),
)
OTHERS = "others"


class Bare(NamedTuple):
    """A function without a clause about its result."""

    place: str
    line: int
    name: str
    kind: str


def head_of(lines, function):
    """Returns the lines of a function from its name to its body."""
    return "\n".join(lines[function.named - 1 : begin_of_body(lines, function) or function.last])


def impl_of(lines, function):
    """Returns the trait that the block of a function implements, or nothing, and the text of the block up to the function."""
    at = next((it for it in range(function.named - 1, -1, -1) if BLOCK.match(lines[it])), 0)
    found = TRAIT_OF.match(lines[at])
    return found[1] if found else "", "\n".join(lines[at : function.named - 1])


def promised_by(texts):
    """Returns the traits of these texts with their methods that have a clause, as pairs."""
    found = set()
    for text in texts:
        for name, body in re.findall(r"(?ms)^(?:pub(?:\([a-z]+\))? )?trait (\w+).*?\{\n(.*?)^\}", text):
            found |= {(name, method) for method, rest in re.findall(r"(?ms)^    (?:final )?fn (\w+)(.*?)(?=^    (?:final )?fn |\Z)", body) if ENSURES.search(rest)}
    return found


def kind_of(place, name):
    return next((kind for kind, files, names in KINDS if name in names or files and files.match(place)), OTHERS)


def has_clause(lines, function, promised):
    """Whether a function has a clause about its result, of its own or of its trait."""
    if ENSURES.search(head_of(lines, function)):
        return True
    trait, before = impl_of(lines, function)
    if trait in OPEN:
        return bool(re.search(rf"\bghost {OPEN[trait]}\b", before))
    return trait in OF_KIT or (trait, function.name) in promised


@functools.cache
def counted():
    """Returns how many functions there are, and those without a clause."""
    sources = {it.name: Sources(it) for it in crates_as_built() if not it.name.endswith("_tests")}
    promised = promised_by(text for it in sources.values() for text in it.texts.values())
    count, bare = 0, []
    for crate, it in sources.items():
        for path, functions in it.functions.items():
            if "/tests" in path:
                continue
            lines, count = it.texts[path].split("\n"), count + len(functions)
            place = f"{crate}/{path}"
            bare += [Bare(place, one.named, one.name, kind_of(place, one.name)) for one in functions if not has_clause(lines, one, promised)]
    return count, bare


def figures():
    """Returns the counts by kinds, in their order, and the number of all functions in hundreds."""
    count, bare = counted()
    of_kinds = Counter(it.kind for it in bare)
    return {it: of_kinds[it] for it in (*(kind for kind, _, _ in KINDS), OTHERS)}, f"{count // 100 * 100:,}"


def written(page, text):
    """Returns the text of one of the two pages with the figures as they are, or None if it has no place for one."""
    kinds, hundreds = figures()
    if page == README:
        text, found = re.subn(r"\b\d+( of more than )[\d,]+(\s+functions\s+have\s+no\s+clause)", rf"{sum(kinds.values())}\g<1>{hundreds}\g<2>", text)
        return text if found == 1 else None
    for kind, count in kinds.items():
        text, found = re.subn(rf"(?m)^(\| {re.escape(kind)} \| )\d+ \|", rf"\g<1>{count} |", text)
        if found != 1:
            return None
    return text


def faults():
    """Returns the pages whose figures are others."""
    found = []
    for page in (PAGE, README):
        text = rtlib.text_of(f"{TOP}/{page}")
        now = written(page, text)
        if now is None:
            found.append(f"{page}: it lacks a count of functions without a clause")
        elif now != text:
            found.append(f"{page}: the functions without a clause are others: tools/clauses.py --write")
    return found


def sentences():
    """Returns the lines about functions without a clause in the file PROVED of a package."""
    kinds, hundreds = figures()
    return [
        f"{sum(kinds.values())} of more than {hundreds} functions have no clause about their result:",
        *(f"{count:6}  {kind}" for kind, count in kinds.items()),
        "Of these it is proved only that no index is out of range, no sum overflows, and every loop ends.",
    ]


def main(words):
    """Compares, writes or lists, and returns the status."""
    if words == ["--list"]:
        print(*(f"{it.place}:{it.line}: {it.name}: {it.kind}" for it in sorted(counted()[1], key=lambda it: (it.kind, it.place))), sep="\n")
        return 0
    if words == ["--write"]:
        for page in (PAGE, README):
            with open(f"{TOP}/{page}", encoding="utf-8") as it:
                text = it.read()
            with open(f"{TOP}/{page}", "w", encoding="utf-8") as it:
                it.write(written(page, text) or text)
    found = faults()
    print(*found, *sentences(), sep="\n")
    return int(bool(found))


if __name__ == "__main__":
    sys.exit(main(sys.argv[1:]))
