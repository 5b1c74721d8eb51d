#!/usr/bin/env python3
"""tools/memory_answers.py [--write]: checks where the sources make an answer "out of memory" or "file fault" of their own.

A contract can't say that a request for memory was refused, or that a reader failed: so a body may give such an answer for any input. Nearly all
functions pass on what one that they call answered. This lists each place in a body, outside tests, that makes such an answer, and compares
the list with tools/memory_answers.toml. That file says for each function what was refused there. A place that the file lacks, or one that is
no longer there, is a fault. The table of docs/maintain/PROOFS.md, "Out of memory without a refused request", is made from the rows with `never`;
--write writes it. ./gate runs the check.

A place is an expression with a name of `MEMORY` or `FILE`. No place is a pattern or a comparison, an arm of a `match` each of whose
patterns has such a name itself, or a `from` of an `AllocError`: they pass an answer on."""

import re
import sys
import tomllib
from typing import NamedTuple

import functions
from kit import TOP, crates_as_built

DATA = f"{TOP}/tools/memory_answers.toml"
PAGE = f"{TOP}/docs/maintain/PROOFS.md"
HEAD = "| place | for what | why it does not come | looked for by |\n|---|---|---|---|\n"
MEMORY = re.compile(r"(?:\w+::)*(?:AllocError|\w+::(?:Memory|NoMemory|OutOfMemory))$")
FILE = re.compile(r"(?:\w+::)*(?:\w*(?:Fault|Error|Failure)::(?:Read|File|Folder)|PartFault::(?:First|Second))$")
TOKEN = re.compile(r"""//[^\n]*|/\*.*?\*/|b?"(?:\\.|[^"\\])*"|b?'(?:\\.[^']*|[^'\\])'|'\w+|(?:\w+::)*\w+|=>|==|!=|->|<=|>=|\S""", re.S)
OPENS, CLOSES = {"(": ")", "[": "]", "{": "}"}, {")", "]", "}"}


class Place(NamedTuple):
    """A place that makes an answer: its function, as crate::module::Type::function, its file and line, and the name of the answer."""

    function: str
    file: str
    line: int
    answer: str


class Token(NamedTuple):
    text: str
    line: int


def tokens_of(text, first):
    """Returns the tokens of a source text without its comments. Its first line has the given number."""
    found = []
    for it in TOKEN.finditer(text):
        if not it[0].startswith(("//", "/*")):
            found.append(Token(it[0], first + text.count("\n", 0, it.start())))
    return found


def closing(tokens, at):
    """Returns the place of the bracket that closes the one at this place."""
    depth = 0
    for place in range(at, len(tokens)):
        depth += (tokens[place].text in OPENS) - (tokens[place].text in CLOSES)
        if not depth:
            return place
    return len(tokens) - 1


def kind_of(name):
    """Returns which answer a name is, or None."""
    return "memory" if MEMORY.match(name) else "file" if FILE.match(name) else None


def is_compared(tokens, at):
    """Says whether the name at this place is compared, or the pattern of an `if let` or of a `let`."""
    if at and tokens[at - 1].text in ("==", "!="):
        return True
    place = at + 1
    while place < len(tokens) and tokens[place].text == ")":
        place += 1
    return place < len(tokens) and tokens[place].text in ("=", "==", "!=")


def arms(tokens, first, last):
    """Yields the arms of a `match` between its braces: the places of its pattern, and those of its expression."""
    at = first
    while at < last:
        start = at
        while at < last and tokens[at].text != "=>":
            at = closing(tokens, at) + 1 if tokens[at].text in OPENS else at + 1
        arrow, at = at, at + 1
        if at < last and tokens[at].text == "{":
            at = closing(tokens, at) + 1
        else:
            while at < last and tokens[at].text != ",":
                at = closing(tokens, at) + 1 if tokens[at].text in OPENS else at + 1
        yield range(start, arrow), range(arrow + 1, at)
        if at < last and tokens[at].text == ",":
            at += 1


def alternatives(tokens, pattern):
    """Yields the kinds of answers in each alternative of a pattern."""
    kinds = set()
    for place in pattern:
        if tokens[place].text == "|":
            yield kinds
            kinds = set()
        kinds.add(kind_of(tokens[place].text))
    yield kinds


def no_answers(tokens):
    """Returns the places of names that are patterns, or in an arm each of whose alternatives has an answer of the same kind."""
    found = set()
    for at, it in enumerate(tokens):
        if it.text != "match":
            continue
        brace = next((place for place in range(at, len(tokens)) if tokens[place].text == "{"), None)
        for pattern, expression in arms(tokens, brace + 1, closing(tokens, brace)) if brace else ():
            found.update(pattern)
            same = set.intersection(*alternatives(tokens, pattern))
            found.update(place for place in expression if kind_of(tokens[place].text) in same - {None})
    return found


def made_in(tokens):
    """Returns the tokens that make an answer in the body of a function."""
    others = no_answers(tokens)
    found = [at for at, it in enumerate(tokens) if kind_of(it.text) and at not in others and not is_compared(tokens, at)]
    # (a type, in angle brackets)
    return [tokens[at] for at in found if tokens[at - 1].text != "<" and (at + 1 == len(tokens) or tokens[at + 1].text != ">")]


def body_of(lines, it):
    """Returns the tokens of a function's body."""
    tokens = tokens_of("\n".join(lines[it.named - 1 : it.last]), it.named)
    # A clause may have braces of its own, after `requires`, `ensures` and the like: the body is the last group of braces.
    last, at = len(tokens) - 1, 0
    while at < last and not (tokens[at].text == "{" and closing(tokens, at) == last):
        at = closing(tokens, at) + 1 if tokens[at].text in OPENS else at + 1
    return tokens[:at], tokens[at:]


def is_conversion(it, head):
    """Says whether a function is the conversion of an AllocError."""
    return it.name == "from" and any(token.text == "AllocError" for token in head)


def places_of(crate):
    """Returns the places of a crate that make an answer."""
    sources, found = functions.Sources(crate), []
    for path, its in sources.functions.items():
        text = sources.texts[path]
        if not path.startswith("src/") or "#[test]" in text:
            continue
        lines = text.split("\n")
        for it in its:
            head, body = body_of(lines, it)
            if not is_conversion(it, head):
                found += [Place(f"{crate.name}::{it.path_in_crate()}", f"crates/{crate.name}/{path}", token.line, token.text) for token in made_in(body)]
    return found


def rows_of(data):
    """Returns the rows of the file by their functions."""
    return {function: row for group in data["answers"] for function in group["functions"] for row in [group]}


def compared(places, data):
    """Returns the faults of the file against the places."""
    rows, made, faults = rows_of(data), {}, []
    for it in places:
        made.setdefault(it.function, []).append(it)
    for function, its in made.items():
        row = rows.get(function)
        if row is None:
            faults += [f"{it.file}:{it.line}: {function} makes {it.answer}: tools/memory_answers.toml lacks what was refused" for it in its]
        elif sorted(it.answer for it in its) != sorted(row["makes"]):
            at = ", ".join(f"{it.answer} in line {it.line}" for it in its)
            faults.append(f"{its[0].file}: {function} makes {at}: tools/memory_answers.toml has {', '.join(row['makes'])}")
    faults += [f"tools/memory_answers.toml: {function} makes no such answer" for function in rows if function not in made]
    listed = [it for group in data["answers"] for it in group["functions"]]
    return faults + [f"tools/memory_answers.toml: {it} is there twice" for it in sorted({it for it in listed if listed.count(it) > 1})]


def shown(functions_of_row):
    """Returns the functions of a row as PROOFS names them: each crate once, and the last two names of each function."""
    crates = {}
    for it in functions_of_row:
        crate, *names = it.split("::")
        crates.setdefault(crate, []).append("`" + "::".join(names[-2:]) + "`")
    return "; ".join(f"`{crate}`: {', '.join(names)}" for crate, names in crates.items())


def table(data):
    """Returns the table of PROOFS."""
    rows = [it for it in data["answers"] if "never" in it]
    return HEAD + "".join(f"| {shown(it['functions'])} | {it['refused']} | {it['never']} | {it['tried']} |\n" for it in rows)


def with_table(page, data):
    """Returns the page with this table in place of the one that it has."""
    start = page.index(HEAD)
    end = re.compile(r"^(?!\|)", re.M).search(page, start).start()
    return page[:start] + table(data) + page[end:]


def main(*words):
    """Checks, or writes the table, and returns the status."""
    with open(DATA, "rb") as it:
        data = tomllib.load(it)
    crates = [it for it in crates_as_built() if not it.name.endswith("_tests")]
    places = [place for it in crates for place in places_of(it)]
    with open(PAGE, encoding="utf-8") as it:
        page = it.read()
    if words == ("--write",):
        with open(PAGE, "w", encoding="utf-8") as it:
            it.write(with_table(page, data))
        return 0
    faults = compared(places, data)
    if with_table(page, data) != page:
        faults.append("docs/maintain/PROOFS.md: its table is another: tools/memory_answers.py --write")
    print(*faults, sep="\n", end="\n" * bool(faults))
    print(f"memory_answers: {len(places)} places of {len({it.function for it in places})} functions make such an answer, {len(faults)} faults", flush=True)
    return int(bool(faults))


if __name__ == "__main__":
    sys.exit(main(*sys.argv[1:]))
