#!/usr/bin/env python3
"""tools/cases.py [--program PROGRAM] [FILE..]: runs the built program on the stored cases of cases/*.toml, or of these files.

A case has inputs and an answer: what the program must write, or how it must refuse. The inputs are a declaration, with a deployment,
stimuli and a trace if it needs them, or rules and a trace, or two texts. The answers were worked out by hand; each file says from
what. None comes from the program's output.

A file has named texts under `[text]`, and groups of cases, `[[group]]`. A group takes what it lacks from `[head]`, if the file has
one. A group has
- `name`: what its cases show
- `command`: `check` (the default), `run`, `wave`, `draw`, `expect`, `diff`, `inspect`, `coverage` or `session`
- `declaration`, `deployment`, `stimuli` and `trace`: the texts that the program reads; the last three are optional
- `block_types` and `more_block_types`: block types in files of their own, which are read before the declaration, in this order; both are optional
- `options`: further words
- `rules` and `trace` of `expect`, with a `second_trace` if there are two, and a `declaration` and a `deployment` if its names must be known; `first` and `second` of `diff`
- `commands` of `session`: the text on standard input; its answer is all that the session writes
- `horizon`, `steps` and `form`: the numbers of a `run`; the other commands have none
- `answer`: `accepted`, `same`, a refusal as the program prints it (`E20`, `E03 line 4`, `trace line 3`), or a trace, a dump, a report
  or a difference, to the byte. The text that the program gets on standard input is called `-`, the first one of `diff` `FIRST`, `block_types` and `more_block_types`
  `TYPES` and `MORE`, the deployment `DEPLOY`, and the rules `RULES`
- `why`: the line after the refusal, or after a run that stops, for `--why`. The source line with a mark follows a line that begins with a place
- `lint`: the warnings about what is accepted, for `--lint`
- `rows`: one case each; a group without rows is one case. A row is the list of its values by `columns`, by default `text` and
  `answer`. A row that is only a text has that as its first value, and no others. A column with the name of a field above is that field
- `within`: `columns` and `rows` again. Each case is tried with each of these rows
- `text`: named texts of its own, like those of the file
- `bytes`: true if each character of the texts means the byte with its number

In a text `${name}` is replaced by the value of the column or by the text of that name. A value is one of
- a text or a number
- a list `[before, inside, after, times]`: the text inside, with the other two repeated that many times before and after it
- `{ numbered = text, from = first, to = last }`: the text once for each number, which is `${number}` in it, and `${below}` is one
  less. With `by = -1` the numbers fall

A run is made with `--serial` and with several numbers of workers. ./gate tries all cases each time it has run the program. Without
./gate they are tried with the program that ./simulate built."""

import glob
import hashlib
import os
import re
import sys
import threading
import tomllib
from typing import NamedTuple

from kit import TOP
from program import Room, side_by_side
from source_lines import LaterText, with_source

PROGRAM = "fbsim"
SHOWN = 10
WAYS = {
    "check": [[]],
    "run": [["--serial"], *(["--workers", count] for count in ("1", "2", "7", "64"))],
    "wave": [[]],
    "draw": [[]],
    "expect": [[]],
    "diff": [[]],
    "inspect": [[]],
    "coverage": [[]],
    "session": [[]],
}
# The text of a case that is given on standard input, and the others with the words before each.
INPUT = {"expect": "trace", "diff": "second", "session": "commands"}
FILES = {"block_types": ["--types"], "more_block_types": ["--types"], "deployment": ["--deploy"], "stimuli": ["--stim"], "trace": [], "second_trace": []}
FILES_OF = {
    "expect": {"rules": [], "declaration": ["--decl"], "deployment": ["--deploy"]},
    "diff": {"first": []},
    "session": {"declaration": [], "block_types": ["--types"], "deployment": ["--deploy"], "stimuli": ["--stim"]},
}
# The commands with a file that is standard input.
READERS = {"expect", "diff"}
CALLED = {"rules": b"RULES", "block_types": b"TYPES", "more_block_types": b"MORE", "deployment": b"DEPLOY", "stimuli": b"STIM", "trace": b"TRACE", "second_trace": b"SECOND"}
NUMBERS = {"horizon": "--horizon", "steps": "--steps", "form": "--trace"}
FIELDS = {"declaration", "commands", "answer", "why", "lint", "rules", "options", "first", "second", *FILES, *NUMBERS}
OF_GROUP = {"name", "command", "rows", "columns", "within", "text", "bytes", *FIELDS}
REFUSAL = re.compile(r"E[0-4][0-9]|E03 ((TYPES|MORE|-) )?line [1-9][0-9]*|trace ((-|TRACE|SECOND) )?line [1-9][0-9]*")
NAMED = re.compile(r"\$\{(\w+)\}")


class Case(NamedTuple):
    """One case: its name, and its fields as bytes."""

    place: str
    command: str
    fields: dict


def text_of(piece, names):
    """Returns the text of a value of a file."""
    if isinstance(piece, int):
        return str(piece)
    if isinstance(piece, str):
        return NAMED.sub(lambda it: text_of(names[it[1]], names), piece)
    if isinstance(piece, dict):
        first, last = (int(text_of(piece[it], names)) for it in ("from", "to"))
        by = piece.get("by", 1)
        return "".join(text_of(piece["numbered"], {**names, "number": it, "below": it - 1}) for it in range(first, last + by, by))
    before, inside, after, times = (text_of(it, names) for it in piece)
    return before * int(times) + inside + after * int(times)


def rows_of(table, columns):
    """Returns the rows of a table, each as its values by the names of the columns."""
    names = table.get("columns", columns)
    rows = [[it] if isinstance(it, str) else it for it in table.get("rows", [[]])]
    wrong = [it for it in rows if len(it) > len(names)]
    if wrong or not rows:
        raise ValueError(f"these rows have not the columns {names}: {wrong}")
    return [dict(zip(names, it)) for it in rows]


def cases_of_group(group, texts):
    """Returns the cases of a group."""
    unknown = group.keys() - OF_GROUP
    if unknown:
        raise ValueError(f"a group has no {sorted(unknown)}")
    encoding = "latin-1" if group.get("bytes") else "utf-8"
    found = []
    for number, row in enumerate(rows_of(group, ["text", "answer"]), 1):
        for turn, around in enumerate(rows_of(group.get("within", {}), []), 1):
            names = {**texts, **group.get("text", {}), **around, **row}
            fields = {it: group[it] for it in FIELDS & group.keys()} | {it: row[it] for it in FIELDS & row.keys()}
            fields = {it: text_of(piece, names).encode(encoding) for it, piece in fields.items()}
            needed = INPUT.get(group.get("command"), "declaration")
            if not {needed, "answer"} <= fields.keys():
                raise ValueError(f"row {number} has no {needed} or no answer")
            place = f"row {number}" + f" within row {turn}" * ("within" in group) + "".join(f" ({it!r:.60})" for it in [*row.values()][:1])
            found.append(Case(place, group.get("command", "check"), fields))
    return found


def cases_of(path):
    """Returns the cases of a file."""
    with open(path, "rb") as it:
        read = tomllib.load(it)
    found = []
    for group in read["group"]:
        try:
            cases = cases_of_group(read.get("head", {}) | group, read.get("text", {}))
        except (KeyError, TypeError, ValueError) as fault:
            sys.exit(f"{path}, {group.get('name')!r}: {type(fault).__name__} {fault}")
        found += [it._replace(place=f"{os.path.basename(path)}, {group['name']!r}, {it.place}") for it in cases]
    return found


def texts_of(fields):
    """Returns the text of each file of a case, by the name that the messages get."""
    texts = {b"-": fields.get("declaration", b""), **{name: fields[field] for field, name in CALLED.items() if field in fields}}
    if "block_types" in fields:
        texts |= {name: LaterText(texts[name]) for name in (b"-", b"MORE") if name in texts}
    return texts


def expected_result(case):
    """Returns the status, standard output and standard error."""
    fields, answer = case.fields, case.fields["answer"]
    texts = texts_of(fields)
    if REFUSAL.fullmatch(answer.decode("latin-1")):
        return 2, b"", b"refused " + answer + b"\n" + with_source(fields.get("why", b""), texts)
    if answer == b"accepted":
        return 0, b"accepted\n", fields.get("lint", b"")
    if answer == b"same":
        return 0, b"", b""
    if answer.startswith((b"TAP ", b"<?xml ")):
        return int(b"\nnot ok " in answer or b"<failure " in answer), answer, b""
    if answer.startswith(b"line "):
        return 1, answer, b""
    stops = {"run": answer.split(b"\n")[-2].startswith(b"stop "), "session": b"\nstop " in b"\n" + answer}
    is_stop = stops.get(case.command, False)
    return int(is_stop), answer, with_source(fields.get("why", b""), texts)


def shown(status, wrote, errors):
    """Returns how a call ended, as a line can show it."""
    short = [repr(it) if len(it) <= 400 else f"{len(it)} bytes {it[:200]!r} .. {it[-100:]!r}" for it in (wrote, errors)]
    return f"status {status}, wrote {short[0]}, standard error {short[1]}"


def kept_text(room, text):
    """Writes a text into the room, and returns the name of its file."""
    name = hashlib.sha256(text).hexdigest()
    path = f"{room.folder}/{name}"
    if not os.path.exists(path):
        # (another case may write the same text at this moment)
        own = f"{path}-{threading.get_ident()}"
        with open(own, "wb") as it:
            it.write(text)
        os.replace(own, path)
    return name


def words_of(room, case):
    """Returns the words of the call, and writes the files that they name."""
    files = FILES_OF.get(case.command, FILES)
    named = [[*files[it], kept_text(room, case.fields[it])] for it in files if it in case.fields]
    words = [case.command, *(["-"] if files is FILES else []), *sum(named, []), *(["-"] if case.command in READERS else [])]
    if case.command == "expect" and "second_trace" in case.fields:
        words.append(kept_text(room, case.fields["second_trace"]))
    for field in [it for it in NUMBERS if it in case.fields and case.command == "run"]:
        words += [NUMBERS[field], case.fields[field].decode()]
    return words + case.fields.get("options", b"").decode().split() + ["--why"] * ("why" in case.fields) + ["--lint"] * ("lint" in case.fields)


def fault_of(room, case):
    """Returns what is wrong with the result of a case, or None."""
    words, is_to_be = words_of(room, case), expected_result(case)
    for way in WAYS[case.command]:
        ran = room.call([*words, *way], case.fields[INPUT.get(case.command, "declaration")])
        written = ran.stdout.replace(words[1].encode(), b"FIRST") if case.command == "diff" else ran.stdout
        errors = ran.stderr
        for field, name in CALLED.items():
            if field in case.fields:
                errors = errors.replace(kept_text(room, case.fields[field]).encode(), name)
                written = written.replace(kept_text(room, case.fields[field]).encode(), name)
        came = (ran.returncode, written, errors)
        if came != is_to_be:
            return f"{case.place}, {' '.join([case.command, *way])}: expected {shown(*is_to_be)}; got {shown(*came)}"
    return None


def try_cases(program, cases, called="cases"):
    """Returns whether each of these cases, from the file of this name, has its answer."""
    with Room(program) as room:
        faults = [it for it in side_by_side(lambda case: fault_of(room, case), cases) if it]
    for it in faults[:SHOWN]:
        print(it)
    if len(faults) > SHOWN:
        print(f".. and {len(faults) - SHOWN} more")
    print(f"{called}: {len(cases) - len(faults)} of {len(cases)}", flush=True)
    return bool(cases) and not faults


def run_all(program, paths=()):
    """Returns whether each case of these files, or of all, has its answer."""
    paths = paths or sorted(glob.glob(f"{TOP}/cases/*.toml"))
    return try_cases(program, [case for path in paths for case in cases_of(path)])


if __name__ == "__main__":
    given = sys.argv[1:]
    made = given[1] if given[:1] == ["--program"] else f"{TOP}/crates/{PROGRAM}/out/{PROGRAM}"
    sys.exit(not run_all(os.path.abspath(made), given[2:] if given[:1] == ["--program"] else given))
