#!/usr/bin/env python3
"""tools/editors.py: checks that the syntax files of editors/ colour declarations by the tokens of docs/formats/declaration.md.

The tokens of all examples, and of texts with literals and comments at their limits, are coloured by Vim itself (`vim -es`) and by the
TextMate grammar. For that grammar this has its own reader, which matches with Python's `re`, and also with Oniguruma, as VS Code does:
the grammar uses only what both know. A machine without Vim or Oniguruma is a fault: tools/system_packages.py installs both. ./gate runs
this before anything is built."""

import ctypes
import ctypes.util
import glob
import json
import os
import re
import subprocess
import sys
import tempfile

from declaration import TOKEN
from interpreter import BLOCKS, TOP, content
from system_packages import lacks

GRAMMAR = f"{TOP}/editors/vscode/syntaxes/fbsim.tmLanguage.json"
VIM = f"{TOP}/editors/vim"
TYPES = "BOOL SINT INT DINT LINT USINT UINT UDINT ULINT TIME".split()
FUNCTIONS = "MIN MAX ABS LIMIT SEL".split()
# The meaning of each colour of an editor: by the beginning of a TextMate scope, and by a group of Vim.
SCOPES = {
    "comment.": "comment", "keyword.operator.fbsim": None, "keyword.": "keyword", "constant.language": "truth", "constant.numeric.integer": "whole",
    "constant.numeric.time": "time", "support.type": "type", "support.class": "block", "support.function": "function", "entity.": None, "invalid.": "wrong",
}
GROUPS = {
    "Comment": "comment", "Todo": "comment", "Structure": "keyword", "Statement": "keyword", "Operator": "keyword", "Boolean": "truth", "Number": "whole",
    "Time": "time", "Type": "type", "Block": "block", "Function": "function", "Error": "wrong",
}
# Texts in which each `|` ends a piece, and the kinds of the pieces. A name, a sign and a blank have no colour.
EDGES = [
    ("t#5ms|;|Time#-1s|;|T#1d_2h3m4s_5ms|;|16#fF|;|2#1_0|;|1_000|..|8#17", "time,,time,,time,,whole,,whole,,whole,,whole"),
    ("T#|;|T#5|;|T#5s5m|;|T#5s_|;|1__0|;|2#2|;|5x|;|10#1|;|T#1m2m", "wrong,,wrong,,wrong,,wrong,,wrong,,wrong,,wrong,,wrong,,wrong"),
    ("(*) if *)|IF|(* a|*)|// (*|\nx1_IF |if", "comment,keyword,comment,comment,comment,,keyword"),
    ("(* a\nIF *)|eLsIf| TIMER |TIME| END_TIME |E_SR| E_SRX E_RS", "comment,keyword,,type,,block,"),
    ("MIN|(a, min); |sel| (LIMIT", "function,,function,"),
    ("IN : |INT|; ST: |INT|; |ALGORITHM| A |IN| |ST|: IN := |TRUE", ",type,,type,,keyword,,keyword,,keyword,,truth"),
]
DUMP = """
let found = []
for row in range(1, line('$'))
  for column in range(1, len(getline(row)))
    call add(found, row . ' ' . column . ' ' . synIDattr(synID(row, column, 1), 'name'))
  endfor
endfor
call writefile(found, $FOUND)
qall!
"""


def keywords():
    """Returns the keywords of docs/formats/declaration.md."""
    return re.search(r"^Keywords: ([^.]*)\.$", content(f"{TOP}/docs/formats/declaration.md"), re.M)[1].split()


def expected(text):
    """Returns the colour of each character of a text, by its tokens."""
    words, found, at = {*keywords()} - {*TYPES, "TRUE", "FALSE"}, [None] * len(text), 0
    tokens = []
    while at < len(text):
        one = TOKEN.match(text, at)
        at = one.end()
        tokens += [one] if one[0].strip() else []
    for place, one in enumerate(tokens):
        upper, after = one[0].upper(), [it[0].upper() for it in tokens[place + 1 : place + 3]]
        colour = "comment" if one[0][:2] in ("(*", "//") else "time" if one["time"] else "whole" if one["whole"] else None
        if one["name"]:
            kinds = {"type": TYPES, "truth": ("TRUE", "FALSE"), "keyword": words, "block": BLOCKS, "function": FUNCTIONS if after[:1] == ["("] else ()}
            colour = next((kind for kind, names in kinds.items() if upper in names), None)
            is_head = upper == "IN" and after == ["ST", ":"] or upper == "ST" and after[:1] == [":"] and tokens[place - 1][0].upper() == "IN"
            colour = "keyword" if is_head and colour is None else colour
        found[one.start() : one.end()] = [colour] * len(one[0])
    return found


def texts():
    """Returns each text with its name and the expected colours, a character each."""
    for path in sorted(glob.glob(f"{TOP}/examples/*/*.iec")):
        yield os.path.relpath(path, TOP), content(path), expected(content(path))
    every = "".join(f"{it};\n{it.lower()};\n" for it in [*keywords(), *BLOCKS])
    yield "all words", every, expected(every)
    for text, colours in EDGES:
        pieces, colours = text.split("|"), colours.split(",")
        assert len(pieces) == len(colours), (pieces, colours)
        yield repr(text), "".join(pieces), [colour or None for piece, colour in zip(pieces, colours) for _ in piece]


# ---- TextMate


class Oniguruma:
    """The library with which VS Code matches."""

    class Region(ctypes.Structure):
        _fields_ = [("allocated", ctypes.c_int), ("count", ctypes.c_int), ("start", ctypes.POINTER(ctypes.c_int)), ("end", ctypes.POINTER(ctypes.c_int))]

    def __init__(self, name):
        self.library = ctypes.CDLL(name)
        self.library.onig_region_new.restype = ctypes.POINTER(self.Region)
        self.region = self.library.onig_region_new()

    def compile(self, pattern):
        found, fault, given = ctypes.c_void_p(), ctypes.create_string_buffer(64), pattern.encode()
        whole = ctypes.create_string_buffer(given, len(given) + 1)
        start = ctypes.addressof(whole)
        utf8, syntax = (ctypes.byref(ctypes.c_char.in_dll(self.library, it)) for it in ("OnigEncodingUTF8", "OnigSyntaxOniguruma"))
        status = self.library.onig_new(ctypes.byref(found), ctypes.c_void_p(start), ctypes.c_void_p(start + len(given)), 0, utf8, syntax, fault)
        if status:
            raise ValueError(f"Oniguruma refuses {pattern}: {status}")
        return found

    def search(self, expression, text, at):
        """Returns the offsets of the first match and of its groups, or None. The text is ASCII."""
        held = ctypes.create_string_buffer(text.encode(), len(text) + 1)
        start, how = ctypes.addressof(held), ctypes.c_void_p
        last = how(start + len(text))
        if self.library.onig_search(expression, how(start), last, how(start + at), last, self.region, 0) < 0:
            return None
        them = self.region.contents
        return [(them.start[it], them.end[it]) for it in range(them.count)]


class Expressions:
    """Python's `re`, with the same two methods."""

    compile = staticmethod(re.compile)

    @staticmethod
    def search(expression, text, at):
        found = expression.search(text, at)
        return found and [found.span(it) for it in range(len(found.groups()) + 1)]


def textmate(matcher, grammar, text):
    """Returns the scope of each character: line by line, the rule that matches first counts, and of several the first in the list."""
    rules = [(it, matcher.compile(it.get("match") or it["begin"]), matcher.compile(it["end"]) if "end" in it else None) for it in grammar["patterns"]]
    scopes, inside = [], None
    for line in text.splitlines(keepends=True):
        found, at = [None] * len(line), 0
        while at < len(line):
            if inside:
                end = matcher.search(inside[2], line, at)
                upto = end[0][1] if end else len(line)
                found[at:upto] = [inside[0]["name"]] * (upto - at)
                at, inside = upto, None if end else inside
                continue
            hits = [(hit, rule) for rule in rules if (hit := matcher.search(rule[1], line, at))]
            if not hits:
                break
            hit, rule = min(hits, key=lambda it: it[0][0][0])
            start, at = hit[0]
            found[start:at] = [rule[0].get("name")] * (at - start)
            for number, it in rule[0].get("captures", {}).items():
                first, last = hit[int(number)]
                found[first:last] = [it["name"]] * (last - first)
            inside = rule if rule[2] else None
        scopes += found
    return [next((kind for head, kind in SCOPES.items() if it and it.startswith(head)), None) for it in scopes]


# ---- Vim


def vim(text):
    """Returns the colour of each character, as Vim has it."""
    with tempfile.TemporaryDirectory(prefix="vim-") as room:
        with open(f"{room}/it.iec", "w") as it:
            it.write(text)
        with open(f"{room}/dump.vim", "w") as it:
            it.write(DUMP)
        words = ["vim", "-es", "-N", "-u", "NONE", "-i", "NONE", "--cmd", f"set runtimepath^={VIM}", "-c", "filetype plugin on", "-c", "syntax on"]
        words += ["-c", "edit", "-S", f"{room}/dump.vim", f"{room}/it.iec"]
        subprocess.run(words, env={**os.environ, "FOUND": f"{room}/found", "HOME": room}, stdin=subprocess.DEVNULL, capture_output=True, timeout=60)
        rows = [it.split(" ") for it in content(f"{room}/found").splitlines()]
    starts = [0]
    for line in text.split("\n"):
        starts.append(starts[-1] + len(line) + 1)
    found = [None] * len(text)
    for row, column, group in rows:
        found[starts[int(row) - 1] + int(column) - 1] = GROUPS.get(group.removeprefix("fbsim"))
    return found


def differences(name, editor, text, due, colours):
    """Returns a line about the first character that has another colour. Blanks are ignored."""
    for place, (letter, want, have) in enumerate(zip(text, due, colours, strict=True)):
        if want != have and not letter.isspace():
            return [f"{name}: {editor}, line {text.count(chr(10), 0, place) + 1}: {text[place:place + 20]!r} is {have}, and not {want}"]
    return []


def main():
    """Checks all texts and returns the status."""
    library = ctypes.util.find_library("onig")
    if not library:
        print("Oniguruma is missing: install the system package libonig5 (tools/system_packages.py)")
    if lacks("vim", "vim") or not library:
        return 1
    grammar, onig, given = json.loads(content(GRAMMAR)), Oniguruma(library), [*texts()]
    ways = {
        "TextMate by Python's re": lambda text: textmate(Expressions, grammar, text),
        "TextMate by Oniguruma": lambda text: textmate(onig, grammar, text),
        "Vim": vim,
    }
    faults = [fault for place, text, due in given for editor, way in ways.items() for fault in differences(place, editor, text, due, way(text))]
    for it in faults:
        print(f"editors: {it}", file=sys.stderr)
    print(f"editors: {len(faults)} faults in {len(given)} texts, coloured by {', '.join(ways)}")
    return int(bool(faults))


if __name__ == "__main__":
    sys.exit(main())
