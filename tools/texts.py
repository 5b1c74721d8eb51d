#!/usr/bin/env python3
"""tools/texts.py [--program PROGRAM] [--list] [FILE..]: changes each text that the built program can print, and looks for a stored case
that fails.

The texts are the literals in the code of crates/*/src, without contracts and tests. Each place at which the code of the program refers to
one is changed by itself: it then refers to other bytes, so another text of the same length is printed. If no case fails, a byte of the text
is changed where it stands, and then where the function has it among the numbers of its instructions, by which it compares. So it is with
texts that the compiler put into instructions or copies in parts. Cases have these changes in memory (tools/served.py), calls in a copy of
the program. The cases are those of cases/*.toml, the calls of tools/calls.py, docs/HELP.md and the explanations. Each of them is first run
with break points at all these places (reached.c). For a place those are run that come by there, until one fails: first those that print
the text, then those that are given it, and most of the other texts of its file.

It lists the texts whose place no case reaches, and those of two bytes or more that are changed and no case fails. It counts those without a
place: they have three bytes or fewer. A single byte that is compared is a number of an instruction. tools/texts_unshown.toml has those of which this is no gap, with the reason. They are counted, and not listed. What it
has of texts that are no longer there, or for which a case fails, is listed.

./gate does not run this, since it takes long. With files it is about the texts of these alone. --list runs nothing: it lists the texts that
no case shows. Without --program it takes the program that ./simulate built. tools/texts_test.py tests this, in ./gate."""

import bisect
import glob
import heapq
import multiprocessing
import os
import re
import shutil
import struct
import subprocess
import sys
import tempfile
import tomllib
from collections import defaultdict
from contextlib import ExitStack
from typing import NamedTuple

import calls
import cases
import unbuilt
from kit import TOP, rt
from program import SECONDS, Room
from served import Served

PROGRAM = "fbsim"
# The most cases that are run for one change before the text counts as shown by none.
MOST_TRIED = 500
# The instruction that stops a program at a place (int3).
BREAK = 0xCC
# Outputs over this many bytes are traces, whose texts shorter ones have too.
MOST_SHOWN = 20_000
# Cases with more steps than this in a tick take seconds.
MOST_STEPS = 1_000_000
# A text of a file that a case has to have in common with a changed one, so that its code was probably reached, has this many bytes.
TELLING = 4
# The sections in which texts stand.
HOLDING = (".rodata", ".data.rel.ro")
# Where functions of more modules than this refer to, empty texts begin too.
MOST_MODULES = 5
# The least bytes of a text that is looked for among the numbers of instructions, and the most that one of these has.
LEAST, WORD = 4, 8
# The least bytes of a text that is looked for in comparisons with a number of two bytes, and the beginning of such an instruction.
SHORTEST, COMPARISON = 2, rb"\x66(?:\x3d|\x81[\xf8-\xff]|\x81[\x38-\x3f]|\x81[\x78-\x7f].)"
# Crates that print nothing, or only for tests.
SILENT = ("fb_tests",)
# The texts that no case has to show.
UNSHOWN = f"{TOP}/tools/texts_unshown.toml"

TOKEN = re.compile(
    r"""(?P<note>//[^\n]*)
    |(?P<text>b?"(?:\\.|[^"\\])*")
    |(?P<letter>b?'(?:\\.|[^'\\])')
    |(?P<clause>\b(?:requires|ensures\*?)(?=\s|\{)[^{]*\{)
    |(?P<ghost>\bghost\s+use\b[^;]*;)
    |(?P<message>\#\[error\([^\n]*)
    |(?P<tests>\#\[cfg\(test\)\])
    |(?P<name>\bfn\s+\w+)
    |(?P<macro>\b(?:format|write|writeln)!\()""",
    re.X | re.S,
)
# Whether an oracle failed, by the changes that were tried.
NOTICED = {}

ESCAPES = {"n": "\n", "r": "\r", "t": "\t", "0": "\0", "\\": "\\", '"': '"', "'": "'"}
ESCAPE = re.compile(r"\\(x[0-9a-fA-F]{2}|\n\s*|.)", re.S)
SLOT = re.compile(r"\{\{|\}\}|\{[^{}]*\}")


class Literal(NamedTuple):
    """A text of a source, or the part of one between two slots."""

    path: str
    line: int
    function: str
    text: bytes


class Use(NamedTuple):
    """A place of the program that refers to a text: the function's symbol, the literal, the changes of the program that show whether a
    case fails, each as an offset and the bytes that are written there, the address in the code at which a run that uses the text comes by,
    and whether it is sure."""

    symbol: str
    literal: Literal
    changes: list
    passed: int
    is_sure: bool


# ---- The texts of the sources.


def meant(escape):
    """Returns what an escape in a literal stands for. A line feed and the blanks after it stand for nothing."""
    it = escape[1]
    if it[0] == "x" and len(it) == 3:
        return chr(int(it[1:], 16))
    return "" if it[0] == "\n" else ESCAPES.get(it, it)


def plain(text):
    """Returns what a literal stands for."""
    return ESCAPE.sub(meant, text[text.index('"') + 1 : -1])


def end_of_braces(source, at):
    """Returns where the braces end that are open at this place."""
    depth = 1
    for it in re.compile(r'"(?:\\.|[^"\\])*"|[{}]').finditer(source, at):
        depth += {"{": 1, "}": -1}.get(it[0], 0)
        if not depth:
            return it.end()
    return len(source)


def end_of_item(source, at):
    """Returns where the item ends that follows this place."""
    found = re.compile(r"[{;]").search(source, at)
    return len(source) if not found else found.end() if found[0] == ";" else end_of_braces(source, found.end())


def literals_of(path, source):
    """Returns the texts of a source."""
    found, at, function, in_macro = [], 0, "", False
    while it := TOKEN.search(source, at):
        at = it.end()
        if it["clause"]:
            at = end_of_braces(source, at)
        elif it["tests"]:
            at = end_of_item(source, at)
        elif it["name"]:
            function = it["name"].split()[1]
        elif it["macro"]:
            in_macro = True
        elif it["text"]:
            line = source.count("\n", 0, it.start()) + 1
            whole = plain(it["text"])
            parts = parts_of(whole) if in_macro else [whole]
            found += [Literal(path, line, function, part.encode()) for part in parts if part]
            in_macro = False
    return found


def parts_of(whole):
    """Returns the parts of a text between its slots. A brace that is written twice is one of the text."""
    parts, at = [""], 0
    for it in SLOT.finditer(whole):
        parts[-1] += whole[at : it.start()]
        at = it.end()
        if it[0] in ("{{", "}}"):
            parts[-1] += it[0][0]
        else:
            parts.append("")
    parts[-1] += whole[at:]
    return parts


def all_literals(paths=()):
    """Returns the texts of all crates, or of these files."""
    found = []
    for path in paths or sorted(glob.glob(f"{TOP}/crates/*/src/**/*.rt", recursive=True)):
        relative = os.path.relpath(path, TOP)
        if relative.split(os.sep)[1] not in SILENT:
            with open(path, encoding="utf-8") as it:
                found += literals_of(relative, it.read())
    return found


# ---- Their places in the program.


class Elf:
    """The sections of a program, its relocations and the names of its functions."""

    def __init__(self, data):
        self.data, self.sections = data, {}
        at, size, count, names = struct.unpack_from("<Q", data, 40)[0], *struct.unpack_from("<HHH", data, 58)
        rows = [struct.unpack_from("<IIQQQQIIQQ", data, at + size * it) for it in range(count)]
        for row in rows:
            begin = rows[names][4] + row[0]
            # name: the address, the offset, the size
            self.sections[data[begin : data.index(b"\0", begin)].decode()] = (row[3], row[4], row[5])
        self.symbols = sorted(self.functions())
        self.begins = [it[0] for it in self.symbols]

    def functions(self):
        if ".symtab" not in self.sections:
            return
        _, at, size = self.sections[".symtab"]
        _, names, _ = self.sections[".strtab"]
        for it in range(at, at + size, 24):
            name, info, _, _, value, _ = struct.unpack_from("<IBBHQQ", self.data, it)
            if info & 15 == 2:
                begin = names + name
                yield value, self.data[begin : self.data.index(b"\0", begin)].decode(errors="replace")

    def symbol(self, address):
        """Returns the name of the function that an address is in."""
        at = bisect.bisect_right(self.begins, address) - 1
        return self.symbols[at][1] if at >= 0 else ""

    def begin(self, address):
        """Returns where the function begins that an address is in."""
        at = bisect.bisect_right(self.begins, address) - 1
        return self.begins[at] if at >= 0 else 0

    def is_code(self, address):
        begin, _, size = self.sections[".text"]
        return begin <= address < begin + size

    def offset(self, address):
        """Returns the offset of an address at which a text may stand, or None."""
        for name in HOLDING:
            begin, offset, size = self.sections.get(name, (0, 0, 0))
            if begin <= address < begin + size:
                return address - begin + offset
        return None

    def in_memory(self, at, new):
        """Returns the change of the loaded program that is that of an offset in the file: an address, and bytes or another address."""
        _, begin, size = self.sections[".rela.dyn"]
        if begin <= at < begin + size:
            return struct.unpack_from("<Q", self.data, at - (at - begin) % 24)[0], struct.unpack("<q", new)[0]
        return next((address + at - offset, new) for address, offset, size in self.sections.values() if address and offset <= at < offset + size)

    def references(self):
        """Returns each reference to constants: its target, the address of the reference, the offset and the form of its number."""
        begin, offset, size = self.sections[".text"]
        code = self.data[offset : offset + size]
        # lea of an address relative to the next instruction
        for it in re.finditer(rb"[\x48\x4c]\x8d[\x05\x0d\x15\x1d\x25\x2d\x35\x3d]", code):
            if it.start() + 7 <= size:
                at = it.start()
                target = begin + at + 7 + struct.unpack_from("<i", code, at + 3)[0]
                if self.offset(target) is not None:
                    yield target, begin + at, offset + at + 3, "<i"
        _, at, size = self.sections.get(".rela.dyn", (0, 0, 0))
        for it in range(at, at + size, 24):
            where, kind, target = struct.unpack_from("<QQq", self.data, it)
            if kind & 0xFFFFFFFF == 8 and self.offset(target) is not None:
                yield target, where, it + 16, "<q"


def tables(elf, references, known):
    """Returns the references in tables of distances to texts, which a compiler makes of a match. A table has the distances from itself."""
    starts = sorted({it[0] for it in references})
    for at, end in zip(starts, [*starts[1:], starts[-1] + 4]):
        offset = elf.offset(at)
        if at % 4 or offset is None:
            continue
        row = []
        for place in range(offset, offset + end - at - 3, 4):
            target = at + struct.unpack_from("<i", elf.data, place)[0]
            if elf.offset(target) is None or not texts_at(elf, target, known):
                break
            row.append((target, at, place, "<i"))
        if len(row) > 1:
            yield from row


def texts_at(elf, address, known):
    """Returns the texts that stand at an address, the longest first."""
    offset = elf.offset(address)
    if offset is None:
        return []
    sizes = known["sizes"]
    return [it for size in sizes if (it := elf.data[offset : offset + size]) in known["texts"]]


def module_of(path):
    """Returns the beginning of the symbols of a source's functions."""
    parts = path.removesuffix(".rt").split("/")
    return "::".join([parts[1], *[it for it in parts[3:] if it not in ("lib", "main")]])


def likeness(elf, starts, literal, address, symbol, place):
    """Returns how well a literal fits a reference: the function, the module, its length among the numbers of the code round the
    reference, the text's end at the beginning of another, the crate."""
    size = len(literal.text)
    near = elf.data[max(place - 43, 0) : place + 44]
    crate = literal.path.split("/")[1]
    return (
        symbol.startswith(module_of(literal.path)) and f"::{literal.function}" in symbol,
        symbol.startswith(module_of(literal.path)),
        struct.pack("<I", size) in near,
        address + size in starts,
        symbol.startswith(f"{crate}::"),
        size,
    )


def is_sure(fit):
    """Returns whether a literal is what a reference in the code is about."""
    _, in_module, is_near, is_whole, in_crate, size = fit
    return (in_module or (is_whole and (in_crate or size >= TELLING))) and (size >= TELLING or is_near or is_whole)


def crowded_addresses(elf, references):
    """Returns the addresses to which functions of many modules refer: the linker puts empty texts where another one begins."""
    modules = defaultdict(set)
    for target, where, _, form in references:
        if form == "<i":
            modules[target].add("::".join(elf.symbol(where).split("::")[:2]))
    return {target for target, them in modules.items() if len(them) > MOST_MODULES}


def length_at(elf, address):
    """Returns the number after a pointer in constants, which is the length of what it points to, if that is a text."""
    offset = elf.offset(address)
    return 0 if offset is None else struct.unpack_from("<Q", elf.data, offset + 8)[0]


def shifted(elf, address, size):
    """Returns how far from an address other bytes stand."""
    offset = elf.offset(address)
    text = elf.data[offset : offset + size]
    return next(it for it in (1, -1, 2, -2, 3, 4, 5, 6, 7, 8) if elf.data[offset + it : offset + it + size] != text)


def uses_of(data, literals):
    """Returns the places of a program at which it refers to these texts, or has them itself."""
    elf = Elf(data)
    by_text = defaultdict(list)
    for it in literals:
        by_text[it.text].append(it)
    known = {"texts": by_text, "sizes": sorted({len(it) for it in by_text}, reverse=True)}
    found = list(elf.references())
    found += tables(elf, found, known)
    starts, crowded = {it[0] for it in found}, crowded_addresses(elf, found)
    passing = passes(elf, found)
    uses, pointers = [], {where for _, where, _, form in found if form == "<q"}
    for target, where, place, form in found:
        texts = texts_at(elf, target, known)
        size = length_at(elf, where) if form == "<q" else 0
        if form == "<q" and not size and where + 8 not in pointers:
            continue  # an empty text, which begins where any other one does
        texts = [it for it in texts if len(it) == size] or texts
        if texts:
            symbol = elf.symbol(where) if form == "<i" else ""
            best = max((it for text in texts for it in by_text[text]), key=lambda it: likeness(elf, starts, it, target, symbol, place))
            fit = likeness(elf, starts, best, target, symbol, place)
            if len(best.text) != size and not (is_sure(fit) and (fit[2] or target not in crowded)):
                continue
            number = struct.unpack_from(form, data, place)[0] + shifted(elf, target, len(best.text))
            # (a reference may be read by no code any more, which then has the bytes themselves)
            changes = [(place, struct.pack(form, number)), changed_byte(best.text, elf.offset(target)), *compared(elf, best.text, where)]
            uses.append(Use(symbol, best, changes, *passing(where)))
    uses = without_libraries(uses, {it.path.split("/")[1] for it in literals})
    referred = {it.literal.text for it in uses}
    for text in by_text.keys() - referred:
        uses += copies(elf, by_text[text])
    return uses


def without_libraries(uses, crates):
    """Returns the uses without those in functions of libraries, of texts that a function of these crates uses too. There an empty text begins
    at the same address, or another one that begins with the same bytes."""
    is_own = [it.symbol.split("::")[0] in crates or "::" not in it.symbol for it in uses]
    texts = {it.literal.text for it, own in zip(uses, is_own) if own}
    return [it for it, own in zip(uses, is_own) if own or it.literal.text not in texts]


def changed_byte(text, at):
    """Returns the change of the first byte of a text at an offset."""
    return at, bytes([text[0] ^ 1])


def copies(elf, them):
    """Returns the places at which a program has a text to which nothing refers: it is copied in parts, or stands in instructions."""
    text = them[0].text
    if len(text) < LEAST:
        return []
    whole = re.escape(text)
    part = re.escape(text[:WORD] if len(text) >= WORD else text[:LEAST])
    found = []
    for name, sought in [*((it, whole) for it in HOLDING), (".text", part)]:
        begin, offset, size = elf.sections.get(name, (0, 0, 0))
        for it in re.finditer(sought, elf.data[offset : offset + size], re.S):
            symbol = elf.symbol(begin + it.start()) if name == ".text" else ""
            own = [one for one in them if symbol.startswith(module_of(one.path))] or them
            passed = elf.begin(begin + it.start()) if name == ".text" else 0
            found.append(Use(symbol, own[0], [changed_byte(text, offset + it.start())], passed, bool(passed)))
    return found


def compared(elf, text, where):
    """Returns the changes of a text where the function at an address has it among the numbers of its instructions, and compares by them."""
    if len(text) < SHORTEST or not elf.is_code(where):
        return []
    begin, offset, _ = elf.sections[".text"]
    first = elf.begin(where)
    last = elf.begins[bisect.bisect_right(elf.begins, where)] if where < elf.begins[-1] else where
    code = elf.data[first - begin + offset : last - begin + offset]
    part = next(text[:size] for size in (WORD, LEAST, SHORTEST) if len(text) >= size)
    sought = COMPARISON + re.escape(part) if len(part) < LEAST else re.escape(part)
    return [changed_byte(text, first - begin + offset + it.end() - len(part)) for it in re.finditer(sought, code, re.S)]


def passes(elf, references):
    """Returns a function from the address of a reference to the address in the code at which a run comes by that uses it, and whether that is
    sure. It is itself, or for one in constants the reference to the nearest constants before it, which are mostly the array that it is in."""
    rows = sorted((target, where) for target, where, *_ in references if elf.is_code(where))

    def passed(where):
        if elf.is_code(where):
            return where, True
        at = bisect.bisect_right(rows, (where, sys.maxsize)) - 1
        return (rows[at][1], False) if at >= 0 else (0, False)

    return passed


# ---- The cases that show them.


class Oracle(NamedTuple):
    """Something to run: its name, what it must print, the test of whether a program, in a room for it, does so, and what it is given."""

    name: str
    shown: bytes
    holds: object
    size: int
    given: bytes = b""


def of_case(case):
    _, wrote, errors = cases.expected_result(case)
    given = b" ".join([case.command.encode(), *case.fields.values()])
    return Oracle(case.place, wrote + errors, lambda rooms: cases.fault_of(rooms.cases, case) is None, len(given), given)


def of_call(call):
    shown = (call.out or b"") + (call.err or b"") + "\n".join(call.has).encode()
    size = len(shown) + 1000 * (call.memory is not None)
    name = f"calls.py, {' '.join(map(str, call.words))[:80]}"
    given = b" ".join([*map(os.fsencode, call.words), call.given])
    return Oracle(name, shown, lambda rooms: not calls.make(call, rooms.words, rooms.calls.room), size, given)


def of_words(words, shown):
    """Returns that these words print a text on standard output, and nothing else."""

    def holds(rooms):
        ran = rooms.cases.call(words)
        return (ran.returncode, ran.stdout, ran.stderr) == (0, shown, b"")

    return Oracle(" ".join(words), shown, holds, len(shown), " ".join(words).encode())


def printed_texts():
    """Returns the help of each command, and the explanations."""
    helps = {("--help",) if not it else (it, "--help"): text for it, text in unbuilt.helps().items()}
    explained = {("explain", it): text for it, text in unbuilt.explanations().items()}
    return [of_words([*words], text.encode()) for words, text in {**helps, **explained}.items()]


def is_long(case):
    """Returns whether a case takes many steps."""
    return int(case.fields.get("steps", b"0")) > MOST_STEPS


def has_pipe(call):
    """Returns whether a call reads a named pipe. A changed program may leave there what the next call reads."""
    return not calls.PIPES.keys().isdisjoint(call.words)


def oracles():
    """Returns all of them, but those with long outputs."""
    stored = [of_case(it) for path in sorted(glob.glob(f"{TOP}/cases/*.toml")) for it in cases.cases_of(path) if not is_long(it)]
    made = [of_call(it) for it in calls.CALLS if it.to == "pipe" and it.errors_to in ("pipe", "terminal") and not it.memory and not has_pipe(it)]
    return [it for it in [*stored, *made, *printed_texts()] if len(it.shown) <= MOST_SHOWN]


def watched(program, elf, addresses, folder):
    """Makes a copy of a program with break points at these addresses, in a folder. Returns it, and the settings for reached.c."""
    begin, offset, size = elf.sections[".text"]
    whole, copy = f"{folder}/whole", f"{folder}/{PROGRAM}"
    shutil.copyfile(program, whole)
    os.chmod(whole, 0o644)
    data = bytearray(elf.data)
    for it in addresses:
        data[it - begin + offset] = BREAK
    with open(copy, "wb") as it:
        it.write(data)
    os.chmod(copy, 0o755)
    return copy, [f"REACHED_WHOLE={whole}", f"REACHED_BEGIN={begin}", f"REACHED_AT={offset}", f"REACHED_SIZE={size}"]


def taken(path):
    """Returns the addresses that reached.c noted in a file, which is then gone."""
    if not os.path.exists(path):
        return set()
    with open(path, "rb") as it:
        came = it.read()
    os.remove(path)
    return {it for (it,) in struct.iter_unpack("<q", came)}


class WatchedRoom(Room):
    """A room whose program notes which places it reaches."""

    def __init__(self, program, settings):
        super().__init__(program)
        self.noted = f"{self.folder}/reached"
        self.watching = [*settings, f"REACHED_FILE={self.noted}", self.before("reached")]

    def run(self, command, given=b"", settings=(), seconds=SECONDS):
        return super().run(command, given, [*settings, *self.watching], seconds)


class Watched:
    """Rooms for cases and for calls with a program that has break points at some addresses."""

    def __init__(self, program, elf, addresses):
        self.kept = tempfile.TemporaryDirectory(prefix="watched-")
        os.chmod(self.kept.name, 0o755)
        copy, settings = watched(program, elf, addresses, self.kept.name)
        self.cases, self.calls = WatchedRoom(copy, settings), calls.Prepared(copy)

    def __enter__(self):
        self.cases.__enter__()
        prepared = self.calls.__enter__()
        self.words = [*(prepared.drop or []), "env", *self.cases.watching, prepared.program]
        return self

    def __exit__(self, *given):
        self.cases.__exit__(*given)
        self.calls.__exit__(*given)
        self.kept.cleanup()

    def reached(self, oracle):
        """Returns the addresses that a run of an oracle reaches."""
        oracle.holds(self)
        return taken(self.cases.noted)


class Rooms:
    """A program in memory, for cases, and a copy of it, for calls, in which the same bytes are changed."""

    def __init__(self, program, elf):
        self.cases, self.calls, self.elf = Served(program), calls.Prepared(program), elf

    def write(self, at, new):
        is_whole = self.elf.data[at : at + len(new)] == new
        self.cases.changes = [] if is_whole else [self.elf.in_memory(at, new)]
        with open(self.calls.program, "r+b") as it:
            it.seek(at)
            it.write(new)

    def __enter__(self):
        self.cases.__enter__()
        self.words = self.calls.__enter__().words
        return self

    def __exit__(self, *given):
        self.cases.__exit__(*given)
        self.calls.__exit__(*given)


class Ranking:
    """Which oracles show which texts, and which places they reach. A set of texts is a number with a bit for each."""

    def __init__(self, literals, found, reached):
        self.reached = reached
        texts = sorted({it.text for it in literals})
        self.found, self.bits = found, {text: 1 << at for at, text in enumerate(texts)}
        self.shown, self.given = ([self.texts_in(it.shown) for it in found], [self.texts_in(it.given[:MOST_SHOWN]) for it in found])
        self.of_file, self.of_function = defaultdict(int), defaultdict(int)
        for it in literals:
            if len(it.text) >= TELLING:
                self.of_file[it.path] |= self.bits[it.text]
                self.of_function[it.path, it.function] |= self.bits[it.text]

    def texts_in(self, whole):
        return sum(bit for text, bit in self.bits.items() if text in whole)

    def order(self, use):
        """Returns the oracles that come by where a text is used, or all if it is not sure where that is. Those that show the text come first,
        then those that are given it, then those that come by, and of these those that show most of the texts of its function and its file."""
        literal = use.literal
        bit = self.bits[literal.text]
        own, near = self.of_function[literal.path, literal.function], self.of_file[literal.path]
        fit = [at for at, places in enumerate(self.reached) if use.passed in places or not use.is_sure]

        def rank(at):
            texts = self.shown[at]
            is_other = use.passed not in self.reached[at]
            return not texts & bit, not self.given[at] & bit, is_other, -(texts & own).bit_count(), -(texts & near).bit_count(), self.found[at].size

        return [self.found[at] for at in heapq.nsmallest(MOST_TRIED, fit, key=rank)]


def is_noticed(rooms, data, use, order):
    """Returns whether one of the oracles fails for a changed program, and holds for the program as it is."""
    return any(is_change_noticed(rooms, data, change, order) for change in use.changes)


def holds_in_time(oracle, rooms):
    """Returns whether an oracle holds. A changed program may go on without end."""
    try:
        return oracle.holds(rooms)
    except subprocess.TimeoutExpired:
        return False


def is_change_noticed(rooms, data, change, order):
    """Returns whether one of the oracles fails for a change of the program. What was found of a change is kept."""
    if change not in NOTICED:
        at, new = change
        old = data[at : at + len(new)]
        NOTICED[change] = False
        for oracle in order:
            rooms.write(at, new)
            holds = holds_in_time(oracle, rooms)
            rooms.write(at, old)
            if not holds and oracle.holds(rooms):
                NOTICED[change] = True
                break
    return NOTICED[change]


class Worker:
    """The room of this process, and the work that it does there."""

    room, work = None, None

    @staticmethod
    def begin(rooms, free, work):
        Worker.room, Worker.work = rooms[free.get()], work

    @staticmethod
    def did(number):
        return Worker.work(Worker.room, number)


def side_by_side(rooms, work, count):
    """Returns what the work gives for each number below a count, in order, with a process for each of the rooms.

    A file that is written can't be run, and threads that start programs would hold it open for others."""
    own = multiprocessing.get_context("fork")
    free = own.SimpleQueue()
    for number in range(len(rooms)):
        free.put(number)
    with own.Pool(len(rooms), Worker.begin, [rooms, free, work]) as pool:
        yield from pool.imap(Worker.did, range(count), 4)


def places_reached(program, elf, uses, found):
    """Returns for each oracle at which places of the code, where texts are used, it comes by."""
    places = {it.passed for it in uses if it.passed}
    with ExitStack() as kept:
        rooms = [kept.enter_context(Watched(program, elf, places)) for _ in range(rt.processors())]
        return list(side_by_side(rooms, lambda room, number: room.reached(found[number]), len(found)))


def try_uses(rooms, data, uses, ranking):
    """Returns the uses that no oracle reaches, and those that are changed and no oracle fails. Each of the rooms has one change at a time."""

    def tried(room, number):
        order = ranking.order(uses[number])
        return is_noticed(room, data, uses[number], order), bool(order)

    unreached, survived = [], []
    for number, (noticed, is_reached) in enumerate(side_by_side(rooms, tried, len(uses))):
        if not noticed:
            (survived if is_reached else unreached).append(uses[number])
            print(f"texts: no case fails for {shown(uses[number])}", file=sys.stderr, flush=True)
        if number % 100 == 99:
            print(f"texts: {number + 1} of {len(uses)}, {len(survived)} survived", file=sys.stderr, flush=True)
    return unreached, survived


def shown(use):
    it = use.literal
    return f"{it.path}:{it.line}: {it.function}: {it.text.decode(errors='replace')!r}" + f" (in {use.symbol})" * (use.symbol != "")


def name_of(literal):
    """Returns what names a text in texts_unshown.toml: its file, its function and itself."""
    return literal.path, literal.function, literal.text.decode()


def no_gaps():
    """Returns the names of the texts that no case has to show."""
    with open(UNSHOWN, "rb") as it:
        return [tuple(name) for group in tomllib.load(it)["group"] for name in group["texts"]]


def sorted_out(found, known, literals):
    """Returns the uses that were found and are not known, and the names that are known, and of these literals, and were not found."""
    here = {it.path for it in literals}
    was = {name_of(it.literal) for it in found}
    return [it for it in found if name_of(it.literal) not in known], [it for it in known if it[0] in here and it not in was]


def report(literals, uses, lacks, unshown, survived):
    """Prints what was found, and returns whether all is well. The first of the two lists has the texts that all cases lack."""
    used = {it.literal.text for it in uses}
    inlined = {it.text for it in literals} - used
    for name, them in ((lacks, unshown), ("changed, and no case fails", survived)):
        for it in sorted(set(map(shown, them))):
            print(f"{name}: {it}")
    print(f"texts: {len(uses)} places of {len(used)} texts, {len(inlined)} texts without a place")
    print(f"texts: {len(unshown)} that {lacks}, {len(survived)} that no case fails for")
    return not unshown and not survived


def without_copies(unreached, survived, uses):
    """Returns both, without those of texts for which a case fails at another place of the same function, and of the second without single
    bytes. A compiler makes copies of code for cases that can't be, and constants that no code reads any more. It also lets an instruction
    refer to a text that the next ones replace: such a place is reached, and another one of the same function of the program shows the text. In
    the functions of other crates the same bytes may be another text, which a case shows there."""
    lacking = {id(it) for it in (*unreached, *survived)}
    shown = [it for it in uses if id(it) not in lacking]
    noticed, twins = {name_of(it.literal) for it in shown}, {(it.symbol, name_of(it.literal)) for it in shown}

    def is_copy(use):
        name, is_own = name_of(use.literal), use.symbol.startswith(f"{use.literal.path.split('/')[1]}::")
        return name in noticed and (not use.is_sure or not is_own or (use.symbol, name) in twins)

    longer = [it for it in survived if len(it.literal.text) >= SHORTEST]
    return [it for it in unreached if name_of(it.literal) not in noticed], [it for it in longer if not is_copy(it)]


def report_new(literals, uses, unreached, survived):
    """Prints what was found and is not known, and what is known and was not found. Returns whether that is nothing."""
    known, counts = no_gaps(), len(unreached) + len(survived)
    unreached, longer = without_copies(unreached, survived, uses)
    new, gone = sorted_out([*unreached, *longer], known, literals)
    for file, function, text in gone:
        print(f"no more without a case, or no more a text: {file}: {function}: {text!r}")
    print(f"texts: {counts - len(new)} places that no case fails for and none has to")
    return report(literals, uses, "no case reaches", *([it for it in them if it in new] for them in (unreached, longer))) and not gone


def try_all(program, paths=()):
    """Changes each text of a program, or those of these files, and returns whether a case fails for each."""
    literals, found = all_literals(), oracles()
    with open(program, "rb") as it:
        data = it.read()
    uses = [it for it in uses_of(data, literals) if not paths or it.literal.path in paths]
    literals = [it for it in literals if not paths or it.path in paths]
    # Each run of a system is on one thread: the texts are the same for each number of workers.
    ways, cases.WAYS = cases.WAYS, {command: ways[:1] for command, ways in cases.WAYS.items()}
    try:
        with ExitStack() as kept:
            # (the help has the name by which the program is called)
            called = f"{kept.enter_context(tempfile.TemporaryDirectory(prefix='texts-'))}/{PROGRAM}"
            shutil.copyfile(program, called)
            elf = Elf(data)
            ranking = Ranking(literals, found, places_reached(called, elf, uses, found))
            rooms = [kept.enter_context(Rooms(called, elf)) for _ in range(rt.processors())]
            unreached, survived = try_uses(rooms, data, uses, ranking)
    finally:
        cases.WAYS = ways
    return report_new(literals, uses, unreached, survived)


def list_unshown(paths):
    """Prints the texts that no case shows, of all files or of these. Returns whether there are none."""
    found, literals = oracles(), [it for it in all_literals() if not paths or it.path in paths]
    unshown = [Use("", it, [], 0, False) for it in literals if not any(it.text in oracle.shown for oracle in found)]
    return report(literals, [Use("", it, [], 0, False) for it in literals], "no case shows", unshown, [])


def main(given):
    program = f"{TOP}/crates/{PROGRAM}/out/{PROGRAM}"
    if given[:1] == ["--program"]:
        program, given = os.path.abspath(given[1]), given[2:]
    lists = given[:1] == ["--list"]
    paths = {os.path.relpath(it, TOP) for it in given[lists:]}
    return list_unshown(paths) if lists else try_all(program, paths)


if __name__ == "__main__":
    sys.exit(not main(sys.argv[1:]))
