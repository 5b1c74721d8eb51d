#!/usr/bin/env python3
"""tools/forms.py [PROGRAM [FIRST [COUNT]]]: where `check --why` shows a fault of a deployment, in random forms of TOML.

Each deployment has one fault. It is written around the faulty entry, so the place of this entry is known: arrays as headings or as
inline tables, strings of each kind, keys in quotes, comments that look like entries, line ends of both kinds, a byte order mark. The
program must show the fault at this place and at no other. FIRST is the first number from which deployments are drawn.

./gate runs this each time it has run the program. Without ./gate it uses the program that ./simulate built."""

import os
import random
import re
import sys
from dataclasses import dataclass
from typing import Any, Optional

from kit import TOP
from program import Room, side_by_side

PROGRAM = f"{TOP}/crates/fbsim/out/fbsim"
FIRST, COUNT = 1, 1200
INSTANCES = [f"A{at}" for at in range(6)]
DECLARATION = f"APPLICATION A\nFBS {' '.join(f'{it} : E_MERGE;' for it in INSTANCES)} END_FBS\nEND_APPLICATION\n"
SHOWN = re.compile(rb"^deploy\.toml:(\d+):(\d+): (E\d\d)", re.M)
COMMENTS = ["", " x", " [[resource]]", " name = 1", ' ] } "', " '", " {", " ,,", " \\", " é"]
# Values that are no name, no array and no whole number.
WRONG = ["true", "{ name = 'x' }", "1979-05-27T07:32:00Z", "1.5", "{}", '""', '"a b"', "'9'", "{ a = { b = \"}\" }, c = ']' }"]
# Values whose lines look like entries.
LINES = ['"""\nname = 1\n[[resource]]\n"""', "'''\n[[link]]\nfrom = 'x'\n'''", '"""a\\"""\ndevice = 5\n"""', "'''\nresource = 1\ninstances = [ 1 ]\n'''"]
UNKNOWN = ["colour", "nam", "x-1", "1", "latency2", "resource", "é"]


@dataclass
class Value:
    """A value of TOML: a string, a text as it stands, an array, or an entry of a table of latencies. A mark names its place."""

    kind: str
    what: Any
    mark: Optional[str] = None


@dataclass
class Table:
    """A table of a deployment: of which array it is an element, its index there, and its keys."""

    array: str
    index: int
    keys: dict

    def mark(self, key=""):
        return f"{self.array}/{self.index}/{key}"


class Text:
    """The bytes of a deployment as they are written, and where entries begin in them."""

    def __init__(self, draw):
        self.draw, self.bytes, self.places = draw, b"", {}
        self.line_end = draw.choice(["\n", "\n", "\r\n"])

    def put(self, text):
        self.bytes += text.replace("\n", self.line_end).encode()

    def mark(self, name):
        self.places[name] = len(self.bytes)

    def chance(self, part):
        return self.draw.random() < part

    def blanks(self):
        self.put("".join(self.draw.choice("  \t") for _ in range(self.draw.randrange(3))))

    def gap(self, part=0.3):
        """Writes what may be between elements: blanks, ends of lines and comments."""
        self.blanks()
        while self.chance(part):
            self.put(f"#{self.draw.choice(COMMENTS)}\n" if self.chance(0.5) else "\n")
            self.blanks()

    def end(self):
        """Writes the end of a line, and lines without entries."""
        self.blanks()
        self.put(f"#{self.draw.choice(COMMENTS)}\n" if self.chance(0.2) else "\n")
        while self.chance(0.25):
            self.blanks()
            self.put(f"#{self.draw.choice(COMMENTS)}\n" if self.chance(0.5) else "\n")

    def key(self, name):
        forms = [f'"{name}"', f"'{name}'", *([name] * 3 if name.isascii() else [])]
        self.put(self.draw.choice(forms))

    def string(self, name):
        at = self.draw.randrange(len(name) + 1)
        first = self.draw.choice(["", "\n"])
        escaped = "".join(f"\\u{ord(it):04X}" if self.chance(0.5) else it for it in name)
        cut = f'"""{name[:at]}\\ \n \t{name[at:]}"""'
        self.put(self.draw.choice([f'"{name}"', f"'{name}'", f'"{escaped}"', f'"""{first}{name}"""', f"'''{first}{name}'''", cut]))

    def list(self, count, put_item):
        """Writes items with commas between them, and perhaps one after the last."""
        for at in range(count):
            self.gap()
            put_item(at)
            self.gap(0.1)
            if at + 1 < count or self.chance(0.2):
                self.put(",")
        self.gap()

    def value(self, value):
        if value.mark:
            self.mark(value.mark)
        if value.kind == "string":
            self.string(value.what)
        elif value.kind == "text":
            self.put(value.what)
        else:
            self.put("[")
            items = value.what if value.kind == "array" else [Value("text", str(it)) for it in value.what]
            self.list(len(items), lambda at: self.value(items[at]))
            self.put("]")

    def entry(self, table, key):
        self.mark(table.mark(key))
        self.key(key)
        self.blanks()
        self.put("=")
        self.blanks()
        self.value(table.keys[key])

    def shuffled(self, items):
        return self.draw.sample(items, len(items))

    def inline(self, tables):
        """Writes an array of inline tables."""

        def put_table(at):
            keys = self.shuffled([*tables[at].keys])
            self.mark(tables[at].mark())
            self.put("{")
            self.list(len(keys), lambda key: self.entry(tables[at], keys[key]))
            self.put("}")

        self.blanks()
        self.key(tables[0].array)
        self.blanks()
        self.put("=")
        self.blanks()
        self.put("[")
        self.list(len(tables), put_table)
        self.put("]")
        self.end()

    def headed(self, table):
        """Writes a table with its heading."""
        self.blanks()
        self.mark(table.mark())
        self.put("[[")
        self.blanks()
        self.key(table.array)
        self.blanks()
        self.put("]]")
        self.end()
        for key in self.shuffled([*table.keys]):
            self.blanks()
            self.entry(table, key)
            self.end()


def drawn_tables(draw):
    """Returns the tables of a deployment that is accepted."""
    names = [f"R{at}" for at in range(draw.randrange(1, 5))]
    lists = [[] for _ in names]
    for it in INSTANCES:
        draw.choice(lists).append(Value("string", it))
    tables = [
        Table("resource", at, {"device": Value("string", "DEV"), "name": Value("string", it), "instances": Value("array", lists[at])})
        for at, it in enumerate(names)
    ]
    pairs = [(a, b) for a in names for b in names if a != b]
    for at, (start, end) in enumerate(draw.sample(pairs, min(len(pairs), draw.randrange(4)))):
        keys = {"from": Value("string", start), "to": Value("string", end)}
        if draw.random() < 0.5:
            keys["latency"] = Value("text", str(draw.randrange(1, 9)))
        else:
            keys["latencies"] = Value("array", [Value("pair", (10 * it, 1 + it)) for it in range(draw.randrange(1, 4))])
        tables.append(Table("link", at, keys))
    return tables


def with_fault(draw, tables):
    """Puts a fault into one of the tables. Returns the number of the refusal, and the mark of the place where it is shown."""
    table = draw.choice(tables)
    keys, resource = table.keys, table.array == "resource"

    def wrong_kind():
        key = draw.choice([*keys])
        keys[key] = Value("text", draw.choice(WRONG))
        return "E11", table.mark(key)

    def missing_key():
        del keys[draw.choice([*keys])]
        return "E11", table.mark()

    def unknown_key():
        key = draw.choice(UNKNOWN)
        keys[key] = Value("text", draw.choice(LINES + WRONG))
        return "E11", table.mark(key)

    def wrong_element():
        items = keys["instances"].what
        items.insert(draw.randrange(len(items) + 1), Value("text", draw.choice([*WRONG, "5", "[[1, 2], ['[', \"]\"]]"]), "here"))
        return "E11", "here"

    def unknown_instance():
        items = keys["instances"].what
        items.insert(draw.randrange(len(items) + 1), Value("string", "ZZ", "here"))
        return "E21", "here"

    def wrong_latency():
        if "latency" in keys:
            keys["latency"] = Value("text", draw.choice(["0", "-1", "1_000_001"]))
            return "E12", table.mark("latency")
        items = keys["latencies"].what
        at = draw.randrange(len(items))
        items[at] = Value("pair", (10 * at, 0), "here")
        return "E12", "here"

    def unknown_end():
        key = draw.choice(["from", "to"])
        keys[key] = Value("string", "QQ")
        return "E21", table.mark(key)

    ways = [wrong_kind, missing_key, unknown_key]
    return draw.choice(ways + ([wrong_element, unknown_instance] if resource else [wrong_latency, unknown_end]))()


def drawn(number):
    """Returns the bytes of a deployment, the number of its refusal, and the line and the column at which it is shown."""
    draw = random.Random(number)
    tables, text = drawn_tables(draw), Text(draw)
    refusal, mark = with_fault(draw, tables)
    if text.chance(0.15):
        text.put("\ufeff")
    if text.chance(0.3):
        text.end()
    arrays = [[it for it in tables if it.array == array] for array in ("resource", "link")]
    is_inline = [text.chance(0.4) for _ in arrays]
    for _, group in text.shuffled([it for it in zip(is_inline, arrays) if it[0] and it[1]]):
        text.inline(group)
    # Headings of the two arrays may be mixed, each in its own order.
    headed = [group[:] for is_one, group in zip(is_inline, arrays) if not is_one]
    while any(headed):
        text.headed(draw.choice([it for it in headed if it]).pop(0))
    before = text.bytes[: text.places[mark]]
    return text.bytes, refusal, before.count(b"\n") + 1, len(before) - (before.rfind(b"\n") + 1) + 1


def try_one(room, number):
    """Returns what is wrong with the answer to a deployment."""
    deployment, *expected = drawn(number)
    folder = f"{room.folder}/{number}"
    os.mkdir(folder)
    for name, content in ("types.iec", DECLARATION.encode()), ("deploy.toml", deployment):
        with open(f"{folder}/{name}", "wb") as it:
            it.write(content)
    ran = room.run(["sh", "-c", 'cd "$1" && exec "$2" check types.iec --deploy deploy.toml --why', "sh", folder, room.program])
    found = [[refusal.decode(), int(line), int(column)] for line, column, refusal in SHOWN.findall(ran.stderr)]
    if ran.returncode == 2 and found == [expected]:
        return ""
    return f"deployment {number}: expected {expected}, found {ran.returncode} {found} {ran.stderr!r} for\n{deployment.decode()}"


def try_all(program, first=FIRST, count=COUNT):
    """Tries deployments, and says whether each fault was shown at its place."""
    with Room(program) as room:
        wrong = [it for it in side_by_side(lambda number: try_one(room, number), range(first, first + count)) if it]
    for it in wrong[:20]:
        print(f"forms: {it}", file=sys.stderr)
    print(f"forms: {count} deployments in random forms of TOML, {len(wrong)} wrong")
    return not wrong


if __name__ == "__main__":
    sys.exit(not try_all(sys.argv[1] if len(sys.argv) > 1 else PROGRAM, *map(int, sys.argv[2:4])))
