"""Reads declarations by docs/formats/declaration.md, independently of the program, for tools/interpreter.py and tools/editors.py.

Numbers and times are numbers, names and keywords are in upper case. A statement or an expression is a tuple that begins with its
kind; a name is itself. Where these are in the text is noted beside them. This does not look for the faults that the program's check
refuses."""

import re
from types import SimpleNamespace

TOKEN = re.compile(
    r"""\s+ | //[^\n]* | \(\*.*?\*\)
    | (?P<time>t(?:ime)?\#-?(?:[\d_]+(?:ms|d|h|m|s)_?)+) | (?P<whole>(?:2|8|16)\#[\da-f_]+|\d(?:_?\d)*)
    | (?P<name>[a-z_]\w*) | (?P<sign>:=|->|\.\.|<>|<=|>=|[;:,.()\[\]=<>+\-*/&])""",
    re.X | re.S | re.I,
)
UNITS = {"D": 86_400_000, "H": 3_600_000, "M": 60_000, "S": 1000, "MS": 1}
LEVELS = (("OR",), ("XOR",), ("AND", "&"), ("=", "<>"), ("<", ">", "<=", ">="), ("+", "-"), ("*", "/", "MOD"))


def literal(found):
    text = found[0].upper().replace("_", "")
    if found["time"]:
        sign = -1 if "-" in text else 1
        return sign * sum(int(number) * UNITS[unit] for number, unit in re.findall(r"(\d+)(MS|D|H|M|S)", text))
    base, mark, digits = text.partition("#")
    return int(digits, int(base)) if mark else int(text)


def tokens_of(text):
    """Returns the tokens, and for each the offsets of its first character and of the one after its last."""
    found, spans, at = [], [], 0
    while at < len(text):
        one = TOKEN.match(text, at)
        if one is None:
            raise ValueError(f"no token: {text[at:at + 20]!r}")
        at = one.end()
        if one.lastgroup:
            found.append(literal(one) if one["time"] or one["whole"] else one[0].upper())
            spans.append(one.span())
    return found, spans


class Reader:
    """Reads an accepted declaration.

    `places` has by the `id` of what was read: for a list of statements or actions, the first token of each; for an operation, its
    first token, its operator and the token after its last; for a transition, the first token of its condition. `headings` has by
    the `id` of the statements of an algorithm the token of its name. Tokens are counted from 0, and `spans` has their offsets."""

    def __init__(self, text):
        (self.tokens, self.spans), self.at = tokens_of(text.removeprefix("\ufeff")), 0
        self.places, self.headings = {}, {}

    def add(self, entries, entry):
        """Reads an entry of a list, and notes where it begins."""
        self.places.setdefault(id(entries), []).append(self.at)
        entries.append(entry())

    def placed(self, found, *place):
        """Returns what was read, and notes its place."""
        self.places[id(found)] = place
        return found

    def next(self):
        self.at += 1
        return self.tokens[self.at - 1]

    def has(self, *words):
        """Whether the next token is one of these; then it is taken."""
        found = self.at < len(self.tokens) and self.tokens[self.at] in words and not isinstance(self.tokens[self.at], int)
        self.at += found
        return found

    def want(self, *words):
        for it in words:
            if not self.has(it):
                raise ValueError(f"expected {it}, found {self.tokens[self.at - 3:self.at + 3]}")

    def names(self):
        found = [self.next()]
        while self.has(","):
            found.append(self.next())
        return found

    def section(self, head, end, entry):
        found = []
        if self.has(head):
            while not self.has(end):
                found.append(entry())
        return found

    def constant(self):
        if self.has("TRUE", "FALSE"):
            return self.tokens[self.at - 1] == "TRUE"
        return -self.next() if self.has("-") else self.next()

    def event(self):
        name = self.next()
        carried = self.names() if self.has("WITH") else []
        self.want(";")
        return name, carried

    def variables(self, head):
        def entry():
            names = self.names()
            self.want(":")
            kind = self.next()
            start = self.constant() if self.has(":=") else kind != "BOOL" and 0
            self.want(";")
            return [(name, (kind, start)) for name in names]

        return dict(it for row in self.section(head, "END_VAR", entry) for it in row)

    def library(self):
        types, application = {}, None
        while self.at < len(self.tokens):
            if self.has("APPLICATION"):
                self.next()
                application = self.network()
                self.want("END_APPLICATION")
            else:
                self.want("FUNCTION_BLOCK")
                name = self.next()
                types[name] = self.block()
        return types, application

    def block(self):
        it = SimpleNamespace(chart=None)
        it.ins = dict(self.section("EVENT_INPUT", "END_EVENT", self.event))
        it.outs = dict(self.section("EVENT_OUTPUT", "END_EVENT", self.event))
        it.var_in, it.var_out, it.inner = (self.variables(f"VAR{end}") for end in ("_INPUT", "_OUTPUT", ""))
        if self.tokens[self.at] == "FBS":
            it.network = self.network()
        else:
            it.chart = SimpleNamespace(
                states=dict(self.section("EC_STATES", "END_STATES", self.state)),
                transitions=self.section("EC_TRANSITIONS", "END_TRANSITIONS", self.transition),
                algorithms=dict(self.algorithms()),
            )
        self.want("END_FUNCTION_BLOCK")
        return it

    def state(self):
        name, actions = self.next(), []
        if self.has(":"):
            self.add(actions, self.action)
            while self.has(","):
                self.add(actions, self.action)
        self.want(";")
        return name, actions

    def action(self):
        algorithm = None if self.tokens[self.at] == "->" else self.next()
        return algorithm, self.next() if self.has("->") else None

    def transition(self):
        start = self.next()
        self.want("TO")
        end = self.next()
        self.want(":=")
        condition = self.at
        event = None if self.tokens[self.at] == "[" else self.next()
        guard = None
        if self.has("["):
            guard = self.expression()
            self.want("]")
        self.want(";")
        return self.placed((start, end, None if event == 1 else event, guard), condition)

    def algorithms(self):
        while self.has("ALGORITHM"):
            heading, name = self.at, self.next()
            self.want("IN", "ST", ":")
            body = self.statements("END_ALGORITHM")
            self.headings[id(body)] = heading
            yield name, body

    def statements(self, *ends):
        """Reads statements up to one of these words, which is taken."""
        found = []
        while not self.has(*ends):
            self.add(found, self.statement)
        return found

    def statement(self):
        word = self.next()
        if word == ";":
            return ("empty",)
        if word in ("EXIT", "RETURN"):
            found = (word.lower(),)
        elif word == "IF":
            found = self.branches()
        elif word == "CASE":
            found = self.case()
        elif word == "FOR":
            found = self.counted()
        elif word == "WHILE":
            test = self.expression()
            self.want("DO")
            found = ("while", test, self.statements("END_WHILE"))
        elif word == "REPEAT":
            body = self.statements("UNTIL")
            found = ("repeat", body, self.expression())
            self.want("END_REPEAT")
        else:
            self.want(":=")
            found = ("assign", word, self.expression())
        self.want(";")
        return found

    def branches(self):
        found, otherwise = [], []
        while True:
            test = self.expression()
            self.want("THEN")
            found.append((test, self.statements("ELSIF", "ELSE", "END_IF")))
            end = self.tokens[self.at - 1]
            if end == "ELSE":
                otherwise = self.statements("END_IF")
            if end != "ELSIF":
                return "if", found, otherwise

    def bound(self):
        return -self.next() if self.has("-") else self.next()

    def case(self):
        chosen, found, otherwise = self.expression(), [], []
        self.want("OF")
        while not self.has("END_CASE"):
            if self.has("ELSE"):
                otherwise = self.statements("END_CASE")
                break
            labels = [self.label()]
            while self.has(","):
                labels.append(self.label())
            self.want(":")
            body = []
            while not (isinstance(self.tokens[self.at], int) or self.tokens[self.at] in ("-", "ELSE", "END_CASE")):
                self.add(body, self.statement)
            found.append((labels, body))
        return "case", chosen, found, otherwise

    def label(self):
        first = self.bound()
        return first, self.bound() if self.has("..") else first

    def counted(self):
        name = self.next()
        self.want(":=")
        start = self.expression()
        self.want("TO")
        end = self.expression()
        step = self.expression() if self.has("BY") else 1
        self.want("DO")
        return "for", name, start, end, step, self.statements("END_FOR")

    def expression(self, level=0):
        if level == len(LEVELS):
            return self.unary()
        first, found = self.at, self.expression(level + 1)
        while self.has(*LEVELS[level]):
            operator = self.at - 1
            found = (self.tokens[operator], found, self.expression(level + 1))
            self.placed(found, first, operator, self.at)
        return found

    def unary(self):
        first = self.at
        if self.has("-", "NOT"):
            found = ("minus" if self.tokens[first] == "-" else "NOT", self.unary())
            return self.placed(found, first, first, self.at)
        if self.has("("):
            found = self.expression()
            self.want(")")
            return found
        word = self.next()
        if word in ("TRUE", "FALSE") or isinstance(word, int):
            return word == "TRUE" if isinstance(word, str) else word
        if not self.has("("):
            return word
        arguments = []
        while not self.has(")"):
            arguments.append(self.expression())
            self.has(",")
        return self.placed((f"{word}()", *arguments), first, first, self.at)

    def network(self):
        parts = dict(self.section("FBS", "END_FBS", self.instance))
        events = self.section("EVENT_CONNECTIONS", "END_CONNECTIONS", self.connection)
        data = self.section("DATA_CONNECTIONS", "END_CONNECTIONS", self.connection)
        return SimpleNamespace(parts=parts, events=events, data={to: start for start, to in data})

    def instance(self):
        name, parameters = self.next(), {}
        self.want(":")
        kind = self.next()
        while self.has("(", ","):
            key = self.next()
            self.want(":=")
            parameters[key] = self.constant()
            self.has(")")
        self.want(";")
        return name, (kind, parameters)

    def port(self):
        first = self.next()
        return (first, self.next()) if self.has(".") else (None, first)

    def connection(self):
        start = self.port()
        self.want("TO")
        end = self.port()
        self.want(";")
        return start, end
