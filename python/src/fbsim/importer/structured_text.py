"""Reads Structured Text and conditions of IEC 61499-2, and writes those of the profile.

structured_text.lark has the grammar. What is read is a list of segments, whose expressions are typed trees (expressions.py).
What the profile lacks is refused at its place, and reading goes on, in a body after the next semicolon."""

from __future__ import annotations

import re
from collections.abc import Callable
from fractions import Fraction
from typing import Any, NamedTuple

from lark import Lark, Token, Transformer_NonRecursive, UnexpectedToken
from lark.exceptions import VisitError

from .common import TABLES, TYPES, Faults, Place, shown
from .document import Code
from .bits import SIZES
from .expressions import BITS, MOST_NESTED, NUMBER, RANGES, UNSIGNED, Expression, Group, Literal, Part, Range, Unary, Variable, laid_out, number, pieces
from .files import TypeFiles
from .functions import ARGUMENTS, SHIFTS, Named, call_of, in_order, is_function
from .kinds import TRUTHS, binary, truth
from .lowering import Lowering
from .statements import Segment

GRAMMAR = Lark.open("structured_text.lark", rel_to=__file__, parser="lalr", lexer="basic", g_regex_flags=re.ASCII, keep_all_tokens=True,
                    start=["segment", "guard", "conjunction", "expression", "constant", "rest"])
# What the grammar declares. The other keywords of the profile are names here.
WORDS = frozenset("""IF THEN ELSIF ELSE END_IF CASE OF END_CASE FOR TO BY DO END_FOR WHILE END_WHILE REPEAT UNTIL END_REPEAT EXIT RETURN
AND OR XOR NOT MOD TRUE FALSE""".split())
# (an M that begins MS is none of its own)
TIME = re.compile(r"T(?:IME)?#(-?)(?=\d)" + "".join(rf"(?:(\d[\d_]*+(?:\.\d++)?){it}(?!S)_?)?" for it in TABLES["units"]), re.ASCII)
REASONS = TABLES["refused"]
ENDS = ("END_IF", "END_CASE", "END_FOR", "END_WHILE", "END_REPEAT")
MOST_CHARACTERS, MOST_IN_A_GUARD, MOST_WRITTEN = 200_000, 4_000, 2**20


def time_literal(text: str) -> str:
    """Return a time literal in whole milliseconds, or nothing if it is no such time."""
    found = TIME.fullmatch(text)
    parts = zip(found.groups()[1:], TABLES["units"].values()) if found else ()
    ticks = sum((Fraction(number.replace("_", "")) * unit for number, unit in parts if number), Fraction(0)) / TABLES["units"]["MS"]
    return f"T#{found[1]}{ticks}ms" if found and ticks.denominator == 1 else ""


def whole(text: str) -> int | None:
    """Return the value of a whole number, as 5, -1_000, INT#5 or 16#FF, or nothing if it is none."""
    kind, _, rest = text.strip().replace("_", "").partition("#")
    base, _, digits = (rest if kind.isalpha() else text.strip().replace("_", "")).rpartition("#")
    try:
        return int(digits, int(base.lstrip("+-") or 10)) * (-1 if base.startswith("-") else 1)
    except ValueError:
        return None


class Found(NamedTuple):
    """A variable: its name in the profile, its type, and its value if it is a constant."""

    out: str
    type: str
    value: int | None = None


Find = Callable[[str], Found | None]


class Reader(Transformer_NonRecursive):
    """Reads an algorithm, a condition or a constant.

    The methods with the names of rules return what is read by these."""

    def __init__(self, code: Code, find: Find, faults: Faults, files: TypeFiles | None = None) -> None:
        super().__init__(visit_tokens=False)
        self.code, self.find, self.faults, self.files = code, find, faults, files or TypeFiles(())
        self.tokens: list[Token] = []
        if len(code.text) > MOST_CHARACTERS:
            raise faults.refuse(code.place(0), f"an algorithm has at most {MOST_CHARACTERS:,} characters")
        lexer: Any = GRAMMAR.parse_interactive(code.text, "rest")
        for token in lexer.lexer_thread.lex(lexer.parser_state):
            if token.type == "NAME":
                token.value = token.upper()
            elif token.type == "DURATION":
                token.value = time_literal(token.upper())
            if token.type in REASONS and not (token.type == "DURATION" and token.value):
                self.refuse(token, REASONS[token.type])
            if token.type not in ("OPEN", "OTHER"):
                self.tokens.append(token)
        self.tokens.append(Token("$END", "the end", len(code.text)))
        for token, after in zip(self.tokens, self.tokens[1:]):
            if token.value in ENDS and after != ";":
                token.value += ";"

    def place(self, token: Token) -> Place:
        """Return the place of a token."""
        return self.code.place(token.start_pos or 0)

    def refuse(self, token: Token, reason: str) -> None:
        """Refuse a token."""
        self.faults.refuse(self.place(token), f"{shown(token)} {reason}")

    def is_word(self, token: Token, after: Token, choices: dict[str, object]) -> bool:
        """Return whether a token is a word of the grammar. Where it can't be one, or after := it is the name of a variable."""
        word = token.upper()
        if word not in WORDS or after == ":=":
            return False
        is_value = "WHOLE" in choices and word in ("TRUE", "FALSE", "NOT", "AND", "OR", "XOR", "MOD")
        is_not = word == "NOT" and (after == "(" or after.type in ("NAME", "WHOLE", "NUMBER", "TRUTH"))
        return not self.find(token) or (word in choices and not (is_value and not is_not))

    def read(self, begin: int, end: int, start: str, hint: str = "") -> Any:
        """Read these tokens by a rule, or refuse the first that does not fit, with a hint, and return nothing."""
        parser: Any = GRAMMAR.parse_interactive(start=start)
        index = begin
        try:
            for index, token in enumerate(self.tokens[begin:end], begin):
                is_word = self.is_word(token, self.tokens[index + 1], parser.choices())
                parser.feed_token(Token.new_borrow_pos(token.upper(), token.value, token) if is_word else token)
            index = end
            return self.transform(parser.feed_eof())
        except VisitError as fault:
            raise fault.orig_exc from None
        except UnexpectedToken:
            token, choices = self.tokens[index], parser.choices()
            expected = next((text for it, text in TABLES["expected"].items() if it in choices), "the end")
            self.faults.refuse(self.place(token), f"found {shown(token)}, expected {expected}{hint}")
            return None

    def kept(self, it: Expression) -> Expression:
        """Return an expression, unless it nests too deep: then refuse it, and return a literal."""
        it.depth = 1 + max((one.depth for one in it.parts()), default=0)
        if it.depth <= MOST_NESTED:
            return it
        self.faults.refuse(self.code.place(it.start), f"an expression nests at most {MOST_NESTED} deep: assign a part of it to a variable")
        return Literal(it.start, it.type, "0", 0)

    def literal(self, row: list[Token]) -> Expression:
        """Read a literal."""
        token, start = row[0], row[0].start_pos or 0
        kind, _, text = token.upper().rpartition("#") if token.type == "TRUTH" else token.upper().partition("#")
        if token.type in ("TRUE", "FALSE", "TRUTH"):
            return Literal(start, "BOOL", TRUTHS[text or kind])
        if token.type == "DURATION":
            return Literal(start, "TIME", token.value)
        if token.type == "WHOLE":
            return Literal(start, NUMBER, token.value, whole(token))
        value = whole(text) if token.type == "NUMBER" else 0
        if value is None or token.type == "NUMBER" and not RANGES[kind].has(Range(value, value)):
            self.refuse(token, f"is no {kind}")
        return Literal(start, kind, text.lstrip("+"), value) if token.type == "NUMBER" else Literal(start, "", "0")

    def variable(self, row: list[Any]) -> Expression:
        """Read the name of a variable, which has a full stop where it is that of an adapter."""
        name, dot, part, _, bits, *rest = row
        if part and part.type == "WHOLE" and (found := self.find(str(name))) and found.type in BITS:
            dot, bits = None, Token.new_borrow_pos("BIT", f"%X{part}", part)
        whole_name = f"{name}.{part}" if dot else str(name)
        found = self.find(whole_name)
        if found is None:
            about = self.files.constants(str(part if dot else name)) or (" (structures and parts are not in the profile)" if dot else "")
            self.faults.refuse(self.place(name), f"there is no variable {shown(whole_name)}{about}")
        for it in rest:
            if it == "[":
                self.faults.refuse(self.place(it), f"{shown(whole_name)} is used as an array, and the profile has none")
        variable = Variable(name.start_pos or 0, *(found[1::-1] if found else ("", "X")), found.value if found else None)
        return self.part(variable, bits) if bits else variable

    def part(self, base: Variable, bits: Token) -> Expression:
        """Read some bits of a variable."""
        count, size = SIZES[bits.upper()[1]], BITS.get(base.type, 0)
        begin = int(bits[2:]) * count
        if count + begin > size or count == size:
            self.refuse(bits, f"is no part of {base.name}, which has {size} bits" if size else f"needs a variable of a type {' '.join(BITS)}")
            return Literal(base.start, "", "0")
        kind = next((it for it, other in BITS.items() if other == count), "BOOL")
        return self.kept(Part(base.start, kind, base, begin, count))

    def group(self, row: list[Any]) -> Expression:
        """Read an expression in parentheses."""
        return self.kept(Group(row[0].start_pos or 0, row[1].type, row[1]))

    def unary(self, row: list[Any]) -> Expression:
        """Read a sign or NOT. The sign + goes away."""
        token, operand = row[0], truth(row[1]) if row[0] == "NOT" else row[1]
        if token == "+":
            return self.kept(operand)
        return self.kept(Unary(token.start_pos or 0, operand.type, token.value, operand))

    def binary(self, row: list[Any]) -> Expression:
        """Read an operator between two operands."""
        left, token, right = row
        if token == "**":
            return self.kept(left)
        return self.kept(binary(left, token.value, right, token.start_pos or 0))

    def named(self, row: list[Any]) -> Named:
        """Read an argument that is given by a name."""
        return Named(*row)

    def call(self, row: list[Any]) -> Expression:
        """Read a call."""
        name, given = row[0].upper(), [it for it in row[2:-1] if isinstance(it, (Named, Expression))]
        start, values = row[0].start_pos or 0, in_order(name, given)
        if not is_function(name):
            other = self.files.other(name) or f"no function of the profile (it has {', '.join(ARGUMENTS)} and conversions of whole types)"
            self.refuse(row[0], f"is {other}")
        elif isinstance(values, str):
            self.refuse(row[0], values)
        elif name in SHIFTS and values[0].type not in BITS:
            self.refuse(row[0], f"takes a string of bits: a variable or a literal of a type {' '.join(BITS)}")
        else:
            return self.kept(call_of(name, start, values))
        return Literal(start, "", "0")

    def opening(self, row: list[Any]) -> Segment:
        """Read what begins or ends a statement that holds others."""
        flat = [one for it in row for one in (it if isinstance(it, list) else [it]) if one is not None]
        kind = flat[0].type if isinstance(flat[0], Token) else "LABEL"
        if kind in ("IF", "ELSIF", "WHILE", "UNTIL"):
            flat[1] = truth(flat[1])
        return Segment(kind, flat)

    def label(self, row: list[Any]) -> list[Any]:
        """Read a label of CASE."""
        return row

    def named_constant(self, row: list[Token]) -> Expression:
        """Read a label that is the name of a constant."""
        found = self.find(row[0])
        if found is None or found.value is None:
            about = self.files.constants(row[0]) or ": a label of CASE is a number, or the name of a constant with a number"
            self.refuse(row[0], f"is no constant{about}")
        return number(found.value or 0 if found else 0, row[0].start_pos or 0)

    def assignment(self, row: list[Any]) -> Segment:
        """Read an assignment."""
        target, _, value = row
        # (what a declaration assigns ends before it begins)
        if isinstance(target, Variable) and target.value is not None and row[1].end_pos > row[1].start_pos:
            self.refuse(row[1], f"assigns the constant {target.name}")
        return Segment(":=", [*row[:2], truth(value) if target.type == "BOOL" else value])

    def statement_call(self, row: list[Any]) -> Segment | None:
        """Read CONTINUE, or refuse a call as a statement."""
        if row == ["CONTINUE"]:
            return Segment("CONTINUE", row)
        self.refuse(row[0], REASONS["statement_call"])
        return None

    def segment(self, row: list[Any]) -> list[Segment]:
        """Read what is up to a semicolon."""
        return [it for it in row if it is not None]

    def guard(self, row: list[Any]) -> Expression:
        """Read a guard in brackets."""
        found: Expression = row[1]
        return found


class Algorithm(Reader):
    """Reads an algorithm, with or without ALGORITHM .. END_ALGORITHM and with temporary variables, which are assigned first."""

    def __init__(self, code: Code, find: Find, faults: Faults, files: TypeFiles) -> None:
        super().__init__(code, find, faults, files)
        self.temporaries: list[tuple[Token, str]] = []
        self.constants: dict[str, int] = {}
        tokens, self.tokens, is_inside, is_constant = self.tokens, [], False, False
        row: list[Token] = []
        if tokens[0].upper() == "ALGORITHM":
            tokens = [*tokens[2:-2 if tokens[-2].upper() == "END_ALGORITHM" else -1], tokens[-1]]
        for token, after in zip(tokens, [*tokens[1:], tokens[-1]]):
            if not row and after != ":=" and token.upper() in (("CONSTANT", "END_VAR") if is_inside else ("VAR", "VAR_TEMP")):
                is_inside = token.upper() != "END_VAR"
                is_constant = token.upper() == "CONSTANT"
                continue
            row.append(token)
            if token == ";" or token.type == "$END":
                self.tokens += self.assigned(row, is_constant) if is_inside else row
                row = []

    def assigned(self, row: list[Token], is_constant: bool) -> list[Token]:
        """Read a declaration of temporary variables, and return what assigns their initial values."""
        if row[-1].type == "$END":
            self.faults.refuse(self.place(row[-1]), "found the end, expected END_VAR")
            return row[-1:]
        colon = next((n for n, it in enumerate(row) if it == ":"), len(row) - 1)
        kind, after = (*row[colon + 1:], row[-1], row[-1])[:2]
        if kind.upper() not in (*TYPES, *UNSIGNED) or after not in (":=", ";"):
            self.refuse(kind, "is no type of the profile")
            row = [*row[:colon + 2], row[-1]]
        names = [it for it in row[:colon] if it.type == "NAME"]
        self.temporaries += [(it, kind.upper()) for it in names]
        default, start = ("TRUTH", "BOOL#FALSE") if kind.upper() == "BOOL" else ("WHOLE", "0"), kind.start_pos or 1
        value = whole("".join(row[colon + 3:-1])) if is_constant else None
        self.constants |= {it: value for it in names if value is not None}
        initial = row[colon + 3:-1] or [Token(*default, start, end_pos=kind.end_pos)]
        return [part for it in names for part in (it, Token("ASSIGN", ":=", start, end_pos=start - 1), *initial, row[-1])]

    def body(self, lowering: Lowering) -> str:
        """Return the converted statements."""
        segments: list[Segment] = []
        begin = 0
        for end, token in enumerate(self.tokens):
            if token == ";" or token.type == "$END":
                segments += self.read(begin, end, "segment") or []
                segments += [Segment(";", [token])] if token == ";" else []
                begin = end + 1
        row = [piece for it in lowering.statements(segments) for piece in it.pieces()]
        if sum(len(it.text) + 1 for it in row) > MOST_WRITTEN:
            self.faults.refuse(self.code.place(0), f"an algorithm has at most {MOST_WRITTEN:,} characters when it is expanded: "
                               "split what has strings of bits or conversions")
            return ""
        return laid_out(row, self.code)


def condition(code: Code, find: Find, find_event: Callable[[str], str | None], lowering: Lowering, files: TypeFiles) -> str:
    """Convert the condition of a transition: 1, EVENT, EVENT[GUARD], EVENT & GUARD, [GUARD] or GUARD."""
    reader = Reader(code, find, lowering.faults, files)
    tokens, mark = reader.tokens, reader.place(reader.tokens[0]).mark
    if len(tokens) == 2 and TRUTHS.get(tokens[0].value) == "TRUE":
        return f"{mark}1"
    length = 3 if len(tokens) > 3 and tokens[1] == "." else 1
    event = find_event("".join(tokens[:length])) if tokens[0].type == "NAME" else None
    if event:
        del tokens[:length]
        if len(tokens) == 1:
            return mark + event
        if tokens[0] != "[" and tokens[0].upper() not in ("&", "AND"):
            reader.faults.refuse(reader.place(tokens[0]), f"found {shown(tokens[0])}, expected & or AND or [")
            return mark
    is_guard = tokens[0] == "["
    if event and not is_guard:
        del tokens[0]
    first = reader.place(tokens[0])
    rule, hint = "guard" if is_guard else "conjunction" if event else "expression", ": write the condition as EVENT[GUARD]"
    guard = reader.read(0, len(tokens) - 1, rule, hint)
    row = list(pieces(lowering.expression(truth(guard)))) if guard else []
    if sum(len(it.text) + 1 for it in row) > MOST_IN_A_GUARD:
        reader.faults.refuse(first, f"a guard has at most {MOST_IN_A_GUARD:,} characters {lowering.about()}: compute it in an algorithm")
    return f"{mark}{event or ''}{first.mark if is_guard else ''}[{laid_out(row, code).lstrip()}]"


def constant(code: Code, kind: str, faults: Faults) -> str:
    """Convert a constant of a type of the profile: TRUE, FALSE, a whole number or a time."""
    reader = Reader(code, lambda _: None, faults)
    value = reader.read(0, len(reader.tokens) - 1, "constant")
    if value is None:
        return ""
    value = truth(value) if kind == "BOOL" else value
    if kind == "BOOL" and value.type != "BOOL" and value.type:
        faults.refuse(code.place(0), f"{shown(code.text)} is no constant of type BOOL")
    return laid_out(pieces(value), code).lstrip()
