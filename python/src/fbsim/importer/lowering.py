"""Replaces what the profile lacks in the expressions and statements of a type by what it has."""

from __future__ import annotations

from collections import Counter
from collections.abc import Callable
from dataclasses import replace

from .bits import combined, complement, field, replaced, shifted
from .common import Faults, shown
from .conversions import checked, conversion_of, converted, fitted, of_truth, to_truth
from .document import Code
from .expressions import BITS, MOST_NESTED, RANGES, Binary, Call, Expression, Group, Literal, Part, Range, Unary, Variable, bare, join, nesting, number, value_of
from .functions import SHIFTS
from .kinds import LOGICAL, numbers
from .loops import continued, read_later
from .statements import Segment, Words, assigned, made, test, word
from .widths import narrow

ABOUT = {"stop": "a value that does not fit stops the run", "wrap": "a value that does not fit loses its upper bits",
         "bits": "the bits are read as those of the other type"}
# The type of what is needed more than once, if it is a string of bits.
WIDEST = "ULINT"
# What is a step: the beginnings of statements that expansions add.
STATEMENTS = frozenset((":=", "IF", "WHILE", "REPEAT", "EXIT"))
# In a round of a loop: REPEAT and its round, and a flag that is set and tested.
OF_CONTINUE = 4


class Lowering:
    """Rewrites expressions and statements of one text. With the overflow `wrap`, numbers that do not fit lose their upper bits;
    with `stop` they stop the run. `fresh` returns a variable of a type, by its number in the statement."""

    def __init__(self, code: Code, faults: Faults, overflow: str, fresh: Callable[[str, int], Variable]) -> None:
        self.code, self.faults, self.overflow, self.fresh = code, faults, overflow, fresh
        self.notes: list[str] = []
        # What is assigned before the statement; nothing may be in a guard.
        self.before: list[Segment] | None = None
        self.count: Counter[str] = Counter()
        # The names of what was expanded in the last expression, and the most steps that a statement takes more.
        self.expanded: list[str] = []
        self.steps = 0

    def note(self, it: Expression, text: str) -> None:
        """Keep a line for import.txt."""
        self.notes.append(f"{self.code.place(it.start)}: {text}")

    def refuse(self, start: int, text: str) -> None:
        """Refuse what begins at a character."""
        self.faults.refuse(self.code.place(start), text)

    def statements(self, segments: list[Segment]) -> list[Segment]:
        """Return the segments of an algorithm in the profile. What ELSIF and WHILE need before their conditions goes inside."""
        result: list[Segment] = []
        # For each IF that is open, how many it has to close, and what it takes more; at last that of a statement outside.
        opened: list[int] = []
        taken = [0]
        for one in read_later(segments):
            self.faults.warn(self.code.place(one.start), "I03", f"{one.name} is the variable of a FOR that has ended: here it is the last value "
                             "within the limit, on most controllers the next one. Keep what is needed in another variable")
        if any(it.kind == "CONTINUE" for it in segments):
            self.steps = OF_CONTINUE
        for it in continued(segments, self.fresh, self.refuse):
            before, new = self.segment(it)
            if it.kind == "IF":
                opened.append(0)
            if it.kind == "END_IF" and opened:
                result += made("END_IF ;", it.start) * opened.pop()
            if before and it.kind == "ELSIF" and opened:
                opened[-1] += 1
                new = [*made("ELSE", it.start), *before, Segment("IF", [word("IF", it.start), *new[0].row[1:]])]
            elif before and it.kind == "WHILE":
                new = self.tested_inside(it, before, new[0])
            else:
                new = [*before, *new]
            more = sum(one.kind in STATEMENTS for one in new) - (it.kind in STATEMENTS) + (it.kind == "WHILE" and bool(before))
            at = -2 if it.kind == "ELSIF" and len(taken) > 1 else -1
            taken[at] = more + (taken[at] if at == -2 else 0)
            self.steps = max(self.steps, *taken)
            if it.kind == "IF":
                taken.append(0)
            elif it.kind == "END_IF" and len(taken) > 1:
                taken.pop()
            result += new
        return result

    def tested_inside(self, segment: Segment, before: list[Segment], new: Segment) -> list[Segment]:
        """Return WHILE with its condition in the loop, after what it needs before it."""
        condition = new.row[1]
        assert isinstance(condition, Expression)
        leave = test("IF", Unary(segment.start, "BOOL", "NOT", condition), "THEN")
        return [test("WHILE", Literal(segment.start, "BOOL", "TRUE"), "DO"), *before, leave, *made("EXIT ; END_IF ;", segment.start)]

    def segment(self, it: Segment) -> tuple[list[Segment], list[Segment]]:
        """Return what goes before a segment, and the segment in the profile."""
        before = self.before = []
        self.count.clear()
        new = self.assignment(it) if it.kind == ":=" else replace(it, row=self.row(it))
        self.before = None
        return before, [new]

    def row(self, segment: Segment) -> Words:
        """Return the words and expressions of a segment in the profile."""
        return [self.expression(it) if isinstance(it, Expression) else it for it in segment.row]

    def assignment(self, segment: Segment) -> Segment:
        """Return an assignment, which wraps what does not fit if that is asked for. The simulator stops at it otherwise."""
        target, assign, value = segment.row
        assert isinstance(target, Expression) and isinstance(value, Expression)
        kept = RANGES.get(target.type)
        result = self.expression(value, kept)
        if self.overflow == "wrap" and kept and value.type != "BOOL":
            result, _ = fitted(result, numbers(value), kept, "wrap")
        if isinstance(target, Part):
            bits = of_truth(result, "BYTE") if target.type == "BOOL" else fitted(
                result, numbers(value), Range(0, 2**target.count - 1), self.overflow)[0]
            result = replaced(target.base, target.begin, target.count, BITS[target.base.type], bits)
            target = target.base
        return Segment(":=", [target, assign, result])

    def expression(self, it: Expression, kept: Range | None = None) -> Expression:
        """Return an expression of the profile, whose result is then kept in a range. One that nests too deep then is refused."""
        for one in narrow(it, kept):
            self.faults.warn(self.code.place(one.at), "I01", str(one))
        self.expanded.clear()
        result = self.lowered(it)
        if nesting(result) > MOST_NESTED:
            self.refuse(it.start, f"this nests deeper than {MOST_NESTED} {self.about()}: assign a part of it to a variable")
        return result

    def about(self) -> str:
        """Return what was expanded in the last expression, for a message."""
        names = ", ".join(dict.fromkeys(self.expanded))
        return f"when it is expanded ({shown(names)})" if names else "as it is written here"

    def again(self, it: Expression, kind: str = WIDEST) -> Expression:
        """Return what stands for an expression that is needed more than once: a variable, unless it is short or in a guard."""
        if self.before is None or isinstance(bare(it), (Variable, Literal)):
            return it
        self.count[kind] += 1
        found = replace(self.fresh(kind, self.count[kind]), start=it.start)
        self.before += assigned(found, it)
        return found

    def lowered(self, it: Expression) -> Expression:
        """Return an expression of the profile."""
        if isinstance(it, Group):
            return replace(it, inside=self.lowered(it.inside))
        if isinstance(it, Part):
            self.expanded.append(f"{it.base.name}.%")
            bits = field(it.base, it.begin, it.count, BITS[it.base.type])
            return Group(it.start, it.type, join("=", bits, number(1, it.start)) if it.type == "BOOL" else bits)
        size = BITS.get(it.type, 0)
        if isinstance(it, Unary):
            if it.operator == "NOT" and size:
                self.expanded.append(it.operator)
                return complement(self.string(it.operand, it.type), size)
            return replace(it, operand=self.lowered(it.operand))
        if isinstance(it, Binary):
            if size and it.operator in LOGICAL:
                left, right = self.string(it.left, it.type), self.string(it.right, it.type)
                self.expanded.append(it.operator)
                return combined(it.operator, left, right, size, self.again)
            return replace(it, left=self.lowered(it.left), right=self.lowered(it.right))
        return self.call(it, size) if isinstance(it, Call) else it

    def string(self, it: Expression, kind: str) -> Expression:
        """Return an operand of an operator on strings of bits of a kind, which keeps to its own width as on a controller."""
        kept, value = RANGES[it.type if it.type in BITS else kind], value_of(it)
        if value is not None:
            return it if kept.has(Range(value, value)) else number(value % (kept.most + 1), it.start)
        return fitted(self.lowered(it), numbers(it), kept, self.overflow)[0]

    def call(self, it: Call, size: int) -> Expression:
        """Return a function of the profile, or what stands for one."""
        conversion = conversion_of(it.name)
        self.expanded += [it.name] if conversion or it.name in (*SHIFTS, "MUX") else []
        if conversion:
            return self.conversion(it, *conversion)
        if it.name in SHIFTS:
            return self.shift(it, [self.string(it.arguments[0], it.type), self.lowered(it.arguments[1])], size)
        values = [self.lowered(one) for one in it.arguments]
        return self.choice(it, values) if it.name == "MUX" else replace(it, arguments=values)

    def shift(self, it: Call, values: list[Expression], size: int) -> Expression:
        """Return a shift or a rotation. One by a negative number is refused, or stops the run."""
        found = numbers(it.arguments[1])
        if (value_of(values[1]) or 0) < 0:
            self.refuse(it.arguments[1].start, f"{it.name} by a negative number is not in the standard")
        elif found.least < 0:
            values[1] = checked(values[1], Range(0, 2**max(found.most, 1).bit_length() - 1))
        return shifted(it.name, values[0], values[1], size, self.again)

    def choice(self, it: Call, values: list[Expression]) -> Expression:
        """Return MUX as SEL inside SEL. An index that no input has stops the run, as 2 * (2^127 - 1) passes 128 bits."""
        last, start = len(values) - 2, it.start
        found = numbers(it.arguments[0])
        index = self.again(values[0], it.arguments[0].type if it.arguments[0].type in RANGES else "LINT")
        whole = index
        if not Range(0, last).has(found):
            is_wrong = join("OR", join("<", index, number(0, start), "BOOL"), join(">", index, number(last, start), "BOOL"), "BOOL")
            wrong = Call(start, index.type, "SEL", [is_wrong, number(0, start), number(2**127 - 1, start)])
            whole = join("+", index, join("*", number(2, start), wrong))

        def chosen(first: int, end: int, key: Expression) -> Expression:
            if end - first == 1:
                return values[1 + first]
            middle = (first + end) // 2
            is_low = join("<", key, number(middle, start), "BOOL")
            return Call(start, it.type, "SEL", [is_low, chosen(middle, end, index), chosen(first, middle, index)])
        return chosen(0, last + 1, whole)

    def conversion(self, it: Call, source: str, target: str) -> Expression:
        """Return a conversion, which keeps to the numbers of its source and its target."""
        argument = it.arguments[0]
        value, source = self.lowered(argument), source or argument.type
        if source == target == "BOOL":
            return Group(it.start, target, value)
        if source == "BOOL":
            return of_truth(value, target)
        found = numbers(argument)
        if target == "BOOL":
            return to_truth(fitted(value, found, RANGES.get(source, found), self.overflow)[0], source)
        result, _ = converted(value, found, source, target, self.overflow)
        if result is value:
            self.note(it, f"{it.name} goes away: each value fits")
            return Group(it.start, target, value)
        self.note(it, f"{it.name}: {ABOUT['bits' if {source, target} & BITS.keys() else self.overflow]}")
        return result
