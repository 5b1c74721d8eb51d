"""Strings of bits: the simulator computes with numbers, and Python's operators on bits say what must come out."""

from __future__ import annotations

import random
import re

import pytest
from importing import basic, import_all, place_of

SIZES = {"BYTE": 8, "WORD": 16, "DWORD": 32, "LWORD": 64}


def typed(kind, bodies):
    """Returns a type that samples A, C and N, and has an event input for each of its algorithms, whose result is R or B."""
    names = [f"E{it}" for it in range(len(bodies))]
    inputs = (("A", kind), ("C", kind), ("N", "INT"), ("P", "BOOL"), ("S", "DINT"))
    withs = "".join(f'<With Var="{it}"/>' for it, _ in inputs)
    events = "".join(f'<Event Name="{it}">{withs}</Event>' for it in names)
    states = "".join(f'<ECState Name="S{it}"><ECAction Algorithm="{it}" Output="CNF"/></ECState>' for it in names)
    transitions = "".join(f'<ECTransition Source="START" Destination="S{it}" Condition="{it}"/>'
                          f'<ECTransition Source="S{it}" Destination="START" Condition="1"/>' for it in names)
    algorithms = "".join(f'<Algorithm Name="{it}"><ST><![CDATA[{body}]]></ST></Algorithm>' for it, body in zip(names, bodies))
    given = "".join(f'<VarDeclaration Name="{it}" Type="{one}"/>' for it, one in inputs)
    return f"""<FBType Name="Bits"><InterfaceList><EventInputs>{events}</EventInputs>
<EventOutputs><Event Name="CNF"><With Var="R"/><With Var="B"/><With Var="I"/></Event></EventOutputs><InputVars>{given}</InputVars>
<OutputVars><VarDeclaration Name="R" Type="{kind}"/><VarDeclaration Name="B" Type="BOOL"/><VarDeclaration Name="I" Type="LINT"/></OutputVars>
</InterfaceList><BasicFB><ECC><ECState Name="START"/>{states}{transitions}</ECC>{algorithms}</BasicFB></FBType>"""


def computed(tmp_path, kind, bodies, rows, name="R", *words):
    """Returns, for each algorithm, what it computes from each row of inputs."""
    done = import_all(tmp_path, {"Bits.fbt": typed(kind, bodies)}, *words)
    assert done.status == 0, done.lines
    lines = [f"{number},BITS.E{one},{' '.join(f'{it}={value}' for it, value in row.items())}\n"
             for number, (one, row) in enumerate((one, row) for one in range(len(bodies)) for row in rows)]
    trace = done.run(len(lines), "tick,event,values\n" + "".join(lines))
    found = re.findall(rf"BITS\.CNF.* ?{name}=(\S+)", trace)
    assert len(found) == len(lines)
    return [found[at * len(rows):(at + 1) * len(rows)] for at in range(len(bodies))]


def some(kind, count=60):
    """Returns pairs of strings, with all ones, none and single bits among them."""
    size, draw = SIZES[kind], random.Random(kind)
    ends = [0, 2**size - 1, 1, 2**(size - 1), int("01" * (size // 2), 2)]
    return [(one, other) for one in ends for other in ends] + [(draw.getrandbits(size), draw.getrandbits(size)) for _ in range(count)]


def rotated(value, count, size):
    """Returns a string rotated to the left, bit by bit."""
    digits = f"{value:0{size}b}"
    count %= size
    return int(digits[count:] + digits[:count], 2)


@pytest.mark.parametrize("kind", SIZES)
def test_operators_on_strings_of_bits(kind, tmp_path):
    size = SIZES[kind]
    most, masks = 2**size - 1, [random.Random(size).getrandbits(size), 0b1011]
    rules = {
        "A AND C": lambda a, c: a & c, "A & C": lambda a, c: a & c, "A OR C": lambda a, c: a | c, "A XOR C": lambda a, c: a ^ c,
        "NOT A": lambda a, c: most - a, "NOT (A AND C) XOR A": lambda a, c: (most - (a & c)) ^ a,
        "A AND C OR NOT A AND NOT C": lambda a, c: a & c | (most - a) & (most - c),
        **{f"A AND 16#{it:X}": lambda a, c, it=it: a & it for it in masks}, **{f"2#{it:b} OR A": lambda a, c, it=it: a | it for it in masks},
        **{f"A XOR {kind}#16#{it:X}": lambda a, c, it=it: a ^ it for it in masks},
        "A AND 0": lambda a, c: 0, f"A AND {most}": lambda a, c: a, f"A OR 16#{most:X}": lambda a, c: most,
        "AND(A, C, 16#F)": lambda a, c: a & c & 15, "OR(IN1 := A, IN2 := C)": lambda a, c: a | c,
        "SEL(A = C, A, C) AND 16#F0": lambda a, c: (c if a == c else a) & 0xF0,
    }
    pairs = some(kind)
    found = computed(tmp_path, kind, [f"R := {it};" for it in rules], [{"A": a, "C": c} for a, c in pairs])
    for (text, rule), values in zip(rules.items(), found):
        assert [int(it) for it in values] == [rule(a, c) for a, c in pairs], text


@pytest.mark.parametrize("kind", SIZES)
def test_shifts_and_rotations(kind, tmp_path):
    size = SIZES[kind]
    most = 2**size - 1
    by = {"SHL": lambda a, n: a << n & most if n < size else 0, "SHR": lambda a, n: a >> n,
          "ROL": lambda a, n: rotated(a, n, size), "ROR": lambda a, n: rotated(a, -n, size)}
    counts, values = [0, 1, 3, size - 1, size, size + 1], [a for a, _ in some(kind, 6)][::5]
    constant = [(name, count) for name in by for count in counts]
    found = computed(tmp_path, kind, [f"R := {name}(A, {count});" for name, count in constant], [{"A": a} for a in values])
    for (name, count), row in zip(constant, found):
        assert [int(it) for it in row] == [by[name](a, count) for a in values], (name, count)
    rows = [{"A": a, "N": n} for a in values for n in (*counts, 300)]
    found = computed(tmp_path / "variable", kind, [f"R := {name}(IN := A OR 0, N := N);" for name in by], rows)
    for name, row in zip(by, found):
        assert [int(it) for it in row] == [by[name](it["A"], it["N"]) for it in rows], name


@pytest.mark.parametrize("kind", SIZES)
def test_single_bits_and_bytes_are_read_and_written(kind, tmp_path):
    size = SIZES[kind]
    values = [a for a, _ in some(kind, 10)]
    places = sorted({0, 3, size - 1})
    found = computed(tmp_path, kind, [f"B := A.%X{it};" for it in places] + ["B := A.3;"], [{"A": a} for a in values], "B")
    for place, row in zip([*places, 3], found):
        assert row == ["TRUE" if a >> place & 1 else "FALSE" for a in values], place
    rows = [{"A": a, "P": p} for a in values for p in ("TRUE", "FALSE")]
    bodies = [f"R := A; R.%X{it} := P;" for it in places] + ["R := A; R.%X1 := 1; R.%X2 := FALSE;"]
    *found, last = computed(tmp_path / "written", kind, bodies, rows)
    for place, row in zip(places, found):
        assert [int(it) for it in row] == [it["A"] & ~(1 << place) | (it["P"] == "TRUE") << place for it in rows], place
    assert [int(it) for it in last] == [it["A"] & ~6 | 2 for it in rows]


def test_bytes_and_words_of_longer_strings(tmp_path):
    values = [a for a, _ in some("LWORD", 10)]
    bodies = ["R := A.%B7;", "R := A.%W1 OR 16#0;", "R := A; R.%B1 := A.%B0;", "R := A; R.%D1 := A.%D0;"]
    found = computed(tmp_path, "LWORD", bodies, [{"A": a} for a in values])
    rules = [lambda a: a >> 56, lambda a: a >> 16 & 0xFFFF, lambda a: a & ~0xFF00 | (a & 0xFF) << 8,
             lambda a: (a & 0xFFFFFFFF) * (2**32 + 1)]
    for rule, row in zip(rules, found):
        assert [int(it) for it in row] == [rule(a) for a in values]


# A conversion over A (a WORD) or S (a DINT), a value, and the result, by hand. What is None stops the run.
CONVERTED = [
    ("I := WORD_TO_INT(A);", "A=65535", "I", "-1"),
    ("I := WORD_TO_INT(A);", "A=32767", "I", "32767"),
    ("I := WORD_TO_DINT(A);", "A=65535", "I", "65535"),
    ("I := WORD_TO_SINT(A);", "A=384", "I", "-128"),
    ("I := TO_INT(A);", "A=32768", "I", "-32768"),
    ("R := INT_TO_WORD(N);", "N=-1", "R", "65535"),
    ("R := WORD_TO_BYTE(A);", "A=513", "R", "1"),
    ("R := DWORD_TO_WORD(DINT_TO_DWORD(S));", "S=-2", "R", "65534"),
    ("I := DWORD_TO_LINT(INT_TO_DWORD(N));", "N=7", "I", "7"),
    ("I := DWORD_TO_LINT(INT_TO_DWORD(N));", "N=-7", "I", None),
    ("B := WORD_TO_BOOL(A);", "A=1", "B", "TRUE"),
    ("B := WORD_TO_BOOL(A);", "A=0", "B", "FALSE"),
    ("B := WORD_TO_BOOL(A);", "A=2", "B", None),
    ("R := BOOL_TO_WORD(P);", "P=TRUE", "R", "1"),
    ("R := SHL(A, N);", "A=1 N=-1", "R", None),
]


@pytest.mark.parametrize("body, row, name, result", CONVERTED, ids=[f"{it[0]} {it[1]}" for it in CONVERTED])
def test_conversions_keep_the_bits(body, row, name, result, tmp_path):
    rows = [dict(it.split("=") for it in row.split())]
    if result is not None:
        for words in ((), ("--overflow", "wrap")):
            folder = tmp_path / "".join(words)
            assert computed(folder, "WORD", [body], rows, name, *words) == [[result]]
    else:
        done = import_all(tmp_path, {"Bits.fbt": typed("WORD", [body])})
        assert done.stop(1, f"tick,event,values\n0,BITS.E0,{row}\n").endswith("stop 0 MAIN range\n")


# A body over A (a BYTE) whose operand of an operator on bits leaves its 8 bits, a value of A, and the result with `wrap`,
# by hand in 8 bits; `stop` stops. The result is a LINT, so that upper bits would show.
LEAVING = [
    ("I := BYTE_TO_LINT((A + 1) AND 16#FF);", 255, 0),
    ("I := BYTE_TO_LINT((A + 2) AND 16#81);", 255, 1),
    ("I := BYTE_TO_LINT((A + C) AND C);", 255, 0),
    ("I := BYTE_TO_LINT((A - 1) AND 16#F0);", 0, 0xF0),
    ("I := BYTE_TO_LINT((A + 1) OR 16#0F);", 255, 0x0F),
    ("I := BYTE_TO_LINT((A - 1) XOR C);", 0, 0xFE),
    ("I := BYTE_TO_LINT(NOT (A - 1));", 0, 0),
    ("I := BYTE_TO_LINT(NOT (A * 3));", 0x56, 0xFD),
    ("I := BYTE_TO_LINT(SHR(A + 1, 7));", 255, 0),
    ("I := BYTE_TO_LINT(SHL(A + 1, 3));", 255, 0),
    ("I := BYTE_TO_LINT(SHL(A + 2, N));", 255, 1),
    ("I := BYTE_TO_LINT(ROL(A + 2, 4));", 255, 16),
    ("I := BYTE_TO_LINT(ROR(A + 2, 4));", 255, 16),
    ("I := BYTE_TO_LINT(ROR(SEL(P, A + 2, A - 2), 4));", 255, 16),
    ("IF ((A + 1) AND 16#80) = 0 THEN I := 7; ELSE I := 8; END_IF;", 255, 7),
    ("IF NOT (A - 1) = 0 THEN I := 7; ELSE I := 8; END_IF;", 0, 7),
]


@pytest.mark.parametrize("body, value, result", LEAVING, ids=[it[0] for it in LEAVING])
def test_operands_on_bits_keep_to_their_width(body, value, result, tmp_path):
    row = {"A": value, "C": 1}
    assert computed(tmp_path / "wrap", "BYTE", [body], [row], "I", "--overflow", "wrap", "--strict") == [[str(result)]]
    done = import_all(tmp_path / "stop", {"Bits.fbt": typed("BYTE", [body])}, "--strict")
    assert done.status == 0 and done.stop(1, f"tick,event,values\n0,BITS.E0,A={value} C=1\n").endswith("stop 0 MAIN range\n")


@pytest.mark.parametrize("words", [(), ("--overflow", "wrap")], ids=["stop", "wrap"])
def test_operands_on_bits_that_fit_stay_as_they_are(words, tmp_path):
    # a literal that is longer than A is a longer string, so NOT has its 16 bits
    bodies = ["I := BYTE_TO_LINT((A + 1) AND 16#FE);", "I := BYTE_TO_LINT(SHR(A - 1, 1));", "I := BYTE_TO_LINT(NOT (A / C));",
              "I := WORD_TO_LINT(NOT (A OR 16#100));", "I := WORD_TO_LINT(A OR 16#1F0);", "I := BYTE_TO_LINT(A AND -2);"]
    found = computed(tmp_path, "BYTE", bodies, [{"A": 5, "C": 2}], "I", *words)
    assert found == [["6"], ["2"], ["253"], [str(65535 - 0x105)], [str(0x1F5)], ["4"]]


def test_bits_in_conditions_and_loops(tmp_path):
    # counts the ones of A AND C, by taking the lowest off until none is left; the deep operands need variables
    count = "I := 0; R := A AND C; WHILE ((R AND C) AND 16#FFFF) <> 0 DO R := R AND (R - 1); I := I + 1; END_WHILE;"
    again = "I := 0; R := A; REPEAT I := I + 1; R := SHR(R AND C, 1); UNTIL (R AND C) = 0 END_REPEAT;"
    chosen = """IF A = 1 THEN I := 1; ELSIF ((A AND C) XOR C) = 0 THEN I := 2;
ELSIF ((A OR C) AND 5) = 5 THEN I := 3; ELSE I := 4; END_IF;"""
    case = """VAR_TEMP K : INT; END_VAR I := 0; CASE WORD_TO_INT((A XOR C) AND 3) OF 0: I := 10;
1: FOR K := 0 TO WORD_TO_INT((A OR C) AND 3) DO I := I + 1; END_FOR; ELSE I := 30; END_CASE;"""
    pairs = [(0, 0), (1, 3), (7, 7), (0b1011, 0b1110), (5, 4), (4, 8), (2, 3)]
    found = computed(tmp_path, "WORD", [count, again, chosen, case], [{"A": a, "C": c} for a, c in pairs], "I")
    assert [int(it) for it in found[0]] == [(a & c).bit_count() for a, c in pairs]

    def shifts(a, c):
        rounds = 0
        while True:
            a, rounds = (a & c) >> 1, rounds + 1
            if not a & c:
                return rounds
    assert [int(it) for it in found[1]] == [shifts(a, c) for a, c in pairs]
    assert [int(it) for it in found[2]] == [2, 1, 2, 3, 2, 4, 4]
    assert [int(it) for it in found[3]] == [10, 30, 10, 4, 2, 10, 4]


def test_strings_of_bits_in_guards_parameters_and_initial_values(tmp_path):
    text = basic("SUM := 1;", "REQ[(A AND 2#101) = 5 AND A.%X1 AND (A OR M) = WORD#16#FF]")
    text = text.replace('Name="A" Type="INT"', 'Name="A" Type="WORD"').replace('Name="B" Type="INT"', 'Name="M" Type="WORD" InitialValue="16#F8"')
    done = import_all(tmp_path, {"Adder.fbt": text})
    assert done.status == 0, done.lines
    assert "M : UINT := 16#F8;" in done.text("types.iec")
    stimuli = "tick,event,values\n" + "".join(f"{at},ADDER.REQ,A={a} QI=TRUE\n" for at, a in enumerate((7, 5, 15, 23, 0xFF)))
    # 5 lacks the bit 1; 15 and 23 have all three bits, and give 255 with 16#F8, as do 7 and 255
    assert re.findall(r"^(\d+) MAIN <", done.run(5, stimuli), re.MULTILINE) == ["0", "2", "3", "4"]


# A body over A : WORD and QI : BOOL, the part at which it is refused, and what the line says.
REFUSED = [
    ("B := SHL(3, 1);", "SHL", "SHL takes a string of bits: a variable or a literal of a type BYTE WORD DWORD LWORD"),
    ("B := SHL(B, 1);", "SHL", "SHL takes a string of bits"),
    ("A := SHL(A, -1);", "-1", "SHL by a negative number is not in the standard"),
    ("ON := A.%X16;", "%X16", "%X16 is no part of A, which has 16 bits"),
    ("ON := B.%X1;", "%X1", "%X1 needs a variable of a type BYTE WORD DWORD LWORD"),
    ("A := BYTE#256;", "BYTE#256", "BYTE#256 is no BYTE"),
    ("A := SHL(A);", "SHL", "SHL has the arguments IN, N, all with their names or all without"),
    ("A := A AND QI;", "A AND", "E22"),
]


@pytest.mark.parametrize("body, part, says", REFUSED, ids=[it[0] for it in REFUSED])
def test_what_is_wrong_with_bits_is_refused_at_its_place(body, part, says, tmp_path):
    text = basic("\n" + body).replace('Name="SUM" Type="INT"', 'Name="SUM" Type="INT"').replace('Name="A" Type="INT"', 'Name="A" Type="WORD"')
    done = import_all(tmp_path, {"Adder.fbt": text})
    line, column = place_of(text, body).split(":")
    place = f"Adder.fbt:{line}:{int(column) + body.index(part)}: "
    assert done.status == 2
    assert [it for it in done.lines if it.startswith(place) and says in it], done.lines


def test_a_guard_on_bits_that_gets_too_long_is_refused(tmp_path):
    text = basic("", "REQ[((A AND B) XOR (A OR B)) = 0]").replace('Type="INT"', 'Type="DWORD"')
    done = import_all(tmp_path, {"Adder.fbt": text})
    assert done.lines == [f"Adder.fbt:{place_of(text, '[((A')}: a guard has at most 4,000 characters when it is expanded "
                          "(AND, OR, XOR): compute it in an algorithm"]


def test_an_algorithm_that_gets_too_long_is_refused(tmp_path):
    # each of these has two ANDs of 32 bits, which is some 5,000 characters
    text = basic("A := (A AND B) XOR (A OR B);\n" * 300).replace('Type="INT"', 'Type="DWORD"')
    done = import_all(tmp_path, {"Adder.fbt": text})
    assert done.lines == [f"Adder.fbt:{place_of(text, 'A := (A')}: an algorithm has at most 1,048,576 characters when it is expanded: "
                          "split what has strings of bits or conversions"]


# A body, and the most steps that one of its statements takes more: a variable for each deep operand, or what CONTINUE takes.
STEPS = [
    ("SUM := A AND B;", 0),
    ("SUM := (A OR B) AND (A XOR B);", 2),
    ("IF A = B THEN SUM := 1; ELSIF ((A OR B) AND B) = 3 THEN SUM := 2; END_IF;", 2),
    ("IF A = 1 THEN SUM := 1; ELSIF ((A OR B) AND B) = 3 THEN SUM := 2; ELSIF ((A OR 1) AND B) = 3 THEN SUM := 3; END_IF;", 4),
    ("WHILE ((SUM OR B) AND B) <> 0 DO SUM := 0; END_WHILE;", 4),
    ("FOR B := 1 TO 3 DO IF A > B THEN CONTINUE; END_IF; SUM := A; END_FOR;", 4),
]


@pytest.mark.parametrize("body, more", STEPS, ids=[it[0] for it in STEPS])
def test_the_report_says_how_many_steps_more_a_statement_takes(body, more, tmp_path):
    text = basic(body).replace('Type="INT"', 'Type="WORD"')
    done = import_all(tmp_path, {"Adder.fbt": text})
    assert done.status == 0, done.lines
    line = f"  Adder.fbt:{place_of(text, body)}: a statement or a round of a loop of ADD: at most {more} more steps\n"
    assert (line in done.text("import.txt")) == bool(more)
    assert (f"--steps {(more + 1) * 10_000}\n" in done.text("import.txt")) == bool(more)
