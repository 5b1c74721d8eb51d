"""Tests of patterns: the table that the program passes too, random ones against the program, and unknown names."""

import random
import tomllib

import pytest
from common import CYCLE, TOP, application, trace_in

import fbsim

ONE, OTHER = tomllib.loads((TOP / "cases" / "patterns.toml").read_text())["group"]


@pytest.mark.parametrize("pattern, line, answer", ONE["rows"])
def test_a_line_is_of_a_pattern_or_not(tmp_path, pattern, line, answer):
    trace = trace_in(tmp_path, line, "end 2")
    assert trace.where(pattern).count() == {"${yes}": 1, "${no}": 0}[answer]


@pytest.mark.parametrize("pattern", [it[0] for it in OTHER["rows"]])
def test_a_text_is_no_pattern(pattern):
    with pytest.raises(fbsim.InputFault, match="is no pattern: "):
        fbsim.Pattern(pattern)


@pytest.mark.parametrize("pattern", [None, 5, b"* * *", ["* * *"]])
def test_what_is_no_text_is_no_pattern(pattern):
    with pytest.raises(fbsim.InputFault, match="is no pattern: it is a text"):
        fbsim.Pattern(pattern)


NAMES = ["A", "B", "AB", "LANE1", "LANE2", "LANE12", "X_Y", "E", "EO", "A1"]
VALUES = ["0", "1", "-1", "2", "TRUE", "FALSE", "18446744073709551615", "-3"]
VARIABLES = ["N", "M", "Q", "P"]


def random_line(chance, tick):
    """Returns a line of a few names and values."""
    port = ".".join(chance.choice(NAMES) for _ in range(chance.randint(2, 4)))
    words = [f"{it}={chance.choice(VALUES)}" for it in chance.sample(VARIABLES, chance.randint(0, 3))]
    return " ".join([str(tick), chance.choice(["R1", "R2"]), chance.choice("<>"), port, *words])


def random_part(chance):
    """Returns a name of a port, often with a star in it."""
    name, at = chance.choice(NAMES), chance.random()
    if at < 0.45:
        return name
    if at < 0.7:
        return "*"
    cut = chance.randint(0, len(name))
    return name[:cut] + "*" + name[chance.randint(cut, len(name)):]


def random_pattern(chance):
    """Returns a text that most often is a pattern."""
    names = [random_part(chance) for _ in range(chance.choice([1, 2, 2, 2, 3, 3, 4]))]
    if chance.random() < 0.3:
        names[-1] = "*"
    words = [chance.choice(["*", "*", "R1"]), chance.choice(["*", "*", "<", ">"]), ".".join(names)]
    for _ in range(chance.choice([0, 0, 1, 1, 2])):
        other = chance.choice([*VALUES, *VARIABLES])
        words.append(f"{chance.choice(VARIABLES)}{chance.choice(['=', '<>', '<', '<=', '>', '>='])}{other}")
    text = chance.choice([" ", " ", "  "]).join(words)
    if chance.random() < 0.2:
        # A slip: a character more, or one of another kind.
        at = chance.randint(0, len(text))
        text = text[:at] + chance.choice("*.= <>01aR-\t") + text[at + chance.randint(0, 1):]
    return text.lower() if chance.random() < 0.1 else text


def is_pattern(text):
    try:
        fbsim.Pattern(text)
    except fbsim.InputFault:
        return False
    return True


def test_five_thousand_random_patterns_are_those_of_the_program(tmp_path):
    """A break of a session takes or refuses each, and `expect` counts the lines of each that is one."""
    chance = random.Random(11)
    lines = [random_line(chance, tick) for tick in range(60)]
    trace = trace_in(tmp_path, *lines, "end 100")
    read, patterns = list(trace), [random_pattern(chance) for _ in range(5000)]
    right = [it for it in patterns if is_pattern(it)]
    assert 3000 < len(right) < 4500
    with application(tmp_path, CYCLE).session() as s:
        # (the program itself: a session would ask for the names before)
        for it in patterns:
            s._talk.send(f"break {it}")
            answer = s._talk.line(None)
            assert answer.startswith("= break ") == is_pattern(it), it
            if answer.startswith("= break "):
                s._talk.send(f"clear {answer.split()[2]}")
                assert s._talk.line(None).startswith("= clear")
    counts = [sum(map(fbsim.Pattern(it).matches, read)) for it in right]
    assert sum(it == 0 for it in counts) < 2500 < sum(it < 60 for it in counts)
    for at in range(0, len(right), 1000):
        rules = [
            f'[[rule]]\nname = "{k}"\ncount = "{it}"\nleast = {count}\nmost = {count}\n'
            for k, (it, count) in enumerate(zip(right[at:at + 1000], counts[at:at + 1000]))
        ]
        (tmp_path / "some.rules").write_text("".join(rules))
        report = trace.expect(tmp_path / "some.rules")
        assert len(report.of("kept")) == len(rules)


# Names that the conveyor does not have.
UNKNOWN = {
    "CTRL < BELT.EO": "there is no resource CTRL",
    "* < BELL.EO": "there is no instance BELL (the nearest name is BELT)",
    "* < BELT.E0": "BELT has no event output E0",
    "* > BELT.EO": "these are event outputs: the sign is <",
    "STATION < BELT.EO": "BELT",
    "* < BELT.EO G=TRUE": "EO has no variable G",
    "* < GA*.LIFTED": "no event of any instance has this port",
}


@pytest.mark.parametrize("pattern, what", UNKNOWN.items())
def test_names_that_nothing_of_the_application_has(conveyor, pattern, what):
    tries = [
        lambda: conveyor.where(pattern), lambda: conveyor.where("* * *").where(pattern),
        lambda: conveyor.latencies(pattern, "* * *"), lambda: conveyor.latencies("* * *", pattern),
        lambda: conveyor.application.stream(horizon=5).where(pattern),
        lambda: conveyor.application.sweep({"WORK.DT": [1]}, horizon=5, latencies={"x": (pattern, "* * *")}),
    ]
    for call in tries:
        with pytest.raises(fbsim.InputFault) as caught:
            call()
        assert str(caught.value).startswith(f'"{pattern}": ') and what in str(caught.value)
    assert fbsim.Trace(conveyor.path).where(pattern).count() == 0


def test_signals_that_nothing_of_the_application_has(conveyor):
    with pytest.raises(fbsim.InputFault, match="^BELL.Q: there is no instance BELL$"):
        conveyor.signal("bell.q")
    with pytest.raises(fbsim.InputFault, match="^BELT.QQ: no event of BELT has the variable QQ$"):
        conveyor.plot(["BELT.Q", "BELT.QQ"])
    for name in ("Q", "BELT.Q.", "BELT Q", "BELT.Q X=1", ".Q", "BE*.Q"):
        with pytest.raises(fbsim.InputFault, match="is no signal: it is INSTANCE.VARIABLE"):
            conveyor.signal(name)
    assert fbsim.Trace(conveyor.path).signal("BELL.Q") == ([], [])


def test_an_application_that_changes_is_asked_again(tmp_path):
    plant = application(tmp_path, CYCLE)
    trace = plant.run(horizon=8)
    with pytest.raises(fbsim.InputFault, match="there is no instance D"):
        trace.where("* < D.EO")
    plant = application(tmp_path, CYCLE.replace("END_FBS", "D : E_MERGE; END_FBS"))
    assert trace.where("* < D.EO").count() == 0 and plant.session().where("* > D.EI1").count() == 0
