#!/usr/bin/env python3
"""tools/expected.py: tries each kind of token at each place of a declaration, and compares with what `--why` says is expected there.

A declaration with each rule of the grammar is cut before each of its tokens. Of the text before it `--why` prints the tokens with which
it could go on: this takes one place for each such list. Each kind of token is put there in turn. If the text is refused at that token,
`--why` must print the same list, without it. If the text is refused later, or accepted, the list must have it. So the lists are compared
with the grammar that the reader accepts.

./gate makes these calls each time it has run the program. Without ./gate they use the program that ./simulate built."""

import re
import sys

from kit import TOP
from program import Room, side_by_side

PROGRAM = "fbsim"
SHOWN = 5

DECLARATION = """FUNCTION_BLOCK F EVENT_INPUT GO WITH X, B; HALT; END_EVENT EVENT_OUTPUT DONE WITH Y; END_EVENT
VAR_INPUT X : INT := - 3; B, C : BOOL := TRUE; END_VAR VAR_OUTPUT Y : TIME := T#1s; END_VAR VAR V : ULINT; END_VAR
EC_STATES IDLE; RUN : A -> DONE, -> DONE; END_STATES
EC_TRANSITIONS IDLE TO RUN := GO [ B ]; RUN TO IDLE := 1; RUN TO IDLE := [ C ]; END_TRANSITIONS
ALGORITHM A IN ST : ; EXIT; RETURN; V := X + 1 * - V; IF B THEN ; ELSIF C THEN ; ELSE ; END_IF;
CASE X OF 1, - 2 .. 3 : ; 4 : ; ELSE ; END_CASE; FOR V := 1 TO 2 BY 3 DO ; END_FOR; WHILE B DO ; END_WHILE;
REPEAT ; UNTIL B END_REPEAT; Y := MIN ( X, ( 2 ) ) = LAST ( ) OR B AND NOT C XOR X < 4; END_ALGORITHM END_FUNCTION_BLOCK
FUNCTION_BLOCK G EVENT_INPUT EI; END_EVENT FBS I : F; END_FBS EVENT_CONNECTIONS EI TO I . GO; END_CONNECTIONS END_FUNCTION_BLOCK
APPLICATION A FBS I : F ( X := 1, B := TRUE ); J : F; END_FBS
EVENT_CONNECTIONS I . DONE TO J . GO; END_CONNECTIONS DATA_CONNECTIONS I . Y TO J . X; END_CONNECTIONS END_APPLICATION"""
TOKEN = re.compile(r"T#\w+|\w+|:=|->|\.\.|[;:,.()\[\]+*<=-]")

# How the list calls each token that is no keyword and no sign, and such a token. IN and ST are names, and listed where the grammar asks
# for them alone.
KINDS = {"name": "QQ", "whole": "1", "time": "T#2ms"}
WORDS = ("IN", "ST")
KEYWORDS = """FUNCTION_BLOCK END_FUNCTION_BLOCK APPLICATION END_APPLICATION EVENT_INPUT EVENT_OUTPUT END_EVENT WITH VAR_INPUT VAR_OUTPUT VAR
END_VAR FBS END_FBS EVENT_CONNECTIONS DATA_CONNECTIONS END_CONNECTIONS EC_STATES END_STATES EC_TRANSITIONS END_TRANSITIONS ALGORITHM
END_ALGORITHM TO BOOL SINT INT DINT LINT USINT UINT UDINT ULINT TIME TRUE FALSE IF THEN ELSIF ELSE END_IF CASE OF END_CASE FOR BY DO
END_FOR WHILE END_WHILE REPEAT UNTIL END_REPEAT EXIT RETURN AND OR XOR NOT MOD""".split()
SIGNS = "; : , . .. ( ) [ ] := -> = <> < > <= >= + - * / &".split()
TRIED = {**KINDS, **{it: it for it in (*WORDS, *KEYWORDS, *SIGNS)}}

# What is probably meant, which may follow the list.
HINT = re.compile(
    r" \((an earlier line ends|a word of|ELSE IF begins|comments do not nest|the word before|equal is|AND is|there is no sign|a condition is"
    r"|:= assigns|TO leads|a keyword|a number has no sign).*\)$"
)


def listed(line, found):
    """Returns the tokens that a line of --why lists, none if it has no list, if it is about this token; None if it is about another."""
    before, is_found, words = HINT.sub("", line).partition(f" found {found}")
    return {*words.removeprefix(", expected ").removeprefix("one of ").split()} if is_found else None


def why(room, text):
    """Returns the line of the place that --why prints of a declaration, or nothing if it is accepted."""
    ran = room.call(["check", "-", "--why"], text.encode())
    return "".join(ran.stderr.decode().splitlines()[1:2])


def places(room):
    """Returns the texts before tokens of the declaration, each with the tokens that --why lists there: one text for each list."""
    tokens = TOKEN.findall(DECLARATION)
    texts = [" ".join(tokens[:count]) for count in range(len(tokens))]
    found = {}
    for text, line in zip(texts, side_by_side(lambda it: why(room, it), texts)):
        words = listed(line, "the end of the text")
        # (a text that is whole so far is not refused at its end)
        if words is not None:
            found.setdefault(frozenset(words), (text, words))
    return [*found.values()]


def fault_of(room, case):
    """Returns what is wrong with the list of tokens after a text, by one token that is put there, or None."""
    text, words, name, token = case
    # (a condition is listed as 1, which is the only whole number there)
    is_listed = name in words or token in words
    # (on the same line: a semicolon that is missing at the end of a line is shown there, and not at the token)
    line = why(room, f"{text} {token}")
    if not line.startswith(f"-:1:{len(text) + 2}: E03: found "):
        is_name = name in WORDS and "name" in words
        return None if is_listed or is_name else f"{text[-60:]!r}: {token} may follow, and is not listed: {sorted(words)}"
    if is_listed:
        return f"{text[-60:]!r}: {token} is listed, and may not follow: {line}"
    return None if listed(line, token) == words else f"{text[-60:]!r}: before {token} another list: {line}; at the end {sorted(words)}"


def try_all(program):
    """Tries all tokens at all places, and returns whether each list was right."""
    with Room(program) as room:
        found = places(room)
        cases = [(*place, name, token) for place in found for name, token in TRIED.items()]
        faults = [it for it in side_by_side(lambda case: fault_of(room, case), cases) if it]
    for it in faults[:SHOWN]:
        print(f"expected: {it}", file=sys.stderr)
    print(f"expected: {len(cases)} tokens at {len(found)} places, {len(faults)} faults", flush=True)
    return bool(cases) and not faults


if __name__ == "__main__":
    sys.exit(0 if try_all(f"{TOP}/crates/{PROGRAM}/out/{PROGRAM}") else 1)
