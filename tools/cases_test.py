#!/usr/bin/env python3
"""tools/cases_test.py: checks that tools/cases.py distinguishes right answers from wrong ones, and reads its files as it says.

The program here is a stub. It writes the declaration that it is given, or refuses it if it begins with E or with `trace`. ./gate
runs this."""

import contextlib
import io
import sys
import tempfile

import cases

STUB = r"""#!/bin/sh
text=$(cat; echo .)
text=${text%.}
case $text in
    E* | "trace "*) printf 'refused %s\n' "$text" >&2; exit 2 ;;
    *) printf '%s' "$text"; case $text in *stop*) exit 1 ;; esac ;;
esac
"""
RIGHT = r'''
[head]
command = "run"
horizon = 8
[text]
end = "end ${last}\n"
last = 8
[[group]]
name = "a text by names"
declaration = "0 A\n${end}"
answer = "0 A\nend 8\n"
[[group]]
name = "columns, and a nest in a nest"
declaration = "${text}${end}"
rows = [["", "end 8\n"], [["(", ["-", "A\n", "", 2], ")", 1], "(--A\n)end 8\n"], [["x", "\n", "y", 0], "\nend 8\n"]]
[[group]]
name = "numbers that rise, none, and numbers that fall"
columns = ["first", "to", "by", "answer"]
declaration = "${up}${down}"
text.up = { numbered = "${below} ${number}\n", from = 1, to = "${to}" }
text.down = { numbered = "${number}\n", from = 2, to = 1, by = -1 }
rows = [[1, 2, 1, "0 1\n1 2\n2\n1\n"], [1, 0, 1, "2\n1\n"]]
[[group]]
name = "within, and one's own text in place of the file's"
declaration = "${before}${text}${end}"
answer = "a1\nend 9\n"
text.last = 9
within.columns = ["before"]
within.rows = [["a"], ["${same}"]]
text.same = "a"
rows = ["1\n"]
[[group]]
name = "a stop, and refusals"
columns = ["declaration", "answer"]
rows = [["stop 1 A steps\n", "stop 1 A steps\n"], ["E03 line 7", "E03 line 7"], ["trace line 2", "trace line 2"]]
[[group]]
name = "accepted, and bytes"
command = "check"
columns = ["declaration", "answer"]
rows = [["accepted\n", "accepted"]]
[[group]]
name = "bytes"
bytes = true
declaration = "\u00FF\n"
answer = "\u00FF\n"
'''
COUNT = 13
# Groups whose answer is not that of the stub.
WRONG = [
    'declaration = "accepted\\n"\nanswer = "E20"',
    'declaration = "E20"\nanswer = "accepted"',
    'declaration = "E20"\nanswer = "E21"',
    'declaration = "E03 line 7"\nanswer = "E03 line 8"',
    'declaration = "E03 line 7"\nanswer = "E03"',
    'command = "run"\ndeclaration = "end 8\\n"\nanswer = "end 9\\n"',
    'command = "run"\ndeclaration = "end 8"\nanswer = "end 8\\n"',
    'command = "run"\ndeclaration = "no stop\\n"\nanswer = "no stop\\n"',
    'declaration = "E20"\nanswer = "E20"\nwhy = "a place\\n"',
    'bytes = true\ncommand = "run"\ndeclaration = "\\u00FF\\n"\nanswer = "\\u00FE\\n"',
]
# Groups that are not valid.
FAULTY = [
    'declaration = "accepted\\n"',
    'answer = "accepted"',
    'declaraton = "accepted\\n"\nanswer = "accepted"',
    'declaration = "${none}"\nanswer = "accepted"',
    'declaration = "accepted\\n"\nanswer = "accepted"\nrows = [["1", "2", "3"]]',
    'declaration = "accepted\\n"\nanswer = "accepted"\nrows = []',
]


def try_text(folder, text):
    """Returns whether the cases of this text have their answers, and what is printed about them."""
    path, printed = f"{folder}/cases.toml", io.StringIO()
    with open(path, "w", encoding="utf-8") as it:
        it.write(text)
    with contextlib.redirect_stdout(printed):
        is_well = cases.run_all(f"{folder}/stub", [path])
    return is_well, printed.getvalue()


def is_none(folder, text):
    try:
        try_text(folder, text)
    except SystemExit:
        return True
    return False


def main():
    faults = []
    with tempfile.TemporaryDirectory(prefix="cases-") as folder:
        with open(f"{folder}/stub", "w", encoding="utf-8") as it:
            it.write(STUB)
        if (said := try_text(folder, RIGHT)) != (True, f"cases: {COUNT} of {COUNT}\n"):
            faults.append(f"right answers: {said}")
        faults += [f"a wrong answer passes: {it}" for it in WRONG if try_text(folder, f'[[group]]\nname = "A"\n{it}\n')[0]]
        faults += [f"a group passes that is none: {it}" for it in FAULTY if not is_none(folder, f'[[group]]\nname = "A"\n{it}\n')]
    print("\n".join(faults) or "cases: right and wrong answers are distinguished")
    return bool(faults)


if __name__ == "__main__":
    sys.exit(main())
