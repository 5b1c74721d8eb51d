#!/usr/bin/env python3
"""Tests must_fail.py on a small crate that is made for it: tools/must_fail_test.py.

Wrong implementations must be reported as refused, also two of one function. One that the contract allows must be reported as not
refused, with and without written answers. One that does not parse, or names what does not exist, must be reported as no try. What the
prover says of one function in a cycle of calls must not count for another. This takes a minute of processor time, most of it for the
two implementations that are not refused, which are tried twice."""

import os
import sys
import tempfile

from functions import Function, impl_of, words_of
from kit import rt, rtlib
from must_fail import REFUSED, named_in, refusal, try_all

SOURCE = """//! Numbers, for a test of wrong implementations.
#![tactic(auto)]

ghost use Rattle.std.specs.Prelude.{◌≡◌, ◌+◌, ◌≤◌};

/// The number after this one.
pub fn next(number: u32) -> u32
    requires { number ≤ 9 }
    ensures { result ≡ number + 1 }
{
    let step = 1;
    number + step
}

/// A number up to this one.
pub fn part(number: u32) -> u32
    ensures { result ≤ number }
{
    number / 2
}

/// A range of numbers.
pub struct Range {
    pub least: u32,
    pub most: u32,
}

impl Range {
    /// The range of one number alone.
    pub fn of(number: u32) -> Range
        ensures least { result.least ≡ number }
        ensures most { result.most ≡ number }
    {
        Range {
            least: number,
            most: number,
        }
    }
}
"""
ANSWERS = """use Rattle.std.proofs.Common.{refl}
use Rattle.sample.proofs.next.Goals as goal

pub returns : goal.returns
returns c = refl
"""
# Each edit's change, and the words with which it is reported.
EDITS = {
    "a_step_of_two": ("let step = 1;", "let step = 2;", "refused, as it must be"),
    "no_step": ("number + step", "number", "refused, as it must be"),
    "most_is_nothing": ("most: number,", "most: 0,", "refused, as it must be"),
    "a_smaller_part": ("number / 2", "number / 4", "NOT REFUSED"),
    "a_step_of_one": ("let step = 1;", "let step = 2 - 1;", "NOT REFUSED"),
    "of_no_grammar": ("least: number,", "least: ;", "BAD EDIT"),
    "of_no_name": ("        Range {", "        let gone = missing(number); Range {", "BAD EDIT"),
}


def write(path, text):
    os.makedirs(os.path.dirname(path), exist_ok=True)
    with open(path, "w", encoding="utf-8") as it:
        it.write(text)


def test_on_a_crate():
    """Tries all edits in the prover, and returns those that are reported wrongly."""
    with tempfile.TemporaryDirectory(prefix="must-fail-test-") as top:
        write(f"{top}/crates.txt", "sample:\n")
        write(f"{top}/crates/sample/src/lib.rt", SOURCE)
        write(f"{top}/crates/sample/proofs/next/Answers.antt", ANSWERS)
        files = [f"{top}/crates/sample/must-fail/{name}.edit" for name in EDITS]
        for file, (old, new, _) in zip(files, EDITS.values()):
            write(file, f"file: src/lib.rt\nold: {old}\nnew: {new}\n")
        os.environ.pop(rtlib.BACKEND, None)
        rtlib.Crate = rt.Crate
        crate = next(it for it in rtlib.crates_below(top) if it.name == "sample")
        tried = try_all(crate, files, ["--jobs", "1"])
    expected = [(words == "refused, as it must be", words) for *_, words in EDITS.values()]
    return [text for (kind, text), (is_refused, words) in zip(tried, expected) if (kind == REFUSED) != is_refused or words not in text]


def in_cycle(name, span):
    found = Function("src/exec.rt", name, "", "free", span)
    found.cycle, found.cycle_proof = "exec", "proofs/exec/+exec"
    return found


# (the sentences are the prover's)
NOT_PROVED = "fn machine::exec::{}: no proof: expected answers in ./proofs/exec/+exec/Answers.antt; `search` did not prove `run-returns`"
LOST = [
    "fn machine::exec::exec: not proved",
    "./proofs/exec/exec/Answers.antt:5:3: error: `returns-clause-run`: `goal.returns-clause-run`: module `Rattle.machine.proofs.exec.exec.Goals` has no `returns-clause-run` that can be named",
]
ADDED = [LOST[0], "./proofs/exec/exec/Answers.antt:9:15: error: `not-offered`: `missing` is not in scope"]
CASES = [
    # A goal of run counts only for run, whichever function of the cycle is reported as not proved.
    ("run", [NOT_PROVED.format("run")], True),
    ("turn", [NOT_PROVED.format("turn")], False),
    ("run", [NOT_PROVED.format("turn")], False),
    # The same if its written answer fails.
    ("run", ["fn machine::exec::run: not proved", "./proofs/exec/+exec/Answers.antt:5:3: error: `run-returns`: expected type `A`"], True),
    ("turn", ["fn machine::exec::turn: not proved", "./proofs/exec/+exec/Answers.antt:5:3: error: `run-returns`: expected type `A`"], False),
    ("exec", ["fn machine::exec::exec: not proved", "./proofs/exec/+exec/Answers.antt:5:3: error: `run-returns`: expected type `A`"], False),
    # A location in its own source counts, and one in another's does not.
    ("run", ["fn machine::exec::run: not proved", "note: src/exec.rt:12:1: it is not proved that `a` holds (`run-returns`)"], True),
    ("turn", ["fn machine::exec::turn: not proved", "note: src/exec.rt:12:1: it is not proved that `a` holds (`run-returns`)"], False),
    # A missing name does not count, nor a warning, nor what is not proved because invariants are missing.
    ("run", ["fn machine::exec::run: not proved", "./proofs/exec/+exec/Answers.antt:5:3: error: `run-returns`: `x` is not in scope"], False),
    ("run", ["fn machine::exec::run: not proved", "./proofs/exec/+exec/Answers.antt:5:3: error: `run-returns`: record `A` (nearest: .y)", "  has no field `x`"], False),
    ("run", ["fn machine::exec::run: not proved", "note: src/exec.rt:12:1: this `use` brings nothing"], False),
    ("run", [NOT_PROVED.format("run"), "./proofs/exec/+exec/Invariants.antt:5:3: error: `turn-loop`: record has no field `x`"], False),
    # A goal that has another name now may only lack its answer. One of another kind counts, and so does an answer that fails under its old
    # name.
    ("exec", [*LOST, "note: src/exec.rt:4:1: it is not proved that `a` holds (`returns-then-clause-run`)"], False),
    ("exec", [*LOST, "note: src/exec.rt:4:1: it is not proved that `a` holds (`returns-then-clause-fewer`)"], True),
    ("exec", [*LOST, "note: src/exec.rt:4:1: it is not proved that what `step` requires holds at this call (`step-requires`)"], True),
    ("exec", [*LOST, "./proofs/exec/exec/Answers.antt:9:3: error: `returns-in-Some`: expected type `A`"], True),
    # The declaration that must_fail.py adds does not count, and hides nothing.
    ("exec", ADDED, False),
    ("exec", [LOST[0], "./proofs/exec/exec/Answers.antt:9:15: error: `not-offered`: expected type `A`"], False),
    ("exec", [*ADDED, "note: src/exec.rt:4:1: it is not proved that `a` holds (`returns`)"], True),
    # Nor does a file of answers that cannot be read.
    ("exec", [LOST[0], "./proofs/exec/exec/Answers.antt:4:5: error: module `Rattle.machine.proofs.exec.run.Goals`: is private"], False),
    # A function that is proved except for a hole is not refused.
    ("run", ["fn machine::exec::run: depends on a hole in `Rattle.machine.proofs.exec.step.Proof.step_spec`"], False),
]


# What an impl begins with, what rattle calls it, and its kind.
IMPLS = [
    ("impl Range {", "Range", "own"),
    ("impl Model for Range {", "RangeModel", "trait"),
    ("impl From<AllocError> for Range {", "RangeFromAllocError", "trait"),
    ("impl Drop for Range {", "Range", "trait"),
    ("impl<T> Drop for Range<T> {", "Range", "any"),
]


def test_on_impls():
    """Returns the impls that would be looked for at another place than rattle's."""
    return [head for head, *named in IMPLS if [*impl_of(head)] != named]


# Texts, and which of the functions next, part and least each names: not in what only names definitions.
NAMING = [
    ("/// The next number.\npub fn of(number: u32) -> u32\n    ensures next { part number }\n{\n    part(number)\n}\n", {"part"}),
    ("use crate::range::{next, part};\nghost use Rattle.sample.specs.Ranges.{least};\n", set()),
    ("    requires { next number }\n    number.least()\n", {"least"}),
]
PROVING = [
    ("use Rattle.sample.proofs.next.Goals as goal\n\npub least : goal.part\n", {"next"}),
    ("use Rattle.sample.proofs.Steps.{next, least}\nuse Rattle.sample.specs.contracts.part.Goals as part\n", {"part"}),
    ("use Rattle.other.proofs.next.Goals as goal\n", set()),
]


def test_on_names():
    """Returns the texts of which other functions would be taken for named than those that are."""
    functions = {"next", "part", "least"}
    found = [text for text, named in NAMING if words_of(text) & functions != named]
    return found + [text for text, named in PROVING if named_in("sample", text) & functions != named]


def test_on_what_is_said():
    """Has `refusal` judge sentences of the prover, and returns those that it judges wrongly."""
    outside = Function("src/exec.rt", "exec", "", "free", (1, 3, 8))
    functions = {"run": in_cycle("run", (10, 11, 20)), "turn": in_cycle("turn", (22, 23, 30)), "exec": outside}
    return [f"{name}: {lines}" for name, lines, is_refused in CASES if bool(refusal("machine", functions[name], lines)) != is_refused]


def main():
    failed = test_on_impls() + test_on_names() + test_on_what_is_said() + test_on_a_crate()
    for it in failed:
        print(f"FAILED: {it}")
    tried = len(IMPLS) + len(NAMING) + len(PROVING) + len(CASES) + len(EDITS)
    print(f"wrong implementations: {tried - len(failed)} of {tried} are judged as they must be")
    return 1 if failed else 0


if __name__ == "__main__":
    sys.exit(main())
