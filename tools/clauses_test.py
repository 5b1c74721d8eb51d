#!/usr/bin/env python3
"""tools/clauses_test.py: checks that tools/clauses.py knows which functions have a clause, of their own or of their trait, of which kind the
others are, and pages whose counts are wrong."""

import re
import sys

import clauses
from functions import functions
from kit import TOP, rtlib

TEXT = """pub trait Named {
    ghost called: { Self → List ℕ };

    fn name(&self) -> &Name
        ensures { result.now ≡ called self.now };

    fn size(&self) -> usize;
}

impl Named for Port {
    ghost called = { λ self. self };

    fn name(&self) -> &Name {
        &self.name
    }

    fn size(&self) -> usize {
        1
    }
}

impl From<AllocError> for Fault {
    fn from(_error: AllocError) -> Fault {
        Fault::Memory
    }
}

impl From<ReadFault> for Fault {
    ghost from_gives = { λ fault result. result ≡ fault };

    fn from(fault: ReadFault) -> Fault {
        Fault::Read(fault)
    }
}

impl Ord for Port {
    fn cmp(&self, other: &Port) -> Ordering {
        self.name.cmp(&other.name)
    }
}

impl Drop for Port {
    fn drop(self) {
        let Port { name } = self;
    }
}

/// The first of both.
pub fn first(one: u8, two: u8) -> u8
    requires { one.now ≤ two.now }
    ensures least { result ≡ one.now }
{
    one
}

pub fn second(one: u8, two: u8) -> u8
    requires { one.now ≤ two.now }
{
    // It ensures nothing:
    two
}
"""
# The functions of the text without a clause, by their lines.
BARE = {"size": 17, "from": 23, "drop": 43, "second": 56}
KINDS = {
    ("fb_types/src/port.rt", "drop"): "frees memory", ("fb_why/src/messages/kind.rt", "push_part"): "makes texts for people",
    ("fb_sim/src/rounds/pace.rt", "from"): "makes one error of another", ("fb_sim/src/rounds/pace.rt", "judge"): "is a guess, a count or a time",
    ("fb_types/src/port.rt", "push"): "others",
}
CHANGES = (
    ("README.md", r"\b\d+( of more than [\d,]+\s+functions)", r"1\1"), ("README.md", r"of more than [\d,]+(\s+functions)", r"of more than 9,900\1"),
    ("README.md", r"functions\s+have no clause", "functions have clauses"), (clauses.PAGE, r"\| frees memory \| \d+ \|", "| frees memory | 1 |"),
    (clauses.PAGE, r"\| others \| .*\n", ""),
)


def faults():
    """Yields what the tool does not know."""
    lines, promised = TEXT.split("\n"), clauses.promised_by([TEXT])
    found = {it.name: it.named for it in functions("src/lib.rt", TEXT) if not clauses.has_clause(lines, it, promised)}
    if found != BARE:
        yield f"without a clause are {found}"
    yield from (f"{name} of {place} is of another kind" for (place, name), kind in KINDS.items() if clauses.kind_of(place, name) != kind)
    given = rtlib.text_of
    for page, old, new in CHANGES:
        changed, count = re.subn(old, new, given(f"{TOP}/{page}"))
        rtlib.text_of = lambda it, page=page, text=changed: text if it == f"{TOP}/{page}" else given(it)
        if not count or not clauses.faults():
            yield f"not found: {page}: {old} to {new}"
    rtlib.text_of = given


def main():
    """Returns the status: 0 if everything is known."""
    found = [*faults()]
    for it in found:
        print(f"clauses: {it}")
    print(f"clauses: {len(found)} faults in {len(BARE) + len(KINDS) + len(CHANGES)} cases")
    return int(bool(found))


if __name__ == "__main__":
    sys.exit(main())
