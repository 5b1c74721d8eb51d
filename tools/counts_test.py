#!/usr/bin/env python3
"""tools/counts_test.py: checks that tools/counts.py finds counts that are not right. Each change to a page makes one fault at least."""

import re
import sys

import counts

# What is changed: a page, an expression, what takes its place, and a word of the fault.
CHANGES = (
    (counts.CHANGING, r"lists \d+\s+files", "lists 1 files", "files, not 1"),
    (counts.CHANGING, r"`cases/changes/option.patch` changes \d+\s+files", "`cases/changes/option.patch` changes 99 files", "option.patch changes"),
    (counts.CHANGING, r"`cases/changes/option.patch` changes", "The option's patch changes", "option.patch is not named"),
    (counts.CHANGING, r"`grep -rl[^`]*`\s+lists\s+\d+\s+files", "others", "no `grep -rl ..` lists files"),
    (counts.ARCHITECTURE, r"\| blocks \| \d+,", "| blocks | 99,", "off by more than a twentieth"),
    (counts.ARCHITECTURE, r"\| rules \| .*\n", "", "off by more than a twentieth"),
    (counts.ARCHITECTURE, r"\n stops          fb_stop\n", "\n", "off by more than a twentieth"),
    (counts.CONTRIBUTING, r"`fbsim_command` \(\d+,", "`fbsim_command` (9,", "off by more than a twentieth"),
    (counts.CONTRIBUTING, r"`fb_expect` \(", "`fb_link` (", "off by more than a twentieth"),
    (counts.CONTRIBUTING, r"[\d,]+ lines of `src/`", "9 lines of `src/`", "lines more of src/ than before"),
    (counts.CONTRIBUTING, r"and [\d,]+ of `specs/`", "and 9,999 of `specs/`", "lines of specs/ are wider"),
    (counts.CONTRIBUTING, r"of `specs/` are wider", "of `specs/` are too wide", "does not say how many lines are wider"),
    ("docs/PROFILE.md", r"\A", "word " * counts.MOST_WORDS_OF_DOCS, "and is to have at most"),
)


def main() -> int:
    """Returns the status: 0 if each change is found."""
    given, missed = counts.text_of, []
    for page, old, new, word in CHANGES:
        changed, found = re.subn(old, new, given(page))
        counts.text_of = lambda it, page=page, text=changed: text if it == page else given(it)
        if not found or not any(word in it for it in counts.faults()):
            missed.append(f"{page}: {old} to {new[:60]}")
    counts.text_of = given
    # (a count that is off by little is as good as the right one)
    near = (("| a | 1,000 |", "| a | 1,049 |", True), ("| a | 1,000 |", "| a | 1,100 |", False), ("| a | 3 |", "| b | 3 |", False), ("2 files", "3 files", True))
    missed += [f"{a} and {b}" for a, b, are_near in near if counts.are_near(a, b) != are_near]
    for it in missed:
        print(f"counts: not found: {it}")
    print(f"counts: {len(CHANGES) + len(near) - len(missed)} of {len(CHANGES) + len(near)} are judged as they must be")
    return int(bool(missed))


if __name__ == "__main__":
    sys.exit(main())
