#!/usr/bin/env python3
"""tools/figures_test.py: checks that tools/figures.py finds wrong figures. Each change to a page makes one fault at least."""

import re
import sys

import figures

# What is changed: a page, an expression that is there once or more, and what takes its place.
CHANGES = (
    ("README.md", r"(\| `?compute`?.* \| 200 \| )\d", r"\g<1>7"),
    ("README.md", r"took \d+ minutes", "took 1 minutes"),
    ("README.md", r"\d+(\s+minutes\s+on\s+four\s+processors\s+and)", r"1\1"),
    ("README.md", r"at commit \w{8}", "at commit 00000000"),
    ("README.md", r"(\| blinker \|.*, )\d+( \|\n)", r"\g<1>24\2"),
    ("README.md", r"\| ring \|.*\n", ""),
    ("README.md", r"best of seven", "best of six"),
    ("README.md", r"20\d\d-\d\d-\d\d", "lately"),
    ("CONTRIBUTING.md", r"rattle-kit-\w+", "rattle-kit-0"),
    ("CONTRIBUTING.md", r"\Z", "\n\nThere are 7 crates.\n"),
    ("CONTRIBUTING.md", r"\Z", "\n\nThere are 7 stored cases.\n"),
    ("CONTRIBUTING.md", r"\Z", "\n\nA check takes 17 minutes.\n"),
    ("CONTRIBUTING.md", r"\Z", "\n\nA check takes 17 s.\n"),
    ("README.md", r"\Z", "\n\nTwo workers are 1.9 times as fast.\n"),
    ("README.md", r"\Z", "\n\nIt writes 10.6 million lines a second.\n"),
)


def main():
    """Returns the status: 0 if each change is found."""
    given, missed = figures.text_of, []
    for page, old, new in CHANGES:
        changed, count = re.subn(old, new, given(page))
        figures.text_of = lambda it, page=page, text=changed: text if it == page else given(it)
        if not count or not figures.faults():
            missed.append(f"{page}: {old} to {new}")
    figures.text_of = given
    for it in missed:
        print(f"figures: not found: {it}")
    print(f"figures: {len(CHANGES) - len(missed)} of {len(CHANGES)} wrong figures are found")
    return int(bool(missed))


if __name__ == "__main__":
    sys.exit(main())
