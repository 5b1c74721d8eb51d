#!/usr/bin/env python3
"""tools/citations_test.py: checks that tools/citations.py finds sections that do not exist. Each change to a text makes one fault at least."""

import sys

import citations

# What is changed: a text, what it has, what takes its place, and a word of the fault.
CHANGES = (
    ("SECURITY.md", 'docs/formats/refusals.md, "Limits"', 'docs/formats/refusals.md, "Bounds"', "has no section Bounds"),
    ("SECURITY.md", 'docs/formats/refusals.md, "Limits"', 'docs/FORMATS.md, "Limits"', "docs/formats/refusals.md has the section Limits"),
    ("SECURITY.md", 'docs/formats/refusals.md, "Limits"', 'docs/FORMATS.md, "Bounds"', "has a section Bounds"),
    ("SECURITY.md", 'docs/formats/refusals.md, "Limits"', 'docs/formats/limits.md, "Limits"', "docs/formats/limits.md has no section"),
    ("SECURITY.md", 'docs/formats/refusals.md, "Limits"', 'docs/formats/refusals.md, "Limits" and "Bounds"', "has no section Bounds"),
    ("docs/formats/refusals.md", "\n## Limits\n", "\n## Bounds\n", "has a section Limits"),
    ("docs/formats/program.md", 'refusals.md, "Limits"', 'trace.md, "Limits"', "trace.md has no section Limits"),
    ("docs/FORMATS.md", '"Types and constants"', '"Types"', "crates/fb_why/src/table.rt names"),
    ("docs/FORMATS.md", '"The inside of blocks"', '"Inside"', "lacks the row | [waveforms]"),
    ("docs/formats/session.md", "# A session\n", "# A session\n\n## More\n", 'lacks the row | [session](formats/session.md) | "A session", "More"'),
    ("cases/inspect.toml", '"Inside a\n# trace"', '"Within a\n# trace"', "has no section Within a trace"),
    ("tools/traces.py", '"What is no trace"', '"What is none"', "has no section What is none"),
)


def main():
    """Returns the status: 0 if each change is found."""
    given, missed = citations.text_of, []
    pages = ["SECURITY.md", "docs/FORMATS.md", *citations.pages_of_formats()]
    for page, old, new, word in CHANGES:
        changed = given(page).replace(old, new)
        citations.text_of = lambda it, page=page, text=changed: text if it == page else given(it)
        citations.headings.cache_clear()
        citations.entries.cache_clear()
        if changed == given(page) or not any(word in it for it in citations.faults(pages)):
            missed.append(f"{page}: {old} to {new}")
    citations.text_of = given
    citations.headings.cache_clear()
    citations.entries.cache_clear()
    for it in missed:
        print(f"citations: not found: {it}")
    print(f"citations: {len(CHANGES) - len(missed)} of {len(CHANGES)} wrong sections are found")
    return int(bool(missed))


if __name__ == "__main__":
    sys.exit(main())
