#!/usr/bin/env python3
"""tools/versions_test.py: checks that tools/versions.py finds files with another version, and wrong headings of CHANGELOG.md."""

import re
import sys

import versions

# What is changed: a file, an expression that is there once or more, and what takes its place.
CHANGES = (
    ("crates/fbsim_line/src/line.rt", r'(VERSION: &str = ")\d+', r"\g<1>9"),
    ("python/src/fbsim/__init__.py", r'(__version__ = "\d+\.)\d+', r"\g<1>99"),
    ("python/pyproject.toml", r'version = \{ attr.*\}', 'version = { attr = "fbsim.other" }'),
    ("editors/vscode/package.json", r'"version": "\d+', '"version": "9'),
    (versions.LOG, r"(?m)^## 1\.1\.0 \(.*\)", "## 1.9.0 (2026-11-29)"),
    (versions.LOG, r"(?m)^## 1\.1\.0 \(.*\)", "## 1.1.0 (2099-01-01)"),
    (versions.LOG, r"(?m)^## 1\.1\.0 \(.*\)", "## 1.1.0 (unreleased)"),
    (versions.LOG, r"(?m)^## 1\.1\.0 \(.*\)", "## 1.1.0, 2026-11-29"),
    (versions.LOG, r"(?m)^## 1\.1\.0 \(.*\)", "## 1.1.0"),
    (versions.LOG, r"\A", "# Changelog\n\n## 9.0.0 (2026-12-31)\n\n"),
)


def main():
    """Returns the status: 0 if each change is found."""
    given, missed = versions.content, []
    for page, old, new in CHANGES:
        changed, count = re.subn(old, new, given(page))
        versions.content = lambda it, page=page, text=changed: text if it == page else given(it)
        if not count or not versions.faults():
            missed.append(f"{page}: {old} to {new}")
    versions.content = given
    for it in missed:
        print(f"versions: not found: {it}")
    print(f"versions: {len(CHANGES) - len(missed)} of {len(CHANGES)} wrong versions are found")
    return int(bool(missed))


if __name__ == "__main__":
    sys.exit(main())
