"""The version, in each file that has one.

That of CHANGELOG.md is the newest with a date. The program, the Python package and the files for VS Code have the same one, and the wheel
takes it from the Python package. A version that is not released yet is the first of CHANGELOG.md, and has no date."""

import re
from itertools import pairwise

import unbuilt
from kit import TOP

# Each file with its line that has the version.
LINES = {
    "crates/fbsim_line/src/line.rt": 'const VERSION: &str = "{}";',
    "python/src/fbsim/__init__.py": '__version__ = "{}"',
    "python/pyproject.toml": 'version = {{ attr = "fbsim.__version__" }}',
    "editors/vscode/package.json": '"version": "{}"',
}
LOG = "CHANGELOG.md"
HEADING = re.compile(r"(\d+)\.(\d+)\.(\d+) \((unreleased|20\d\d-\d\d-\d\d)\)")
FIRST = "1.0.0"


def content(page):
    return unbuilt.content(f"{TOP}/{page}")


def faults_of_log(text):
    """Yields what is wrong with the headings of CHANGELOG.md: their form, and the order of versions and dates."""
    found = []
    for it in re.findall(r"(?m)^## (.*)$", text):
        heading = HEADING.fullmatch(it)
        if heading:
            found.append((tuple(map(int, heading.groups()[:3])), heading[4]))
        elif it != FIRST:
            yield f"{LOG}: {it} is no version with a date, and not unreleased"
    for (version, date), (older, earlier) in pairwise(found):
        if version <= older or date < earlier or earlier == "unreleased":
            yield f"{LOG}: {older} ({earlier}) is not before {version} ({date})"


def faults():
    """Returns the files that have another version than CHANGELOG.md, and what is wrong with its headings."""
    text = content(LOG)
    newest = re.search(r"(?m)^## (\d+\.\d+\.\d+) \(\d", text)[1]
    wanted = {page: line.format(newest) for page, line in LINES.items()}
    lacking = [f"{page}: lacks {line}, as {LOG} has it" for page, line in wanted.items() if line not in [it.strip(" ,") for it in content(page).splitlines()]]
    return [*lacking, *faults_of_log(text)]
