#!/usr/bin/env python3
"""tools/citations.py: finds sections of pages that a text of the repository names, as in: README.md, "Install", and that do not exist.

The texts are the pages, and the comments and texts of crates/, tools/, python/ and cases/. docs/FORMATS.md is an index of docs/formats/.
The program's own texts and the definitions name sections by it; pages, tools and cases name the page that has the section.
tools/documents.py calls this."""

import functools
import glob
import os
import re

from kit import TOP

INDEX, INDEXED = "docs/FORMATS.md", "docs/formats"
# A page that the index names besides: what the program prints.
HELP = "docs/HELP.md"
FOLDERS = ("", "docs/", "docs/maintain/", "docs/notes/", f"{INDEXED}/")
SECTION = r'\\?"([^"\\\n]+)\\?"'
CITATION = re.compile(rf'(?<![\w/.])((?:[\w-]+/)*[\w-]+\.md),\s+{SECTION}((?:(?:,| and|, and)\s+{SECTION})*)')
# A line end inside a comment, with the sign that begins the next line of it.
LINE_END = re.compile(r"\n[ \t]*(?:#|//[/!]?|--)?[ \t]*")
# What tools/explained.py writes into a page: texts of the program, which name the index.
EXPLAINED = re.compile(r"<!-- The explanations.*?<!-- The end of the explanations -->", re.S)
SOURCES = ("crates/*/src/**/*.rt", "crates/*/specs/**/*.antt", "tools/*.py", "python/**/*.py", "python/**/*.toml", "cases/**/*.toml")
# It names sections that do not exist.
OWN_TEST = "tools/citations_test.py"


def text_of(place):
    with open(f"{TOP}/{place}", encoding="utf-8") as it:
        return it.read()


def without_code(text):
    return re.sub(r"```.*?```", "", text, flags=re.S)


@functools.cache
def headings(page):
    """Returns the headings of a page, in small letters."""
    return [it.lower() for it in re.findall(r"^#+ (.*)$", without_code(text_of(page)), re.M)]


@functools.cache
def entries(page):
    """Returns the texts in bold of a page, in small letters: entries of lists are named by them."""
    text = re.sub(r"`[^`\n]*`", lambda it: it[0].replace("*", ""), without_code(text_of(page)))
    return [" ".join(it.lower().split()) for it in re.findall(r"\*\*(.*?)\*\*", text, re.S)]


def has(page, section):
    """Whether a page has a section with these words in its heading, or an entry."""
    return any(" ".join(section.lower().split()) in it for it in [*headings(page), *entries(page)])


def page_of(name, here):
    """Returns the page that a text in the file `here` calls by this name, or None."""
    found = (os.path.normpath(f"{folder}{name}") for folder in (os.path.dirname(here) + "/" * ("/" in here), *FOLDERS))
    return next((it for it in found if os.path.isfile(f"{TOP}/{it}")), None)


def pages_of_formats():
    return sorted(os.path.relpath(it, TOP) for it in glob.glob(f"{TOP}/{INDEXED}/*.md")) + [HELP]


def fault_of(here, name, section):
    """Returns what is wrong with a section that the file `here` names, or None."""
    page = page_of(name, here)
    if page != INDEX:
        return None if page and has(page, section) else f"{here}: {name} has no section {section}"
    having = next((it for it in pages_of_formats() if section.lower() in headings(it)), None)
    having = having or next((it for it in pages_of_formats() if has(it, section)), None)
    if not having:
        return f"{here}: no page of {INDEXED}/ has a section {section}"
    if here.startswith("crates/"):
        return None if f'"{section}' in text_of(INDEX) else f"{INDEX}: lacks the section {section}, which {here} names"
    return f"{here}: {INDEX} is an index: {having} has the section {section}"


def named_in(text):
    """Yields the sections that a text names, each with the name of its page."""
    for found in CITATION.finditer(LINE_END.sub(" ", EXPLAINED.sub("", text))):
        for section in [found[2], *re.findall(SECTION, found[3])]:
            yield found[1], section


def index_faults():
    """Returns the rows that the index lacks: each row of its table has a page and all its headings, in their order."""
    sections = {it: re.findall(r"^#+ (.*)$", without_code(text_of(it)), re.M) for it in pages_of_formats()}
    # (the first heading of the help is its name)
    sections[HELP] = sections[HELP][1:]
    rows = [f"| [{os.path.basename(it).removesuffix('.md').lower()}]({os.path.relpath(it, 'docs')}) | "
            + ", ".join(f'"{of}"' for of in names) + " |" for it, names in sections.items()]
    lines = text_of(INDEX).splitlines()
    return [f"{INDEX}: lacks the row {it}" for it in rows if it not in lines]


def faults(pages):
    """Returns the sections that these pages and the sources name and that do not exist."""
    sources = sorted({os.path.relpath(it, TOP) for kind in SOURCES for it in glob.glob(f"{TOP}/{kind}", recursive=True)} - {OWN_TEST})
    texts = [(it, without_code(text_of(it))) for it in pages] + [(it, text_of(it)) for it in sources]
    found = [fault_of(here, *it) for here, text in texts for it in named_in(text)]
    return [it for it in found if it] + index_faults()
