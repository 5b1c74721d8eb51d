#!/usr/bin/env python3
"""tools/documents.py: checks that everything that the documents name exists.

- docs/maintain/ARCHITECTURE.md has each crate of crates.txt in one table row.
- The comment at the head of each crate's src/lib.rt, or of the file that has them, names all modules after "Read in this order".
- docs/maintain/PROOFS.md has each crate, except those of tests, in a row for each promise, and names only functions, clauses and definitions
  that exist.
- Each block of docs/maintain/READING.md is word for word in the file named before it.
- CONTRIBUTING.md names each tool that tools/gate.py calls to check something, and README.md each crate of the kit in crates.txt.
- docs/maintain/DEFINITIONS.md names every file of definitions of the model, and each file of definitions begins with a comment.
- The example in the comment of a public item is the body of the test that it names.
- Every function like `fb_sim::run::run` and every file like `docs/PROFILE.md` that a page names exists, and so does every type or
  definition like `HasTaken`. If a page says in which file a definition is, it is there.
- So does every name like `module::item` in the comments of sources.
- The synopsis of docs/formats/program.md has the commands, options and arguments of docs/HELP.md, and names the commands with --why.
- Each link of a page leads to a file and a heading that there are, and so does each section that a page, a source or a case names as in:
  README.md, "Install" (tools/citations.py).
- Counts of pages are right: files that a command lists, lines by layer, crates over the bounds (tools/counts.py).
- Lines of docs/formats/ have at most 120 columns, except those of tables and of code.
- README.md has at most 2,000 words, docs/FROM_4DIAC.md 1,200, each entry of docs/DECISIONS.md at most 80, each row of docs/maintain/PROOFS.md at most 100.
- The version of CHANGELOG.md is that of the program, of the Python package and of the files for VS Code (tools/versions.py).
- The licence of LICENSE is named where users look for it.
- The figures of README.md and CONTRIBUTING.md are those of their sources, or have a date (tools/figures.py).
- The functions without a clause are as many as docs/maintain/PROOFS.md and README.md say (tools/clauses.py).
- The pages of packages tell of the packages, and of nothing that only the repository has (tools/package_pages.py).

It prints what is wrong and then ends with status 1. ./gate runs it."""

import functools
import glob
import os
import re
import sys
import textwrap

import citations
import clauses
import counts
import figures
import package_pages
import versions
from kit import TOP

ROW = re.compile(r"\| `(fb\w+(?:::\w+)?)` \|.*\|")
TEXTS = re.compile(r"`([^`\n]+)`")
MOST_WORDS = {"README.md": 2000, "docs/FROM_4DIAC.md": 1200}
MOST_WORDS_OF_AN_ENTRY = 80
MOST_WORDS_OF_A_ROW = 100
MOST_COLUMNS = 120
# A file or a folder of the repository, as a page names it.
MENTION = re.compile(r"(?:docs|crates|cases|tools|examples|bench)/[\w./+]*\w")


def text_of(place):
    with open(f"{TOP}/{place}", encoding="utf-8") as it:
        return it.read()


@functools.cache
def sources(place, kind):
    """Returns the text of all files of a kind in a crate, or in a module like `fb_check::types`: `src/*.rt` or `specs/*.antt`."""
    (crate, _, module), (folder, ending) = place.partition("::"), {"src": ("src", "rt"), "specs": ("specs", "antt")}[kind]
    found = glob.glob(f"{TOP}/crates/{crate}/{folder}/{module}/**/*.{ending}", recursive=True)
    return "\n".join([os.path.basename(it).removesuffix(f".{ending}") + "\n" + text_of(os.path.relpath(it, TOP)) for it in sorted(found)])


def crates():
    return [it.split(":")[0].split()[0] for it in text_of("crates.txt").splitlines() if ":" in it and not it.startswith("#")]


def rows(page):
    """Returns the rows of a page's tables that begin with a crate or a module of one, as its name and the cells after it."""
    lines = [it for it in text_of(page).splitlines() if ROW.fullmatch(it)]
    return [(ROW.fullmatch(it)[1], it.strip("| ").split(" | ")[1:]) for it in lines]


def has_all(page, required, may_repeat=False):
    """Returns the faults of a page that must have each of these crates in a row, and in no other one unless crates may repeat."""
    named = [crate for crate, _ in rows(page) if "::" not in crate]
    counts = {it: bool(named.count(it)) if may_repeat else named.count(it) for it in {*required, *named}}
    return [f"{page}: {it} is in {named.count(it)} rows" for it in sorted(counts) if counts[it] != (it in required)]


def reading_order(text):
    """Returns what the comment at the head of a source names after "Read in this order", with `..` at the beginning of an ending."""
    head = "\n".join(re.findall(r"(?m)^//! ?(.*)$", text))
    return set(re.findall(r"`((?:\.\.)?\w+)`", head.partition("Read in this order")[2]))


def module_faults():
    """Returns the modules that neither the file that has them nor src/lib.rt of their crate names in its reading order."""
    faults = []
    for crate in crates():
        places = sorted(glob.glob(f"{TOP}/crates/{crate}/src/**/*.rt", recursive=True))
        texts = {here: text_of(here) for it in places if "/tests" not in (here := os.path.relpath(it, TOP))}
        root = reading_order(texts.get(f"crates/{crate}/src/lib.rt", ""))
        for here, text in texts.items():
            named = root | reading_order(text)
            modules = {*re.findall(r"(?m)^(?:pub(?:\(crate\))? )?mod (\w+);", text)} - {"tests"}
            lacking = [it for it in sorted(modules - named) if not any(end[:2] == ".." and it.endswith(end[2:]) for end in named)]
            faults += [f"{here}: {it} is not named after \"Read in this order\"" for it in lacking]
    return faults


def is_item(crate, path):
    """Whether a crate, or a module of one, has what the last part of a path names: a function, a type or a module."""
    name = re.escape(path.split("::")[-1].split("(")[0])
    items = rf"\b(fn|struct|enum|trait|type|const|mod) {name}\b"
    return bool(re.search(items, sources(crate, "src")))


def proof_faults():
    """Returns the functions, clauses and definitions that docs/maintain/PROOFS.md names and that do not exist."""
    page, faults = "docs/maintain/PROOFS.md", []
    for crate, cells in rows(page):
        code, specs = sources(crate, "src"), sources(crate, "specs") + sources("fb_types", "specs") + sources("fb_check_names", "specs")
        for it in TEXTS.findall(cells[-1]):
            name = it.split("::")[-1]
            if it.startswith("fb_") or "/" in it or it.endswith(".."):
                continue
            there = re.search(rf"\b{name}\b", specs) if name[0].isupper() else is_item(crate, it)
            faults += [] if there else [f"{page}: {crate} has no {it}"]
        for inside in re.findall(r"\(([^()]*)\)", cells[-1]):
            words = inside.split(";")[0].split(",")
            cited = [it.strip() for it in words if re.fullmatch(r"\s*[a-z_]+\s*", it)]
            # (a law's clauses are the fields of a record)
            known = [rf"ensures {it} |\bpub {it} :" for it in cited]
            faults += [f"{page}: {crate} has no clause {it}" for it, found in zip(cited, known) if not re.search(found, code + specs)]
    return faults


def definition_faults():
    """Returns the files of the model that docs/maintain/DEFINITIONS.md does not name, and the files of definitions of all crates that do
    not begin with a comment that says what they define."""
    page, faults = "docs/maintain/DEFINITIONS.md", []
    words = set(re.findall(r"\w+", text_of(page)))
    for place in sorted(glob.glob(f"{TOP}/crates/*/specs/**/*.antt", recursive=True)):
        here, name = os.path.relpath(place, TOP), os.path.basename(place).removesuffix(".antt")
        if name == "Lib" or os.path.isdir(place.removesuffix(".antt")):
            continue
        if not text_of(here).startswith("-- "):
            faults.append(f"{here}: the first line does not say what it defines")
        if os.path.dirname(here) == "crates/fb_types/specs" and name not in words:
            faults.append(f"{page}: {here} is not named")
    return faults


def name_faults(page):
    """Returns the functions and files that a page names and that do not exist."""
    faults = []
    for it in TEXTS.findall(text_of(page)):
        found = re.fullmatch(r"(fb\w+)((?:::\w+)+)(\(.*\))?", it)
        if found and (not os.path.isdir(f"{TOP}/crates/{found[1]}") or not is_item(found[1], found[2])):
            faults.append(f"{page}: there is no {it}")
    paths = [it for it in MENTION.findall(re.sub(r"```.*?```", "", text_of(page), flags=re.S)) if "*" not in it]
    faults += [f"{page}: there is no {it}" for it in paths if not os.path.exists(f"{TOP}/{it}") and not glob.glob(f"{TOP}/crates/{it}*")]
    return faults


def definition_name_faults(page, known):
    """Returns the types and definitions that a page names, of which no source and no definition has the name."""
    text, faults = re.sub(r"```.*?```", "", text_of(page), flags=re.S), []
    # (`HasX` is no name, but a way to make names)
    faults += [f"{page}: there is no {it}" for it in sorted(set(re.findall(r"`([A-Z][a-z]\w*)`", text)) - known) if it[-1] != "X"]
    for name, place in re.findall(r"`([A-Z]\w+)` in\s+`(?:crates/)?(fb_\w+/(?:specs|proofs)/\w+(?:/\w+)*)(?:\.antt)?`", text):
        if not re.search(rf"\b{name}\b", text_of(f"crates/{place}.antt")):
            faults.append(f"{page}: {place} has no {name}")
    return faults


def comment_faults():
    """Returns the names like `module::item` in comments of sources that are nowhere in the code of their crate, or of the crate with
    which they begin."""
    faults, known = [], {it: set(re.findall(r"\w+", re.sub(r"(?m)^\s*//.*$", "", sources(it, "src")))) for it in crates()}
    for crate in crates():
        for place in sorted(glob.glob(f"{TOP}/crates/{crate}/src/**/*.rt", recursive=True)):
            here = os.path.relpath(place, TOP)
            comments = "\n".join(it for it in text_of(here).splitlines() if it.lstrip().startswith("//"))
            # (a type of a crate below has an upper-case letter first)
            for it in re.findall(r"`([a-z]\w*(?:::\w+)+)`", comments):
                of = it.split("::")[0]
                if it.split("::")[-1] not in known[of if of in known else crate]:
                    faults.append(f"{here}: there is no {it}")
    return faults


def block_faults():
    """Returns the blocks of docs/maintain/READING.md that are not in the file of crates/ that was named last."""
    page, named, faults = "docs/maintain/READING.md", None, []
    for place, part in enumerate(text_of(page).split("```\n")):
        if place % 2 == 0:
            named = ([it for it in TEXTS.findall(part) if it.startswith("crates/")] or [named])[-1]
        elif not named or part not in text_of(named):
            faults.append(f"{page}: {named} has no such text:\n{part}")
    return faults


def tool_faults():
    """Returns the tools that ./gate calls and CONTRIBUTING.md does not name. Each has a call that begins a check."""
    page, gate = "CONTRIBUTING.md", text_of("tools/gate.py")
    called = re.findall(r"\b(\w+)\.(?:main|make_all|try_all|run_all)\(", gate)
    lacking = [it for it in sorted({*called}) if os.path.exists(f"{TOP}/tools/{it}.py") and f"tools/{it}.py" not in text_of(page)]
    return [f"{page}: tools/{it}.py is not named" for it in lacking]


def kit_faults():
    """Returns the crates of the kit that crates.txt names and README.md does not have among what is trusted."""
    named = {word for it in text_of("crates.txt").splitlines() if not it.startswith("#") for word in it.partition(":")[2].split()}
    trusted = re.search(r"^\*\*Trusted\.\*\*.*?\n\n", text_of("README.md"), re.M | re.S)[0]
    return [f"README.md: {it} is not among what is trusted" for it in sorted(named - {*crates()}) if f"`{it}`" not in trusted]


def tests():
    """Returns the body of each test, by name, without its indentation."""
    found = {}
    for place in glob.glob(f"{TOP}/crates/*/src/**/*.rt", recursive=True):
        for name, body in re.findall(r"^#\[test\]\nfn (\w+)\(rt: HostRuntime\) \{\n(.*?)^\}$", text_of(os.path.relpath(place, TOP)), re.M | re.S):
            found[name] = textwrap.dedent(body)
    return found


def example_faults():
    """Returns the faults of the examples in the comments of public items. Each is the body of the test that it names, and
    each test of a file examples.rt is the example of an item."""
    faults, bodies, shown = [], tests(), set()
    for place in sorted(glob.glob(f"{TOP}/crates/*/src/**/*.rt", recursive=True)):
        here = os.path.relpath(place, TOP)
        comments = "\n".join(it.strip() for it in text_of(here).splitlines() if it.lstrip().startswith("///"))
        text = re.sub(r"^///(?: |$)", "", comments, flags=re.M)
        for name, body in re.findall(r"^# Example\n\nThe test `(\w+)`[^\n]*\n\n```\n(.*?)^```$", text, re.M | re.S):
            shown.add(name)
            if bodies.get(name) != body:
                faults.append(f"{here}: the example is not the body of the test {name}")
    for place in sorted(glob.glob(f"{TOP}/crates/*/src/tests/examples.rt")):
        here = os.path.relpath(place, TOP)
        faults += [f"{here}: {it} is the example of no item" for it in re.findall(r"^fn (\w+)\(rt: HostRuntime", text_of(here), re.M) if it not in shown]
    return faults


def synopsis_faults():
    """Returns the faults of the synopsis of docs/formats/program.md, and of the sentence that names the commands with --why there. Both
    are compared with docs/HELP.md, which the program prints."""
    page, faults = "docs/formats/program.md", []
    program = text_of(page)
    lines = {it.split()[1]: it for it in program.split("```")[1].strip().splitlines()}
    helps = dict(re.findall(r"^\$ fbsim (\w+) --help\n(.*?)^```$", text_of("docs/HELP.md"), re.M | re.S))
    faults += [f"{page}: the synopsis and docs/HELP.md differ in the command {it}" for it in sorted({*lines} ^ {*helps})]
    for command in sorted({*lines} & {*helps}):
        options = {*re.findall(r"^ +(?:-\w, )?(--\w+)", helps[command], re.M)} - {"--help"}
        usage = re.search(r"^Usage: .*$", helps[command], re.M)[0]
        given = {*re.findall(r"<([A-Z]+)>", usage)} | {it for it in re.findall(r"(?<!\[)(--\w+)", usage)}
        line = lines[command]
        shown, needed = {*re.findall(r"--\w+", line)}, re.sub(r"\[[^\]]*\]", "", line).split()[2:]
        needed = {it for at, it in enumerate(needed) if it.startswith("--") or not needed[at - 1 : at] or not needed[at - 1].startswith("--")}
        if shown != options or needed != given:
            faults.append(f"{page}: the synopsis of {command} and docs/HELP.md differ in {', '.join(sorted((shown ^ options) | (needed ^ given)))}")
    named = {*TEXTS.findall(re.search(r"^\d+\. `--why`, for ((?:`\w+`(?:,?\s+(?:and\s+)?)?)+)", program, re.M)[1])}
    having = {it for it, text in helps.items() if re.search(r"^ +--why ", text, re.M)}
    faults += [f"{page}: the commands with --why and docs/HELP.md differ in {it}" for it in sorted(named ^ having)]
    return faults


def link_faults(page):
    """Returns the links of a page that lead nowhere."""
    text, faults, here = re.sub(r"```.*?```", "", text_of(page), flags=re.S), [], os.path.dirname(page)
    for target, mark in re.findall(r"\]\((?!https?:)([^)\s#]*)(?:#([^)\s]+))?\)", text):
        place = os.path.normpath(os.path.join(here, target)) if target else page
        is_there = os.path.exists(f"{TOP}/{place}")
        marks = [re.sub(r"[^\w -]", "", it).replace(" ", "-") for it in citations.headings(place)] if is_there and mark else [mark]
        faults += [] if is_there and mark in marks else [f"{page}: the link to {target}#{mark} leads nowhere"]
    return faults


def width_faults():
    """Returns the lines of docs/formats/ that are too long, except those of tables and of code."""
    faults = []
    for page in [it for it in citations.pages_of_formats() if it != citations.HELP]:
        code = False
        for number, line in enumerate(text_of(page).splitlines(), start=1):
            code ^= line.startswith("```")
            too_long = not code and not line.startswith(("|", "```")) and len(line) > MOST_COLUMNS
            faults += [f"{page}, line {number}: {len(line)} columns are more than {MOST_COLUMNS}"] if too_long else []
    return faults


def length_faults():
    """Returns the faults of pages, of entries of docs/DECISIONS.md and of rows of docs/maintain/PROOFS.md with more words than they may have."""
    page, entries = "docs/DECISIONS.md", re.split(r"\n(?=- \*\*|## )", text_of("docs/DECISIONS.md"))
    counts = {it: len(text_of(it).split()) for it in MOST_WORDS}
    faults = [f"{it}: {words} words are more than {MOST_WORDS[it]}" for it, words in counts.items() if words > MOST_WORDS[it]]
    long = [it for it in entries if it.startswith("- **") and len(it.split()) > MOST_WORDS_OF_AN_ENTRY]
    faults += [f"{page}: {len(it.split())} words are more than {MOST_WORDS_OF_AN_ENTRY}: {it.splitlines()[0]}" for it in long]
    wide = [it for it in text_of("docs/maintain/PROOFS.md").splitlines() if it.startswith("|") and len(it.split()) > MOST_WORDS_OF_A_ROW]
    return faults + [f"docs/maintain/PROOFS.md: {len(it.split())} words are more than {MOST_WORDS_OF_A_ROW}: {it[:60]}" for it in wide]


def licence_faults():
    """Returns the files that do not name the licence."""
    names = {"README.md": "licence is Apache-2.0 ([LICENSE](LICENSE)", "CONTRIBUTING.md": "LICENSE, Apache-2.0", "share/man/man1/fbsim.1": "Apache License, Version 2.0"}
    names |= {"editors/vscode/package.json": '"license": "Apache-2.0"', "python/pyproject.toml": 'license = { text = "Apache-2.0" }', "tools/package_debian.py": "License: Apache-2.0"}
    return [f"{page}: lacks {name}, the licence" for page, name in names.items() if name not in " ".join(text_of(page).split())]


def main():
    """Checks the documents and returns the status."""
    pages = ["README.md", "CONTRIBUTING.md", "CHANGELOG.md", "SECURITY.md", *[f"{folder}/{it}" for folder in ("docs", "docs/formats", "docs/maintain", "docs/notes") for it in sorted(os.listdir(f"{TOP}/{folder}")) if it.endswith(".md")], "bench/README.md", "examples/README.md", "editors/README.md", *sorted(os.path.relpath(it, TOP) for it in glob.glob(f"{TOP}/examples/*/README.md"))]
    proved = [it for it in crates() if it != "fbsim" and not it.endswith("_tests")]
    faults = has_all("docs/maintain/ARCHITECTURE.md", crates()) + has_all("docs/maintain/PROOFS.md", proved, may_repeat=True)
    faults += module_faults() + proof_faults() + definition_faults()
    faults += comment_faults() + block_faults() + example_faults() + length_faults() + tool_faults() + kit_faults() + versions.faults() + licence_faults() + figures.faults() + synopsis_faults() + package_pages.faults() + clauses.faults() + citations.faults(pages) + counts.faults() + width_faults()
    places = [it for kind in ("src/**/*.rt", "specs/**/*.antt", "proofs/**/*.antt") for it in glob.glob(f"{TOP}/crates/*/{kind}", recursive=True)]
    known = {word for it in places for word in re.findall(r"[A-Z]\w+", text_of(os.path.relpath(it, TOP)))}
    known |= {os.path.basename(it).removesuffix(".antt") for it in places}
    # (pages for users name classes of the Python package, and elements of XML that it imports)
    texts = [it for it in glob.glob(f"{TOP}/python/**/*.py", recursive=True) + glob.glob(f"{TOP}/examples/xml/**/*.*", recursive=True) if os.path.isfile(it)]
    known |= {word for it in texts for word in re.findall(r"[A-Z]\w+", text_of(os.path.relpath(it, TOP)))}
    for page in pages:
        faults += name_faults(page) + link_faults(page)
        # (names of XML and of Python are none of ours)
        if page not in ("docs/IMPORT.md", "docs/PYTHON.md", "examples/xml/README.md"):
            faults += definition_name_faults(page, known)
    for it in faults:
        print(it, file=sys.stderr)
    print(f"documents: {len(faults)} faults" if faults else "documents: everything that they name exists")
    return 1 if faults else 0


if __name__ == "__main__":
    sys.exit(main())
