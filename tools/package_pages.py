"""The pages of a package: those of the repository, with what tools/package_pages.toml has in place of what only the repository has."""

import os
import re
import tomllib

from kit import TOP
from package_files import File, bytes_of, listed

# What users do not need.
LEFT_OUT = ("docs/DECISIONS.md", "docs/PLANTED.md", "examples/check")
PAGES = ("README.md", "CHANGELOG.md", "SECURITY.md", "LICENSE", "NOTICE")
FOLDERS = ("docs", "editors", "examples")
LINK = re.compile(r"(!?)\[([^\]]+)\]\(([^)#:\s]+)(#[^)]*)?\)")
# What only the repository has. (CHANGELOG.md says what changed there, too.)
OF_REPOSITORY = re.compile(r"\./(?:simulate|gate)\b|\b(?:this|the) (?:repository|checkout)\b|\btools/\w+\.py|\bCONTRIBUTING\b|\bcrates/|\bdocs/maintain\b|\bbench/\w+")


def changes():
    """Returns the texts that packages have in place of others, by the page."""
    return tomllib.loads(bytes_of(f"{TOP}/tools/package_pages.toml").decode())["page"]


def section(text, heading):
    """Returns the text below a heading, up to the next one that is not deeper, or None if there is no such heading."""
    level = heading.partition(" ")[0]
    found = re.search(rf"(?ms)^{re.escape(heading)}\n(.*?)(?=^#{{1,{len(level)}}} |\Z)", re.sub(r"(?ms)^```.*?^```$", lambda it: it[0].replace("\n#", "\n "), text))
    return found and text[found.start(1) : found.end(1)]


def changed(page, text, version):
    """Returns the text of a page as packages have it, and what was not found once in it."""
    faults = []
    for it in (it for it in changes() if it["name"] == page):
        old = section(text, it["section"]) if "section" in it else it["old"]
        if old is None or text.count(old) != 1:
            faults.append(f"tools/package_pages.toml: {page} has not once: {it.get('section') or it['old']}")
            continue
        new = it["new"].replace("VERSION", version)
        text = text.replace(f"{it['section']}\n{old}", new) if "section" in it and not new else text.replace(old, f"\n{new}\n" if "section" in it else new)
    return text, faults


def with_links_inside(page, text, names):
    """Returns the text of a page without the links to what the package does not have."""
    folders = {os.path.dirname(it) for it in names}

    def kept(link):
        target = os.path.normpath(os.path.join(os.path.dirname(page), link[3]))
        return link[0] if target in names or target in folders else link[2]

    return LINK.sub(kept, text)


def names_of_users():
    """Returns the names of the pages, pictures, editor files and examples for users."""
    names = [*PAGES, *(it for folder in FOLDERS for it in listed(folder))]
    return [it for it in names if it not in LEFT_OUT and not it.startswith(("docs/maintain/", "docs/notes/")) and os.path.isfile(f"{TOP}/{it}")]


def pages(version):
    """Returns the pages, pictures, editor files and examples for users, by their names in the repository."""
    names, found = names_of_users(), {}
    for name in names:
        text = bytes_of(f"{TOP}/{name}")
        if name.endswith(".md"):
            # (comments are for who edits the page)
            text = re.sub(r"(?s)<!--.*?-->\n?", "", changed(name, text.decode(), version)[0])
            text = with_links_inside(name, text, names).encode()
        found[name] = File(text, os.access(f"{TOP}/{name}", os.X_OK))
    return found


def faults():
    """Returns what is wrong with the pages of packages: texts to replace that are gone, and what tells of the repository."""
    found = [it for page in {it["name"] for it in changes()} for it in changed(page, bytes_of(f"{TOP}/{page}").decode(), "1.0.0")[1]]
    for name, it in pages("1.0.0").items():
        if name.endswith(".md") and name != "CHANGELOG.md":
            lines = it.content.decode().splitlines()
            found += [f"{name}: a package has no such thing: {line.strip()}" for line in lines if OF_REPOSITORY.search(line)]
    return found
