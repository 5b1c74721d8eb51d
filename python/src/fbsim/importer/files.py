"""The files of types: those on the command line and in the folders of --lib. Packages tell types of one name apart."""

from __future__ import annotations

import os
import re
from collections import Counter
from collections.abc import Iterable, Iterator
from dataclasses import dataclass, field

from .common import TABLES, FileFault, Faults, Place, Refused, shown
from .document import Node, read_document, read_source

MOST_FILES = 20_000
# The endings of files of types, by the element that names a type, and what files with other endings have.
ENDINGS = {"FB": ".fbt", "SubApp": ".sub", "AdapterDeclaration": ".adp"}
OTHERS: dict[str, str] = TABLES["other_files"]


@dataclass(slots=True, eq=False)
class TypeFile:
    """A file of a type, read when it is looked at, with what reading it refuses and ignores."""

    path: str
    root: Node | None = None
    is_read: bool = False
    faults: Faults = field(default_factory=Faults)
    ignored: Counter[str] = field(default_factory=Counter)

    def read(self) -> Node | None:
        """Return the root of the file, or nothing if it is refused."""
        if not self.is_read:
            self.is_read = True
            try:
                self.root = read_document(self.path, self.faults, self.ignored)
            except Refused:
                pass
            except FileFault as fault:
                self.faults.refuse(Place(self.path, 1, 1), f"this file can't be read: {fault}")
        return self.root

    @property
    def package(self) -> str:
        """The package that the file gives its type."""
        return package_of(self.root) if self.read() and self.root else ""


class TypeFiles:
    """Finds the file of a type by its name and its package."""

    def __init__(self, folders: Iterable[str]) -> None:
        self.rows: dict[str, list[TypeFile]] = {}
        self.others: dict[str, str] = {}
        self.known: dict[str, TypeFile] = {}
        for folder in folders:
            if not os.path.isdir(folder):
                raise FileFault(f"{folder}: this is no folder")
            for path in files_below(folder):
                stem, end = os.path.splitext(os.path.basename(path))
                if end.lower() in OTHERS:
                    self.others.setdefault(stem.upper(), path)
                elif end.lower() in ENDINGS.values():
                    self.add(TypeFile(path), stem)
                if len(self.known) + len(self.others) > MOST_FILES:
                    raise FileFault(f"{folder}: there are more than {MOST_FILES:,} files of types")

    def add(self, file: TypeFile, name: str) -> None:
        """Add the file of a type, once."""
        if self.known.setdefault(os.path.realpath(file.path), file) is file:
            self.rows.setdefault(name.upper(), []).append(file)

    def give(self, root: Node, faults: Faults) -> None:
        """Add a type of the command line, which may be in a folder too, and has there the name of its file."""
        file, name = TypeFile(root.source.path, root, True), root.get("Name")
        if (old := self.known.pop(os.path.realpath(file.path), None)) is not None:
            for rows in self.rows.values():
                rows[:] = [it for it in rows if it is not old]
        if any(it.is_read and it.package.upper() == file.package.upper() for it in self.rows.get(name.upper(), ())):
            faults.refuse(root.at("Name"), f"type {name} is given in two files")
        else:
            self.add(file, name)

    def find(self, name: str, package: str, tag: str, is_usual: bool) -> list[TypeFile]:
        """Return the file that has a type, none, or several that the package does not tell apart.

        A usual type, which the simulator has, is in a package of the standard or in none, else under its plain name in any."""
        rows = self.rows.get(name.upper(), [])
        rows = [it for it in rows if it.path.lower().endswith(ENDINGS[tag])] or rows
        if len(rows) == 1 and not package and not is_usual:
            return rows
        if is_usual and is_standard(package):
            rows = [it for it in rows if is_standard(it.package)] or (rows if not package else [])
        exact = [it for it in rows if it.package.upper() == package.upper()]
        rows = exact or [it for it in rows if not package or not it.package]
        return rows[:1] if len({it.root.source.text if it.root else it.path for it in rows}) == 1 else rows

    def missing(self, name: str, package: str) -> str:
        """Return why there is no such type: which other file has the name, or that a folder is missing."""
        full = f"{package}::{name}" if package else name
        others = [f"{it.path} has the package {shown(it.package)}" for it in self.rows.get(name.upper(), []) if it.package]
        if name.upper() in self.others:
            return f"{shown(name)} is {self.other(name)}"
        return f"there is no type {shown(full)} in the files: {', '.join(others[:3]) or 'give its folder by --lib'}"

    def other(self, name: str) -> str:
        """Return what a file that is not imported has under a name, and what to do; or nothing."""
        path = self.others.get(name.upper(), "")
        return f"{OTHERS[os.path.splitext(path)[1].lower()].format(path)}" if path else ""

    def constants(self, name: str) -> str:
        """Return which files of global constants have a name, or may have it, and what to do; or nothing."""
        paths = [it for it in self.others.values() if it.lower().endswith(".gcf")]
        found = [it for it in paths if name.upper() in words_of(it)]
        about = OTHERS[".gcf"].format(", ".join((found or paths)[:3]))
        return f": it {'is' if found else 'may be'} in {about}" if paths else ""


def words_of(path: str) -> list[str]:
    """Return the words of a file in upper case, or none if it can't be read."""
    try:
        return re.findall(r"\w+", read_source(path, Faults()).text.upper())
    except (FileFault, Refused):
        return []


def files_below(folder: str) -> Iterator[str]:
    """Return the files of a folder, in order, without those that are hidden or in hidden folders."""
    for top, below, files in os.walk(folder):
        below[:] = sorted(it for it in below if not it.startswith("."))
        yield from (os.path.join(top, it) for it in sorted(files) if not it.startswith("."))


def package_of(root: Node) -> str:
    """Return the package of a type, as Eclipse 4diac stores it, or the namespace, as EcoStruxure does."""
    about = next(root.all("CompilerInfo"), None)
    return (about.get("packageName") if about else "") or root.get("Namespace")


def is_standard(package: str) -> bool:
    """Return whether a package is one of those in which tools have the types of the standards, or none."""
    return package.replace("::", ".").partition(".")[0].upper() in TABLES["packages"]["standard"].split() or not package
