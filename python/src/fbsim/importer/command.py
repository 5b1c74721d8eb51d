"""fbsim-import: reads files of IEC 61499-2, writes the texts of the simulator, and has the simulator check them."""

from __future__ import annotations

import argparse
import contextlib
import functools
import os
import sys
from collections import Counter
from collections.abc import Sequence

from fbsim.faults import ProgramMissing
from .blocks import Library
from .common import Faults, FileFault, Refused
from .document import Node, read_document
from .files import TypeFiles
from .given_names import GivenNames
from .lint import Rest, lint
from .mapping import mapping_of, read_mapping
from .network import System, system_of
from .project_names import ProjectNames
from .report import ACCEPTED, ALL, NUMBERS, REFUSED, add_options, finish
from .store import earlier_latencies, write
from .stubs import Stubs, stub_names
from .writing import Latencies, Types, texts_of

FILES, COMMAND_LINE = 3, 5


def arguments(words: Sequence[str] | None) -> argparse.Namespace:
    """Read the command line, or end with the status of the simulator for a wrong one."""
    parser = argparse.ArgumentParser(prog="fbsim-import", description="Imports an application from the XML of IEC 61499-2.",
                                     epilog="docs/IMPORT.md says what maps to what.")
    parser.add_argument("files", nargs="*", metavar="FILE",
                        help="a system (.sys), or types (.fbt, .sub, .adp); with --trace and --names one text, or standard input")
    modes = parser.add_mutually_exclusive_group(required=True)
    modes.add_argument("--out", metavar="DIR", help="the folder to write: new, empty, or of an earlier import")
    modes.add_argument("--trace", metavar="DIR", help="write a trace, or what run --why, inspect or coverage says, in the project's names")
    modes.add_argument("--names", metavar="DIR", help="write stimuli or rules, which have the project's names, in those of an import")
    modes.add_argument("--lint", action="store_true", help="print warnings about a project, also about one that is refused in part")
    parser.add_argument("--lib", action="append", default=[], metavar="DIR", help="a folder with types, at any depth")
    parser.add_argument("--latency", type=int, default=1, metavar="N", help="the latency of each link, in ms (1)")
    parser.add_argument("--overflow", choices=("stop", "wrap"), default="stop",
                        help="what a number that does not fit does: stop the run, or lose its upper bits (stop)")
    parser.add_argument("--stub", action="extend", nargs="?", const="", default=[], type=stub_names, metavar="NAMES",
                        help="replace these service interface types by stubs: names with commas, or all")
    parser.add_argument("--force", action="store_true", help="write over files of an earlier import that were edited")
    add_options(parser)
    try:
        given = parser.parse_args(words)
        if not 1 <= given.latency <= 1_000_000:
            parser.error("--latency is 1 to 1,000,000")
        is_filter = given.trace is not None or given.names is not None
        if not is_filter and not given.files:
            parser.error("a file to import is missing")
        if is_filter and len(given.files) > 1:
            parser.error("--trace and --names take one file")
        if not given.lint and any(one != ALL and not one <= set(NUMBERS) for one in given.deny):
            parser.error("--deny with a number of the simulator needs --lint")
    except SystemExit as end:
        sys.exit(COMMAND_LINE if end.code else ACCEPTED)
    return given


def read_files(given: argparse.Namespace, files: TypeFiles, faults: Faults, ignored: Counter[str]) -> list[Node]:
    """Return the roots of the files on the command line, of which types can be found by their names."""
    roots = []
    for path in given.files:
        with contextlib.suppress(Refused):
            roots.append(read_document(path, faults, ignored))
            if roots[-1].tag != "System":
                files.give(roots[-1], faults)
    return roots


def system_in(roots: Sequence[Node], library: Library) -> System:
    """Return the system among the roots of files, or one with an instance of each type."""
    systems = [it for it in roots if it.tag == "System"]
    for it in systems[1:]:
        library.faults.refuse(it.place, "there is more than one system: import them one by one")
    if not roots:
        raise Refused
    return System(systems[0] if systems else system_of(roots, library.faults), library)


def library_of(given: argparse.Namespace, files: TypeFiles, faults: Faults) -> Library:
    """Return the types of an import."""
    library = Library(files, Stubs(frozenset(given.stub)), faults)
    library.overflow = given.overflow
    return library


def import_files(given: argparse.Namespace, faults: Faults) -> None:
    """Import files into a folder."""
    latencies = Latencies(given.latency, earlier_latencies(given.out, given.force))
    library = library_of(given, TypeFiles(given.lib), faults)
    system = system_in(read_files(given, library.files, faults, library.ignored), library)
    types = Types(library)
    texts = texts_of(system, types, latencies)
    if not faults:
        write(given.out, texts, functools.partial(mapping_of, system, types, texts, given.latency), faults)


def lint_files(given: argparse.Namespace) -> int:
    """Lint files, without what is refused of them."""
    rest = Rest({}, TypeFiles(given.lib))
    roots = read_files(given, rest.files, rest.refused, Counter())
    rest.roots = {it.source.path: it for it in roots}

    def make(rest: Rest, faults: Faults) -> System:
        library = library_of(given, rest.files, faults)
        library.left_out = rest.left_out
        return system_in([it for it in roots if it.source.path not in rest.left_out], library)

    return lint(rest, make, given.deny)


def rename(given: argparse.Namespace, faults: Faults) -> int:
    """Write a text with the names of the project, or with those of its import, to standard output."""
    path = given.files[0] if given.files else "-"
    try:
        file = sys.stdin if path == "-" else open(path, encoding="utf-8", errors="surrogateescape", newline="")
        with file:
            if given.trace is not None:
                for line in ProjectNames(given.trace, read_mapping(given.trace)).lines(file):
                    print(line)
            else:
                text = GivenNames(given.names, path, faults).convert(file.read())
                print(*(faults.lines() or [text]), sep="\n", end="\n" if faults else "", file=sys.stderr if faults else sys.stdout)
        sys.stdout.flush()
    except BrokenPipeError:
        os.dup2(os.open(os.devnull, os.O_WRONLY), sys.stdout.fileno())
    except OSError as fault:
        raise FileFault(f"{path}: {fault.strerror}") from None
    return REFUSED if faults else ACCEPTED


def main(words: Sequence[str] | None = None) -> int:
    """Import files, and return the status: 0 accepted, 1 with a denied warning, 2 refused, 3 for files, 5 for the command line."""
    given, faults = arguments(words), Faults()
    try:
        if given.lint:
            return lint_files(given)
        if given.out is None:
            return rename(given, faults)
        import_files(given, faults)
    except Refused:
        pass
    except (FileFault, ProgramMissing) as fault:
        print(f"fbsim-import: {fault}", file=sys.stderr)
        return FILES
    return finish(faults, given.deny)
