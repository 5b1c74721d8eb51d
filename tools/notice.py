#!/usr/bin/env python3
"""tools/notice.py [--write]: compares NOTICE with the libraries that the program links and with their licences in the kit.

The libraries are those of the kit that crates.txt names for the program and the crates below it, and all that these need in turn. For
each, NOTICE has the licence files in its folder of the kit, and which licence each of them is. It also names kits, by what `rt version`
prints: their logic must be that of the kit here. The Python package has copies of LICENSE and NOTICE, since the kit's `rt ci` takes no
links. With --write this writes NOTICE, with the name of the kit here too, and the copies. ./gate runs it."""

import os
import re
import shutil
import sys

from kit import TOP, crates_as_built, rtlib

NOTICE = f"{TOP}/NOTICE"
NAMES = ("LICENSE", "LICENCE", "COPYING", "UNLICENSE", "NOTICE", "COPYRIGHT")
# A licence by words that are in its text alone.
TEXTS = {
    "Apache-2.0": "Apache License Version 2.0, January 2004",
    "MIT": "Permission is hereby granted, free of charge, to any person obtaining a copy",
    "BSL-1.0": "Boost Software License - Version 1.0",
    "Unlicense": "This is free and unencumbered software released into the public domain",
}
NONE = "none found"
HEAD = """fbsim
Copyright 2026 Cambiroa maintainers

Licensed under the Apache License, Version 2.0. The file LICENSE has its text.

The program links these libraries of the Rattle kit: {kits}, with the logic {logic}. Each licence
is the one that the kit's files give, and the last column names them, in the kit's folder rattle/. Where none was found, ask the makers
of the kit before you pass the program on.

"""
KIT = re.compile(r"rattle-kit-\w+")
LOGIC = re.compile(r"\blogic (\w+)")
TAIL = """
The kit's archives c/libos_c.a and c/liblibc_c.a are linked too; no licence was found for them. The linker adds start-up files
of the GNU C library (LGPL-2.1-or-later, with an exception for them) and of GCC (GPL-3.0-or-later with the GCC Runtime Library
Exception) from toolchain/lib/. The program uses the C library of the system where it runs. No copy of that is in the packages.
"""


def libraries():
    """Returns the libraries of the kit that the program links, in the order of their names."""
    crates = crates_as_built()
    program = next(it for it in crates if it.name == "fbsim")
    named = {name for it in [program, *program.below()] for name in it.of_kit}
    return sorted(word.partition(":")[0] for word in rtlib.kit_sources(sorted(named)) if word != "--lib")


def licences(library):
    """Returns the licence files of a library, each with the licence that its text is, or None if no licence here has its words."""
    folder, found = f"{rtlib.KIT}/rattle/{library}", {}
    for name in sorted(os.listdir(folder)):
        if name.upper().startswith(NAMES):
            with open(f"{folder}/{name}", encoding="utf-8") as it:
                text = " ".join(it.read().split())
            found[name] = next((licence for licence, words in TEXTS.items() if words in text), None)
    return found


def rows():
    """Returns the lines of NOTICE for the libraries: the name, its licences and their files."""
    for library in libraries():
        found = licences(library)
        if None in found.values():
            rtlib.stop(f"{library}: tools/notice.py does not know the licence of {found}")
        what = ", ".join(dict.fromkeys(found.values())) or NONE
        yield f"{library:<18}{what:<18}{', '.join(f'{library}/{it}' for it in found)}".rstrip()


def logic_of_kit():
    """Returns what the kit says of itself: its name, and its logic, which kits of several names have."""
    with open(f"{rtlib.KIT}/KIT-ID", encoding="utf-8") as it:
        said = it.read()
    return KIT.search(said)[0], LOGIC.search(said)[1]


def notice(names, logic):
    """Returns NOTICE as it must be for kits of these names and this logic."""
    heading = f"{'library':<18}{'licence':<18}given by"
    return HEAD.format(kits=" or ".join(sorted({*names})), logic=logic) + "\n".join([heading, *rows()]) + "\n" + TAIL


def copies():
    """Returns the files of the top that the Python package has too, each with its copy."""
    return [(f"{TOP}/{it}", f"{TOP}/python/{it}") for it in ("LICENSE", "NOTICE")]


def is_equal(path, copy):
    """Returns whether a file is there with the same bytes as another."""
    with open(path, "rb") as first, open(copy, "rb") as second:
        return first.read() == second.read()


def main(words=()):
    """Compares NOTICE and the copies, or writes them, and returns the status."""
    with open(NOTICE, encoding="utf-8") as it:
        known = it.read()
    name, logic = logic_of_kit()
    names = KIT.findall(known) if LOGIC.findall(known) == [logic] else []
    if [*words] == ["--write"]:
        with open(NOTICE, "w", encoding="utf-8") as it:
            it.write(notice([*names, name], logic))
        for path, copy in copies():
            shutil.copyfile(path, copy)
        return 0
    # (a further kit of the same logic is as good)
    is_same = known == notice(names or [name], logic) and all(is_equal(*it) for it in copies())
    print("notice: NOTICE names each library of the program with its licence" if is_same else "notice: NOTICE is not up to date: tools/notice.py --write")
    return int(not is_same)


if __name__ == "__main__":
    sys.exit(main(sys.argv[1:]))
