#!/usr/bin/env python3
"""tools/pages.py [PROGRAM]: follows README and pages of docs/ as their reader does, and compares what is printed.

It goes through each page from top to bottom, in a folder of its own that has the examples. A line with only the name of a file in
backquotes and a colon, and the block below it, is a file to write, which replaces an earlier one of that name. A block `console` has
commands after `$ `, each with its output below it; a command that ends with a backslash goes on in the next line. The commands of a
block `sh` print nothing and succeed. Blocks with another word after the fence are only shown. `sh` runs the commands, with the built
program, or PROGRAM, as `fbsim` on its PATH. If a command prints anything else than the page shows, this reports it and ends with status
1, and also if a picture that README shows has other texts than the one that its commands make. ./gate runs this each time it has run
the program."""

import os
import re
import shutil
import sys

from kit import TOP
from program import Room

PAGES = ("README.md", "docs/FIRST_APPLICATION.md", "docs/BENCH.md", "docs/FROM_4DIAC.md")
PROGRAM = f"{TOP}/crates/fbsim/out/fbsim"
# A folder that pages may name. Its files are in the folder of the page.
FOLDER = "/tmp/"
# What stands in for GTKWave, which needs a screen: its own reader takes the dump, and each signal that is chosen is in there.
GTKWAVE = """#!/bin/sh
set -e
vcd2fst "$1" "${1%.vcd}.fst"
grep -v '^[[*@-]' "$2" | sed 's/.*[.]//; s/[[].*//' | while read -r name; do grep -q " $name [$]end" "$1" || echo "there is no $name"; done
"""
SHOWN_PICTURE = re.compile(r"!\[[^]]*\]\(docs/(\w+\.svg)\)")
TEXT_OF_PICTURE = re.compile(r"<(title|text)\b[^>]*>(.*?)</\1>")
FILE = re.compile(rf"`(?:{FOLDER})?([\w./-]+)`:")


def blocks(page, text):
    """Returns a page's blocks in their order: the line above, the word after the opening fence, the first line's number, the lines."""
    found, above, opened = [], "", None
    for number, line in enumerate(text.splitlines(), 1):
        if opened:
            if line == "```":
                found.append(opened)
                opened = None
            else:
                opened[3].append(line)
        elif line.startswith("```"):
            opened = (above, line[3:], number + 1, [])
        elif line:
            above = line
    if opened:
        sys.exit(f"{page}: a block is not closed")
    return found


def commands(page, number, lines):
    """Returns the commands of a block, each with its line's number and its expected output."""
    found, goes_on = [], False
    for at, line in enumerate(lines, number):
        if goes_on:
            found[-1][1].append(line)
        elif line.startswith("$ "):
            found.append((at, [line[2:]], []))
        elif found:
            found[-1][2].append(line)
        else:
            sys.exit(f"{page}:{at}: a line above the first command")
        goes_on = line.endswith("\\") and (goes_on or line.startswith("$ "))
    return [(at, "\n".join(command), shown) for at, command, shown in found]


class Reader:
    """A reader of a page, in a folder with the program and the examples: writes files, and runs commands one after another."""

    def __init__(self, room):
        self.room, self.status, self.place = room, 0, room.folder
        os.mkdir(f"{room.folder}/bin")
        self.write("bin/gtkwave", GTKWAVE.splitlines())
        os.chmod(f"{room.folder}/bin/gtkwave", 0o755)
        shutil.copytree(f"{TOP}/examples", f"{room.folder}/examples")
        os.symlink(room.program, f"{room.folder}/bin/fbsim")

    def write(self, name, lines):
        path = f"{self.room.folder}/{name}"
        os.makedirs(os.path.dirname(path), exist_ok=True)
        with open(path, "w") as it:
            it.writelines(line + "\n" for line in lines)

    def does(self, command):
        """Returns the lines that a command prints, with the names of files as the page has them."""
        text = f"exec 2>&1\nPATH={self.room.folder}/bin:$PATH\n(exit {self.status})\n{command.replace(FOLDER, '')}\n"
        ran = self.room.run(["sh", "-c", text])
        self.status, printed = ran.returncode, ran.stdout.decode()
        for name in sorted({*re.findall(rf"{FOLDER}([\w.]+)", command)}):
            printed = printed.replace(name, FOLDER + name)
        return printed.splitlines()

    def follows(self, lines):
        """Runs a block whose commands print nothing, from the folder where the last such block ended, and returns what they print."""
        folder, commands = self.room.folder, "\n".join(lines)
        text = f"set -e\nexec 2>&1\nPATH={folder}/bin:$PATH\ncd '{self.place}'\n{commands.replace(FOLDER, f'{folder}/')}\npwd > {folder}/place\n"
        ran = self.room.run(["sh", "-c", text])
        if ran.returncode:
            return [*ran.stdout.decode().splitlines(), f"the status is {ran.returncode}"]
        with open(f"{folder}/place") as it:
            self.place = it.read().rstrip("\n")
        return ran.stdout.decode().splitlines()

    def texts_of(self, picture):
        """Returns the texts of a picture that commands have made, or None if they have not."""
        path = f"{self.room.folder}/{picture}"
        return texts_of(path) if os.path.exists(path) else None


def texts_of(path):
    """Returns the texts of a picture, which are the same with each version of graphviz and with each font."""
    with open(path) as it:
        return TEXT_OF_PICTURE.findall(it.read())


def follow(page, text, reader):
    """Returns the number of commands, and a line for each that prints something else, and for each picture that differs."""
    count, faults = 0, []
    for above, how, number, lines in blocks(page, text):
        if how == "console":
            for at, command, shown in commands(page, number, lines):
                printed = reader.does(command)
                count += 1
                if printed != shown:
                    faults.append("\n  ".join([f"{page}:{at}: $ {command}", "prints:", *printed]))
        elif how == "sh":
            printed = reader.follows(lines)
            count += len(lines)
            if printed:
                faults.append("\n  ".join([f"{page}:{number}: the block prints:", *printed]))
        elif name := FILE.fullmatch(above):
            reader.write(name[1], lines)
        elif not how:
            sys.exit(f"{page}:{number}: a block that is neither a file nor commands")
    for picture in SHOWN_PICTURE.findall(text):
        if (made := reader.texts_of(picture)) not in (None, texts_of(f"{TOP}/docs/{picture}")):
            faults.append(f"{page}: docs/{picture} has other texts than the commands draw: {made}")
    return count, faults


def main(program=PROGRAM):
    """Follows the pages and returns the status: 0 if everything is printed as they show it."""
    if not os.path.exists(program):
        sys.exit(f"{program} is not built: ./simulate builds it")
    has_failed = False
    for page in PAGES:
        with open(f"{TOP}/{page}") as it:
            text = it.read()
        with Room(program) as room:
            count, faults = follow(page, text, Reader(room))
        for fault in faults:
            print(fault, file=sys.stderr)
        print(f"{page}: {count - len(faults)} of {count} commands print what the page has", flush=True)
        has_failed |= bool(faults) or not count
    return int(has_failed)


if __name__ == "__main__":
    sys.exit(main(*sys.argv[1:]))
