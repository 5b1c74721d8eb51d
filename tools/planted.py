"""Tries in a crate the wrong implementations that the kit's `rt plant` tries, and prints which of them its contracts let through.

    python3 tools/planted.py CRATE [--private] [--all]

The kit's own scripts choose the functions, write the implementations and judge them. They check the whole crate first, which takes
minutes in a crate with many libraries, and then prove each implementation in a check that proves its callees again. Here each other
function of the crate is taken by its statement (a hole, as in must_fail.py), since the gate proves it. So an implementation costs a
second or two, and ten to thirty for the libraries below.

With --private this tries the private functions, without it the public ones and the methods of traits. The libraries below the crate
must be built. The lines are those of `rt plant --help`, with --all also those of implementations that are refused."""

import importlib.machinery
import os
import re
import subprocess
import sys
import tempfile
import time
import types

import kit
from functions import Sources
from kit import rtlib
from must_fail import Trial

# What a check says of an implementation that meets its contract, given the statements of its callees.
MEETS = re.compile(r"(?m)^(fn \S+: )(?:no holes|depends on a hole in )")
# The seconds that a check may take, and the implementations of one check. On a loaded machine a check takes minutes.
SECONDS, BATCH = 1500, 40


def loaded(name):
    """Returns a script of the kit's as a module."""
    module = types.ModuleType(name)
    module.__file__ = os.path.join(os.path.dirname(os.path.realpath(kit.SCRIPT)), name)
    importlib.machinery.SourceFileLoader(name, module.__file__).exec_module(module)
    return module


sys.dont_write_bytecode = True
planter = loaded("rt-plant")
planter.rt = rtlib
planter.SECONDS, planter.BATCH = SECONDS, BATCH
bodies = planter.bodies


class Source(bodies.Source):
    """What the kit reads of a crate, for bodies with values that compile."""

    def tokens(self, file):
        """Returns the kit's tokens but for docs, which are in them where a derive reads them, and would be taken for names."""
        rows, data = super().tokens(file)
        return [it for it in rows if not it[4].startswith("///")], data

    def add_library(self, name, folder):
        """Takes the types of a library below by the modules that they are in, not as if they were at its root."""
        below = Source(folder)
        below.read("src/lib.rt")
        for it, found in below.declared.items():
            self.below[it] += [(("", name, *module), *rest) for module, *rest in found]
        self.makers += [it for it in below.functions if it.is_pub]
        self.of_memory |= below.of_memory
        self.defaults |= below.defaults


class Copy(planter.Copy):
    """The kit's copy of a crate, in which plants are written and checked, over holes."""

    def __init__(self, crate, source, folder):
        self.crate, self.source, self.folder, self.flags = crate, source, folder, ["--jobs", "1", "--allow-holes"]
        self.end, self.lines = time.monotonic() + 24 * 3600, {}
        os.mkdir(f"{folder}/out")

    def check(self, names):
        """Returns what a check of these functions prints, or None where it does not end in time."""
        only = [word for name in names for word in ("--only", name)]
        words = [*self.crate.words([*self.flags, *only], keeps=False), "--incremental", f"{self.folder}/out/incremental", "--progress"]
        how = {"stdin": subprocess.DEVNULL, "stdout": subprocess.PIPE, "stderr": subprocess.STDOUT, "encoding": "utf-8", "errors": "replace"}
        try:
            ran = subprocess.run([*rtlib.guarded(), rtlib.RATTLE, "check", *words], cwd=self.folder, timeout=SECONDS, **how)
        except subprocess.TimeoutExpired:
            return None
        return MEETS.sub(r"\1proved over ", ran.stdout) if ran.returncode >= 0 else None


class Whole(Trial):
    """A crate with holes from which no function is left out, since any may be planted in."""

    def unneeded(self, texts, holes):
        return []


def read_places(source, room):
    """Has the functions of a source, which were read where they have their bodies, stand at their places in a copy with holes."""
    there = Source(room)
    there.read("src/main.rt" if os.path.isfile(f"{room}/src/main.rt") else "src/lib.rt")
    at = {(it.file, it.line): it for it in there.functions}
    for it in source.functions:
        same = at[it.file, it.line]
        it.attributes, it.first, it.start, it.named, it.opens, it.end = same.attributes, same.first, same.start, same.named, same.opens, same.end
        if it.block:
            it.block.span = same.block.span
    source.data, source.antt = there.data, there.antt


def chosen(crate, source, sources, is_private):
    """Returns the functions to plant in, and those that answer and have no ensures."""
    by_line = {(it.path, it.named): it for it in sources.all()}
    symbols = {}
    for it in source.functions:
        same = by_line.get((it.file, it.line))
        if it.in_trait and same and same.kind == "trait":
            symbols[it] = f"{crate.name}::{same.path_in_crate()}"
    found = planter.chosen(crate, source, dict.fromkeys(symbols.values(), "proved"), "src/" if is_private else "")
    planted, bare = ([it for it in part if not is_private or not it.is_pub] for part in found)
    for it in planted:
        it.symbols = [symbols[it]] if it in symbols else it.symbols
    return planted, bare


def row_of(plant):
    return f"{plant.kind:<10}  {plant.f.shown}: {{ {plant.body} }}{f'  ({plant.why})' * bool(plant.why)}"


def main(name, *flags):
    crate = next((it for it in kit.crates_as_built() if it.name == name), None) or sys.exit(f"there is no crate {name}")
    sources, source = Sources(crate), Source(crate.folder)
    source.read("src/main.rt" if crate.is_program else "src/lib.rt")
    source.read_specs()
    for library, rlib in planter.libraries(crate).items():
        if library not in (*rtlib.SEALED, "libc", "os"):
            source.add_library(library, f"{rlib}/lang")
    planted, bare = chosen(crate, source, sources, "--private" in flags)
    with tempfile.TemporaryDirectory(prefix="planted-") as room:
        Whole(crate, sources, []).write(room, has_holes=True)
        read_places(source, room)
        plants = planter.plant(crate, Copy(crate, source, room), planted, planted, sys.maxsize)
    for it in sorted(plants, key=lambda it: (planter.KINDS.index(it.kind), it.f.shown)):
        if it.kind in ("proves", "not-judged", "not-run") or "--all" in flags:
            print(row_of(it))
    for it in bare:
        print(f"no-ensures  {it.shown}")
    counts = " ".join(f"{kind}={sum(it.kind == kind for it in plants)}" for kind in planter.KINDS)
    print(f"plants crate={crate.name} planted-in={len(planted)} no-ensures={len(bare)} {counts}")


if __name__ == "__main__":
    main(*sys.argv[1:])
