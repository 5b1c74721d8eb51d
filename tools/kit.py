"""The kit's own script `rt`, loaded as a module, so that the tools here prove and judge as the kit does.

The script is private to the kit: its makers may change it. So everything that the tools replace in it is replaced in this file, each with a
checksum of what it takes the place of (REPLACED), and READ lists what they read of it. A kit whose script has something else at one of
these names is refused with a sentence. tools/kit_test.py tries that."""

import ast
import functools
import hashlib
import importlib.machinery
import importlib.util
import os
import re
import shlex
import shutil
import sys
from concurrent.futures import ThreadPoolExecutor

SCRIPT = shutil.which("rt") or sys.exit("this needs the Rattle kit: `rt version` must print a line")

# The top of this repository.
TOP = os.path.dirname(os.path.dirname(os.path.realpath(__file__)))

# What is replaced in the script (`rt`) and in its library (`rtlib`), and the checksum of its source in rattle-kit-13f. The gate's own
# last line is printed by `rt.ci_over`, where `print` is replaced. To take in a further kit, compare these parts of its script with those
# of 13f, and add its checksums.
REPLACED = {
    "rt.Crate": "e4f0ede07d0b597a",
    "rt.Kept": "3fe4e52efb76fedd",
    "rt.add_edits": "02e2d66523f6953b",
    "rt.ci_over": "eec2c30f62220685",
    "rt.in_lanes": "028904d9e05eb37c",
    "rt.need": "2f21743f55a18eb9",
    "rt.processors": "c504abe82075a8f8",
    "rt.run": "c67aa5a1a2fa727b",
    "rtlib.Crate": "eebe83c1beed0f72",
    "rtlib.Crate.stamp": "4758c051a28b0833",
    "rtlib.guarded": "529c75791bbab7c2",
}
# A kit with the same logic, of whose script no checksum is known, since it was not at hand. It is accepted by its name.
BY_NAME = ("rattle-kit-13b",)
# What is read besides. What is optional is in one of the two kits alone.
READ = {
    "rt": "BAD KIT MISSED REFUSED checked ci drop_to_nobody free handles_of must_fail read_edit rtlib say unread".split(),
    "rtlib": "BACKEND KIT LIMIT PARTS RATTLE SEALED STALE STEPS crates_below files_of kit_sources lock stop text_of".split(),
}
OPTIONAL = {"rt": "SETTLED Kept add_edits ending must_fail_all".split(), "rtlib": []}


@functools.cache
def parts_of(text):
    """Returns the lines of each function, class, method and name of a script's top, by its name."""
    found, lines = {}, text.split("\n")
    for it in ast.parse(text).body:
        targets = [name for target in getattr(it, "targets", []) for name in getattr(target, "elts", [target])]
        names = [name.id for name in targets if isinstance(name, ast.Name)]
        methods = [of for of in it.body if isinstance(of, ast.FunctionDef)] if isinstance(it, ast.ClassDef) else []
        names += [it.name] if hasattr(it, "name") else []
        found |= {name: "\n".join(lines[it.lineno - 1 : it.end_lineno]) for name in names}
        found |= {f"{it.name}.{of.name}": "\n".join(lines[of.lineno - 1 : of.end_lineno]) for of in methods}
    return found


def checksum(source):
    return hashlib.sha256(source.encode()).hexdigest()[:16]


def fault_of(texts, name):
    """Returns why a kit's script can't be used, or None. `texts` are those of its two files, `rt` and `rtlib`, and `name` is the kit's."""
    found = {f"{module}.{part}": source for module, text in texts.items() for part, source in parts_of(text).items()}
    wanted = [f"{module}.{it}" for module, names in READ.items() for it in names] + [it for it in REPLACED if it.partition(".")[2] not in OPTIONAL["rt"]]
    lacking = sorted({*wanted} - {*found})
    if lacking:
        return f"the script of {name} has no {', '.join(lacking)}, which tools/kit.py reads or replaces"
    other = [it for it, sum in REPLACED.items() if it in found and checksum(found[it]) != sum]
    if other and name not in BY_NAME:
        return f"the script of {name} has another {', '.join(other)} than tools/kit.py replaces: compare them, and add the checksums there"
    return None


def name_of(folder):
    """Returns the name of the kit in a folder, such as rattle-kit-13f."""
    with open(f"{folder}/KIT-ID", encoding="utf-8") as it:
        return (re.search(r"rattle-kit-\w+", it.read()) or ["a kit without a name"])[0]


def texts_of(script):
    """Returns the texts of the script's two files by the names of their modules."""
    found = {}
    for module, path in (("rt", script), ("rtlib", f"{os.path.dirname(script)}/rtlib.py")):
        with open(path, encoding="utf-8") as it:
            found[module] = it.read()
    return found


def loaded(script):
    """Returns the script as a module, or ends the process with a sentence if it is not the one that is known here."""
    fault = fault_of(texts_of(script), name_of(os.path.dirname(os.path.dirname(script))))
    if fault:
        sys.exit(f"this kit can't be used: {fault}")
    loader = importlib.machinery.SourceFileLoader("rt", script)
    module = importlib.util.module_from_spec(importlib.util.spec_from_loader("rt", loader))
    loader.exec_module(module)
    return module


rt = loaded(os.path.realpath(SCRIPT))
rtlib = rt.rtlib

# Whether the kit keeps on the machine what passed. One that does has names for what an edit's try comes to.
KEEPS = hasattr(rt, "Kept")

# ---- Replaced in every run.


def once_for_each_crate(work):
    """Has a method of a crate do its work once in a run. The kit's own looks at each crate below along every way of
    dependencies that leads there: for a crate high up that is minutes before the prover starts."""
    known = {}

    def answer(crate):
        key = crate.folder
        if key not in known:
            known[key] = work(crate)
        return known[key]

    return answer


rtlib.Crate.stamp = once_for_each_crate(rtlib.Crate.stamp)

# The memory that a check takes, in bytes: what each takes, what a line of its crate and one of the crates below add, and what LLVM takes
# for tests or a program. The kit's own figure is up to three times as much for large crates, and by it the longest chain of crates waits for
# room that nobody takes. The gate shows the most that a check of each crate took.
EACH, OF_LINE, OF_LINE_BELOW, OF_LLVM = 1_200_000_000, 500_000, 25_000, 2_500_000_000


def need(crate):
    """Returns about how much memory a check of the crate takes, in bytes."""
    below = sum(it.count(rb"\n") for it in crate.below())
    compiles = crate.is_program or crate.has_tests()
    return EACH + OF_LINE * crate.count(rb"\n") + OF_LINE_BELOW * below + OF_LLVM * compiles


rt.need = need

# The checker's allocator gives memory that it does not use back to the system, and asks for it again soon after. A check that keeps it takes a
# twentieth less of processor time, and a thirtieth more of memory.
os.environ.setdefault("MIMALLOC_PURGE_DELAY", "-1")


def crates_as_built():
    """Returns the repository's crates, lowest first, as the kit's building commands see them."""
    rtlib.Crate, rt.Crate.allowed = rt.Crate, rt.handles_of(TOP)
    crates = rtlib.crates_below(TOP)
    return sorted(crates, key=lambda it: len(it.below()))


def toolchain_with(room, name, script):
    """Makes a folder like the kit's toolchain, but that one of its programs is this shell script, in which {given} is the kit's own
    program, and returns it."""
    folder, given = f"{room}/toolchain", f"{rtlib.KIT}/toolchain"
    os.makedirs(f"{folder}/bin")
    for at in [it for it in os.listdir(given) if it != "bin"] + [f"bin/{it}" for it in os.listdir(f"{given}/bin") if it != name]:
        os.symlink(f"{given}/{at}", f"{folder}/{at}")
    with open(f"{folder}/bin/{name}", "w") as it:
        it.write(script.format(given=shlex.quote(f"{given}/bin/{name}")))
    os.chmod(f"{folder}/bin/{name}", 0o755)
    return folder


# ---- Replaced by the gate.

# The line in src/lib.rt of a crate that has only tests.
TESTS_ALONE = re.compile(r"(//.*\n)*#!\[tactic\(auto\)\]\n(\s*#\[cfg\(test\)\]\nmod \w+;\n)+")


class Crate(rt.Crate):
    """A crate as `rt ci` sees it. One that has only tests is proved with them, and not again without: then it has no code."""

    # A folder like the kit's toolchain, for tests.
    toolchain = None

    def ci(self, flags, tests):
        if not tests and self.has_tests_alone():
            rt.say("all of it is tests: see what is said of these", self.out)
            return 0
        return super().ci(flags, tests)

    def prove(self, *commands):
        """Proves as the kit does. Tests are compiled by a clang that does not optimize, if there is one."""
        kits = f"{rt.KIT}/toolchain"
        return super().prove(*([self.toolchain or it if it == kits and "--test" in words else it for it in words] for words in commands))

    def compile_by(self, backend, words, to):
        """Compiles and links a proved program. The kit asks for LLVM's program, and then for that of Rattle's own compiler, when
        nothing else runs any more. Here both are built at the same time."""
        if backend == "llvm":
            with ThreadPoolExecutor(1) as other:
                self.own = other.submit(super().compile_by, "rattle", words, to)
                return super().compile_by(backend, words, to)
        return self.own.result()

    def has_tests_alone(self):
        return bool(TESTS_ALONE.fullmatch(rtlib.text_of(f"{self.folder}/src/lib.rt") or ""))


if KEEPS:

    class Kept(rt.Kept):
        """The runs that passed on this machine. For a crate that has only tests nothing else is cached."""

        def keep(self, crate, tests, key):
            if tests or not crate.has_tests_alone():
                super().keep(crate, tests, key)


def use_crates_of_the_gate(toolchain):
    """Has `rt ci` prove crates as the gate does, and compile tests with this toolchain."""
    Crate.toolchain, rt.Crate = toolchain, Crate
    if KEEPS:
        rt.Kept = Kept


def use_processors(number):
    """Has everything share this number of processors."""
    rt.processors = lambda: number


def begin_commands_with(words):
    """Puts words before each command that the kit starts."""
    guarded = [*rtlib.guarded(), *words]
    rtlib.guarded = lambda: guarded


def wrap_runs(wrap):
    """Has the kit run a program or tests by what `wrap` makes of its own way."""
    rt.run = wrap(rt.run)


def share_lanes_by(share):
    """Has tasks share the processors by this call."""
    rt.in_lanes = share


def print_by(tell):
    """Has the kit print by this call: its last line says how many passed and failed."""
    rt.print = tell


def try_edits_by(add_edits, try_all):
    """Has all wrong implementations of a crate be one task: `add_edits` for a kit that caches results, `try_all` for another one."""
    if KEEPS:
        rt.add_edits = add_edits
    else:
        rt.must_fail_all = try_all
