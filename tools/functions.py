"""The functions of a crate's source texts: where each is, what rattle calls it, and where its proof is.

The texts are as `rt fmt` lays them out, which the gate sees to."""

import itertools
import os
import re

from kit import rtlib

FUNCTION = re.compile(r"^(\s*)(?:pub(?:\([a-z]+\))? )?(?:const )?fn (\w+)")
BLOCK = re.compile(r"(impl|(?:pub(?:\([a-z]+\))? )?trait)\b")
TYPE = re.compile(r"^(?:pub(?:\([a-z]+\))? )?(?:struct|enum) (\w+)", re.M)
CYCLE = re.compile(r"\s*#\[cycle\((\w+)\)\]$")
# An item that brings names, but for one of clauses, a comment, and a word.
USE = re.compile(r"^(?:pub(?:\([a-z]+\))? )?use [^;]*;", re.M)
COMMENT = re.compile(r"^\s*//.*", re.M)
# What names definitions of the logic, and no function: an item that brings them, and a clause.
GHOST = re.compile(r"^ghost use [^;]*;|^\s*(?:requires|ensures)\b.*", re.M)
WORD = re.compile(r"\w+")
# A path's last word, and the path of the first type that its brackets hold.
PATH = re.compile(r"(?:\w+::)*(\w+)(?:<((?:\w+::)*\w+))?")


class Function:
    """A function of a source text.

    `first`, `named` and `last` are its lines, from 1: that of its first comment or attribute, that of its name, and that of its
    last brace. `impl` is what rattle calls the impl that it is in, `kind` says which that is: "free", "own" (of a type),
    "trait" (a trait's for one type) or "any" (a trait, or a trait's for each type of some kind). `cycle` is the name of the cycle
    of calls that it is in with others, if it is in one, and `cycle_proof` the folder of that cycle's proof, or of the function's
    own where it calls itself."""

    def __init__(self, path, name, impl, kind, span):
        self.path, self.name, self.impl, self.kind = path, name, impl, kind
        self.first, self.named, self.last = span
        self.module, self.cycle, self.cycle_proof = module_of(path), "", ""

    def has(self, path, line):
        return path == self.path and self.first <= line <= self.last

    def above(self):
        """Returns the names of the modules and of the type that the function is in."""
        modules = [] if self.module in ("lib", "main") else self.module.split("/")
        return [*modules, *([self.impl] if self.impl else [])]

    def path_in_crate(self):
        """Returns the function's path below its crate, as rattle prints it."""
        return "::".join([*self.above(), self.name])

    def proof(self):
        """Returns the folder of the function's own proof."""
        return "/".join(["proofs", *self.above(), self.name])

    def has_proof(self, file):
        """Says whether a proof file is the function's own, or that of its cycle of calls."""
        return os.path.dirname(file) in (self.proof(), self.cycle_proof)

    def has_goal(self, file, goal):
        """Says whether a goal whose answer is in this proof file is one of the function's own."""
        if file == f"{self.proof()}/Answers.antt":
            return True
        return file == f"{self.cycle_proof}/Answers.antt" and self.is_named_in(goal)

    def is_named_in(self, goal):
        """Says whether a goal of its cycle of calls is the function's own. Where it is alone, all are."""
        return not self.cycle or goal.startswith(f"{self.name}-")


def module_of(path):
    return path[len("src/") : -len(".rt")].removesuffix("/mod")


def impl_of(head):
    """Returns what rattle calls the impl that these words begin, `Type`, or `TypeTrait` with the type in the trait's brackets,
    and its kind. That of `Drop` is called `Type`."""
    if not head.startswith("impl"):
        return re.search(r"\btrait (\w+)", head)[1], "any"
    head, is_generic = head.removeprefix("impl").replace("->", "").partition("{")[0], False
    if head.startswith("<"):
        depths = itertools.accumulate({"<": 1, ">": -1}.get(it, 0) for it in head)
        head, is_generic = head[[*depths].index(0) + 1 :], True
    trait, _, name = head.strip().rpartition(" for ")
    of_type, of_trait = PATH.match(name), PATH.match(trait)
    if not of_type or trait and not of_trait:
        return "", "any"
    if not of_trait:
        return of_type[1], "own"
    if of_trait[1] == "Drop":
        # (rattle puts a drop among the type's own functions)
        return of_type[1], "any" if is_generic else "trait"
    held = "".join(it[0].upper() + it[1:] for it in (of_trait[2] or "").split("::") if it)
    return of_type[1] + of_trait[1] + held, "any" if is_generic else "trait"


def first_line(lines, at):
    """Returns the place of a function's first comment or attribute: its name is in the line at this place."""
    while at and lines[at - 1].strip() and (lines[at - 1].lstrip().startswith("//") or not lines[at - 1].endswith(("{", "}", ";"))):
        at -= 1
    return at


def last_line(lines, at, indent):
    """Returns the place of the brace that ends a function, whose name is in the line at this place, or None where it has no body."""
    for place in range(at, len(lines)):
        line = lines[place]
        if line.startswith(indent) and not line.startswith(indent + " ") and line.endswith(("}", ";")):
            return place if line.endswith("}") else None
    return None


def functions(path, text):
    """Returns the functions of a source text, but for those that are inside others."""
    lines, found, impl, kind = text.split("\n"), [], "", "free"
    for at, line in enumerate(lines):
        if BLOCK.match(line):
            head = " ".join(itertools.takewhile(lambda it: it != "}", lines[at : at + 9]))
            impl, kind = impl_of(head)
        elif line == "}":
            impl, kind = "", "free"
        start = FUNCTION.match(line)
        if not start or start[1] != ("" if kind == "free" else "    "):
            continue
        last = last_line(lines, at, start[1])
        if last is not None:
            found.append(Function(path, start[2], impl, kind, (first_line(lines, at) + 1, at + 1, last + 1)))
    return found


class Sources:
    """The source texts of a crate by their paths, as src/lib.rt, and their functions."""

    def __init__(self, crate, texts=()):
        files = [it for it in rtlib.files_of(crate.folder) if it.endswith(".rt")]
        self.texts = {os.path.relpath(it, crate.folder): rtlib.text_of(it) for it in files}
        self.texts.update(texts)
        modules = {}
        for path, text in self.texts.items():
            for name in TYPE.findall(text):
                modules.setdefault(name, set()).add(module_of(path))
        self.functions = {path: functions_of_types(path, text, modules) for path, text in self.texts.items() if path.startswith("src/")}

    def all(self):
        return [it for found in self.functions.values() for it in found]


def functions_of_types(path, text, modules):
    """Returns the functions of a text. A method is named by the module of its type, also where the impl is in another."""
    lines, found = text.split("\n"), functions(path, text)
    for it in found:
        of_type = modules.get(it.impl, {it.module})
        it.module = it.module if it.module in of_type else min(of_type)
        it.cycle = next((said[1] for said in map(CYCLE.match, lines[it.first - 1 : it.named]) if said), "")
    cycles = {(*it.above(), it.cycle) for it in found}
    for it in found:
        # (a function outside a cycle may have its name)
        if it.cycle or (*it.above(), it.name) not in cycles:
            it.cycle_proof = "/".join(["proofs", *it.above(), f"+{it.cycle or it.name}"])
    return found


def begin_of_body(lines, function):
    """Returns the line, from 1, at whose end a function's body begins, after its clauses or else after its signature, or None
    where it ends in that line."""
    indent = FUNCTION.match(lines[function.named - 1])[1]
    for at in range(function.named, function.last):
        line = lines[at - 1]
        if line == indent + "{" or line.endswith(" {") and (at == function.named or line.startswith(indent + ")")):
            return at
    return None


def without_body(lines, function):
    """Returns the lines, as many as before, with no body in this function, and so in no cycle of calls, or None where it has none."""
    begin = begin_of_body(lines, function)
    if not begin:
        return None
    head = ["" if CYCLE.match(it) else it for it in lines[function.first - 1 : begin]]
    gone = ["unreachable!()", *[""] * (function.last - begin - 2)]
    return [*lines[: function.first - 1], *head, *gone, *lines[function.last - 1 :]]


def blank(text):
    """Returns as many lines that are empty."""
    return "\n" * text.count("\n")


def words_of(text):
    """Returns the words of a text, without those of its comments, of its clauses and of the items that bring names."""
    return {*WORD.findall(GHOST.sub("", COMMENT.sub("", USE.sub("", text))))}


def unnamed(texts, functions, other_words):
    """Returns those of these functions that are named neither by these other words nor in the texts, but by those that are returned."""
    lines = {path: text.split("\n") for path, text in texts.items()}
    own = {it: words_of("\n".join(lines[it.path][it.first - 1 : it.last])) for it in functions}
    for it in functions:
        lines[it.path][it.first - 1 : it.last] = [""] * (it.last - it.first + 1)
    named = other_words.union(*(words_of("\n".join(it)) for it in lines.values()))
    left, found = {*functions}, True
    while found:
        found = {it for it in left if it.name in named}
        left -= found
        named = named.union(*(own[it] for it in found))
    return left


def without(texts, functions):
    """Returns the texts, with as many lines as before, without these functions and without what brings their names."""
    lines = {path: text.split("\n") for path, text in texts.items()}
    for it in functions:
        lines[it.path][it.first - 1 : it.last] = [""] * (it.last - it.first + 1)
    gone = {it.name for it in functions}
    return {path: USE.sub(lambda item: without_names(item[0], gone), "\n".join(it)) for path, it in lines.items()}


def without_names(item, names):
    """Returns an item that brings names without some of these, or as many empty lines where it brings no other."""
    head, is_list, inside = item.partition("{")
    if "{" in inside:
        return item
    if not is_list:
        return blank(item) if re.split(r"::| ", item.rstrip(";"))[-1] in names else item
    kept = [it for it in re.split(r",\s*", inside.rstrip("};\n ").strip()) if it and it not in names]
    return f"{head}{{{', '.join(kept)}}};{blank(item)}" if kept else blank(item)
