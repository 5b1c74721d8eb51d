"""Tries a crate's wrong implementations, the edits of its folder must-fail/, many in one check.

Each check loads the libraries below the crate, which takes most of its time. So all edits are in one check, in which antt continues
after what it refuses. Each has a function of its own: of several edits of one function the first is in the function itself, and each
other in a copy of it, with its contract and a copy of its proof under another name. The proof of every function that is not edited is
a hole, which antt takes by its statement: that they are proved is shown elsewhere, and an implementation is refused by what it calls
states, not by how that is proved. A function of which the rest does not speak is left out, since rattle takes time for it too. Each
edited function has an answer that is refused, so that rattle does not print what to write for its goals.

An edit is refused where one of its own function's goals is. Another function's goal does not count, in the same cycle of calls or
not, nor does a name that is no longer there, nor a hole. If anything else is refused over holes, the check is made once more with
the other proofs whole; if a text cannot be read, each half of the edits is tried. What is not refused in this way is tried alone, and
judged as the kit's own `rt must-fail` does. No check uses what an older one kept."""

import copy
import hashlib
import os
import re
import shutil
import tempfile

from functions import WORD, Sources, unnamed, without, without_body
from kit import KEEPS, rt, rtlib

# A proof that antt takes by its statement.
HOLE = """use Rattle.{crate}.{path}.Statement as stated

pub {name}_spec : {{M : Type 1}} → stated.statement M
{name}_spec = ?
"""
# A declaration among a function's answers that antt refuses. Where a goal has no answer, and all that is written is well, rattle runs antt once
# more to print what to write, which takes longer than to load the libraries. Where something is refused, it does not.
NOT_OFFERED = "not-offered"
REFUSED_ANSWER = f"\n{NOT_OFFERED} : no_such_name\n{NOT_OFFERED} = no_such_name\n"
# What antt says at a place: whether that is a note or an error, the file and line, and the goal or other declaration at fault.
SAID = re.compile(
    r"(?P<note>note: )?(?:\./)?(?P<file>(?:src|specs|proofs)/\S+?):(?P<line>\d+):\d+: (?P<error>error: )?(?P<text>(?:`(?P<name>[^`]+)`: )?.*)"
)
# What rattle says at a place in a source text that it cannot take.
UNTAKEN = re.compile(r"(?:\./)?(?P<file>src/\S+?):(?P<line>\d+):\d+: error\[")
# What antt says of text that names something which is no longer there: that shows nothing about a contract. Where it lists names that are
# near, the words "has no field" come on the next line.
NAMES_WHAT_IS_GONE = re.compile(r"has no field|record `[^`]+` \(nearest: |is not in scope|has no `|was not admitted")
# What it says of an answer whose goal has another name now. A goal of its kind may be unproved only because this answer is missing.
LOST_ITS_GOAL = re.compile(r"\.Goals` has no `")
# What the kit answers of an edit. One that keeps nothing between runs only says whether it is refused.
if KEEPS:
    REFUSED, MISSED, BAD = rt.REFUSED, rt.MISSED, rt.BAD
else:
    REFUSED, MISSED, BAD = True, False, False


class Edit:
    """An edit's file, what it changes as (old, new), and the one function in which it does, None where it changes anything else."""

    def __init__(self, crate, sources, file):
        self.file, self.label = file, f"must-fail {crate.name}/{os.path.basename(file)}"
        self.changes, self.home = [], None
        if rt.read_edit(file, crate.folder)[1]:
            return
        path, old, homes = "", "", set()
        for line in rtlib.text_of(file).split("\n"):
            if line.startswith("file: "):
                path = line[len("file: ") :].strip()
            elif line.startswith("old: "):
                old = line[len("old: ") :]
            elif line.startswith("new:"):
                self.changes.append((old, line[len("new:") :].removeprefix(" ")))
                homes.add(home_of(sources, path, old))
        self.home = homes.pop() if len(homes) == 1 else None

    def made_in(self, text):
        """Returns the text with its changes made."""
        for old, new in self.changes:
            text = text.replace(old, new)
        return text


def home_of(sources, path, old):
    """Returns the function of which the old text is a part, or None."""
    text = sources.texts.get(path, "")
    line = text.count("\n", 0, max(text.find(old), 0)) + 1
    return next((it for it in sources.functions.get(path, []) if it.has(path, line)), None)


class FunctionCopy:
    """A function under a further name, for a further edit of it."""

    def __init__(self, crate, function, number):
        self.function, self.name = function, f"{function.name}_again_{number}"
        self.folder = "/".join([os.path.dirname(function.proof()), self.name])
        above = "".join(rf"{re.escape(it)}\." for it in function.above())
        self.cited = re.compile(rf"(Rattle\.{crate.name}\.(?:proofs|specs\.contracts)\.{above}(?:fn\.)?){function.name}(?=\.)")

    def source(self, text):
        """Returns the function's source text under this name."""
        return re.sub(rf"\bfn {self.function.name}\b", f"fn {self.name}", text, count=1)

    def write_proof(self, room):
        """Writes the function's proof under this name into a copy of the crate."""
        folder = f"{room}/{self.function.proof()}"
        if os.path.isdir(folder):
            shutil.copytree(folder, f"{room}/{self.folder}")
            for at, _, names in os.walk(f"{room}/{self.folder}"):
                for file in (f"{at}/{name}" for name in names):
                    write_text(file, self.cited.sub(rf"\g<1>{self.name}", rtlib.text_of(file)))


def may_be_copied(crate, function):
    """Says whether a function can be in the crate twice, and its proof too: it is of no trait, in no cycle of calls, and no
    other proof cites its goals, which a copy has under another name."""
    is_in_cycle = function.cycle or function.cycle_proof and os.path.isdir(f"{crate.folder}/{function.cycle_proof}")
    if function.kind not in ("free", "own") or is_in_cycle or function.name == "main":
        return False
    own = f"{crate.folder}/{function.proof()}/"
    others = (it for it in rtlib.files_of(crate.folder) if it.endswith(".antt") and not it.startswith(own))
    cited = re.escape(".".join(["Rattle", crate.name, *function.proof().split("/")]))
    return not any(re.search(rf"{cited}\.(?!Met\b)", rtlib.text_of(it)) for it in others)


class Trial:
    """The edits of one check, the source texts with them made, and of each the name of the function in which it is, and the
    function itself, where the text has it."""

    def __init__(self, crate, sources, edits):
        self.crate, self.copies, self.names, texts, of_home = crate, [], {}, dict(sources.texts), {}
        # (whether a check found an edited function that it cannot take, with or without holes elsewhere)
        self.is_untaken = False
        for edit in edits:
            if edit.home not in of_home or may_be_copied(crate, edit.home):
                of_home.setdefault(edit.home, []).append(edit)
        # (from the end of each text, so that the lines above keep their places)
        for home in sorted(of_home, key=lambda it: -it.first):
            lines, bodies = texts[home.path].split("\n"), []
            text = "\n".join(lines[home.first - 1 : home.last])
            for number, edit in enumerate(of_home[home], 1):
                copied = FunctionCopy(crate, home, number) if number > 1 else None
                self.copies += [copied] if copied else []
                bodies.append(copied.source(edit.made_in(text)) if copied else edit.made_in(text))
                self.names[edit] = "::".join([*home.above(), copied.name if copied else home.name])
            texts[home.path] = "\n".join([*lines[: home.first - 1], "\n\n".join(bodies), *lines[home.last :]])
        self.sources = Sources(crate, texts)
        named = {it.path_in_crate(): it for it in self.sources.all()}
        self.functions = {edit: named[name] for edit, name in self.names.items() if name in named}

    def write(self, room, has_holes):
        """Writes the crate with these edits into a folder, and returns it."""
        texts, holes, unneeded = self.with_holes() if has_holes else (self.sources.texts, [], [])
        for part in rtlib.PARTS:
            if os.path.isdir(f"{self.crate.folder}/{part}"):
                shutil.copytree(f"{self.crate.folder}/{part}", f"{room}/{part}")
        for path, text in texts.items():
            write_text(f"{room}/{path}", text)
        for it in self.copies:
            it.write_proof(room)
        for it in [*holes, *unneeded]:
            for gone in filter(None, (it.proof(), it.cycle_proof)):
                shutil.rmtree(f"{room}/{gone}", ignore_errors=True)
        for it in self.functions.values() if has_holes else []:
            self.refuse_an_answer(room, it)
        for it in holes:
            os.makedirs(f"{room}/{it.proof()}")
            write_text(f"{room}/{it.proof()}/Proof.antt", HOLE.format(crate=self.crate.name, path=it.proof().replace("/", "."), name=it.name))
        copied = copy.copy(self.crate)
        copied.folder = room
        return copied

    def refuse_an_answer(self, room, function):
        """Writes a declaration that is refused among an edited function's answers. That it is refused shows nothing of the edit. A function
        that calls itself has its answers elsewhere. One with a proof by hand, or a proof for each of several types, has none."""
        body = "\n".join(self.sources.texts[function.path].split("\n")[function.named : function.last])
        calls = r"(?<![\w.:])" if function.kind == "free" else rf"\b(?:self\.|Self::|{function.impl}::)"
        calls_itself = function.cycle or re.search(rf"{calls}{function.name}\(", body)
        folder = f"{room}/{function.proof()}"
        if function.kind != "any" and not calls_itself and not os.path.exists(f"{folder}/Proof.antt"):
            os.makedirs(folder, exist_ok=True)
            write_text(f"{folder}/Answers.antt", (rtlib.text_of(f"{folder}/Answers.antt") or "") + REFUSED_ANSWER)

    def with_holes(self):
        """Returns the texts with no body in the functions that can have a hole for a proof, these functions, and those that were left
        out. All can have one but the edited functions, those in a cycle of calls with them, and those of which rattle proves one for
        each of several types. Those are left out of which none of the rest speaks."""
        texts, holes = dict(self.sources.texts), []
        edited = {it.path_in_crate() for it in self.functions.values()}
        cycles = {it.cycle_proof for it in self.functions.values() if it.cycle}
        for path, found in self.sources.functions.items():
            if "#[test]" in texts[path]:
                continue
            lines = texts[path].split("\n")
            for it in found:
                is_whole = it.path_in_crate() in edited or it.kind == "any" or it.cycle and it.cycle_proof in cycles
                short = None if is_whole else without_body(lines, it)
                lines = short or lines
                holes += [it] if short else []
            texts[path] = "\n".join(lines)
        unneeded = self.unneeded(texts, holes)
        return {**texts, **without(texts, unneeded)}, [it for it in holes if it not in unneeded], unneeded

    def unneeded(self, texts, holes):
        """Returns those of these functions of which neither the texts nor the definitions and proofs of the rest speak."""
        own = {gone for it in holes for gone in (it.proof(), it.cycle_proof)}
        files = [it for it in rtlib.files_of(self.crate.folder) if it.endswith(".antt")]
        kept = [it for it in files if os.path.relpath(os.path.dirname(it), self.crate.folder) not in own]
        words = {word for it in kept for word in named_in(self.crate.name, rtlib.text_of(it))}
        return unnamed(texts, [it for it in holes if it.kind in ("free", "own")], words)

    def check(self, has_holes):
        """Checks the edited functions, and returns the lines that the check says, or None where it settles nothing."""
        only = [word for it in self.functions.values() for word in ("--only", it.path_in_crate())]
        with tempfile.TemporaryDirectory(prefix="gate-edits-") as room:
            ran = rt.checked(self.write(room, has_holes), {}, ["--jobs", "1", "--allow-holes", *only], None)
        lines = ran.stdout.rstrip("\n").split("\n")
        has_ended = ran.returncode == 1 and lines[-1].startswith("only=") and not rtlib.STALE.search(ran.stdout)
        why = next((it for it in lines if rt.unread(it, self.sources.texts)), "" if has_ended else lines[-1])
        # (what else is refused over holes may be refused because of them, and so may what depends on it)
        why = why or next((it for it in lines if has_holes and self.is_of_another(it)), "")
        self.is_untaken = any(self.is_at_an_edit(it) for it in map(UNTAKEN.match, lines) if it)
        if why:
            rt.say(f"note: {self.crate.name}: a check of {len(self.functions)} edits settles none of them: {why[:200]}")
        return None if why else lines

    def is_at_an_edit(self, said):
        return any(it.has(said["file"], int(said["line"])) for it in self.functions.values())

    def is_of_another(self, line):
        """Says whether this line reports an error that is in the proof of no edited function."""
        said = SAID.match(line)
        return bool(said and said["error"] and not any(it.has_proof(said["file"]) for it in self.functions.values()))

    def refused(self, lines):
        """Returns the line by which each edit is refused, for those that are."""
        found = {edit: refusal(self.crate.name, it, lines) for edit, it in self.functions.items()}
        return {edit: line for edit, line in found.items() if line}


def named_in(crate, text):
    """Returns the words of the paths by which a definition or proof may name a function of the crate, as Rattle.sample.proofs.next.Goals."""
    path = re.compile(rf"\bRattle\.{re.escape(crate)}\.[^\s(){{}}]*")
    return {word for it in path.findall(text) for word in WORD.findall(it)}


def write_text(file, text):
    with open(file, "w", encoding="utf-8") as it:
        it.write(text)


def refusal(crate, function, lines):
    """Returns the line by which the prover refuses one of the function's own goals, or None."""
    starts = f"fn {crate}::{function.path_in_crate()}: "
    verdict = next((it for it in lines if it.startswith((f"{starts}no proof", f"{starts}not proved"))), None)
    said = [it for it in map(SAID.match, lines) if it]
    errors = [it for it in said if it["error"]]
    # (where what the goals are stated by, or a whole file of answers, cannot be read, it shows nothing that they are not proved)
    if not verdict or any(function.has_proof(it["file"]) and (not it["name"] or "/Invariants." in it["file"]) for it in errors):
        return None
    answers = [it for it in errors if it["name"] != NOT_OFFERED and function.has_goal(it["file"], it["name"])]
    wrong = next((it for it in answers if not NAMES_WHAT_IS_GONE.search(it["text"])), None)
    if wrong:
        return wrong.string
    lost = {kind_of(it["name"]) for it in answers if LOST_ITS_GOAL.search(it["text"])}
    for it in said:
        is_note = it["note"] and it["text"].startswith("it is not proved that ") and function.has(it["file"], int(it["line"]))
        goals = re.findall(r"\(`([^`]+)`\)", it["text"])
        if is_note and not any(kind_of(goal) in lost for goal in goals):
            return it.string
    goals = re.findall(r"`([^`]+)`", verdict.partition("`search` did not prove ")[2].partition(";")[0])
    return verdict if any(function.is_named_in(it) and kind_of(it) not in lost for it in goals) else None


def kind_of(goal):
    """Returns what a goal is of, as the function's result or a call, and which clause it is, without the ways that lead there."""
    return goal.split("-")[0], goal.split("-")[-1]


def try_together(crate, sources, edits):
    """Tries edits in one check. Returns the line by which each is refused, for those that are, and the edits that do not fit into
    this check, since others of their functions are there."""
    trial = Trial(crate, sources, edits)
    lines = trial.check(has_holes=True)
    if not lines and not trial.is_untaken:
        lines = trial.check(has_holes=False)
    tried, refused = [*trial.functions], trial.refused(lines or [])
    if not lines and len(tried) > 1:
        half = len(tried) // 2
        for part in (tried[:half], tried[half:]):
            refused.update(try_together(crate, sources, part)[0])
    return refused, [it for it in edits if it not in trial.names]


def try_alone(crate, edit, flags):
    """Tries an edit as the kit does. Where it is refused by names alone that it took away, no contract was tried; and one that
    cannot be applied or read shows nothing."""
    kind, text = rt.must_fail(crate, edit.file, flags)[:2]
    shows_nothing = kind == BAD or "this says little of the contract" in text
    return MISSED if shows_nothing else kind, text


def try_all(crate, files, flags):
    """Returns for each edit the result of its trial, as the kit has it, and what to say."""
    sources = Sources(crate)
    edits, refused = [Edit(crate, sources, it) for it in files], {}
    left = [it for it in edits if it.home]
    while left:
        found, left = try_together(crate, sources, left)
        refused.update(found)
    said = {it: (REFUSED, f"{it.label}: refused, as it must be: {line[:160]}") for it, line in refused.items()}
    return [said.get(it) or try_alone(crate, it, flags) for it in edits]


def sum_of_tools():
    """Returns a sum of what tries edits here, a part of the name under which an edit's result is kept."""
    here = os.path.dirname(os.path.realpath(__file__))
    texts = [rtlib.text_of(f"{here}/{name}") for name in ("must_fail.py", "functions.py")]
    return hashlib.sha256(repr(texts).encode()).hexdigest()


class Tried:
    """The results of a crate's edits, kept on this machine with what the kit keeps, by the sums of all that they depend on."""

    def __init__(self, crate, files, kept):
        self.crate, self.files, self.kept, self.names, self.found = crate, files, kept, [], None

    def known(self):
        """Returns, by their numbers, the results of those edits that earlier runs tried."""
        if self.found is None:
            sum = self.kept.key(self.crate) + sum_of_tools()
            self.names = [self.kept.of_edit(it, sum) for it in self.files]
            kept = {number: self.kept.tried(name) for number, name in enumerate(self.names)}
            self.found = {number: it for number, it in kept.items() if it}
        return self.found

    def keep(self, number, kind, text):
        sum = self.kept.key(self.crate) + sum_of_tools()
        is_same = self.kept.is_untouched(self.crate) and self.kept.of_edit(self.files[number], sum) == self.names[number]
        if kind in rt.SETTLED and is_same:
            self.kept.keep_tried(self.names[number], kind, text)


def add_edits(tasks, crate, files, first, waits, is_well, kept, *_):
    """Takes the place of the kit's function of this name: adds the one task that tries a crate's edits, and returns what gives their
    results, in order, and what gives those of earlier runs."""
    tried, key = Tried(crate, files, kept), (crate.name, "edits")

    def work(given, jobs):
        if not files or not is_well(given):
            return []
        known = tried.known()
        new = [number for number in range(len(files)) if number not in known]
        if not new:
            return [known[number] for number in range(len(files))]
        is_well(given, len(new))
        found = dict(zip(new, try_all(crate, [files[it] for it in new], ["--jobs", "1"])))
        for number, (kind, text) in found.items():
            tried.keep(number, kind, text)
        return [known.get(number) or found[number] for number in range(len(files))]

    tasks[key] = (waits, crate.count(rb"\n"), rt.need(crate), work)
    return lambda given: given[key], lambda: tried.known() if files else {}
