#!/usr/bin/env python3
"""tools/launcher.py [--write] [PROGRAM]: checks ./simulate, and the texts that it prints without the program.

The built program, or PROGRAM, must print the help of docs/HELP.md, the explanations that tools/unbuilt.py reads from the sources,
what it says of a first word that is no command, and the version of CHANGELOG.md. The man page and the completions must name each
command and option of the help. Then ./simulate is called in a copy of the files that it needs, with stand-ins for the tools that
build: by a symbolic link, without a build, with an unproved program, to install and to package. With --write this writes docs/HELP.md
as the program prints it. ./gate runs the rest each time it has run the program."""

import os
import re
import shutil
import subprocess
import sys
import tempfile
import time

import unbuilt
from calls import CYCLE, EXPLAINED, TO_8
from kit import TOP
from program import Room

PROGRAM = f"{TOP}/crates/fbsim/out/fbsim"
COMMANDS = ("", "run", "check", "session", "wave", "expect", "diff", "draw", "inspect", "coverage", "explain")
HEAD = """# Help

What `--help` prints, for the program and each of its commands, and what `explain` prints.
`tools/launcher.py --write` writes the first part, `tools/explained.py --write` the second.
"""
# What begins the part of docs/HELP.md that tools/explained.py keeps.
SECOND_PART = "\n## What to look at\n"
COMPLETIONS = ("bash-completion/completions/fbsim", "zsh/site-functions/_fbsim", "fish/vendor_completions.d/fbsim.fish")
MANUAL = "man/man1/fbsim.1"
# What ./simulate needs of the repository.
NEEDED = ("simulate", "tools/unbuilt.py", "tools/start_unproved", "tools/install.py", "docs/HELP.md", "CHANGELOG.md", "crates.txt", "crates/fb_why/src/table.rt", "share")
STANDS_IN = """import os, shutil, sys
print("a build", file=sys.stderr)
if sys.argv[1:]:
    shutil.copy(f"{os.path.dirname(__file__)}/../crates/fbsim/out/fbsim", sys.argv[1])
sys.exit(not sys.argv[1:])
"""
# Stands in for tools/package.py: it refuses the folder of this name.
PACKAGES = """import sys
print("packages", *sys.argv[1:], file=sys.stderr)
sys.exit(sys.argv[-1] == "none")
"""
# Calls whose first word is no command and no option, and is like none, so that the program has no tip.
MISTYPED = ("rnu -", "- run", "--unprovd run -", "-xh", "rnu --help")
NO_COMMAND = "error: {0}\n\nUsage: fbsim <COMMAND>\n\nFor more information, try '--help'.\n"
NOT_PROVED = "simulate: this program is not proved: `./simulate` without --unproved proves it and builds it\n"


# ---- The texts


def printed(room, words):
    """Returns what the program prints."""
    ran = room.call(words)
    return ran.stdout.decode() if ran.returncode == 0 else f"status {ran.returncode}"


def help_page(room):
    """Returns docs/HELP.md as the program prints its parts, with the second part as it is."""
    blocks = []
    for command in COMMANDS:
        call = " ".join(["fbsim", *[command] * bool(command), "--help"])
        blocks.append(f"\n```console\n$ {call}\n{printed(room, call.split()[1:])}```\n")
    return HEAD + "".join(blocks) + SECOND_PART + unbuilt.content(unbuilt.HELP).partition(SECOND_PART)[2]


def unnamed(texts):
    """Returns the options, commands and refusals that the man page and the completions lack."""
    options = {it for text in texts.values() for it in re.findall(r"^ +(?:-\w, )?--([\w-]+)", text, re.M)}
    faults = []
    for place in (MANUAL, *COMPLETIONS):
        text = unbuilt.content(f"{TOP}/share/{place}").replace("\\-", "-")
        required = {it for it in COMMANDS if it} | {f"-l {it} " if place.endswith(".fish") else f"--{it}" for it in options}
        required |= set() if place == MANUAL else {*EXPLAINED[:-1]}
        faults += [f"share/{place}: lacks {it}" for it in sorted(required) if it not in text and f"-{{h,-{it}" not in text]
    return faults


def completed(*words):
    """Returns what bash completes the last word to."""
    script = f'source "$0"; COMP_WORDS=("$@"); COMP_CWORD={len(words) - 1}; _fbsim; echo "${{COMPREPLY[*]}}"'
    ran = subprocess.run(["bash", "-c", script, f"{TOP}/share/{COMPLETIONS[0]}", *words], capture_output=True, text=True, cwd=TOP)
    return ran.stdout.split()


def refused_otherwise(room):
    """Returns the mistyped calls that the program refuses otherwise than tools/unbuilt.py does."""
    calls = [it.split() for it in MISTYPED]
    ran = [room.call(it) for it in calls]
    return [f"{it}: the program refuses it otherwise" for it, by in zip(calls, ran) if (by.returncode, by.stderr.decode()) != (5, unbuilt.refusal(it))]


def texts_beside(room):
    """Returns the faults of the texts that ./simulate prints without the program."""
    faults = unnamed(unbuilt.helps()) + refused_otherwise(room)
    if help_page(room) != unbuilt.content(unbuilt.HELP):
        faults.append("docs/HELP.md: the program prints another help: tools/launcher.py --write")
    texts = unbuilt.explanations()
    faults += [f"explain {it}: the program prints another text than tools/unbuilt.py" for it in EXPLAINED if printed(room, ["explain", it]) != texts.get(it)]
    required = {("fbsim", "wa"): ["wave"], ("fbsim", "run", "--se"): ["--serial"], ("fbsim", "expect", "--st"): ["--strict"], ("fbsim", "draw", "--t"): ["--types", "--type"], ("fbsim", "check", "cas"): ["cases"]}
    required["fbsim", "explain", "E3"] = [it for it in EXPLAINED if it.startswith("E3")]
    faults += [f"bash completes {words} to {completed(*words)}" for words, to in required.items() if completed(*words) != to]
    return faults


# ---- The launcher


class Launcher:
    """./simulate in a copy of the files that it needs, with stand-ins for the tools that build, and the faults of its calls."""

    def __init__(self, folder, program):
        self.folder, self.tree, self.faults, self.count = folder, f"{folder}/a tree", [], 0
        for it in NEEDED:
            to = f"{self.tree}/{it}"
            os.makedirs(os.path.dirname(to), exist_ok=True)
            (shutil.copytree if os.path.isdir(f"{TOP}/{it}") else shutil.copy2)(f"{TOP}/{it}", to)
        for it in ("build", "unproved"):
            self.write(f"tools/{it}.py", STANDS_IN)
        self.write("tools/package.py", PACKAGES)
        self.out = f"{self.tree}/crates/fbsim/out"
        self.built, self.unproved = f"{self.out}/fbsim", f"{self.out}/fbsim.unproved"
        os.makedirs(self.out)
        shutil.copy(program, self.built)
        os.chmod(self.built, 0o755)

    def write(self, name, text):
        with open(f"{self.tree}/{name}", "w", encoding="utf-8") as it:
            it.write(text)

    def is_changed(self, *programs):
        """Has a source change after these programs were built."""
        now = time.time()
        for it in programs:
            os.utime(it, (now - 9, now - 9))
        os.utime(f"{self.tree}/crates.txt", (now - 5, now - 5))

    def call(self, words, status, out="", err="", by=None, **how):
        """Calls it, and records a fault if the result is another one. Only the last lines of a long text are shown."""
        ran = subprocess.run([by or f"{self.tree}/simulate", *words], input=CYCLE.decode(), capture_output=True, text=True, cwd=self.folder, **how)
        self.count += 1
        if (ran.returncode, ran.stdout, ran.stderr) != (status, out, err):
            self.faults.append(f"./simulate {words}: status {ran.returncode}, {ran.stdout[-300:]!r}, {ran.stderr[-300:]!r}")


def follow_links(it):
    """By symbolic links, one to another."""
    os.symlink("a tree/simulate", f"{it.folder}/near")
    os.makedirs(f"{it.folder}/bin")
    os.symlink("../near", f"{it.folder}/bin/fbsim")
    for by in (None, f"{it.folder}/near", f"{it.folder}/bin/fbsim"):
        it.call(["run", "-", "--horizon", "8"], 0, TO_8.decode(), by=by)


def answer_unbuilt(it):
    """Without a build: calls that need none are answered, and all others ask for one."""
    it.is_changed(it.built)
    texts, refusal = unbuilt.helps(), "E21"
    it.call(["--help"], 0, texts[""])
    it.call(["help", "run"], 0, texts["run"])
    it.call(["wave", "-h"], 0, texts["wave"])
    it.call(["explain", refusal], 0, unbuilt.explanations()[refusal])
    it.call(["explain", "Divide"], 0, unbuilt.explanations()["divide"])
    it.call(["explain", "E06"], 5, err="error: no refusal or stop is called E06\n")
    version = f"fbsim {unbuilt.version()}\n"
    it.call(["--version"], 0, version + "this program is proved; --unproved runs one that is not\n")
    it.call(["--unproved", "-V"], 0, version + "this program is not proved\n")
    it.call(["rnu", "-"], 5, err=NO_COMMAND.format("unrecognized subcommand 'rnu'"))
    it.call(["--unprovd", "run", "-"], 5, err=NO_COMMAND.format("unexpected argument '--unprovd' found"))
    for words in (["check", "-"], ["check", "--bogus"], ["install", f"{it.folder}/to"]):
        it.call(words, 126, err="a build\n")
    it.call(["package", "to"], 126, err="packages --check to\na build\n")
    it.call(["package", "none"], 1, err="packages --check none\n")


def keep_unproved(it):
    """Without proofs: built once, and again when a source has changed."""
    it.call(["--unproved", "explain", "E06"], 5, err="error: no refusal or stop is called E06\n")
    it.call(["--unproved", "check", "-"], 0, "accepted\n", NOT_PROVED + "a build\n")
    it.call(["--unproved", "check", "-"], 0, "accepted\n")
    # Its help and its refusals show the name of the program, not that of its file.
    it.call(["--unproved", "run", "--help"], 0, unbuilt.helps()["run"])
    it.call(["--unproved", "rnu"], 5, err=NO_COMMAND.format("unrecognized subcommand 'rnu'"))
    it.is_changed(it.unproved)
    it.call(["--unproved", "check", "-"], 0, "accepted\n", NOT_PROVED + "a build\n")


def installed(folder):
    """Returns the names of the files in a folder."""
    return {os.path.relpath(f"{at}/{name}", folder) for at, _, names in os.walk(folder) for name in names}


def closed(folder):
    """Returns what in a folder others can't read, or enter."""
    return [at for at, _, names in os.walk(folder) for it in (at, *[f"{at}/{name}" for name in names]) if os.stat(it).st_mode & 0o555 not in (0o555, 0o444)]


def refuse_folders(it):
    """Where nothing can be installed or packaged: before anything is built or removed, and with nothing written anywhere."""
    it.is_changed(it.built, it.unproved)
    for name, text in (("a file", "kept"), ("full/bin/fbsim/in", "kept")):
        os.makedirs(os.path.dirname(f"{it.folder}/{name}"), exist_ok=True)
        with open(f"{it.folder}/{name}", "w", encoding="utf-8") as file:
            file.write(text)
    os.symlink("nowhere", f"{it.folder}/dangling")
    os.makedirs(f"{it.folder}/closed", 0o755)
    before = installed(it.folder)
    no_user = {"user": "nobody", "group": "nogroup", "extra_groups": [], "env": {"PATH": "/usr/bin:/bin"}} if os.geteuid() == 0 else {}
    hindered = {
        f"{it.folder}/a file": f"{it.folder}/a file is no folder",
        "a file/below": f"{it.folder}/a file/below: Not a directory",
        "dangling": f"{it.folder}/dangling is no folder",
        "n" * 300: f"{it.folder}/{'n' * 300}: File name too long",
    }
    for before_words in ([], ["--unproved"]):
        for words in ([], [""], ["-x"], ["--"], ["-x", "to"], ["to", ""], ["a", "b"]):
            it.call([*before_words, "install", *words], 5, err="usage: ./simulate [--unproved] install DIR\n")
        for words in (["-h"], ["--help"], ["--help", "to"]):
            it.call([*before_words, "install", *words], 0, "usage: ./simulate [--unproved] install DIR\n")
        for folder, reason in hindered.items():
            it.call([*before_words, "install", folder], 3, err=f"install: {reason}\n")
        it.call([*before_words, "install", "full"], 3, err="install: full/bin/fbsim is a folder\n")
        os.chmod(f"{it.folder}/closed", 0o555)
        it.call([*before_words, "install", "closed/to"], 3, err=f"install: {it.folder}/closed can't be written\n", **no_user)
    it.call(["package", "--help"], 0, "usage: ./simulate package [--no-gate-line] DIR\n")
    for words, status in (([""], 5), (["-x"], 5), (["a", "b"], 5), (["a file"], 3), (["dangling"], 3)):
        ran = subprocess.run([sys.executable, "-B", f"{TOP}/tools/package.py", "--check", *words], cwd=it.folder, capture_output=True)
        it.count += 1
        if ran.returncode != status:
            it.faults.append(f"tools/package.py --check {words}: status {ran.returncode}")
    if (after := installed(it.folder)) != before:
        it.faults.append(f"./simulate install, refused, changes {sorted(after ^ before)}")


def install_anywhere(it):
    """Into folders of any name, with a umask that closes all to others: what is installed is open to others, and nothing else is touched."""
    os.utime(it.built)
    os.utime(it.unproved)
    for name in ("./-x", "a\nb", "-*", "$HOME", "ü 'q\"", "deep/er/still"):
        to = f"{it.folder}/anywhere/{name}"
        before = installed(it.folder)
        for words in (["--unproved", "install"], ["install"]):
            it.call([*words, to], 0, umask=0o077)
            if closed(to) or {os.path.relpath(f"{it.folder}/{at}", to) for at in installed(it.folder) - before} != installed(to):
                it.faults.append(f"./simulate {words} {name!r}: closed to others or beside it: {closed(to)}")


def install(it):
    """Into a folder that is not there yet, and once more over it: the program that is not proved, and then the proved one."""
    os.utime(it.built)
    os.utime(it.unproved)
    to, pages = f"{it.folder}/to a folder", {f"share/{name}" for name in (MANUAL, *COMPLETIONS, "fbsim/annex_a.iec")}
    it.call(["--unproved", "package", to], 5, err="usage: ./simulate package DIR, which packages the proved program alone\n")
    it.call(["package", "to"], 0, err="packages --check to\npackages to\n")
    version = f"fbsim {unbuilt.version()}\n"
    own = f"{to}/lib/fbsim/own"
    for words, more, says in ((["--unproved", "install", to], {"lib/fbsim/fbsim"}, version + "this program is not proved\n"), (["install", to], set(), version)):
        for _ in range(2):
            it.call(words, 0)
        if installed(to) - {"lib/fbsim/own"} != {"bin/fbsim", *pages, *more}:
            it.faults.append(f"./simulate {words}: {sorted(installed(to))}")
        if more:
            os.symlink("to a folder/bin/fbsim", f"{it.folder}/link")
            shutil.copy(it.built, own)
        for by in (f"{to}/bin/fbsim", f"{it.folder}/link"):
            it.call(["check", "-"], 0, "accepted\n", by=by)
            it.call(["--version"], 0, says, by=by)
    if not os.path.exists(own):
        it.faults.append("./simulate install removes a file that it did not install")


def main(program=PROGRAM, *words):
    """Returns the status: 0 if there are no faults."""
    if program == "--write":
        with Room(*words or [PROGRAM]) as room:
            page = help_page(room)
        with open(unbuilt.HELP, "w") as it:
            it.write(page)
        return 0
    with tempfile.TemporaryDirectory(prefix="launcher-") as folder:
        # A call of another user enters it.
        os.chmod(folder, 0o755)
        # The help names the program as it was called.
        named = shutil.copy(program, f"{folder}/fbsim")
        with Room(named) as room:
            faults = texts_beside(room)
        it = Launcher(folder, named)
        for part in (follow_links, answer_unbuilt, keep_unproved, refuse_folders, install, install_anywhere):
            part(it)
    faults += it.faults
    for fault in faults:
        print(fault)
    print(f"launcher: {len(faults)} faults" if faults else f"launcher: {it.count} calls and the texts without the program, 0 faults", flush=True)
    return int(bool(faults))


if __name__ == "__main__":
    sys.exit(main(*sys.argv[1:]))
