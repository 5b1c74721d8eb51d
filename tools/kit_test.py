#!/usr/bin/env python3
"""tools/kit_test.py: checks that tools/kit.py refuses a kit whose script is another one, and that no other tool replaces a part of the script.

Each part that kit.py replaces is changed in a copy of the script's text, and each that the tools read is left out. kit.py must name it.
A process whose `rt` is a changed copy must end with a sentence."""

import os
import re
import subprocess
import sys
import tempfile

import kit

TOOLS = os.path.dirname(os.path.realpath(__file__))
# A kit that is known by its checksums.
NAME = "rattle-kit-13f"


def text_of(name):
    with open(f"{TOOLS}/{name}", encoding="utf-8") as it:
        return it.read()


def unnamed_changes(texts):
    """Yields the parts of which a change is not found."""
    for name in kit.REPLACED:
        module, _, part = name.partition(".")
        source = kit.parts_of(texts[module]).get(part)
        changed = {**texts, module: texts[module].replace(source, f"{source}  # changed")} if source else texts
        # (a comment after a function is no part of it, so one inside is changed)
        changed[module] = texts[module].replace(source, source.replace("\n", "\n\n", 1)) if source else texts[module]
        if source and name not in (kit.fault_of(changed, NAME) or ""):
            yield f"another {name}"
    for module, names in kit.READ.items():
        for part in names:
            without = {**texts, module: texts[module].replace(kit.parts_of(texts[module])[part], "pass")}
            if f"{module}.{part}" not in (kit.fault_of(without, NAME) or ""):
                yield f"no {module}.{part}"


def wrongly_judged(texts):
    """Yields what is refused and should not be, or the other way round."""
    changed = {**texts, "rt": texts["rt"].replace("def need(crate):", "def need(crate, *others):")}
    lacking = {**texts, "rt": texts["rt"].replace("def say(", "def says(")}
    for name, given, is_refused in ((NAME, texts, False), (NAME, changed, True), ("rattle-kit-99", texts, False), ("rattle-kit-99", changed, True), (kit.BY_NAME[0], changed, False), (kit.BY_NAME[0], lacking, True)):
        if bool(kit.fault_of(given, name)) != is_refused:
            yield f"{name}: {kit.fault_of(given, name)}"


def unlisted():
    """Yields what tools read of the script and kit.py does not list, and what another tool than kit.py replaces."""
    listed = {module: {*names, *kit.OPTIONAL[module]} for module, names in kit.READ.items()}
    for name in kit.REPLACED:
        module, part = name.split(".")[:2]
        listed[module].add(part)
    # (planted.py puts parts of its own into another script of the kit's, for a check by hand)
    for file in sorted(it for it in os.listdir(TOOLS) if it.endswith(".py") and it not in ("kit.py", "kit_test.py")):
        text = text_of(file)
        if not re.search(r"^from kit import .*\brt(?:lib)?\b", text, re.M):
            continue
        for module, part in set(re.findall(r"\b(rt|rtlib)\.(\w+)", re.sub(r'""".*?"""', "", text, flags=re.S))):
            if part not in listed[module]:
                yield f"{file} reads {module}.{part}"
        # (tests put parts of their own there, for themselves)
        if not file.endswith("_test.py"):
            yield from (f"{file} replaces {it}" for it in re.findall(r"^\s*((?:rt|rtlib)\.\w+(?:\.\w+)?)(?:, [\w.]+)* = ", text, re.M))


def said_of_a_changed_copy():
    """Returns how a process ends whose `rt` is a changed copy, and what it says."""
    with tempfile.TemporaryDirectory(prefix="kit-test-") as room:
        os.makedirs(f"{room}/bin")
        texts = kit.texts_of(os.path.realpath(kit.SCRIPT))
        changed = texts["rt"].replace("def processors():", "def processors(most=None):")
        for name, text in (("bin/rt", changed), ("bin/rtlib.py", texts["rtlib"]), ("KIT-ID", "rattle-kit-99 logic 0\n")):
            with open(f"{room}/{name}", "w", encoding="utf-8") as it:
                it.write(text)
        os.chmod(f"{room}/bin/rt", 0o755)
        ran = subprocess.run([sys.executable, "-B", f"{TOOLS}/kit.py"], env={**os.environ, "PATH": f"{room}/bin:{os.environ['PATH']}"}, capture_output=True, text=True)
        return ran.returncode, ran.stderr


def main():
    """Returns the status."""
    texts = kit.texts_of(os.path.realpath(kit.SCRIPT))
    faults = [*unlisted()]
    if kit.name_of(kit.rtlib.KIT) not in kit.BY_NAME:
        faults += [*unnamed_changes(texts), *wrongly_judged(texts)]
        status, said = said_of_a_changed_copy()
        sentence = "this kit can't be used: the script of rattle-kit-99 has another rt.processors than tools/kit.py replaces: compare them, and add the checksums there\n"
        faults += [] if (status, said) == (1, sentence) else [f"a changed copy ends with status {status} and says {said!r}"]
    for it in faults:
        print(f"kit: not found: {it}")
    print(f"kit: {len(faults)} faults" if faults else "kit: a changed script is refused")
    return int(bool(faults))


if __name__ == "__main__":
    sys.exit(main())
