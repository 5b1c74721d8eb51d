#!/usr/bin/env python3
"""tools/system_packages_test.py: checks that tools/system_packages.py installs what is missing, or says how to.

Its dpkg-query and apt-get are stand-ins here: the first knows the packages of a file, the second adds to them. ./gate runs this."""

import contextlib
import io
import os
import sys
import tempfile

import system_packages

PACKAGES = ["dot", "make", "vim"]
STANDS_IN = {
    "dpkg-query": 'shift 2; for it do grep -qx "$it" {0}/installed && echo "$it installed"; done; exit 0',
    "apt-get": 'echo "$*" >> {0}/calls; for it do last=$it; done; [ "$last" = update ] && exit\n'
    '[ "$(grep -c " install " {0}/calls)" -gt "$(cat {0}/failures)" ] || {{ echo no network; exit 1; }}\n'
    'while [ "$1" != --no-install-recommends ]; do shift; done; shift; printf "%s\\n" "$@" >> {0}/installed',
}
COMMAND = "apt-get update && apt-get install -y --no-install-recommends"


def outcome(installed, failures, is_root):
    """Sets up with these packages installed, and returns the result, what is printed, and which packages apt-get was asked to install."""
    with tempfile.TemporaryDirectory(prefix="packages-") as folder:
        for name, text in (*STANDS_IN.items(), ("installed", "\n".join(installed)), ("failures", str(failures)), ("calls", "")):
            with open(f"{folder}/{name}", "w", encoding="utf-8") as it:
                it.write(f"#!/bin/sh\n{text.format(folder)}\n" if name in STANDS_IN else text and f"{text}\n")
            os.chmod(f"{folder}/{name}", 0o755)
        kept = os.environ["PATH"], os.geteuid, system_packages.required, system_packages.time.sleep
        try:
            os.environ["PATH"] = f"{folder}:{kept[0]}"
            os.geteuid, system_packages.required, system_packages.time.sleep = lambda: 0 if is_root else 1000, lambda: PACKAGES, lambda _: None
            with contextlib.redirect_stdout(io.StringIO()) as said:
                result = system_packages.set_up()
        finally:
            os.environ["PATH"], os.geteuid, system_packages.required, system_packages.time.sleep = kept
        with open(f"{folder}/calls", encoding="utf-8") as it:
            asked = [line.split("--no-install-recommends ")[1].split() for line in it if " install " in line]
    return result, said.getvalue(), asked


def main():
    """Returns the status: 0 if each case has the outcome that it must have."""
    few, both = ["vim"], ["dot", "make"]
    by_hand = f"{COMMAND} dot make\n"
    cases = (
        ("nothing is missing", (PACKAGES, 0, False), True, "", []),
        ("root", (few, 0, True), True, "set-up: installing dot, make\n", [both]),
        ("root, and apt-get fails once", (few, 1, True), True, "set-up: installing dot, make\n", [both] * 2),
        ("root, and apt-get fails", (few, 9, True), False, f"no network\nset-up: dot, make could not be installed; this command does so:\n{by_hand}", [both] * 3),
        ("another user", (few, 0, False), False, f"this command installs them:\nsudo sh -c '{by_hand[:-1]}'\n", []),
    )
    wrong = 0
    for name, given, result, end, asked in cases:
        found = outcome(*given)
        if (found[0], found[2]) != (result, asked) or not found[1].endswith(end):
            wrong += 1
            print(f"set-up: {name}: {found}")
    print(f"set-up: {len(cases) - wrong} of {len(cases)} cases install what is missing, or say how to")
    return int(wrong > 0)


if __name__ == "__main__":
    sys.exit(main())
