#!/usr/bin/env python3
"""tools/install.py [--check] [--unproved] DIR: installs the program that is built, its man page, its completions and the block types, for
`./simulate install`.

With --check it only reports what hinders an install, so that nothing is built or removed for a call that can't end well. An install puts
files into DIR/bin, DIR/lib/fbsim and DIR/share alone. Others can read and run them, whatever the umask; folders that are there keep their
modes. A file is replaced at once, so a program that runs goes on."""

import contextlib
import os
import shutil
import sys
import tempfile
from pathlib import Path

TOP = Path(__file__).resolve().parent.parent
BUILT = TOP / "crates/fbsim/out"
USAGE = "usage: ./simulate [--unproved] install DIR"
WRONG_WORDS, NO_FOLDER = 5, 3
IN_FOLDER, IN_PROGRAM = 0o644, 0o755


def hindrance(folder):
    """Returns why no file can be put into a folder, or None. Of a folder that is not there yet the nearest one above counts."""
    at = os.path.abspath(folder)
    try:
        while not os.path.exists(at) and not os.path.islink(at):
            with contextlib.suppress(FileNotFoundError):
                os.lstat(at)
            at = os.path.dirname(at)
    except OSError as fault:
        return f"{at}: {fault.strerror}"
    if not os.path.isdir(at):
        return f"{at} is no folder"
    return None if os.access(at, os.W_OK | os.X_OK) else f"{at} can't be written"


def files_of(is_unproved):
    """Returns the files to install: for each its path in the folder, its source, and its mode."""
    program = {"bin/fbsim": (BUILT / "fbsim", IN_PROGRAM)}
    if is_unproved:
        program = {"lib/fbsim/fbsim": (BUILT / "fbsim.unproved", IN_PROGRAM), "bin/fbsim": (TOP / "tools/start_unproved", IN_PROGRAM)}
    share = TOP / "share"
    pages = {f"share/{'' if it.parent != share else 'fbsim/'}{it.relative_to(share)}": (it, IN_FOLDER) for it in sorted(share.rglob("*")) if it.is_file()}
    return program | pages


def first_hindrance(folder, is_unproved):
    """Returns the first reason why this can't be installed there, or None."""
    paths = [f"{folder}/{it}" for it in files_of(is_unproved)]
    reason = next(filter(None, map(hindrance, dict.fromkeys([folder, *map(os.path.dirname, paths)]))), None)
    return reason or next((f"{it} is a folder" for it in paths if os.path.isdir(it)), None)


def put(source, path, mode):
    """Puts a copy of a file in place of what is there, and makes the folders above that are missing."""
    path.parent.mkdir(parents=True, exist_ok=True)
    handle, beside = tempfile.mkstemp(prefix=f".{path.name}.", dir=path.parent)
    try:
        with open(handle, "wb") as to, open(source, "rb") as its:
            shutil.copyfileobj(its, to)
            os.fchmod(to.fileno(), mode)
        os.replace(beside, path)
    except BaseException:
        os.unlink(beside)
        raise


def install(folder, is_unproved):
    """Installs, and removes the program that an earlier install without proofs left."""
    os.umask(0o022)
    for path, (source, mode) in files_of(is_unproved).items():
        put(source, Path(folder, path), mode)
    if not is_unproved:
        with contextlib.suppress(OSError):
            Path(folder, "lib/fbsim/fbsim").unlink()
            Path(folder, "lib/fbsim").rmdir()


def main(words):
    """Installs or checks, and returns the status."""
    flags = {it for it in words if it in ("--check", "--unproved")}
    folders = [it for it in words if it not in flags]
    if len(folders) != 1 or not folders[0] or folders[0].startswith("-"):
        print(USAGE, file=sys.stderr)
        return WRONG_WORDS
    reason = first_hindrance(folders[0], "--unproved" in flags)
    try:
        if not reason and "--check" not in flags:
            install(folders[0], "--unproved" in flags)
    except OSError as fault:
        reason = f"{fault.filename}: {fault.strerror}"
    if reason:
        print(f"install: {reason}", file=sys.stderr)
    return NO_FOLDER if reason else 0


if __name__ == "__main__":
    sys.exit(main(sys.argv[1:]))
