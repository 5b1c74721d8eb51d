"""Where the program is, and calls of it."""

from __future__ import annotations

import os
import shutil
import signal
import subprocess
from collections.abc import Iterator, Sequence
from contextlib import contextmanager, suppress
from functools import lru_cache
from numbers import Real
from pathlib import Path
from typing import IO, Any

import fbsim
from fbsim.faults import InputFault, ProgramMissing, TimedOut, encoded, fault_of

# Where ./simulate builds the program, with proofs and without, below the top of the repository.
BUILT = ("crates/fbsim/out/fbsim", "crates/fbsim/out/fbsim.unproved")
# The longest time limit, of thirty years: the clock of the system takes no much longer one.
MOST_SECONDS = 1e9


def installed_beside() -> str | None:
    """Returns the path of the program that was installed with this file: in the folder bin of PREFIX for the package in
    PREFIX/lib/python3.11/site-packages, and in that of DIR for one that was installed by `pip --target DIR`."""
    site = Path(__file__).absolute().parent.parent
    tops = [site, *([site.parents[2]] if site.name in ("site-packages", "dist-packages") else [])]
    return next(filter(None, (shutil.which(str(it / "bin" / "fbsim")) for it in tops)), None)


def find_program() -> str:
    """Returns the path of the program: that of the environment variable FBSIM, else the one of this installation, else
    the one on PATH, else the one that `./simulate` built in the repository of this file: the proved one, if there are
    two."""
    named = os.environ.get("FBSIM")
    if named:
        found = shutil.which(named)
        if found is None:
            raise ProgramMissing(f"the environment variable FBSIM is {named!r}, which is no program")
        return os.path.abspath(found)
    found = installed_beside() or shutil.which("fbsim")
    if found is not None:
        return os.path.abspath(found)
    for top in Path(__file__).resolve().parents:
        for built in BUILT:
            if (top / "simulate").is_file() and os.access(top / built, os.X_OK):
                return str(top / built)
    raise ProgramMissing("the program fbsim was not found: install it, put it on PATH, or set FBSIM to its path")


@lru_cache(maxsize=8)
def said_version(path: str, *_: object) -> str:
    """Returns what a program says of its version."""
    try:
        how: dict[str, Any] = {"stdin": subprocess.DEVNULL, "capture_output": True, "encoding": "utf-8"}
        return str(subprocess.run([path, "--version"], **how).stdout).strip()
    except (OSError, ValueError) as it:
        raise ProgramMissing(f"{path} can't be started: {it}") from it


def program() -> str:
    """Returns the path of the program, if its major and minor version are those of this package."""
    path, known = find_program(), fbsim.__version__
    if os.environ.get("FBSIM_ANY_VERSION") != "1":
        about = os.stat(path)
        said = said_version(path, about.st_mtime_ns, about.st_size)
        if f"{said}.".split(".")[:2] != f"fbsim {known}".split(".")[:2]:
            what = f"the program {path} says {said!r}, and this package is fbsim {known}"
            raise ProgramMissing(f"{what}: install both from one version; FBSIM_ANY_VERSION=1 uses them together")
    return path


def seconds(timeout: float | None) -> float | None:
    """Returns a time limit in seconds, which is over 0, or None if there is none."""
    if timeout is None:
        return None
    if isinstance(timeout, bool) or not isinstance(timeout, Real) or not 0 < timeout <= MOST_SECONDS:
        raise InputFault(f"timeout is {timeout!r}, and not a number of seconds over 0")
    return float(timeout)


def kill(process: subprocess.Popen[Any], owner: int) -> None:
    """Ends a program with all that it started, but not in a process that was forked from the one that started it.

    What it started may go on when it has ended itself. Once somebody has waited for it, its number may be that of
    another group, so that nothing can be ended any more.
    """
    if os.getpid() == owner and process.returncode is None:
        with suppress(ProcessLookupError, PermissionError):  # (macOS, of a group that has ended)
            os.killpg(process.pid, signal.SIGKILL)
        process.wait()


def begun(words: Sequence[str], **how: Any) -> subprocess.Popen[Any]:
    """Starts the program in a process group of its own."""
    path = program()
    try:
        return subprocess.Popen([path, *words], process_group=0, **how)
    except (OSError, ValueError) as it:
        raise ProgramMissing(f"{path} can't be started: {it}") from it


@contextmanager
def started(words: Sequence[str], **how: Any) -> Iterator[subprocess.Popen[Any]]:
    """Starts the program in a process group of its own, and ends the group if the body raises an exception."""
    with begun(words, **how) as process:
        try:
            yield process
        except BaseException:
            kill(process, os.getpid())
            raise


def call(
    words: Sequence[str], given: str = "", to: IO[Any] | int = subprocess.PIPE, statuses: Sequence[int] = (0,),
    timeout: float | None = None, folder: Path | None = None
) -> subprocess.CompletedProcess[str]:
    """Calls the program, and raises the fault of a status that is not among these.

    `given` is its standard input. Standard output goes into the file `to`, or is returned. After `timeout` seconds the
    program is ended, and `TimedOut` is raised. Names of files are names in `folder`, if there is one.
    """
    limit, text = seconds(timeout), encoded(given)
    with started(words, stdin=subprocess.PIPE, stdout=to, stderr=subprocess.PIPE, cwd=folder) as process:
        try:
            parts = process.communicate(text, limit)
            out, said = (None if it is None else it.decode("utf-8", "replace") for it in parts)
        except subprocess.TimeoutExpired:
            raise TimedOut(f"fbsim {words[0]} took over {limit:g} seconds, and was ended") from None
    if process.returncode not in statuses:
        raise fault_of(process.returncode, said or "")
    return subprocess.CompletedProcess(words, process.returncode, out, said or "")


def version(of_package: bool = False) -> str:
    """Returns what the program says of its version, or the version of this package."""
    if of_package:
        return fbsim.__version__
    return call(["--version"]).stdout.strip()
