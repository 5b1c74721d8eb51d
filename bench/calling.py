"""Calls of the program for the benchmarks here.

GNU time starts it and measures it: Python's own memory would count for a program that Python starts."""

import os
import subprocess
import tempfile
import time
from typing import NamedTuple

PROGRAM = os.path.abspath(os.environ.get("PROGRAM", f"{os.path.dirname(os.path.realpath(__file__))}/../simulate"))


class Called(NamedTuple):
    """What a call took, and what it wrote: its status, seconds by the clock and of the processors, MB of memory, lines, bytes, the end."""

    seconds: float
    used: float
    memory: float
    status: int
    lines: int
    size: int
    end: bytes


def call(*words):
    """Calls the program, and counts and discards what it writes."""
    lines, size, end = 0, 0, b""
    with tempfile.NamedTemporaryFile("r", prefix="used-") as used:
        start = time.time()
        made = subprocess.Popen(["/usr/bin/time", "-o", used.name, "-f", "%U %S %M", PROGRAM, *words], stdout=subprocess.PIPE)
        for part in iter(lambda: made.stdout.read(1 << 20), b""):
            lines, size, end = lines + part.count(b"\n"), size + len(part), (end + part)[-200:]
        status, seconds = made.wait(), time.time() - start
        # (a line before these says so if the status is not 0)
        user, system, most = map(float, used.read().split()[-3:])
    return Called(seconds, user + system, most / 1024, status, lines, size, end)


def words_of(name):
    """Returns the arguments with which an application is run."""
    with open(f"{name}.args", encoding="utf-8") as file:
        return file.read().splitlines()
