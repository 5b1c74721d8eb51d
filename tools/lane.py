"""Makes calls for program.py, as nobody if this is root: reads them from standard input, and writes what each came to to standard output.

Most calls of the built program take less time than the two programs that would begin each call otherwise, one to become nobody and
one to set its environment. This process becomes nobody once, and then starts the program itself."""

import os
import pickle
import subprocess
import sys

NOBODY = 65534


def become_nobody():
    os.setgroups([])
    os.setresgid(NOBODY, NOBODY, NOBODY)
    os.setresuid(NOBODY, NOBODY, NOBODY)


def result_of(words, settings, how):
    """Returns the process that has ended, or what was raised."""
    try:
        return subprocess.run(words, env={**os.environ, **settings}, capture_output=True, **how)
    except (OSError, subprocess.SubprocessError) as fault:
        return fault


def main():
    if not os.geteuid():
        become_nobody()
    while True:
        try:
            call = pickle.load(sys.stdin.buffer)
        except EOFError:
            return
        pickle.dump(result_of(*call), sys.stdout.buffer)
        sys.stdout.buffer.flush()


if __name__ == "__main__":
    main()
