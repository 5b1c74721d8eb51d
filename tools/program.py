"""A built program, copied out of the repository and called as nobody if this is root."""

import functools
import os
import pickle
import queue
import shutil
import subprocess
import sys
import tempfile
from concurrent.futures import ThreadPoolExecutor

from kit import rt, rtlib

SECONDS = 60
HERE = os.path.dirname(os.path.realpath(__file__))


class Lane:
    """A process that makes calls one after another (lane.py)."""

    def __init__(self, is_root):
        words = [*(["setpriv", "--no-new-privs"] if is_root else []), sys.executable, "-IBS", f"{HERE}/lane.py"]
        self.process = subprocess.Popen(words, stdin=subprocess.PIPE, stdout=subprocess.PIPE)

    def call(self, words, settings, how):
        """Makes a call, and returns the process that has ended, or raises what was raised there."""
        pickle.dump((words, settings, how), self.process.stdin)
        self.process.stdin.flush()
        came = pickle.load(self.process.stdout)
        if isinstance(came, Exception):
            raise came
        return came

    def end(self):
        self.process.stdin.close()
        self.process.wait()
        self.process.stdout.close()


class Room:
    """A folder with a copy of a program and files for it to read. It is removed at the end of its `with`."""

    def __init__(self, program, files=()):
        drop = rt.drop_to_nobody()
        if drop is None:
            rtlib.stop("as root, programs are called only as nobody, and setpriv failed here")
        self.is_root, self.lanes, self.idle = bool(drop), [], queue.SimpleQueue()
        self.kept = tempfile.TemporaryDirectory(prefix="room-")
        os.chmod(self.kept.name, 0o711)
        self.program, self.folder = f"{self.kept.name}/{os.path.basename(program)}", f"{self.kept.name}/files"
        shutil.copyfile(program, self.program)
        os.chmod(self.program, 0o755)
        # (the program, and the code that is loaded before its requests for memory, may write here)
        os.mkdir(self.folder)
        os.chmod(self.folder, 0o777)
        for name, text in dict(files).items():
            with open(f"{self.folder}/{name}", "wb") as it:
                it.write(text)

    def __enter__(self):
        return self

    def __exit__(self, *_):
        for it in self.lanes:
            it.end()
        self.kept.cleanup()

    def before(self, name):
        """Returns the setting with which the code of NAME.c, here, takes the place of calls that the program makes."""
        path = f"{self.folder}/{name}.so"
        if not os.path.exists(path):
            with open(path, "wb") as it:
                it.write(compiled(name))
            os.chmod(path, 0o755)
        return f"LD_PRELOAD={path}"

    def call(self, words, given=b"", settings=(), seconds=SECONDS):
        """Calls the program with these arguments, with settings NAME=VALUE in its environment, and returns the process that has ended."""
        return self.run([self.program, *words], given, settings, seconds)

    def run(self, command, given=b"", settings=(), seconds=SECONDS):
        """Runs any command in the folder as `call` does the program."""
        try:
            lane = self.idle.get_nowait()
        except queue.Empty:
            lane = Lane(self.is_root)
            self.lanes.append(lane)
        try:
            settings = dict(it.split("=", 1) for it in settings)
            return lane.call(command, settings, {"input": given, "cwd": self.folder, "timeout": seconds})
        finally:
            self.idle.put(lane)


@functools.cache
def compiled(name):
    """Compiles NAME.c, here, and returns the library that is made of it."""
    with tempfile.TemporaryDirectory(prefix="compiled-") as room:
        words = [f"{rtlib.KIT}/toolchain/bin/clang", "-shared", "-fPIC", "-O1", "-nostdlib", "-fuse-ld=lld", "-o", f"{room}/made"]
        subprocess.run([*words, f"{HERE}/{name}.c"], check=True)
        with open(f"{room}/made", "rb") as it:
            return it.read()


def side_by_side(work, given):
    """Returns the results of the work for each of the items, in order, with several done at once."""
    with ThreadPoolExecutor(rt.processors()) as lanes:
        return list(lanes.map(work, given))
