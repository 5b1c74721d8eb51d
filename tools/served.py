"""A built program that is run many times by one process that forks (serve.c), with bytes of it changed in memory. So a run takes a
millisecond or two."""

import os
import struct
import subprocess
import tempfile

from kit import rt
from program import SECONDS, Room

# Files that are written anew for each run are kept in memory, where that can be.
MEMORY = "/dev/shm"


class Served(Room):
    """A room whose program is run so. `changes` has an address and bytes each, or an address and another address of the program."""

    def __init__(self, program):
        super().__init__(program)
        self.changes, self.process = [], None
        self.written = tempfile.TemporaryDirectory(prefix="served-", dir=MEMORY if os.path.isdir(MEMORY) else None)
        os.chmod(self.written.name, 0o711)
        self.files = [f"{self.written.name}/{it}" for it in ("input", "output", "errors")]

    def __enter__(self):
        for it in self.files:
            with open(it, "wb"):
                os.chmod(it, 0o666)
        words = [*rt.drop_to_nobody(), "env", "SERVE=1", self.before("serve"), self.program]
        self.process = subprocess.Popen(words, stdin=subprocess.PIPE, stdout=subprocess.PIPE, bufsize=0, cwd=self.folder)
        return self

    def __exit__(self, *given):
        self.process.stdin.close()
        self.process.wait()
        self.process.stdout.close()
        self.written.cleanup()
        super().__exit__(*given)

    def request(self, words):
        """Returns the bytes of a request, without their length."""
        changes = [struct.pack("<qqq", at, -1, it) if isinstance(it, int) else struct.pack("<qq", at, len(it)) + it for at, it in self.changes]
        texts = [os.fsencode(it) + b"\0" for it in (self.folder, *self.files, *words)]
        return struct.pack("<q", len(changes)) + b"".join([*changes, *texts])

    def run(self, command, given=b"", settings=(), seconds=SECONDS):
        """Runs the program, whose limit of time is that of serve.c, and without settings."""
        with open(self.files[0], "wb") as it:
            it.write(given)
        request = self.request(command)
        self.process.stdin.write(struct.pack("<I", len(request)) + request)
        (status,) = struct.unpack("<i", self.process.stdout.read(4))
        return subprocess.CompletedProcess(command, status, *(content(it) for it in self.files[1:]))


def content(path):
    with open(path, "rb") as it:
        return it.read()
