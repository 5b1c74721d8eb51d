"""The files of packages: what they are made from, and how they are packed so that two packings have the same bytes."""

import gzip
import hashlib
import os
import re
import subprocess
import tarfile
import time as clock
import zipfile
from typing import NamedTuple

from kit import TOP, rtlib


class File(NamedTuple):
    """A file of a package. A symbolic link has no content, but the name to which it leads."""

    content: bytes
    is_executable: bool = False
    link: str = ""

    def mode(self):
        return 0o755 if self.is_executable else 0o644


def bytes_of(path):
    with open(path, "rb") as it:
        return it.read()


def sum_of(content):
    return hashlib.sha256(content).hexdigest()


def packed(content):
    """Returns bytes as gzip packs them, without a name and a time."""
    return gzip.compress(content, 9, mtime=0)


def git(*words):
    """Returns what git prints, or None outside a repository."""
    try:
        ran = subprocess.run(["git", "-C", TOP, *words], capture_output=True, text=True)
    except OSError:
        return None
    return None if ran.returncode else ran.stdout.strip()


def listed(folder):
    """Returns the files of a folder that belong to the repository."""
    known = git("ls-files", "--", folder)
    found = known.splitlines() if known else [os.path.relpath(f"{at}/{it}", TOP) for at, _, names in os.walk(f"{TOP}/{folder}") for it in names]
    return sorted(found)


def by_llvm(name, *words):
    """Calls one of LLVM's tools, which are all in the kit's clang, and returns what it prints."""
    return subprocess.run([name, *words], executable=f"{rtlib.KIT}/toolchain/bin/clang", check=True, capture_output=True, text=True).stdout


def library_version(program):
    """Returns the version of the C library from which on it has all functions that a program calls, as "2.34"."""
    names = by_llvm("llvm-nm", "-D", "--undefined-only", program)
    return ".".join(map(str, max(tuple(map(int, it.split("."))) for it in re.findall(r"@GLIBC_([\d.]+)", names))))


def write(files, folder, time):
    """Writes files into a folder that is not there yet, each with the same time and with the rights of its kind."""
    for name, it in files.items():
        path = f"{folder}/{name}"
        os.makedirs(os.path.dirname(path), exist_ok=True)
        if it.link:
            os.symlink(it.link, path)
            continue
        with open(path, "wb") as file:
            file.write(it.content)
        os.chmod(path, it.mode())
    for at, _, names in os.walk(folder, topdown=False):
        os.chmod(at, 0o755)
        for it in [*(f"{at}/{name}" for name in names), at]:
            os.utime(it, (time, time), follow_symlinks=False)


def archive(files, room, name, time):
    """Makes an archive of tar with one folder, and returns its path."""
    write(files, f"{room}/{name}", time)
    words = ["tar", "-C", room, "--sort=name", "--format=ustar", f"--mtime=@{time}", "--owner=0", "--group=0", "--numeric-owner", "-cf", f"{room}/{name}.tar", name]
    subprocess.run(words, check=True)
    subprocess.run(["gzip", "-9n", f"{room}/{name}.tar"], check=True)
    return f"{room}/{name}.tar.gz"


def of_archive(path):
    """Returns the files of an archive of tar, by their names below its one folder."""
    with tarfile.open(path) as it:
        return {member.name.partition("/")[2]: File(it.extractfile(member).read(), bool(member.mode & 0o100)) for member in it if member.isfile()}


def zipped(files, path, time):
    """Makes an archive of zip, in the order of the files, and returns its path."""
    with zipfile.ZipFile(path, "w") as made:
        for name, it in files.items():
            about = zipfile.ZipInfo(name, clock.gmtime(time)[:6])
            about.create_system, about.external_attr = 3, (0o100000 | it.mode()) << 16
            made.writestr(about, it.content, zipfile.ZIP_DEFLATED, 9)
    return path


def of_zip(path):
    """Returns the files of an archive of zip."""
    with zipfile.ZipFile(path) as it:
        return {about.filename: File(it.read(about), bool(about.external_attr >> 16 & 0o100)) for about in it.infolist()}
