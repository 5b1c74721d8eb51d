"""The packages of Python: a wheel with the program in it, a wheel without it, and the source distribution of that.

The system's Python builds them as setup.py and pyproject.toml of python/ say. Their files are then packed again, since what packs
them there takes times, owners and rights from where it runs."""

import os
import subprocess

from package_files import File, archive, bytes_of, listed, of_archive, of_zip, write, zipped
from kit import TOP

# The system's own Python, which sees the system's packages.
PYTHON = "/usr/bin/python3"
# Where a wheel keeps what is installed below the prefix.
DATA = "fbsim-{}.data/data/"
TAG = "py3-none-manylinux_2_34_x86_64"


def sources():
    """Returns the files of python/ but for its tests."""
    names = [it for it in listed("python") if not it.startswith(("python/tests/", "python/."))]
    return {it.removeprefix("python/"): File(bytes_of(f"{TOP}/{it}")) for it in names}


def built(files, room, time, *words):
    """Builds what the words say of a folder with these files, and returns the paths of what is made."""
    write(files, f"{room}/source", time)
    settings = {"PATH": "/usr/bin:/bin", "HOME": room, "TMPDIR": room, "LANG": "C.UTF-8", "PYTHONHASHSEED": "0", "SOURCE_DATE_EPOCH": str(time)}
    words = [PYTHON, "-m", "build", "--no-isolation", "--outdir", f"{room}/made", *words, f"{room}/source"]
    ran = subprocess.run(words, env=settings, cwd=room, stdin=subprocess.DEVNULL, stdout=subprocess.PIPE, stderr=subprocess.STDOUT, text=True)
    if ran.returncode:
        raise SystemExit(f"{ran.stdout}package: {PYTHON} -m build ended with status {ran.returncode}")
    return [f"{room}/made/{it}" for it in sorted(os.listdir(f"{room}/made"))]


def make(of_system, of_users, room, version, time):
    """Makes the wheel with these files of the system and of users beside its modules, the source distribution, and the wheel that is
    built from that, and returns their paths."""
    os.makedirs(f"{room}/of_program")
    os.makedirs(f"{room}/of_sources")
    installed = {**of_system, **{f"share/doc/fbsim/{name}": it for name, it in of_users.items()}}
    with_program = {**sources(), **{f"installed/{name}": it for name, it in installed.items()}}
    (wheel,) = built(with_program, f"{room}/of_program", time, "--wheel")
    # (without a word more, the wheel is built from the source distribution)
    of_all, sdist = built(sources(), f"{room}/of_sources", time)
    made = [zipped(of_zip(it), f"{room}/{os.path.basename(it)}", time) for it in (wheel, of_all)]
    return made[0], archive(of_archive(sdist), room, f"fbsim-{version}", time), made[1]


def modules(wheel, version):
    """Returns the files of a wheel by where they are in a folder of modules, and those by where they are below the prefix."""
    data, files = DATA.format(version), of_zip(wheel)
    beside = {name.removeprefix(data): it for name, it in files.items() if name.startswith(data)}
    return {name: it for name, it in files.items() if not name.startswith(data)}, beside
