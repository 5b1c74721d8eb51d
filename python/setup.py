"""Adds to a wheel what is installed beside its modules; all else is in pyproject.toml.

`./simulate package` puts the program and its files into a copy of this folder, as installed/bin/fbsim and
installed/share. A wheel of that is for Linux on x86-64 alone. Without them, as from the sdist, it is for every
system."""

from pathlib import Path

from setuptools import setup

INSTALLED = Path("installed")
# (the program calls the GNU C library 2.34 or later, which tools/packages.py compares)
TAG = ("py3", "none", "manylinux_2_34_x86_64")


def data_files():
    """Returns the files to install, by their folders below the prefix."""
    found = {"share/man/man1": sorted(map(str, Path("man").glob("*.1")))}
    for it in sorted(INSTALLED.rglob("*")):
        if it.is_file():
            found.setdefault(str(it.parent.relative_to(INSTALLED)), []).append(str(it))
    return list(found.items())


def commands():
    """Returns the command that makes a wheel with the program in it, or none without the program."""
    if not (INSTALLED / "bin" / "fbsim").is_file():
        return {}
    from wheel.bdist_wheel import bdist_wheel

    class WithProgram(bdist_wheel):
        """Names the system that the program is for."""

        def get_tag(self):
            return TAG

    return {"bdist_wheel": WithProgram}


setup(cmdclass=commands(), data_files=data_files())
