"""The commands that pip installs with the package, and other packages that only a part of it needs."""

from __future__ import annotations

import sys
from collections.abc import Sequence
from importlib import import_module
from importlib.util import find_spec
from typing import Any

from fbsim.faults import Fault

# The extras of pyproject.toml whose packages parts of this one import. Debian's names have python3- in front.
EXTRAS = {"frame": ["pandas"], "plot": ["matplotlib"], "import": ["lxml", "lark", "jinja2"], "page": ["lark", "jinja2"]}
COMMAND_LINE = 5


def lack(extra: str) -> str:
    """Returns what an extra lacks and how to install it, as pip and as Debian call it, or nothing if all is there."""
    lacking = [it for it in EXTRAS[extra] if find_spec(it) is None]
    debian = " ".join(f"python3-{it}" for it in lacking)
    how = f'install it by `pip install "fbsim[{extra}]"`, or on Debian by `apt install {debian}`'
    return f"the extra {extra} is missing ({', '.join(lacking)}): {how}" if lacking else ""


def needed(module: str, extra: str) -> Any:
    """Returns a module of an extra, which may not be installed."""
    if said := lack(extra):
        raise Fault(said)
    return import_module(module)


def command(name: str, extra: str, module: str, words: Sequence[str] | None) -> int:
    """Is a command of a module that needs the packages of an extra."""
    if said := lack(extra):
        print(f"{name}: {said}", file=sys.stderr)
        return COMMAND_LINE
    return int(import_module(module).main(words))


def import_files(words: Sequence[str] | None = None) -> int:
    """Is the command fbsim-import."""
    return command("fbsim-import", "import", "fbsim.importer.command", words)


def make_page(words: Sequence[str] | None = None) -> int:
    """Is the command fbsim-page."""
    return command("fbsim-page", "page", "fbsim.page.command", words)
