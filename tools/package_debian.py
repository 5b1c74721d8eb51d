"""The packages for Debian: `fbsim`, with the program and the pages, and `python3-fbsim`, with the Python package."""

import email.utils
import hashlib
import os
import re
import subprocess
import textwrap

import notice
from kit import rtlib
from package_files import File, bytes_of, library_version, packed, write
from package_python import modules

# (Debian's form asks for an address. This is one of those that RFC 2606 keeps free, so that nobody takes it for one that gets mail.)
MAINTAINER = "Cambiroa maintainers <no-address@cambiroa.invalid>"
# Where Debian has what DIR/share has for other systems.
PLACES = {"share/zsh/site-functions/": "share/zsh/vendor-completions/"}
CONTROL = """Package: {name}
Version: {version}
Architecture: {architecture}
Maintainer: {maintainer}
Installed-Size: {size}
{relations}Section: {section}
Priority: optional
Description: {description}
"""
# In the last lines, Debian's form has a space in front of each.
OF_PROGRAM = """simulate IEC 61499-1 control applications in virtual time
 fbsim simulates devices, resources, function blocks, execution control
 charts and algorithms in Structured Text. The same inputs give the same
 trace, to the byte, with any number of workers. Each function of the
 program is proved to meet its contract; the file PROVED says by what.
 .
 Report faults where you have this package from, as SECURITY.md says. Mail
 to the address of the maintainers is not read."""
OF_PYTHON = """benches, sweeps and figures for the IEC 61499 simulator fbsim
 The Python package runs applications, compares traces and sweeps over
 parameters. A plugin for pytest takes folders with a file fbsim.toml as
 tests. The command fbsim-import converts projects of 4diac, EcoStruxure
 and FBDK, and fbsim-page writes a page in which you step through a run."""
# The packages of Debian that parts of the Python package need.
SUGGESTED = ("pytest", "pandas", "matplotlib", "hypothesis", "distributed", "lxml", "lark", "jinja2")
HOLDER = "2026 Cambiroa maintainers"
COPYRIGHT = """Format: https://www.debian.org/doc/packaging-manuals/copyright-format/1.0/
Upstream-Name: fbsim
{comment}
Files: *
Copyright: {holder}
License: Apache-2.0
"""
COMMENT = """Comment: The program is linked from the sources of fbsim and from parts of
 the Rattle kit. The paragraphs below name these parts by their places in the
 kit. Each gives what the licence file and the page of its folder say. "unknown"
 is what neither says; ask the makers of the kit before you pass the program on.
"""
APACHE = """License: Apache-2.0
 On Debian systems the text of the Apache License, Version 2.0, is in
 /usr/share/common-licenses/Apache-2.0.
"""
# What Debian has in common-licenses is not in a package once more.
COMMON = "Apache-2.0"
# A version of another crate, as pages of the kit name it, and the licences that they say it has.
CRATE = re.compile(r"(?<![\w`/-])(`?[a-z][\w-]*`? \d+\.\d+\.\d+)\b")
SAID = re.compile(r"\(((?:MIT|Apache|Unlicense|BSL)[^()]*?)(?:[,;] `[^()]*)?\)")
HELD = re.compile(r"^[ \t]*Copyright \(c\) (.+?)[ \t]*$", re.M)
# An empty line of a text, which is a full stop in Debian's form.
BLANK = re.compile(r"(?m)^[ \t]*$")
# The C library's start-up files and archives of the kit, which are not among its libraries.
OTHERS = """
Files: c/libos_c.a c/liblibc_c.a
Copyright: unknown
License: unknown
Comment: The kit names no licence for these two archives.

Files: toolchain/lib/Scrt1.o toolchain/lib/crti.o toolchain/lib/crtn.o
Copyright: Free Software Foundation, Inc.
License: LGPL-2.1-or-later with an exception for files that are linked
Comment: Start-up files of the GNU C library. Its LGPL is in
 /usr/share/common-licenses/LGPL-2.1.

Files: toolchain/lib/crtbeginS.o toolchain/lib/crtendS.o
Copyright: Free Software Foundation, Inc.
License: GPL-3.0-or-later with the GCC Runtime Library Exception
Comment: Start-up files of GCC. Its GPL is in
 /usr/share/common-licenses/GPL-3.
"""
# Modules of packages for Debian are compiled where they are installed, and these files removed with them.
SCRIPTS = {
    "postinst": "#!/bin/sh\nset -e\n\nif command -v py3compile > /dev/null 2>&1; then\n    py3compile -p python3-fbsim\nfi\n",
    "prerm": "#!/bin/sh\nset -e\n\nif command -v py3clean > /dev/null 2>&1; then\n    py3clean -p python3-fbsim\nfi\n",
}
COMMAND = "#!/usr/bin/python3\nfrom {module} import {call}\n\nraise SystemExit({call}())\n"


def paragraph(name, text):
    """Returns a field of Debian's form, whose further lines begin with a space."""
    return f"{name}: " + text.replace("\n", "\n ") + "\n"


def ground_of(text):
    """Returns a licence text without the lines about who holds the copyright, and its words, by which it is compared."""
    text = re.sub(r"\n{3,}", "\n\n", HELD.sub("", text)).strip()
    return text, " ".join(text.split())


def page_of(library):
    """Returns the page of a library in the kit, or nothing if it has none."""
    path = f"{rtlib.KIT}/rattle/{library}/README.md"
    return bytes_of(path).decode() if os.path.exists(path) else ""


def part(library, names):
    """Returns the paragraph about a library of the kit. `names` has the name of each licence text, which this adds to."""
    files = {it: bytes_of(f"{rtlib.KIT}/rattle/{library}/{it}").decode() for it in notice.licences(library)}
    licences = []
    for file, text in files.items():
        kind = notice.licences(library)[file]
        text, words = ground_of(text)
        licences.append(kind if kind == COMMON else names.setdefault(words, (f"{kind}-{len(names) + 1}", text))[0])
    holders = [it for file, text in files.items() if notice.licences(library)[file] != COMMON for it in HELD.findall(text)]
    page = page_of(library)
    crates = dict.fromkeys(it.replace("`", "") for it in CRATE.findall(page))
    said = [f"Its page names {', '.join(crates)}."] * bool(crates)
    said += [f'Its page says "{it}".' for it in dict.fromkeys(SAID.findall(page))]
    said += [f"Its licence files: {', '.join(files)}."] if files else ["It has no licence file, and no page of the kit names its licence."]
    fields = [paragraph("Files", f"rattle/{library}/*"), paragraph("Copyright", "\n".join(dict.fromkeys(holders)) or "unknown")]
    fields += [f"License: {' and '.join(dict.fromkeys(licences)) or 'unknown'}\n", paragraph("Comment", textwrap.fill(" ".join(said), 76, break_on_hyphens=False))]
    return "\n" + "".join(fields)


def copyright_of_program():
    """Returns the copyright file of the package with the program."""
    names = {}
    parts = [part(it, names) for it in notice.libraries()]
    texts = [f"\nLicense: {name}\n{textwrap.indent(BLANK.sub('.', text), ' ')}\n" for name, text in names.values()]
    return COPYRIGHT.format(comment=COMMENT, holder=HOLDER) + "".join([*parts, OTHERS, "\n", APACHE, *texts])


def changelog(name, version, time):
    """Returns the changelog that Debian has for each package."""
    entry = f"{name} ({version}) stable; urgency=medium\n\n  * What changed is in /usr/share/doc/fbsim/CHANGELOG.md.\n\n -- {MAINTAINER}  {email.utils.formatdate(time)}\n"
    return packed(entry.encode())


def build(files, fields, room, time, scripts=()):
    """Makes a package, and returns its path."""
    for name in [it for it in files if it.startswith("usr/share/man/")]:
        files[f"{name}.gz"] = File(packed(files.pop(name).content))
    size = sum(-(-len(it.content) // 1024) for it in files.values())
    control = CONTROL.format(size=size, maintainer=MAINTAINER, **fields)
    sums = "".join(f"{hashlib.md5(it.content).hexdigest()}  {name}\n" for name, it in sorted(files.items()) if not it.link)
    of_control = {"DEBIAN/control": File(control.encode()), "DEBIAN/md5sums": File(sums.encode())}
    of_control |= {f"DEBIAN/{name}": File(text.encode(), True) for name, text in dict(scripts).items()}
    name = f"{fields['name']}_{fields['version']}_{fields['architecture']}"
    write({**files, **of_control}, f"{room}/{name}", time)
    words = ["dpkg-deb", "--root-owner-group", "-Zxz", "--threads-max=1", "--build", f"{room}/{name}", f"{room}/{name}.deb"]
    subprocess.run(words, check=True, stdout=subprocess.DEVNULL, env={**os.environ, "SOURCE_DATE_EPOCH": str(time)})
    return f"{room}/{name}.deb"


def documents(name, version, time, copyright):
    """Returns the files that Debian has for each package, and the licence."""
    of_package = {"changelog.gz": File(changelog(name, version, time)), "copyright": File(copyright.encode())}
    # (Debian has the text elsewhere)
    return {f"usr/share/doc/{name}/{it}": file for it, file in {**of_package, "LICENSE": File(b"", link="../../common-licenses/Apache-2.0")}.items()}


def of_program(of_system, of_users, program, room, version, time):
    """Makes the package with the program, and returns its path."""
    files = {}
    for name, it in of_system.items():
        for here, there in PLACES.items():
            name = name.replace(here, there)
        files[f"usr/{name}"] = it
    # (the licences of others are in its copyright file)
    own = {name: it for name, it in of_users.items() if name != "LICENSE" and not name.startswith("licences/")}
    files |= {f"usr/share/doc/fbsim/{name}": it for name, it in own.items()} | documents("fbsim", version, time, copyright_of_program())
    relations = f"Depends: libc6 (>= {library_version(program)})\nSuggests: python3-fbsim\n"
    fields = {"name": "fbsim", "architecture": "amd64", "section": "science", "relations": relations, "description": OF_PROGRAM}
    return build(files, fields | {"version": version}, room, time)


def of_python(wheel, notice_file, room, version, time):
    """Makes the package with the files of a wheel, and returns its path."""
    files, beside = modules(wheel, version)
    about = f"fbsim-{version}.dist-info/"
    left_out = {f"{about}{it}" for it in ("LICENSE", "NOTICE", "RECORD", "top_level.txt")}
    made = {f"usr/lib/python3/dist-packages/{name}": it for name, it in files.items() if name not in left_out}
    made |= {f"usr/{name}": it for name, it in beside.items()}
    scripts = re.search(r"\[console_scripts\]\n(.*?)(\n\n|\Z)", files[f"{about}entry_points.txt"].content.decode(), re.S)[1]
    for name, module, call in re.findall(r"(?m)^([\w-]+) = ([\w.]+):(\w+)$", scripts):
        made[f"usr/bin/{name}"] = File(COMMAND.format(module=module, call=call).encode(), True)
    made |= documents("python3-fbsim", version, time, COPYRIGHT.format(comment="", holder=HOLDER) + f"\n{APACHE}")
    made["usr/share/doc/python3-fbsim/NOTICE"] = notice_file
    suggested = ", ".join(f"python3-{it}" for it in SUGGESTED)
    relations = f"Depends: fbsim (= {version}), python3 (>= 3.11)\nSuggests: {suggested}\n"
    fields = {"name": "python3-fbsim", "architecture": "all", "section": "python", "relations": relations, "description": OF_PYTHON}
    return build(made, fields | {"version": version}, room, time, SCRIPTS)
