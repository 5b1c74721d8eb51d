#!/usr/bin/env python3
"""tools/packages.py [PROGRAM]: checks the packages that tools/package.py makes of the built program, or of PROGRAM.

They are made twice, the second time with other rights of new files, another time zone and another place: the bytes are the same. The
archive is unpacked into an empty folder, and each example runs there by the packaged program alone, with nothing in the environment but
PATH: the trace is the stored one, and each link of its pages leads to a file of it. Each package has LICENSE and NOTICE, and those with
the program have the same one; `lintian` warns of nothing in those for Debian, whose copyright file has each library that is linked. Each
is installed in an empty root and used there (tools/package_installs.py). PROVED has the sum of the program, and the last line of a gate on
the same files alone. The program needs the C library alone, and README.md and the wheel say which version of it; README.md also says which
one of Linux. As SECURITY.md says, it calls nothing there that opens a connection, starts a program or changes a folder. ./gate runs this
each time it has run the program."""

import base64
import contextlib
import glob
import hashlib
import io
import json
import os
import re
import subprocess
import sys
import tempfile
import time

import notice
import package
import package_installs
import unbuilt
from kit import TOP
from package_files import by_llvm, bytes_of, git, library_version, of_archive, of_zip, sum_of
from package_pages import LINK
from package_python import TAG
from system_packages import lacks

EMPTY = {"PATH": "/usr/bin:/bin"}
LINE = "9 passed, 0 failed"
# Functions of the C library for connections, for other programs, and for what is in folders.
NOT_CALLED = re.compile(
    r"socket(pair)?|connect|bind|listen|accept4?|send\w*|recv\w*|getaddrinfo|exec\w+|v?fork|clone|posix_spawnp?|system|popen|dlopen|"
    r"creat|mkfifo|mkdir(at)?|rmdir|unlink(at)?|rename\w*|(sym)?link(at)?|f?truncate|f?chmod|f?chown"
)


def faults_of_bytes(program, folder):
    """Makes the packages in two ways, and yields what differs."""
    first = package.make(program, f"{folder}/first", None)
    if [os.path.basename(it) for it in first] != names():
        yield f"the packages are {first}"
    before, zone, mask = os.getcwd(), os.environ.get("TZ"), os.umask(0o077)
    try:
        os.chdir("/")
        os.environ["TZ"] = "Pacific/Auckland"
        time.tzset()
        second = package.make(program, f"{folder}/second", None)
    finally:
        os.chdir(before)
        os.umask(mask)
        os.environ.pop("TZ")
        os.environ |= {"TZ": zone} if zone else {}
        time.tzset()
    for one, other in zip(first, second, strict=True):
        if bytes_of(one) != bytes_of(other):
            yield f"{os.path.basename(one)}: two builds have different bytes"


def faults_of_needs(program):
    """Yields what the program needs beside the C library, the versions that README.md does not name, and what it is not to call."""
    called = {line.split()[-1].split("@")[0] for line in by_llvm("llvm-nm", "-D", "--undefined-only", program).splitlines()}
    if not {"read", "write"} <= called or any(NOT_CALLED.fullmatch(it) for it in called):
        yield f"the program calls {sorted(called)}"
    said = by_llvm("llvm-readelf", "-d", "-n", program)
    needed, kernel = re.findall(r"Shared library: \[(.+?)\]", said), re.search(r"OS: Linux, ABI: (\d+\.\d+)\.0", said)[1]
    if needed != ["libc.so.6"]:
        yield f"the program needs {needed}"
    library = library_version(program)
    if not TAG.endswith(f"-manylinux_{library.replace('.', '_')}_x86_64"):
        yield f"the wheel is tagged {TAG}, and the program needs the C library {library}"
    readme = " ".join(bytes_of(f"{TOP}/README.md").decode().split())
    for it in (f"Linux {kernel} or later", f"the GNU C library {library} or later"):
        if it not in readme:
            yield f"README.md does not say that the program needs {it}"


def run(words, folder):
    """Runs a command with nothing in its environment but PATH."""
    return subprocess.run(words, cwd=folder, env=EMPTY, stdin=subprocess.DEVNULL, stdout=subprocess.PIPE, stderr=subprocess.STDOUT)


def faults_of_examples(top):
    """Runs each example in an unpacked archive, and yields what differs from its trace."""
    stored = sorted(os.path.dirname(it) for it in glob.glob(f"{TOP}/examples/**/args", recursive=True))
    for place in stored:
        name = os.path.relpath(place, TOP)
        words = bytes_of(f"{top}/{name}/args").decode().splitlines()
        ran = run([f"{top}/bin/fbsim", *words], f"{top}/{name}")
        if (ran.returncode, ran.stdout) != (0, bytes_of(f"{place}/trace")):
            yield f"{name}: status {ran.returncode}, {ran.stdout[-200:]!r}"
    if not stored:
        yield "there are no examples"


def faults_of_links(top):
    """Yields the links of pages in an unpacked archive that lead nowhere."""
    for page in glob.glob(f"{top}/**/*.md", recursive=True):
        for _, _, target, _ in LINK.findall(bytes_of(page).decode()):
            if not os.path.exists(f"{os.path.dirname(page)}/{target}"):
                yield f"{os.path.relpath(page, top)}: there is no {target}"


def faults_of_archive(path, program, folder):
    """Unpacks the archive into an empty folder, and yields what is wrong with it."""
    os.mkdir(folder)
    subprocess.run(["tar", "-C", folder, "-xzf", path], check=True)
    top = f"{folder}/fbsim-{unbuilt.version()}-x86_64-linux"
    if os.listdir(folder) != [os.path.basename(top)]:
        yield f"the archive has {os.listdir(folder)}"
        return
    version = run([f"{top}/bin/fbsim", "--version"], top).stdout.decode()
    if version != f"fbsim {unbuilt.version()}\n":
        yield f"--version prints {version!r}"
    proved = bytes_of(f"{top}/PROVED").decode()
    for it in (program, f"{top}/bin/fbsim"):
        if sum_of(bytes_of(it)) not in proved:
            yield f"PROVED has not the sum of {it}"
    if bytes_of(f"{top}/LICENSE") != bytes_of("/usr/share/common-licenses/Apache-2.0"):
        yield "LICENSE is not the text of Debian's common-licenses"
    yield from faults_of_examples(top)
    yield from faults_of_links(top)


def faults_of_debian(name, path, wanted, folder):
    """Yields what is wrong with the fields and the owners of a package for Debian, and what `lintian` says of it. Unpacks it."""
    said = run(["dpkg-deb", "-I", path], "/").stdout.decode()
    fields = dict(re.findall(r"^ (\w[\w-]*): (.*)$", said, re.M))
    wanted = {"Package": name, "Version": unbuilt.version(), **wanted}
    if {it: fields.get(it) for it in wanted} != wanted:
        yield f"the package {name} has {fields}"
    owners = {line.split()[1] for line in run(["dpkg-deb", "-c", path], "/").stdout.decode().splitlines()}
    if owners != {"root/root"}:
        yield f"the files of {name} belong to {owners}"
    subprocess.run(["dpkg-deb", "-x", path, folder], check=True)
    ran = subprocess.run(["lintian", "--no-cfg", "--fail-on", "error,warning", path], capture_output=True, text=True)
    if ran.returncode or ran.stdout:
        yield f"lintian: status {ran.returncode}: {ran.stdout.strip()}"


def faults_of_copyright(path):
    """Yields the libraries that the copyright file of the package with the program lacks."""
    text = bytes_of(path).decode()
    said = re.findall(r"(?m)^Files: rattle/(\w+)/\*\nCopyright: (.+(?:\n .+)*)\nLicense: (.+)\nComment: .", text)
    if [it[0] for it in said] != notice.libraries():
        yield f"{path}: it has {said}"
    texts = {"Apache-2.0", "unknown", *re.findall(r"(?m)^License: (\S+)\n .", text)}
    yield from (f"{path}: there is no text of {it}" for _, _, licences in said for it in licences.split(" and ") if it not in texts)
    yield from (f"{path}: {it} has a licence file" for it, _, licences in said if (licences == "unknown") == bool(notice.licences(it)))


def faults_of_contents(made, program, folder):
    """Yields what the packages lack of LICENSE and NOTICE, and where the program is another one. The archive and those for Debian are unpacked in the folder."""
    version = unbuilt.version()
    archive, wheel, sdist = of_archive(made[0]), of_zip(made[3]), of_archive(made[4])
    about, beside = f"fbsim-{version}.dist-info", f"fbsim-{version}.data/data"
    of_all = of_zip(io.BytesIO(archive[f"python/fbsim-{version}-py3-none-any.whl"].content))
    own = [bytes_of(f"{TOP}/{it}") for it in ("LICENSE", "NOTICE")]
    for name, files, at in (("archive", archive, ""), ("sdist", sdist, ""), ("wheel", wheel, f"{about}/"), ("wheel of the archive", of_all, f"{about}/")):
        if [files[f"{at}{it}"].content for it in ("LICENSE", "NOTICE")] != own:
            yield f"the {name} has another LICENSE or NOTICE"
    for it in ("fbsim", "python3-fbsim"):
        if bytes_of(f"{folder}/{it}/usr/share/doc/{it}/NOTICE") != own[1] or os.readlink(f"{folder}/{it}/usr/share/doc/{it}/LICENSE") != "../../common-licenses/Apache-2.0":
            yield f"the package {it} has another LICENSE or NOTICE"
    packaged = archive["bin/fbsim"]
    if not packaged.is_executable or wheel[f"{beside}/bin/fbsim"] != packaged or bytes_of(f"{folder}/fbsim/usr/bin/fbsim") != packaged.content:
        yield "the packages have several programs"
    if any("bin/fbsim" in it for it in [*sdist, *of_all]) or packaged.content.count(b"\0.symtab\0"):
        yield "there is a program in the source distribution, or one with a symbol table"
    for name, files in (("wheel", wheel), ("wheel of the archive", of_all)):
        listed = {it: digest for it, digest in re.findall(r"(?m)^(.*),sha256=([\w-]+),\d+$", files[f"{about}/RECORD"].content.decode())}
        sums = {it: base64.urlsafe_b64encode(hashlib.sha256(file.content).digest()).decode().rstrip("=") for it, file in files.items() if it != f"{about}/RECORD"}
        if listed != sums:
            yield f"RECORD of the {name} has other files or sums"
    tags = [re.findall(r"(?m)^Tag: (.*)$", it[f"{about}/WHEEL"].content.decode()) for it in (wheel, of_all)]
    if tags != [[TAG], ["py3-none-any"]]:
        yield f"the wheels are tagged {tags}"
    yield from (f"PROVED of the {name} has not the sum of the program" for name, it in (("wheel", wheel[f"{beside}/share/doc/fbsim/PROVED"]), ("archive", archive["PROVED"])) if sum_of(bytes_of(program)).encode() not in it.content)


def faults_of_gate_line(folder):
    """Yields what is wrong with how the last line of a gate is kept for its own files alone."""
    package.RECORD, kept, here = f"{folder}/gate.json", package.RECORD, package.tree
    try:
        package.tree = lambda: "ab12"
        with contextlib.redirect_stderr(io.StringIO()) as said:
            statuses = package.main(["--check", f"{folder}/none"]), package.main(["/bin/true", f"{folder}/none"])
        if statuses != (1, 5) or "run it first" not in said.getvalue() or package.gate_line() is not None:
            yield f"without a gate, and with a program: statuses {statuses}, {said.getvalue()}"
        package.record_gate(LINE, "cd34")
        package.record_gate(LINE, None)
        if os.path.exists(package.RECORD):
            yield "it records a gate on other files"
        package.record_gate(LINE, "ab12")
        if package.gate_line() != LINE or json.loads(bytes_of(package.RECORD))["tree"] != "ab12":
            yield "it does not find the gate on these files"
        for other in ("cd34", None):
            package.tree = lambda it=other: it
            if package.gate_line() is not None:
                yield "it takes the line of a gate on other files"
    finally:
        package.RECORD, package.tree = kept, here


def names():
    """Returns the names of the packages, in the order in which they are made."""
    version = unbuilt.version()
    of_debian = [f"fbsim_{version}_amd64.deb", f"python3-fbsim_{version}_all.deb"]
    return [f"fbsim-{version}-x86_64-linux.tar.gz", *of_debian, f"fbsim-{version}-{TAG}.whl", f"fbsim-{version}.tar.gz"]


def main(program=package.PROGRAM):
    """Returns the status: 0 if there are no faults."""
    if any([lacks("lintian", "lintian"), lacks("bwrap", "bubblewrap")]):
        return 1
    os.environ.setdefault("SOURCE_DATE_EPOCH", git("log", "-1", "--format=%ct") or "1767225600")
    with tempfile.TemporaryDirectory(prefix="packages-") as folder:
        faults = [*faults_of_needs(program), *faults_of_bytes(program, folder), *faults_of_gate_line(folder)]
        version, made = unbuilt.version(), [f"{folder}/first/{it}" for it in names()]
        faults += faults_of_archive(made[0], program, f"{folder}/unpacked")
        needs = {"Architecture": "amd64", "Depends": f"libc6 (>= {library_version(program)})"}
        faults += faults_of_debian("fbsim", made[1], needs, f"{folder}/fbsim")
        needs = {"Architecture": "all", "Depends": f"fbsim (= {version}), python3 (>= 3.11)"}
        faults += faults_of_debian("python3-fbsim", made[2], needs, f"{folder}/python3-fbsim")
        faults += [*faults_of_copyright(f"{folder}/fbsim/usr/share/doc/fbsim/copyright"), *faults_of_contents(made, program, folder)]
        os.chmod(folder, 0o711)
        faults += package_installs.faults(made, version, f"{folder}/installed")
    for it in faults:
        print(f"packages: {it}")
    print(f"packages: {len(faults)} faults in the archive, the wheel, the source distribution and the packages for Debian", flush=True)
    return int(bool(faults))


if __name__ == "__main__":
    sys.exit(main(*sys.argv[1:]))
