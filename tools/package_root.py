"""An empty root: some packages of Debian with all that they need, copied from this system, and nothing else.

Commands in it have no network and see nothing outside it. So they have neither the kit nor the repository, and no package of this system
that was not asked for. bubblewrap makes it, without rights of root. Where the kernel allows no namespaces, chroot makes it for root, with
the network of this system."""

import functools
import glob
import os
import re
import stat
import subprocess
from pathlib import Path

from kit import rt

USER, HOME = "user", "/home/user"
# What each root has: enough to install packages of Debian, and a shell.
BASE = ("base-files", "bash", "dash", "coreutils", "dpkg", "libc-bin", "sed", "grep", "diffutils", "findutils", "tar", "gzip")
USERS = {"etc/passwd": "root:x:0:0::/root:/bin/sh\nuser:x:1000:1000::/home/user:/bin/sh\n", "etc/group": "root:x:0:\nuser:x:1000:\n"}
INFO = "/var/lib/dpkg/info"
PATHS = {True: "/usr/sbin:/usr/bin:/sbin:/bin", False: "/usr/bin:/bin"}


def installed():
    """Returns what each package of this system needs, in groups of which one is enough, by names, also those that it provides."""
    form = "${Package}\t${db:Status-Status}\t${Pre-Depends}, ${Depends}\t${Provides}\n"
    rows = [it.split("\t") for it in subprocess.run(["dpkg-query", "-W", "-f", form], check=True, capture_output=True, text=True).stdout.splitlines()]
    found = {}
    for name, status, needs, provides in rows:
        if status == "installed":
            groups = [[re.split(r"[ (:]", it.strip())[0] for it in group.split("|")] for group in needs.split(",") if group.strip()]
            for it in [name, *(it.split("(")[0].strip() for it in provides.split(",") if it.strip())]:
                found.setdefault(it, (name, groups))
    return found


def with_all_needed(names, known):
    """Returns these packages and all that they need."""
    found, left = set(), [*names]
    while left:
        asked = left.pop()
        if asked not in known:
            raise SystemExit(f"packages: the system package {asked} is missing (tools/system_packages.py)")
        name, groups = known[asked]
        if name not in found:
            found.add(name)
            left += [next(filter(known.__contains__, group), group[0]) for group in groups]
    return sorted(found)


def without_links(path):
    """Returns a path without symbolic links but for its last part: on this system /bin may be /usr/bin."""
    return os.path.join(os.path.realpath(os.path.dirname(path)), os.path.basename(path))


@functools.cache
def has_namespaces():
    """Whether bubblewrap can make a root here."""
    words = ["bwrap", "--unshare-all", "--ro-bind", "/", "/", "--", "true"]
    ran = subprocess.run(words, stdin=subprocess.DEVNULL, stdout=subprocess.PIPE, stderr=subprocess.STDOUT, text=True)
    if ran.returncode:
        print(f"packages: bubblewrap makes no root here, chroot does: {ran.stdout.strip()}", flush=True)
    return ran.returncode == 0


class Root:
    """A root in a folder, in which commands run as root or as a user. The user can write into his home alone."""

    def __init__(self, folder, *packages):
        self.folder, self.known, self.packages = Path(folder), installed(), set()
        for it in ("proc", "dev", "tmp", "root", "run", "var/lib/dpkg/info", "var/lib/dpkg/updates", "var/lib/dpkg/triggers", "var/log", "var/tmp", HOME[1:]):
            (self.folder / it).mkdir(parents=True)
        for it in ("bin", "sbin", "lib", "lib64"):
            if os.path.islink(f"/{it}"):
                (self.folder / it).symlink_to(os.readlink(f"/{it}"))
        self.add(*BASE, *packages)
        for name, text in USERS.items():
            (self.folder / name).write_text(text)
        self.drop = rt.drop_to_nobody()
        if self.drop is None:
            raise SystemExit("packages: as root, programs are called only as nobody, and setpriv failed here")
        (self.folder / HOME[1:]).chmod(0o777)
        (self.folder / "tmp").chmod(0o1777)
        os.chmod(self.folder, 0o755)
        if not has_namespaces():
            for it in ("null", "zero", "urandom"):
                os.mknod(self.folder / "dev" / it, stat.S_IFCHR | 0o666, os.stat(f"/dev/{it}").st_rdev)
                os.chmod(self.folder / "dev" / it, 0o666)

    def add(self, *packages):
        """Adds packages of Debian, as they are on this system."""
        new = [it for it in with_all_needed(packages, self.known) if it not in self.packages]
        self.packages.update(new)
        listed = subprocess.run(["dpkg-query", "-L", *new], check=True, capture_output=True, text=True).stdout.splitlines()
        # (what only root reads is a folder for later)
        paths = {without_links(it)[1:] for it in listed if it.startswith("/") and it != "/." and (os.path.islink(it) or os.access(it, os.R_OK))}
        paths |= {it[1:] for it in glob.glob(f"{INFO}/*.*") if os.path.basename(it).rpartition(".")[0].partition(":")[0] in new}
        packing = subprocess.Popen(["tar", "-C", "/", "--no-recursion", "--null", "-T", "-", "-cf", "-"], stdin=subprocess.PIPE, stdout=subprocess.PIPE)
        unpacking = subprocess.Popen(["tar", "-C", self.folder, "--no-same-owner", "-p", "-xf", "-"], stdin=packing.stdout)
        packing.stdout.close()
        packing.stdin.write("\0".join(sorted(paths)).encode())
        packing.stdin.close()
        if packing.wait() or unpacking.wait():
            raise SystemExit("packages: tar could not copy packages of this system")
        about = subprocess.run(["dpkg-query", "-s", *new], check=True, capture_output=True, text=True).stdout
        with open(self.folder / "var/lib/dpkg/status", "a") as it:
            it.write(f"{about}\n")

    def box(self, is_root, folder):
        """Returns the words that start a command in the root."""
        if not has_namespaces():
            return ["/usr/sbin/chroot", *([] if is_root else ["--userspec=1000:1000"]), str(self.folder), "env", "-C", folder]
        number, bind = ("0", "--bind") if is_root else ("1000", "--ro-bind")
        home = [] if is_root else ["--bind", f"{self.folder}{HOME}", HOME]
        box = ["bwrap", "--unshare-all", "--unshare-user", "--die-with-parent", "--new-session", "--uid", number, "--gid", number]
        box += [bind, str(self.folder), "/", "--proc", "/proc", "--dev", "/dev", "--tmpfs", "/tmp", *home, "--chdir", folder]
        # (the user is another one outside, too, so that he can't write what is not his)
        return [*([] if is_root else self.drop), *box, *(["--cap-add", "ALL"] if is_root else []), "--"]

    def run(self, words, is_root=False, folder=HOME, path=""):
        """Runs a command as root or as the user, in a folder of the root, and returns its status and what it printed. `path` comes before the usual PATH."""
        settings = {"PATH": path + ":" * bool(path) + PATHS[is_root], "HOME": "/root" if is_root else HOME, "LANG": "C.UTF-8", "PYTHONDONTWRITEBYTECODE": "1"}
        ran = subprocess.run([*self.box(is_root, folder), *words], env=settings, stdin=subprocess.DEVNULL, stdout=subprocess.PIPE, stderr=subprocess.STDOUT, text=True)
        return ran.returncode, ran.stdout
