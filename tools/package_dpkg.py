"""What tools/try-package lets dpkg do with a package: install it, replace it, take it away; and what its scripts do."""

import os
import re
import shutil
import subprocess

from package_texts import leave, ran, read, write
from serve_parts import text_of


def field(package, name):
    """What dpkg reads of a package under a name."""
    return ran("dpkg-deb", "-f", package, name).stdout.strip()


class System:
    """A folder into which dpkg installs; the libraries that the package wants stand in its list as in that of this machine."""

    def __init__(self, folder):
        self.root = f"{folder}/system"
        for name in ("info", "updates", "triggers"):
            os.makedirs(f"{self.root}/var/lib/dpkg/{name}")
        write(f"{self.root}/var/lib/dpkg/status", ran("dpkg-query", "-s", "libc6", "libgcc-s1").stdout)
        self.log = f"{folder}/dpkg.log"

    def dpkg(self, *words):
        """What dpkg says where it fails, else nothing."""
        rights = [] if os.geteuid() == 0 else ["fakeroot"]
        it = ran(*rights, "dpkg", f"--root={self.root}", f"--log={self.log}", "--force-script-chrootless", "--force-not-root", *words)
        return it.stdout + it.stderr if it.returncode else ""

    def path(self, name):
        return f"{self.root}/{name}"

    def version(self):
        return ran("dpkg-query", f"--admindir={self.root}/var/lib/dpkg", "-W", "-f", "${Version}", "sunsite").stdout


def later(folder, package):
    """The package as one of a later version."""
    room = f"{folder}/later"
    subprocess.run(["dpkg-deb", "-R", package, room], check=True)
    control = f"{room}/DEBIAN/control"
    write(control, re.sub(r"^Version: .*", "Version: 999", read(control), flags=re.M))
    subprocess.run(["dpkg-deb", "--root-owner-group", "-b", room, f"{folder}/later.deb"], check=True, stdout=subprocess.DEVNULL)
    return f"{folder}/later.deb"


def try_dpkg(counts, folder, package):
    """Installing, replacing by a later one, going back, removing, and taking away all."""
    if os.geteuid() != 0 and shutil.which("fakeroot") is None:
        leave("what dpkg makes of the package", "fakeroot")
        return
    system, first = System(folder), field(package, "Version")
    site, state = system.path("etc/sunsite/site.toml"), system.path("var/lib/private/sunsite/state")
    counts.note("it is installed", (system.dpkg("-i", package), system.version()) == ("", first), system.version())
    counts.note("its program is there", ran(system.path("usr/bin/sunsite"), "--version").stdout.startswith("sunsite "))
    os.makedirs(os.path.dirname(state))
    os.symlink("private/sunsite", system.path("var/lib/sunsite"))
    for path in (site, state):
        with open(path, "a", encoding="utf-8") as it:
            it.write("# mine\n")
    kept = lambda: all((text_of(path) or "").endswith("# mine\n") for path in (site, state))
    counts.note("a later one takes its place", (system.dpkg("-i", later(folder, package)), system.version()) == ("", "999") and kept())
    counts.note("and it that one's", (system.dpkg("-i", package), system.version()) == ("", first) and kept())
    said = system.dpkg("-r", "sunsite")
    stays, goes = system.path("etc/default/sunsite"), system.path("usr/bin/sunsite")
    counts.note("a removal leaves what is the site's", not said and kept() and os.path.exists(stays) and not os.path.exists(goes), said)
    said = system.dpkg("-P", "sunsite")
    left = [path for path in ("etc/sunsite", "etc/default/sunsite", "var/lib/sunsite", "var/lib/private/sunsite", "usr/share/doc/sunsite")
            if os.path.lexists(system.path(path))]
    counts.note("a purge leaves nothing", not said and not left, (said, left))


def called(root, folder, script, *words):
    """What a script of dpkg calls of systemd, where systemd runs."""
    room = f"{folder}/calls"
    os.makedirs(f"{room}/bin", exist_ok=True)
    for name in ("systemctl", "deb-systemd-invoke"):
        write(f"{room}/bin/{name}", f'#!/bin/sh\necho "{name} $*"\n')
        os.chmod(f"{room}/bin/{name}", 0o755)
    text = read(f"{root}/{script}").replace("/run/systemd/system", room)
    surroundings = {**os.environ, "PATH": f"{room}/bin:{os.environ['PATH']}"}
    surroundings.pop("DPKG_ROOT", None)
    it = ran("sh", "-c", text, script, *words, env=surroundings)
    return it.stderr or it.stdout.split("\n")[:-1]


def try_scripts(counts, control, folder):
    """What happens to the service as the package comes, is replaced and goes; `control` is the folder of the scripts."""
    reload = "systemctl --system daemon-reload"
    for words, wanted in (
        (("postinst", "configure", ""), [reload]),
        (("postinst", "configure", "0.0.1"), [reload, "deb-systemd-invoke try-restart sunsite.service"]),
        (("postinst", "abort-upgrade", "0.0.1"), []),
        (("prerm", "upgrade", "9.9"), []),
        (("prerm", "remove"), ["deb-systemd-invoke stop sunsite.service", "systemctl --system disable sunsite.service"]),
        (("postrm", "upgrade", "9.9"), []),
        (("postrm", "remove"), [reload]),
    ):
        got = called(control, folder, *words)
        counts.note(" ".join(words), got == wanted, got)
