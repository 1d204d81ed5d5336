"""What a program is linked with, as the field Depends of a package has it."""

import os
import re
import shutil
import subprocess
import tempfile


def depends(program):
    """The packages that the program's libraries are of, each with the version that it wants at least."""
    return by_shlibdeps(program) if shutil.which("dpkg-shlibdeps") else by_ldd(program)


def by_shlibdeps(program):
    """By the symbols that the program takes of each library, as dpkg-shlibdeps knows them."""
    with tempfile.TemporaryDirectory() as folder:
        os.mkdir(f"{folder}/debian")
        with open(f"{folder}/debian/control", "w", encoding="utf-8") as it:
            it.write("Source: sunsite\n\nPackage: sunsite\nArchitecture: any\n")
        ran = subprocess.run(["dpkg-shlibdeps", "-O", f"-e{program}"], cwd=folder, capture_output=True, text=True, check=False)
    told = re.fullmatch(r"shlibs:Depends=(.+)\n", ran.stdout)
    if ran.returncode or told is None:
        raise SystemExit(f"tools/package: dpkg-shlibdeps doesn't know what the program is linked with:\n{ran.stderr}")
    return told[1]


def by_ldd(program):
    """By the packages that are installed here, in at least these versions: more than the program may want, and never less."""
    told = subprocess.run(["ldd", program], capture_output=True, text=True, check=True).stdout
    found = {package_of(path) for path in re.findall(r"=> (/\S+)", told)}
    return ", ".join(f"{name} (>= {version_of(name)})" for name in sorted(found))


def package_of(path):
    """The name of the package that a library is of; where /lib is a link dpkg may know the file by either path."""
    real = os.path.realpath(path)
    for it in (path, real, real.removeprefix("/usr")):
        ran = subprocess.run(["dpkg", "-S", it], capture_output=True, text=True, check=False)
        if ran.returncode == 0:
            return ran.stdout.split(":")[0]
    raise SystemExit(f"tools/package: no package has the library {path}")


def version_of(name):
    """The version of an installed package, without what Debian counts."""
    told = subprocess.run(["dpkg-query", "-W", "-f", "${Version}\n", name], capture_output=True, text=True, check=True).stdout
    return told.split("\n")[0].rpartition("-")[0] or told.split("\n")[0]
