"""Makes the package for Debian, and the tar file with the same files."""
from __future__ import annotations

import gzip
import hashlib
import os
import re
import shutil
import subprocess
import tempfile

from life_tools.common.formats import Wrong
from packing.tree import NAME, Release, lay, settle, write

# what the tools use in addition to Python's own library; each tool reports what it misses, so nothing here is required
RECOMMENDED = ("python3 (>= 3.11)", "python3-flask", "python3-numpy", "python3-openpyxl", "python3-pandas")
SUGGESTED = ("python3-distributed", "chromium", "libreoffice-calc", "rsync", "openssh-client")
OVERRIDES = """# The bytes of the program are those that were proved and built, and whose sum proved.txt tells: it isn't stripped.
life: unstripped-binary-or-object [usr/libexec/life/life-program]
"""
# the tools are compiled once for all users; the files that Python made are removed together with the tools
AFTER_INSTALLING = """#!/bin/sh
set -e
if [ "$1" = configure ] && command -v py3compile >/dev/null 2>&1; then
    py3compile -p life /usr/share/life
fi
"""
BEFORE_REMOVING = """#!/bin/sh
set -e
find /usr/share/life -depth -name __pycache__ -type d -exec rm -r {} +
"""
DESCRIPTION = """back office of a life insurer, proved
 Up to eight clerks post to one journal at once, by fixed rules, and actuaries
 value all policies meanwhile. What the program prints and what it leaves on
 the disk, after a crash too, is proved; proved.txt tells of what and how.
 .
 Beside the program are tools that read what it printed and wrote. Each says
 which of the recommended packages it misses.
"""


def libraries_of(program: str) -> str:
    """Returns the libraries with which the program is linked, with the versions that it needs."""
    with open(program, "rb") as file:
        content = file.read()
    versions = sorted({(int(major), int(minor)) for major, minor in re.findall(rb"GLIBC_(\d+)\.(\d+)", content)})
    if not versions:
        raise Wrong(f"{program} isn't linked with Debian's C library")
    wanted = [f"libc6 (>= {versions[-1][0]}.{versions[-1][1]})"]
    return ", ".join(wanted + (["libgcc-s1 (>= 3.0)"] if b"libgcc_s.so.1" in content else []))


def files_below(top: str) -> list[str]:
    found = []
    for folder, _, names in os.walk(top):
        found += [os.path.relpath(os.path.join(folder, name), top) for name in names]
    return sorted(found, key=os.fsencode)


def installed_size(top: str) -> int:
    """Returns the size in KiB; each file and folder is rounded up."""
    whole = sum(1 for _ in os.walk(top))
    for name in files_below(top):
        path = os.path.join(top, name)
        whole += 1 if os.path.islink(path) else -(-os.path.getsize(path) // 1024)
    return whole


def control_of(release: Release, top: str) -> str:
    return (f"Package: {NAME}\nVersion: {release.version}\nArchitecture: amd64\nMaintainer: {release.maintainer}\n"
            f"Installed-Size: {installed_size(top)}\nDepends: {libraries_of(release.program)}\n"
            f"Recommends: {', '.join(RECOMMENDED)}\nSuggests: {', '.join(SUGGESTED)}\nSection: misc\nPriority: optional\n"
            f"Description: {DESCRIPTION}")


def md5_of(path: str) -> str:
    with open(path, "rb") as file:
        return hashlib.md5(file.read(), usedforsecurity=False).hexdigest()


def run(words: list[str], seconds: int) -> bytes:
    """Runs a command that makes a file of the release, and returns its output; raises Wrong with its errors if it fails."""
    ended = subprocess.run(words, stdout=subprocess.PIPE, stderr=subprocess.PIPE, check=False,
                           env={**os.environ, "LC_ALL": "C", "SOURCE_DATE_EPOCH": str(seconds)})
    if ended.returncode:
        raise Wrong(f"{words[0]} ended with {ended.returncode}: {ended.stderr.decode('utf-8', 'replace').strip()}")
    return ended.stdout


def make_package(release: Release, laid: str, room: str, out: str) -> None:
    """Makes the package from the files in a folder."""
    top = f"{room}/package"
    shutil.copytree(laid, f"{top}/usr", symlinks=True)
    write(f"{top}/usr/share/lintian/overrides/{NAME}", OVERRIDES)
    plain = [name for name in files_below(top) if not os.path.islink(os.path.join(top, name))]
    control = control_of(release, top)
    write(f"{top}/DEBIAN/md5sums", "".join(f"{md5_of(os.path.join(top, name))}  {name}\n" for name in plain))
    write(f"{top}/DEBIAN/control", control)
    write(f"{top}/DEBIAN/postinst", AFTER_INSTALLING, 0o755)
    write(f"{top}/DEBIAN/prerm", BEFORE_REMOVING, 0o755)
    settle(top, release.seconds)
    run(["dpkg-deb", "--root-owner-group", "--threads-max=1", "-Zxz", "-z3", "--build", top, out], release.seconds)


def make_tar(release: Release, room: str, name: str, out: str) -> None:
    settle(f"{room}/{name}", release.seconds)
    owned = ["--owner=0", "--group=0", "--numeric-owner"]
    packed = run(["tar", "-C", room, "--sort=name", *owned, "--format=gnu", "-cf", "-", name],
                 release.seconds)
    write(out, gzip.compress(packed, 6, mtime=0))


def make_both(release: Release, folder: str, package: str, tar: str) -> None:
    """Makes both files in a folder."""
    name = f"{NAME}-{release.version}"
    with tempfile.TemporaryDirectory(prefix="life-pack-") as room:
        lay(release, f"{room}/{name}")
        make_package(release, f"{room}/{name}", room, os.path.join(folder, package))
        make_tar(release, room, name, os.path.join(folder, tar))
