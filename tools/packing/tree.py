"""Lays out the files of a release below a folder: bin/ and share/, as in /usr or in the folder of a tar file."""
from __future__ import annotations

import gzip
import os
import shutil
import subprocess
from dataclasses import dataclass

from life_tools.common.formats import demand
from packing.changelog import changelog_of, debians
from packing.manual import manual_of_tools
from packing.tools_file import built_of, completion_of, contents_of

NAME = "life"
COPYRIGHT = """Format: https://www.debian.org/doc/packaging-manuals/copyright-format/1.0/
Upstream-Name: life
Source: the repository from which this was packed, at the revision that proved.txt names

Files: *
Copyright: 2026 the owner of the repository
License: none
 No licence is given: the owner has granted none, so nothing but what the law
 allows anyway may be done with it.

Files: share/doc/life/html/katex/*
Copyright: 2013-2020 Khan Academy and other contributors
License: Expat

Files: share/doc/life/html/assets/*
Copyright: 2016-2022 Martin Donath
License: Expat

License: Expat
 Permission is hereby granted, free of charge, to any person obtaining a copy
 of this software and associated documentation files (the "Software"), to
 deal in the Software without restriction, including without limitation the
 rights to use, copy, modify, merge, publish, distribute, sublicense, and/or
 sell copies of the Software, and to permit persons to whom the Software is
 furnished to do so, subject to the following conditions:
 .
 The above copyright notice and this permission notice shall be included in
 all copies or substantial portions of the Software.
 .
 THE SOFTWARE IS PROVIDED "AS IS", WITHOUT WARRANTY OF ANY KIND, EXPRESS OR
 IMPLIED, INCLUDING BUT NOT LIMITED TO THE WARRANTIES OF MERCHANTABILITY,
 FITNESS FOR A PARTICULAR PURPOSE AND NONINFRINGEMENT. IN NO EVENT SHALL THE
 AUTHORS OR COPYRIGHT HOLDERS BE LIABLE FOR ANY CLAIM, DAMAGES OR OTHER
 LIABILITY, WHETHER IN AN ACTION OF CONTRACT, TORT OR OTHERWISE, ARISING FROM,
 OUT OF OR IN CONNECTION WITH THE SOFTWARE OR THE USE OR OTHER DEALINGS IN THE
 SOFTWARE.
"""
# runs the tools with the Python that is first on the path; each tool names the packages that it misses
TOOLS = """#!/bin/sh
# The tools beside the program: `life-tools --help` names them.
command -v python3 >/dev/null || {
    echo "life-tools: python3 is missing: apt-get install python3" >&2
    exit 2
}
here=$(dirname "$(readlink -f -- "$0")")
exec python3 "$here/../share/life/life-tools.py" "$@"
"""
# the parts of the launcher that start the program, which tools/launcher/install.sh uses as well
PARTS = "tools/installed/parts"
UNITS = ("life-backup@.service", "life-backup@.timer")


@dataclass
class Release:
    """What is packed: the clone, its program, and their names and checksums."""

    root: str
    program: str
    program_sum: str
    sources_sum: str
    version: str
    revision: str
    kit: str
    seconds: int
    maintainer: str

    @property
    def logic(self) -> str:
        return self.kit.partition(" logic ")[2] or "unknown"


def write(path: str, content: str | bytes, mode: int = 0o644) -> None:
    os.makedirs(os.path.dirname(path), exist_ok=True)
    with open(path, "wb") as file:
        file.write(content.encode() if isinstance(content, str) else content)
    os.chmod(path, mode)


def write_zipped(path: str, content: str) -> None:
    write(path, gzip.compress(content.encode(), 9, mtime=0))


def link(path: str, target: str) -> None:
    os.makedirs(os.path.dirname(path), exist_ok=True)
    os.symlink(target, path)


def text_of(release: Release, *names: str) -> str:
    with open(os.path.join(release.root, *names), encoding="utf-8") as file:
        return file.read()


def write_site(release: Release, folder: str) -> None:
    """Builds the documentation with Debian's MkDocs; its dates are those of the revision."""
    command = ["/usr/bin/python3", os.path.join("tools", "site", "build.py"), os.path.abspath(folder)]
    built = subprocess.run(command, cwd=release.root,
                           env={**os.environ, "SOURCE_DATE_EPOCH": str(release.seconds)}, stdout=subprocess.PIPE,
                           stderr=subprocess.STDOUT, check=False)
    lines = built.stdout.decode("utf-8", "replace").strip().splitlines()
    demand(built.returncode == 0, f"the documentation can't be built: {lines[-1] if lines else 'by /usr/bin/python3'}")


def proved_of(release: Release) -> str:
    """Returns the text that says what was proved: what a reader with the kit needs to make the same bytes."""
    return f"""life {release.version}: what was proved

revision: {release.revision}
kit: {release.kit.partition(" logic ")[0]}
logic: {release.logic}
program: {release.program_sum}
sources: {release.sources_sum}

These are SHA-256 sums: of libexec/life/life-program as it was proved and built, and of the list of all sources,
contracts, proofs and wrong bodies that `python3 tools/packing/sources.py --list` prints. With this kit, `sh life prove`
and `sh life pack` in a clone of this revision make the same bytes.
"""


def lay_programs(release: Release, top: str) -> None:
    """Lays out the program and the scripts that start it in one folder, as `life install` does, with links to them in bin/."""
    with open(release.program, "rb") as file:
        write(f"{top}/libexec/life/life-program", file.read(), 0o755)
    shared = "".join(text_of(release, part) for part in text_of(release, PARTS).split())
    for name, text in (("life", "#!/bin/sh\n" + shared), ("life-wait", text_of(release, "tools/installed/life-wait.sh"))):
        write(f"{top}/libexec/life/{name}", text, 0o755)
        link(f"{top}/bin/{name}", f"../libexec/life/{name}")
    write(f"{top}/bin/life-tools", TOOLS, 0o755)
    link(f"{top}/libexec/life/life-tools", "../../bin/life-tools")


def lay_tools(release: Release, top: str) -> None:
    """Lays out the tools' package and the script that runs it, which finds the program beside itself."""
    built = built_of(release.revision, release.kit, release.program_sum)
    for name, content in contents_of(os.path.join(release.root, "tools", "life_tools"), built).items():
        write(f"{top}/share/life/{name}", content)
    write(f"{top}/share/life/life-tools.py", text_of(release, "tools", "life-tools").partition("\n")[2])
    link(f"{top}/share/life/life-program", "../../libexec/life/life-program")


def lay_manuals(release: Release, top: str) -> None:
    write_zipped(f"{top}/share/man/man1/life.1.gz", text_of(release, "tools", "installed", "life.1"))
    write_zipped(f"{top}/share/man/man1/life-tools.1.gz", manual_of_tools())
    link(f"{top}/share/man/man1/life-wait.1.gz", "life.1.gz")
    completions = f"{top}/share/bash-completion/completions"
    write(f"{completions}/life", completion_of(os.path.join(release.root, "tools", "installed", "life.bash")))
    for name in ("life-tools", "life-wait"):
        link(f"{completions}/{name}", "life")


def lay_units(release: Release, top: str) -> None:
    """Lays out systemd units, which the owner of a book enables for its folder."""
    for name in UNITS:
        write(f"{top}/lib/systemd/user/{name}", text_of(release, "tools", "installed", name))


def lay_documents(release: Release, top: str) -> None:
    folder = f"{top}/share/doc/{NAME}"
    write_site(release, f"{folder}/html")
    examples = subprocess.run(["git", "ls-files", "-z", "examples"], cwd=release.root, stdout=subprocess.PIPE, check=True).stdout
    for name in filter(None, examples.decode().split("\0")):
        with open(os.path.join(release.root, name), "rb") as file:
            write(f"{folder}/{name}", file.read())
    write(f"{folder}/copyright", COPYRIGHT)
    write(f"{folder}/proved.txt", proved_of(release))
    write_zipped(f"{folder}/changelog.gz", debians(changelog_of(release.root), NAME, release.maintainer))


def settle(top: str, seconds: int) -> None:
    """Gives each file and folder the modes and the time of a release, independently of this process's own settings."""
    for folder, _, names in os.walk(top):
        for name in names:
            os.utime(os.path.join(folder, name), (seconds, seconds), follow_symlinks=False)
            if not os.path.islink(os.path.join(folder, name)) and not os.access(os.path.join(folder, name), os.X_OK):
                os.chmod(os.path.join(folder, name), 0o644)
    for folder, _, _ in os.walk(top, topdown=False):
        os.chmod(folder, 0o755)
        os.utime(folder, (seconds, seconds))


def lay(release: Release, top: str) -> None:
    """Lays out all files of a release below a folder; what was there before is removed."""
    shutil.rmtree(top, ignore_errors=True)
    os.makedirs(top)
    for part in (lay_programs, lay_tools, lay_manuals, lay_units, lay_documents):
        part(release, top)
