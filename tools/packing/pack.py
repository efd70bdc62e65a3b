"""Makes a release in a folder: the package, the tar file, and the text that says what was proved.

usage: pack.py PROGRAM FOLDER REVISION KIT SECONDS MAINTAINER, as tools/launcher/pack.sh calls it; SECONDS is the
revision's time, MAINTAINER its author
"""
from __future__ import annotations

import os
import sys

if __name__ == "__main__":
    sys.dont_write_bytecode = True
    sys.path.insert(0, os.path.dirname(os.path.dirname(os.path.abspath(__file__))))

from life_tools.common.formats import Wrong, remark
from packing.changelog import newest_of
from packing.debian import make_both
from packing.sources import sum_of, sum_of_sources
from packing.tree import NAME, Release, proved_of, write

ROOT = os.path.dirname(os.path.dirname(os.path.dirname(os.path.abspath(__file__))))
GATE = os.path.join(ROOT, "out", "gate")


def gate_of(sources_sum: str) -> str:
    """Returns the last lines of the checks over exactly these sources, as .ci/run kept them."""
    begins = f"sources: {sources_sum}\n"
    if os.path.isfile(GATE):
        with open(GATE, encoding="utf-8") as file:
            told = file.read()
        if told.startswith(begins):
            return told[len(begins):]
    return "not known here: `sh .ci/run` keeps them in out/gate\n"


def make(release: Release, folder: str) -> None:
    stem = f"{NAME}_{release.version}"
    made = [f"{stem}_amd64.deb", f"{stem}_amd64.tar.gz"]
    make_both(release, folder, *made)
    sums = "".join(f"{sum_of(os.path.join(folder, name))}  {name}\n" for name in made)
    gate = gate_of(release.sources_sum)
    told = f"{proved_of(release)}\nThe gate's last lines:\n\n{gate}\nThe files' sums:\n\n{sums}"
    write(os.path.join(folder, f"{stem}.proved.txt"), told)


def main(words: list[str]) -> int:
    program, folder, revision, kit, seconds, maintainer = words
    release = Release(ROOT, program, sum_of(program), sum_of_sources(ROOT), newest_of(ROOT), revision, kit, int(seconds),
                      maintainer)
    make(release, folder)
    return 0


if __name__ == "__main__":
    try:
        sys.exit(main(sys.argv[1:]))
    except Wrong as wrong:
        remark(str(wrong))
        sys.exit(2)
