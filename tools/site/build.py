"""Builds the documentation into a folder: the diagrams from their sources, the pages by MkDocs, the pages of clauses.

usage: /usr/bin/python3 tools/site/build.py FOLDER      as `sh life doc` does, with out/site

It downloads nothing. It needs Debian's mkdocs, mkdocs-material, libjs-katex and graphviz, and ends with 1 if a link of a page
leads nowhere (`mkdocs build --strict`).
"""
from __future__ import annotations

import pathlib
import subprocess
import sys

TOP = pathlib.Path(__file__).resolve().parents[2]


def main() -> int:
    folder = pathlib.Path(sys.argv[1]).resolve()
    drawn = subprocess.run([sys.executable, str(TOP / "docs" / "diagrams" / "draw.py")], check=False)
    if drawn.returncode:
        return 1
    built = subprocess.run([sys.executable, "-m", "mkdocs", "--quiet", "build", "--strict", "--config-file",
                            str(TOP / "mkdocs.yml"), "--site-dir", str(folder)], cwd=TOP, check=False)
    if built.returncode:
        return 1
    print(f"{len(list(folder.rglob('*.html')))} pages, from {folder / 'index.html'} on")
    return 0


if __name__ == "__main__":
    sys.exit(main())
