"""Extends MkDocs for this site: pages from the top of the repository, pictures, formulas, and the pages of clauses."""
from __future__ import annotations

import pathlib
import shutil
import sys
from typing import Any

from mkdocs.structure.files import File

TOP = pathlib.Path(__file__).resolve().parents[2]
# pages at the top of the repository, and pictures that a test compares with what the tools draw
ADDED = ("CHANGELOG.md", "SECURITY.md", "CONTRIBUTING.md", "examples/projection.svg", "examples/reserve.svg")
# Debian's libjs-katex, and the files of it that the pages use
KATEX = pathlib.Path("/usr/share/javascript/katex")
KATEX_FILES = {"katex.js": "katex.min.js", "katex.min.css": "katex.min.css",
               "contrib/auto-render.js": "contrib/auto-render.min.js"}


def on_files(files: Any, config: Any) -> Any:
    for name in ADDED:
        files.append(File(name, str(TOP), config["site_dir"], config["use_directory_urls"]))
    return files


def on_page_markdown(markdown: str, page: Any, config: Any, files: Any) -> str:
    """Changes links that are right in the repository so that they are right in the site."""
    if page.file.src_uri in ADDED:
        return markdown.replace("](docs/", "](")
    return markdown.replace("](../../examples/", "](../examples/").replace("](../../CHANGELOG.md", "](../CHANGELOG.md") \
        .replace("](../../SECURITY.md", "](../SECURITY.md").replace("](../../CONTRIBUTING.md", "](../CONTRIBUTING.md")


def on_post_build(config: Any) -> None:
    site = pathlib.Path(config["site_dir"])
    index = (site / "search" / "search_index.json").read_text(encoding="utf-8")
    (site / "search" / "search_index.js").write_text(f"var __search = {{ index: Promise.resolve({index}) }};\n", encoding="utf-8")
    # its links begin at the root of a server, and this site has no server
    (site / "404.html").unlink()
    (site / "katex" / "contrib").mkdir(parents=True)
    for name, placed in KATEX_FILES.items():
        shutil.copyfile(KATEX / name, site / "katex" / placed)
    shutil.copytree(KATEX / "fonts", site / "katex" / "fonts")
    sys.path.insert(0, str(TOP / "tools" / "site"))
    from clause_pages import write_clauses
    write_clauses(site / "clauses")
