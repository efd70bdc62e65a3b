"""Makes HTML pages of each public clause and the definitions that it uses, with their comments and their places in files.

usage: python3 tools/site/clause_pages.py FOLDER      `sh life doc` makes them in out/site/clauses

Each crate has a page with its public functions and their clauses, its worked cases, and its definitions by file. Definitions
used by the clauses of the program (`life_app`, `life_cli`) come before those that only other clauses use. Each word in a text
that names a definition is a link to it; the definitions of `specs/inside/` are on pages of their own. A word without a link
belongs to the kit, is a type of the code, or is bound in the text itself.
"""
from __future__ import annotations

import html
import re
import shutil
import sys
from collections.abc import Iterable, Iterator
from pathlib import Path

if (root := str(Path(__file__).resolve().parents[2])) not in sys.path:
    sys.path.insert(0, root)

from tests.language import counts, specs, statements
from tests.language.promise import Public, all_public
from tests.language.source import CRATES, Clause, Function

STYLE = """
:root { color-scheme: light dark; }
body { font: 1rem/1.5 system-ui, sans-serif; margin: 0 auto; max-width: 58rem; padding: 0 1rem 4rem; overflow-wrap: anywhere; }
h1, h2, h3 { line-height: 1.25; }
h2 { margin-top: 2.2rem; }
h3 { font-size: 1.05rem; margin: 1.6rem 0 .2rem; }
nav { border-bottom: 1px solid #8888; padding: .8rem 0; }
nav a { margin-right: 1rem; display: inline-block; }
pre { background: #8881; margin: .3rem 0 .8rem; padding: .5rem .7rem; border-radius: .3rem; }
pre { font-size: .88rem; white-space: pre-wrap; }
.place { color: #666; font-size: .85rem; }
.name { font-weight: 600; }
p { margin: .3rem 0; }
table { border-collapse: collapse; display: block; overflow-x: auto; }
th, td { border: 1px solid #8886; padding: .2rem .5rem; text-align: left; }
ul.names { columns: 18rem; padding-left: 1.2rem; }
:target { outline: 2px solid #d80; outline-offset: .3rem; }
@media (prefers-color-scheme: dark) { .place { color: #aaa; } a { color: #8cf; } }
@media print { nav { display: none; } }
"""


class Pages:
    """All pages, and the place of each definition."""

    def __init__(self, public: Public) -> None:
        self.public = public
        self.definitions = public.texts.definitions
        self.shown = {key for key in public.promise | public.others if key in self.definitions}

    def page_of(self, key: str) -> str:
        crate = key.split(".")[0]
        return f"{crate}.inside.html" if ".inside." in key else f"{crate}.html"

    def link_to(self, key: str, word: str) -> str:
        return f'<a href="{self.page_of(key)}#{anchor(key)}">{html.escape(word)}</a>'

    def linked(self, text: str, imports: dict[str, str], place: str = "") -> str:
        """Returns a text in which each word that names one of our definitions is a link to it."""
        parts, behind = [], 0
        for word in specs.WORD.finditer(text):
            key = imports.get(word[0], f"{place}.{word[0]}")
            if key in self.shown:
                parts += [html.escape(text[behind:word.start()]), self.link_to(key, word[0])]
                behind = word.end()
        return "".join(parts) + html.escape(text[behind:])

    def write(self, folder: Path) -> int:
        for crate in self.public.functions:
            write_page(folder / f"{crate}.html", crate, self.crate(crate))
            inside = [key for key in self.of_crate(crate) if ".inside." in key]
            if inside:
                title = f"{crate}, inside"
                write_page(folder / f"{crate}.inside.html", title, [f"<h1>{title}</h1>", *self.by_file("Definitions", inside)])
        write_page(folder / "index.html", "Clauses and definitions", self.index())
        write_page(folder / "names.html", "Names", self.names())
        return len(self.public.functions)

    # --- a crate ---

    def of_crate(self, crate: str) -> list[str]:
        return sorted(key for key in self.shown if key.startswith(f"{crate}.specs."))

    def crate(self, crate: str) -> Iterator[str]:
        functions = self.public.functions[crate]
        yield f"<h1>{crate}</h1>\n<p>{said(head_of_crate(crate))}</p>"
        yield from self.functions("Clauses", [one for one in functions if not one.is_worked])
        keys = [key for key in self.of_crate(crate) if ".inside." not in key]
        yield from self.by_file("Definitions under the program's clauses", [key for key in keys if key in self.public.promise])
        yield from self.by_file("Definitions under other clauses", [key for key in keys if key in self.public.others])
        yield from worked_cases([one for one in functions if one.is_worked])

    def functions(self, title: str, functions: list[Function]) -> Iterator[str]:
        if functions:
            yield f"<h2>{title}</h2>"
        for one in functions:
            imports = specs.imports_of(one.file.read_text(encoding="utf-8"))
            yield f'<h3 id="{anchor_of(one)}"><code>{html.escape(one.shown)}</code></h3>\n<p class="place">{one.place}</p>'
            if one.comment:
                yield f"<p>{said(one.comment)}</p>"
            for clause in one.clauses:
                yield self.clause(clause, imports)

    def clause(self, clause: Clause, imports: dict[str, str]) -> str:
        name = f' <span class="name">{clause.name}</span>' if clause.name else ""
        comment = f": {said(clause.comment)}" if clause.comment else ""
        return f"<p>{clause.side}{name}{comment}</p>\n<pre>{self.linked(clause.said, imports)}</pre>"

    def by_file(self, title: str, keys: list[str]) -> Iterator[str]:
        if keys:
            yield f"<h2>{title}</h2>"
        for place in sorted({self.definitions[key].place for key in keys}):
            yield f'<h3>{"/".join(place.split(".")[1:])}.antt</h3>\n<p>{said(head_of_file(place))}</p>'
            for key, one in self.definitions.items():
                if one.place == place and key in keys:
                    yield self.definition(key, one)

    def definition(self, key: str, one: specs.Definition) -> str:
        comment = f": {said(one.comment)}" if one.comment else ""
        text = self.linked("\n".join(statements.bare("\n".join(one.lines)).splitlines()), self.public.texts.imports[one.place],
                           one.place)
        return (f'<div id="{anchor(key)}"><p><span class="name">{html.escape(one.name)}</span>{comment} '
                f'<span class="place">{place_of(one)}</span></p>\n<pre>{text}</pre></div>')

    # --- the first page, and all names ---

    def index(self) -> Iterator[str]:
        yield ("<h1>Clauses and definitions</h1>\n<p>Each public clause of each crate, and the definitions under it, as they "
               "stand in the files. <a href=\"../proof/index.html\">What is promised</a> says what they promise together, and "
               "the <a href=\"../proof/review.html\">reviewer's guide</a> in which order to read them. "
               '<a href="names.html">All names</a>, by letter.</p>')
        yield "<h2>How much is to be read</h2>"
        yield from table(counts.table_of(self.public))
        yield "<h2>The program</h2>\n<ul>"
        for crate in ("life_app", "life_cli"):
            yield from (f'<li><a href="{crate}.html#{anchor_of(one)}">{html.escape(one.shown)}</a> of {crate}</li>'
                        for one in self.public.functions[crate] if not one.is_worked and not one.owner)
        yield "</ul>\n<h2>Crates, the lowest first</h2>\n<ul>"
        for crate in self.public.functions:
            yield f'<li><a href="{crate}.html">{crate}</a>: {said(head_of_crate(crate))}</li>'
        yield "</ul>"

    def names(self) -> Iterator[str]:
        yield "<h1>Names</h1>\n<h2>Functions</h2>\n<ul class=\"names\">"
        links = [(one.shown, f'<a href="{crate}.html#{anchor_of(one)}">{html.escape(one.shown)}</a> {crate}')
                 for crate, functions in self.public.functions.items() for one in functions if not one.is_worked]
        yield from (f"<li>{link}</li>" for _, link in sorted(links))
        yield "</ul>\n<h2>Definitions</h2>\n<ul class=\"names\">"
        keys = sorted(self.shown, key=lambda key: (self.definitions[key].name.lower(), key))
        yield from (f"<li>{self.link_to(key, self.definitions[key].name)} {key.split('.')[0]}</li>" for key in keys)
        yield "</ul>"


def anchor(key: str) -> str:
    """Returns the anchor of a definition in its page, made of characters that need no escape in an address."""
    return "".join(sign if sign.isalnum() and sign.isascii() or sign in "._" else f"-{ord(sign):x}"
                   for sign in key.partition(".specs.")[2])


def anchor_of(one: Function) -> str:
    return "fn-" + re.sub(r"[^\w]+", "-", f"{one.place.rpartition(':')[0]} {one.shown}")


def said(comment: str) -> str:
    """Returns a comment as HTML, with the parts in backticks as code."""
    return re.sub("`([^`]+)`", r"<code>\1</code>", html.escape(comment))


def head_of_crate(crate: str) -> str:
    """Returns the first sentences of a crate's description."""
    source = CRATES / crate / "src"
    root = source / "lib.rt" if (source / "lib.rt").exists() else source / "main.rt"
    head = root.read_text(encoding="utf-8").split("\n#!")[0].split("\n//!\n")[0].splitlines()
    return " ".join(line[3:].strip() for line in head if line.startswith("//!"))


def file_of(place: str) -> Path:
    return CRATES / (place.replace(".", "/") + ".antt")


def head_of_file(place: str) -> str:
    """Returns the comment at the head of a file."""
    lines = []
    for line in file_of(place).read_text(encoding="utf-8").splitlines():
        if not line.startswith("--"):
            break
        lines.append(line[2:].strip())
    return " ".join(lines)


def place_of(one: specs.Definition) -> str:
    """Returns the file and the line at which a definition begins."""
    return f"{'/'.join(one.place.split('.')[1:])}.antt:{one.line}"


def worked_cases(functions: list[Function]) -> Iterator[str]:
    if functions:
        yield "<h2>Worked cases</h2>\n<ul>"
        for one in functions:
            comment = f": {said(one.comment)}" if one.comment else ""
            yield f'<li><code>{html.escape(one.shown)}</code>{comment} <span class="place">{one.place}</span></li>'
        yield "</ul>"


def table(text: str) -> Iterator[str]:
    """Yields a table of a page as HTML."""
    rows = [line.strip("|").split("|") for line in text.splitlines()]
    yield "<table>"
    for number, row in enumerate(rows):
        tag = "td" if number else "th"
        if number != 1:
            yield "<tr>" + "".join(f"<{tag}>{said(cell.strip())}</{tag}>" for cell in row) + "</tr>"
    yield "</table>"


def write_page(path: Path, title: str, parts: Iterable[str]) -> None:
    body = "\n".join(parts)
    path.write_text(f'<!DOCTYPE html>\n<html lang="en">\n<head>\n<meta charset="utf-8">\n<title>{title}: life</title>\n'
                    f'<meta name="viewport" content="width=device-width, '
                    f'initial-scale=1">\n<style>{STYLE}</style>\n</head>\n<body>\n'
                    '<nav aria-label="Pages"><a href="../index.html">life</a><a href="index.html">clauses and definitions</a><a '
                    'href="names.html">names</a></nav>\n'
                    f"<main>\n{body}\n</main>\n</body>\n</html>\n", encoding="utf-8")


def write_clauses(folder: Path) -> int:
    """Writes all pages into a new folder in place of the old one, and returns the number of crates."""
    shutil.rmtree(folder, ignore_errors=True)
    folder.mkdir(parents=True)
    return Pages(all_public()).write(folder)


def main() -> int:
    folder = Path(sys.argv[1])
    crates = write_clauses(folder)
    print(f"{crates} crates, from {folder / 'index.html'} on")
    return 0


if __name__ == "__main__":
    sys.exit(main())
