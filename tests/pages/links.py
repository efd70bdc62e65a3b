"""Checks the links of pages in HTML: each leads to an existing file and place, and nothing is fetched from elsewhere."""
import html.parser
import os
import pathlib
import urllib.parse

# what a page would fetch by itself
FETCHED = {"img": "src", "script": "src", "link": "href", "iframe": "src", "object": "data", "source": "src"}


class Page(html.parser.HTMLParser):
    def __init__(self, file: pathlib.Path) -> None:
        super().__init__()
        self.places: set[str] = set()
        self.links: list[tuple[int, str]] = []
        self.fetched: list[tuple[int, str]] = []
        self.twice: list[str] = []
        self.feed(file.read_text(encoding="utf-8"))

    def handle_starttag(self, tag: str, attributes: list[tuple[str, str | None]]) -> None:
        told = {name: value or "" for name, value in attributes}
        if told.get("id"):
            if told["id"] in self.places:
                self.twice.append(told["id"])
            self.places.add(told["id"])
        if tag == "a" and "href" in told:
            self.links.append((self.getpos()[0], told["href"]))
        if tag in FETCHED and FETCHED[tag] in told:
            self.fetched.append((self.getpos()[0], told[FETCHED[tag]]))


def wrong_link(target: str, file: pathlib.Path, pages: dict[pathlib.Path, Page]) -> str | None:
    """Returns why a link of a page leads nowhere, or None if it leads somewhere."""
    parts = urllib.parse.urlsplit(target)
    if parts.scheme or parts.netloc:
        return None
    path = pathlib.Path(os.path.normpath(file.parent / urllib.parse.unquote(parts.path))) if parts.path else file
    if not path.exists():
        return "which isn't there"
    place = urllib.parse.unquote(parts.fragment)
    if place and (path not in pages or place not in pages[path].places):
        return "and there is no such place"
    return None


def wrong_in(file: pathlib.Path, pages: dict[pathlib.Path, Page]) -> list[str]:
    page = pages[file]
    told = [f"the place {place} stands twice" for place in page.twice]
    for line, target in page.fetched:
        parts = urllib.parse.urlsplit(target)
        if parts.scheme not in ("", "data") or parts.netloc:
            told.append(f"{line}: {target} is fetched elsewhere")
    for line, target in page.links + [each for each in page.fetched if not each[1].startswith("data:")]:
        why = wrong_link(target, file, pages)
        if why:
            told.append(f"{line}: a link to {target}, {why}")
    return [f"{file.name}: {each}" for each in told]


def wrong_links(folder: pathlib.Path) -> tuple[int, list[str]]:
    """Returns how many links the pages of a folder have, and those that lead nowhere or are fetched from elsewhere."""
    pages = {file: Page(file) for file in sorted(folder.resolve().rglob("*.html"))}
    return (sum(len(page.links) + len(page.fetched) for page in pages.values()),
            [each for file in pages for each in wrong_in(file, pages)])
