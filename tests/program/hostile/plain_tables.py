"""Reads the mortality table file in a plain way, piece by piece as docs/reference/tables.md describes.

It accepts all files of the profile, some of which are not XML. The checks after the document is read are those of
tools/life_tools/tables/basis.py.
"""
import re

from life_tools.tables.basis import MARK, MOST_DEPTH, BadBasis, Element, SelectTable, Table, table_of

WHITE = b" \t\n\r"
NAME = rb"[A-Za-z_\x80-\xff][A-Za-z_\x80-\xff0-9.:-]*"
ATTRIBUTE = rb"[ \t\n\r]+(" + NAME + rb")[ \t\n\r]*=[ \t\n\r]*(?:\"([^\"<]*)\"|'([^'<]*)')"
DECLARATION = re.compile(rb"<\?xml[ \t\n\r]+[^?]*\?>")
COMMENT = re.compile(rb"<!--.*?-->", re.S)
END = re.compile(rb"</(" + NAME + rb")[ \t\n\r]*>")
START = re.compile(rb"<(" + NAME + rb")((?:" + re.sub(rb"\((?!\?)", b"(?:", ATTRIBUTE) + rb")*)[ \t\n\r]*(/?)>")
TEXT = re.compile(rb"[^<]+")


class Document:
    """The elements of a file, or the place up to which its pieces nest."""

    def __init__(self, data: bytes) -> None:
        self.data, self.at = data, 0
        self.root: Element | None = None
        self.open: list[Element] = []
        self.is_declared, self.is_begun = False, False
        if data.startswith(MARK):
            self.at = len(MARK)
        while self.at < len(data) and self.take():
            pass
        self.is_whole = self.at == len(data) and self.root is not None and not self.open

    def take(self) -> bool:
        """Takes the next piece of the file. Returns whether one could be taken; nothing is taken if the piece may not follow
        here."""
        for piece, taken in ((TEXT, self.text), (DECLARATION, self.declaration), (COMMENT, self.comment), (END, self.end),
                             (START, self.start)):
            found = piece.match(self.data, self.at)
            if found:
                return taken(found)
        return False

    def text(self, found: re.Match[bytes]) -> bool:
        if self.open:
            self.open[-1].text += found[0].decode("latin-1")
            self.at = found.end()
            return True
        white = len(found[0]) - len(found[0].lstrip(WHITE))
        self.at += white
        return white == len(found[0])

    def declaration(self, found: re.Match[bytes]) -> bool:
        if self.is_declared or self.is_begun:
            return False
        self.is_declared, self.at = True, found.end()
        return True

    def comment(self, found: re.Match[bytes]) -> bool:
        self.begin()
        self.at = found.end()
        return True

    def begin(self) -> None:
        """Notes that an element or a comment stands here: no declaration may follow, and the enclosing element isn't plain."""
        self.is_begun = True
        if self.open:
            self.open[-1].is_plain = False

    def end(self, found: re.Match[bytes]) -> bool:
        if not self.open or self.open[-1].name != found[1].decode("latin-1"):
            return False
        self.open.pop()
        self.at = found.end()
        return True

    def start(self, found: re.Match[bytes]) -> bool:
        if (self.root is not None and not self.open) or len(self.open) == MOST_DEPTH:
            return False
        self.begin()
        element = Element(found[1].decode("latin-1"), self.at)
        for name, one, other in re.findall(ATTRIBUTE, found[2]):
            element.attributes.setdefault(name.decode("latin-1"), (one or other).decode("latin-1"))
        if self.open:
            self.open[-1].children.append(element)
        else:
            self.root = element
        if not found[3]:
            self.open.append(element)
        self.at = found.end()
        return True


def read_plain_table(data: bytes, name: str) -> SelectTable | Table | None:
    """Returns the table of a file of this name, or raises `BadBasis` with the first check that applies."""
    document = Document(data)
    if not document.is_whole or document.root is None:
        raise BadBasis(name, document.at, "notdocument")
    return table_of(document.root, name)
