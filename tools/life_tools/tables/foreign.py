"""Reads tables as others write them into a tree of elements: XTbML in any encoding, with DOCTYPE, CDATA, prefixes and references.

What the program does not take is left out of the tree, and noted as a change. Nothing outside the file is read. A file that
declares an entity is refused, because an entity could expand to any length.
"""
from __future__ import annotations

import re
from dataclasses import dataclass, field
from typing import Iterator
from xml.parsers import expat
from xml.sax.saxutils import escape, quoteattr

from life_tools.common.formats import Wrong, demand, read_whole
from life_tools.tables.basis import MARK, MOST_DEPTH, SIXTEEN, WHITE, Element

MOST_BYTES = 16 * 2**20
MOST_ELEMENTS = 200_000
REFERENCE = re.compile(rb"&#?[A-Za-z0-9]+;")


@dataclass
class Document:
    """A file's root element, and a sentence for each kind of thing that was left out of the tree."""

    root: Element
    changes: list[str] = field(default_factory=list)


def local(name: str) -> str:
    return name.rpartition(":")[2]


class ForeignReader:
    """Builds the elements of a document without prefixes, and counts what it leaves out."""

    def __init__(self, data: bytes) -> None:
        self.parser = expat.ParserCreate()
        self.open: list[Element] = []
        self.root: Element | None = None
        self.elements = self.comments = self.sections = self.instructions = 0
        self.prefixes: set[str] = set()
        self.doctype = ""
        self.encoding = ""
        self.prepare()
        try:
            self.parser.Parse(data, True)
        except expat.ExpatError as error:
            raise Wrong(f"it is no XML: {error}") from error
        except (LookupError, ValueError) as error:
            raise Wrong(f"its encoding can't be read: {error}") from error

    def prepare(self) -> None:
        parser = self.parser
        parser.buffer_text = True
        parser.StartElementHandler = self.start
        parser.EndElementHandler = lambda _: self.open.pop()
        parser.CharacterDataHandler = self.characters
        parser.CommentHandler = self.count_comment
        parser.StartCdataSectionHandler = self.count_section
        parser.ProcessingInstructionHandler = self.count_instruction
        parser.StartDoctypeDeclHandler = self.see_doctype
        parser.EntityDeclHandler = self.refuse_entity
        parser.XmlDeclHandler = self.see_declaration

    def start(self, name: str, attributes: dict[str, str]) -> None:
        self.elements += 1
        demand(self.elements <= MOST_ELEMENTS, f"it has more than {MOST_ELEMENTS} elements")
        demand(len(self.open) < MOST_DEPTH, f"its elements lie more than {MOST_DEPTH} deep")
        if ":" in name:
            self.prefixes.add(name.partition(":")[0])
        kept = {local(key): value for key, value in attributes.items() if local(key) == key and key != "xmlns"}
        element = Element(local(name), self.parser.CurrentLineNumber, kept)
        if self.open:
            self.open[-1].children.append(element)
        else:
            self.root = element
        self.open.append(element)

    def characters(self, text: str) -> None:
        if self.open:
            self.open[-1].text += text

    def count_comment(self, _: str) -> None:
        self.comments += 1

    def count_section(self) -> None:
        self.sections += 1

    def count_instruction(self, *_: str) -> None:
        self.instructions += 1

    def see_doctype(self, name: str, *_: object) -> None:
        self.doctype = name

    def refuse_entity(self, name: str, *_: object) -> None:
        raise Wrong(f"it declares the entity {name[:40]}, which isn't followed")

    def see_declaration(self, _: str, encoding: str | None, __: int) -> None:
        self.encoding = encoding or ""

    def left_out(self) -> Iterator[str]:
        if self.doctype:
            yield f"the DOCTYPE {self.doctype[:40]} is dropped"
        if self.sections:
            yield f"CDATA sections: {self.sections}, whose text stands plain"
        if self.instructions:
            yield f"processing instructions: {self.instructions}, dropped"
        if self.prefixes:
            yield f"prefixes are dropped: {', '.join(sorted(self.prefixes))}"
        if self.comments:
            yield f"comments: {self.comments}, dropped"


def document_of(data: bytes) -> Document:
    reader = ForeignReader(data)
    assert reader.root
    changes = list(reader.left_out())
    if data[:2] in SIXTEEN:
        changes.insert(0, "UTF-16 is written as UTF-8")
    elif reader.encoding.lower() not in ("", "utf-8", "ascii", "us-ascii"):
        changes.insert(0, f"{reader.encoding[:40]} is written as UTF-8")
    references = len(REFERENCE.findall(data))
    if references:
        changes.append(f"references: {references}, of which the characters stand in their place")
    return Document(reader.root, changes)


def document_at(path: str) -> Document:
    return read_whole(path, MOST_BYTES, document_of)


# --- as text ---

def plain(text: str) -> str:
    """Returns a text escaped, so that no `<` remains in it; the program skips such text."""
    return escape(text.strip(WHITE))


def lines_of(element: Element, depth: int = 0) -> Iterator[str]:
    """Yields the lines of an element and its children, one element on a line; texts other than rates and labels are kept."""
    indent = "  " * depth
    attributes = "".join(f" {name}={quoteattr(value)}" for name, value in element.attributes.items())
    if not element.children:
        text = plain(element.text)
        yield f"{indent}<{element.name}{attributes}>{text}</{element.name}>" if text else f"{indent}<{element.name}{attributes}/>"
        return
    yield f"{indent}<{element.name}{attributes}>{plain(element.text)}"
    for child in element.children:
        yield from lines_of(child, depth + 1)
    yield f"{indent}</{element.name}>"


def bytes_with(root: Element) -> bytes:
    """Returns the bytes of a document's file as the program takes it."""
    return ("<?xml version=\"1.0\" encoding=\"utf-8\"?>\n" + "\n".join(lines_of(root)) + "\n").encode("utf-8").removeprefix(MARK)
