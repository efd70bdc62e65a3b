"""Parses a source into its items: functions with their clauses, types, constants and imports."""
import functools
import textwrap
from collections.abc import Iterator
from dataclasses import dataclass, field
from pathlib import Path

from .tokens import Token, closing, code_of, tokens_of

ROOT = Path(__file__).resolve().parent.parent.parent
CRATES = ROOT / "crates"
TYPES = ("struct", "enum", "union", "type", "trait")
SIDES = ("requires", "ensures")


@dataclass(frozen=True)
class Clause:
    """A clause of a contract: its side, its name, the comment above it, and its text between the braces."""

    side: str
    name: str
    comment: str
    text: str

    @property
    def said(self) -> str:
        """The text without comments, with its lines moved to the left."""
        lines = [line.split(" -- ")[0].rstrip() for line in self.text.splitlines()
                 if not line.strip().startswith(("--", "//"))]
        first, rest = (lines[0].strip(), lines[1:]) if lines else ("", [])
        moved = textwrap.dedent("\n".join(rest)).strip("\n").rstrip()
        if not first:
            return moved.strip()
        return first + ("\n" + textwrap.indent(moved, "    ") if moved.strip() else "")


@dataclass(eq=False)
class Function:
    """A function: its place, what it belongs to (an `impl` or a trait, and of which type), its head, clauses and body."""

    crate: str
    file: Path
    line: int
    kind: str
    owner: str
    trait: str
    name: str
    is_public: bool
    comment: str
    head: list[Token]
    said: str
    clauses: list[Clause]
    body: list[Token]

    @property
    def full(self) -> str:
        return f"{self.crate}::{self.owner}::{self.name}" if self.owner else f"{self.crate}::{self.name}"

    @property
    def shown(self) -> str:
        """The name as a page shows it: `Type::name as Trait`."""
        name = f"{self.owner}::{self.name}" if self.owner else self.name
        return f"{name} as {self.trait}" if self.trait else name

    @property
    def place(self) -> str:
        return f"{self.file.relative_to(CRATES / self.crate).as_posix()}:{self.line}"

    @property
    def is_worked(self) -> bool:
        return "worked" in self.place

    @property
    def parameters(self) -> list[list[Token]]:
        begin = next((at for at, one in enumerate(self.head) if one.text == "("), None)
        return [] if begin is None else arguments(self.head, begin)

    @property
    def has_self(self) -> bool:
        first = self.parameters[0] if self.parameters else []
        before = [one.text for one in first[:next((at for at, one in enumerate(first) if one.text == ":"), len(first))]]
        return "self" in before

    @property
    def is_law(self) -> bool:
        """Whether the function only states something, which means that its body is empty."""
        return not self.body


@dataclass(frozen=True)
class Use:
    """A name that an import brings: the first word of the path, the name there, and the name in this file."""

    first: str
    name: str
    local: str


@dataclass(frozen=True)
class Named:
    """A type, a trait or a constant: its kind, its name, whether it is public, and its tokens."""

    kind: str
    name: str
    is_public: bool
    line: int
    tokens: tuple[Token, ...]


@dataclass
class Source:
    crate: str
    file: Path
    uses: list[Use] = field(default_factory=list)
    ghosts: list[Use] = field(default_factory=list)
    public_modules: list[str] = field(default_factory=list)
    public_uses: list[str] = field(default_factory=list)
    functions: list[Function] = field(default_factory=list)
    named: list[Named] = field(default_factory=list)


def arguments(tokens: list[Token], at: int) -> list[list[Token]]:
    """Returns what stands between the bracket at this place and its closing one, separated at commas; `<` and `>` count as
    brackets, too."""
    found: list[list[Token]] = [[]]
    depth = 0
    for one in tokens[at + 1:closing(tokens, at)]:
        if one.kind == "sign":
            depth += (one.text in "([{<") - (one.text in ")]}>")
        if one.text == "," and depth == 0:
            found.append([])
        else:
            found[-1].append(one)
    return [part for part in found if part]


def used(tokens: list[Token]) -> Iterator[Use]:
    """Yields the names of one `use`; the tokens are those after that word and before the semicolon."""
    def within(part: list[Token], first: str, before: str) -> Iterator[Use]:
        words = [one for one in part]
        path, at = before, 0
        while at < len(words) and words[at].text != "{":
            if words[at].text == "as":
                yield Use(first, path, words[at + 1].text)
                return
            if words[at].text != "::":
                path = words[at].text
                first = first or path
            at += 1
        if at == len(words):
            yield Use(first, path, path)
            return
        for one in arguments(words, at):
            yield from within(one, first, path)
    yield from within(tokens, "", "")


class Parser:
    def __init__(self, crate: str, file: Path, text: str) -> None:
        self.source, self.text = Source(crate, file), text
        self.all = tokens_of(text)
        self.tokens = code_of(self.all)
        self.comments = {one.line: one for one in self.all if one.kind in ("doc", "remark")}
        self.code_lines = {one.line for one in self.tokens}

    def parse(self) -> Source:
        self.items(0, len(self.tokens), ("", "", ""))
        return self.source

    def above(self, line: int, kind: str) -> str:
        """Returns the comment of this kind directly above a line; lines of attributes may stand between them."""
        found: list[str] = []
        line -= 1
        while line > 0 and (line in self.comments and line not in self.code_lines or self.is_attribute(line)):
            if line in self.comments and self.comments[line].kind == kind:
                found.append(self.comments[line].text.lstrip("/!").strip())
            line -= 1
        return " ".join(reversed(found))

    def is_attribute(self, line: int) -> bool:
        lines = self.text.splitlines()
        return lines[line - 1].strip().startswith("#[")

    def items(self, at: int, end: int, owner: tuple[str, str, str]) -> None:
        while at < end:
            at = self.item(at, owner)

    def item(self, at: int, owner: tuple[str, str, str]) -> int:
        """Takes in the item at this place, and returns the place after it."""
        tokens, begin, is_public = self.tokens, at, False
        while tokens[at].text == "#":
            at = closing(tokens, at + (2 if tokens[at + 1].text == "!" else 1)) + 1
            begin = at
        if tokens[at].text == "pub":
            at += 1
            is_public = tokens[at].text != "("
            at = at if is_public else closing(tokens, at) + 1
        while tokens[at].text in ("unsafe", "async") or tokens[at].text == "const" and tokens[at + 1].text == "fn":
            at += 1
        word = tokens[at].text
        if word == "fn":
            return self.function(at, tokens[begin].line, is_public, owner)
        if word in ("impl", "trait"):
            return self.block(at, is_public)
        if word == "mod" and tokens[at + 2].text == "{":
            return self.module(at)
        end = self.end_of(at)
        if word == "mod" and is_public:
            self.source.public_modules.append(tokens[at + 1].text)
        elif word == "use":
            found = list(used(tokens[at + 1:end - 1]))
            self.source.uses += found
            self.source.public_uses += [one.local for one in found if is_public]
        elif word == "ghost" and tokens[at + 1].text == "use":
            self.source.ghosts += used(tokens[at + 2:end - 1])
        elif word in (*TYPES, "const", "static") and not owner[0]:
            self.name(word, at, end, is_public)
        return end

    def name(self, kind: str, at: int, end: int, is_public: bool) -> None:
        part = tuple(self.tokens[at:end])
        self.source.named.append(Named(kind, self.tokens[at + 1].text, is_public, self.tokens[at].line, part))

    def end_of(self, at: int) -> int:
        """Returns the place after an item that ends with a semicolon, or with its braces if it is a type or a macro."""
        tokens = self.tokens
        has_body = tokens[at].text not in ("const", "static", "type", "use", "ghost")
        while tokens[at].text != ";":
            if tokens[at].text in ("(", "[", "{") and tokens[at].kind == "sign":
                is_body = has_body and tokens[at].text == "{"
                at = closing(tokens, at)
                if is_body:
                    return at + 1
            at += 1
        return at + 1

    def module(self, at: int) -> int:
        end = closing(self.tokens, at + 2)
        self.items(at + 3, end, ("", "", ""))
        return end + 1

    def block(self, at: int, is_public: bool) -> int:
        """Takes in an `impl` or a trait with its items, and returns the place after it."""
        tokens = self.tokens
        opening = at
        while tokens[opening].text != "{":
            opening = closing(tokens, opening) + 1 if tokens[opening].text in ("(", "[") else opening + 1
        end = closing(tokens, opening)
        if tokens[at].text == "trait":
            owner = ("trait", tokens[at + 1].text, "")
            self.name("trait", at, end + 1, is_public)
        else:
            owner = ("impl", *owner_of(tokens[at + 1:opening]))
        self.items(opening + 1, end, owner)
        return end + 1

    def function(self, at: int, line: int, is_public: bool, owner: tuple[str, str, str]) -> int:
        tokens, kind, of, trait = self.tokens, *owner
        name, begin = tokens[at + 1].text, at
        while tokens[at].text not in ("{", ";", *SIDES):
            at = closing(tokens, at) + 1 if tokens[at].text in ("(", "[") else at + 1
            if tokens[at].text == "ghost" and tokens[at + 2].text == ":":
                at = closing(tokens, at + 3) + 1
        head, clauses = tokens[begin:at], []
        said = self.text[tokens[begin].at:tokens[at].at].rstrip()
        while tokens[at].text in SIDES:
            clause, at = self.clause(at)
            clauses.append(clause)
        body: list[Token] = []
        if tokens[at].text == "{":
            end = closing(tokens, at)
            body = tokens[at + 1:end]
            at = end
        is_shown = is_public or kind == "trait" or bool(trait)
        self.source.functions.append(Function(self.source.crate, self.source.file, line, kind, of, trait, name, is_shown,
                                              self.above(line, "doc"), head, said, clauses, body))
        return at + 1

    def clause(self, at: int) -> tuple[Clause, int]:
        tokens, begin = self.tokens, at
        at += 1
        while tokens[at].text != "{":
            at += 1
        name = tokens[at - 1].text if tokens[at - 1].kind == "word" and at - 1 > begin else ""
        end = closing(tokens, at)
        text = self.text[tokens[at].at + 1:tokens[end].at]
        return Clause(tokens[begin].text, name, self.above(tokens[begin].line, "remark"), text), end + 1


def owner_of(tokens: list[Token]) -> tuple[str, str]:
    """Returns the type and the trait between `impl` and its brace, without their parameters."""
    names: list[str] = []
    traits: list[str] = []
    depth = 0
    for one in tokens:
        if one.text in ("<", ">"):
            depth += 1 if one.text == "<" else -1
        elif depth == 0 and one.text == "where":
            break
        elif depth == 0 and one.text == "for":
            traits, names = names, []
        elif depth == 0 and one.kind == "word":
            names.append(one.text)
    return names[-1] if names else "", traits[-1] if traits else ""


@functools.lru_cache(maxsize=2048)
def parsed(crate: str, file: Path, text: str) -> Source:
    return Parser(crate, file, text).parse()


def source_of(file: Path) -> Source:
    return parsed(file.relative_to(CRATES).parts[0], file, file.read_text(encoding="utf-8"))


def sources_of(crate: str) -> list[Source]:
    return [source_of(file) for file in sorted((CRATES / crate / "src").glob("**/*.rt"))]


def layers() -> list[tuple[str, list[tuple[str, list[str]]]]]:
    """Returns the headings of crates.txt, each with its crates and the libraries that each crate names."""
    found: list[tuple[str, list[tuple[str, list[str]]]]] = []
    for line in (ROOT / "crates.txt").read_text(encoding="utf-8").splitlines():
        head, colon, rest = line.partition("#")[0].partition(":")
        if line.startswith("# ") and line[2:3].isdigit():
            found.append((line[2:], []))
        elif colon:
            found = found or [("", [])]
            found[-1][1].append((head.split()[0], rest.split()))
    return found


def libraries() -> dict[str, list[str]]:
    """Returns the libraries on which each crate of crates.txt stands."""
    return {crate: names for _, crates in layers() for crate, names in crates}


def crates_of_the_program() -> list[str]:
    """Returns the crates in the order of crates.txt, without those of tests."""
    return [crate for crate in libraries() if not crate.endswith("_tests")]


def public_functions(crate: str) -> list[Function]:
    """Returns the functions that a crate makes public: by its `pub mod`, or by a name in its `pub use`."""
    sources = sources_of(crate)
    library = next((one for one in sources if one.file.name == "lib.rt" and one.file.parent.name == "src"), None)
    if library is None:
        return [one for source in sources for one in source.functions if one.is_public]
    names = set(library.public_uses)
    folder = library.file.parent
    shown = {file for module in library.public_modules for file in
             (folder / f"{module}.rt", *(folder / module).glob("**/*.rt"))}
    return [one for source in sources for one in source.functions
            if one.is_public and (source.file in shown or (one.owner or one.name) in names)]
