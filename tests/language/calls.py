"""Finds which public functions of the program `main` reaches, from the texts of the sources.

A function is reached if reached code names it. A method is reached if reached code calls a method of its name with as many
arguments, its type is named by reached code, and the calling file knows the type: the file names the type, or something that it
names has the type in its fields or its head. A method of a trait is also reached through its trait, or if its trait comes from
outside the program. Types aren't inferred: if a file knows two types, a call of a method that both have reaches both methods.
"""
from collections import defaultdict
from collections.abc import Iterable, Iterator
from dataclasses import dataclass
from pathlib import Path

from .source import Function, Source, arguments, crates_of_the_program, public_functions, sources_of
from .tokens import Token


@dataclass(frozen=True)
class Call:
    """A name in a body: what stands before it, and how many arguments follow it; -1 if none are written."""

    name: str
    before: str
    arguments: int


def calls_in(body: list[Token]) -> Iterator[Call]:
    """Yields the lower-case names of a body, each with what stands before it: `.`, the word before `::`, or nothing."""
    for at, one in enumerate(body):
        if one.kind != "word" or not (one.text[0].islower() or one.text[0] == "_"):
            continue
        mark = body[at - 1].text if at else ""
        before = path_before(body, at) if mark == "::" else mark if mark == "." else ""
        after = at + 1
        if after + 1 < len(body) and body[after].text == "::" and body[after + 1].text == "<":
            after = after_angles(body, after + 1)
        has_arguments = after < len(body) and body[after].text == "("
        yield Call(one.text, before, len(arguments_of(body, after)) if has_arguments else -1)


def path_before(body: list[Token], at: int) -> str:
    """Returns the word before the `::` that precedes this place; type arguments in angle brackets are skipped."""
    place = at - 2
    if place >= 0 and body[place].text == ">":
        depth = 0
        while place >= 0:
            depth += (body[place].text == ">") - (body[place].text == "<")
            place -= 1
            if depth == 0:
                break
        if place >= 0 and body[place].text == "::":
            place -= 1
    return body[place].text if place >= 0 else ""


def after_angles(body: list[Token], at: int) -> int:
    depth = 0
    while at < len(body):
        depth += (body[at].text == "<") - (body[at].text == ">")
        at += 1
        if depth == 0:
            break
    return at


def arguments_of(body: list[Token], at: int) -> list[list[Token]]:
    """Returns the arguments of a call. A comma between `<` and `>` can't be distinguished from one between two comparisons; it
    is counted as one that separates arguments."""
    found: list[list[Token]] = [[]]
    depth = 0
    for one in body[at:]:
        depth += (one.text in ("(", "[", "{")) - (one.text in (")", "]", "}")) if one.kind == "sign" else 0
        if depth == 0:
            break
        if one.text == "|" and depth == 1 and not found[-1]:
            # the parameters of a closure have commas of their own
            return arguments(body, at)
        if one.text == "," and depth == 1:
            found.append([])
        elif not (one.text == "(" and depth == 1 and found == [[]]):
            found[-1].append(one)
    return [part for part in found if part]


def words_of(tokens: Iterable[Token]) -> set[str]:
    return {one.text for one in tokens if one.kind == "word"}


# A type by its crate and its name.
Key = tuple[str, str]


class Program:
    """All sources of the program's crates, and what `main` reaches in them."""

    def __init__(self, sources: Iterable[Source]) -> None:
        self.sources = {one.file: one for one in sources}
        self.functions = [one for source in self.sources.values() for one in source.functions]
        self.crates = {source.crate for source in self.sources.values()}
        self.brought = {file: {use.local: use for use in source.uses} for file, source in self.sources.items()}
        self.types: dict[Key, tuple[Path, set[str]]] = {}
        self.named: dict[str, set[Key]] = defaultdict(set)
        self.traits: set[Key] = set()
        for source in self.sources.values():
            for one in source.named:
                if one.kind not in ("const", "static"):
                    key = (source.crate, one.name)
                    self.types[key] = (source.file, words_of(one.tokens))
                    self.named[one.name].add(key)
                    if one.kind == "trait":
                        self.traits.add(key)
        self.heads: dict[str, list[Function]] = defaultdict(list)
        for each in self.functions:
            self.heads[each.name].append(each)
        self.known: dict[Path, set[Key]] = {}
        self.mentioned: set[Key] = set()
        self.called: dict[str, set[tuple[Path, str, int]]] = defaultdict(set)
        self.reached: set[Function] = set()

    def meant(self, file: Path, name: str) -> set[Key]:
        """Returns the types of the program that a name can mean in a file: a type that the file imports, or one of its own
        crate."""
        use = self.brought[file].get(name)
        crate = self.sources[file].crate
        if use is None or use.first in ("crate", "super", "self"):
            own = (crate, use.name if use else name)
            return {own} if own in self.types else self.named[name] if use else set()
        if use.first not in self.crates:
            return set()
        return {(use.first, use.name)} if (use.first, use.name) in self.types else self.named[use.name]

    def closed(self, some: Iterable[Key]) -> set[Key]:
        """Returns these types, and the types that they are made of."""
        found: set[Key] = set()
        left = set(some)
        while left:
            key = left.pop()
            if key not in found:
                found.add(key)
                file, words = self.types[key]
                left |= {one for word in words for one in self.meant(file, word)}
        return found

    def known_to(self, file: Path) -> set[Key]:
        """Returns the types that a file knows: those that it names, those that these are made of, and those in the heads of
        the functions that it calls on them."""
        if file not in self.known:
            source = self.sources[file]
            said = {word for one in source.functions for word in words_of(one.head) | words_of(one.body) | {one.owner}}
            said |= {word for named in source.named for word in words_of(named.tokens)} | set(self.brought[file])
            known = self.closed(key for word in said for key in self.meant(file, word))
            left = [one for word in said for one in self.heads.get(word, ())]
            while True:
                called = [one for one in left if self.may_call(file, one, known)]
                if not called:
                    break
                left = [one for one in left if one not in called]
                known |= self.closed(key for one in called for word in words_of(one.head) for key in self.meant(one.file, word))
            self.known[file] = known
        return self.known[file]

    def may_call(self, file: Path, one: Function, known: set[Key]) -> bool:
        """Returns whether a file that names a function may mean this one: it knows the function's type, or imports the
        function."""
        if one.owner:
            return bool(self.meant(one.file, one.owner) & known)
        return one.name in self.brought[file] or one.crate == self.sources[file].crate

    def reach(self, main: Function) -> None:
        """Adds everything that `main` reaches, until nothing new is found."""
        self.take(main)
        found = True
        while found:
            new = [one for one in self.functions if one not in self.reached and self.is_met(one)]
            found = bool(new)
            for one in new:
                self.take(one)

    def is_met(self, one: Function) -> bool:
        """Returns whether a method is called on a type that reached code names, or through its trait."""
        owners = self.meant(one.file, one.owner) if one.owner else set()
        if not owners & self.mentioned:
            return False
        traits = self.meant(one.file, one.trait) if one.trait else set()
        if one.trait and not traits & self.traits:
            return True
        return any(self.is_call_of(one, owners | traits, *call) for call in self.called[one.name])

    def is_call_of(self, one: Function, keys: set[Key], file: Path, before: str, given: int) -> bool:
        if not keys & self.known_to(file):
            return False
        if before == ".":
            return one.has_self and given in (len(one.parameters) - 1, -1)
        meant = self.meant(file, before)
        # a type parameter, the type itself, a name for the type, or one of its traits
        return not meant or bool(keys & self.closed(meant)) or bool(meant & self.traits)

    def take(self, one: Function) -> None:
        self.reached.add(one)
        source = self.sources[one.file]
        words = words_of(one.head) | words_of(one.body) | {one.owner}
        self.mentioned |= self.closed({key for word in words for key in self.meant(one.file, word)} - self.mentioned)
        for call in calls_in(one.body):
            before = one.owner if call.before == "Self" else call.before
            if before == "." or before[:1].isupper():
                self.called[call.name].add((one.file, before, call.arguments))
            else:
                self.call(source, call.name, call.arguments >= 0, before)

    def call(self, source: Source, name: str, is_call: bool, module: str) -> None:
        """Takes in a function that is called, or passed on, by a name that the file imports or defines."""
        brought = next((one for one in source.uses if one.local == name), None)
        crate = source.crate if brought is None or brought.first in ("crate", "super", "self") else brought.first
        meant = brought.name if brought else name
        is_here = brought is not None or any(one.name == name and not one.owner for one in source.functions)
        if not (is_here or module and is_call):
            return
        free = [one for one in self.functions if one.name == meant and not one.owner]
        crate = module if module in self.crates else crate
        for one in [one for one in free if one.crate == crate] or free:
            if one not in self.reached:
                self.take(one)


def is_run(one: Function) -> bool:
    """Returns whether a function is there to be run: it isn't a law, whose body is empty, and isn't a worked case."""
    return not one.is_law and "worked" not in one.file.name and "worked" not in one.file.parts


def reached_and_not(changed: Iterable[Source] = ()) -> tuple[set[str], set[str]]:
    """Returns the public functions that `main` reaches and the others, with these sources in place of the files on the disk."""
    crates = [crate for crate in crates_of_the_program() if crate != "measure"]
    others = {one.file: one for one in changed}
    program = Program([others.get(source.file, source) for crate in crates for source in sources_of(crate)])
    program.reach(next(one for one in program.functions if one.name == "main" and one.crate == "life_cli"))
    shown = {(one.file, one.line) for crate in crates for one in public_functions(crate)}
    public = [one for one in program.functions if is_run(one) and one.is_public
              and ((one.file, one.line) in shown or one.file in others)]
    reached = {one.full for one in public if one in program.reached}
    return reached, {one.full for one in public} - reached
