"""Translates functions of the sources to generators of Python, which stop before each access to what threads share.

Only the part of the language is known in which such functions are written; of anything else, ValueError is raised. A value of
an enum is a tuple that begins with the variant's name, a struct is a Record, and a reference is the value itself.
"""
from __future__ import annotations

import copy
import itertools
import keyword
from collections.abc import Callable, Generator, Iterator
from contextlib import contextmanager
from typing import Any

from tests.language.source import Function
from tests.language.tokens import Token

Steps = Generator[Any, Any, Any]
# the operators of two operands, the loosest first
LOOSEST = (("..",), ("||",), ("&&",), ("==", "!=", "<", ">", "<=", ">="), ("|",), ("&",), ("<<",), ("+", "-"), ("*", "/", "%"))
# how a value begins that is a block, or that has blocks
BLOCKS = ("if", "match", "for", "{")
# what both languages write in one way
WORDS = ("if", "else", "for", "in", "return", "as", "None")
CLOSING = {"(": ")", "[": "]", "{": "}", "<": ">"}


def unlike_python(text: str) -> str:
    """Returns a word of the language as a name that Python has no other use for."""
    return text + "_" if keyword.iskeyword(text) and text not in WORDS else text


class Record:
    """A value of a struct; `kind` is its name."""

    def __init__(self, kind: str, **fields: Any) -> None:
        self.kind = kind
        self.__dict__.update(fields)

    def __eq__(self, other: object) -> bool:
        return isinstance(other, Record) and vars(self) == vars(other)

    def __hash__(self) -> int:
        return hash(tuple(vars(self).values()))

    def __copy__(self) -> Record:
        return Record(**{name: copied(value) for name, value in vars(self).items()})


def copied(value: Any) -> Any:
    """Returns a copy of all records in a value."""
    if isinstance(value, tuple):
        return tuple(map(copied, value))
    return copy.copy(value) if isinstance(value, Record) else value


class Body:
    """The translation of one function: its lines, and the place in its tokens up to which it is translated."""

    def __init__(self, function: Function, constants: dict[str, int]) -> None:
        self.owner, self.constants = function.owner, constants
        self.tokens: list[str] = ["{", *(unlike_python(one.text) for one in function.body), "}", ""]
        self.at, self.lines, self.depth, self.names = 0, list[str](), 1, itertools.count()
        self.put(f"return {self.block()}")
        self.put("yield")

    @property
    def now(self) -> str:
        # a shift is two tokens
        two = self.tokens[self.at:self.at + 2]
        return "<<" if two == ["<", "<"] else two[0]

    def is_next(self, *texts: str) -> bool:
        """Takes this text, if it is one of these; returns whether it was."""
        if self.now not in texts:
            return False
        self.at += len(self.now) if self.now == "<<" else 1
        return True

    def take(self, text: str = "") -> str:
        found = self.now
        if not self.is_next(text or found):
            raise ValueError(f"it is {' '.join(self.tokens[self.at:self.at + 9])}, and not {text}")
        return found

    def put(self, line: str) -> None:
        self.lines.append("    " * self.depth + line)

    @contextmanager
    def under(self, head: str) -> Iterator[None]:
        """Puts the lines that follow below this head."""
        self.put(head)
        self.depth += 1
        before = len(self.lines)
        yield
        if len(self.lines) == before:
            self.put("pass")
        self.depth -= 1

    def new(self, value: str) -> str:
        """Puts a value into a variable of its own, and returns that; a name and a number stay what they are."""
        if value.replace("_", "").isalnum():
            return value
        name = f"it_{next(self.names)}"
        self.put(f"{name} = {value}")
        return name

    def listed(self, one: Callable[[], str], begin: str) -> list[str]:
        """Returns what stands between brackets, separated at commas."""
        self.take(begin)
        found = []
        while not self.is_next(CLOSING[begin]):
            found.append(one())
            self.is_next(",")
        return found

    def skip_types(self) -> None:
        depth = 0
        while depth or self.now == "<":
            depth += {"<": 1, ">": -1}.get(self.take(), 0)

    def block(self) -> str:
        """Translates a block, and returns its value."""
        self.take("{")
        value = "None"
        while not self.is_next("}"):
            value = self.statement()
        return value

    def statement(self) -> str:
        if self.is_next(";"):
            return "None"
        if self.is_next("let"):
            return self.binding()
        if self.is_next("return"):
            self.put(f"return {'None' if self.now == ';' else self.value()}")
            return "None"
        has_block, value, sign = self.now in BLOCKS, self.value(), self.now
        if self.is_next("=", "+=", "-="):
            right = self.value()
            is_whole = value.isidentifier() and sign == "="
            self.put(f"{value}.__dict__.update(vars({right}))" if is_whole else f"{value} {sign} {right}")
        if self.is_next(";"):
            return "None"
        if self.now != "}" and not has_block:
            raise ValueError(f"{self.now} stands after a value")
        return value

    def binding(self) -> str:
        pattern = self.pattern()
        if self.is_next(":"):
            self.take()
            self.skip_types()
        self.take("=")
        value = self.value()
        if pattern.isidentifier():
            self.put(f"{pattern} = {value}")
        else:
            with self.under(f"match {value}:"):
                self.put(f"case {pattern}: pass")
                if self.is_next("else"):
                    with self.under("case _:"):
                        self.block()
        self.take(";")
        return "None"

    def pattern(self) -> str:
        while self.is_next("mut", "&"):
            pass
        if self.now == "(":
            return f"({''.join(one + ', ' for one in self.listed(self.pattern, '('))})"
        name = self.take()
        while self.is_next("::"):
            name += "::" + self.take()
        if self.now == "{":
            return f"Record({', '.join(self.listed(self.field_pattern, '{'))})"
        if not name[0].isupper():
            return {"true": "True", "false": "False"}.get(name, name)
        inner = self.listed(self.pattern, "(") if self.now == "(" else []
        return f"({repr(name)}, {''.join(one + ', ' for one in inner)})"

    def field_pattern(self) -> str:
        self.is_next("mut")
        name = self.take()
        return f"{name}={self.pattern() if self.is_next(':') else name}"

    def value(self, may_be_struct: bool = True, looseness: int = 0) -> str:
        if looseness == len(LOOSEST):
            return self.converted(may_be_struct)
        left = self.value(may_be_struct, looseness + 1)
        while (sign := self.now) in LOOSEST[looseness] and self.is_next(sign):
            left = self.joined(self.new(left), sign, may_be_struct, looseness + 1)
        return left

    def joined(self, left: str, sign: str, may_be_struct: bool, looseness: int) -> str:
        if sign in ("&&", "||"):
            both = self.new(f"({left})")
            with self.under(f"if {both}:" if sign == "&&" else f"if not {both}:"):
                self.put(f"{both} = {self.value(may_be_struct, looseness)}")
            return both
        right = self.value(may_be_struct, looseness)
        return f"range({left}, {right})" if sign == ".." else f"({left} {sign.replace('/', '//')} {right})"

    def converted(self, may_be_struct: bool) -> str:
        if self.is_next("!"):
            return f"(not {self.converted(may_be_struct)})"
        if self.is_next("&", "*"):
            self.is_next("mut")
            return self.converted(may_be_struct)
        value = self.parts(self.simple(may_be_struct))
        while self.is_next("as"):
            self.take()
        return value

    def parts(self, value: str) -> str:
        """Translates the calls, fields and places after a value."""
        while self.now in (".", "["):
            if self.now == "[":
                value = f"{value}[{self.listed(self.value, '[')[0]}]"
                continue
            self.take()
            name = self.take()
            if self.is_next("::"):
                self.skip_types()
            value = self.call(f"method({self.new(value)}, {name!r}, ") if self.now == "(" else f"{value}.{name}"
        return value

    def call(self, head: str) -> str:
        given = [self.new(one) for one in self.listed(self.value, "(")]
        return self.new(f"yield from {head}{', '.join(given)})")

    def simple(self, may_be_struct: bool) -> str:
        if self.now in BLOCKS:
            return {"if": self.choice, "match": self.cases, "for": self.loop, "{": self.block}[self.now]()
        if self.now in ("(", "["):
            parts = self.listed(self.value, self.now)
            return parts[0] if len(parts) == 1 else f"({', '.join(parts)})" if parts else "None"
        name = self.take()
        if not (name[0].isalnum() or name[0] == "_"):
            raise ValueError(f"{name} stands in the place of a value")
        while self.is_next("::"):
            self.skip_types()
            name += "" if self.now == "(" else "::" + self.take()
        return self.named(name.replace("Self", self.owner), may_be_struct)

    def named(self, name: str, may_be_struct: bool) -> str:
        if self.is_next("!"):
            self.listed(self.value, "(")
            return self.new("yield from impossible()")
        if self.now == "(":
            return self.call(f"called({name!r}, ")
        if self.now == "{" and may_be_struct and name[0].isupper():
            return self.new(f"Record({name!r}, {', '.join(self.listed(self.field, '{'))})")
        if name in self.constants:
            return str(self.constants[name])
        if name[0].isupper():
            return self.new(f"({name!r},)")
        return {"true": "True", "false": "False"}.get(name, name)

    def field(self) -> str:
        name = self.take()
        return f"{name}=copied({self.value() if self.is_next(':') else name})"

    def choice(self) -> str:
        """Translates `if`, with `let` or without, and with what stands after `else`."""
        self.take("if")
        result = self.new("(None)")
        if self.is_next("let"):
            pattern = self.pattern()
            self.take("=")
            with self.under(f"match {self.value(False)}:"):
                with self.under(f"case {pattern}:"):
                    self.put(f"{result} = {self.block()}")
                with self.under("case _:"):
                    self.otherwise(result)
            return result
        with self.under(f"if {self.value(False)}:"):
            self.put(f"{result} = {self.block()}")
        with self.under("else:"):
            self.otherwise(result)
        return result

    def otherwise(self, result: str) -> None:
        if self.is_next("else"):
            self.put(f"{result} = {self.choice() if self.now == 'if' else self.block()}")

    def cases(self) -> str:
        self.take("match")
        result = self.new("(None)")
        with self.under(f"match {self.value(False)}:"):
            self.listed(lambda: self.case(result), "{")
        return result

    def case(self, result: str) -> str:
        with self.under(f"case {self.pattern()}:"):
            self.take("=>")
            self.put(f"{result} = {self.value()}")
        return ""

    def loop(self) -> str:
        """Translates a loop; its place is a variable, so that it belongs to the state of the thread."""
        self.take("for")
        pattern = self.pattern()
        self.take("in")
        items, at = self.new(f"({self.value(False)})"), self.new("(-1)")
        with self.under(f"while {items} is FOREVER or {at} + 1 < len({items}):"):
            with self.under(f"if {items} is not FOREVER:"):
                self.put(f"{at} += 1")
                self.put(f"{pattern} = {items}[{at}]")
            self.block()
        return "None"


def parameter(tokens: list[Token]) -> str:
    """Returns the name of a parameter."""
    texts = [unlike_python(one.text) for one in tokens]
    return "self" if ":" not in texts else texts[texts.index(":") - 1]


def translated(function: Function, constants: dict[str, int]) -> str:
    """Returns the text of a function as one of Python, named `translated`."""
    head = ", ".join(map(parameter, function.parameters))
    return "\n".join([f"def translated({head}):", *Body(function, constants).lines])
