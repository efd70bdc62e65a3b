"""Collects what is public: the functions of each crate, and the definitions under the clauses of the program and of the other
crates."""
from dataclasses import dataclass

from . import specs, statements
from .cases import Texts
from .source import Function, crates_of_the_program, public_functions

PROGRAM = ("life_app", "life_cli")


@dataclass
class Public:
    """The texts, the public functions with clauses of each crate, the definitions under the program's clauses, and all others."""

    texts: Texts
    functions: dict[str, list[Function]]
    promise: set[str]
    others: set[str]


def contracts_under(texts: Texts, functions: list[Function]) -> set[str]:
    """Returns the definitions under the clauses of these functions."""
    named: set[str] = set()
    for one in functions:
        imports = texts.imports[str(one.file)]
        for clause in one.clauses:
            named |= texts.meant(set(specs.WORD.findall(statements.bare(clause.text))), imports)
    return texts.under(named, set())


def all_public() -> Public:
    texts = Texts()
    functions = {crate: [one for one in public_functions(crate) if one.clauses] for crate in crates_of_the_program()}
    under = {crate: contracts_under(texts, [one for one in some if not one.is_worked]) for crate, some in functions.items()}
    promise = set[str]().union(*(under[crate] for crate in PROGRAM if crate in under))
    return Public(texts, functions, promise, set[str]().union(*under.values()) - promise)
