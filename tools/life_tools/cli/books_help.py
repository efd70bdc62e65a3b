"""The help of `books`: all its commands on one screen, or one command with the options that belong to it."""
from __future__ import annotations

import argparse
import sys
from typing import NamedTuple, Sequence

from life_tools.cli.books_own import OPTIONS


class Help(NamedTuple):
    """The arguments of a command after its name, what it does, and an example."""

    arguments: str
    does: str
    example: str


COMMANDS = {
    "value": Help("ON", "a valuation of each book, and the total", "value 2024-12-31 --at positions.csv --totals"),
    "project": Help("ON YEARS", "a projection of each book, and the total", "project 2024-12-31 20 --totals"),
    "state": Help("", "policies and balances of each book, and the total", "state --totals"),
    "checkpoint": Help("", "a checkpoint of each book", "checkpoint"),
    "position-on": Help("DAY", "the position of a day in each book, for --at", "position-on 2024-12-31 > positions.csv"),
    "headroom": Help("", "how many commands are left in each book", "headroom --within 365"),
    "report": Help("ON", "`report` of all books together", "report 2024-12-31 --by plan --csv by-plan"),
    "movement": Help("ON1 ON2", "`movement` of all books together",
                     "movement 2023-12-31 2024-12-31 --from a.csv --at b.csv"),
    "statement": Help("ON1 ON2", "`statement` of all books together",
                      "statement 2023-12-31 2024-12-31 --from a.csv --at b.csv"),
    "due": Help("DAY", "what is due in each book", "due 2024-12-31 --within 30"),
    "flags": Help("", "`audit flags` of each book", "flags"),
    "sample": Help("N", "`audit sample` of the rows of all books", "sample 25 --seed 7 --on 2024-12-31 > sample"),
    "papers": Help("SAMPLE", "`audit papers` of such a sample", "papers sample --html papers.html"),
    "letters": Help("SAMPLE", "`audit letters` of such a sample", "letters sample > letters.csv"),
}
SPLIT = Help("RULE.. FOLDER..", "divides a book: each rule makes one in a new folder",
             "numbers=1-4999 others a b > list")
# options that belong to certain commands, in addition to those of books_own; an option in neither belongs to all commands
PROGRAMS = ("value", "project", "state", "checkpoint")
BELONGS = {"last": ("position-on",), "mean": ("value", "report", "movement", "statement", "sample"),
           "deficiency": ("value", "report", "movement"), "workers": ("value", "project"),
           "scheduler": (*PROGRAMS, "report"), "send": (*PROGRAMS, "report"), "parts": PROGRAMS, "sqlite": PROGRAMS,
           "totals": PROGRAMS, **OPTIONS}


def line_of(command: str, about: Help) -> str:
    words = " ".join(filter(None, (command, about.arguments)))
    return f"  {words:<23}{about.does}"


def general() -> str:
    commands = "\n".join(line_of(name, about) for name, about in COMMANDS.items())
    return f"""usage: life-tools books LIST COMMAND [ARGUMENTS] [OPTIONS]
       life-tools books split JOURNAL {SPLIT.arguments}
       life-tools books LIST COMMAND --help      the options of one command

Works on many books as one. LIST is a CSV with a name, a folder and the name of
a basis file in each row.

commands:
{commands}
{line_of("split", SPLIT)}

Each line begins with the book's name; `all` begins the totals, which end with
the number of books that they are of, and with how many there are. A book that
fails is tried once more, and is then a line `NAME,failed,STATUS,LINE`.

Example: life-tools books books.csv {COMMANDS["value"].example}

The status is 0 if all books were done; 1 if something is reported, such as a
policy's number in two books or a book that may be damaged; that of the first
book that failed; 2 if it could not be done.
"""


def of_command(parser: argparse.ArgumentParser, command: str) -> str:
    """Returns the help of one command with its own options, in the parser's layout."""
    about = SPLIT if command == "split" else COMMANDS[command]
    called = "split JOURNAL" if command == "split" else f"LIST {command}"
    page = parser.formatter_class(prog=parser.prog)
    page.add_text(f"usage: life-tools books {called} {about.arguments} [OPTIONS]".replace("  ", " "))
    page.add_text(about.does[0].upper() + about.does[1:] + ".")
    if command == "split":
        page.add_text("A rule is numbers=1-4999,8001 (5000- goes up to the last), years=1990-1999 (of\n"
                      "issue), class=NAME or others. The program runs each part's lines into a new\n"
                      "journal in memory, and states, valuations and balances are compared before a\n"
                      "folder is made. The old book stays as it was.")
    page.start_section("options")
    page.add_arguments([action for action in parser._actions  # pylint: disable=protected-access
                        if action.option_strings and command in BELONGS.get(action.dest, (command,))
                        and not (command == "split" and action.dest not in BELONGS and action.dest != "help")])
    page.end_section()
    whole = "books split journal.life" if command == "split" else "books books.csv"
    page.add_text(f"Example: life-tools {whole} {about.example}")
    return page.format_help()


def asked(words: Sequence[str]) -> str | None:
    """Returns the command whose help the arguments ask for, or None."""
    return next((word for word in words if word in COMMANDS or word == "split"), None)


def use_for(parser: argparse.ArgumentParser) -> None:
    """Makes the parser print this help."""
    def page() -> str:
        command = asked(sys.argv[1:])
        return of_command(parser, command) if command else general()

    setattr(parser, "format_help", page)
