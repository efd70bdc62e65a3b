"""The one entry `life-tools NAME …`: which module answers each name."""
from __future__ import annotations

import argparse
import gc
import importlib
import sys
from typing import Sequence

from life_tools.common.packages import see
from life_tools.common.streams import ended, take_standard_streams

# name -> the module of life_tools.cli that runs it, and what it does, in one line
ENTRIES: dict[str, tuple[str, str]] = {
    "day": ("day", "post the files of the inbox, and keep what came of each row"),
    "log": ("log", "who posted what, when, from which file, and who released it"),
    "check": ("check", "look a script over before it is sent"),
    "due": ("due", "what is due on a day: premiums, lapses, maturities, reinstatements, settlements"),
    "import": ("import_book", "a CSV of another system as a script of issues and premiums"),
    "books": ("books", "many books as one: values, positions, reports, statements, division"),
    "why": ("why", "work one row of a valuation out, as a colleague would read it"),
    "value": ("value", "a valuation, by one basis or by one for each class of lives"),
    "report": ("report", "a valuation by plan, status, issue year, age or basis row, added up exactly"),
    "movement": ("movement", "what moved between two valuations, line by line, adding up exactly"),
    "statement": ("statement", "the sheets of a statement between two moments, each adding up to what the program prints"),
    "dry-run": ("dry_run", "run a script on a copy of the journal, and print its transcript"),
    "rest": ("rest", "the rows of a script that a killed run did not reach"),
    "explain": ("explain", "explain a refusal of a script or of a basis, or what is taken of a table"),
    "at": ("at", "state, value or project of the book as it stood at a position"),
    "position-on": ("position_on", "the position of a day"),
    "verify": ("verify", "whether a journal's file is whole"),
    "headroom": ("headroom", "how many commands a book has left, and until when"),
    "read": ("read", "list the records of a journal"),
    "read-checkpoint": ("read_checkpoint", "print the books in a checkpoint, and compare them with a journal's"),
    "export": ("export", "a journal as CSV, as JSON lines, or as an SQLite file"),
    "check-transcript": ("check_transcript", "judge what a run printed, and what it left in the journal"),
    "check-values": ("check_values", "work the rows of a printed valuation out anew, and compare"),
    "check-projection": ("check_projection", "work the years of a printed projection out anew, and compare"),
    "generate": ("generate", "a drawn script, with its policies numbered from a number on"),
    "plot": ("plot", "draw printed valuations, a printed book or a printed projection"),
    "audit": ("audit", "for auditors: doubtful postings, a sample, papers and letters"),
    "table": ("table", "look at a table's file, or convert, round or join tables"),
    "backup": ("backup", "copy to a second place what the book has more than its copy there"),
    "restore": ("restore", "make a book of such a copy, and verify it"),
    "seal": ("seal", "a seal of the book and its basis, and whether they changed since"),
    "browse": ("browse", "a window on a book, in a web browser of this machine"),
    "version": ("version", "version, revision, and whether program and tools belong together"),
}

# entries that read in bulk, and need numpy
BY_NUMPY = {"audit", "books", "browse", "check", "day", "due", "export", "headroom", "log", "movement", "position-on", "read",
            "read-checkpoint", "report", "rest", "statement", "why"}


def parser_of(names: Sequence[str]) -> argparse.ArgumentParser:
    """Returns the parser of all entries.

    Only the modules of the named ones are imported, since some need packages of their own.
    """
    parser = argparse.ArgumentParser(prog="life-tools", description="The work around `life`. Each name has --help, with an "
                                     "example. The status is 0 if all is well, 1 if something is reported, 2 if it could not "
                                     "be done.")
    entries = parser.add_subparsers(dest="entry", metavar="NAME", required=True)
    for name, (module, does) in ENTRIES.items():
        entry = entries.add_parser(name, help=does, description=does, formatter_class=argparse.RawDescriptionHelpFormatter)
        if name in names:
            if name in BY_NUMPY:
                see("numpy", "python3-numpy")
            answers = importlib.import_module(f"life_tools.cli.{module}")
            entry.description = answers.__doc__
            answers.arguments(entry)
            entry.set_defaults(run=answers.run)
    return parser


def asked_for(given: list[str]) -> list[str]:
    """Returns the arguments; `help`, `help NAME` and no argument at all become --help."""
    if given[:1] in ([], ["help"]):
        return [*given[1:2], "--help"]
    return given


def main(words: Sequence[str] | None = None) -> int:
    """Runs an entry. Returns 0 if all is well, 1 if something was found wrong, 2 if it could not be done."""
    given = list(sys.argv[1:] if words is None else words)
    # millions of rows make no reference cycles, and searching them for cycles takes as long as making them
    gc.disable()
    take_standard_streams()

    def run() -> int:
        asked = asked_for(given)
        options = parser_of(asked[:1]).parse_args(asked)
        status: int = options.run(options)
        return status

    return ended(given[0] if given else "", run)
