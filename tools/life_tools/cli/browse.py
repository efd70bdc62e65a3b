"""Opens a window on a book in a web browser of this machine. It only looks, and
posts nothing.

    life-tools browse
    life-tools browse --folder ~/books/main --port 0

It prints the address to open. The journal is opened for reading and copied to
a private folder, which goes away with the window; Ctrl-C ends it. Only this
machine can reach it; from another one come by `ssh -L`, as its page explains.

The status is 0 once the window was ended, or 2 if it could not be opened.
"""
from __future__ import annotations

import argparse
import os

from life_tools.books.lists import ListedBook, books_at
from life_tools.common.formats import Wrong, demand, number_of
from life_tools.tables.basis import NAME
from life_tools.window.opened import browse

PORT = 7001


def arguments(parser: argparse.ArgumentParser) -> None:
    which = parser.add_mutually_exclusive_group()
    which.add_argument("--folder", metavar="FOLDER", default=".", help="where journal.life, the basis and the tables lie (.)")
    which.add_argument("--books", metavar="LIST", help="a list of books, as `books` takes it")
    parser.add_argument("--basis", metavar="NAME", default="basis.csv", help="the basis file in the folder (basis.csv)")
    parser.add_argument("--port", metavar="N", default=str(PORT), help=f"the port, 1024 to 65535, or 0 for a free one ({PORT})")
    parser.add_argument("--life", metavar="PROGRAM", help="the program to ask")


def port_in(text: str) -> int:
    port = number_of(text, 0, 65535)
    if port is None or 0 < port < 1024:
        raise Wrong(f"--port {text}: 0, or 1024 to 65535 is wanted")
    return port


def run(options: argparse.Namespace) -> int:
    port = port_in(options.port)
    demand(NAME.fullmatch(options.basis), f"{options.basis} is no name of a basis file")
    if options.life:
        # the tools and runs that the window starts find the same program
        demand(os.path.isfile(options.life), f"{options.life} is no program")
        os.environ["LIFE_PROGRAM"] = os.path.abspath(options.life)
    folder = os.path.realpath(options.folder)
    books = books_at(options.books) if options.books else [ListedBook(os.path.basename(folder) or "book", folder, options.basis)]
    for book in books[:1] if not options.books else []:
        demand(os.path.isfile(book.journal), f"{os.path.join(options.folder, 'journal.life')}: No such file or directory")
    return browse(books, port)
