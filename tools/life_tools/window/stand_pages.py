"""Makes the page of how the book stands, and takes the newest position."""
from __future__ import annotations

import getpass
import os
import socket

from life_tools.common.formats import MOST_COMMANDS
from life_tools.window.asked import Asked
from life_tools.reports.provenance import shown
from life_tools.window.book_copy import BookCopy
from life_tools.window.views import View, address
from life_tools.window.parts import RIGHT, Answer, Cell, Elsewhere, Head, Page, Table, cells, heads
from life_tools.window.standing import backups_near, logged_runs
from life_tools.window.tool_runs import ToolRun, tool_run


# a list of books does not accept every name, and the book's own name is not needed here
LISTED = "book"


def headroom(book: View) -> ToolRun:
    """Runs `books headroom` over a list that has only the private copy."""
    desk, new = os.path.basename(book.desk), book.copy.new_file()
    with open(new, "w", encoding="utf-8") as file:
        file.write(f"{LISTED},{desk},{book.basis.name}\n")
    # renamed into place when complete, since the page may be asked for again while the tool reads the list
    path = os.path.join(book.copy.folder, f"list-{desk}.csv")
    os.replace(new, path)
    return tool_run(book, ["books", "headroom", path], "how many commands are left", True, (book.copy.newest,))


def headroom_table(run: ToolRun) -> Table:
    rows = [line.split(",")[1:] for line in run.printed.splitlines()]
    names = [name.replace("_", " ") for name in rows[0]] if rows else []
    return Table("Capacity of the journal", heads(names, 0), [cells(row) for row in rows[1:]])


def user_name() -> str:
    """Returns the name of the user who runs the window, or the number of a user without a name on this machine."""
    try:
        return getpass.getuser()
    except (KeyError, OSError):
        return str(os.getuid())


def stands(book: View, asked: Asked) -> Answer:
    asked.only(("at",))
    room, version = headroom(book), tool_run(book, ["version"], "which program this is")
    runs, open_ones = logged_runs(book.listed.folder)
    logged = Table("The last runs that were logged",
                   [Head("run"), Head("status", RIGHT), Head("postings before", RIGHT), Head("done")],
                   [[Cell(it.name), *cells((it.status, it.before)), Cell("yes" if it.is_done else "no: look at it")]
                    for it in runs])
    found = Table("Backups found near the book",
                  [Head("file"), Head("written"), Head("postings", RIGHT), Head("a prefix of this journal")],
                  [[Cell(it.path), Cell(it.made), *cells((it.count,)), Cell("yes" if it.is_front else "no")]
                   for it in backups_near(book.listed.folder, book.copy.journal, book.copy.newest)])
    values = {"room": headroom_table(room), "room_remarks": room.remarks, "count": book.at, "most": MOST_COMMANDS,
              "logged": logged,
              "open_ones": open_ones, "backups": found, "version": version.printed.strip(), "version_status": version.status,
              "user": user_name(), "host": socket.gethostname(), "life": shown(" ".join(book.life)),
              "journal": shown(book.listed.journal), "journal_sum": book.prefix_sum, "basis_sum": book.basis.sum,
              "positions": [(each, book.at_position(each).link("")) for each in book.copy.positions]}
    return Page("stands.html", "How it stands", values)


def newest(book: View, asked: Asked) -> Answer:
    """Takes what was posted since and the present basis, and redirects to the newest position."""
    asked.only(("at",))
    copy = book.copy
    if copy.behind() or copy.changes():
        stamp = copy.newest, copy.basis.sum, str(copy.seen.get("basis"))
        copy.jobs.asked(("newest", *stamp), "taking what was posted since", copy.bring_up_to_date)
    return Elsewhere(copy_newest(copy))


def copy_newest(copy: BookCopy) -> str:
    return address(copy.root, copy.number, "", {})
