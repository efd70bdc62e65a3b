"""The records of a journal for other programs: as CSV with a header row, as JSON
lines, as an SQLite file, or for pandas.

    life-tools export csv journal.life > commands.csv
    life-tools export sqlite journal.life book.db --valuation december.value

A field that a command does not have is empty in CSV, and absent in a JSON
line. Amounts are as in a script. An SQLite file is new, with amounts in cents
and days as text, and has the tables

  command    a row for each record
  booking    what each record books on which account
  policy     the policies as they are now, with the end of cover, the day that
             premiums are paid to, and the next premium's due day and last day
             of grace; neither of the two if no premium is awaited
  valuation  the rows of the printed valuations that are named, each of which
             has to add up to its total

and the view `valued`, which joins each row of a valuation with its policy as
it is now. For pandas the same five are files NAME.pkl in a new folder.

The status is 0, or 2 if it could not be done; then no file is made.
"""
from __future__ import annotations

import argparse
import io
import itertools
import os
import shutil
import sqlite3
import sys
import tempfile
from typing import Iterable, Iterator

from life_tools.journal.columns import Columns, columns_at
from life_tools.reports.export_tables import BOOKING, COMMAND, POLICY, booking_rows, command_rows, policy_rows
from life_tools.common.formats import Wrong, demand, opened
from life_tools.common.packages import package
from life_tools.common.progress import Progress
from life_tools.journal.record_texts import HELD, TEXTS, lines_of
from life_tools.valuations.rows import VALUATION, TableRow, valuation_rows
from life_tools.journal.wholeness import tell_doubt

COLUMNS = ("position", "kind", "policy", "day", "plan", "age", "years", "amount", "premium")
TABLES = {"command": COMMAND, "booking": BOOKING, "policy": POLICY, "valuation": VALUATION}
WHOLE = ("position", "policy", "age", "years", "premiums_paid", "year")
KEPT = ("plan", "age", "years", "amount_cents", "premium_cents", "issued", "premiums_paid", "paid_to")
SCHEMA_ENDS = (
    "create index booking_position on booking (position)",
    f"""create view valued as select valuation.*, policy.status as status_now, {", ".join(KEPT)}
        from valuation join policy using (policy)""",
)


def csv_template(kind: str) -> str:
    cells = ["%s" if name in HELD[kind] else kind if name == "kind" else "" for name in COLUMNS]
    return ",".join(cells) + "\n"


def json_template(kind: str) -> str:
    pairs = [(name, f'"{kind}"' if name == "kind" else '"%s"' if name in TEXTS else "%s")
             for name in COLUMNS if name == "kind" or name in HELD[kind]]
    return "{" + ", ".join(f'"{name}": {value}' for name, value in pairs) + "}\n"


def write_lines(options: argparse.Namespace) -> None:
    """Writes each record as a line."""
    records = columns_at(options.journal).records
    if options.form == "csv":
        sys.stdout.write(",".join(COLUMNS) + "\n")
    sys.stdout.writelines(lines_of(records, csv_template if options.form == "csv" else json_template))


# --- tables ---

def printed_lines(path: str) -> Iterator[str]:
    try:
        with io.TextIOWrapper(opened(path), encoding="utf-8", errors="surrogateescape") as file:
            yield from file
    except OSError as error:
        raise Wrong(f"{path}: {error.strerror}") from error


def counted(name: str, rows: Iterable[TableRow]) -> Iterator[TableRow]:
    progress = Progress(f"writing the table {name}")
    for at, row in enumerate(rows, 1):
        if not at % 4096:
            progress.at(at)
        yield row
    progress.end()


def tables_of(book: Columns, valuations: list[str]) -> Iterator[tuple[str, Iterator[TableRow]]]:
    yield "policy", counted("policy", policy_rows(book))
    yield "command", counted("command", command_rows(book))
    yield "booking", counted("booking", booking_rows(book))
    printed = itertools.chain.from_iterable(valuation_rows(path, printed_lines(path)) for path in valuations)
    yield "valuation", counted("valuation", printed)


def column(table: str, name: str) -> str:
    """Returns the definition of a column."""
    kind = "integer" if name in WHOLE or name.endswith("cents") else "text"
    return f"{name} {kind}{' primary key' if name == TABLES[table][0] and table in ('command', 'policy') else ''}"


def write_sqlite(path: str, tables: Iterable[tuple[str, Iterator[TableRow]]]) -> None:
    """Writes the tables into a file that is deleted if anything fails; it therefore needs no journal of SQLite's."""
    database = sqlite3.connect(path, isolation_level=None)
    for pragma in ("journal_mode", "synchronous"):
        database.execute(f"pragma {pragma} = off")
    database.execute("begin")
    for table, rows in tables:
        columns = TABLES[table]
        database.execute(f"create table {table} ({', '.join(column(table, name) for name in columns)})")
        database.executemany(f"insert into {table} values ({','.join('?' * len(columns))})", rows)
    for statement in (*SCHEMA_ENDS, "commit"):
        database.execute(statement)
    database.close()


def write_frames(folder: str, tables: Iterable[tuple[str, Iterator[TableRow]]]) -> None:
    pandas = package("pandas", "python3-pandas")
    frames = {}
    for table, rows in tables:
        frame = pandas.DataFrame(list(rows), columns=TABLES[table])
        whole = [name for name in frame.columns if name in WHOLE or name.endswith("cents")]
        frames[table] = frame.astype({name: "Int64" for name in whole})
    policy = frames["policy"].rename(columns={"status": "status_now"})
    frames["valued"] = frames["valuation"].merge(policy[["policy", "status_now", *KEPT]], on="policy")
    os.mkdir(folder)
    for name, frame in frames.items():
        frame.to_pickle(os.path.join(folder, f"{name}.pkl"))


def write_tables(options: argparse.Namespace) -> None:
    """Makes the file or folder under a temporary name, and renames it once it is complete."""
    made = os.path.abspath(options.made)
    demand(not os.path.lexists(made), f"{options.made} is there already")
    demand(os.path.isdir(os.path.dirname(made)), f"{os.path.dirname(options.made)} is no folder")
    if options.form == "pandas":
        package("pandas", "python3-pandas")
    book = columns_at(options.journal)
    beside = tempfile.mkdtemp(prefix=".life-tools-", dir=os.path.dirname(made))
    try:
        new = os.path.join(beside, "new")
        write = write_sqlite if options.form == "sqlite" else write_frames
        write(new, tables_of(book, options.valuation))
        os.rename(new, made)
    finally:
        shutil.rmtree(beside)


def arguments(parser: argparse.ArgumentParser) -> None:
    forms = parser.add_subparsers(dest="form", metavar="FORM", required=True)
    says_of = {"csv": "CSV, on standard output", "jsonl": "JSON lines, on standard output", "sqlite": "a SQLite file",
               "pandas": "a folder of frames for pandas"}
    for name, says in says_of.items():
        form = forms.add_parser(name, help=says)
        form.add_argument("journal", metavar="JOURNAL", help="the file, as journal.life")
        if name in ("sqlite", "pandas"):
            metavar = "DATABASE" if name == "sqlite" else "FOLDER"
            form.add_argument("made", metavar=metavar, help="what is made, which isn't there yet")
            form.add_argument("--valuation", metavar="FILE", action="append", default=[],
                              help="printed valuations, for their table; may be repeated")


def run(options: argparse.Namespace) -> int:
    tell_doubt(options.journal)
    if options.form in ("sqlite", "pandas"):
        try:
            write_tables(options)
        except (sqlite3.Error, OSError) as error:
            raise Wrong(f"{options.made}: {error}") from error
    else:
        write_lines(options)
    return 0
