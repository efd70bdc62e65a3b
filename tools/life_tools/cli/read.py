"""Lists every record of a journal, and the balances of the four accounts; or says
why the file is no journal.

    life-tools read journal.life
    life-tools read --ledger journal.life | ledger -f - balance

Each record is decided anew by the rules, as the program does when it opens the
file; --verify decides them and prints balances and count alone. If the program
refuses the file, its own line is printed (`badjournal,..`), the reason goes to
standard error, and the status is 2. An unfinished creation, as a crash may
leave it, is a journal without records.

A file of which commands are gone after a damaged commit byte, as `verify`
finds it, is not listed, and gives 1. A file with bytes after its end that may
be what a crash left is listed, and gives 1.
"""
from __future__ import annotations

import argparse
import sys

from life_tools.journal.columns import Columns, looked_at
from life_tools.common.formats import Wrong, money, remark
from life_tools.journal.file import Journal, is_unfinished_creation
from life_tools.journal.record_texts import lines_of, plain_template, transactions_of
from life_tools.journal.wholeness import demand_undamaged, tell


def arguments(parser: argparse.ArgumentParser) -> None:
    prints = parser.add_mutually_exclusive_group()
    prints.add_argument("--ledger", action="store_true", help="print transactions for the programs ledger and hledger instead")
    prints.add_argument("--verify", action="store_true", help="print the balances and the count alone")
    parser.add_argument("journal", metavar="JOURNAL", help="the file, as journal.life")


def print_balances(book: Columns) -> None:
    for account, balance in book.balances.items():
        print(f"balance,{account},{money(balance)}")
    print(f"count,{book.count}")


def run(options: argparse.Namespace) -> int:
    book, blocks = looked_at(options.journal)
    if isinstance(book, Journal):
        print(book.refused, flush=True)
        raise Wrong(f"{options.journal}: {book.why}")
    status = tell(demand_undamaged(options.journal, blocks.seen))
    if is_unfinished_creation(blocks.front):
        remark(f"{options.journal}: an unfinished creation, which the program makes a journal without records")
    if options.ledger:
        sys.stdout.writelines(transactions_of(book))
        return status
    if not options.verify:
        sys.stdout.writelines(lines_of(book.records, plain_template))
    print_balances(book)
    return status
