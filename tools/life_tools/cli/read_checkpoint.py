"""Prints the books in a checkpoint as `state` prints those of a journal, or says
why the file is no checkpoint.

    life-tools read-checkpoint checkpoint.life journal.life

With a journal it compares them with the books that the first commands of that
journal leave. A checkpoint of another journal, which the program cannot
distinguish from one of this journal, is found in this way, with status 1; so
is one of more commands than the journal has, which the program does not use.
"""
from __future__ import annotations

import argparse
import sys

from life_tools.journal.checkpoint_columns import CheckpointColumns, checkpoint_columns
from life_tools.journal.columns import columns_at
from life_tools.common.formats import Wrong, bytes_of, money, remark
from life_tools.journal.record_texts import policy_lines


def arguments(parser: argparse.ArgumentParser) -> None:
    parser.add_argument("checkpoint", metavar="CHECKPOINT", help="the file, as checkpoint.life")
    parser.add_argument("journal", metavar="JOURNAL", nargs="?", help="the journal, as journal.life")


def print_books(checkpoint: CheckpointColumns) -> None:
    sys.stdout.writelines(policy_lines(checkpoint.policies))
    for account, cents in checkpoint.header.balances.items():
        print(f"balance,{account},{money(cents)}")
    print(f"count,{checkpoint.header.position}")


def is_of(checkpoint: CheckpointColumns, path: str) -> bool:
    """Returns whether these are the books after a journal's first commands; False if the journal has fewer commands."""
    book, position = columns_at(path), checkpoint.header.position
    if position > book.count:
        remark(f"{path} has {book.count} commands, so the program doesn't use a checkpoint of {position}")
        return False
    return checkpoint.is_of(book)


def run(options: argparse.Namespace) -> int:
    try:
        checkpoint = checkpoint_columns(bytes_of(options.checkpoint))
    except Wrong as wrong:
        raise Wrong(f"{options.checkpoint}: {wrong}") from wrong
    if options.journal and not is_of(checkpoint, options.journal):
        position = checkpoint.header.position
        remark(f"{options.checkpoint}: these aren't the books of the first {position} commands of {options.journal}")
        return 1
    print_books(checkpoint)
    return 0
