"""Says in a second whether a journal's file is whole, by its length and by who
noted a greater count.

    life-tools verify
    life-tools verify --seal december.seal
    life-tools verify main.backup --log log

Of journal.life the checkpoint and the log/ in its folder are asked, of another
file those that are named; and each seal that was kept, by which a changed
amount is found too. What the records say is not decided; `life state` does
that.

The last line is `whole`, with status 0. With status 1 it is `damaged`, if
commands are gone or cannot be read; `undecided`, if at most 65 bytes follow
the end, as a crash, a fault or a damaged last commit byte would leave them; or
`empty`, for a file without a byte.
"""
from __future__ import annotations

import argparse

from life_tools.common.formats import demand
from life_tools.common.locks import holder_of
from life_tools.journal.seals import shape_by
from life_tools.journal.wholeness import beside, shape_with, tell


def arguments(parser: argparse.ArgumentParser) -> None:
    parser.add_argument("journal", metavar="JOURNAL", nargs="?", default="journal.life", help="the journal (journal.life)")
    parser.add_argument("--checkpoint", metavar="FILE", help="a checkpoint that was made of it")
    parser.add_argument("--log", metavar="FOLDER", help="the log of its days")
    parser.add_argument("--seal", metavar="FILE", action="append", default=[], help="a seal that was kept; there may be several")


def run(options: argparse.Namespace) -> int:
    holder = holder_of(options.journal)
    demand(not holder, f"{options.journal} is in use by {holder}: what follows its end shows once it has ended")
    checkpoint, log = beside(options.journal)
    shape = shape_by(shape_with(options.journal, options.checkpoint or checkpoint, options.log or log), options.seal)
    print(f"count,{shape.count}\nlength,{shape.length}")
    for noted in shape.noted:
        print(f"noted,{noted.by},{noted.commands}")
    print(shape.verdict, flush=True)
    return tell(shape)
