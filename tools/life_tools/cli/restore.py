"""Makes a book of a copy that `life-tools backup` keeps, and verifies it.

    life-tools restore /mnt/second/main --folder ~/books/main
    life-tools restore anna@second:books/main

The folder gets journal.life, the basis and its tables, desk.toml, seals and
log/; it may not have a journal.life, checkpoint.life or log/ yet. Only what is
as it was sealed is restored. Then the book is verified, and the last lines are
those of `life-tools verify`:

    count,POSTINGS
    length,BYTES
    whole

The log may know of postings that were not copied any more. Then the last line
is `damaged`, and `life-tools day --restored` posts them anew. The status is 0
if the book is whole; 1 if anything is reported; 2 if it could not be done, and
then there is no journal.life.
"""
from __future__ import annotations

import argparse
import os
import shutil

from life_tools.backup.remote import SSH, fetch_copy, is_place, place_in
from life_tools.backup.restoring import demand_free, restore
from life_tools.common.formats import demand, remark
from life_tools.journal.wholeness import tell

# the folder for what is fetched from another machine
FETCHED = ".fetched"


def arguments(parser: argparse.ArgumentParser) -> None:
    parser.add_argument("copy", metavar="FROM", help="the copy's folder, or HOST:FOLDER of another machine")
    parser.add_argument("--folder", metavar="FOLDER", default=".", help="where the book is made (.)")
    parser.add_argument("--ssh", metavar="COMMAND", default=SSH, help=f"what leads to another machine ({SSH})")


def local_copy(options: argparse.Namespace) -> str:
    """Returns the copy's folder on this machine, after fetching it if it is on another one."""
    if not is_place(options.copy):
        demand(os.path.isdir(options.copy), f"there is no folder {options.copy}")
        return str(options.copy)
    os.makedirs(options.folder, exist_ok=True)
    demand_free(options.folder)
    fetched = os.path.join(options.folder, FETCHED)
    fetch_copy(place_in(options.copy, options.ssh), fetched)
    return fetched


def run(options: argparse.Namespace) -> int:
    copy = local_copy(options)
    done = restore(copy, options.folder)
    if is_place(options.copy):
        shutil.rmtree(copy)
    for difference in done.differences:
        remark(f"restore: {difference}")
    print(f"count,{done.shape.count}\nlength,{done.shape.length}\n{done.shape.verdict}", flush=True)
    status = tell(done.shape)
    if any(each.commands > done.shape.count for each in done.shape.noted):
        remark("restore: the log knows of postings that were not copied any more: `life-tools day --restored` posts them anew")
    return 1 if done.differences else status
