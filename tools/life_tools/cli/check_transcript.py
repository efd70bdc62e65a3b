"""Checks what `life run` printed for a script, and what it left in the journal,
by the posting rules. It shares no code with the program.

    life-tools check-transcript SCRIPT TRANSCRIPT BEFORE AFTER BASIS
    life-tools check-transcript day.csv day.out /dev/null journal.life b.csv

BEFORE and AFTER are the journal before and after the run (BEFORE may not
exist). The lines in their order have to be one history: each lane's rows are
answered once and in order; a posting is accepted at the next position, or
refused for the first reason that the rules have; a valuation shows the book at
its position, with bounds around the exact values; a trim's floor is the
position of a pin that may be live, or the count. The journal has to hold
exactly what was accepted.

A transcript that was cut is checked up to the cut, which is reported with what
the journal holds beyond it, and the status is 1. Runs that met a fault of the
disk or found no memory are not checked. The status is 1 if something is wrong;
the place is named.
"""
from __future__ import annotations

import argparse
import os

from life_tools.common.formats import printed_text
from life_tools.journal.opening import journal_at
from life_tools.cli.judging import judged
from life_tools.rules.policies import Book
from life_tools.scripts.lines import script_at
from life_tools.tables.basis import read_basis
from life_tools.scripts.transcript_check import check_cut, check_run, is_cut


def arguments(parser: argparse.ArgumentParser) -> None:
    for name, says in (("script", "the script's file"), ("transcript", "what life run printed"),
                       ("before", "journal.life before the run"), ("after", "journal.life after the run"),
                       ("basis", "the basis file; it is read where the script has a value line")):
        parser.add_argument(name, metavar=name.upper(), help=says)


def run(options: argparse.Namespace) -> int:
    lines = script_at(options.script)
    basis = read_basis(options.basis) if any(line.kind == "value" for line in lines) else []
    begun = journal_at(options.before).book if os.path.exists(options.before) else Book()
    transcript, after = printed_text(options.transcript), journal_at(options.after)
    if is_cut(transcript):
        return judged(lambda: check_cut(lines, transcript, begun, after, basis)) or 1
    return judged(lambda: f"{check_run(lines, transcript, begun, after, basis)} lines are right")
