"""Runs a script on a copy of a folder's journal, and prints the transcript that
it would have. Nothing is posted.

    life-tools dry-run draft.csv

What another run posts meanwhile changes what the script is answered later. The
status is 0 if the run ended well, whatever it refused; otherwise 2, and the
run's own status is given on standard error.

The copy lies in memory (/dev/shm), or in TMPDIR if that is set or there is no
space in memory. On a disk each posting waits for its syncs.
"""
from __future__ import annotations

import argparse
import sys

from life_tools.common.formats import remark
from life_tools.common.program import life_command
from life_tools.scripts.dry_run import trial_of
from life_tools.journal.wholeness import tell_doubt


def arguments(parser: argparse.ArgumentParser) -> None:
    parser.add_argument("script", metavar="SCRIPT", help="the script's file")
    parser.add_argument("--folder", metavar="FOLDER", default=".", help="where journal.life and the basis lie (.)")
    parser.add_argument("--basis", metavar="NAME", default="basis.csv", help="the name of the basis file there (basis.csv)")
    parser.add_argument("--life", metavar="PROGRAM", help="the program to run")


def run(options: argparse.Namespace) -> int:
    with trial_of(options.script, options.folder, options.basis, life_command(options.life)) as trial:
        tell_doubt(trial.path, trial.seen)
        status, transcript = trial.answer()
    sys.stdout.write(transcript)
    sys.stdout.flush()
    accepted, refused = transcript.count(",accepted,"), transcript.count(",refused,")
    remark(f"a dry run, so nothing is posted: {accepted} accepted, {refused} refused, status {status}")
    return 2 if status else 0
