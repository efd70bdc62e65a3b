"""Looks a script over before it is sent, beside a folder's journal. Nothing is
posted.

    life-tools check draft.csv
    life-tools check draft.csv --today 2024-06-03

A row is reported if
  - its day is in the future, or before that of its lane's posting above it
  - its day is more than 400 days from its policy's newest posting (a maturity:
    from the end of cover; a claim: only while premiums are awaited)
  - its policy's number is unknown, or its amount is not the policy's premium,
    or more than is outstanding
  - an accepted posting equals it, such as a settlement that is sent twice
  - it is a claim within a year of a reinstatement
  - it is an issue that is not plausible by its day, or by its premium compared
    with the net premium of the basis (desk.toml sets the limits)
  - the program refuses it on a copy of the journal; then it says what to do

For a refused claim it says whether the policy was insured on the day of death;
a death is never a reason to reinstate. Rows are looked at in the order in
which the copy answered them. The status is 1 if a row is reported.
"""
from __future__ import annotations

import argparse
import datetime
import sys

from life_tools.common.formats import MOST_COMMANDS, Wrong, day_in, demand, number_of, remark
from life_tools.common.packages import stay
from life_tools.common.program import life_command
from life_tools.desk.plausibility import Doubts
from life_tools.scripts.lines import Line, lanes_of, script_at
from life_tools.scripts.warnings import Desk
from life_tools.scripts.transcript_check import answers_in
from life_tools.scripts.dry_run import Trial, trial_of
from life_tools.journal.wholeness import tell_doubt


def arguments(parser: argparse.ArgumentParser) -> None:
    parser.add_argument("script", metavar="SCRIPT", help="the script's file")
    parser.add_argument("--today", metavar="DAY", help="the day on which it is sent, YYYY-MM-DD (that of this machine)")
    parser.add_argument("--folder", metavar="FOLDER", default=".", help="where journal.life and the basis lie (.)")
    parser.add_argument("--basis", metavar="NAME", default="basis.csv", help="the name of the basis file there (basis.csv)")
    parser.add_argument("--life", metavar="PROGRAM", help="the program to run")


def look_over(lines: list[Line], transcript: str, desk: Desk, doubts: Doubts) -> dict[int, list[str]]:
    """Returns the remarks on rows, by their row numbers."""
    left = {lane: iter(rows) for lane, rows in lanes_of(lines).items()}
    told: dict[int, list[str]] = {}
    for head, *_ in answers_in(transcript)[0]:
        line = next(left.get(number_of(head[0], 1, 8) or 0, iter(())), None)
        if line is None:
            raise Wrong(f"the dry run answered {','.join(head)}, and no row is left for that")
        told[line.row.number] = [*desk.warnings(line, line.command), *doubts.of(line.command)] if line.command else []
        answer = head[len(line.head):]
        if answer[:1] == ["accepted"] and line.command:
            desk.take(line.command, number_of(answer[1], 1, MOST_COMMANDS) or 0)
        elif answer[:1] == ["refused"]:
            told[line.row.number] += [f"it is refused: {','.join(answer[1:])}", *desk.advice(line, answer[1:])]
    return told


def answered(trial: Trial) -> str:
    """Returns the transcript of the dry run, in which the program also judges the journal."""
    status, transcript = trial.answer()
    if transcript.startswith("badjournal,"):
        from life_tools.journal.columns import looked_at, taken

        taken(looked_at(trial.copy)[0], trial.path)
    demand(status == 0, f"the dry run ended with {status}: {transcript[:200].strip()}")
    return transcript


def tried(options: argparse.Namespace, lines: list[Line], desk: Desk) -> str:
    """Returns the transcript of the dry run. `desk` gets the commands that the journal has for the policies of the lines."""
    with trial_of(options.script, options.folder, options.basis, life_command(options.life)) as trial:
        tell_doubt(trial.path, trial.seen)
        data, count = trial.records()
        # importing numpy takes a tenth of a second, in which the program already runs
        from life_tools.journal.records import places_in, upgrade_in

        upgrade = upgrade_in(data, count)
        places = places_in(data, count, {line.command.number for line in lines if line.command})
        transcript = answered(trial)
        desk.read(data, upgrade, places.tolist())
    return transcript


def run(options: argparse.Namespace) -> int:
    stay()
    today = day_in(options.today) if options.today else datetime.date.today()
    lines, desk = script_at(options.script), Desk(today)
    transcript = tried(options, lines, desk)
    told = look_over(lines, transcript, desk, Doubts(today, options.folder, options.basis))
    for line in lines:
        if told.get(line.row.number):
            print(f"line {line.row.line} of {options.script}: {line.row.text}")
            print("".join(f"  {text}\n" for text in told[line.row.number]), end="")
    sys.stdout.flush()
    rows = sum(bool(texts) for texts in told.values())
    remark(f"rows: {len(lines)}, reported: {rows}; nothing is posted")
    return 1 if rows else 0
