"""`books split`: a book is divided into new ones, which together say what it says."""
from __future__ import annotations

import argparse
import os
import shlex
import sys

from life_tools.books.work import processors
from life_tools.valuations.class_bases import ranges_at
from life_tools.journal.columns import columns_in
from life_tools.journal.copied_folder import JOURNAL, basis_files, reading
from life_tools.journal.day_columns import day_at
from life_tools.books.division_rules import is_rule, places_by, rules_in
from life_tools.common.temporary import temporary_folder
from life_tools.books.division import PREFIX, TIMES_THE_JOURNAL, Division, Unlike, demand_alike, run_parts
from life_tools.common.formats import MOST_WORKERS, Wrong, bytes_of, day_in, demand, number_of, remark
from life_tools.journal.records import UPGRADE
from life_tools.journal.file import gate_of
from life_tools.books.new_books import SEAL, demand_new_folders, name_of, put_in_place
from life_tools.common.program import demand_as_installed, life_command
from life_tools.journal.seals import seal_of, text_of
from life_tools.tables.basis import NAME
from life_tools.journal.wholeness import demand_undamaged, tell


def add_arguments(parser: argparse.ArgumentParser) -> None:
    split = parser.add_argument_group("split", "JOURNAL RULE.. FOLDER.., a folder for each rule, which are numbers=1-4999,8001 "
                                      "(5000- is up to the last), years=1990-1999 (of issue), class=NAME, others")
    split.add_argument("--classes", metavar="FILE", help="a CSV of classes: number or range of policies, class")
    split.add_argument("--on", metavar="DAY",
                       help="the day of the valuations that are compared (of the newest posting); also a "
                       "sample's day")
    split.add_argument("--basis", metavar="NAME", help="the basis file beside the journal (basis.csv)")


def words_in(words: list[str]) -> tuple[str, list[str], list[str]]:
    """Returns the journal, the rules and the folders."""
    demand(words, "split wants a journal, rules and folders")
    journal, *rest = words
    rules = [word for word in rest if is_rule(word)]
    folders = rest[len(rules):]
    demand(rest[:len(rules)] == rules, f"{' '.join(rest)}: the rules come before the folders")
    demand(len(rules) == len(folders), f"there are {len(rules)} rules and {len(folders)} folders for new books")
    demand(os.path.basename(journal) == JOURNAL, f"{journal} is no {JOURNAL}")
    return journal, rules, folders


def division_of(options: argparse.Namespace, journal: str, basis: str, words: list[str]) -> Division:
    rules = rules_in(words, ranges_at(options.classes) if options.classes else None)
    data = bytes_of(journal)
    book = columns_in(data, journal)
    demand(len(book.policies), f"{journal} has no policy")
    records = book.records
    on = day_in(options.on) if options.on else day_at(int(records.day[records.kind != UPGRADE].max()))
    front, places = data[:gate_of(book.count)] + bytes(1), places_by(rules, book.policies)
    return Division(front, book, places, len(rules), os.path.dirname(journal) or ".", basis, str(on))


def tell_done(division: Division, journal: str, sum_told: str) -> None:
    policies, count, parts = len(division.book.policies), division.book.count, division.parts
    where = shlex.quote(os.path.abspath(journal))
    remark(f"each of {policies} policies, with all of {count} commands, stands in one of {parts} new books; their states, their "
           f"valuations on {division.on} and their balances are those of the old one")
    remark(f"nothing was done to {journal}. To put it away, so that nothing is posted there any more: chmod a-w {where}")
    remark(f"its seal is {SEAL} in each new folder: {sum_told}. Keep one elsewhere; `life-tools seal --check` compares it")


def divide(options: argparse.Namespace, journal: str, basis: str, words: list[str], folders: list[str], processes: int) -> int:
    whole = tell(demand_undamaged(journal))
    with reading(journal):
        division = division_of(options, journal, basis, words)
        names = basis_files(division.folder, division.basis)
        demand(division.basis in names, f"there is no {os.path.join(division.folder, division.basis)}")
        demand_new_folders(folders, [JOURNAL, SEAL, *names])
        seal = seal_of(division.folder, division.book.count, [division.basis])
        with temporary_folder(TIMES_THE_JOURNAL * len(division.data), PREFIX) as desk:
            run_parts(division, desk, life_command(), processes)
            demand_alike(division, desk)
            shared = {SEAL: text_of(seal).encode("ascii")}
            shared.update((name, bytes_of(os.path.join(division.folder, name))) for name in names)
            demand_still(division, journal)
            put_in_place(folders, [os.path.join(desk, str(part)) for part in range(division.parts)], shared)
    sys.stdout.writelines(f"{name_of(folder)},{folder},{division.basis}\n" for folder in folders)
    tell_done(division, journal, f"{seal.size} bytes, SHA-256 {seal.sum}")
    return whole


def demand_still(division: Division, journal: str) -> None:
    """Raises Unlike unless the old book is the same as when it was read."""
    if bytes_of(journal)[:len(division.data) - 1] != division.data[:-1]:
        raise Unlike(f"{journal} has changed meanwhile")


def run(options: argparse.Namespace) -> int:
    journal, words, folders = words_in(options.words)
    basis = options.basis or "basis.csv"
    demand(NAME.fullmatch(basis), f"{basis} is no name of a basis file")
    processes = number_of(options.processes, 1, MOST_WORKERS) if options.processes else processors()
    if processes is None:
        raise Wrong(f"--processes {options.processes}: 1 to {MOST_WORKERS} are wanted")
    demand_as_installed()
    return divide(options, journal, basis, words, folders, processes)
