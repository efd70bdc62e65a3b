"""Makes twenty-four changes of what definitions mean, one at a time; a worked case must refuse each of them.

usage: python3 tests/proof/changed_definitions.py [--processes N] [--logs FOLDER] [NUMBER..]

Each change is made in a copy of the crates, in which the worked case is then checked: the crates from the changed one up to that
of the case are read as source, and all others are taken as they are built in this clone (run `rt check` in crates/life_app
first). A change counts as refused if the case isn't proved, each file of specs/ is well-typed, and what fails is in the files of
worked cases: not a lemma of the code, but what the case says. Each change takes about ten seconds of a processor, and three times
as long if the case is about a valuation.
"""
import argparse
import concurrent.futures
import importlib
import os
import queue
import re
import shutil
import subprocess
import sys
import tempfile
from typing import Any

TOP = os.path.realpath(os.path.join(os.path.dirname(os.path.abspath(__file__)), "..", ".."))
# The kit's own list of the arguments with which it calls its prover.
sys.path.insert(0, os.path.dirname(os.path.realpath(shutil.which("rt") or "rt")))
rtlib: Any = importlib.import_module("rtlib")

# What is changed; the file below crates/; the old and new texts, in pairs; the crate that has the worked case; and the case.
CHANGES = [
    ("a benefit that falls due is booked on the other side of incurred", "policy_types/specs/Accounts.antt",
     ["incurred = pos cents; payable = against cents", "incurred = against cents; payable = pos cents"],
     "policy_machine", "worked::balances::claims_booked"),
    ("a year is completed on the day after the anniversary", "life_dates/specs/Anniversary.antt",
     ["pub reached : anniversary_of issued t ≤ℤ on", "pub reached : anniversary_of issued t <ℤ on",
      "◌≤ℤ◌}", "◌≤ℤ◌, ◌<ℤ◌}"],
     "valuing_modes", "worked::endowments_valued"),
    ("the days of grace are 32", "policy_machine/specs/Rules.antt",
     ["grace_end_of p = due_of p +ℤ pos 31", "grace_end_of p = due_of p +ℤ pos 32"],
     "policy_machine", "worked::premiums::grace"),
    ("a policy that is made paid up keeps its amount", "policy_machine/specs/Rules.antt",
     ["record p { last = day; status = PaidUp; amount = amount }", "record p { last = day; status = PaidUp }"],
     "policy_machine", "worked::paid_ups::made_paid_up"),
    ("a lane's lines are answered in the other order", "policy_machine/specs/Merge.antt",
     ["(turns ≡ first ++ rest)", "(turns ≡ rest ++ first)"],
     "policy_machine", "worked::merges::whole_merge"),
    ("a record's gate stands a byte before", "posting_journal/specs/Layout.antt",
     ["gate_place n = 17 + 65 * n", "gate_place n = 16 + 65 * n"],
     "posting_journal", "worked::journals_by_hand"),
    ("a gap between the ages of a table is none", "xtbml_subset/specs/Checks.antt",
     ["(option_map_or (λ next. age == next) due true) (Rest age read)",
      "(option_map_or (λ next. nat_le next age) due true) (Rest age read)"],
     "xtbml_subset", "worked::refused_tables_by_hand"),
    ("the select period ends a year early", "select_rates/specs/Select.antt",
     ["slice_index_or (select_rates table age) duration (", "slice_index_or (select_rates table age) (duration + 1) ("],
     "select_rates", "worked::rates_of_the_first_issue_age"),
    ("a mean is a third of the sum", "present_value/specs/Mean.antt",
     ["(reserve c cap (t + 1))) (whole 2)", "(reserve c cap (t + 1))) (whole 3)"],
     "present_value", "worked::mean_reserves_by_hand"),
    ("a reserve's lower bound is rounded up", "crvm_reserve/specs/Rounded.antt",
     ["(bound down up, bound up down)", "(bound up down, bound up down)"],
     "deficiency_reserve", "worked::minimums_by_hand"),
    ("a premium that is just the net premium is short", "deficiency_reserve/specs/Premiums.antt",
     ["if nat_lt (premium * UNIT) (amount * lo) then Short", "if nat_le (premium * UNIT) (amount * lo) then Short"],
     "deficiency_reserve", "worked::premiums_by_hand"),
    ("the first age of a table lies below it", "plan_benefits/specs/Shapes.antt",
     ["    if nat_lt age table.first_age\n", "    if nat_le age table.first_age\n"],
     "valuing_modes", "worked::endowments_valued"),
    ("of 1,001 rows the first bad one is named, too", "basis_book/specs/Rows.antt",
     ["(length rows ≤ 1000) × StopsAt", "(length rows ≤ 1001) × StopsAt"],
     "basis_book", "worked::refused_bases_by_hand"),
    ("a row is of the year after", "policy_value/specs/Rows.antt",
     ["(t ≡ min years n)", "(t ≡ min (years + 1) n)", "ℕ, ◌≤◌,", "ℕ, ◌+◌, ◌≤◌,"],
     "valuing_modes", "worked::endowments_valued"),
    ("the line of a refused valuation lacks its word", "transcript_text/specs/Transcript.antt",
     ["(PinRefused (Ahead count)) = codes \"refused\" ∷ codes", "(PinRefused (Ahead count)) = codes"],
     "life_app", "worked::other_lines"),
    ("the statuses 8 and 9 are exchanged", "program_endings/specs/Status.antt",
     ["status_of DiskFault = 8", "status_of DiskFault = 9", "status_of (NoMemory lack) = 9",
      "status_of (NoMemory lack) = 8"],
     "program_endings", "worked::statuses_of_endings"),
    ("a script of 16 MiB is too long", "script_run/specs/Script.antt",
     ["most_script_bytes = 16777216", "most_script_bytes = 16777215"],
     "script_run", "worked::scripts_by_hand"),
    ("the sums of a load stand in the other order", "report_text/specs/Block.antt",
     ["sum_fields _ rows =\n    cents_text (total_of (λ t. t.lower) rows) ∷ cents_text (total_of (λ t. t.upper) rows)",
      "sum_fields _ rows =\n    cents_text (total_of (λ t. t.upper) rows) ∷ cents_text (total_of (λ t. t.lower) rows)"],
     "trial_load", "worked::loads_by_hand"),
    ("`generate` is called `make`", "life_args/specs/Words.antt",
     ["(word ≡ codes \"generate\")", "(word ≡ codes \"make\")"],
     "life_args", "worked::words_by_hand"),
    ("the last line tells the position asked for, and not the count", "valuing_modes/specs/Valuing.antt",
     ["(codes \"refused,ahead,\" ++ decimal (length commands))",
      "(codes \"refused,ahead,\" ++ decimal (position_of at (length commands)))"],
     "valuing_modes", "worked::valuations_by_hand"),
    ("no run is ever cut", "life_app/specs/Runs.antt",
     ["  pub when : (run.answered ≡ []) ⊎ HasAnsweredSome g old run\n",
      "  pub when : (run.answered ≡ []) ⊎ HasAnsweredSome g old run\n  pub never : ⊥\n"],
     "life_app", "worked_run::runs_by_hand"),
    ("no shelf has a basis", "life_app/specs/Needs.antt",
     ["  pub so : AreSo files\n", "  pub so : AreSo files\n  pub never : ⊥\n"],
     "life_app", "worked_run::due_by_hand"),
    ("no run is one over both disks", "life_app/specs/KeptRuns.antt",
     ["  pub before : e.honest second\n", "  pub before : e.honest second\n  pub never : ⊥\n"],
     "life_app", "worked_run::both_disks_by_hand"),
    ("no two disks are trusted", "life_app/specs/Needs.antt",
     ["second.Honest × TellsTruth second.before disk.before\n", "second.Honest × TellsTruth second.before disk.before × ⊥\n"],
     "life_app", "worked_run::both_disks_by_hand"),
]


def copied_to(folder: str) -> None:
    """Copies the parts of the repository that a check reads, and nothing that was built."""
    for name in os.listdir(os.path.join(TOP, "crates")):
        for part in ("src", "specs", "proofs"):
            source = os.path.join(TOP, "crates", name, part)
            if os.path.isdir(source):
                shutil.copytree(source, os.path.join(folder, "crates", name, part))
    shutil.copy(os.path.join(TOP, "crates.txt"), folder)


def words_of(crate: Any, changed: Any, folder: str) -> Any:
    """Returns the prover's arguments for a check of the crate in the copy, in which the changed crate and those above it are
    source."""
    below = crate.below()
    source = [it for it in below if it.name == changed or changed in [low.name for low in it.below()]]
    names = {it.name for it in source}
    built = [it for it in below if it.name not in names]
    for it in built:
        if not os.path.isdir(it.rlib):
            sys.exit(f"changed_definitions: {it.name} isn't built: run `rt check` in crates/life_app first")
    direct = {low.name for it in [crate, *source] for low in it.deps}
    kit = {name for it in [crate, *source] for name in it.of_kit} | {"core"}
    words = ["--crate-name", crate.name, "src/lib.rt"]
    for name in sorted(kit):
        words += ["--extern", f"{name}={rtlib.KIT}/rlibs/{name}.rlib"]
    words += ["-L", f"dependency={rtlib.KIT}/rlibs"]
    for it in built:
        words += ["--extern", f"{it.name}={it.rlib}"] if it.name in direct else []
        words += ["-L", f"dependency={os.path.dirname(it.rlib)}"]
    for it in source:
        uses = dict.fromkeys(["core", *it.of_kit, *[low.name for low in it.deps]])
        words += ["--lib", f"{it.name}:{','.join(uses)}={folder}/crates/{it.name}/src/lib.rt"]
    words += ["--antt-project", f"{rtlib.KIT}/rattle/logic/antt-project.json", "--logic-built", f"{rtlib.KIT}/logic_built"]
    return words + ["--incremental", f"{folder}/kept/{crate.name}", "--jobs", "1"]


def checked(crate_name: str, changed: Any, case: Any, folder: str) -> Any:
    """Returns what the prover says about the case in the copy."""
    here = os.path.join(TOP, "crates", crate_name)
    crate = rtlib.Crate(here, TOP, {})
    os.makedirs(f"{folder}/kept/{crate_name}", exist_ok=True)
    ran = subprocess.run(["timeout", "1800", rtlib.RATTLE, "check", *words_of(crate, changed, folder), "--only", case],
                         cwd=f"{folder}/crates/{crate_name}", stdout=subprocess.PIPE, stderr=subprocess.STDOUT, check=False)
    return ran.stdout.decode("utf-8", "replace")


def verdict(said: Any, crate_name: str, case: Any) -> Any:
    """Returns `refused` with the clauses that failed, or what else became of the case."""
    line = re.search(rf"^fn {crate_name}::{case}: (proved|not proved|no proof)", said, re.M)
    if not line:
        return "NO VERDICT"
    if line.group(1) == "proved":
        return "STILL PROVED"
    if re.search(r"^\S*specs/\S*\.antt:\d+:\d+: error", said, re.M):
        return "NOT WELL-TYPED"
    failed = re.findall(r"^(\S+\.antt):(\d+):\d+: error: `([^`]+)`", said, re.M)
    failed += re.findall(r"^note: (\S+\.rt):(\d+):\d+: it is not proved .*\(`([^`]+)`\)", said, re.M)
    own = [f"{name} ({os.path.basename(file)}:{at})" for file, at, name in dict.fromkeys(failed) if "orked" in file]
    return f"refused: {', '.join(own)}" if own else "NOT REFUSED BY ITSELF"


def tried(change: Any, folder: str) -> Any:
    """Makes the change in the copy, has the case checked there, and restores the file."""
    _, file, pairs, crate_name, case = change
    path = os.path.join(folder, "crates", file)
    with open(path, encoding="utf-8") as given:
        before = text = given.read()
    for old, new in zip(pairs[::2], pairs[1::2]):
        if text.count(old) != 1:
            sys.exit(f"changed_definitions: {file} has {old!r} {text.count(old)} times")
        text = text.replace(old, new)
    try:
        with open(path, "w", encoding="utf-8") as changed:
            changed.write(text)
        said = checked(crate_name, file.split("/")[0], case, folder)
    finally:
        with open(path, "w", encoding="utf-8") as back:
            back.write(before)
    return verdict(said, crate_name, case), said


def main() -> None:
    reader = argparse.ArgumentParser()
    reader.add_argument("--processes", type=int, default=1)
    reader.add_argument("--logs", help="a folder for what the prover says of each change")
    reader.add_argument("numbers", type=int, nargs="*")
    given = reader.parse_args()
    copies: queue.Queue[str] = queue.Queue()
    bad = 0
    with tempfile.TemporaryDirectory() as folder, concurrent.futures.ThreadPoolExecutor(given.processes) as pool:
        for number in range(given.processes):
            copied_to(f"{folder}/{number}")
            copies.put(f"{folder}/{number}")

        def work(number: int) -> Any:
            place = copies.get()
            try:
                return number, *tried(CHANGES[number - 1], place)
            finally:
                copies.put(place)

        for number, answer, said in pool.map(work, given.numbers or range(1, len(CHANGES) + 1)):
            what, file, _, crate_name, case = CHANGES[number - 1]
            bad += not answer.startswith("refused")
            print(f"{number} {what} ({file}) | {crate_name}::{case} | {answer}", flush=True)
            if given.logs:
                with open(os.path.join(given.logs, f"{number}.log"), "w", encoding="utf-8") as log:
                    log.write(said)
    sys.exit(1 if bad else 0)


if __name__ == "__main__":
    main()
