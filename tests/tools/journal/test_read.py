"""Compares what the tools read from a book with what the program prints for it: records, balances, the book as it was,
exports, a checkpoint, positions."""
import csv
import io
import json

import pytest

from tests.support.folders import Folder

HELD = ("plan", "age", "years", "amount", "premium")


def lines(text: str, *starts: str) -> list[str]:
    return [line for line in text.splitlines() if line.startswith(starts)]


def records(folder: Folder) -> list[str]:
    """Returns the records that `read` lists: position, kind, and the command's fields."""
    return [line for line in folder.printed("read", "journal.life").splitlines() if line[0].isdigit()]


def entries(folder: Folder, number: str) -> list[str]:
    return lines(folder.life("state", number).out, "entry,")


def test_balances_and_count_are_those_of_state(small_office: Folder) -> None:
    state = small_office.life("state").out
    ends = ("balance,", "count,")
    assert lines(small_office.printed("read", "journal.life"), *ends) == lines(state, *ends)


def test_the_records_of_a_policy_are_those_of_state(small_office: Folder) -> None:
    wanted = [",".join([position, kind, "14", *words]) for _, position, kind, *words in
              (entry.split(",") for entry in entries(small_office, "14"))]
    assert [row for row in records(small_office) if row.split(",")[2] == "14"] == wanted != []


@pytest.mark.parametrize("position", [0, 1, 11, 26, 27])
def test_the_book_as_it_was_is_that_of_the_first_postings_alone(small_office: Folder, position: int) -> None:
    """So is a valuation of it."""
    before = small_office.below("before")
    before.post("".join(f"1,{row.split(',', 1)[1]}\n" for row in records(small_office)[:position]))
    assert small_office.printed("at", str(position), "state") == before.life("state").out
    wanted = small_office.life("value", "2024-03-12", "--at", str(position), "--mean").out
    assert small_office.printed("at", str(position), "value", "2024-03-12", "--mean") == wanted


def test_a_policy_and_a_projection_at_a_position(small_office: Folder) -> None:
    assert lines(small_office.printed("at", "11", "state", "14"), "entry,")[-1] == "entry,9,premium,2023-01-20,1200.00"
    projected = small_office.printed("at", "11", "project", "2022-12-31", "3")
    assert projected.splitlines()[0] == "project,2022-12-31,11,4,3"


def test_an_export_as_csv_is_what_state_prints(small_office: Folder) -> None:
    rows = csv.DictReader(io.StringIO(small_office.printed("export", "csv", "journal.life")))
    found = [",".join(["entry", row["position"], row["kind"], row["day"], *(row[name] for name in HELD if row[name])])
             for row in rows if row["policy"] == "14"]
    assert found == entries(small_office, "14")


def test_an_export_as_json_has_each_record(small_office: Folder) -> None:
    rows = [json.loads(line) for line in small_office.printed("export", "jsonl", "journal.life").splitlines()]
    assert sum(row["policy"] == 14 for row in rows) == len(entries(small_office, "14"))


def test_a_checkpoint_that_is_longer_than_the_journal(small_office: Folder) -> None:
    longer = small_office.below("longer")
    longer.write("journal.life", small_office.journal.read_bytes())
    assert longer.life("checkpoint").status == 0
    small_office.write("front.life", small_office.journal.read_bytes()[:17 + 65 * 14] + b"\x00")
    small_office.printed("read-checkpoint", "longer/checkpoint.life", "journal.life")
    says = "front.life has 14 commands, so the program doesn't use a checkpoint of 27"
    assert not small_office.finds("read-checkpoint", "longer/checkpoint.life", "front.life", says=says).out


@pytest.mark.parametrize("day", ["2021-01-19", "2022-01-20", "2024-03-12", "2199-12-31"])
def test_the_position_of_a_day(small_office: Folder, day: str) -> None:
    """The position is the number of commands before the first one of a later day."""
    days = [row.split(",")[3] for row in records(small_office)]
    wanted = next((place for place, each in enumerate(days) if each > day), len(days))
    assert small_office.printed("position-on", day, "journal.life") == f"{wanted}\n"
    assert small_office.life("value", day, "--at", str(wanted)).status == 0
