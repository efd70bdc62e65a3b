"""Tests `due`: for a policy of each kind the list is worked out by hand; for drawn books it has exactly what the program
accepts."""
import csv
import io
import shutil

import pytest

from life_tools.journal.columns import columns_at
from life_tools.journal.file import file_of
from tests.rules.policies import Book, Policy
from tests.support.drawn_scripts import for_tools
from tests.support.folders import Folder
from tests.support.lived_books import lived

HEAD = "what,policy,day,until,amount\n"
SCRIPT = """\
1,issue,1,2020-02-29,whole,40,0,1000.00,10.00
1,premium,1,2020-02-29,10.00
1,issue,2,2020-01-15,endowment,40,2,2000.00,20.00
1,premium,2,2020-01-15,20.00
1,premium,2,2021-01-15,20.00
1,issue,3,2020-03-10,term,40,10,3000.00,30.00
1,lapse,3,2020-06-01
1,issue,4,2020-03-10,limited,40,5,4000.00,40.00
1,premium,4,2020-03-10,40.00
1,claim,4,2020-12-24
1,settle,4,2021-01-04,1500.00
1,issue,5,2021-01-01,term,30,2,5000.00,50.00
1,issue,6,2021-03-05,term,30,2,6000.00,60.00
1,issue,7,2019-01-20,term,30,3,7000.00,70.00
1,premium,7,2019-01-20,70.00
1,premium,7,2020-01-20,70.00
1,premium,7,2021-01-20,70.00
"""
# By hand. On 2021-02-20: the premium of policy 1 is due on the 28th, since 2021 has no 29 February; 5 is in arrears, because its
# grace ended on 2021-02-01; 3 may be reinstated up to its third anniversary, for the premium of 2020 only. In April, policy 3 has
# missed one more premium, and the grace of 6 ends on that day. A year later 2 and 7 have ended; 7, a term policy, pays nothing.
LISTS = {
    "today": (["2021-02-20"], """\
lapse,5,2021-01-01,2021-02-01,50.00
reinstate,3,2020-06-01,2023-03-10,30.00
settle,4,2021-01-04,,2500.00
"""),
    "a leap day's premium": (["2021-02-20", "--within", "8"], """\
premium,1,2021-02-28,2021-03-31,10.00
lapse,5,2021-01-01,2021-02-01,50.00
reinstate,3,2020-06-01,2023-03-10,30.00
settle,4,2021-01-04,,2500.00
"""),
    "the last day of grace": (["2021-04-05"], """\
grace,6,2021-03-05,2021-04-05,60.00
lapse,5,2021-01-01,2021-02-01,50.00
lapse,1,2021-02-28,2021-03-31,10.00
reinstate,3,2020-06-01,2023-03-10,60.00
settle,4,2021-01-04,,2500.00
"""),
    "maturities": (["2022-01-16", "--within", "4"], """\
lapse,5,2021-01-01,2021-02-01,50.00
lapse,1,2021-02-28,2021-03-31,10.00
lapse,6,2021-03-05,2021-04-05,60.00
mature,2,2022-01-15,,2000.00
mature,7,2022-01-20,,0.00
reinstate,3,2020-06-01,2023-03-10,60.00
settle,4,2021-01-04,,2500.00
"""),
}
REFUSED = {
    "a journal cut short": (["2021-01-01", "cut.life"], "badjournal,badrecord,1: record 1: it is cut short"),
    "a text": (["2021-01-01", "text.life"], "badjournal,notajournal"),
    "a premium that no run accepts": (["2021-01-01", "bad.life"], "badjournal,badrecord,"),
    "no file": (["2021-01-01", "nowhere.life"], "No such file"),
    "a folder": (["2021-01-01", "."], "Is a directory"),
    "no leap year": (["2021-02-29"], "2021-02-29 is no day"),
    "after the last day": (["2200-01-01"], "2200-01-01 is no day"),
    "before the first day": (["1899-12-31"], "1899-12-31 is no day"),
    "too many days": (["2021-01-01", "--within", "367"], "a number of days from 0 to 366"),
    "days below 0": (["2021-01-01", "--within=-1"], "a number of days from 0 to 366"),
    "a claim as a line to send": (["2021-01-01", "--script", "lapse,claim"], "takes lapse and mature"),
    "no kind of line": (["2021-01-01", "--script", ""], "takes lapse and mature"),
}


@pytest.fixture
def office(folder: Folder) -> Folder:
    folder.post(SCRIPT)
    return folder


@pytest.mark.parametrize(("words", "listed"), LISTS.values(), ids=LISTS)
def test_the_list(office: Folder, words: list[str], listed: str) -> None:
    assert office.printed("due", *words) == HEAD + listed


def test_the_sums_are_printed(office: Folder) -> None:
    assert "mature: 2, 2000.00" in office.tools("due", "2022-01-16", "--within", "4").err.splitlines()


def test_lines_to_send_are_accepted(office: Folder) -> None:
    lines = office.printed("due", "2022-01-16", "--within", "4", "--script", "mature,lapse")
    assert lines == ("1,lapse,1,2022-01-16\n1,mature,2,2022-01-16\n1,lapse,5,2022-01-16\n1,lapse,6,2022-01-16\n"
                     "1,mature,7,2022-01-20\n")
    assert office.post(lines).count(",accepted,") == 5


@pytest.mark.parametrize(("words", "says"), REFUSED.values(), ids=REFUSED)
def test_refused(office: Folder, words: list[str], says: str) -> None:
    data = office.journal.read_bytes()
    office.write("cut.life", data[:100])
    office.write("text.life", "a page of text that is no journal\n")
    # the second record, a premium, has another amount; its commit byte is 1
    office.write("bad.life", data[:94] + b"\x01" + data[95:111] + b"\xff" + data[112:])
    office.refused("due", *words, says=says)


def test_a_book_without_records_has_nothing_due(folder: Folder) -> None:
    folder.write("new.life", b"")
    assert folder.printed("due", "2021-01-01", "new.life") == HEAD


class Lived:
    """A drawn book, and a check of which lines the program accepts on a copy of it."""

    def __init__(self, folder: Folder, seed: int, policies: int) -> None:
        commands = lived(seed, policies)
        self.folder, self.book = folder, Book(commands)
        folder.write("journal.life", file_of(commands))
        found = columns_at(str(folder.journal)).policies
        assert [found.policy(place) for place in range(len(found))] == list(map(for_tools, self.book.policies.values()))

    def accepted(self, script: list[str]) -> list[str]:
        copy = self.folder.below("copy")
        shutil.copy(self.folder.journal, copy.journal)
        answers = [line.split(",") for line in copy.post("\n".join(script)).splitlines() if not line.startswith("watcher,")]
        assert len(answers) == len(script)
        return sorted(row for row, answer in zip(script, answers) if answer[3] == "accepted")

    def due(self, *words: str) -> str:
        return self.folder.printed("due", *words)


@pytest.fixture(params=[(1, "2012-02-29"), (1, "2025-01-01"), (2, "2024-12-31"), (2, "2025-03-01")], ids=str)
def lived_on(request: pytest.FixtureRequest, folder: Folder) -> tuple[Lived, str]:
    seed, day = request.param
    return Lived(folder, seed, 300), day


def usual(kind: str, policy: Policy) -> str:
    """Returns an amount for a policy that isn't listed: the one that would be right if it were due."""
    cents = policy.premium if kind != "settle" else max(policy.outstanding, 1)
    return f"{cents // 100}.{cents % 100:02}"


@pytest.mark.parametrize("kind", ["lapse", "mature"])
def test_drawn_lines_to_send_are_all_that_are_accepted(lived_on: tuple[Lived, str], kind: str) -> None:
    drawn, day = lived_on
    listed = drawn.due(day, "--script", kind).splitlines()
    assert sorted(listed) == drawn.accepted([f"1,{kind},{number},{day}" for number in drawn.book.policies])
    # no maturity may be listed, because a drawn policy matures soon after its end
    assert listed or kind == "mature"


def test_drawn_lines_of_later_days_come_in_order(lived_on: tuple[Lived, str]) -> None:
    drawn, day = lived_on
    lines = drawn.due(day, "--script", "lapse,mature", "--within", "200").splitlines()
    assert sorted(lines) == drawn.accepted(lines)
    days = [line.split(",")[3] for line in lines]
    assert days == sorted(days) and lines


@pytest.mark.parametrize("kind", ["premium", "reinstate", "settle"])
def test_drawn_amounts_are_those_that_are_accepted(lived_on: tuple[Lived, str], kind: str) -> None:
    """Each policy is tried; one whose last posting has a later day can't be."""
    drawn, day = lived_on
    whats = ("premium", "grace") if kind == "premium" else (kind,)
    items = csv.DictReader(io.StringIO(drawn.due(day, "--within", "90")))
    amounts = {int(it["policy"]): it["amount"] for it in items if it["what"] in whats
               and str(drawn.book.policies[int(it["policy"])].last) <= day}
    asked = [f"1,{kind},{number},{day},{amounts.get(number, usual(kind, policy))}"
             for number, policy in drawn.book.policies.items()]
    assert drawn.accepted(asked) == sorted(row for row in asked if int(row.split(",")[2]) in amounts)
