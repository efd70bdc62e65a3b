"""Tests scripts before they are sent: they are checked, and run on a copy; nothing is posted."""
import pytest

from tests.support.folders import Folder

DAY = """\
1,premium,12,2025-02-28,310.00
1,premium,12,2025-02-27,311.00
2,settle,11,2022-05-01,50000.00

3,settle,13,2024-03-28,5000.00
1,claim,99,2025-03-01
4,issue,21,2035-01-01,term,30,10,1000.00,20.00
5,settle,15,2024-04-20,40000.00
6,settle,15,2024-04-20,50000.00
1,value,2025-02-28,now,1
"""
# By hand: policy 15 has 40000.00 outstanding; the settlement of 13 on this day is command 25; and the newest posting of 11 is
# dated 2024-03-10, 679 days after 2022-05-01. The lanes 5 and 6 may come in either order, and the row of lane 6 is refused in
# each.
REPORTED = """\
line 2 of one-order.csv: 1,premium,12,2025-02-27,311.00
  the day is before that of the lane's posting above, which is 2025-02-28
  the policy's premium is 310.00
  it is refused: beforelast,2025-02-28
  to do: post it with this day or a later one
line 3 of one-order.csv: 2,settle,11,2022-05-01,50000.00
  the day is 679 days before the policy's newest posting, which is of 2024-03-10
  0.00 is outstanding
  it is refused: beforelast,2024-03-10
  to do: post it with this day or a later one
line 5 of one-order.csv: 3,settle,13,2024-03-28,5000.00
  an accepted posting equals it, of position 25
  0.00 is outstanding
  it is refused: wrongstatus,settled
  to do: pay nothing more; refer it
line 6 of one-order.csv: 1,claim,99,2025-03-01
  policy 99 is unknown
  it is refused: unknown
  to do: correct the number, if it is mistyped; else look for the right folder
line 7 of one-order.csv: 4,issue,21,2035-01-01,term,30,10,1000.00,20.00
  the day is in the future (today is 2025-03-01): correct the date
"""
OVERSETTLED = """\
line 1 of wrong.csv: 5,settle,15,2025-05-04,40000.01
  the day is 401 days after the policy's newest posting, which is of 2024-03-29
  40000.00 is outstanding
  it is refused: oversettled,40000.00
  to do: pay no more than this
"""
# a limited plan with two premiums, and an endowment made paid up; the limited plan ends at age 131, about 90 years later
AGES = """\
1,upgrade
1,issue,31,2015-06-01,limited,40,2,1000.00,10.00
1,premium,31,2015-06-01,10.00
1,premium,31,2016-06-01,10.00
1,issue,32,2015-06-01,endowment,40,10,1000.00,10.00
1,premium,32,2015-06-01,10.00
1,paidup,32,2016-06-01,100.00
"""


@pytest.fixture
def office(small_office: Folder) -> Folder:
    """The small office; no test of this module posts to it."""
    small_office.write("day.csv", DAY)
    small_office.write("one-order.csv", "".join(row for row in DAY.splitlines(keepends=True) if not row.startswith(("5", "6"))))
    return small_office


def test_what_is_reported_of_a_day(office: Folder) -> None:
    before = office.journal.read_bytes()
    assert office.finds("check", "one-order.csv", "--today", "2025-03-01", says="^rows: 7, reported: 5;").out == REPORTED
    assert office.journal.read_bytes() == before


def test_a_row_that_is_refused_in_each_order(office: Folder) -> None:
    office.finds("check", "day.csv", "--today", "2025-03-01", says="^rows: 9, reported: 6;")


def test_nothing_is_reported_of_a_right_row(office: Folder) -> None:
    office.write("right.csv", "5,settle,15,2024-04-20,15000.00\n5,settle,15,2024-04-20,25000.00\n")
    assert office.printed("check", "right.csv") == ""


def test_a_claim_long_after_the_newest_posting(folder: Folder) -> None:
    """The policy has premiums still to pay, so it can't have been without a posting for so long."""
    folder.post("1,issue,7,2024-01-01,whole,30,0,60.00,1.00\n")
    folder.write("claim.csv", "1,claim,7,2025-06-01\n")
    reported = folder.finds("check", "claim.csv", "--today", "2025-06-01", says="^rows: 1, reported: 1;").out
    assert "  the day is 517 days after the policy's newest posting, which is of 2024-01-01" in reported.splitlines()


def test_more_than_is_outstanding(office: Folder) -> None:
    office.write("wrong.csv", "5,settle,15,2025-05-04,40000.01\n")
    assert office.finds("check", "wrong.csv", "--today", "2025-05-04", says="^rows: 1, reported: 1;").out == OVERSETTLED


@pytest.fixture
def aged(examples_basis: Folder) -> Folder:
    assert examples_basis.post(AGES).count(",accepted,") == 7
    return examples_basis


def test_days_many_years_later_that_are_meant(aged: Folder) -> None:
    sent = aged.printed("due", "2025-07-01", "--script", "mature")
    aged.write("sent.csv", sent + "1,claim,31,2025-07-02\n")
    assert sent and aged.printed("check", "sent.csv") == ""


def test_a_maturity_years_after_the_end(aged: Folder) -> None:
    aged.write("late.csv", "1,mature,32,2026-07-07\n")
    reported = aged.finds("check", "late.csv", "--today", "2026-07-07", says="^rows: 1, reported: 1;").out
    assert "  the day is 401 days after the end of the policy's term, 2025-06-01" in reported.splitlines()


def test_a_dry_run_prints_what_the_run_prints_and_posts_nothing(office: Folder) -> None:
    office.write("next.csv", "1,premium,12,2025-02-28,310.00\n1,value,2025-02-28,now,1\n")
    before = office.journal.read_bytes()
    printed = office.printed("dry-run", "next.csv")
    assert office.journal.read_bytes() == before
    assert printed == office.post(office.read("next.csv"))


def test_a_dry_run_beside_another_run(office: Folder) -> None:
    with office.in_use():
        office.refused("dry-run", "one-order.csv", says="in use by another run")


def test_check_names_doubtful_issues(table_q: Folder) -> None:
    """For an amount of 1000.00 the net premium by table Q is 381.68, as in the test of `day`'s limits."""
    rows = ["1,issue,1,2024-05-01,endowment,0,3,1000.00,400.00", "1,issue,2,1901-05-01,endowment,0,3,1000.00,40.00"]
    table_q.write("a.csv", "\n".join(rows))
    printed = table_q.printed("check", "a.csv", "--today", "2024-06-03", status=1)
    assert printed == ("line 2 of a.csv: 1,issue,2,1901-05-01,endowment,0,3,1000.00,40.00\n"
                       "  the day is before that of the lane's posting above, which is 2024-05-01\n"
                       "  its day is 44959 days before today, 2024-06-03, and 400 are allowed\n"
                       "  its premium 40.00 lies outside 0.5 to 4 times the net premium 381.68 of basis.csv\n")
