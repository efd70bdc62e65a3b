"""Tests that every number of a chart is that of the table under it and of the program, and that each mark leads to a list that
adds up to it."""
import datetime
import re
import time
from collections import Counter
from pathlib import Path
from typing import Iterable
from urllib.parse import parse_qsl, urlsplit

import pytest

from life_tools.journal.file import file_of
from life_tools.rules.commands import Command
from tests.rules.policies import GRACE, Policy, anniversary, decide
from tests.support.folders import Folder
from tests.support.lived_books import lived as commands_lived
from tests.support.program import Program
from tests.support.windows import PATIENCE, Answer, Window
from tests.tools.window.conftest import POLICIES

pytestmark = pytest.mark.needs("python:flask")


def cents(text: str) -> int:
    return int(text.replace(",", "").replace(".", "").replace("+", ""))


def money(amount: int) -> str:
    return f"{amount // 100:,}.{amount % 100:02}"


def first_page(window: Window) -> Answer:
    ends = time.monotonic() + PATIENCE
    while time.monotonic() < ends:
        answer = window.page("/1/")
        if "<iframe" not in answer.page:
            return answer
        time.sleep(0.2)
    raise AssertionError("the year-ends aren't valued")


def told(marks: Iterable[str]) -> dict[str, str]:
    return dict(each.rsplit(": ", 1) for each in marks)


def behind(answer: Answer, label: str) -> list[list[str]]:
    captions = re.findall(r"<caption[^>]*>(.*?)</caption>", answer.page)
    return answer.rows(next(each for each in captions if each.startswith(label)))


# --- the first page ---

# the page runs the program and the tools three times for each of twelve year-ends
@pytest.mark.timeout(1200)
def test_year_ends_are_what_the_program_prints(window: Window, lived: Folder) -> None:
    assert compared_year_ends(first_page(window), lived) >= 10


def compared_year_ends(answer: Answer, lived: Folder) -> int:
    """Compares each year-end of the chart and of its table with the program, and returns their number."""
    marks, rows = told(answer.marks("Reserve and amount insured")), behind(answer, "Reserve and amount insured")
    for day, position, insured, amount, lower, upper, words in rows:
        at = str(cents(position))
        assert at == lived.tools("position-on", day, "journal.life").out.strip()
        total = lived.printed("at", at, "value", day, "--mean").splitlines()[-1].split(",")
        assert [cents(lower), cents(upper), cents(words)] == [cents(total[1]), cents(total[2]), int(total[3])]
        state = [line.split(",") for line in lived.printed("at", at, "state").splitlines() if line.startswith("policy,")]
        covered = [row for row in state if row[2] in ("inforce", "paidup")]
        assert (cents(insured), cents(amount)) == (len(covered), sum(cents(row[6]) for row in covered))
        year = day[:4]
        assert marks[f"{year}, mean reserve, upper bound"] == upper and marks[f"{year}, amount insured"] == amount
    assert len(marks) == 2 * len(rows)
    return len(rows)


def test_statuses_are_those_of_the_state(window: Window, lived: Folder) -> None:
    compare_statuses(window.page("/1/"), lived)


def compare_statuses(answer: Answer, lived: Folder) -> None:
    state = Counter(line.split(",")[2] for line in lived.printed("at", str(count_of(lived)), "state").splitlines()
                    if line.startswith("policy,"))
    words = {"inforce": "in force", "paidup": "paid up"}
    wanted = {words.get(status, status): f"{count:,}" for status, count in state.items()}
    assert told(answer.marks("Policies by status")) == wanted
    assert {row[0]: row[1] for row in answer.rows("Policies by status")} == wanted


def count_of(lived: Folder) -> int:
    return (lived.journal.stat().st_size - 18) // 65


def balance(lived: Folder, account: str) -> int:
    printed = lived.printed("at", str(count_of(lived)), "state")
    return next(cents(line.split(",")[2]) for line in printed.splitlines() if line.startswith(f"balance,{account},"))


def test_claims_and_maturities_make_the_account_incurred(window: Window, lived: Folder) -> None:
    """The years that are shown are compared posting by posting; the sum of all years is compared with the account."""
    answer = window.page("/1/")
    marks, rows = told(answer.marks("Claims and maturities")), behind(answer, "Claims and maturities")
    wanted: Counter[tuple[str, str]] = Counter()
    for command, policy in steps_of(commands_lived(3, POLICIES)):
        if command.kind in ("claim", "mature") and policy.status != "expired":
            wanted[str(command.on.year), command.kind] += policy.amount
    assert sum(wanted.values()) == balance(lived, "incurred")
    for year, claims, maturities in rows:
        assert (cents(claims), cents(maturities)) == (wanted[year, "claim"], wanted[year, "mature"])
        assert marks[f"{year}, claims"] == claims and marks[f"{year}, maturities"] == maturities


def steps_of(commands: Iterable[Command]) -> Iterable[tuple[Command, Policy]]:
    """Yields each command with the policy that it leaves, by the rules for one command after another."""
    policies: dict[int, Policy] = {}
    for command in commands:
        if command.kind != "upgrade":
            after = decide(policies.get(command.number), command)
            assert isinstance(after, Policy)
            policies[command.number] = after
            yield command, after


def installments() -> tuple[Counter[str], Counter[str]]:
    """Returns by months what fell due, and was paid or is unpaid on a policy in force, and what was received; computed command
    by command."""
    due: Counter[str] = Counter()
    received: Counter[str] = Counter()
    policies: dict[int, Policy] = {}
    for command, policy in steps_of(commands_lived(3, POLICIES)):
        before = policies.get(command.number)
        if command.kind in ("premium", "reinstate"):
            assert before
            received[f"{command.on:%Y-%m}"] += command.amount
            for nth in range(before.paid, policy.paid):
                due[f"{anniversary(policy.issued, nth):%Y-%m}"] += command.amount // (policy.paid - before.paid)
        policies[command.number] = policy
    until = datetime.date(2025, 3, 31)
    for policy in policies.values():
        if policy.status == "inforce":
            for nth in range(policy.paid, policy.paid + policy.missed(until)):
                due[f"{anniversary(policy.issued, nth):%Y-%m}"] += policy.premium
    return due, received


def test_premiums_by_month(window: Window, lived: Folder) -> None:
    answer = window.page("/1/")
    marks, rows = told(answer.marks("Premiums due and received")), behind(answer, "Premiums due and received")
    due, received = installments()
    assert sum(received.values()) == -balance(lived, "premiums")
    assert [row[0] for row in rows][-1] == "2025-03" and len(rows) == 21
    for month, was_due, was_received in rows:
        assert (cents(was_due), cents(was_received)) == (due[month], received[month]), month
        assert marks[f"{month}, due"] == was_due and marks[f"{month}, received"] == was_received


def test_what_falls_due_next_is_what_due_lists(window: Window, lived: Folder) -> None:
    """The premiums of the next month whose predecessors are paid are those that `due` lists within its days."""
    printed = lived.tools("due", "2024-12-31", "--within", "31").out.splitlines()
    listed = sum(cents(line.split(",")[4]) for line in printed
                 if line.startswith("premium,") and line.split(",")[2] > "2024-12-31")
    late = sum(policy.premium for policy in {command.number: policy for command, policy in
                                             steps_of(commands_lived(3, POLICIES))}.values() if policy.status == "inforce"
               and (due := policy.due) and due <= datetime.date(2024, 12, 31)
               for nth in range(policy.paid, policy.paid + policy.missed(datetime.date(2025, 1, 31)))
               if f"{anniversary(policy.issued, nth):%Y-%m}" == "2025-01")
    paid = sum(command.amount for command, policy in steps_of(commands_lived(3, POLICIES)) if command.kind == "premium"
               and f"{anniversary(policy.issued, policy.paid - 1):%Y-%m}" == "2025-01")
    rows = {row[0]: row for row in behind(window.page("/1/"), "Premiums due and received")}
    assert cents(rows["2025-01"][1]) == listed + late + paid


def test_what_waits_is_what_due_lists(window: Window, lived: Folder) -> None:
    today = datetime.date.today()
    printed = [line.split(",") for line in lived.tools("due", str(today)).out.splitlines() if line.startswith("lapse,")]
    row = next(row for row in window.page("/1/").rows("What waits for a person") if row[0] == "past grace")
    assert row[2:] == [f"{len(printed):,}", money(sum(cents(each[4]) for each in printed))]
    assert GRACE.days == 31


def test_each_mark_leads_to_a_list_that_adds_up_to_it(window: Window) -> None:
    page = first_page(window).page
    charts = re.findall(r'<svg class="chart".*?</svg>', page, re.S)
    seen = 0
    for chart in charts:
        marks = re.findall(r'<a href="([^"]*)"><rect[^>]*><title>(.*?)</title>', chart)
        for link, says in marks[-6:]:
            answer = window.page(link.replace("&amp;", "&"))
            value = says.rsplit(": ", 1)[-1]
            seen += 1
            if "/premiums?" in link or "/postings?" in link:
                if value not in ("0.00", "0"):
                    assert answer.page.count(f">{value}<") >= 1 or value in answer.text, says
            else:
                assert value.split(" of ")[0] in answer.text, f"{says}: {link}: {answer.text[:400]}"
    assert seen > 15


def test_a_chart_can_be_read_by_those_who_dont_see_it(window: Window) -> None:
    page = window.page("/1/").page
    charts = re.findall(r'<svg class="chart"[^>]*>', page)
    assert len(charts) == 5 and all('role="img"' in each and re.search('aria-label="[^"]{20,}"', each) for each in charts)
    assert page.count("<summary>The same as a table</summary>") == 4 and "<script" not in page
    assert page.count('class="legend"') == 4
    for name in ("end of year", "month", "year", "amount", "premiums"):
        assert re.search(rf'class="middle axis"[^>]*>{name}', page), f"no axis is named {name}"


@pytest.mark.timeout(1200)
@pytest.mark.parametrize("seed", [11, 12])
def test_charts_of_drawn_books(tools: Path, program: Program, tmp_path: Path, seed: int) -> None:
    """Two more books, by a basis that begins after some of their policies, which therefore have no value."""
    drawn = Folder(tmp_path / "drawn", program)
    drawn.path.mkdir()
    drawn.write("journal.life", file_of(commands_lived(seed, 60)))
    drawn.take("g.xml")
    drawn.write("basis.csv", "2001-01-01,g.xml,400\n2012-01-01,g.xml,300\n")
    with Window(tools, drawn.path) as window:
        answer = first_page(window)
        assert compared_year_ends(answer, drawn) > 0
        compare_statuses(answer, drawn)
        for label, names in (("Premiums due and received", ("due", "received")),
                             ("Claims and maturities", ("claims", "maturities"))):
            table = {f"{row[0]}, {name}": text for row in behind(answer, label) for name, text in zip(names, row[1:])}
            assert told(answer.marks(label)) == table and any(cents(text) for text in table.values())


# --- movements, groups and bases ---

AGES = range(0, 100, 10)

MOVEMENT = "on1=2021-12-31&p1={first}&on2=2022-12-31&p2={last}"


def moments(lived: Folder) -> str:
    first, last = (lived.tools("position-on", f"{year}-12-31", "journal.life").out.strip() for year in (2021, 2022))
    return MOVEMENT.format(first=first, last=last)


def test_the_waterfall_is_the_movement(window: Window, lived: Folder) -> None:
    answer = window.page(f"/1/movement?{moments(lived)}")
    rows = [*answer.rows("What moved"), answer.rows("What moved", "tfoot")[0]]
    assert told(answer.marks("The reserve from")) == {row[0].removesuffix(" reserve"): row[3] for row in rows}
    words = re.findall(r"[0-9-]+", moments(lived).replace("on1=", "").replace("p1=", "").replace("on2=", "").replace("p2=", ""))
    printed = lived.printed("movement", *words)
    for name, policies, lower, upper in rows:
        assert re.search(rf"^{name} +{cents(policies)} +{lower.replace(',', '')} +{upper.replace(',', '')}$", printed, re.M), name


def test_a_movement_of_mean_reserves(window: Window, lived: Folder) -> None:
    """The page names the reserves that it shows; its opening and closing reserves are what the tool prints for them."""
    answer = window.page(f"/1/movement?{moments(lived)}&measure=mean")
    words = re.findall(r"[0-9-]+", re.sub("(on|p)[12]=", "", moments(lived)))
    closing = re.search("^closing reserve +[0-9]+ +([0-9.]+)", lived.printed("movement", *words, "--mean"), re.M)
    assert closing and answer.rows("What moved", "tfoot")[0][2].replace(",", "") == closing[1]
    assert "mean reserves." in answer.text and "terminal reserves." in window.page(f"/1/movement?{moments(lived)}").text
    line = next(each for each in answer.links() if "/moved?" in each)
    assert "measure=mean" in line and window.page(line).status == 200


def test_a_line_of_a_movement_leads_to_its_policies(window: Window, lived: Folder) -> None:
    answer = window.page(f"/1/movement?{moments(lived)}")
    for row in answer.rows("What moved")[1:]:
        link = next(each for each in answer.links() if "/moved?" in each and each.endswith(f"line={row[0].replace(' ', '+')}"))
        found = window.page(link)
        assert f"{row[1]} {'policy' if row[1] == '1' else 'policies'} of the line {row[0]}" in found.text
        if row[1] != "0":
            assert found.rows(f"Policies of the line {row[0]}", "tfoot")[0][1:] == row[2:]


def words_of(link: str) -> dict[str, str]:
    return {name: text.replace(", ", ",") for name, text in parse_qsl(urlsplit(link).query)}


def test_a_group_of_a_report_leads_to_its_policies(window: Window, lived: Folder) -> None:
    position = lived.tools("position-on", "2022-12-31", "journal.life").out.strip()
    answer = window.page(f"/1/report?on=2022-12-31&p={position}")
    links = [each for each in answer.links() if "/group?" in each]
    names = {"in force": "inforce", "paid up": "paidup", **{f"{age} to {age + 9}": f"{age:03}-{age + 9:03}" for age in AGES}}
    for caption, key in (("By plan", "plan"), ("By status", "status"), ("By age at issue", "age-band"),
                         ("By row of the basis", "basis-row")):
        for row in answer.rows(caption):
            wanted = {"by": key, "group": names.get(row[0], row[0]).replace(", ", ",")}
            found = window.page(next(each for each in links if wanted.items() <= words_of(each).items()))
            assert f"{row[1]} of the valuation on 2022-12-31" in found.text, row
            assert found.rows("Policies of the group", "tfoot")[0][2:] == [row[3], row[4], row[5]]
    policy = window.page(next(each for each in window.page(links[0]).links() if "/policy?" in each))
    assert "Printed:" in policy.text and policy.rows("Postings")


def test_the_cells_of_the_exhibit_lead_to_what_they_count(window: Window, lived: Folder) -> None:
    answer = window.page(f"/1/statement?{moments(lived)}")
    counts = {row[0]: row for row in answer.rows("Exhibit of life insurance: number of policies")}
    amounts = {row[0]: row for row in answer.rows("Exhibit of life insurance: amounts")}
    links = [each for each in answer.links() if "/statement/cell?" in each
             and {"sheet": "exhibit", "group": "total"}.items() <= words_of(each).items()]
    seen = set()
    for link in links:
        line = re.findall("line=([^&]*)", link)[0].replace("+", " ")
        if line == "made paid up" or line in seen:
            continue
        seen.add(line)
        total = window.page(link).rows(f"Exhibit of life insurance: {line}", "tfoot")[0]
        assert total[-1] == amounts[line][-1], line
        if line != "decreased":
            assert total[1].lstrip("-") == counts[line][-2].lstrip("-"), line
    assert {"in force at the beginning", "in force at the end", "issued", "lapse"} <= seen


def test_two_bases_side_by_side(window: Window, lived: Folder) -> None:
    position = lived.tools("position-on", "2022-12-31", "journal.life").out.strip()
    answer = window.page(f"/1/bases?on=2022-12-31&p={position}&other=other.csv")
    one, two = (lived.printed("at", position, "value", "2022-12-31", "--basis", name).splitlines()[-1].split(",")[2]
                for name in ("basis.csv", "other.csv"))
    total = answer.rows("By plan", "tfoot")[0]
    assert [cents(each) for each in total[2:5]] == [cents(one), cents(two), cents(two) - cents(one)]
    rows, marks = answer.rows("By plan"), told(answer.marks("The reserve by plan"))
    for name, _, first, second, difference, *_ in rows:
        assert cents(difference) == cents(second) - cents(first)
        assert marks[f"{name}, basis.csv"] == first and marks[f"{name}, other.csv"] == second
    groups = [each for each in answer.links() if "/group?" in each and "by=plan" in each and "group=endowment" in each]
    sums = {window.page(each).rows("Policies of the group", "tfoot")[0][-1] for each in groups}
    assert sums == next({row[2], row[3]} for row in rows if row[0] == "endowment")
