"""Tests what a clerk, an administrator, an actuary, an auditor and an operator do in the window, in Chromium at the widths of
a desk, a tablet and a phone, in light and dark. What the pages say is compared with what the program and the tools print."""
import json
import re
import shutil
from pathlib import Path
from typing import Any, Iterator

import pytest

from tests.support.folders import EXAMPLES, Folder
from tests.support.program import ROOT, Program
from tests.support.windows import Window

pytestmark = [pytest.mark.browser, pytest.mark.needs("python:flask", "python:selenium")]
YEAR_END = "2022-12-31"
# statuses that a person reads in other words than the program prints
SAYS = {"inforce": "in force", "paidup": "paid up"}
SHOTS = ROOT / "out" / "shots"
TAB = "\ue004"


class Book:
    """What the program and the tools print for the book."""

    def __init__(self, folder: Folder) -> None:
        self.folder = folder
        self.told: dict[Any, Any] = {}
        self.begun = self.count()

    def life(self, *words: str, given: str = "") -> str:
        ended = self.folder.life(*words, given=given)
        assert ended.status == 0, ended
        return ended.out

    def tool(self, *words: str) -> tuple[str, str]:
        key = self.folder.journal.stat().st_size, words
        if key not in self.told:
            ended = self.folder.tools(*words)
            self.told[key] = ended.out, ended.err
        found: tuple[str, str] = self.told[key]
        return found

    def count(self) -> int:
        return int(self.life("state").splitlines()[-1].split(",")[1])

    def total(self, *words: str) -> list[str]:
        return [apart(each) for each in self.life("value", *words).splitlines()[-1].split(",")[1:-1]]


def apart(number: str) -> str:
    whole, _, cents = number.partition(".")
    return f"{int(whole):,}" + (f".{cents}" if cents else "")


def cents(text: str) -> int:
    return int(text.replace(",", "").replace(".", ""))


def demand(right: object, what: str) -> None:
    assert right, what


@pytest.fixture(scope="module")
def office(tmp_path_factory: pytest.TempPathFactory, program: Program) -> Folder:
    """A book of drawn policies, the small office of the examples and policy 7001, with a run in its log and a backup."""
    folder = Folder(tmp_path_factory.mktemp("ways") / "book", program)
    folder.path.mkdir()
    for name in ("q.xml", "g.xml"):
        folder.write(name, (EXAMPLES / name).read_bytes())
    folder.write("basis.csv", "1900-01-01,g.xml,400\n2020-01-01,q.xml,0\n2020-02-01,g.xml,400\n")
    folder.write("other.csv", "1900-01-01,g.xml,300\n")
    small = (EXAMPLES / "small-office.csv").read_text()
    renumbered = re.sub(r"^(1,[a-z]+,)(1[1-7]),", r"\g<1>700\2,", small, flags=re.M)
    lines = [line for line in renumbered.splitlines() if ",7001," not in line]
    # a claim on the day of the posting before it, which is paid at once
    lines += ["1,issue,70021,2024-04-04,term,40,20,1000.00,50.00", "1,premium,70021,2024-04-04,50.00", "1,claim,70021,2024-04-04",
              "1,settle,70021,2024-04-04,1000.00"]
    drawn = folder.life("generate", "1", "400", "1").out
    folder.post(drawn + (EXAMPLES / "first-minute.csv").read_text() + "\n".join(lines) + "\n")
    folder.write("log/runs/000001/run.json", json.dumps({"format": 1, "state": "begun", "begun": "2024-01-02T10:00:00+00:00",
                                                         "before": 3, "after": None, "status": None}))
    (folder.path / "backups").mkdir()
    shutil.copy(folder.journal, folder.path / "backups" / "no.backup")
    return folder


@pytest.fixture(scope="module")
def window(tools: Path, office: Folder) -> Iterator[Window]:
    with Window(tools, office.path) as opened:
        yield opened


@pytest.fixture(scope="module")
def book(office: Folder) -> Book:
    return Book(office)


SIZES = {"desk": ((1280, 900), "light"), "desk in the dark": ((1280, 900), "dark"), "tablet": ((768, 1000), "light"),
         "phone": ((390, 844), "light"), "phone in the dark": ((390, 844), "dark")}


@pytest.fixture(scope="module", params=SIZES)
def browser(request: pytest.FixtureRequest, window: Window) -> Iterator[Any]:
    from tests.support.browser import Browser
    SHOTS.mkdir(parents=True, exist_ok=True)
    size, scheme = SIZES[request.param]
    shown = Browser(size, SHOTS, scheme)
    try:
        shown.enter(window)
        yield shown
    finally:
        shown.close()


@pytest.mark.parametrize("way", ["clerk", "administrator", "actuary", "auditor", "operator", "visitor"])
def test_way(browser: Any, window: Window, book: Book, way: str) -> None:
    globals()[way](browser, book, f"http://127.0.0.1:{window.port}{window.root}")
    demand(browser.driver.get_cookies() and not browser.driver.execute_script("return document.cookie"),
           "the cookie is seen by scripts")


def clerk(browser: Any, book: Book, base: str) -> None:
    """Finds a policy by its number, reads it, and takes the lines of what is due."""
    browser.open(base + "/1/")
    browser.look("book")
    demand(cents(browser.rows("Policies by plan and status", "tfoot")[0][2]) ==
           len([line for line in book.life("state").splitlines() if line.startswith("policy,")]), "the count of policies")
    browser.type("Number of a policy, or part of it", "7001", is_sent=True)
    browser.says("7 policies; shown are 1 to 7.", "Exactly this number has policy 7001.")
    browser.press("policy 7001")
    browser.says("Policy 7001", "An endowment of 1,000.00 for 3 years on a life aged 0 at issue, issued on 2020-01-01, for "
                                "400.00 a year, "
                 "at most 3 times; the cover ends on 2023-01-01.",
                 "In force: 2 premiums paid; the next is due on 2022-01-01 and can be "
                 "paid until 2022-02-01.")
    postings = [row[:4] for row in browser.rows("Postings")]
    entries = [line.split(",") for line in book.life("state", "7001").splitlines() if line.startswith("entry,")]
    wanted = [[apart(it[1]), it[3] if it[2] != "issue" else it[4], it[2]] for it in ([*each[:2], *each[2:]] for each in entries)]
    demand([row[0] for row in postings] == [row[0] for row in wanted], f"positions of postings: {postings}")
    demand(browser.rows("Postings")[1][5] == "cash 400.00, premiums -400.00", "what a premium booked")
    browser.type("On the day", "2022-01-15", is_sent=True)
    browser.says("a premium of 400.00 was due on 2022-01-01, and can still be paid until 2022-02-01")
    browser.look("policy")
    browser.press("The day")
    day_lists(browser, book)


def day_lists(browser: Any, book: Book) -> None:
    day = "2022-01-15"
    browser.type("Day", day)
    browser.type("And what falls due within so many days", "30", is_sent=True)
    browser.look("day")
    printed, _ = book.tool("due", day, "--within", "30")
    items = [line.split(",") for line in printed.splitlines()[1:]]
    titles = {"premium": "Premiums due", "grace": "In the days of grace", "lapse": "To be lapsed", "mature": "Maturities",
              "reinstate": "May be reinstated", "settle": "To be settled"}
    rows = {row[0]: row for row in browser.rows("Due by kind")}
    for what, title in titles.items():
        sums = [int(it[4].replace(".", "")) for it in items if it[0] == what]
        demand((cents(rows[title][2]), cents(rows[title][3])) == (len(sums), sum(sums)),
               f"{title}: {rows[title]}, by due {len(sums)}, {sum(sums)}")
    demand(len(items) > 60, f"only {len(items)} items are due")
    browser.press("To be lapsed")
    lapses = [it for it in items if it[0] == "lapse"]
    read = browser.rows("To be lapsed")
    demand(len(read) == min(50, len(lapses)) and {row[0] for row in read} <= {it[1] for it in lapses}, "the list of lapses")
    script = book.tool("due", day, "--within", "30", "--script", "lapse")[0].splitlines()
    demand(browser.driver.find_element("tag name", "pre").text.split("\n") == script[:200], "the lines to send")
    browser.look("day-list")
    demand(cents(browser.rows("To be lapsed", "tfoot")[0][3]) == sum(int(it[4].replace(".", "")) for it in lapses),
           "the sum of lapses")


def administrator(browser: Any, book: Book, base: str) -> None:
    """Looks through lists, and goes to what was posted since; an earlier page stays as it was."""
    browser.open(base + "/1/find")
    browser.choose("Plan", "endowment")
    browser.press("Find")
    state = [line.split(",") for line in book.life("state").splitlines() if line.startswith("policy,")]
    wanted = sorted((int(it[1]) for it in state if it[3] == "endowment"))
    browser.says(f"{len(wanted):,} policies; shown are 1 to 50.")
    demand([int(row[0]) for row in browser.rows("Policies")] == wanted[:50], "the first page of endowments")
    browser.press("last")
    demand([int(row[0]) for row in browser.rows("Policies")] == wanted[(len(wanted) - 1) // 50 * 50:], "the last page")
    browser.press("first")
    # a narrow list has no heads to press
    if browser.size[0] > 1000:
        browser.press("amount insured")
        browser.press("amount insured")
        amounts = [cents(row[5]) for row in browser.rows("Policies")]
        most = sorted((int(it[6].replace(".", "")) for it in state if it[3] == "endowment"), reverse=True)
        demand(amounts == most[:50], "the list by amounts")
    browser.look("find")
    grows(browser, book, base)


def grows(browser: Any, book: Book, base: str) -> None:
    at = book.count()
    browser.open(f"{base}/1/find?number=7001&at={at}")
    before = browser.rows("Policies")
    number = 8000001 + at
    book.life("run", given=f"1,issue,{number},2024-04-05,endowment,30,20,1000.00,40.00\n1,premium,{number},2024-04-05,40.00\n")
    browser.open(f"{base}/1/find?number=7001&at={at}")
    browser.says("The book has grown: 2 postings after this position.")
    demand(browser.rows("Policies") == before, "a page of a position changed")
    browser.leave(False)
    browser.press("Go to the newest position")
    demand(browser.facts()["postings"] == f"{at + 2:,}", "the newest position")
    browser.open(f"{base}/1/find?number={number}")
    browser.says(f"Policy {number}", "In force: 1 premium paid")
    browser.open(f"{base}/1/find?number={number}&at={at}")
    browser.says("No policy matches what is asked for.", "This is an earlier position.")


def actuary(browser: Any, book: Book, base: str) -> None:
    """Chooses a year-end, values it, sees that everything adds up, and has one reserve worked out."""
    browser.open(base + "/1/month")
    browser.type("Opening day", "2021-12-31")
    browser.type("Closing day", YEAR_END)
    browser.press("Choose")
    browser.look("month")
    position = book.tool("position-on", YEAR_END, "journal.life")[0].strip()
    demand(browser.field("Position").get_attribute("value") == position, "the position of the year's end")
    browser.press(f"Value the book on {YEAR_END}")
    reads_report(browser, book, position)
    browser.press("Month and year")
    browser.type("Opening day", "2021-12-31")
    browser.type("Closing day", YEAR_END)
    browser.press("Choose")
    browser.press(f"What moved from 2021-12-31 to {YEAR_END}")
    reads_movement(browser, book, position)
    browser.open(base + "/1/month?before=2021-12-31&on=2024-06-30")
    browser.press("State 2021-12-31 to 2024-06-30")
    reads_statement(browser, book)
    reads_reserve(browser, base)


def reads_report(browser: Any, book: Book, position: str) -> None:
    total = book.total(YEAR_END, "--at", position)
    facts = browser.facts()
    demand([facts["lower bound"], facts["upper bound"]] == total, f"the total is {total}, and the page says {facts}")
    for caption in ("By plan", "By status", "By year of issue", "By age at issue", "By row of the basis"):
        rows, (added, printed) = browser.rows(caption), browser.rows(caption, "tfoot")
        for place in (4, 5):
            demand(sum(cents(row[place]) for row in rows) == cents(printed[place]) == cents(total[place - 4]),
                   f"{caption}: {printed}")
        demand(sum(cents(row[1]) for row in rows) == cents(added[1]) == cents(printed[1]), f"{caption}: policies")
        demand(sum(cents(row[3]) for row in rows) == cents(added[3]), f"{caption}: amounts")
    balances = {it[1]: apart(it[2]) for it in (line.split(",") for line in book.tool("at", position, "state")[0].splitlines())
                if it[0] == "balance" and not it[2].startswith("-")}
    demand(all(facts[name] == amount for name, amount in balances.items()), f"balances {balances}")
    browser.says("printed by life", "added by the window")
    browser.look("report")


def reads_movement(browser: Any, book: Book, position: str) -> None:
    rows, closing = browser.rows("What moved"), browser.rows("What moved", "tfoot")[0]
    for place in (2, 3):
        added = sum(signed(row[place]) for row in rows)
        demand(added == signed(closing[place]) == cents(book.total(YEAR_END, "--at", position)[place - 2]),
               f"the movement: {closing}")
    # on a phone each card has the heads, by its style
    heads = () if browser.is_phone else ("by lower bounds", "by upper bounds")
    browser.says("Checked: the lines add up to", "each column is a sum of the printed rows' bounds", *heads)
    browser.look("movement")


def reads_statement(browser: Any, book: Book) -> None:
    """Asserts that each sheet adds up as it is read, and ends with what the program prints."""
    browser.says("Checked: the increase in reserves ends with exactly these")
    last = book.tool("position-on", "2024-06-30", "journal.life")[0].strip()
    total, increase = book.total("2024-06-30", "--at", last), browser.rows("Increase in reserves")
    for place in (2, 3):
        added = sum(signed(row[place]) for row in increase[:-1])
        demand(added == signed(increase[-1][place]) == cents(total[place - 2]),
               f"the increase in reserves: {increase[-1]}, by life {total}")
    for part in ("number of policies", "amounts"):
        exhibit = browser.rows(f"Exhibit of life insurance: {part}")
        names = [row[0] for row in exhibit]
        begins, ends = names.index("in force at the beginning"), names.index("in force at the end")
        for place in range(1, 7):
            added = sum(signed(row[place]) for row in exhibit[begins:ends])
            demand(added == signed(exhibit[ends][place]), f"column {place} of the {part}: {added}, not {exhibit[ends][place]}")
    reserves = browser.rows("Reserves by valuation basis")
    demand(sum(signed(row[-2]) for row in reserves[:-1]) == signed(reserves[-1][-2]) == cents(total[1]), "reserves by basis")
    browser.look("statement")


def signed(text: str) -> int:
    return int(text.replace(",", "").replace(".", ""))


def reads_reserve(browser: Any, base: str) -> None:
    browser.open(base + "/1/policy?number=7001")
    label = "On the day"
    fields = [each for each in browser.driver.find_elements("tag name", "label") if each.text.strip() == label]
    field = browser.driver.find_element("id", fields[1].get_attribute("for"))
    browser.driver.execute_script("arguments[0].value = '2021-01-01'", field)
    browser.leave()
    field.submit()
    browser.settle()
    demand(list(browser.facts().values())[:2] == ["127.22", "127.23"], f"the reserve of 7001 is {browser.facts()}")
    browser.says("Row of the basis from 2020-01-01: table q.xml, interest of 0 %.", "Printed: 127.22,127.23: the same.",
                 "Its limit, whole life at age 1 on 4 premiums")
    # by hand (docs/explanation/reserves.md): (1 + 0.3704 - 0.1)/2.62, and 1 less 1.8 times that
    formulas = [re.sub(r"\s", "", each.get_attribute("textContent"))
                for each in browser.driver.find_elements("tag name", "math")]
    for wanted in ("=0.555555556", "=0.37037037", "=0.484874187", "=0.127226463", "127.22≤127.226463104≤127.23"):
        demand(wanted in formulas, f"{wanted} isn't worked out: {formulas}")
    tall = [each for each in browser.driver.find_elements("tag name", "math") if each.size["height"] > 8]
    demand(len(tall) == len(formulas), "mathematics isn't shown")
    browser.press("The same as a table")
    curve = [row[2:] for row in browser.rows("The reserve on each anniversary")]
    demand(curve == [["0.00", "0.00"], ["127.22", "127.23"], ["515.12", "515.13"], ["1,000.00", "1,000.00"]],
           f"over the years: {curve}")
    browser.look("reserve")
    browser.choose("Measure", "mean")
    browser.press("Value")
    demand(list(browser.facts().values())[:2] == ["563.61", "563.62"], f"the mean reserve of 7001 is {browser.facts()}")
    browser.choose("Measure", "with the minimum (deficiency)")
    browser.press("Value")
    demand(list(browser.facts().values()) == ["127.22", "127.23", "280.00", "280.00"],
           f"the minimum of 7001 is {browser.facts()}")
    browser.look("deficiency")


def auditor(browser: Any, book: Book, base: str) -> None:
    """Keeps the seal, looks at flags, and draws a sample: all as the tools print them."""
    browser.open(base + "/1/audit")
    seal = book.tool("seal")[0].strip()
    demand(browser.driver.find_element("tag name", "pre").text.strip() == seal, "the seal is another one")
    browser.says("whole")
    browser.look("audit")
    browser.press("Show")
    printed = [line.split(",") for line in book.tool("audit", "flags")[0].splitlines()[1:]]
    browser.says(f"{len(printed)} posting")
    demand(printed and [row[:3] for row in browser.rows("Postings to look at")] == [row[:3] for row in printed], "the flags")
    browser.look("flags")
    browser.press("Audit")
    browser.type("Audit of the day", YEAR_END)
    browser.press("Choose")
    position = book.tool("position-on", YEAR_END, "journal.life")[0].strip()
    browser.says(f"Everything below is of position {apart(position)}, the book at the end of {YEAR_END}.")
    browser.look("audit-of-a-day")
    browser.type("Policies asked for", "20")
    browser.press("Draw")
    lines = book.tool("audit", "sample", "20", "--seed", "1", "--on", YEAR_END, "--at", position, "--mean")[0].splitlines()
    drawn = [line.split(",")[1:] for line in lines if line.startswith("row,")]
    demand(len(drawn) > 10, f"only {len(drawn)} rows are drawn")
    wanted = [[row[0], SAYS.get(row[1], row[1]), row[2], *map(apart, row[3:5])] for row in drawn]
    demand(browser.rows("The drawn rows") == wanted, "the sample is another one")
    browser.look("sample")


def visitor(browser: Any, book: Book, base: str) -> None:
    """Looks at the pages to which sums and charts lead, at empty lists, and at what is said of an address that is none."""
    browser.open(f"{base}/1/bases?on={YEAR_END}&other=other.csv&number=7001")
    browser.look("bases")
    demand(len(browser.rows("Policy 7001 by both")) == 2, "one policy by both bases")
    browser.open(f"{base}/1/report?on={YEAR_END}")
    browser.press("endowment")
    browser.says("by plan: endowment.")
    browser.look("group")
    browser.open(f"{base}/1/premiums?month=2022-01&what=due")
    rows, total = browser.rows("Premiums due"), browser.rows("Premiums due", "tfoot")[0]
    demand(len(rows) > 5 and sum(cents(row[2]) for row in rows) == cents(total[2]), f"the premiums of a month: {total}")
    browser.look("premiums")
    browser.open(f"{base}/1/postings?year=2024&kind=claim")
    browser.look("postings")
    browser.open(f"{base}/1/share?of=report&on={YEAR_END}")
    browser.look("share")
    for page, words in (("day/list?day=1995-01-01&what=mature", "There are none."), ("held", "There are none."),
                        ("nothing", "There is no such page"),
                        ("policy?number=4000000", "there is no policy 4000000 at position")):
        browser.open(f"{base}/1/{page}")
        browser.says(words)
        browser.look("empty")
        demand("Month and year" in browser.driver.find_element("tag name", "nav").text, f"{page} has no menu")


def operator(browser: Any, book: Book, base: str) -> None:
    """Looks at the state of the book, types what isn't a day, and uses only the keyboard."""
    browser.open(base + "/1/stands")
    browser.look("stands")
    demand(browser.facts()["postings"] == f"{book.count():,}", "the count of postings")
    browser.says("ssh -L ", "1, 2024-01-02T10:00", "no: look at it")
    backups = browser.rows("Backups found near the book")
    demand([(row[0].rpartition("/")[2], *row[2:]) for row in backups] == [("no.backup", apart(str(book.begun)), "yes")],
           f"backups: {backups}")
    browser.open(base + "/1/report?on=2022-02-31")
    browser.says("Day: 2022-02-31 is no day YYYY-MM-DD from 1900-01-01 to 2199-12-31")
    browser.look("told")
    browser.open(base + "/1/")
    body = browser.driver.find_element("tag name", "body")
    body.send_keys(TAB)
    active = browser.driver.switch_to.active_element
    demand(active.text.strip() == "To the page", f"the first key goes to {active.text!r}")
    names = []
    for _ in range(8):
        browser.driver.switch_to.active_element.send_keys(TAB)
        names.append(browser.driver.switch_to.active_element.text.strip()
                     or browser.driver.switch_to.active_element.get_attribute("name"))
    demand(names[:8] == ["Book", "Find", "The day", "Month and year", "Audit", "How it stands", "number", "Find"],
           f"the order of keys: {names}")
