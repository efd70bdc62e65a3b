"""The steps of a year-end: what an administrator, an actuary and an auditor call, and what SQLite computes for each sheet."""
import csv
import io
import re
import sqlite3
from typing import Any

from .office import Office, moved_lines, need
from .sums import Sums, Year, cents, csv_rows, sheet_rows, value_of

ON1, ON2, TODAY = "2022-12-31", "2023-12-31", "2024-04-02"
WITHIN = 31
MEASURES: dict[str, list[str]] = {"terminal": [], "mean": ["--mean"], "deficiency": ["--deficiency"]}
KEYS = ("plan", "status", "issue-year", "age-band")
SHEETS = ("exhibit", "reserves", "premiums", "increase", "claims")
FRONT, RECORD = 17, 65


class Walk:
    """The office, its bases, and what was found so far: positions, and the sums by SQLite."""

    def __init__(self, office: Office, bases: dict[str, str], last: int) -> None:
        self.office, self.bases = office, bases
        self.half = last // 2
        self.year = Year(ON1, 0, ON2, 0)
        self.sums: Sums
        self.sheets: dict[str, str] = {}

    # --- the administrator ---

    def administrator(self) -> None:
        office = self.office
        need(office.tool("verify").endswith("whole\n"), "the book isn't whole")
        room = office.tool("headroom", "--today", TODAY).splitlines()[1].split(",")
        count = int(room[0])
        positions = [int(office.tool("position-on", day, "journal.life", status=0)) for day in (ON1, ON2)]
        self.year = Year(ON1, positions[0], ON2, positions[1])
        for name, position in (("opening", positions[0]), ("closing", positions[1])):
            self.lay_prefix(name, position)
        self.export()
        [[newest]] = sqlite3.connect(office.at("whole.db")).execute("select count(*) from command").fetchall()
        office.same("headroom: commands", count, newest)
        for position, day in zip(positions, (ON1, ON2)):
            [[upto]] = sqlite3.connect(office.at("whole.db")).execute(
                "select max(position) from command where day <= ?", (day,)).fetchall()
            office.same(f"position-on {day}", position, upto)
        self.due()

    def lay_prefix(self, name: str, position: int) -> None:
        """Writes a copy of a prefix of the book, as the page for auditors describes."""
        with open(self.office.at("main", "journal.life"), "rb") as file:
            data = file.read(FRONT + RECORD * position)
        with open(self.office.at(f"{name}.life"), "wb") as file:
            file.write(data + bytes(1))

    def export(self) -> None:
        """Makes valuations with the program, and the databases with them."""
        office, year = self.office, self.year
        texts: dict[str, str] = {"basis": "", "other": ""}
        for name in texts:
            for on, position in ((ON1, year.p1), (ON1, year.p2), (ON2, year.p2)):
                for measure, words in MEASURES.items():
                    if name == "basis" or measure != "mean":
                        texts[name] += office.value(on, "--at", position, *words, "--basis", f"{name}.csv")
            office.keep(texts[name], f"{name}.values")
        office.tool("export", "sqlite", "main/journal.life", "whole.db", where="")
        office.tool("export", "sqlite", "opening.life", "opening.db", where="")
        office.tool("export", "sqlite", "closing.life", "closing.db", "--valuation", "basis.values", where="")
        office.tool("export", "sqlite", "closing.life", "other.db", "--valuation", "other.values", where="")
        classes = [(1, self.half, "main"), (self.half + 1, 2**32 - 1, "other")]
        opening, closing, other = (office.at(f"{name}.db") for name in ("opening", "closing", "other"))
        self.sums = Sums(opening, closing, other, year, classes)

    def due(self) -> None:
        rows = list(csv.reader(io.StringIO(self.office.tool("due", ON2, "--at", self.year.p2, "--within", WITHIN))))[1:]
        found = sorted((what, int(number), day, until, cents(amount)) for what, number, day, until, amount in rows)
        self.office.same("due", found, self.sums.due(WITHIN))

    # --- the actuary ---

    def actuary(self) -> None:
        for measure, words in MEASURES.items():
            self.sums.take_worths(measure)
            self.report(measure, words, [])
            self.movement(measure, words, [])
            if measure != "deficiency":
                self.statement(measure, words, [])
        self.why()

    def report(self, measure: str, words: list[str], classes: list[str]) -> None:
        office, name = self.office, f"report-{measure}.csv"
        by = [word for key in KEYS for word in ("--by", key)]
        office.tool("report", ON2, "--at", self.year.p2, *by, "--csv", f"../{name}", *words, *classes)
        with open(office.at(name), newline="", encoding="utf-8") as file:
            rows = list(csv.reader(file))[1:]
        for key in KEYS:
            # with --deficiency the last two bounds are those of the minimum
            found = {row[1]: [value_of(cell) for cell in (*row[2:5], *row[-3:])] for row in rows if row[0] == key}
            office.same(f"report by {key}, {measure}", found, self.sums.report(key))

    def movement(self, measure: str, words: list[str], classes: list[str]) -> None:
        year = self.year
        text = self.office.tool("movement", ON1, year.p1, ON2, year.p2, *words, *classes)
        self.sheets[f"movement-{measure}"] = text
        self.office.same(f"movement, {measure}", moved_lines(text), self.sums.movement())

    def statement(self, measure: str, words: list[str], classes: list[str]) -> None:
        office, year = self.office, self.year
        sheets, parts = f"statement-{measure}", f"parts-{measure}"
        folders = "--csv", f"../{sheets}", "--policies", f"../{parts}"
        office.tool("statement", ON1, year.p1, ON2, year.p2, *words, *classes, *folders)
        read = {sheet: csv_rows(office.at(sheets, f"{sheet}.csv")) for sheet in SHEETS if sheet != "reserves"}
        office.same("exhibit", read["exhibit"], self.sums.exhibit())
        claims = read["claims"]
        office.same("claims before the report", [cell for cell in claims.pop("reported after the day") if cell], [])
        office.same("claims", claims, self.sums.claims())
        for line, wanted in self.sums.premiums().items():
            cells = read["premiums"][line]
            found = [cells[place] if want is not None else None for place, want in enumerate(wanted[:3])] + cells[4:6]
            office.same(f"premiums, {line}", found, [*wanted[:3], *(wanted[3:] if line.startswith("past") else ["", ""])])
        self.reserves(measure, sheets, classes)
        self.increase(read["increase"], parts)

    def reserves(self, measure: str, sheets: str, classes: list[str]) -> None:
        """Compares the sheet of reserves by basis row; the interest on it is written as 4.00%."""
        rows = {"main": self.basis_rows("basis.csv"), **({"other": self.basis_rows("other.csv")} if classes else {})}
        method = "mean" if measure == "mean" else "terminal"
        wanted = self.sums.reserves(rows, f"CRVM {method}", f"paid up {method}")
        read = sheet_rows(self.office.at(sheets, "reserves.csv"))
        found = [[row[0], cents(row[1].rstrip("%")), *row[2:5], *map(value_of, row[5:])]
                 for row in read if row[0] != "total" and not row[2].startswith("not valued")]
        self.office.same("reserves", sorted(found), sorted(wanted))
        without = sum(int(row[5]) for row in read if row[2].startswith("not valued"))
        self.office.same("reserves without a value", without, self.sums.total(3)[2])

    def basis_rows(self, name: str) -> list[tuple[str, str, int]]:
        fields = [line.split(",") for line in self.bases[name].splitlines()]
        return [(day, file, int(points)) for day, file, points in fields]

    def increase(self, lines: dict[str, list[Any]], parts: str) -> None:
        """The first and last lines are the program's totals, and the other lines lead from one to the other. Each policy's
        parts add up to each line, with at most half a cent of difference for each policy, and lead from the policy's own
        opening to its own closing."""
        office, names = self.office, list(lines)[1:-2]
        for line, at in (("reserve at the beginning", 1), ("reserve at the end", 3)):
            office.same(f"increase, {line}", lines[line][1:], self.sums.total(at)[:2])
        for bound in (1, 2):
            moved = sum(lines[line][bound] for line in list(lines)[:-1])
            office.same("increase: the lines", moved, lines["reserve at the end"][bound])
        for line, kinds in (("released by death", ("claim",)), ("released by lapse", ("lapse",)), ("revived", ("reinstate",))):
            self.count_of(line, lines[line][0], kinds)
        with open(office.at(parts, "increase.csv"), newline="", encoding="utf-8") as file:
            rows = list(csv.DictReader(file))
        for line in names:
            exact = sum(cents(row[line]) for row in rows)
            need(abs(exact - lines[line][1]) <= len(rows) / 2 + 1, f"increase, {line}: {lines[line]}, and its parts {exact}")
        for row in rows:
            led = sum(cents(row[line]) for line in names)
            low, high = (cents(row[f"closing {one}"]) - cents(row[f"opening {other}"])
                         for one, other in (("lower", "upper"), ("upper", "lower")))
            need(low - len(names) <= led <= high + len(names), f"increase: policy {row['policy']} is led by {led} from {row}")
        office.compared += len(names) + len(rows)

    def count_of(self, line: str, found: int, kinds: tuple[str, ...]) -> None:
        """Compares how often a line was posted to a policy with a value with all its postings, unless a basis begins later."""
        [[count]] = self.sums.rows(f"""select count(*) from command c join worth w on w.policy = c.policy and w.at = 3
                                       where c.kind in ({','.join('?' * len(kinds))}) and c.position > {self.year.p1}
                                       and c.position <= {self.year.p2}""".replace("?", f"'{kinds[0]}'"))
        if "other" not in dict(self.sums.rows("select distinct basis, 1 from worth")):
            self.office.same(f"increase, {line}: postings", found, count)

    def why(self) -> None:
        """Works out some rows: the net premium of each year except the first is beta, as in the sheets of the increase and the
        premiums."""
        office, year = self.office, self.year
        parts = {row["policy"]: row for row in csv.DictReader(io.StringIO(office.text("parts-terminal", "increase.csv")))}
        steady = self.sums.rows("""
            select p.policy, p.amount_cents from main.policy p join opening.policy o using (policy)
            where p.status = 'inforce' and p.amount_cents = o.amount_cents and p.plan = 'whole' and p.issued < '2021-01-01'
            and not exists (select 1 from command c where c.policy = p.policy and c.position > :p1 and c.position <= :p2
                            and c.kind <> 'premium') order by p.policy limit 3""")
        need(steady, "no policy is in force all the year")
        for number, amount in steady:
            said = office.tool("why", number, ON2, "--at", year.p2)
            beta = re.search(r"beta = .* = ([0-9.]+)$", said, re.MULTILINE)
            need(": the same" in said and beta is not None, f"why {number}: {said[-300:]}")
            assert beta is not None
            net = cents(parts[str(number)]["net premiums"])
            need(abs(net - amount * float(beta[1])) <= 1 + amount * 1e-9, f"net premium of {number}: {net}, beta {beta[1]}")
            office.compared += 1

    # --- classes of lives ---

    def class_words(self) -> list[str]:
        self.office.keep(f"1-{self.half},first\n{self.half + 1}-{2**32 - 1},second\n", "classes.csv")
        self.office.keep("first,basis.csv\nsecond,other.csv\n", "bases.csv")
        return ["--classes", self.office.at("classes.csv"), "--bases", self.office.at("bases.csv")]

    def classes(self) -> None:
        """Half of the book has another basis, which lacks the first months, so that some rows have a word."""
        office, words = self.office, self.class_words()
        self.sums.take_worths("class")
        rows = office.tool("value", ON2, "--at", self.year.p2, *words).splitlines()
        found = {int(row.split(",")[1]): row.split(",")[4:] for row in rows[1:-1]}
        wanted = {policy: [word] if word else [f"{each // 100}.{each % 100:02}" for each in (low, high)]
                  for policy, word, low, high in self.sums.rows("select policy, word, low, high from worth where at = 3")}
        office.same("value by classes", found, wanted)
        self.report("class", [], words)
        self.movement("class", [], words)
        self.statement("class", [], words)

    # --- the auditor ---

    def auditor(self) -> None:
        office, year = self.office, self.year
        said = office.tool("read", "--verify", "../closing.life").splitlines()
        booked = dict(self.sums.rows("select account, sum(cents) from booking group by account"))
        found = {line.split(",")[1]: cents(line.split(",")[2]) for line in said if line.startswith("balance")}
        office.same("balances", found, booked)
        flags = office.tool("audit", "flags", "--after", year.p1, "--at", year.p2, "--late", 10, status=1)
        self.flags(list(csv.reader(io.StringIO(flags)))[1:])

    def flags(self, rows: list[list[str]]) -> None:
        on_day = self.sums.rows("""select position from command c where c.kind = 'claim' and position > :p1 and c.day = (
            select b.day from command b where b.policy = c.policy and b.position < c.position
            order by b.position desc limit 1)""")
        late = self.sums.rows("""
            select m.position from command m join main.policy p on p.policy = m.policy
            where m.kind = 'mature' and m.position > :p1 and julianday(m.day) - julianday(p.ends) > 10""")
        for flag, wanted in (("on-last-day", on_day), ("late-maturity", late)):
            found = [int(row[1]) for row in rows if row[0] == flag]
            self.office.same(f"flags, {flag}", found, sorted(position for position, in wanted))

    # --- many books ---

    def many(self, books: int) -> None:
        """Divides the book; the sheets of all books together must be those of the undivided one, byte for byte."""
        office = self.office
        self.divide(books)
        office.tool("books", "headroom", "books.csv", "--today", TODAY, where="")
        for on, position, name in ((ON1, self.year.p1, "p1"), (ON2, self.year.p2, "p2")):
            text = self.listed("position-on", on)
            office.keep(text, f"{name}.csv")
            found = sum(int(line.split(",")[1]) for line in text.splitlines())
            office.same(f"positions of {on}", found - self.upgrades(on), position)
        printed = self.listed("value", ON2, "--at", "p2.csv", "--totals").splitlines()[-1]
        self.sums.take_worths("terminal")
        low, high, words = self.sums.total(3)
        office.same("value of all books", [value_of(cell) for cell in printed.split(",")[2:]], [low, high, words, books, books])
        self.sheets_of_all()
        self.lists_of_all()

    def listed(self, *words: Any, status: int = 0) -> str:
        return self.office.tool("books", "books.csv", *words, where="", status=status)

    def divide(self, books: int) -> None:
        whole = sqlite3.connect(self.office.at("whole.db"))
        numbers = [number for number, in whole.execute("select policy from policy order by 1")]
        lasts = [numbers[len(numbers) * place // books - 1] for place in range(1, books)]
        firsts = [1, *(last + 1 for last in lasts)]
        rules = [f"numbers={first}-{last}" for first, last in zip(firsts, lasts)] + ["others"]
        folders = [f"book{place + 1}" for place in range(books)]
        self.office.keep(self.office.tool("books", "split", "main/journal.life", *rules, *folders, where=""), "books.csv")
        for folder in folders:
            self.office.keep(self.bases["other.csv"], folder, "other.csv")

    def upgrades(self, on: str) -> int:
        """Returns how many more upgrades come before a day's positions than in the undivided book."""
        books = len(self.office.text("books.csv").splitlines())
        return books - 1 if on >= "2010-06-01" else 0

    def sheets_of_all(self) -> None:
        office, at = self.office, ["--at", "p2.csv"]
        moment = [ON1, ON2, "--from", "p1.csv", *at]
        by_class: dict[str, list[str]] = {"class": ["--classes", "classes.csv", "--bases", "bases.csv"]}
        for measure, words in (MEASURES | by_class).items():
            report = ["report", ON2, *at, "--by", "plan", *words]
            self.listed(*report, "--csv", f"all-report-{measure}")
            groups = {name: [*cells[:3], *cells[-3:]] for name, cells in
                      csv_rows(office.at(f"all-report-{measure}", "plan.csv")).items() if name != "total"}
            self.sums.take_worths(measure)
            office.same(f"report of all, {measure}", groups, self.sums.report("plan"))
            text = self.listed("movement", *moment, *words)
            office.same(f"movement of all, {measure}", moved_lines(text), moved_lines(self.sheets[f"movement-{measure}"]))
            if measure != "deficiency":
                self.listed("statement", *moment, *words, "--csv", f"all-{measure}")
                for sheet in SHEETS:
                    one, other = (office.text(folder, f"{sheet}.csv") for folder in (f"all-{measure}", f"statement-{measure}"))
                    office.same(f"{sheet} of all, {measure}", one, other)

    def lists_of_all(self) -> None:
        """Compares what is due, and the flags."""
        office = self.office
        text = self.listed("due", ON2, "--within", WITHIN, "--at", "p2.csv")
        rows = list(csv.reader(io.StringIO(text)))[1:]
        found = sorted((what, int(number), day, until, cents(amount)) for _, what, number, day, until, amount in rows)
        office.same("due of all", found, self.sums.due(WITHIN))
        text = self.listed("audit", "flags", "--from", "p1.csv", "--at", "p2.csv", "--late", 10, status=1)
        one = office.tool("audit", "flags", "--after", self.year.p1, "--at", self.year.p2, "--late", 10, status=1)
        office.same("flags of all", sorted(line.split(",", 3)[3] for line in text.splitlines()[1:]),
                    sorted(line.split(",", 2)[2] for line in one.splitlines()[1:]))
