"""Computes the sheets of a year-end with SQLite, over what `export sqlite` wrote of a book; no sum of the tools is used here.

Amounts are in cents, days are texts, and a sheet is a dict of rows by their first cell.
"""
import csv
import sqlite3
from typing import Any, Iterable, NamedTuple

GROUPS = ("whole", "endowment", "term", "limited", "paid up")
GRACE_DAYS = 31
# the amount of a policy before a command, and whether it was paid up then
BEFORE = """(select b.amount_cents from command b where b.policy = c.policy and b.position < c.position
             and b.kind in ('issue', 'alter', 'paidup') order by b.position desc limit 1)"""
UP = "exists (select 1 from command b where b.policy = c.policy and b.position < c.position and b.kind = 'paidup')"
# each line of the exhibit: what counts on it, its number, its amount and its group
EXHIBIT = {
    "issued": ("c.kind = 'issue'", "1", "c.amount_cents", "i.plan"),
    "revived": ("c.kind = 'reinstate'", "1", BEFORE, "i.plan"),
    "decreased": ("c.kind in ('alter', 'paidup')", "0", f"c.amount_cents - {BEFORE}", "i.plan"),
    "death": ("c.kind = 'claim'", "-1", f"-{BEFORE}", f"case when {UP} then 'paid up' else i.plan end"),
    "maturity": ("c.kind = 'mature' and i.plan <> 'term'", "-1", f"-{BEFORE}", f"case when {UP} then 'paid up' else i.plan end"),
    "expiry": ("c.kind = 'mature' and i.plan = 'term'", "-1", f"-{BEFORE}", f"case when {UP} then 'paid up' else i.plan end"),
    "lapse": ("c.kind = 'lapse'", "-1", f"-{BEFORE}", "i.plan"),
}
POSTINGS = {"decreased": "c.kind = 'alter'", "made paid up": "c.kind = 'paidup'"}
IN_FORCE = """
    select case when status = 'paidup' then 'paid up' else plan end as its, count(*), sum(amount_cents)
    from {policy} where status in ('inforce', 'paidup') group by its"""
# the lines of an analysis of change, by the last posting that isn't a premium; a part settlement if nothing else was posted
MOVED = {"claim": "claims", "settle": "settlements", "mature": "maturities", "lapse": "lapses", "reinstate": "reinstatements",
         "alter": "alterations", "paidup": "made paid up"}
MOVEMENT = """
    with last as (select policy, max(case when kind = 'settle' then position / 1e9 else position end) as at from command
                  where position > :p1 and position <= :p2 and kind not in ('issue', 'premium', 'upgrade') group by policy),
         line as (select c.policy, c.kind from last join command c on c.policy = last.policy
                  and c.position = cast(case when last.at < 1 then round(last.at * 1e9) else last.at end as integer)),
         o as (select * from worth where at = 1), b as (select * from worth where at = 2), t as (select * from worth where at = 3)
    select line.kind, o.policy is null, t.low - b.low <> 0 or t.high - b.high <> 0, count(*), sum(o.low), sum(o.high),
           sum(b.low - o.low), sum(b.high - o.high), sum(t.low - b.low), sum(t.high - b.high), sum(t.low), sum(t.high)
    from t join b using (policy) left join o using (policy) left join line using (policy) group by 1, 2, 3"""
AGES = ((30, "up to 30 days"), (90, "31 to 90 days"), (365, "91 to 365 days"), (10**6, "more than 365 days"))
Rows = dict[str, list[Any]]


class Year(NamedTuple):
    on1: str
    p1: int
    on2: str
    p2: int


def anniversary(day: str, years: int) -> str:
    """Returns the day this number of years later; for 29 February it is the 28th in a year without a 29th."""
    year, rest = int(day[:4]) + years, day[4:]
    is_leap = year % 4 == 0 and (year % 100 != 0 or year % 400 == 0)
    return f"{year:04}{'-02-28' if rest == '-02-29' and not is_leap else rest}"


def due_up_to(issued: str, on: str) -> int:
    """Returns how many anniversaries, including the day of issue, are on a day or before it."""
    years = int(on[:4]) - int(issued[:4])
    return max(0, years + (anniversary(issued, years) <= on))


def cents(text: str) -> int:
    return int(text.replace(".", "").replace(",", ""))


def sheet_rows(path: str) -> list[list[str]]:
    """Returns the rows of a sheet after its head, except the one which says that no program is known to be proved."""
    with open(path, newline="", encoding="utf-8") as file:
        _, *rows = csv.reader(file)
    return [row for row in rows if row[0] != "not the proved program"]


def csv_rows(path: str) -> Rows:
    """Returns the rows of a sheet after its head, by their first cell; amounts are in cents, and what isn't a number is a
    text."""
    return {row[0]: [value_of(cell) for cell in row[1:]] for row in sheet_rows(path)}


def value_of(cell: str) -> Any:
    plain = cell.lstrip("-")
    if "." in plain and plain.replace(".", "").isdigit():
        return cents(cell)
    return int(cell) if plain.isdigit() else cell


class Sums:
    """A database of a prefix of the book at the closing position, with another one at the opening position, and valuations of
    both."""

    def __init__(self, opening: str, closing: str, other: str, year: Year, classes: Iterable[tuple[int, int, str]]) -> None:
        self.year = year
        self.base = sqlite3.connect(closing)
        self.base.create_function("anniversary", 2, anniversary, deterministic=True)
        self.base.create_function("due_up_to", 2, due_up_to, deterministic=True)
        self.base.execute("attach ? as opening", (opening,))
        self.base.execute("attach ? as other", (other,))
        self.base.execute("create index if not exists command_policy on command (policy, position)")
        self.base.execute("create temp table class (first int, last int, basis text)")
        self.base.executemany("insert into class values (?, ?, ?)", classes)

    def rows(self, query: str, **words: Any) -> list[Any]:
        return self.base.execute(query, {**self.year._asdict(), **words}).fetchall()

    # --- the exhibit ---

    def exhibit(self) -> Rows:
        """Returns for each line the number and amount of each group, then of all, and the postings."""
        found: Rows = {}
        for line, policy in (("in force at the beginning", "opening.policy"), ("in force at the end", "main.policy")):
            found[line] = self.by_group(self.rows(IN_FORCE.format(policy=policy)), "")
        for line, (which, number, amount, group) in EXHIBIT.items():
            parts = self.rows(f"select {group} as its, sum({number}), sum({amount}) from command c join command i "
                              f"on i.policy = c.policy and i.kind = 'issue' where {which} and c.position > :p1 "
                              f"and c.position <= :p2 group by its")
            found[line] = self.by_group(parts, self.postings(POSTINGS.get(line, which)))
        found["made paid up"] = self.made_paid_up()
        return found

    def postings(self, which: str) -> int:
        [[count]] = self.rows(f"select count(*) from command c join command i on i.policy = c.policy and i.kind = 'issue' "
                              f"where {which} and c.position > :p1 and c.position <= :p2")
        return int(count)

    def made_paid_up(self) -> list[Any]:
        """Policies made paid up leave their plan with the new amount, and enter the group of paid-up policies with it."""
        parts = self.rows("select i.plan, -count(*), -sum(c.amount_cents) from command c join command i on i.policy = c.policy "
                          "and i.kind = 'issue' where c.kind = 'paidup' and c.position > :p1 and c.position <= :p2 group by 1")
        entered = ("paid up", -sum(part[1] for part in parts), -sum(part[2] for part in parts))
        return self.by_group([*parts, entered], self.postings(POSTINGS["made paid up"]))

    @staticmethod
    def by_group(parts: Iterable[tuple[str, int, int]], postings: Any) -> list[Any]:
        of = {group: (number, amount) for group, number, amount in parts}
        pairs = [of.get(group, (0, 0)) for group in GROUPS]
        return [*(cell for pair in pairs for cell in pair), *map(sum, zip(*pairs)), postings]

    # --- claims ---

    def claims(self) -> Rows:
        """Returns the number and the amount of claims, of maturities and of both, and the postings."""
        owed = """
            select (select kind from command c where c.policy = p.policy and c.kind in ('claim', 'mature')) = 'mature',
                   count(*), sum(outstanding_cents) from {policy} p where outstanding_cents > 0 {more} group by 1"""
        found = {"outstanding at the beginning": self.pairs(self.rows(owed.format(policy="opening.policy", more="")), ""),
                 "outstanding at the end": self.pairs(self.rows(owed.format(policy="main.policy", more="")), "")}
        reported = self.rows("select c.kind = 'mature', count(*), sum(b.cents) from command c join booking b on b.position = "
                             "c.position and b.account = 'incurred' where c.kind in ('claim', 'mature') and c.position > :p1 "
                             "and c.position <= :p2 group by 1")
        found["reported"] = self.pairs(reported, sum(row[1] for row in reported))
        settled = self.rows("""
            select exists (select 1 from command m where m.policy = c.policy and m.kind = 'mature'),
                   -sum(c.position = (select max(position) from command l where l.policy = c.policy) and p.status = 'settled'),
                   -sum(c.amount_cents), count(*)
            from command c join main.policy p on p.policy = c.policy
            where c.kind = 'settle' and c.position > :p1 and c.position <= :p2 group by 1""")
        found["settled"] = self.pairs([row[:3] for row in settled], sum(row[3] for row in settled))
        days = """and julianday(:on2) - julianday((select day from command c where c.policy = p.policy
                  and c.kind in ('claim', 'mature'))) between {least} and {most}"""
        least = 0
        for most, name in AGES:
            found[name] = self.pairs(self.rows(owed.format(policy="main.policy", more=days.format(least=least, most=most))), "")
            least = most + 1
        return found

    @staticmethod
    def pairs(parts: Iterable[tuple[int, int, int]], postings: Any) -> list[Any]:
        of = {kind: [number, amount] for kind, number, amount in parts}
        both = [of.get(kind, [0, 0]) for kind in (0, 1)]
        return [*both[0], *both[1], both[0][0] + both[1][0], both[0][1] + both[1][1], postings]

    # --- premiums ---

    def premiums(self) -> Rows:
        """Returns for each line policies (or postings), premiums and gross amounts; for those past their grace also the bounds
        of reserves."""
        found: Rows = {}
        self.collected(found)
        for name, policy, on in (("at the beginning", "opening.policy", "on1"), ("at the end", "main.policy", "on2")):
            self.uncollected(found, name, policy, on)
        found["premium income"] = [None, None, sum(found[line][2] for line in list(found)[:3]) + sum(
            sign * (found[f"{line} at the end"][2] - found[f"{line} at the beginning"][2])
            for line, sign in (("uncollected in grace", 1), ("paid in advance", -1)))]
        return found

    def collected(self, found: Rows) -> None:
        paid = """select count(*), coalesce(sum({count}), 0), coalesce(sum(c.amount_cents), 0) from command c
                  where c.kind = '{kind}' and c.position > :p1 and c.position <= :p2 {more}"""
        first = """and {is_it} exists (select 1 from command b where b.policy = c.policy and b.position < c.position
                   and b.kind in ('premium', 'reinstate'))"""
        for line, is_it in (("first-year premiums collected", "not"), ("renewal premiums collected", "")):
            [found[line]] = map(list, self.rows(paid.format(count="1", kind="premium", more=first.format(is_it=is_it))))
        premium = """c.amount_cents / (select b.premium_cents from command b where b.policy = c.policy
                     and b.position < c.position and b.kind in ('issue', 'alter') order by b.position desc limit 1)"""
        [found["collected by reinstatement"]] = map(list, self.rows(paid.format(count=premium, kind="reinstate", more="")))

    def uncollected(self, found: Rows, name: str, policy: str, on: str) -> None:
        """Finds what is due and unpaid, or paid before it is due, for policies in force."""
        missed = "min(due_up_to(p.issued, :on), payments) - p.premiums_paid"
        due = "anniversary(p.issued, p.premiums_paid)"
        late = f"julianday(:on) - julianday({due})"
        payments = """(select *, case plan when 'whole' then 131 - age else years end as payments from {policy}
                      where status = 'inforce')""".format(policy=policy)
        at = 1 if on == "on1" else 3
        query = f"""select count(*), coalesce(sum({missed}), 0), coalesce(sum(({missed}) * p.premium_cents), 0),
                    coalesce(sum(w.low), 0), coalesce(sum(w.high), 0) from {payments} p join worth w on w.policy = p.policy
                    and w.at = :at where p.premiums_paid < payments and {due} <= :on and {late} {{span}}"""
        words = {"on": getattr(self.year, on), "at": at, "upto": getattr(self.year, on.replace("on", "p"))}
        for line, span in (("uncollected in grace", f"<= {GRACE_DAYS}"), ("past grace and not lapsed", f"> {GRACE_DAYS}")):
            [row] = self.rows(query.format(span=span), **words)
            found[f"{line} {name}"] = list(row)
        ahead = f"""select p.policy, p.premiums_paid - due_up_to(p.issued, :on) as ahead from {payments} p
                    where p.premiums_paid > due_up_to(p.issued, :on)"""
        gross = """select c.amount_cents, a.ahead, row_number() over (partition by c.policy order by c.position desc) as back
                   from a join command c on c.policy = a.policy where c.kind = 'premium' and c.position <= :upto"""
        [row] = self.rows(f"with a as ({ahead}), paid as ({gross}) select (select count(*) from a), (select sum(ahead) from a), "
                          "(select sum(amount_cents) from paid where back <= ahead)", **words)
        found[f"paid in advance {name}"] = [each or 0 for each in row]

    # --- reserves ---

    def take_worths(self, measure: str) -> None:
        """Makes a table of each policy's bounds by a measure, or by the bases of classes: at the opening (1), for the closing
        position on the opening day (2), and at the closing (3)."""
        self.base.execute("drop table if exists worth")
        self.base.execute("create temp table worth (at int, policy int, low int, high int, word text, basis text)")
        columns = "v.lower_cents, v.upper_cents"
        if measure == "deficiency":
            columns = "v.minimum_lower_cents, v.minimum_upper_cents"
        for at, on, position in ((1, "on1", "p1"), (2, "on1", "p2"), (3, "on2", "p2")):
            for schema in ("main", "other") if measure == "class" else ("main",):
                class_ = f"join class c on v.policy between c.first and c.last and c.basis = '{schema}'" * (measure == "class")
                self.rows(f"""
                    insert into worth select {at}, v.policy, {columns}, v.word, '{schema}' from {schema}.valuation v {class_}
                    where v.day = :{on} and v.position = :{position} and v.measure = :measure""",
                          measure="terminal" if measure == "class" else measure)
        self.base.execute("update worth set low = coalesce(low, 0), high = coalesce(high, 0)")
        self.base.execute("create index worth_policy on worth (at, policy)")

    def total(self, at: int) -> list[int]:
        return list(self.rows("select sum(low), sum(high), sum(word is not null) from worth where at = :at", at=at)[0])

    def movement(self) -> Rows:
        """Returns for each line the policies and both sums, by the worths that were taken."""
        lines = ("opening reserve", "new issues", *MOVED.values(), "time gone by", "change of basis", "closing reserve")
        found: Rows = {line: [0, 0, 0] for line in lines}

        def add(line: str, count: int, low: Any, high: Any) -> None:
            found[line] = [one + (other or 0) for one, other in zip(found[line], (count, low, high))]

        for kind, is_new, has_aged, count, *sums in self.rows(MOVEMENT):
            opened, posted, aged, closed = (sums[place:place + 2] for place in (0, 2, 4, 6))
            add("closing reserve", count, *closed)
            if is_new:
                add("new issues", count, *closed)
                continue
            add("opening reserve", count, *opened)
            if kind:
                add(MOVED[kind], count, *posted)
            if has_aged:
                add("time gone by", count, *aged)
        return found

    def reserves(self, basis_rows: dict[str, list[tuple[str, str, int]]], method: str, paid_up: str) -> list[list[Any]]:
        """Returns for each basis row and method the policies, the amount insured, the sums of the closing worths, and the
        excess of the minimum reserve over the terminal reserve. Policies with a word are left out."""
        self.base.execute("create temp table if not exists basis (name text, first text, next text, file text, points int)")
        self.base.execute("delete from basis")
        for name, rows in basis_rows.items():
            for (day, file, points), later in zip(rows, [*(row[0] for row in rows[1:]), "9999"]):
                self.base.execute("insert into basis values (?, ?, ?, ?, ?)", (name, day, later, file, points))
        return [list(row) for row in self.rows("""
            select b.file, b.points, case p.status when 'paidup' then :paid_up else :method end as method, b.first,
                   case b.next when '9999' then '' else 'before ' || b.next end, count(*), sum(p.amount_cents), sum(w.low),
                   sum(w.high), sum(coalesce(d.minimum_upper_cents - d.upper_cents, e.minimum_upper_cents - e.upper_cents))
            from main.policy p join worth w on w.policy = p.policy and w.at = 3 and w.word is null
            join basis b on b.name = w.basis and p.issued >= b.first and p.issued < b.next
            left join main.valuation d on d.policy = p.policy and d.measure = 'deficiency' and d.day = :on2
                 and d.position = :p2 and w.basis = 'main'
            left join other.valuation e on e.policy = p.policy and e.measure = 'deficiency' and e.day = :on2
                 and e.position = :p2 and w.basis = 'other'
            where p.status in ('inforce', 'paidup') group by 1, 2, 3, 4, 5""", method=method, paid_up=paid_up)]

    def report(self, key: str) -> Rows:
        """Returns for each group the policies, the insured ones, the amount insured, the closing sums, and the rows with a
        word."""
        by = {"plan": "p.plan", "status": "p.status", "issue-year": "substr(p.issued, 1, 4)",
              "age-band": "printf('%03d-%03d', p.age / 10 * 10, p.age / 10 * 10 + 9)"}[key]
        insured = "p.status in ('inforce', 'paidup')"
        parts = self.rows(f"""
            select {by}, count(*), sum({insured}), sum(case when {insured} then p.amount_cents else 0 end), sum(w.low),
                   sum(w.high), sum(w.word is not null) from main.policy p join worth w on w.policy = p.policy and w.at = 3
            group by 1""")
        return {row[0]: list(row[1:]) for row in parts}

    # --- the lists of a day ---

    def due(self, within: int) -> list[tuple[Any, ...]]:
        """Returns what `due` lists on the closing day: premiums, grace, lapses, maturities, reinstatements, settlements."""
        return sorted(self.rows(DUE, within=within, grace=GRACE_DAYS))


# for policies in force: when the next premium is due, when its grace ends, and the last day of the list
DUE = """
    with day as (select :on2 as first, date(:on2, '+' || :within || ' days') as last),
    p as (select *, anniversary(issued, case when plan in ('term', 'endowment') then years else 131 - age end) as stop,
                 case plan when 'whole' then 131 - age else years end as payments,
                 case when status = 'inforce' and premiums_paid < case plan when 'whole' then 131 - age else years end
                      then anniversary(issued, premiums_paid) end as due
          from main.policy where status in ('inforce', 'paidup')),
    q as (select p.*, date(due, '+' || :grace || ' days') as grace_ends from p)
    select 'premium' as what, policy, due, grace_ends, premium_cents from q, day where due >= first and due <= last
    union all select 'grace', policy, due, grace_ends, premium_cents from q, day
        where due < first and grace_ends >= first and first < stop
    union all select 'lapse', policy, due, grace_ends, premium_cents from q, day
        where grace_ends < first or (grace_ends >= first and due <= last and grace_ends < last and stop > grace_ends)
    union all select 'mature', policy, stop, '', case plan when 'term' then 0 else amount_cents end from q, day
        where max(stop, first) <= last
        and (due is null or (grace_ends >= first and due <= last and max(stop, first) <= grace_ends))
    union all select 'settle', policy, last_posted, '', outstanding_cents from main.policy where outstanding_cents > 0
    union all select 'reinstate', policy, last_posted, until, missed * premium_cents from (
        select *, min(anniversary(issued, premiums_paid + 3), date(anniversary(issued,
               case when plan in ('term', 'endowment') then years else 131 - age end), '-1 days')) as until,
               min(due_up_to(issued, :on2), case plan when 'whole' then 131 - age else years end) - premiums_paid as missed
        from main.policy where status = 'lapsed') where until >= :on2"""
