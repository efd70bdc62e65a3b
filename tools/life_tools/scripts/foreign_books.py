"""Books of other systems: a CSV with a header row, and the map that says what its columns are and how they are written.

A row of the map says what a field of a policy is taken from:

  separator,;            what stands between the fields of the file, if not a
                         comma; also `tab`
  number,Policy no,P-    the column of the number, and what precedes the
                         digits, if anything does
  day,Start,DD.MM.YYYY   the column of the day of issue, and how it is written
  plan,Tariff            the column of the plan; each of its words has a row:
  word,LV-W,whole        .. the word, and the plan that it is
  age,Age                the column of the age at issue; or
  birth,Born,DD.MM.YYYY  .. that of the day of birth: the age is that of the
                         last birthday, or of the nearest one (the earlier)
  years,Term             the column of the years, empty or 0 for whole life
  amount,Sum,1.234,56    the column of the amount, and an amount as it is
                         written there; or the word `cents`
  premium,Yearly premium,1.234,56
  paid,Paid              the column of the number of premiums paid; or
  paid-to,Paid to,DD.MM.YYYY
                         .. that of the day to which they are paid, on which
                         the next one is due
  status,Status          the column of the status; its words have rows:
  state,L,lapsed         .. the word, and inforce, lapsed, paidup; or `left`,
                         for a row that is to be left out
  reduced,Sum now,1.234,56
                         the column of the reduced amount of a paid-up policy
  class,Smoker           the column of the class of lives, if there is one
"""
from __future__ import annotations

import csv
import datetime
import io
import re
from dataclasses import dataclass, field
from typing import Callable, Iterator

from life_tools.rules.commands import UPGRADE, Command, years_fit
from life_tools.common.formats import (FIRST_DAY, LAST_DAY, MOST_CENTS, MOST_NUMBER, PLANS, Wrong, bytes_of, demand, money,
                                       rows_in, text_of)
from life_tools.rules.policies import GRACE, Policy, anniversary, completed, decide, due_of, payments_of
from life_tools.rules.tables import OLDEST_AT_ISSUE

FIELDS = ("number", "day", "plan", "age", "birth", "years", "amount", "premium", "paid", "paid-to", "status", "reduced", "class")
WANTED = ("number", "day", "plan", "years", "amount", "premium")
# pairs of fields of which exactly one is wanted
EITHER = (("age", "birth"), ("paid", "paid-to"))
DAYS, AMOUNT_FIELDS = ("day", "birth", "paid-to"), ("amount", "premium", "reduced")
LEFT = "left"
STATES = ("inforce", "lapsed", "paidup", LEFT)
NEAREST, LAST = "nearest", "last"
DAY_PARTS = {"YYYY": "(?P<year>[0-9]{4})", "MM": "(?P<month>[0-9]{1,2})", "DD": "(?P<day>[0-9]{1,2})"}
# how an amount is written in the map -> the separator of thousands, and the one before the cents
AMOUNTS = {"1234.56": ("", "."), "1234,56": ("", ","), "1,234.56": (",", "."), "1.234,56": (".", ","), "1 234,56": (" ", ","),
           "1'234.56": ("'", "."), "cents": ("", "")}
MOST_PAID = 131


@dataclass
class Map:
    """What the fields are taken from: for each its column and its format; and the plan or the state that each word means."""

    separator: str = ","
    column: dict[str, str] = field(default_factory=dict)
    form: dict[str, str] = field(default_factory=dict)
    plan_of: dict[str, str] = field(default_factory=dict)
    state_of: dict[str, str] = field(default_factory=dict)

    def take(self, fields: tuple[str, ...]) -> None:
        """Takes one row of the map."""
        what, given, form = fields[0], fields[1] if len(fields) > 1 else "", ",".join(fields[2:])
        demand(given, f"{what} has nothing after it")
        if what == "separator":
            self.separator = "\t" if given == "tab" else given
            demand(len(self.separator) == 1 and self.separator not in "\"\r\n", f"{given} is no separator")
        elif what == "word":
            demand(form in PLANS.values(), f"{form or 'nothing'} is no plan: {', '.join(PLANS.values())}")
            demand(given not in self.plan_of, f"the word {given} stands twice")
            self.plan_of[given] = form
        elif what == "state":
            demand(form in STATES, f"{form or 'nothing'} is none of {', '.join(STATES)}")
            demand(given not in self.state_of, f"the state {given} stands twice")
            self.state_of[given] = form
        else:
            demand(what in FIELDS, f"{what} is none of separator, word, state, {', '.join(FIELDS)}")
            demand(what not in self.column, f"{what} stands twice")
            self.demand_form(what, form)
            self.column[what], self.form[what] = given, form

    def demand_form(self, what: str, form: str) -> None:
        if what in DAYS:
            demand(re.findall("YYYY|MM|DD", form) and sorted(re.findall("YYYY|MM|DD", form)) == ["DD", "MM", "YYYY"],
                   f"a way of writing days has YYYY, MM and DD, each once, and not {form or 'nothing'}")
        elif what in AMOUNT_FIELDS:
            demand(form in AMOUNTS, f"an amount is written as one of {' or '.join(AMOUNTS)}, and not {form or 'nothing'}")
        elif what != "number":
            demand(not form, f"{form} follows the column of {what}")


def map_at(path: str) -> Map:
    made = Map()
    for row in rows_in(bytes_of(path)):
        try:
            made.take(row.fields)
        except Wrong as wrong:
            raise Wrong(f"{path}, line {row.line}: {wrong}") from wrong
    missing = [what for what in WANTED if what not in made.column]
    demand(not missing, f"{path} says nothing of {', '.join(missing)}")
    for pair in EITHER:
        given = [what for what in pair if what in made.column]
        demand(len(given) == 1, f"{path} names {'both' if given else 'neither'} of {' and '.join(pair)}, and one is wanted")
    demand(("status" in made.column) == bool(made.state_of), f"{path} has status and its words, state, together or neither")
    demand("reduced" in made.column or "paidup" not in made.state_of.values(),
           f"{path} has no reduced amount, which a policy that is paid up has")
    return made


# --- the fields of a row ---

def whole_in(text: str, least: int, most: int, what: str) -> int:
    """Returns the number of a text of digits; unlike in a script, zeros may precede it, as other systems write them."""
    demand(re.fullmatch("[0-9]{1,18}", text), f"the {what} is {text or 'empty'}")
    demand(least <= int(text) <= most, f"the {what} is {text}, and {least} to {most} can be")
    return int(text)


def day_in_form(text: str, form: str, what: str) -> datetime.date:
    parts = re.split("(YYYY|MM|DD)", form)
    found = re.fullmatch("".join(DAY_PARTS.get(part, re.escape(part)) for part in parts), text)
    demand(found, f"the {what} is {text or 'empty'}, and not as {form}")
    assert found
    try:
        return datetime.date(int(found["year"]), int(found["month"]), int(found["day"]))
    except ValueError:
        raise Wrong(f"the {what} is {text}, which isn't in the calendar") from None


def cents_in_form(text: str, form: str, what: str) -> int:
    between, before = AMOUNTS[form]
    digits = f"[0-9]{{1,3}}(?:{re.escape(between)}[0-9]{{3}})*|[0-9]+" if between else "[0-9]+"
    cents = f"(?:{re.escape(before)}[0-9]{{2}})?" if before else ""
    demand(re.fullmatch(f"(?:{digits}){cents}", text), f"the {what} is {text or 'empty'}, and not as {form}")
    whole, _, part = (text.replace(between, "") if between else text).partition(before) if before else (text, "", "")
    value = int(whole) if not before else int(whole) * 100 + int(part or 0)
    demand(1 <= value <= MOST_CENTS, f"the {what} is {text}, and 0.01 to 100000000.00 can be")
    return value


@dataclass(frozen=True)
class Foreign:
    """A row of another system's file: the line where it begins, its text, and its fields by the names of the columns."""

    line: int
    text: str
    fields: dict[str, str]


def age_of(born: datetime.date, day: datetime.date, way: str) -> int:
    """Returns the age on a day: at the last birthday, or at the nearest one.

    If two birthdays are equally near, the earlier counts.
    """
    age = completed(born, day)
    is_later_nearer = anniversary(born, age + 1) - day < day - anniversary(born, age)
    return age + 1 if way == NEAREST and is_later_nearer else age


class Reading:
    """Reads rows by a map. If the map has the day of birth, the age is that at the last or at the nearest birthday."""

    def __init__(self, given: Map, ages: str = LAST) -> None:
        self.map, self.ages = given, ages

    def text(self, row: Foreign, what: str) -> str:
        return row.fields[self.map.column[what]].strip()

    def number(self, row: Foreign) -> int:
        text, front = self.text(row, "number"), self.map.form["number"]
        demand(text.startswith(front), f"the number is {text or 'empty'}, without {front} in front")
        return whole_in(text[len(front):], 1, MOST_NUMBER, "number")

    def age(self, row: Foreign, day: datetime.date) -> int:
        if "age" in self.map.column:
            return whole_in(self.text(row, "age"), 0, OLDEST_AT_ISSUE, "age")
        born = day_in_form(self.text(row, "birth"), self.map.form["birth"], "day of birth")
        demand(born <= day, f"the day of birth is {born}, after the issue of {day}")
        age = age_of(born, day, self.ages)
        demand(age <= OLDEST_AT_ISSUE, f"the age at issue is {age}")
        return age

    def issue(self, row: Foreign) -> Command:
        day = day_in_form(self.text(row, "day"), self.map.form["day"], "day of issue")
        demand(FIRST_DAY <= day <= LAST_DAY, f"the day of issue is {day}")
        word = self.text(row, "plan")
        plan = self.map.plan_of.get(word)
        if plan is None:
            raise Wrong(f"the map has no plan for {word or 'an empty field'}")
        age, years = self.age(row, day), self.text(row, "years")
        term = 0 if plan == "whole" and years in ("", "0") else whole_in(years, 0, 131, "years")
        demand(years_fit(plan, age, term), f"a {plan} at age {age} can't have {term} years")
        amount = cents_in_form(self.text(row, "amount"), self.map.form["amount"], "amount")
        premium = cents_in_form(self.text(row, "premium"), self.map.form["premium"], "premium")
        return Command("issue", self.number(row), day, plan, age, term, amount, premium)

    def paid(self, row: Foreign, policy: Policy) -> int:
        """Returns the number of premiums that were paid."""
        if "paid" in self.map.column:
            count = whole_in(self.text(row, "paid"), 0, MOST_PAID, "number of premiums paid")
        else:
            to = day_in_form(self.text(row, "paid-to"), self.map.form["paid-to"], "day to which premiums are paid")
            count = to.year - policy.issued.year
            demand(count >= 0 and anniversary(policy.issued, count) == to,
                   f"premiums are paid to {to}, which is no anniversary of {policy.issued}")
        demand(count <= payments_of(policy), f"{count} premiums are paid, and it has {payments_of(policy)}")
        return count

    def state(self, row: Foreign) -> str:
        if "status" not in self.map.column:
            return "inforce"
        word = self.text(row, "status")
        state = self.map.state_of.get(word)
        if state is None:
            raise Wrong(f"the map has no state for {word or 'an empty field'}")
        demand(state != LEFT, f"its status is {word or 'empty'}")
        return state

    def ending(self, row: Foreign, policy: Policy, state: str) -> Command | None:
        """Returns the command that makes the policy lapsed, on the first day that allows it, or paid up, on the next due day;
        else None."""
        due = due_of(policy)
        if state == "inforce":
            return None
        demand(due is not None, f"it is {self.text(row, 'status')}, and all its premiums are paid")
        assert due is not None
        if state == "lapsed":
            return Command("lapse", policy.number, due + GRACE + datetime.timedelta(1))
        reduced = cents_in_form(self.text(row, "reduced"), self.map.form["reduced"], "reduced amount")
        said = f"the reduced amount is {self.text(row, 'reduced')}, and not below {money(policy.amount)}"
        demand(reduced < policy.amount, said)
        return Command("paidup", policy.number, due, amount=reduced)

    def class_(self, row: Foreign) -> str:
        if "class" not in self.map.column:
            return ""
        demand(self.text(row, "class"), "the class is empty")
        return self.text(row, "class")

    def commands(self, row: Foreign) -> list[Command]:
        """Returns the issue of a row, its premiums, each on its due day, and its lapse or `paidup`.

        The rules must accept all of them.
        """
        issue, state = self.issue(row), self.state(row)
        policy = taken_by(None, issue, "the issue")
        made = [issue]
        for year in range(self.paid(row, policy)):
            made.append(Command("premium", issue.number, anniversary(issue.on, year), amount=issue.premium))
            policy = taken_by(policy, made[-1], f"premium {year + 1}")
        ending = self.ending(row, policy, state)
        if ending is not None:
            made.append(ending)
            policy = taken_by(policy, ending, f"its {ending.kind}")
        demand(policy.last <= LAST_DAY, f"the last {made[-1].kind} is of {policy.last}")
        return made


def taken_by(policy: Policy | None, command: Command, what: str) -> Policy:
    """Returns the policy after a command, and raises Wrong if the rules refuse the command."""
    after = decide(policy, command)
    if not isinstance(after, Policy):
        raise Wrong(f"{what} would be refused: {','.join(after.words())}")
    return after


def is_utf8(text: str) -> bool:
    """Returns whether a text that was read with surrogates for stray bytes has no such byte."""
    return not re.search("[\udc80-\udcff]", text)


def foreign_rows(path: str, separator: str, columns: list[str]) -> Iterator[Foreign]:
    """Yields the rows of a file, which must have the columns. A row with too few or too many fields gets no fields."""
    text = text_of(bytes_of(path))
    demand("\0" not in text, f"{path} is no CSV: it has a byte 0")
    # splitlines would also end a line at a form feed and at U+2028, which occur in pasted names
    read = csv.reader(io.StringIO(text, newline=""), delimiter=separator)
    head = [name.strip() for name in next(read, [])]
    demand(len(set(head)) == len(head), f"{path}: two columns have one name")
    missing = [name for name in columns if name not in head]
    shown = ", ".join(head).encode(errors="surrogateescape").decode(errors="replace") or "none"
    hint = "" if is_utf8(text) else f"; it isn't UTF-8, as this makes it: iconv -f windows-1252 -t utf-8 {path}"
    demand(not missing, f"{path} has no column {', '.join(missing)}; it has {shown}{hint}")
    line = read.line_num + 1
    for fields in read:
        if fields:
            yield Foreign(line, separator.join(fields), dict(zip(head, fields)) if len(fields) == len(head) else {})
        line = read.line_num + 1


@dataclass
class Mapped:
    """The result for a file: the commands and the class of each policy, and the rows that were left out, each with the reason."""

    policies: list[list[Command]] = field(default_factory=list)
    classes: list[tuple[int, str]] = field(default_factory=list)
    left: list[tuple[Foreign, str]] = field(default_factory=list)

    def commands(self) -> list[Command]:
        """Returns the commands sorted by day; those of one day keep the order of the file.

        An issue therefore stays before its premium. If a policy is paid up, an upgrade comes first.
        """
        key: Callable[[Command], str] = lambda command: str(command.day)
        found = sorted((command for policy in self.policies for command in policy), key=key)
        return [UPGRADE, *found] if any(command.kind == "paidup" for command in found) else found


def mapped(path: str, given: Map, ages: str = LAST) -> Mapped:
    made, reading = Mapped(), Reading(given, ages)
    taken: dict[int, int] = {}
    for row in foreign_rows(path, given.separator, list(given.column.values())):
        try:
            demand(row.fields, "it has more or fewer fields than the header row")
            commands, class_ = reading.commands(row), reading.class_(row)
            number = commands[0].number
            demand(number not in taken, f"the number {number} stands in line {taken.get(number)} already")
            taken[number] = row.line
            made.policies.append(commands)
            made.classes.append((number, class_))
        except Wrong as wrong:
            made.left.append((row, str(wrong)))
    return made
