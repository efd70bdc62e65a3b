"""Makes books and tables for special purposes: drawn books, a grid of ages, premiums around a net premium, select tables."""
import datetime
import random
from collections.abc import Iterator

from life_tools.common.formats import day_in, money
from life_tools.journal.file import file_of
from life_tools.reserves.exact import Known, insured_on
from life_tools.rules.commands import Command, years_fit
from life_tools.rules.policies import Policy
from life_tools.rules.tables import OLDEST_AT_ISSUE
from life_tools.tables.basis import BasisRow
from tests.support.drawn_scripts import BASIS, MIDDLE, make_book, make_script
from tests.support.folders import Folder

ONE = 10**9


def lay_basis(folder: Folder) -> None:
    """Writes a basis of four tables, one of them a select table."""
    folder.write("basis.csv", BASIS)
    folder.write("m.xml", MIDDLE)
    folder.take("q.xml", "g.xml", "select.xml")


def lay_drawn_book(folder: Folder, seed: int, policies: int, scripts: int) -> None:
    """Writes a drawn book with a basis of four tables: policies of all plans and statuses, at ages around the ends of the
    tables, after commands of drawn scripts."""
    draw = random.Random(seed)
    book = make_book(draw, policies)
    for _ in range(scripts):
        # make_script also takes the accepted commands into the book
        make_script(draw, book)
    folder.write("journal.life", bytes(file_of(book.commands)))
    lay_basis(folder)


def grid_of_all_ages() -> bytes:
    """Returns a journal of every plan at every age, with short covers, and covers to the end of a table and beyond it."""
    day = datetime.date(2000, 2, 29)
    book = [(plan, age, years) for age in range(OLDEST_AT_ISSUE + 1) for plan in ("whole", "term", "endowment", "limited")
            for years in ((0,) if plan == "whole" else (2, 3, 11, 26, 120 - age, 121 - age, 131 - age))
            if years_fit(plan, age, years)]
    return bytes(file_of(Command("issue", number, day, plan, age, years, 99999 + 7 * number, 1 + 13 * number)
                         for number, (plan, age, years) in enumerate(book, 1)))


def script_of_ages(ages: list[int]) -> str:
    """Returns issues of each plan at these ages, with short covers and with covers that last longer than a select period."""
    rows = []
    for age in ages:
        rows.append(("whole", age, 0))
        rows += [(plan, age, years) for years in (2, 10, 26) if age + years <= 131 for plan in ("term", "endowment", "limited")]
    return "".join(f"1,issue,{number},2000-01-01,{plan},{age},{years},1000.00,20.00\n"
                   for number, (plan, age, years) in enumerate(rows, 1))


def premiums_around(basis: list[BasisRow]) -> Iterator[tuple[str, str]]:
    """Yields issues with premiums around the net premium, to the cent, each with whether the premium is enough: for each plan,
    age and term two that are short and two that are enough."""
    day, amount, number = day_in("2021-03-01"), 1234567, 0
    known: Known = {}
    for plan, age, years in ((plan, age, years) for plan in ("term", "whole", "endowment", "limited") for age in (20, 41, 67)
                             for years in ((0,) if plan == "whole" else (2, 11, 25))):
        insured = insured_on(Policy(1, plan, age, years, amount, 1, day, day), basis, day, known)[1]
        assert insured is not None and not isinstance(insured, str)
        net = int(amount * getattr(insured, "modified"))
        for premium in range(net - 1, net + 3):
            number += 1
            yield (f"1,issue,{number},{day},{plan},{age},{years},{money(amount)},{money(premium)}\n",
                   "short" if premium <= net else "enough")


def ultimate(age: int) -> int:
    """Returns the ultimate rate at an age in units of 10^-9: 600 age^3, at most 1."""
    return min(600 * age**3, ONE)


def select(age: int, duration: int) -> int:
    """Returns the select rate: half of the ultimate rate at duration 0, and a fiftieth of it more with each year of duration."""
    return ultimate(age + duration) * min(25 + duration, 50) // 50


def row(label: int, units: int) -> str:
    return f'<Y t="{label}">' + f"{units // ONE}.{units % ONE:09}".rstrip("0").rstrip(".") + "</Y>"


def axis(name: str, first: int, last: int) -> str:
    return (f'<AxisDef id="{name}"><ScaleType tc="3">{name}</ScaleType><AxisName>{name}</AxisName><MinScaleValue>{first}'
            f"</MinScaleValue><MaxScaleValue>{last}</MaxScaleValue><Increment>1</Increment></AxisDef>")


def table(axes: list[str], values: list[str]) -> str:
    return ('  <Table>\n    <MetaData>\n      <ScalingFactor>0</ScalingFactor>\n      <DataType tc="2">Floating '
            'Point</DataType>\n      ' + "\n      ".join(axes) + "\n    </MetaData>\n    <Values>\n" + "\n".join(values)
            + "\n    </Values>\n  </Table>\n")


def select_table(first: int, last: int, durations: int, ultimate_first: int, ultimate_last: int) -> str:
    """Returns a select and ultimate table of realistic size, with a classification, metadata and names of its axes. For the
    last issue ages there are rates only up to age 130, and an empty Y for each later duration."""
    values = []
    for age in range(first, last + 1):
        rows = [row(k + 1, select(age, k)) if age + k <= 130 else f'<Y t="{k + 1}"/>' for k in range(durations)]
        values.append(f'      <Axis t="{age}">\n        <Axis>\n          ' + "\n          ".join(rows)
                      + "\n        </Axis>\n      </Axis>")
    by_age = [f"        {row(age, ultimate(age))}" for age in range(ultimate_first, ultimate_last + 1)]
    return ('<?xml version="1.0" encoding="utf-8"?>\n<XTbML>\n  <ContentClassification>\n    '
            '<TableIdentity>900002</TableIdentity>\n    <ContentType tc="1">Insured Lives Mortality</ContentType>\n    '
            "<TableName>Made select and ultimate table</TableName>\n  </ContentClassification>\n"
            + table([axis("Age", first, last), axis("Duration", 1, durations)], values)
            + table([axis("Age", ultimate_first, ultimate_last)], ["      <Axis>", *by_age, "      </Axis>"]) + "</XTbML>\n")
