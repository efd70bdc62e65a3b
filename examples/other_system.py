"""Draws a book as another system might hand it out, for the worked example of `life-tools import`.

usage: python3 other_system.py COUNT [STATE]

It prints a CSV with `;` between the fields, German days and amounts, and premiums paid up to 2024-12-31; every 400th row
can't be mapped. STATE gets the policies as `life state` is to print them, from what was drawn and not from the CSV.
"""
from __future__ import annotations

import datetime
import random
import sys

TARIFFS = {"RLV": "term", "KLV": "endowment", "LLV": "whole", "LLV-abg": "limited"}
LAST_YEAR = 2024
FAULTS = ("31.02.2015", "2015-03-01", "")


def german(cents: int) -> str:
    whole = f"{cents // 100:,}".replace(",", ".")
    return f"{whole},{cents % 100:02}"


def plain(cents: int) -> str:
    return f"{cents // 100}.{cents % 100:02}"


def drawn(draw: random.Random, number: int) -> tuple[str, tuple[str, int, str] | None]:
    """A row, and its policy: the day of issue, the number, and the line of `state`; a row that can't be mapped has none."""
    tariff, plan = draw.choice(list(TARIFFS.items()))
    age, years = draw.randrange(20, 65, 5), draw.randrange(10, 35, 5)
    # no birthday and no issue on a 29 February, whose anniversaries are told apart in other checks
    day = datetime.date(draw.randint(1996 if draw.random() < 0.1 else 2018, LAST_YEAR), draw.randint(1, 12), draw.randint(1, 28))
    born = datetime.date(day.year - age, day.month, day.day) - datetime.timedelta(draw.randrange(365))
    amount, premium = draw.randint(5, 4000) * 50000, draw.randint(10000, 900000)
    most = 131 - age if plan == "whole" else years
    paid = min(LAST_YEAR - day.year + 1, most)
    fault = draw.choice(FAULTS) if number % 400 == 0 else None
    begun = f"{day:%d.%m.%Y}" if fault is None else fault
    term = "" if plan == "whole" else years
    row = f"LV-{number:07};{begun};{tariff};{born:%d.%m.%Y};{term};{german(amount)};{german(premium)};{paid}"
    if fault is not None:
        return row, None
    shown = 0 if plan == "whole" else years
    line = f"policy,{number},inforce,{plan},{age},{shown},{plain(amount)},{plain(premium)},{day},{paid},0.00"
    return row, (str(day), number, line)


def main() -> None:
    draw = random.Random(1)
    policies = []
    print("Vertrag;Beginn;Tarif;Geboren;Dauer;Summe;Jahresbeitrag;gezahlt")
    for number in range(1, int(sys.argv[1]) + 1):
        row, policy = drawn(draw, number)
        print(row)
        if policy:
            policies.append(policy)
    if len(sys.argv) > 2:
        with open(sys.argv[2], "w", encoding="ascii") as file:
            file.writelines(f"{line}\n" for _, _, line in sorted(policies))


main()
