"""Draws what the program printed as SVG, on standard output: valuations over
their days, a book, or a projection by year.

    life-tools plot projection december.projection > projection.svg

Of bounds the upper ones are drawn, which are never below the exact values. How
many policies have a word in place of bounds is reported on standard error:
they are in no sum. Amounts are shown in thousands from 10,000 on, and in
millions from 10 millions on.

The status is 0, or 2 if it could not be done.
"""
from __future__ import annotations

import argparse

from life_tools.reports.drawing import DaySeries, bars, lines_over, lines_over_days
from life_tools.common.formats import demand, printed_text, remark
from life_tools.valuations.printed_states import amounts_of, rows_of
from life_tools.valuations.printed_valuations import SHOWN, Valuation, valuations_in
from life_tools.reserves.projections import KINDS_OF_CASH, printed_projection

RESERVES = """Draws printed valuations: the total of each over its day, or single policies' reserves.

A file may have one valuation or several, as `life value` or `life run` printed them, all of one measure. What is drawn
are the upper bounds, which are never below the exact reserves: of deficiency those of the minimum reserves.
"""
BOOK = """Draws the book that `life state` printed: the amounts insured, by plan and status.

After each name comes the number of its policies. The amounts of policies that are no longer in force are those that were
insured last.
"""
PROJECTION = """Draws a projection that `life project` printed: premiums, deaths and maturities by year.

What is drawn are the upper bounds, which are never below what is expected.
"""


def arguments(parser: argparse.ArgumentParser) -> None:
    drawings = parser.add_subparsers(dest="drawing", metavar="DRAWING", required=True)
    of = {name: drawings.add_parser(name, help=says.split(":")[0], description=says,
                                    formatter_class=argparse.RawDescriptionHelpFormatter)
          for name, says in (("reserves", RESERVES), ("book", BOOK), ("projection", PROJECTION))}
    of["reserves"].add_argument("--policy", metavar="ID", type=int, action="append", default=[],
                                help="draw this policy; may be repeated")
    of["reserves"].add_argument("files", metavar="VALUATIONS", nargs="+", help="what life value printed")
    of["book"].add_argument("state", metavar="STATE", help="what life state printed")
    of["projection"].add_argument("projection", metavar="PROJECTION", help="what life project printed")


# --- reserves ---

def series_of(found: list[Valuation], policies: list[int]) -> list[DaySeries]:
    if not policies:
        for valuation in found:
            if valuation.words:
                remark(f"{valuation.day}: {valuation.words} policies are not valued, and are in no sum")
        return [("total", [(valuation.day, valuation.total) for valuation in found])]
    return [policy_series(found, number) for number in policies]


def policy_series(found: list[Valuation], number: int) -> DaySeries:
    points = [(valuation.day, valuation.upper[number]) for valuation in found if number in valuation.upper]
    demand(points, f"policy {number} has bounds in none of the valuations")
    return f"policy {number}", points


def reserves(options: argparse.Namespace) -> str:
    found = [valuation for path in options.files for valuation in valuations_in(printed_text(path))]
    demand(found, "there is no valuation in these files")
    demand(len({valuation.measure for valuation in found}) == 1, "the valuations are of several measures")
    days = sorted(valuation.day for valuation in found)
    title = f"{SHOWN[found[0].measure][0]}, upper bounds, {days[0]} to {days[-1]}"
    return lines_over_days(title, series_of(found, options.policy))


# --- a book ---

def book(options: argparse.Namespace) -> str:
    found = amounts_of(printed_text(options.state))
    demand(found, "there are no policies")
    policies = sum(count for count, _ in found.values())
    return bars(f"amounts insured, {policies} policies", rows_of(found))


# --- a projection ---

def projection(options: argparse.Namespace) -> str:
    printed = printed_projection(printed_text(options.projection))
    demand(all(lower <= upper for year in printed.years for lower, upper in year), "a lower bound is above the upper one")
    if printed.words:
        remark(f"{printed.words} policies are not valued, and are in no sum")
    series = [(name, [(j, year[kind][1]) for j, year in enumerate(printed.years)]) for kind, name in enumerate(KINDS_OF_CASH)]
    title = f"expected payments by year, upper bounds, {printed.policies} policies, from {printed.day} on"
    return lines_over(title, series, lambda j: f"year {j}")


DRAWINGS = {"reserves": reserves, "book": book, "projection": projection}


def run(options: argparse.Namespace) -> int:
    print(DRAWINGS[options.drawing](options), end="")
    return 0
