"""Reads the book that `life state` printed: the number of policies of each plan and status, and their amounts."""
from __future__ import annotations

from life_tools.common.formats import PLANS, STATUSES, demand, printed_cents, printed_rows

POLICY_FIELDS = 11


def amounts_of(text: str) -> dict[tuple[str, str], tuple[int, int]]:
    """Returns by plan and status the number of policies, and their amounts in cents."""
    rows = printed_rows(text)
    demand(rows and rows[-1][0] == "count", "this isn't what life state prints: its last line is `count,N`")
    found: dict[tuple[str, str], tuple[int, int]] = {}
    for row in rows:
        if row[0] != "policy":
            demand(row[0] in ("balance", "count"), f"{','.join(row)} is no line of life state")
            continue
        is_policy = len(row) == POLICY_FIELDS and row[2] in STATUSES and row[3] in PLANS.values()
        demand(is_policy, f"{','.join(row)} is no policy's line")
        policies, cents = found.get((row[3], row[2]), (0, 0))
        found[row[3], row[2]] = policies + 1, cents + printed_cents(row[6])
    return found


def rows_of(found: dict[tuple[str, str], tuple[int, int]]) -> list[tuple[str, int]]:
    """Returns a row for each plan and status in their order: its name with the number of policies, and the cents."""
    keys = [(plan, status) for plan in PLANS.values() for status in STATUSES if (plan, status) in found]
    return [(f"{plan} {status} {found[plan, status][0]}", found[plan, status][1]) for plan, status in keys]
