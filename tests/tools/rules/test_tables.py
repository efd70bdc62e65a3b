"""Compares the tools' tables of rules with the tables of docs/reference/rules.md. Both engines of the tools take these tables, so
a comparison of the engines alone would not notice a wrong one."""
from __future__ import annotations

import pytest

from life_tools.rules.tables import BOOKINGS, CHECKS
from tests.rules import page
from tests.rules.policies import OF_BOOK, WHEN


@pytest.mark.parametrize("kind", [kind for kind in page.CHECKS if kind not in ("issue", "upgrade")])
def test_the_checks_in_their_order(kind: str) -> None:
    wanted = [page.REASONS[check] for check in page.CHECKS[kind] if check not in OF_BOOK]
    assert [check.reason for check in CHECKS[kind]] == wanted


def test_the_accounts() -> None:
    booked = {kind: {it.first: it.sign, it.second: -it.sign} for kind, it in BOOKINGS.items()}
    assert booked == {kind: signs for kind, signs in page.BOOKED.items() if signs}


def test_the_independent_rules_have_each_check_of_the_page() -> None:
    assert {check for checks in page.CHECKS.values() for check in checks} == {*WHEN, *OF_BOOK}
