"""Compares the balances of the small office with those of plain text accounting: its records are written as transactions for
`ledger` and `hledger`, and the balances of these programs must be those that `state` prints."""
import decimal
import subprocess

import pytest

from tests.support.folders import Folder

LEDGER = ["ledger", "-f", "transactions", "balance", "--flat", "--no-total", "--empty", "--balance-format",
          "%(account),%(quantity(display_total))\n"]
HLEDGER = ["hledger", "-f", "transactions", "balance", "-N", "--flat", "-E", "-O", "csv"]


@pytest.mark.parametrize("words", [pytest.param(words, marks=pytest.mark.needs(words[0]), id=words[0])
                                   for words in (LEDGER, HLEDGER)])
def test_balances(words: list[str], small_office: Folder) -> None:
    small_office.write("transactions", small_office.printed("read", "--ledger", "journal.life"))
    printed = subprocess.run(words, cwd=small_office.path, capture_output=True, text=True, check=True).stdout
    rows = [line.replace('"', "").strip().split(",") for line in printed.splitlines()]
    found = sorted(f"{account},{decimal.Decimal(balance):.2f}" for account, balance in rows if account != "account")
    state = small_office.life("state").out
    assert found == sorted(line.removeprefix("balance,") for line in state.splitlines() if line.startswith("balance,"))
