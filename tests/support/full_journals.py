"""Writes journals that are full, or nearly full, without code of the tools."""
import datetime
import os
from pathlib import Path

HEADER = b"\x01LIFEJRNL\x00\x01\x00\x40\x00\x00\x00\x00"
EPOCH = datetime.date(1970, 1, 1)
MOST, OLD, PREMIUMS, LAST_YEAR = 4_000_000, 32_000, 111, 401_000
RECORD = 65
WHOLE, TERM = bytes([1, 2, 20, 0]), bytes([1, 1, 30, 10])
PREMIUM = bytes([2, 0, 0, 0])


def days_of(day: datetime.date) -> bytes:
    return (day - EPOCH).days.to_bytes(4, "big", signed=True)


def records(kind: bytes, numbers: list[bytes], day: datetime.date, amount: int, premium: int) -> bytes:
    prefix = b"\x01" + kind
    rest = days_of(day) + amount.to_bytes(8, "big") + premium.to_bytes(8, "big") + bytes(36)
    return b"".join(prefix + number + rest for number in numbers)


def fill(out: Path, today: datetime.date) -> None:
    with open(out, "r+b") as file:
        count = (file.seek(0, os.SEEK_END) - len(HEADER)) // RECORD
        file.seek(len(HEADER) + count * RECORD)
        # the numbers go on in order; each record that is no premium has used one
        first = count - OLD * PREMIUMS + 1
        numbers = [number.to_bytes(4, "big") for number in range(first, first + MOST - count)]
        file.write(records(TERM, numbers, today, 100_000, 1_000) + b"\x00")


def write_nearly_full(out: Path, left: int, today: datetime.date) -> None:
    """Writes a journal in which `left` commands are left. 32,000 whole life policies issued in 1900 at age 20 have paid all
    their 111 premiums, and their cover has ended. After these, policies were issued three years before `today`; one is dated
    2081; and 401,000 were issued on the 365 days that end with `today`."""
    begun = OLD * (PREMIUMS + 1)
    rest = [number.to_bytes(4, "big") for number in range(OLD + 1, OLD + 1 + MOST - left - begun)]
    before, last = rest[:-LAST_YEAR - 1], rest[-LAST_YEAR:]
    old = [number.to_bytes(4, "big") for number in range(1, OLD + 1)]
    with open(out, "wb") as file:
        file.write(HEADER + records(WHOLE, old, datetime.date(1900, 6, 1), 100_000, 1_000))
        for year in range(1900, 1900 + PREMIUMS):
            file.write(records(PREMIUM, old, datetime.date(year, 6, 1), 1_000, 0))
        file.write(records(TERM, before, today - datetime.timedelta(3 * 365), 100_000, 1_000))
        file.write(records(TERM, rest[len(before):len(before) + 1], datetime.date(2081, 6, 1), 100_000, 1_000))
        for day in range(365):
            file.write(records(TERM, last[day::365], today - datetime.timedelta(364 - day), 100_000, 1_000))
        file.write(b"\x00")
