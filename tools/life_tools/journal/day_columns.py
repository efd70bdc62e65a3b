"""Computes with columns of days, which are numbers of days from 1970-01-01: their years, anniversaries and texts."""
from __future__ import annotations

from functools import lru_cache

from life_tools.rules.commands import day_at, number_at
from life_tools.common.formats import FIRST_DAY, LAST_DAY
from life_tools.common.arrays import Array, np

__all__ = ["FIRST", "FIRST_YEAR", "LAST", "LAST_YEAR", "anniversaries", "completed_years", "day_at", "number_at",
           "text_at", "texts_at", "years_at"]

FIRST, LAST = number_at(FIRST_DAY), number_at(LAST_DAY)
FIRST_YEAR = FIRST_DAY.year
# no anniversary of a day of the calendar is in a later year
LAST_YEAR = 2400
# the place of 29 February in a leap year, from 0
LEAP_DAY = 31 + 28


def calendar() -> tuple[Array, Array, Array, Array]:
    """Returns for each year its first day and whether it is a leap year; for each day its year and its place in a leap year."""
    starts = np.arange(f"{FIRST_YEAR}", f"{LAST_YEAR + 2}", dtype="datetime64[Y]").astype("datetime64[D]").astype(np.int32)
    leap = np.diff(starts) == 366
    days = np.arange(starts[0], starts[-1], dtype=np.int32)
    year = np.repeat(np.arange(len(leap), dtype=np.int16), np.diff(starts))
    place = (days - starts[year]).astype(np.int16)
    place += (~leap[year] & (place >= LEAP_DAY))
    return starts[:-1], leap, year, place


STARTS, IS_LEAP, YEAR, PLACE = calendar()
# TURN is, for each day, twice the index of its year, plus one from 29 February on. BASE gives for each value of TURN what is
# added to the day's place in a leap year to get the day's number.
TURN = 2 * YEAR + (PLACE >= LEAP_DAY)
BASE = np.column_stack([STARTS, STARTS - ~IS_LEAP]).ravel()


def years_at(days: Array) -> Array:
    """Returns the years of days of the calendar."""
    years: Array = YEAR[days - STARTS[0]] + FIRST_YEAR
    return years


def anniversaries(days: Array, years: Array | int) -> Array:
    """Returns the anniversaries after so many years; for a 29 February it is the 28th in a year that is not a leap year."""
    at = (days - STARTS[0]).astype(np.intp)
    found: Array = BASE[TURN[at] + 2 * years] + PLACE[at]
    return found


def completed_years(issued: Array, on: Array | int) -> Array:
    """Returns the number of whole years from days to later days."""
    years = YEAR[on - STARTS[0]] - YEAR[issued - STARTS[0]]
    whole: Array = years - (anniversaries(issued, years) > on)
    return whole


@lru_cache(maxsize=None)
def all_texts() -> Array:
    first = int(STARTS[0])
    texts: Array = np.datetime_as_string(np.arange(first, first + len(YEAR), dtype="datetime64[D]")).astype(object)
    return texts


def texts_at(days: Array) -> list[str]:
    """Returns the texts YYYY-MM-DD of days of the calendar."""
    texts: list[str] = all_texts()[days - STARTS[0]].tolist()
    return texts


def text_at(number: int) -> str:
    return str(day_at(number))
