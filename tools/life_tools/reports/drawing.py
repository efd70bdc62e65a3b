"""Draws plain SVG pictures: lines over days or years, and bars."""
from __future__ import annotations

import datetime
from html import escape
from typing import Callable, List, NamedTuple, Sequence, Tuple

from life_tools.common.formats import money

WIDTH, HEIGHT = 800, 420
LEFT, RIGHT, TOP, BOTTOM = 170, 170, 40, 50
COLORS = ("#1f77b4", "#d62728", "#2ca02c", "#9467bd", "#ff7f0e", "#8c564b", "#17becf", "#7f7f7f")


def text(x: float, y: float, words: str, anchor: str = "start") -> str:
    return f'<text x="{x:.1f}" y="{y:.1f}" text-anchor="{anchor}">{escape(words)}</text>'


def line(x1: float, y1: float, x2: float, y2: float, color: str) -> str:
    return f'<line x1="{x1:.1f}" y1="{y1:.1f}" x2="{x2:.1f}" y2="{y2:.1f}" stroke="{color}"/>'


def framed(title: str, parts: Sequence[str], height: int = HEIGHT) -> str:
    """Returns a whole drawing with its title."""
    head = (f'<svg xmlns="http://www.w3.org/2000/svg" width="{WIDTH}" height="{height}" viewBox="0 0 {WIDTH} {height}" '
            'font-family="sans-serif" font-size="12">')
    ground = f'<rect width="{WIDTH}" height="{height}" fill="white"/>'
    return "\n".join([head, ground, text(LEFT, TOP - 16, title), *parts, "</svg>", ""])


class Unit(NamedTuple):
    """The unit in which amounts are shown: how many cents it is, and its name for a title."""

    cents: int
    words: str

    def told(self, cents: int) -> str:
        """Returns an amount in this unit, rounded to two places."""
        return money((cents * 100 + self.cents // 2) // self.cents)


def unit_for(most: int) -> Unit:
    """Returns the largest unit of which the greatest amount is at least ten."""
    return next((unit for unit in UNITS if most >= 10 * unit.cents), WHOLE)


WHOLE, UNITS = Unit(100, ""), (Unit(10**8, ", in millions"), Unit(10**5, ", in thousands"))


def grid(most: int, unit: Unit) -> list[str]:
    """Returns five lines at equal steps from 0 to `most`, with their amounts."""
    parts = []
    for step in range(5):
        y = place(most * step // 4, most)
        parts.append(line(LEFT, y, WIDTH - RIGHT, y, "#dddddd"))
        parts.append(text(LEFT - 8, y + 4, unit.told(most * step // 4), "end"))
    return parts


def place(cents: int, most: int) -> float:
    """Returns the vertical place of an amount in a drawing of amounts from 0 to `most`."""
    return HEIGHT - BOTTOM - (HEIGHT - TOP - BOTTOM) * cents / max(most, 1)


# a series: its name and its points, each with a horizontal place and an amount in cents
Series = Tuple[str, Sequence[Tuple[int, int]]]
DaySeries = Tuple[str, List[Tuple[datetime.date, int]]]


def lines_over(title: str, series: Sequence[Series], name_of: Callable[[int], str]) -> str:
    """Draws each series as a line with a dot for each point and its name at the right; the two ends of the axis are named."""
    places = sorted({at for _, points in series for at, _ in points})
    most = max(cents for _, points in series for _, cents in points)
    whole = max(places[-1] - places[0], 1)

    def across(at: int) -> float:
        return LEFT + (WIDTH - LEFT - RIGHT) * (at - places[0]) / whole

    unit = unit_for(most)
    parts = grid(most, unit)
    parts += [text(across(at), HEIGHT - BOTTOM + 18, name_of(at), "middle") for at in dict.fromkeys((places[0], places[-1]))]
    for number, (name, points) in enumerate(series):
        color = COLORS[number % len(COLORS)]
        placed = [(across(at), place(cents, most)) for at, cents in sorted(points)]
        parts.append(f'<polyline fill="none" stroke="{color}" points="{" ".join(f"{x:.1f},{y:.1f}" for x, y in placed)}"/>')
        parts += [f'<circle cx="{x:.1f}" cy="{y:.1f}" r="2.5" fill="{color}"/>' for x, y in placed]
        parts.append(line(WIDTH - RIGHT + 14, TOP + 16 * number, WIDTH - RIGHT + 30, TOP + 16 * number, color))
        parts.append(text(WIDTH - RIGHT + 36, TOP + 16 * number + 4, name))
    return framed(title + unit.words, parts)


def lines_over_days(title: str, series: Sequence[DaySeries]) -> str:
    by_day = [(name, [(day.toordinal(), cents) for day, cents in points]) for name, points in series]
    return lines_over(title, by_day, lambda at: str(datetime.date.fromordinal(at)))


def bars(title: str, rows: Sequence[tuple[str, int]]) -> str:
    """Draws a bar from 0 on for each row, with its name and its amount."""
    most = max(cents for _, cents in rows)
    unit = unit_for(most)
    parts = []
    for number, (name, cents) in enumerate(rows):
        y = TOP + 22 * number
        width = (WIDTH - LEFT - RIGHT) * cents / max(most, 1)
        parts.append(text(LEFT - 8, y + 13, name, "end"))
        parts.append(f'<rect x="{LEFT}" y="{y}" width="{width:.1f}" height="16" fill="{COLORS[0]}"/>')
        parts.append(text(LEFT + width + 8, y + 13, unit.told(cents)))
    return framed(title + unit.words, parts, TOP + 22 * len(rows) + 20)
