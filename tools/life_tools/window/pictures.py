"""Draws pictures in a page as SVG: a reserve over the years, and bars beside sums; the style sheet has the colours."""
from __future__ import annotations

from html import escape
from typing import Sequence

from life_tools.reports.drawing import unit_for
from life_tools.reports.report_pages import apart, money

WIDTH, HEIGHT = 720, 324
LEFT, RIGHT, TOP, BOTTOM = 152, 24, 24, 70
# the steps of an axis are one of these numbers times a power of ten
ROUND = (1, 2, 5, 10)


def step_of(most: int) -> int:
    """Returns a round step, of which about four make up `most`."""
    step = 1
    while True:
        for each in ROUND:
            if most <= 4 * step * each:
                return step * each
        step *= 10


def text(x: float, y: float, words: str, kind: str) -> str:
    return f'<text x="{x:.1f}" y="{y:.1f}" class="{kind}">{escape(words)}</text>'


class Curve:
    """A curve over years; each point has a year, an amount in cents, and the text of its day."""

    def __init__(self, points: Sequence[tuple[int, int, str]], chosen: int | None, says: str) -> None:
        self.points, self.chosen, self.says = points, chosen, says
        most = max((cents for _, cents, _ in points), default=0)
        self.step = step_of(max(most, 100))
        self.top = max(-(-most // self.step), 1) * self.step
        self.years = max(points[-1][0] if points else 1, 1)
        self.unit = unit_for(self.top)

    def across(self, year: int) -> float:
        return LEFT + (WIDTH - LEFT - RIGHT) * year / self.years

    def up(self, cents: int) -> float:
        return HEIGHT - BOTTOM - (HEIGHT - TOP - BOTTOM) * cents / self.top

    def grid(self) -> list[str]:
        parts = []
        for cents in range(0, self.top + 1, self.step):
            y = self.up(cents)
            parts.append(f'<line class="grid" x1="{LEFT}" x2="{WIDTH - RIGHT}" y1="{y:.1f}" y2="{y:.1f}"/>')
            says = apart(self.unit.told(cents))
            parts.append(text(LEFT - 10, y + 5, says.removesuffix(".00") if self.step >= self.unit.cents else says, "left"))
        # twice or three times as many years as amounts, since their labels are short
        every = step_of(-(-2 * self.years // 5))
        for year in range(0, self.years + 1, every):
            parts.append(text(self.across(year), HEIGHT - BOTTOM + 22, str(year), "middle"))
        return parts + self.names()

    def names(self) -> list[str]:
        """Returns the names of both axes, with the unit of the amounts."""
        middle = (TOP + HEIGHT - BOTTOM) / 2
        return [text((LEFT + WIDTH - RIGHT) / 2, HEIGHT - 10, "policy year", "middle axis"),
                f'<text x="22" y="{middle:.1f}" class="middle axis" transform="rotate(-90 22 {middle:.1f})">'
                f"{escape('reserve' + self.unit.words)}</text>"]

    def mark(self) -> list[str]:
        found = [point for point in self.points if point[0] == self.chosen]
        if not found:
            return []
        year, cents, _ = found[0]
        x, y = self.across(year), self.up(cents)
        return [f'<line class="chosen" x1="{x:.1f}" x2="{x:.1f}" y1="{y:.1f}" y2="{HEIGHT - BOTTOM}"/>',
                f'<circle class="chosen" cx="{x:.1f}" cy="{y:.1f}" r="5"/>']

    def svg(self) -> str:
        line = " ".join(f"{self.across(year):.1f},{self.up(cents):.1f}" for year, cents, _ in self.points)
        dots = [f'<circle cx="{self.across(year):.1f}" cy="{self.up(cents):.1f}" r="2.5">'
                f"<title>{escape(day)}: {money(cents)}</title></circle>" for year, cents, day in self.points]
        return "\n".join([f'<svg class="picture" viewBox="0 0 {WIDTH} {HEIGHT}" role="img" aria-label="{escape(self.says)}">',
                          *self.grid(), f'<polyline points="{line}"/>', *dots, *self.mark(), "</svg>"])


def bar(cents: int, most: int) -> str:
    """Returns a bar for a cell, scaled to `most`; an amount below 0 has its own colour."""
    permille = 1000 * abs(cents) // most if most > 0 else 0
    return ('<svg class="bar" viewBox="0 0 1000 60" preserveAspectRatio="none" aria-hidden="true">'
            '<rect class="ground" width="1000" height="60"/>'
            f'<rect class="{"less" if cents < 0 else "more"}" width="{permille}" height="60"/></svg>')
