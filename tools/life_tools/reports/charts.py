"""Draws charts as SVG for a page: columns by months or years, a divided bar, a gauge, a waterfall; the style sheet has the
colours.

Each chart has a title, the names of its axes, a legend, and a text for people who cannot see it; a mark may be a link to the list
behind it. The numbers are those of the table behind the chart, and only places are computed here.
"""
from __future__ import annotations

from dataclasses import dataclass, field
from html import escape
from typing import Callable, Sequence

from life_tools.reports.drawing import Unit, unit_for
from life_tools.reports.report_pages import apart, money

WIDTH, HEIGHT = 720, 320
LEFT, RIGHT, TOP, BOTTOM = 108, 12, 18, 72
# where the name of the vertical axis stands
NAMED = 18
# an axis has about STEPS steps, and a step is one of ROUND times a power of ten
ROUND, STEPS = (1, 2, 5, 10), 4
# the greatest width of a letter of a label, and on a narrow page, where the style sheet enlarges it
LETTER, LARGE = 8, 13
COUNTED = Unit(1, "")


def step_of(most: int) -> int:
    """Returns a round step, of which about four make up `most`."""
    step = 1
    while True:
        for each in ROUND:
            if most <= STEPS * step * each:
                return step * each
        step *= 10


@dataclass(frozen=True)
class Series:
    """A series of values with its name and the class of its colour; `links` has for each value the address of what is behind
    it."""

    name: str
    colour: str
    values: Sequence[int | None]
    links: Sequence[str] = ()


@dataclass(frozen=True)
class Axes:
    """The labels on the horizontal axis and its name, the name of the vertical axis, and whether values are cents or counts."""

    across: str
    labels: Sequence[str]
    up: str
    is_money: bool = True


# if the changes are less than this part of the values, the axis begins above 0
LITTLE = 0.4


@dataclass
class Scale:
    """The vertical axis, which goes from the lowest round step to the highest.

    It begins at 0, unless `is_cut` is set and the changes would be too small to be seen.
    """

    values: Sequence[int]
    is_money: bool
    is_cut: bool = False
    step: int = field(init=False)
    low: int = field(init=False)
    high: int = field(init=False)
    unit: Unit = field(init=False)
    # the value at which columns begin
    foot: int = field(init=False)

    def __post_init__(self) -> None:
        most, least = max([0, *self.values]), min([0, *self.values])
        if self.is_cut and least >= 0 and most - min(self.values) < LITTLE * most:
            least = min(self.values)
        self.step = step_of(max(most - least, 100 if self.is_money else STEPS))
        self.high, self.low = -(-most // self.step) * self.step, least // self.step * self.step
        self.high = max(self.high, self.low + self.step)
        self.foot = max(self.low, 0)
        self.unit = unit_for(max(self.high, -self.low)) if self.is_money else COUNTED

    def at(self, value: int) -> float:
        return TOP + (HEIGHT - TOP - BOTTOM) * (self.high - value) / (self.high - self.low)

    def ticks(self) -> range:
        return range(self.low, self.high + 1, self.step)

    def told(self, value: int) -> str:
        """Returns a value as the label of its tick."""
        if not self.is_money:
            return f"{value:,}"
        said = apart(self.unit.told(abs(value)))
        return ("−" if value < 0 else "") + (said.removesuffix(".00") if self.step >= self.unit.cents else said)


def shown(value: int, is_money: bool) -> str:
    return money(value) if is_money else f"{value:,}"


def text(x: float, y: float, words: str, kind: str) -> str:
    return f'<text x="{x:.1f}" y="{y:.1f}" class="{kind}">{escape(words)}</text>'


def linked(mark: str, address: str) -> str:
    return f'<a href="{escape(address)}">{mark}</a>' if address else mark


def rect(x: float, y: float, width: float, height: float, kind: str, says: str) -> str:
    return (f'<rect x="{x:.1f}" y="{y:.1f}" width="{max(width, 0.5):.1f}" height="{max(height, 0.5):.1f}" class="{kind}">'
            f"<title>{escape(says)}</title></rect>")


def legend(series: Sequence[tuple[str, str, str]]) -> str:
    """Returns the names of the colours as a list; a name is a link if it has an address."""
    names = "".join(f'<li class="{colour}">{linked(escape(name), link)}</li>' for name, colour, link in series)
    return f'<ul class="legend">{names}</ul>'


def frame(axes: Axes, scale: Scale) -> list[str]:
    """Returns the grid lines with their amounts, and the names of both axes."""
    parts = []
    for value in scale.ticks():
        y = scale.at(value)
        kind = "zero" if value == 0 else "grid"
        parts.append(f'<line class="{kind}" x1="{LEFT}" x2="{WIDTH - RIGHT}" y1="{y:.1f}" y2="{y:.1f}"/>')
        parts.append(text(LEFT - 8, y + 4.5, scale.told(value), "left"))
    parts += labels_of(axes.labels)
    parts.append(text((LEFT + WIDTH - RIGHT) / 2, HEIGHT - 10, axes.across, "middle axis"))
    middle = (TOP + HEIGHT - BOTTOM) / 2
    parts.append(f'<text x="{NAMED}" y="{middle:.1f}" class="middle axis" transform="rotate(-90 {NAMED} {middle:.1f})">'
                 f"{escape(axes.up + scale.unit.words)}</text>")
    return parts


def labels_of(labels: Sequence[str]) -> list[str]:
    """Returns as many labels as fit side by side; if the larger ones of a narrow page don't, the style sheet hides every second
    one there."""
    letters = max(map(len, labels), default=1)
    every = max(-(-int(len(labels) * (letters * LETTER + 14)) // (WIDTH - LEFT - RIGHT)), 1)
    is_crowded = len(labels) * (letters * LARGE + 6) > every * (WIDTH - LEFT - RIGHT)
    parts = []
    for at, label in enumerate(labels):
        if at % every == 0:
            # a label ends within the picture, and begins right of the amounts
            x = min(max(middle_of(at, len(labels)), LEFT + letters * LETTER / 2), WIDTH - letters * LETTER / 2)
            is_minor = is_crowded and at // every % 2
            parts.append(text(x, HEIGHT - BOTTOM + 18, label, "middle tick minor" if is_minor else "middle tick"))
    return parts


def middle_of(at: int, count: int) -> float:
    return LEFT + (WIDTH - LEFT - RIGHT) * (at + 0.5) / max(count, 1)


def svg(says: str, parts: Sequence[str], height: int = HEIGHT) -> str:
    """Returns a chart, with a text for people who cannot see it."""
    return "\n".join([f'<svg class="chart" viewBox="0 0 {WIDTH} {height}" role="img" aria-label="{escape(says)}">', *parts,
                      "</svg>"])


def columns(says: str, axes: Axes, series: Sequence[Series], are_stacked: bool = False) -> str:
    """Returns a chart of columns at each label, side by side or stacked; a value that is not known yet has no column."""
    count = len(axes.labels)
    sums = [sum(each.values[at] or 0 for each in series) for at in range(count)] if are_stacked else []
    scale = Scale([*(value or 0 for each in series for value in each.values), *sums], axes.is_money)
    room = (WIDTH - LEFT - RIGHT) / max(count, 1)
    wide = min(room * 0.78, 64) / (1 if are_stacked else len(series))
    marks = []
    for at in range(count):
        x, base = middle_of(at, count) - wide * (1 if are_stacked else len(series)) / 2, 0
        for place, each in enumerate(series):
            value = each.values[at]
            if value is None:
                continue
            top, foot = scale.at(base + max(value, 0)), scale.at(base + min(value, 0))
            told = f"{axes.labels[at]}, {each.name}: {shown(value, axes.is_money)}"
            left = x if are_stacked else x + place * wide
            mark = rect(left, top, wide - 1, foot - top, each.colour, told)
            marks.append(linked(mark, each.links[at] if each.links else ""))
            base += value if are_stacked else 0
    return legend([(each.name, each.colour, "") for each in series]) + svg(says, [*frame(axes, scale), *marks])


# --- one bar ---

BAR_TOP, BAR_HEIGHT = 8, 40


def divided(says: str, parts: Sequence[tuple[str, int, str, str]], is_money: bool = False) -> str:
    """Returns one bar of several parts; each part has a name, a value, the class of its colour, and the address behind it."""
    whole = sum(value for _, value, _, _ in parts)
    marks, names, x = [], [], 0.0
    for name, value, colour, link in parts:
        wide = WIDTH * value / whole if whole else 0
        told = f"{name}: {shown(value, is_money)}"
        marks.append(linked(rect(x, BAR_TOP, max(wide - 1, 0.5), BAR_HEIGHT, colour, told), link))
        names.append((told, colour, link))
        x += wide
    return svg(says, marks, BAR_TOP + BAR_HEIGHT + 8) + legend(names)


def gauge(says: str, value: int, most: int, link: str, told: Callable[[int], str]) -> str:
    """Returns a bar that shows how much of `most` is used."""
    wide = WIDTH * value / most
    kinds = {0: "start", STEPS: "left"}
    ticks = [text(WIDTH * part / STEPS, BAR_TOP + BAR_HEIGHT + 20, told(most * part // STEPS),
                  kinds.get(part, "middle minor" if part % 2 else "middle")) for part in range(STEPS + 1)]
    return svg(says, [f'<rect x="0" y="{BAR_TOP}" width="{WIDTH}" height="{BAR_HEIGHT}" class="ground"/>',
                      linked(rect(0, BAR_TOP, max(wide, 2), BAR_HEIGHT, "c1", says), link), *ticks], BAR_TOP + BAR_HEIGHT + 30)


# --- from an opening to a closing value ---

def waterfall(says: str, axes: Axes, opening: int, moves: Sequence[int], closing: int, links: Sequence[str]) -> str:
    """Returns a waterfall: an opening value, what was added or taken line by line, and the closing value that results."""
    count = len(moves) + 2
    levels = [opening]
    for move in moves:
        levels.append(levels[-1] + move)
    scale = Scale([*levels, closing], axes.is_money, is_cut=True)
    steps = [(scale.foot, opening, opening, "c1")]
    steps += [(begin, begin + move, move, "c3" if move >= 0 else "c4") for begin, move in zip(levels, moves)]
    steps.append((scale.foot, closing, closing, "c1"))
    wide, marks = (WIDTH - LEFT - RIGHT) / count * 0.72, []
    for at, (begin, end, value, colour) in enumerate(steps):
        top, foot = scale.at(max(begin, end)), scale.at(min(begin, end))
        mark = rect(middle_of(at, count) - wide / 2, top, wide, foot - top, colour,
                    f"{axes.labels[at]}: {shown(value, axes.is_money)}")
        marks.append(linked(mark, links[at] if links else ""))
        if at + 1 < count:
            y = scale.at(end)
            left, right = middle_of(at, count) + wide / 2, middle_of(at + 1, count) - wide / 2
            marks.append(f'<line class="joint" x1="{left:.1f}" x2="{right:.1f}" y1="{y:.1f}" y2="{y:.1f}"/>')
    cut = f" (the axis begins at {shown(scale.foot, axes.is_money)}, not at 0)" if scale.foot else ""
    names = [(f"opening and closing{cut}", "c1", ""), ("added", "c3", ""), ("taken", "c4", "")]
    return legend(names) + svg(says, [*tilted(axes, scale), *marks], HEIGHT + TILT)


TILT = 100


def tilted(axes: Axes, scale: Scale) -> list[str]:
    """Returns the frame of a waterfall, whose labels are words and are drawn at a slant."""
    bare = Axes("", [], axes.up, axes.is_money)
    parts = frame(bare, scale)
    parts.append(text((LEFT + WIDTH - RIGHT) / 2, HEIGHT + TILT - 10, axes.across, "middle axis"))
    count = len(axes.labels)
    for at, label in enumerate(axes.labels):
        x, y = middle_of(at, count) + 4, HEIGHT - BOTTOM + 16
        parts.append(f'<text x="{x:.1f}" y="{y:.1f}" class="left" transform="rotate(-38 {x:.1f} {y:.1f})">{escape(label)}</text>')
    return parts
