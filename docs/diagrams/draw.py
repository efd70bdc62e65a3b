"""Draws the diagrams of the pages: each .dot beside this file by Graphviz, the others here. `sh life doc` runs it.

usage: python3 docs/diagrams/draw.py [FOLDER]      without one: beside this file

Each picture is an SVG with its own background, which follows the reader's light or dark setting.
"""
from __future__ import annotations

import pathlib
import re
import subprocess
import sys
from fractions import Fraction
from html import escape

HERE = pathlib.Path(__file__).resolve().parent
TOP = HERE.parents[1]
STYLE = """
svg { font-family: system-ui, sans-serif; }
text { fill: #1f2933; stroke: none; }
.back { fill: #ffffff; stroke: none; }
.node polygon, .node path, .node ellipse, .box { fill: #eef2f7; stroke: #5b6b7f; }
.strong polygon, .strong path, .strong ellipse, .strong.box { fill: #cfe3f7; stroke: #1c5d99; }
.end polygon, .end path, .end.box { fill: #e4e4e4; stroke: #6b6b6b; }
.good.box { fill: #d3efd9; stroke: #2b7a3d; }
.bad.box { fill: #f9d9d3; stroke: #b0402a; }
.warn.box { fill: #fdebc8; stroke: #a46a00; }
.edge path { stroke: #5b6b7f; fill: none; }
.edge polygon { stroke: #5b6b7f; fill: #5b6b7f; }
.line { stroke: #5b6b7f; fill: none; }
.thin { stroke: #9aa7b5; fill: none; stroke-dasharray: 3 3; }
.main { stroke: #1c5d99; fill: none; stroke-width: 2; }
.low { stroke: #2b7a3d; fill: none; stroke-width: 1.5; }
.high { stroke: #b0402a; fill: none; stroke-width: 1.5; }
.head { fill: #5b6b7f; stroke: none; }
.quiet { fill: #55606d; }
.mono { font-family: ui-monospace, monospace; }
.bold { font-weight: 600; }
@media (prefers-color-scheme: dark) {
  text { fill: #e6e9ee; }
  .back { fill: #1e2129; }
  .node polygon, .node path, .node ellipse, .box { fill: #2c3440; stroke: #93a4b8; }
  .strong polygon, .strong path, .strong ellipse, .strong.box { fill: #1d4468; stroke: #6fb1ee; }
  .end polygon, .end path, .end.box { fill: #3a3a3a; stroke: #a8a8a8; }
  .good.box { fill: #1f4a2b; stroke: #74c98a; }
  .bad.box { fill: #5a2a20; stroke: #e79380; }
  .warn.box { fill: #55400f; stroke: #e0b454; }
  .edge path, .line { stroke: #93a4b8; }
  .edge polygon { stroke: #93a4b8; fill: #93a4b8; }
  .thin { stroke: #66727f; }
  .main { stroke: #6fb1ee; }
  .low { stroke: #74c98a; }
  .high { stroke: #e79380; }
  .head { fill: #93a4b8; }
  .quiet { fill: #b3bdc9; }
}
"""


class Picture:
    """An SVG in the making: places count from the upper left corner, in points of the screen."""

    def __init__(self, width: int, height: int, title: str) -> None:
        self.width, self.height, self.title = width, height, title
        self.parts: list[str] = []

    def box(self, x: float, y: float, width: float, height: float, lines: str, sort: str = "") -> None:
        """A rectangle with lines of text in its middle; sort names its colour."""
        self.parts.append(f'<rect class="box {sort}" x="{x:g}" y="{y:g}" width="{width:g}" height="{height:g}" rx="4"/>')
        rows = lines.split("\n")
        for number, row in enumerate(rows):
            self.text(x + width / 2, y + height / 2 + 4 + 15 * (number - (len(rows) - 1) / 2), row, "middle")

    def text(self, x: float, y: float, words: str, anchor: str = "start", sort: str = "", size: int = 12) -> None:
        self.parts.append(f'<text class="{sort}" x="{x:g}" y="{y:g}" text-anchor="{anchor}" font-size="{size}">'
                          f"{escape(words)}</text>")

    def line(self, points: list[tuple[float, float]], sort: str = "line") -> None:
        path = " ".join(f"{x:.2f},{y:.2f}" for x, y in points)
        self.parts.append(f'<polyline class="{sort}" points="{path}"/>')

    def arrow(self, x1: float, y1: float, x2: float, y2: float) -> None:
        """A straight arrow, level or upright."""
        self.line([(x1, y1), (x2, y2)])
        if x1 == x2:
            side = 6 if y2 > y1 else -6
            head = [(x2, y2), (x2 - 4, y2 - side), (x2 + 4, y2 - side)]
        else:
            side = 6 if x2 > x1 else -6
            head = [(x2, y2), (x2 - side, y2 - 4), (x2 - side, y2 + 4)]
        self.parts.append('<polygon class="head" points="' + " ".join(f"{x:g},{y:g}" for x, y in head) + '"/>')

    def svg(self) -> str:
        return (f'<svg xmlns="http://www.w3.org/2000/svg" viewBox="0 0 {self.width} {self.height}" width="{self.width}" '
                f'height="{self.height}" role="img">\n<title>{escape(self.title)}</title>\n<style>{STYLE}</style>\n'
                f'<rect class="back" width="{self.width}" height="{self.height}"/>\n' + "\n".join(self.parts) + "\n</svg>\n")


def premium_timeline() -> Picture:
    """When the premium that falls due on an anniversary can be paid, and what follows if it is not."""
    made = Picture(900, 300, "Timeline of a premium")
    places = {"open": 90, "due": 250, "grace": 410, "lapse": 550, "limit": 810}
    axis = 130
    made.arrow(30, axis, 880, axis)
    for x, above, below in ((places["open"], "due day - 90 days", "2020-10-03"), (places["due"], "due day", "2021-01-01"),
                            (places["grace"], "due day + 31 days", "2021-02-01"), (places["lapse"], "lapse posted", "any day"),
                            (places["limit"], "due day + 3 years", "2024-01-01")):
        made.line([(x, axis - 8), (x, axis + 8)])
        made.text(x, axis - 18, above, "middle", "bold")
        made.text(x, axis + 26, below, "middle", "quiet", 11)
    made.box(90, 40, 320, 44, "the premium is accepted\n(earlier: tooearly; later: graceover)", "good")
    made.box(30, 170, 380, 40, "insured: a claim is accepted, in the days of grace too", "strong")
    made.box(414, 170, 132, 40, "in arrears:\nonly lapse is taken", "bad")
    made.box(550, 170, 260, 40, "lapsed: reinstate pays\nall premiums that were missed", "warn")
    for place, words in ((245, "A claim for a death after the days of grace is refused (graceover, wrongstatus,lapsed). After"),
                         (263, "the policy's anniversary three years later a reinstatement is refused (toolate). The days"),
                         (281, "shown are those of a policy issued on 2020-01-01 whose second premium is unpaid.")):
        made.text(30, place, words, sort="quiet")
    return made


def journal_bytes() -> Picture:
    """The bytes of journal.life, and what a crash leaves at each step of a posting."""
    made = Picture(900, 430, "The bytes of the journal and the steps of a posting")
    made.text(20, 24, "journal.life with two records", sort="bold", size=13)
    x = 20
    for width, words, below, sort in ((46, "1", "byte 0", "strong"), (150, "header", "1 to 16", ""), (46, "1", "17", "strong"),
                                      (190, "body of record 0", "18 to 81", ""), (46, "1", "82", "strong"),
                                      (190, "body of record 1", "83 to 146", ""), (46, "0", "147", "end")):
        made.box(x, 36, width, 34, words, sort)
        made.text(x + width / 2, 86, below, "middle", "quiet", 11)
        x += width
    made.text(20, 112, "Blue: commit bytes that are 1. The first commit byte that is not 1 (grey) ends the journal.",
              sort="quiet")
    made.text(20, 146, "Posting one more command", sort="bold", size=13)
    steps = (("1  write the body at 148 to 211\nand a commit byte 0 at 212", "what is written may be there or not;\n"
              "byte 147 is 0, so the record is not there", "end"),
             ("2  sync", "the same until the sync has ended", "end"),
             ("3  write commit byte 147 = 1", "the record is there, or it is not:\nnever a part of it", "warn"),
             ("4  sync", "until it has ended: there, or not there;\nfrom then on: the record is there", "warn"),
             ("5  print accepted,3", "the record and all before it are there", "good"))
    made.text(170, 172, "what the program does", "middle", "quiet")
    made.text(630, 172, "what a crash at this step leaves", "middle", "quiet")
    for number, (does, leaves, sort) in enumerate(steps):
        y = 182 + 48 * number
        made.box(20, y, 300, 40, does)
        made.arrow(320, y + 20, 392, y + 20)
        made.box(394, y, 480, 40, leaves, sort)
        if number:
            made.arrow(170, y - 8, 170, y)
    return made


def lock_turn() -> Picture:
    """Two callers take one turn each: who has the value, and what the history is."""
    made = Picture(900, 330, "A turn of the lock")
    for y, words in ((70, "lock word"), (130, "caller 1"), (190, "caller 2"), (250, "history")):
        made.text(20, y + 20, words, sort="bold")
    for x, width, words, sort in ((130, 90, "0 free", "good"), (220, 220, "1 taken", "bad"), (440, 60, "0", "good"),
                                  (500, 230, "1 taken", "bad"), (730, 140, "0 free", "good")):
        made.box(x, 70, width, 30, words, sort)
    made.box(130, 130, 86, 30, "enters")
    made.box(220, 130, 220, 30, "decides, records, keeps", "strong")
    made.box(440, 130, 140, 30, "prints its answer")
    made.box(250, 190, 246, 30, "sleeps in the queue", "end")
    made.box(500, 190, 230, 30, "decides, records, keeps", "strong")
    made.box(730, 190, 140, 30, "prints its answer")
    made.box(130, 250, 310, 30, "9 turns")
    made.box(440, 250, 290, 30, "10 turns: caller 1's is the tenth")
    made.box(730, 250, 140, 30, "11 turns")
    for x, words in ((220, "take: 0 becomes 1"), (440, "give: 1 becomes 0"), (730, "give")):
        made.line([(x, 46), (x, 284)], "thin")
        made.text(x, 40, words, "middle", "quiet", 11)
    made.text(20, 312, "Only the caller that made the lock word 1 has the value. Its turn enters the history when it gives the "
              "value back.", sort="quiet")
    return made


def layers() -> Picture:
    """The crates by their layers, as crates.txt has them."""
    found: list[tuple[str, list[str]]] = []
    for line in (TOP / "crates.txt").read_text(encoding="utf-8").splitlines():
        heading = re.match(r"# (\d+\. .*)", line)
        crate = re.match(r"([a-z_]+)[^:#]*:", line)
        if heading:
            found.append((heading[1], []))
        elif crate and found:
            found[-1][1].append(crate[1])
    rows: list[tuple[str, list[list[str]]]] = []
    for title, names in found:
        cut: list[list[str]] = [[]]
        width = 0
        for name in names:
            wide = 16 + 7 * len(name) + 8
            if width + wide > 620:
                cut.append([])
                width = 0
            cut[-1].append(name)
            width += wide
        rows.append((title, cut))
    height = 44 + sum(34 * len(chunks) + 12 for _, chunks in rows)
    made = Picture(900, height, "The layers of crates")
    y: float = 10
    for title, chunks in reversed(rows):
        tall = 34 * len(chunks) + 4
        made.parts.append(f'<rect class="thin" x="8" y="{y:g}" width="884" height="{tall}" rx="4"/>')
        words, lines = title.split(), [""]
        for word in words:
            if len(lines[-1]) + len(word) > 30:
                lines.append("")
            lines[-1] += f"{word} "
        for number, row in enumerate(lines):
            made.text(20, y + tall / 2 + 4 + 14 * (number - (len(lines) - 1) / 2), row.strip(), sort="bold", size=11)
        for number, chunk in enumerate(chunks):
            x = 250.0
            for name in chunk:
                wide = 16 + 7 * len(name)
                made.box(x, y + 4 + 34 * number, wide, 26, name, "end" if title.startswith(("13", "14")) else "")
                x += wide + 8
        y += tall + 8
    made.text(20, y + 14, "A crate may use crates of the layers below its own. Grey: crates of tests.", sort="quiet")
    return made


def position_and_day() -> Picture:
    """One valuation day at two positions, of examples/small-office.csv."""
    made = Picture(900, 300, "A position beside a day")
    made.text(20, 24, "The journal of the small office: 27 postings", sort="bold", size=13)
    for number in range(1, 28):
        x = 20 + 32 * (number - 1)
        made.box(x, 40, 30, 30, str(number), "strong" if number <= 11 else "end")
    for last, y, words in ((11, 92, "position 11: what was posted of days up to 2022-12-31"),
                           (27, 134, "position 27: what is posted by now, up to April 2024")):
        right = 20 + 32 * (last - 1) + 30
        made.line([(20, y - 12), (20, y), (right, y), (right, y - 12)])
        made.text(26, y + 16, words)
    for x, words in ((20, "life value 2022-12-31 --at 11"), (460, "life value 2022-12-31")):
        made.box(x, 176, 420, 28, words, "strong")
    made.box(20, 210, 420, 44, "the year-end: four policies, 4590.19 to 4590.22", "good")
    made.box(460, 210, 420, 44, "no year-end: the policies as they stand in 2024, at the age\n"
             "that they had in 2022: 1461.02 to 1461.04", "warn")
    made.text(20, 282, "The position says which postings count. The day says only how old the policies are.", sort="quiet")
    return made


def crvm(rates: list[Fraction], years: int, interest: Fraction) -> list[Fraction]:
    """The exact reserves per unit of an endowment at the end of each year, by the Commissioners method."""
    v = 1 / (1 + interest)

    def benefits(table: list[Fraction], n: int) -> list[Fraction]:
        values = [Fraction(1)]
        for q in reversed(table[:n]):
            values.insert(0, v * (q + (1 - q) * values[0]))
        return values

    def annuities(table: list[Fraction], n: int) -> list[Fraction]:
        values = [Fraction(0)]
        for q in reversed(table[:n]):
            values.insert(0, 1 + v * (1 - q) * values[0])
        return values

    ben, ann = benefits(rates, years), annuities(rates, years)
    first = v * rates[0]
    later = rates[1:]
    limit = benefits(later, len(later))[0] / annuities(later, min(19, len(later)))[0]
    excess = max(Fraction(0), min((ben[0] - first) / (ann[0] - 1), limit) - first)
    beta = (ben[0] + excess) / ann[0]
    return [max(Fraction(0), ben[t] - beta * ann[t]) for t in range(years + 1)]


def reserve_over_years() -> Picture:
    """The reserve of an endowment over its years, and its two bounds at one of them."""
    text = (TOP / "examples" / "us-life-2010-male.xml").read_text(encoding="utf-8")
    rates = [Fraction(rate) for rate in re.findall(r"<Y[^>]*>([\d.]+)</Y>", text)]
    years, amount = 20, 10000
    reserves = [amount * each for each in crvm(rates[45:], years, Fraction(35, 1000))]
    made = Picture(900, 380, "A reserve over the years beside its bounds")
    left, bottom, wide, tall = 80, 320, 470, 280
    for cents in range(0, amount + 1, 2000):
        y = bottom - tall * cents / amount
        made.line([(left, y), (left + wide, y)], "thin")
        made.text(left - 8, y + 4, f"{cents}", "end", "quiet", 11)
    for year in range(0, years + 1, 5):
        made.text(left + wide * year / years, bottom + 18, str(year), "middle", "quiet", 11)
    points = [(left + wide * year / years, bottom - tall * float(each) / amount) for year, each in enumerate(reserves)]
    made.line(points, "main")
    made.text(left + wide / 2, bottom + 38, "completed policy years", "middle", "quiet")
    made.text(left, 26, "endowment of 10000.00 at age 45 for 20 years, 3.5 percent", sort="bold")
    chosen = 12
    x, y = points[chosen]
    made.parts.append(f'<circle class="main" cx="{x:.2f}" cy="{y:.2f}" r="6"/>')
    made.line([(x + 7, y), (600, y)], "thin")
    exact = reserves[chosen] * 100
    low = exact.numerator // exact.denominator
    made.text(610, 60, "year 12, looked at closely", sort="bold")
    top, step = 110.0, 90.0
    part = float(exact - low)
    for place, words, sort in ((top, f"upper bound {(low + 1) / 100:.2f}", "high"),
                               (top + step * (1 - part), f"exact reserve {float(reserves[chosen]):.5f}..", "main"),
                               (top + step, f"lower bound {low / 100:.2f}", "low")):
        made.line([(610, place), (690, place)], sort)
        made.text(700, place + 4, words)
    made.text(610, 250, "The program prints two bounds that are proved", sort="quiet")
    made.text(610, 268, "to enclose the exact reserve, at most", sort="quiet")
    made.text(610, 286, "two cents apart. The curve is too coarse to", sort="quiet")
    made.text(610, 304, "show the difference.", sort="quiet")
    return made


DRAWN = {"premium-timeline": premium_timeline, "journal-bytes": journal_bytes, "lock-turn": lock_turn, "layers": layers,
         "position-and-day": position_and_day, "reserve-over-years": reserve_over_years}


def by_graphviz(source: pathlib.Path) -> str:
    """What `dot` makes of a source, with the colours of the other pictures."""
    made = subprocess.run(["dot", "-Tsvg", str(source)], stdout=subprocess.PIPE, check=True).stdout.decode()
    made = made[made.index("<svg"):]
    made = re.sub(r' (?:fill|stroke)="[^"]*"', "", made)
    head, rest = made.split(">", 1)
    return (f'{head} role="img">\n<title>{escape(source.stem.replace("-", " "))}</title>\n<style>{STYLE}</style>\n'
            f'<rect class="back" width="100%" height="100%"/>{rest}')


def main() -> int:
    folder = pathlib.Path(sys.argv[1]) if len(sys.argv) > 1 else HERE
    for source in sorted(HERE.glob("*.dot")):
        (folder / f"{source.stem}.svg").write_text(by_graphviz(source), encoding="utf-8")
    for name, draw in DRAWN.items():
        (folder / f"{name}.svg").write_text(draw().svg(), encoding="utf-8")
    return 0


if __name__ == "__main__":
    sys.exit(main())
