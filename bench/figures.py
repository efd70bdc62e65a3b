"""Measures rows of docs/development/figures.md and prints them: what is measured, the figure, and what it is compared with.

usage: python3 bench/figures.py [NAME..]   (needs rustc, cc, hyperfine and GNU time)

Without names all rows are measured. Each figure is the median of several rounds. Started by `chrt -f 40`, what is timed has a
higher priority than other work at real-time priority.

FOLDER is on the disk on which postings are made, by default the current folder; ROUNDS is 5 by default; LIFE_PROGRAM and
MEASURE_PROGRAM may name other programs than the proved ones.
"""
import os
import sys

if __name__ == "__main__":
    ROOT = os.path.dirname(os.path.dirname(os.path.abspath(__file__)))
    sys.path += [ROOT, os.path.join(ROOT, "tools")]

import figures_program
import figures_tools
import timing

# each makes its figures known when it is imported
MODULES = (figures_program, figures_tools)


def main() -> None:
    names = sys.argv[1:] or list(timing.FIGURES)
    for name in names:
        if name not in timing.FIGURES:
            sys.exit(f"no figure {name}; there are {' '.join(timing.FIGURES)}")
    timing.watch()
    print("| what | figure | compared with | script |\n|---|---|---|---|")
    for name in names:
        for what, figure, other in timing.FIGURES[name]():
            print(f"| {what} | {figure} | {other} | `figures.py {name}` |", flush=True)


if __name__ == "__main__":
    main()
