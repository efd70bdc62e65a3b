"""Makes the manual page of the tools from what each of them prints with --help."""
from __future__ import annotations

import argparse
import re

from life_tools.cli.entry import ENTRIES, parser_of

HEAD = r""".TH LIFE-TOOLS 1 "" "life" "User commands"
.SH NAME
life-tools \- the work around life: scripts, reports, checks, exports
.SH SYNOPSIS
.B life-tools
.I NAME
.RI [ WORDS ]
.SH DESCRIPTION
Each name reads what
.BR life (1)
printed or wrote.
.B life-tools
.I NAME
.B --help
tells its words.
"""
TAIL = r""".SH EXIT STATUS
0 all is well; 1 something was found wrong; 2 it can't be done.
.SH SEE ALSO
.BR life (1)
"""


def troff(text: str) -> str:
    """Returns plain text as lines of a manual page."""
    lines = text.replace("\\", r"\e").replace("-", r"\-").splitlines()
    return "\n".join(rf"\&{line}" if line.startswith((".", "'")) else line for line in lines)


def entry_of(parser: argparse.ArgumentParser) -> list[str]:
    usage = re.sub(r"\s+", " ", parser.format_usage().partition("usage: ")[2]).replace(" [-h]", "").strip()
    lines = [f".SS {troff(parser.prog.partition(' ')[2])}", ".nf", troff(parser.description or "").strip(), ".fi", ".P",
             rf"\fB{troff(usage)}\fR"]
    for action in parser._actions:
        if action.help and action.dest != "help":
            named = ", ".join(action.option_strings) or action.metavar or action.dest
            lines += [".TP", rf"\fB{troff(str(named))}\fR", troff(action.help % {"default": action.default})]
    return lines


def manual_of_tools() -> str:
    """Returns the page of `life-tools`: each name with its arguments."""
    parser = parser_of(list(ENTRIES))
    names = next(action for action in parser._actions if isinstance(action, argparse._SubParsersAction))
    lines = [".SH NAMES"]
    for name in ENTRIES:
        lines += entry_of(names.choices[name])
    return HEAD + "\n".join(lines) + "\n" + TAIL
