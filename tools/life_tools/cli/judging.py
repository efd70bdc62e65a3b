"""What an entry that judges gives: its status, with the line that says what is right or what is wrong."""
from __future__ import annotations

from typing import Callable

from life_tools.common.formats import Wrong, remark


def judged(judge: Callable[[], str]) -> int:
    """Prints the judge's line and returns 0, or reports what the judge found wrong and returns 1."""
    try:
        print(judge())
    except Wrong as wrong:
        remark(f"wrong: {wrong}")
        return 1
    return 0
