"""Tests what waits for a person: rows that `day` holds back and rows that were refused are counted on the first page and
listed."""
import os
from pathlib import Path

import pytest

from tests.support.folders import Folder
from tests.support.windows import Window

pytestmark = pytest.mark.needs("python:flask")


def test_held_and_refused_rows(tools: Path, office: Folder) -> None:
    """By hand: in the second file the first row has a day far in the future, so it is held; the second row names an unknown
    policy."""
    file = office.write("monday.csv", "1,issue,7002,2190-01-01,endowment,0,3,1000.00,400.00\n1,premium,7999,2020-01-01,400.00\n")
    os.utime(file, (0, 0))
    day = office.tools("day", "monday.csv")
    with Window(tools, office.path) as window:
        rows = {row[0]: row for row in window.page("/1/").rows("What waits for a person")}
        assert (rows["rows held back"][2], rows["refusals"][2]) == ("1", "1"), (day, rows)
        assert window.page("/1/held").rows("Rows held back")[0][1] == "1,issue,7002,2190-01-01,endowment,0,3,1000.00,400.00"
        refused = window.page("/1/refusals").rows("Refusals of the last files")
        assert refused[0][1].startswith("1,premium,7999,2020-01-01,400.00: ") and "unknown" in refused[0][1]
