"""Tests the downloads of a window: they add up to what the program prints, and no cell of them begins a formula."""
import csv
import io
import re
import shutil
from pathlib import Path
from typing import Any, Iterator

import pytest

from life_tools.common.packages import package
from tests.support.folders import Folder
from tests.support.windows import Window

pytestmark = pytest.mark.needs("python:flask", "python:openpyxl")
NUMBER = re.compile(r"-?[0-9]+(\.[0-9]{2})?")
DAY = "2021-01-01"
KEYS = ("plan", "status", "issue-year", "age-band", "basis-row")


@pytest.fixture(scope="module")
def strange(lived: Folder, tmp_path_factory: pytest.TempPathFactory) -> Folder:
    path = tmp_path_factory.mktemp("strange") / "=1+1"
    shutil.copytree(lived.path, path)
    return Folder(path, lived.program)


@pytest.fixture(scope="module")
def opened(tools: Path, strange: Folder) -> Iterator[Window]:
    with Window(tools, strange.path) as window:
        yield window


def taken(window: Window, path: str) -> bytes:
    answer = window.page(path)
    assert "attachment; filename=" in answer.headers["Content-Disposition"], path
    return answer.body


def harmless(cell: object) -> bool:
    return not str(cell).startswith(("=", "+", "-", "@", "\t", "\r")) or bool(NUMBER.fullmatch(str(cell)))


def cents(value: object) -> int:
    return round(float(str(value)) * 100)


def printed_total(folder: Folder) -> list[int]:
    return [cents(each) for each in folder.life("value", DAY).out.splitlines()[-1].split(",")[1:-1]]


def test_csv(opened: Window, strange: Folder) -> None:
    total = printed_total(strange)
    rows = list(csv.reader(io.StringIO(taken(opened, f"/1/report.csv?on={DAY}").decode())))
    assert all(harmless(cell) for row in rows for cell in row)
    bounds = [rows[0].index(name) for name in ("lower bound", "upper bound")]
    for key in KEYS:
        assert [sum(cents(row[place]) for row in rows[1:-1] if row[0] == key) for place in bounds] == total, key
    due = list(csv.reader(io.StringIO(taken(opened, f"/1/day/list.csv?day={DAY}&what=lapse").decode())))
    assert due[0] == ["what", "policy", "day", "until", "amount"]
    assert taken(opened, "/1/seal.txt").startswith(b"seal,")


def test_workbook(opened: Window, strange: Folder) -> None:
    openpyxl: Any = package("openpyxl", "python3-openpyxl")
    book = openpyxl.load_workbook(io.BytesIO(taken(opened, f"/1/report.xlsx?on={DAY}")))
    cells = [cell for sheet in book for line in sheet.iter_rows() for cell in line]
    assert not any(cell.data_type == "f" for cell in cells), "a cell of the workbook is a formula"
    assert any("=1+1" in str(cell.value) for cell in cells), "the workbook doesn't name the book"
    heads = [cell.value for cell in book["plan"][1]]
    for name, wanted in zip(("lower bound", "upper bound"), printed_total(strange)):
        column = [line[heads.index(name)].value for line in book["plan"].iter_rows(min_row=2)]
        assert sum(map(cents, column[:-1])) == cents(column[-1]) == wanted, name
