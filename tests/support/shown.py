"""What a person reads: amounts, lines whatever blanks are in them, pages without their markup, and workbooks."""
import html
import re

import pytest

from tests.support.folders import Folder

WORKBOOKS = pytest.mark.needs("soffice", "pdftotext", "python:openpyxl")


def cents(amount: str) -> int:
    return int(amount.replace(".", ""))


def money(amount: int) -> str:
    return f"{'-' if amount < 0 else ''}{abs(amount) // 100}.{abs(amount) % 100:02}"


def has(text: str, lines: str) -> None:
    missing = set(lines.splitlines()) - {" ".join(line.split()) for line in text.splitlines()}
    assert not missing, f"{missing} in {text}"


def plain(page: str) -> str:
    return " ".join(html.unescape(re.sub("<[^>]*>", " ", re.sub("(?s)<style>.*?</style>", " ", page))).split())


def demand_offline(page: str) -> None:
    """Asserts that a page asks for nothing of the network."""
    assert not re.search("https?:|src=|@import|<script|<link", page)


def read_workbook(folder: Folder, name: str) -> str:
    """Returns the text of a workbook as LibreOffice prints it, which shows ### if a column is too narrow."""
    folder.command("env", f"HOME={folder.path}", "timeout", "200", "soffice", "--headless", "--convert-to", "pdf", f"{name}.xlsx")
    text = folder.command("pdftotext", "-layout", f"{name}.pdf", "-")
    assert "##" not in text, "an amount isn't shown"
    return text
