"""Prints a page of HTML as PDF with a browser or with LibreOffice, whichever is installed."""
from __future__ import annotations

import os
import shutil
import subprocess
import tempfile
from typing import Sequence

from life_tools.common.formats import Wrong, demand

BROWSERS = ("chromium", "chromium-browser", "google-chrome")
OFFICES = ("soffice", "libreoffice")
SECONDS = 300


def first_of(names: Sequence[str]) -> str | None:
    for name in names:
        found = shutil.which(name)
        if found:
            return found
    return None


def by_browser(browser: str, page: str, folder: str) -> list[str]:
    """Returns the command by which a browser prints. Under root a browser cannot use its sandbox, so it runs without one."""
    shut = ["--no-sandbox"] if os.geteuid() == 0 else []
    return [browser, "--headless", "--disable-gpu", *shut, "--no-pdf-header-footer", f"--user-data-dir={folder}/profile",
            f"--print-to-pdf={folder}/page.pdf", f"file://{page}"]


def by_office(office: str, page: str, folder: str) -> list[str]:
    return [office, "--headless", f"-env:UserInstallation=file://{folder}/profile", "--convert-to",
            "pdf:writer_web_pdf_Export", "--outdir", folder, page]


def demand_printer() -> tuple[str, bool]:
    """Returns the program that prints and whether it is a browser; called before any figure is computed."""
    browser, office = first_of(BROWSERS), first_of(OFFICES)
    found = browser or office
    if found is None:
        raise Wrong("a browser or LibreOffice makes a PDF, and neither is there: apt-get install chromium; or take --html")
    return found, found == browser


def write_pdf(path: str, html: str) -> None:
    """Writes a page of HTML as a PDF file; meanwhile the page lies in a temporary folder."""
    program, is_browser = demand_printer()
    with tempfile.TemporaryDirectory(prefix="life-tools-") as folder:
        page, made = os.path.join(folder, "page.html"), os.path.join(folder, "page.pdf")
        with open(page, "w", encoding="utf-8") as file:
            file.write(html)
        words = by_browser(program, page, folder) if is_browser else by_office(program, page, folder)
        try:
            ran = subprocess.run(words, stdin=subprocess.DEVNULL, stdout=subprocess.PIPE, stderr=subprocess.STDOUT,
                                 timeout=SECONDS)
        except subprocess.TimeoutExpired as late:
            raise Wrong(f"{program} made no PDF in {SECONDS} seconds") from late
        said = ran.stdout.decode("utf-8", "replace").strip().splitlines()[-1:]
        demand(os.path.exists(made), f"{program} made no PDF (status {ran.returncode}): {' '.join(said)}")
        shutil.copyfile(made, path)
