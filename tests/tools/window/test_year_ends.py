"""Tests the first page while its year-ends are being valued: the page stays as it is under the hands of whoever types, and a
frame in it, which alone reloads, says how many are missing and leads to the page with all of them."""
import html
import re
import time
from pathlib import Path
from typing import Any, Iterator

import pytest

from life_tools.window.site import FRAMES, PAGES
from tests.support.folders import Folder
from tests.support.windows import PATIENCE, Answer, Window

pytestmark = pytest.mark.needs("python:flask")
WORDS = {"policy": "number=1", "premiums": "month=2010-01&what=due", "postings": "year=2010&kind=claim",
         "group": "by=plan&key=term", "bases": "other=other.csv", "share": "of=find"}
FIELDS = re.compile("<(form|input|select|button|textarea)")
PERIOD = "on1=2019-12-31&p1=1500&on2=2020-12-31"


@pytest.fixture(scope="module")
def slow(tools: Path, lived: Folder) -> Path:
    """A program that needs half a second more for each valuation."""
    return lived.stand_in('if [ "$1" = value ]; then sleep 0.5; fi; exec "$life" "$@"')


@pytest.fixture
def slowed(tools: Path, lived: Folder, slow: Path, tmp_path: Path) -> Iterator[Window]:
    with Window(tools, lived.path, temporary=tmp_path, env={"LIFE_PROGRAM": str(slow)}) as window:
        yield window


def frame_of(page: Answer) -> str:
    """Returns the address of the frame of a page, or "" if it has none."""
    found = re.search('<iframe [^>]*src="([^"]*)"', page.page)
    return html.unescape(found[1]) if found else ""


def test_the_frame_reloads_until_the_year_ends_are_valued(slowed: Window) -> None:
    page = slowed.page("/1/")
    address, missing = frame_of(page), []
    assert "Refresh" not in page.headers and 'title="Year-ends still to be valued"' in page.page
    ends = time.monotonic() + PATIENCE
    while "Refresh" in (frame := slowed.ask(address)).headers:
        assert time.monotonic() < ends and 'role="status"' in frame.page and "<script" not in frame.page
        assert frame.headers["Refresh"].endswith(f"url={address}")
        missing.append(int(frame.text.split()[0]))
        time.sleep(0.1)
    assert missing[0] > 8 and missing == sorted(missing, reverse=True) and missing[-1] == 1
    assert frame.text == "All year-ends are valued. Show them" and 'target="_top"' in frame.page
    full = slowed.page(frame.links()[0])
    assert not frame_of(full) and "Refresh" not in full.headers
    captions = re.findall("<caption[^>]*>(Reserve and amount insured.*?)</caption>", full.page)
    assert all(row[5] for row in full.rows(captions[0]))


def test_only_the_frame_can_be_shown_in_a_frame(window: Window) -> None:
    """The window's own pages, and nobody else's, can show the frame; no page can be shown in one."""
    for name in FRAMES:
        assert "frame-ancestors 'self'" in window.ask(f"{window.root}/1/{name}").headers["Content-Security-Policy"]
        cookie, window.cookie = window.cookie, ""
        refused = window.ask(f"{window.root}/1/{name}")
        window.cookie = cookie
        assert refused.status == 403 and "frame-ancestors 'none'" in refused.headers["Content-Security-Policy"]
    for name in ("", "find", "audit", f"find/{next(iter(FRAMES))}"):
        assert "frame-ancestors 'none'" in window.ask(f"{window.root}/1/{name}").headers["Content-Security-Policy"], name


@pytest.mark.parametrize("name", sorted({*PAGES, "share"} - set(FRAMES)))
def test_no_page_with_a_field_reloads_by_itself(window: Window, name: str) -> None:
    """A page that is asked for the first time may be "One moment", which reloads and has no field."""
    words = "&".join(filter(None, (WORDS.get(name, ""), PERIOD if name.startswith(("movement", "statement", "moved")) else "")))
    ends = time.monotonic() + PATIENCE
    while True:
        answer = window.ask(f"{window.root}/1/{name}{'?' if words else ''}{words}")
        if "Refresh" not in answer.headers:
            break
        assert answer.status == 202 and not FIELDS.search(answer.page) and time.monotonic() < ends
        time.sleep(0.1)


def test_a_frame_says_why_there_is_nothing_to_count(window: Window) -> None:
    answer = window.ask(f"{window.root}/1/year-ends?at=999999999")
    assert answer.status == 400 and "Show the reason" in answer.text and "Refresh" not in answer.headers
    assert 'target="_top"' in answer.page and window.page(answer.links()[0]).status == 200


@pytest.mark.browser
@pytest.mark.needs("python:selenium")
@pytest.mark.parametrize("scheme", ["light", "dark"])
def test_what_is_typed_stays_while_year_ends_are_valued(slowed: Window, tmp_path: Path, scheme: str) -> None:
    from tests.support.browser import PHONE, Browser
    shown = Browser(PHONE, tmp_path, scheme)
    try:
        shown.enter(slowed)
        types_while_it_counts(shown, f"http://127.0.0.1:{slowed.port}{slowed.root}/1/")
    finally:
        shown.close()


def types_while_it_counts(shown: Any, page: str) -> None:
    driver = shown.driver
    shown.open(page)
    field = shown.field("Number of a policy, or part of it")
    field.send_keys("7")
    before, said, ends = driver.execute_script("return history.length"), set(), time.monotonic() + PATIENCE
    while "Show them" not in (now := framed(shown)):
        said.add(now)
        assert time.monotonic() < ends, f"the year-ends aren't valued: {said}"
        time.sleep(0.2)
    assert len(said) > 3, said
    field.send_keys("1")
    assert field.get_attribute("value") == "71" and driver.switch_to.active_element == field
    assert driver.execute_script("return history.length") == before
    looks_like_the_page(shown)
    driver.switch_to.frame(0)
    driver.find_element("link text", "Show them").click()
    driver.switch_to.default_content()
    shown.leave(False)
    shown.settle()
    assert not driver.find_elements("tag name", "iframe") and shown.field("Number of a policy, or part of it")


def framed(shown: Any) -> str:
    """Returns what the frame says, whichever of its loads is there."""
    found = shown.driver.execute_script(
        "const it = document.querySelector('iframe').contentDocument; return it && it.body ? it.body.innerText.trim() : ''")
    return str(found)


def looks_like_the_page(shown: Any) -> None:
    """The frame has the colours of the page around it, and its text fits; on paper a sentence takes its place."""
    shown.look("year-ends")
    ground, inside, is_cut = shown.driver.execute_script(
        "const it = document.querySelector('iframe'), inner = it.contentDocument;"
        "return [getComputedStyle(document.body).backgroundColor, getComputedStyle(inner.body).backgroundColor,"
        "inner.documentElement.scrollHeight > it.clientHeight]")
    assert ground == inside and not is_cut
    shown.driver.execute_cdp_cmd("Emulation.setEmulatedMedia", {"media": "print"})
    assert not shown.driver.find_element("tag name", "iframe").is_displayed()
    assert "had no value yet when this page was made" in shown.text()
    shown.driver.execute_cdp_cmd("Emulation.setEmulatedMedia", {"media": ""})
