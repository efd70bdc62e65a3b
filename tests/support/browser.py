"""A real browser for tests of the window: what a person reads, types and presses, at the width of a desk and of a phone."""
import importlib
import json
import re
import time
from pathlib import Path
from typing import Any

from tests.support.windows import Window

webdriver: Any = importlib.import_module("selenium.webdriver")
By: Any = importlib.import_module("selenium.webdriver.common.by").By
Keys: Any = importlib.import_module("selenium.webdriver.common.keys").Keys
Stale: Any = importlib.import_module("selenium.common.exceptions").StaleElementReferenceException
Fault: Any = importlib.import_module("selenium.common.exceptions").WebDriverException
Service: Any = importlib.import_module("selenium.webdriver.chrome.service").Service

PATIENCE = 120
DESK, TABLET, PHONE = (1280, 900), (768, 1000), (390, 844)
OPTIONS = ("--headless=new", "--no-sandbox", "--disable-gpu", "--hide-scrollbars", "--disable-dev-shm-usage", "--no-first-run",
           "--disable-background-networking")
# the text, its colour and the background colour of each element that has text of its own, as red, green, blue
COLOURS = """
const found = [];
for (const each of document.querySelectorAll('body *')) {
  const own = [...each.childNodes].some(node => node.nodeType === 3 && node.data.trim());
  if (!own || !each.getClientRects().length) continue;
  if (each.tagName === 'title') continue;
  let ground = each;
  while (ground && getComputedStyle(ground).backgroundColor === 'rgba(0, 0, 0, 0)') ground = ground.parentElement;
  const style = getComputedStyle(each);
  found.push([each.textContent.trim().slice(0, 40), each.closest('svg') ? style.fill : style.color,
              ground ? getComputedStyle(ground).backgroundColor : 'rgb(255, 255, 255)']);
}
return found;
"""
# cells of a narrow table that don't show the name of their column
UNNAMED = """
return [...document.querySelectorAll('tbody td')].filter(cell => cell.textContent.trim() && !cell.classList.contains('bar') &&
  cell.getClientRects().length && getComputedStyle(cell, '::before').content.replaceAll('"', '') !== cell.dataset.head)
  .filter(cell => !cell.closest('.list')).map(cell => cell.textContent);
"""

# tables that are wider than their place, so that they scroll sideways, and on a narrow page lines that are
WIDE = """
const narrow = document.documentElement.clientWidth < 1000;
return [...document.querySelectorAll(narrow ? '.table, pre' : '.table')]
  .filter(each => each.scrollWidth > each.clientWidth + 1)
  .map(each => each.getAttribute('aria-label') || each.textContent.slice(0, 60));
"""
# texts of a chart that reach out of it or lie over each other; a slanted text is not compared, because its box is larger than
# the text
COLLIDING = """
const found = [];
for (const chart of document.querySelectorAll('svg.chart, svg.picture')) {
  const edge = chart.getBoundingClientRect();
  const texts = [...chart.querySelectorAll('text')].filter(each => each.getClientRects().length);
  const boxes = texts.map(each => [each.textContent, each.getBoundingClientRect(), each.hasAttribute('transform')]);
  for (const [words, box, slanted] of boxes)
    if (box.left < edge.left - 1 || box.right > edge.right + 1 || box.top < edge.top - 1 || box.bottom > edge.bottom + 1)
      found.push(words + ' is cut');
  boxes.forEach(([words, box, slanted], place) => {
    for (const [others, other, isSlanted] of boxes.slice(place + 1))
      if (!slanted && !isSlanted && box.left < other.right - 1 && other.left < box.right - 1 && box.top < other.bottom - 3
          && other.top < box.bottom - 3) found.push(words + ' lies over ' + others);
  });
}
return found;
"""
# cells of a list of few columns that a narrow page hides
HIDDEN = """
return [...document.querySelectorAll('.list:not(.many) tbody td, .list:not(.many) tfoot td')]
  .filter(cell => cell.textContent.trim() && !cell.getClientRects().length && !cell.closest('details:not([open])'))
  .map(cell => cell.dataset.head + ': ' + cell.textContent);
"""
WAITS = ("return Boolean(window.isLeft) || document.readyState !== 'complete' || !document.querySelector('h1') || "
         "document.title.startsWith('One moment')")
CELLS = """
const table = [...document.querySelectorAll('table')].find(each => each.caption.textContent.trim() === arguments[0]);
const rows = table ? [...table.querySelectorAll(arguments[1] + ' tr')] : null;
return rows ? rows.map(row => [...row.cells].map(cell => cell.innerText.trim())) : null;
"""


def demand(right: Any, what: str) -> None:
    assert right, what


def luminance(colour: Any) -> Any:
    parts = [int(each) / 255 for each in re.findall("[0-9]+", colour)[:3]]
    linear = [each / 12.92 if each <= 0.04045 else ((each + 0.055) / 1.055) ** 2.4 for each in parts]
    return 0.2126 * linear[0] + 0.7152 * linear[1] + 0.0722 * linear[2]


def contrast(one: Any, other: Any) -> Any:
    light, dark = sorted((luminance(one), luminance(other)), reverse=True)
    return (light + 0.05) / (dark + 0.05)


class Browser:
    def __init__(self, size: tuple[int, int], shots: Path, scheme: str = "light") -> None:
        options = webdriver.ChromeOptions()
        for each in OPTIONS:
            options.add_argument(each)
        options.binary_location = "/usr/bin/chromium"
        options.set_capability("goog:loggingPrefs", {"performance": "ALL"})
        self.driver = webdriver.Chrome(service=Service("/usr/bin/chromedriver"), options=options)
        self.driver.set_page_load_timeout(PATIENCE)
        self.size, self.shots, self.scheme, self.kept = size, shots, scheme, 0
        # for each page that was received, whether it reloads by itself
        self.reloading: dict[str, bool] = {}
        self.measure(size[1])
        media = {"features": [{"name": "prefers-color-scheme", "value": scheme}]}
        self.driver.execute_cdp_cmd("Emulation.setEmulatedMedia", media)

    def enter(self, window: Window) -> None:
        """Enters a window with the cookie of whoever opened it, because the window's key works only once."""
        base = f"http://127.0.0.1:{window.port}{window.root}"
        self.driver.get(f"{base}/1/")
        name, _, value = window.cookie.partition("=")
        self.driver.add_cookie({"name": name, "value": value, "path": f"{window.root}/", "httpOnly": True})

    def measure(self, height: Any) -> None:
        metrics = {"width": self.size[0], "height": height, "deviceScaleFactor": 1, "mobile": self.size == PHONE}
        self.driver.execute_cdp_cmd("Emulation.setDeviceMetricsOverride", metrics)

    @property
    def is_phone(self) -> bool:
        return self.size == PHONE

    # --- what a person does ---

    def open(self, address: Any) -> None:
        self.driver.get(address)
        self.settle()

    def settle(self) -> None:
        ends = time.monotonic() + PATIENCE
        while self.driver.execute_script(WAITS):
            if time.monotonic() > ends:
                raise AssertionError(f"after {PATIENCE} seconds the page still waits: {self.driver.title}")
            time.sleep(0.1)
        demand(not self.reloads(), f"the page {self.driver.title!r} reloads by itself")

    def reloads(self) -> bool:
        """Returns whether the page that is shown reloads by itself, by the headers with which the browser received it."""
        for line in self.driver.get_log("performance"):
            event = json.loads(line["message"])["message"]
            if event["method"] == "Network.responseReceived" and event["params"]["type"] == "Document":
                received = event["params"]["response"]
                self.reloading[received["url"]] = "refresh" in {name.lower() for name in received["headers"]}
        return self.reloading[self.driver.current_url.partition("#")[0]]

    def press(self, words: list[str]) -> Any:
        """Presses the link or button with this text. It tries again if the page was loaded anew meanwhile."""
        for last in (False, False, True):
            try:
                return self.press_once(words)
            except Stale:
                demand(not last, f"what says {words!r} goes away again and again")

    def press_once(self, words: list[str]) -> None:
        for kind in ("main button", "main a, main summary", "a"):
            for each in self.driver.find_elements(By.CSS_SELECTOR, kind):
                if each.text.strip() == words:
                    self.leave(each.tag_name != "summary")
                    each.click()
                    self.settle()
                    return
        raise AssertionError(f"nothing can be pressed that says {words!r}; the page says: {self.text()[:600]}")

    def field(self, label: Any) -> Any:
        for each in self.driver.find_elements(By.TAG_NAME, "label"):
            if each.text.strip() == label:
                return self.driver.find_element(By.ID, each.get_attribute("for"))
        raise AssertionError(f"no field is labelled {label!r}")

    def type(self, label: Any, text: str, is_sent: bool = False) -> None:
        field = self.field(label)
        if field.get_attribute("type") == "date":
            # which keys a date field takes depends on the country
            self.driver.execute_script("arguments[0].value = arguments[1]", field, text)
        else:
            field.clear()
            field.send_keys(text)
        if is_sent:
            self.send(field)

    def send(self, field: Any) -> None:
        """Sends the form of a field by pressing Enter."""
        self.leave()
        field.send_keys(Keys.ENTER)
        self.settle()

    def leave(self, is_left: bool = True) -> None:
        """Marks the current page, so that `settle` waits until another page has replaced it."""
        self.driver.execute_script("window.isLeft = arguments[0]", is_left)

    def choose(self, label: Any, words: list[str]) -> None:
        for each in self.field(label).find_elements(By.TAG_NAME, "option"):
            if each.text.strip() == words:
                each.click()
                return
        raise AssertionError(f"{label} has no choice {words!r}")

    # --- what a person reads ---

    def text(self) -> Any:
        return self.driver.find_element(By.TAG_NAME, "main").text

    def says(self, *words: Any) -> None:
        said = " ".join(self.text().split())
        for each in words:
            demand(each in said, f"the page {self.driver.title!r} doesn't say {each!r}: {said[:1500]}")

    def facts(self) -> Any:
        names = [each.text.strip() for each in self.driver.find_elements(By.TAG_NAME, "dt")]
        return dict(zip(names, [each.text.strip() for each in self.driver.find_elements(By.TAG_NAME, "dd")]))

    def rows(self, caption: Any, part: str = "tbody") -> Any:
        found = self.driver.execute_script(CELLS, caption, part)
        demand(found is not None, f"there is no table {caption!r}: {self.driver.current_url} says {self.text()[:800]}")
        return found

    # --- how it looks ---

    def look(self, name: str) -> None:
        """Keeps a picture, and asserts what must hold for each page: no sideways scrolling, enough contrast, labels, one
        heading."""
        driver = self.driver
        width = driver.execute_script("return document.documentElement.scrollWidth")
        demand(width <= self.size[0], f"{name}: the page is {width} wide on {self.size[0]}")
        wide = driver.execute_script(WIDE)
        demand(not wide, f"{name}: these scroll sideways: {wide}")
        colliding = driver.execute_script(COLLIDING)
        demand(not colliding, f"{name}: of the charts {colliding}")
        hidden = driver.execute_script(HIDDEN)
        demand(not hidden, f"{name}: these cells are hidden: {hidden[:5]}")
        for words, colour, ground in driver.execute_script(COLOURS):
            demand(contrast(colour, ground) >= 4.5, f"{name}: {words!r} is hard to read: {colour} on {ground}")
        demand(len(driver.find_elements(By.TAG_NAME, "h1")) == 1, f"{name}: not one heading")
        levels = [int(each.tag_name[1]) for each in driver.find_elements(By.CSS_SELECTOR, "h1, h2, h3")]
        demand(all(after - before <= 1 for before, after in zip(levels, levels[1:])), f"{name}: a level of headings is left out")
        for each in driver.find_elements(By.CSS_SELECTOR, "input:not([type=hidden]), select"):
            demand(driver.find_elements(By.CSS_SELECTOR, f"label[for='{each.get_attribute('id')}']"),
                   f"{name}: a field has no label")
        if self.is_phone:
            unnamed = driver.execute_script(UNNAMED)
            demand(not unnamed, f"{name}: cells without the name of their column: {unnamed[:5]}")
        self.keep(name)

    def keep(self, name: str) -> None:
        height = self.driver.execute_script("return document.documentElement.scrollHeight")
        self.measure(min(height, 6000))
        self.shoot(str(self.shots / f"window-{name}-{self.size[0]}-{self.scheme}.png"))
        self.measure(self.size[1])
        self.kept += 1

    def shoot(self, path: str) -> None:
        """Takes a picture. It tries again if a busy machine hasn't drawn the page within the driver's ten seconds."""
        for last in (False, False, True):
            try:
                self.driver.save_screenshot(path)
                return
            except Fault:
                if last:
                    raise

    def close(self) -> None:
        self.driver.quit()
