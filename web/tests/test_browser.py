"""What a person does with the pages, in a real browser. Where there is none this is passed over."""

import base64
import os
import shutil
import time
import unittest
from collections.abc import Callable
from pathlib import Path

from serving import WAIT, Server
from shops import STRANGE, WithFolder, make_shop, make_strange, rows_of

try:
    from selenium import webdriver
    from selenium.webdriver.chrome.service import Service
    from selenium.webdriver.common.by import By
    from selenium.webdriver.common.keys import Keys
    from selenium.webdriver.remote.webelement import WebElement
    from selenium.webdriver.support.ui import Select
except ModuleNotFoundError:
    webdriver = None

HAS_BROWSER = webdriver is not None and all(map(shutil.which, ("chromium", "chromedriver")))
ROWS = "return document.querySelectorAll('tbody tr').length"
BARS = "const chart = document.querySelector('canvas').chart; return chart.data.datasets.map((_, it) => chart.getDatasetMeta(it).data.length)"
WIDER = "return document.documentElement.scrollWidth - document.documentElement.clientWidth"
DRAWN = "const it = document.querySelector('canvas'); return it.getContext('2d').getImageData(0, 0, it.width, it.height).data.some((part) => part)"
MOST_PICTURE = 100_000


@unittest.skipUnless(HAS_BROWSER, "chromium, chromium-driver and python3-selenium aren't there")
class Browsed(WithFolder):
    """The shop of examples/, in a browser."""

    @classmethod
    def setUpClass(cls) -> None:
        super().setUpClass()
        path = cls.folder / "shop.wh"
        make_shop(path)
        cls.server = Server(cls, path, "--title", "Shop Bern")
        cls.browser = cls.enterClassContext(_browser(cls.folder))

    def open(self, page: str) -> None:
        """Goes to a page, at the width of a desk."""
        self.browser.set_window_size(1280, 900)
        self.browser.get(self.server.at + page)

    def one(self, path: str) -> "WebElement":
        """The element of a selector."""
        return self.browser.find_element(By.CSS_SELECTOR, path)

    def texts(self, path: str) -> list[str]:
        """The texts of a selector's elements."""
        return [it.text for it in self.browser.find_elements(By.CSS_SELECTOR, path)]

    def follow(self, act: Callable[[], None]) -> None:
        """Does what leads to another page, and waits for it."""
        before = self.browser.current_url
        act()
        self.until(lambda: self.browser.current_url != before)

    def until(self, holds: Callable[[], bool]) -> None:
        """Waits for something."""
        ends = time.monotonic() + WAIT
        while not holds():
            self.assertLess(time.monotonic(), ends)
            time.sleep(0.1)

    def test_choose_drill_filter_and_go_back(self) -> None:
        self.open("/")
        Select(self.one("[name=rows]")).select_by_visible_text("Category, as it is now")
        self.follow(self.one("form.ask button").click)
        self.assertEqual(self.one("h1").text, "Amount by category")
        self.assertEqual(self.texts("tbody th"), ["Soft drinks", "Breakfast", "Drinks", "Household"])
        chosen = self.browser.current_url
        self.follow(self.one("tbody td.chosen a").click)
        self.assertEqual(self.texts(".chip b"), ["Soft drinks"])
        self.assertEqual(self.texts(".totals .chosen dd"), ["20.00"])
        self.follow(self.browser.back)
        self.assertEqual(self.browser.current_url, chosen)
        Select(self.one("[name=add]")).select_by_visible_text("Tier, as it was")
        self.follow(self.one("form.ask button").click)
        self.one("input[value=Silver]").click()
        self.follow(self.one("form.ask button").click)
        self.assertEqual(self.texts(".totals .chosen dd"), ["8.00"])
        self.follow(self.one(".chip a").click)
        self.assertEqual(self.texts(".totals .chosen dd"), ["43.00"])

    def test_by_keyboard_alone(self) -> None:
        self.open("/")
        self.one("[name=measure]").send_keys("l")
        while self.browser.switch_to.active_element.tag_name != "button":
            self.browser.switch_to.active_element.send_keys(Keys.TAB)
        self.follow(lambda: self.browser.switch_to.active_element.send_keys(Keys.ENTER))
        self.assertEqual(self.one("h1").text, "Lines by brand")

    def test_as_many_bars_as_rows(self) -> None:
        for page, series in [("/?rows=product.brand:was", 1), ("/?rows=product.category:was&columns=readings", 2), ("/?rows=date.month", 1)]:
            with self.subTest(page=page):
                self.open(page)
                self.until(lambda: bool(self.browser.execute_script("return !!document.querySelector('canvas').chart")))
                self.assertEqual(self.browser.execute_script(BARS), [self.browser.execute_script(ROWS)] * series)
                self.assertTrue(self.browser.execute_script(DRAWN))
        self.assertEqual([it for it in self.browser.get_log("browser") if it["level"] == "SEVERE"], [])

    def test_strange_labels(self) -> None:
        path = self.folder / "strange.wh"
        make_strange(path)
        self.browser.get(Server(self, path).at + "/?rows=product.brand:was&sort=label")
        self.until(lambda: bool(self.browser.execute_script("return !!document.querySelector('canvas').chart")))
        self.assertEqual(self.browser.execute_script("return document.querySelector('canvas').chart.data.labels"), sorted(STRANGE, key=str.encode))
        self.assertEqual([it for it in self.browser.get_log("browser") if it["level"] == "SEVERE"], [])

    def test_down_to_a_ticket_line(self) -> None:
        self.open("/?rows=product.brand:was&where.product.brand:was=Bolt")
        self.follow(self.browser.find_element(By.LINK_TEXT, "Ticket lines").click)
        self.follow(self.one("tbody th a").click)
        self.assertEqual(self.one("h1").text, "Ticket 1002, line 1")
        self.assertIn("held on 2024-02-15", self.one("tr.of-day").text)

    def test_download(self) -> None:
        self.open("/?rows=product.brand:was&sort=label")
        self.browser.find_element(By.LINK_TEXT, "Download CSV").click()
        self.until(lambda: any(self.folder.glob("*.csv")))
        rows = rows_of(next(self.folder.glob("*.csv")).read_text(encoding="utf-8-sig"))
        self.assertEqual([row[0] for row in rows[1:]], [*self.texts("tbody th"), "Total"])

    def test_print(self) -> None:
        self.open("/?rows=product.category:was&columns=readings")
        printed = base64.b64decode(self.browser.execute_cdp_cmd("Page.printToPDF", {"preferCSSPageSize": True})["data"])
        self.assertIn(b"/Count 1", printed)
        (self.folder / "page.pdf").write_bytes(printed)

    def test_on_a_phone(self) -> None:
        for page in ("/?rows=product.brand:was&columns=date.month", "/lines", "/line/1002/1", "/batch"):
            with self.subTest(page=page):
                self.open(page)
                self.browser.set_window_size(500, 900)
                self.assertLessEqual(self.browser.execute_script(WIDER), 0)

    def test_without_scripts(self) -> None:
        self.browser.execute_cdp_cmd("Emulation.setScriptExecutionDisabled", {"value": True})
        self.addCleanup(self.browser.execute_cdp_cmd, "Emulation.setScriptExecutionDisabled", {"value": False})
        self.open("/?rows=product.brand:was")
        self.follow(self.one("tbody td.chosen a").click)
        self.assertEqual(self.texts(".chip b"), ["Orchard"])

    def test_the_picture(self) -> None:
        self.open("/?rows=product.category:was&columns=readings")
        picture = self.browser.get_screenshot_as_png()
        self.assertLess(len(picture), MOST_PICTURE)
        if path := os.environ.get("WEB_PICTURE"):
            Path(path).write_bytes(picture)


def _browser(folder: Path) -> "webdriver.Chrome":
    options = webdriver.ChromeOptions()
    for word in ("headless=new", "no-sandbox", "disable-gpu", "disable-dev-shm-usage", "hide-scrollbars", f"user-data-dir={folder / 'profile'}"):
        options.add_argument(f"--{word}")
    options.binary_location = "/usr/bin/chromium"
    options.set_capability("goog:loggingPrefs", {"browser": "ALL"})
    options.add_experimental_option("prefs", {"download.default_directory": str(folder)})
    return webdriver.Chrome(service=Service("/usr/bin/chromedriver"), options=options)
