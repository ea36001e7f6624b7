"""A headless Chromium before an office, for tests that use the page as persons do. With
OFFICE_SCREENSHOTS set, pictures of screens go to that folder.
"""
from __future__ import annotations

import atexit
import contextlib
import os
import shutil
import time
import unittest
from collections.abc import Callable
from pathlib import Path
from typing import Any

from tests.world import World, program

try:
    from selenium import webdriver
    from selenium.common.exceptions import (
        StaleElementReferenceException, TimeoutException, WebDriverException,
    )
    from selenium.webdriver.common.by import By
    from selenium.webdriver.common.keys import Keys
    from selenium.webdriver.support.ui import Select, WebDriverWait
except ImportError:
    webdriver = None

POLICY = Path(__file__).resolve().parent / "page.toml"
PEOPLE = ("ada", "hanna", "omar", "ivy", "gus", "eve", "nora")
WORDS = {name: f"{name}-word" for name in PEOPLE}
OPTIONS = (
    "--headless=new", "--no-sandbox", "--disable-gpu", "--disable-dev-shm-usage", "--no-first-run",
    "--disable-background-networking",
)
# For how long something is awaited. It is there at once, but where the machine has much else to do.
SECONDS = 120
# How often a browser is started that does not come up.
STARTS = 3


def card(*lines: str, uid: str = "") -> str:
    """The text of a card with these lines."""
    uids = [f"UID:urn:uuid:{uid}"] if uid else []
    return "\r\n".join(["BEGIN:VCARD", "VERSION:4.0", *uids, *lines, "END:VCARD", ""])


def needed(test: type) -> type:
    """Skips tests where the server's program or the browser is not there."""
    there = webdriver and shutil.which("chromedriver") and shutil.which("chromium")
    test = unittest.skipUnless(
        there, "the packages chromium, chromium-driver and python3-selenium are not there"
    )(test)
    return unittest.skipUnless(
        program(), "the server's program is named in BOOK_DESK, or made by make build"
    )(test)


def started(folder: Path, language: str = "en") -> Any:
    """A browser that asks for pages in a language."""
    options = webdriver.ChromeOptions()
    for word in (
        *OPTIONS, f"--user-data-dir={folder}/chromium-{language}", f"--lang={language}",
        f"--accept-lang={language}",
    ):
        options.add_argument(word)
    options.add_experimental_option(
        "prefs", {"download.default_directory": str(folder), "intl.accept_languages": language}
    )
    options.set_capability("goog:loggingPrefs", {"browser": "ALL"})
    for left in reversed(range(STARTS)):
        service = webdriver.chrome.service.Service(shutil.which("chromedriver"))
        try:
            driver = webdriver.Chrome(options=options, service=service)
        except WebDriverException:
            # chromedriver waits a minute for the browser, which a busy machine may not have.
            if not left:
                raise
            continue
        atexit.register(end, driver)
        return driver
    return None


def end(driver: Any) -> None:
    """Ends a browser; also where the tests are ended before their end."""
    with contextlib.suppress(Exception):
        driver.quit()


class Office(unittest.TestCase):
    """One browser and one office for the tests of a module."""

    world: World
    driver: Any
    language = "en"
    more = ""

    @classmethod
    def setUpClass(cls) -> None:
        cls.world = World(policy=POLICY, passwords=WORDS, more=cls.more)
        try:
            cls.driver = started(cls.world.path, cls.language)
            cls.furnish()
        except BaseException:
            cls.world.close()
            raise

    @classmethod
    def furnish(cls) -> None:
        """Puts what the tests find in the books."""

    @classmethod
    def tearDownClass(cls) -> None:
        end(cls.driver)
        cls.world.close()

    def setUp(self) -> None:
        self.driver.set_window_size(1100, 900)
        self.driver.delete_all_cookies()

    # Finding and doing

    def until(self, holds: Callable[[], Any]) -> Any:
        """Waits until something holds, and gives it."""

        def tried(_: Any) -> Any:
            try:
                return holds()
            except StaleElementReferenceException:
                return None

        return WebDriverWait(self.driver, SECONDS, 0.05).until(tried)

    def one(self, path: str) -> Any:
        """The first element of an XPath that is shown, once it is there."""
        return self.until(
            lambda: next(
                (one for one in self.driver.find_elements(By.XPATH, path) if one.is_displayed()),
                None,
            )
        )

    def all(self, path: str) -> list[Any]:
        """The elements of an XPath that are shown now."""
        return [one for one in self.driver.find_elements(By.XPATH, path) if one.is_displayed()]

    def heading(self, text: str) -> None:
        """Waits until the view has this heading."""
        self.until(
            lambda: text in [one.text for one in self.driver.find_elements(By.TAG_NAME, "h1")]
        )

    def told(self, text: str) -> str:
        """Waits until the page tells this; all that it tells."""
        told = self.driver.find_element(By.ID, "told")
        try:
            self.until(lambda: text in told.text)
        except TimeoutException:
            self.fail(f"{text!r} is not told, but {told.text!r}, in the view:\n{self.text()}")
        return told.text

    def text(self, path: str = "//main") -> str:
        """The text of an element."""
        return self.one(path).text

    def press(self, title: str) -> None:
        """Presses the button, link or summary of this title."""
        def pressed() -> bool:
            place = "(//main | //dialog | //*[@id='told'])"
            for one in self.all(
                f"{place}//*[self::a or self::button or self::summary][normalize-space()='{title}']"
            ):
                try:
                    one.click()
                    return True
                except WebDriverException:
                    continue
            return False

        self.until(pressed)

    def offered(self) -> list[str]:
        """What can be pressed in the view above the list, in order."""
        return [
            one.text
            for one in self.all("//main/p[contains(@class, 'tools')]//*[self::a or self::button]")
        ]

    def labelled(self, title: str, at: int = 0) -> Any:
        """The input with this label; of several the one at a place."""
        found = self.until(lambda: self.all(f"//label[normalize-space()='{title}']")[at:])
        return self.driver.find_element(By.ID, found[0].get_attribute("for"))

    def fill(self, title: str, value: str, at: int = 0) -> Any:
        """Writes into an input in place of what it has."""
        element = self.labelled(title, at)
        element.send_keys(Keys.CONTROL, "a")
        element.send_keys(value or Keys.DELETE)
        return element

    def choose(self, title: str, value: str) -> None:
        """Chooses an option by its text."""
        self.until(lambda: value in [one.text for one in Select(self.labelled(title)).options])
        Select(self.labelled(title)).select_by_visible_text(value)

    def open(self, path: str) -> None:
        """Opens a view, and waits until it is there."""
        script = (
            "document.getElementById('main').dataset.view = '';"
            "if (location.hash === arguments[0]) dispatchEvent(new Event('hashchange')); else "
            "location.hash = arguments[0];"
        )
        self.driver.execute_script(script, "#" + path)
        self.until(
            lambda: self.driver.execute_script(
                "return document.getElementById('main').dataset.view"
            )
            == path
        )

    def sign_in(self, login: str, title: str = "Books") -> None:
        """Signs in, with the keyboard alone."""
        self.driver.get(f"http://127.0.0.1:{self.world.port}/")
        self.until(
            lambda: self.driver.switch_to.active_element.get_attribute("autocomplete") == "username"
        )
        self.driver.switch_to.active_element.send_keys(login, Keys.TAB)
        self.driver.switch_to.active_element.send_keys(WORDS[login], Keys.ENTER)
        self.heading(title)

    # Looking

    def picture(self, name: str) -> None:
        """Keeps a picture of the screen where a folder for them is named."""
        folder = os.environ.get("OFFICE_SCREENSHOTS")
        if folder:
            time.sleep(0.3)
            self.driver.save_screenshot(str(Path(folder) / f"{name}.png"))

    def narrow(self, width: int = 360) -> None:
        """Makes the window as wide as a phone's until the test ends."""
        self.driver.execute_cdp_cmd(
            "Emulation.setDeviceMetricsOverride",
            {"width": width, "height": 740, "deviceScaleFactor": 2, "mobile": False},
        )
        self.addCleanup(self.driver.execute_cdp_cmd, "Emulation.clearDeviceMetricsOverride", {})

    def fits(self) -> None:
        """Asserts that nothing is wider than the window."""
        root = "document.documentElement"
        wide, window = self.driver.execute_script(
            f"return [{root}.scrollWidth, {root}.clientWidth]"
        )
        self.assertLessEqual(wide, window)

    def nothing_was_blocked(self) -> None:
        """Asserts that the browser told of no fault but replies that refuse."""
        faults = [
            entry["message"]
            for entry in self.driver.get_log("browser")
            if entry["level"] == "SEVERE"
        ]
        self.assertEqual(
            [fault for fault in faults if "the server responded with a status of" not in fault], []
        )

    def accessible(self) -> None:
        """Asserts that a script finds no fault of accessibility in the view."""
        script = (Path(__file__).resolve().parent / "accessibility.js").read_text(encoding="utf-8")
        self.assertEqual(self.driver.execute_script(script), [], self.driver.title)

    def kept(self, path: str, who: str = "ada") -> str:
        """The text of a card as the office keeps it."""
        return self.world.say(who, "GET", "/dav" + path).text
