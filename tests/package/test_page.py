"""The page of 'replay' under real clicks and keys, in one Chromium that selenium drives: what a
person does with it.

What the page shows of a moment is looked at in test_replay.
"""
import shutil
import unittest
from collections.abc import Callable
from pathlib import Path
from typing import Any

try:
    from selenium import webdriver
    from selenium.webdriver.chrome.service import Service
    from selenium.webdriver.common.action_chains import ActionChains
    from selenium.webdriver.common.by import By
    from selenium.webdriver.common.actions.wheel_input import ScrollOrigin
    from selenium.webdriver.common.keys import Keys
    from selenium.webdriver.support.ui import WebDriverWait
except ImportError:
    raise unittest.SkipTest("there is no selenium here") from None

from support import FolderTest
from test_replay import CHROMIUM

DRIVER = shutil.which("chromedriver")
# So many seconds the page may take for what it does by itself.
PATIENCE = 20


def started(folder: Path) -> Any:
    """A browser that keeps what its console says, with a profile of its own."""
    options = webdriver.ChromeOptions()
    options.binary_location = CHROMIUM
    words = "headless=new no-sandbox disable-gpu disable-dev-shm-usage window-size=1400,900".split()
    for word in [*words, f"user-data-dir={folder}"]:
        options.add_argument(f"--{word}")
    options.set_capability("goog:loggingPrefs", {"browser": "ALL"})
    return webdriver.Chrome(service=Service(DRIVER), options=options)


@unittest.skipUnless(CHROMIUM and DRIVER, "there is no Chromium with its driver here")
class UnderClicksAndKeys(FolderTest):
    """The line of three routers; where packets come by is worked out in test_replay and
    test_waves."""

    browser: webdriver.Chrome

    @classmethod
    def setUpClass(cls) -> None:
        super().setUpClass()
        cls.browser = started(cls.folder / "profile")
        cls.addClassCleanup(cls.browser.quit)

    def setUp(self) -> None:
        super().setUp()
        self.put(**{"page.html": self.said("replay", "c", "t")})

    def tearDown(self) -> None:
        """Whatever was done, the console tells of no error."""
        said = [entry for entry in self.browser.get_log("browser") if entry["level"] == "SEVERE"]
        self.assertEqual(said, [])

    def open(self, moment: str) -> None:
        """Opens the page anew at a moment."""
        self.browser.get("about:blank")
        self.browser.get(f"{(self.folder / 'page.html').as_uri()}#{moment}")

    def part(self, name: str) -> Any:
        """A part of the page by its name."""
        return self.browser.find_element(By.ID, name)

    def words(self, *names: str) -> list[str]:
        """The words of parts, as they are seen."""
        return [self.part(name).text for name in names]

    def rows(self, name: str) -> list[list[str]]:
        """The rows of a table below its head."""
        rows = self.part(name).find_elements(By.TAG_NAME, "tr")[1:]
        return [[cell.text for cell in row.find_elements(By.CSS_SELECTOR, "td, th")] for row in rows]

    def cycle(self) -> str:
        """The cycle in its field."""
        return self.part("cycle").get_attribute("value")

    def press(self, *keys: str, shift: bool = False) -> None:
        """Presses keys, one after the other, wherever the focus is."""
        actions = ActionChains(self.browser)
        if shift:
            actions.key_down(Keys.SHIFT)
        for key in keys:
            actions.send_keys(key)
        (actions.key_up(Keys.SHIFT) if shift else actions).perform()

    def until(self, holds: Callable[[], object]) -> None:
        """Waits until something holds, which the page does by itself."""
        WebDriverWait(self.browser, PATIENCE).until(lambda _: holds())

    def test_clicks_list_a_router_and_follow_a_packet(self) -> None:
        """From cycle 4, when packet 1 is granted local.0 at router 2, one cycle on: then it
        moves."""
        self.open("cycle=4")
        self.part("router-2").click()
        self.browser.find_element(By.CSS_SELECTOR, "#router-table td.packet button").click()
        self.part("forward").click()
        self.assertEqual(self.words("router-name", "packet-name"), ["Router 2 in cycle 5", "Packet 1 in cycle 5"])
        self.assertEqual(self.rows("packet-table"), [["2", "-0.0", "Moved", "-", "local.0", "-"]])
        self.assertEqual(self.rows("router-table"), [
            ["-0.0", "Moved", "-", "1", "local.0", "-", "-"], ["local.0", "Empty", "-", "-", "-", "-", "-"],
        ])

    def test_keys_work_where_a_button_was_clicked(self) -> None:
        """An arrow goes on by a cycle, and the space bar plays up to the last one: it does not
        press the button too."""
        self.open("cycle=4")
        self.part("forward").click()
        self.press(Keys.ARROW_RIGHT)
        self.assertEqual(self.cycle(), "6")
        self.press(Keys.ARROW_LEFT, Keys.ARROW_LEFT)
        self.assertEqual(self.cycle(), "4")
        self.press(Keys.SPACE)
        self.assertEqual(self.words("play"), ["Stop"])
        self.until(lambda: self.words("play") == ["Play"])
        self.assertEqual(self.cycle(), "19")

    def test_a_key_in_a_field_is_the_field_s(self) -> None:
        """What is typed as a cycle is gone to, and an arrow within it moves the mark there
        alone."""
        self.open("cycle=4")
        field = self.part("cycle")
        field.click()
        field.send_keys(Keys.CONTROL, "a")
        field.send_keys("12", Keys.ARROW_LEFT, Keys.ENTER)
        self.part("router-1").click()
        self.assertEqual(self.words("router-name"), ["Router 1 in cycle 12"])

    def test_shift_goes_from_change_to_change(self) -> None:
        """Router 1 changes in 7, 8, 10, 11 and 12."""
        self.open("cycle=8&router=1")
        self.press(Keys.ARROW_RIGHT, Keys.ARROW_RIGHT, shift=True)
        self.assertEqual(self.cycle(), "11")
        self.press(Keys.ARROW_LEFT, Keys.ARROW_LEFT, Keys.ARROW_LEFT, shift=True)
        self.assertEqual(self.cycle(), "7")

    def test_the_address_is_that_of_the_moment(self) -> None:
        """It follows a click, and the page follows it where a person changes it."""
        self.open("cycle=4&router=1&packet=2")
        self.part("forward").click()
        self.until(lambda: self.browser.current_url.endswith("#cycle=5&router=1&packet=2"))
        self.browser.execute_script("location.hash = 'cycle=9&router=2'")
        self.until(lambda: self.words("router-name") == ["Router 2 in cycle 9"])

    def test_a_click_into_the_strip_goes_to_its_cycle(self) -> None:
        """Its middle is the middle of the twenty cycles."""
        self.open("cycle=0")
        ActionChains(self.browser).move_to_element(self.part("chart")).click().perform()
        self.assertIn(self.cycle(), ("9", "10"))

    def test_what_is_typed_is_followed(self) -> None:
        """The number of a packet, by the keyboard alone: from field to field with the tabulator."""
        self.open("cycle=5")
        self.part("follow").click()
        self.press("2", Keys.TAB)
        self.assertEqual(self.words("packet-name", "steps-end"), [
            "Packet 2 in cycle 5", "So packet 2 waits for packet 1, which goes on.",
        ])

    def test_a_router_is_reached_by_the_keyboard(self) -> None:
        """From the field before the picture with the tabulator, and then chosen by the enter
        key."""
        self.open("cycle=5")
        self.part("follow").click()
        for _ in range(20):
            self.press(Keys.TAB)
            if self.browser.switch_to.active_element.get_attribute("id") == "router-1":
                break
        self.press(Keys.ENTER)
        self.assertEqual(self.words("router-name"), ["Router 1 in cycle 5"])

    def test_the_wheel_zooms(self) -> None:
        """The picture, while the page stays where it is; a button shows the whole again."""
        self.open("cycle=5")
        whole, origin = self.view(), ScrollOrigin.from_element(self.part("picture"))
        ActionChains(self.browser).scroll_from_origin(origin, 0, -200).perform()
        self.until(lambda: self.view()[2] < whole[2])
        self.assertEqual(self.browser.execute_script("return window.scrollY"), 0)
        self.part("whole").click()
        self.assertEqual(self.view(), whole)

    def view(self) -> list[float]:
        """What the picture shows of itself: its left and upper edge, width and height."""
        script = "return document.getElementById('picture').getAttribute('viewBox')"
        return list(map(float, self.browser.execute_script(script).split()))

    def test_a_dark_system_is_heeded(self) -> None:
        """Where it changes while the page is open, too."""
        self.open("cycle=5")
        script = "return getComputedStyle(document.body).backgroundColor.match(/[0-9]+/g).slice(0, 3).map(Number)"
        light = self.browser.execute_script(script)
        dark = {"features": [{"name": "prefers-color-scheme", "value": "dark"}]}
        self.browser.execute_cdp_cmd("Emulation.setEmulatedMedia", dark)
        self.addCleanup(self.browser.execute_cdp_cmd, "Emulation.setEmulatedMedia", {"features": []})
        self.assertLess(max(self.browser.execute_script(script)), 64)
        self.assertEqual(light, [255, 255, 255])
