"""What the tests of the page in browsers share: a team, two browsers, a fresh slot for each test."""
from __future__ import annotations

import os
import pathlib
import tempfile
import unittest
from typing import Any

import browsers
import teams
import visitors

SHOTS = os.environ.get("GATEWAY_SHOTS")  # a folder for pictures of the page, where one is wanted
TOLD = ".wave .readout"  # what a wave says of an instant
TEXT = (teams.ROOT / "examples" / "team" / "team.strl").read_text()
CHOOSE = (
    "const [selector, value] = arguments, list = document.querySelector(selector);"
    "list.value = value; list.dispatchEvent(new Event('change', { bubbles: true }));"
    "return list.value"
)


@unittest.skipUnless(visitors.HAS_AIOHTTP, visitors.NO_AIOHTTP)
@unittest.skipUnless(browsers.HAS_BROWSER, browsers.NO_BROWSER)
class PageCase(unittest.TestCase):
    """Two browsers at one gateway, of which each test finds a fresh team in slot 0."""

    team: Any
    one: browsers.Page
    two: browsers.Page

    @classmethod
    def setUpClass(cls) -> None:
        cls.team = visitors.Team("--http", "127.0.0.1:0")
        cls.team.__enter__()
        cls.addClassCleanup(cls.team.__exit__)
        visitors.set_up(cls.team)
        cls.one = browsers.Page()
        cls.addClassCleanup(cls.one.close)
        cls.two = browsers.Page()
        cls.addClassCleanup(cls.two.close)

    def setUp(self) -> None:
        for page in (self.one, self.two):
            page.browser.execute_cdp_cmd("Emulation.clearDeviceMetricsOverride", {})
        self.fresh()

    def fresh(self) -> None:
        """Slot 0 has the team's module, without instants."""
        with self.team.root() as root:
            try:
                root.unload(0)
            except Exception:  # it was empty
                pass
            root.load(0, "TEAM", TEXT)
            root.logout()

    def tearDown(self) -> None:
        for page in (self.one, self.two):
            faults = [one for one in page.faults() if "api/" not in one]
            self.assertEqual(faults, [], "the browser complains")

    def come_in(self, page: browsers.Page, user: str, *roles: str) -> None:
        page.come_in(visitors.address_of_link(self.team), user, *roles)

    def drive_and_step(self) -> None:
        """Ann drives in the first browser, Cho steps in the second."""
        self.come_in(self.one, "ann", "lead")
        self.come_in(self.two, "cho", "stepper")
        self.two.wait_text("h1", "TEAM")
        for page in (self.one, self.two):
            page.wait_text("#facts", "0 instants")

    def choose(self, selector: str, value: str) -> None:
        """Chooses in a list of the first browser."""
        self.assertEqual(self.one.run(CHOOSE, selector, value), value)

    def allow_files(self, page: browsers.Page) -> pathlib.Path:
        """A folder into which a browser saves."""
        held = tempfile.TemporaryDirectory()
        self.addCleanup(held.cleanup)
        words = {"behavior": "allow", "downloadPath": held.name}
        page.browser.execute_cdp_cmd("Browser.setDownloadBehavior", words)
        return pathlib.Path(held.name)

    def saved(self, folder: pathlib.Path, name: str) -> str:
        """The text of a file that a browser saves there."""
        path = folder / name
        teams.wait_for(lambda: path.exists() and path.stat().st_size)
        return path.read_text()

    def shoot(self, page: browsers.Page, name: str) -> None:
        """Keeps a picture, where pictures are wanted."""
        if SHOTS:
            page.browser.save_screenshot(str(pathlib.Path(SHOTS) / f"{name}.png"))
