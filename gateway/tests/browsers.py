"""A real browser for the tests: Debian's Chromium, driven by its own driver, without a window."""
from __future__ import annotations

import importlib.util
import os
import shutil
import time
from typing import Any, Callable, List

CHROMIUM, DRIVER = shutil.which("chromium") or "", shutil.which("chromedriver") or ""
HAS_BROWSER = bool(CHROMIUM and DRIVER and importlib.util.find_spec("selenium"))
NO_BROWSER = (
    "Chromium, its driver or selenium is not there: scripts/install_debian.sh installs them"
)
SECONDS = 60  # whatever a test waits for comes in this time, or not at all
WORDS = (
    "--headless=new", "--disable-gpu", "--disable-dev-shm-usage", "--hide-scrollbars",
    "--disable-background-networking", "--disable-component-update", "--no-first-run",
)  # fmt: skip


def start(width: int = 1200, height: int = 900) -> Any:
    """A browser."""
    from selenium import webdriver
    from selenium.webdriver.chrome.service import Service
    from selenium.webdriver.remote.remote_connection import RemoteConnection

    RemoteConnection.set_timeout(2 * SECONDS)
    options = webdriver.ChromeOptions()
    options.binary_location = CHROMIUM
    for word in (*WORDS, f"--window-size={width},{height}"):
        options.add_argument(word)
    if os.geteuid() == 0:
        options.add_argument("--no-sandbox")
    options.set_capability("goog:loggingPrefs", {"browser": "ALL"})
    return webdriver.Chrome(service=Service(DRIVER), options=options)


class Page:
    """The team's page in a tab of a browser of its own."""

    def __init__(self, **size: int) -> None:
        self.browser = start(**size)

    def close(self) -> None:
        """Ends the browser."""
        self.browser.quit()

    def find(self, selector: str) -> Any:
        """The first element that a selector of CSS names, or None."""
        found = self.browser.find_elements("css selector", selector)
        return found[0] if found else None

    def wait(self, what: Callable[[], Any], told: str = "it") -> Any:
        """The first answer of `what` that isn't None or false. Fails where none comes in time."""
        from selenium.common.exceptions import WebDriverException

        end = time.monotonic() + SECONDS
        fault = None
        while time.monotonic() < end:
            try:
                found = what()
                if found:
                    return found
            except WebDriverException as raised:  # the element was replaced meanwhile
                fault = raised
            time.sleep(0.02)
        raise AssertionError(
            f"{told} did not come in {SECONDS} seconds: {fault or self.text('body')}"
        )

    def text(self, selector: str) -> str:
        """The text of an element; of one that isn't there, the empty one."""
        script = "return document.querySelector(arguments[0])?.textContent ?? ''"
        return str(self.browser.execute_script(script, selector))

    def wait_text(self, selector: str, part: str) -> None:
        """Waits until an element has this text in it."""
        self.wait(lambda: part in self.text(selector), f"{part!r} in {selector}")

    def click(self, selector: str) -> None:
        """Clicks on an element, once it is there: on the one in its place, where it is replaced
        meanwhile."""

        def clicked() -> bool:
            found = self.find(selector)
            if found:
                found.click()
            return bool(found)

        self.wait(clicked, selector)

    def type(self, selector: str, text: str) -> None:
        """Types into an element."""
        self.wait(lambda: self.find(selector), selector).send_keys(text)

    def press(self, keys: str) -> None:
        """Presses keys on the page itself."""
        self.browser.find_element("css selector", "body").send_keys(keys)

    def run(self, script: str, *arguments: Any) -> Any:
        """The answer of a script of the page."""
        return self.browser.execute_script(script, *arguments)

    def come_in(self, link: str, user: str, *roles: str) -> None:
        """Opens a link, and logs in."""
        self.browser.get("about:blank")
        self.browser.get(link)
        self.wait(lambda: self.find("#entry-user option"), "the entry form")
        choose = (
            "const [user, roles] = arguments;"
            "const select = document.getElementById('entry-user');"
            "select.value = user; select.dispatchEvent(new Event('change'));"
            "for (const box of document.querySelectorAll('#entry-roles input'))"
            "  if (box.checked !== roles.includes(box.value)) box.click();"
        )
        self.run(choose, user, list(roles))
        self.click("#entry")
        self.wait_text("#who", user)
        self.wait(lambda: self.find("nav.slots, .entry .refusal:not(:empty)"), "the slots")

    def faults(self) -> List[str]:
        """What the browser has complained of since it was asked last."""
        return [
            one["message"] for one in self.browser.get_log("browser") if one["level"] == "SEVERE"
        ]

    def use_device(self, width: int, height: int, dark: bool = False, scale: float = 1) -> None:
        """Shows the page as a device of this size would, dark or light."""
        size = {"width": width, "height": height, "deviceScaleFactor": scale, "mobile": width < 600}
        self.browser.execute_cdp_cmd("Emulation.setDeviceMetricsOverride", size)
        scheme = {"name": "prefers-color-scheme", "value": "dark" if dark else "light"}
        self.browser.execute_cdp_cmd("Emulation.setEmulatedMedia", {"features": [scheme]})
        self.run("return new Promise((done) => requestAnimationFrame(() => setTimeout(done, 300)))")
