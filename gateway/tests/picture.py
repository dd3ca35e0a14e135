#!/usr/bin/env python3
"""Makes docs/team.png: two people at work on one slot, each in a browser, one light and one dark.

It needs what the tests of the page need, and the variable ESTSERVE or a minute for the program.
"""
from __future__ import annotations

import base64
import pathlib
import sys
from typing import List

import browsers
import teams
import visitors

WIDE, HIGH = 760, 720  # of one of the two
STEPS = "B A - B AB R A B - A B -".split()  # what is offered before each step; - is nothing


def drive(ann: browsers.Page, cho: browsers.Page) -> None:
    """Ann offers in her window, Cho steps in hers."""
    for number, offers in enumerate(STEPS, 1):
        for name in offers.strip("-"):
            ann.click(f"[data-signal={name}]")
            ann.wait(lambda: name in ann.text("#pending"), name)
        cho.press(" ")
        for page in (ann, cho):
            page.wait_text("#facts", f"{number} instant")
    ann.click("[data-signal=A]")
    cho.wait_text("#pending", "Pending: A")
    ann.click("[data-signal=R]")
    ann.wait_text("[data-signal=R] ~ .refusal", "Excluded")


def picture_of(page: browsers.Page, dark: bool) -> str:
    """What a page shows, as the address of a picture."""
    page.use_device(WIDE, HIGH, dark)
    return "data:image/png;base64," + page.browser.get_screenshot_as_base64()


def write_picture(page: browsers.Page, pictures: List[str], path: pathlib.Path) -> None:
    """Writes the pictures side by side."""
    images = "".join(f"<img src='{one}' width={WIDE} height={HIGH}>" for one in pictures)
    page.browser.get("about:blank")
    page.use_device(2 * WIDE, HIGH)
    page.run("document.body.style.margin = 0; document.body.style.display = 'flex'")
    page.run("document.body.innerHTML = arguments[0]", images)
    page.wait(lambda: page.run("return [...document.images].every((one) => one.complete)"))
    path.write_bytes(base64.b64decode(page.browser.get_screenshot_as_base64()))


def main() -> None:
    if not (visitors.HAS_AIOHTTP and browsers.HAS_BROWSER):
        sys.exit(f"{visitors.NO_AIOHTTP}; {browsers.NO_BROWSER}")
    ann, cho = browsers.Page(width=WIDE, height=HIGH), browsers.Page(width=WIDE, height=HIGH)
    try:
        with visitors.Team("--http", "127.0.0.1:0") as team:
            visitors.set_up(team)
            with team.root() as root:
                root.assign("cho", "watcher")
                root.grant("watcher", "observe", "0.B")
                root.logout()
            ann.come_in(visitors.address_of_link(team), "ann", "lead")
            cho.come_in(visitors.address_of_link(team), "cho", "stepper", "watcher")
            for page in (ann, cho):
                page.wait_text("h1", "TEAM")
            drive(ann, cho)
            pictures = [picture_of(ann, False), picture_of(cho, True)]
            write_picture(ann, pictures, teams.ROOT / "docs" / "team.png")
    finally:
        ann.close()
        cho.close()


if __name__ == "__main__":
    main()
