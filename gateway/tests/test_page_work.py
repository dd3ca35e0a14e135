"""The page at work, in a real browser: a text edited and replayed, waves searched and saved, a policy
chosen and read from a file, links and sizes."""
import os
import sys
import unittest

import teams
import visitors
from estserve_client.policy_file import read_policy
from page_case import TEXT, TOLD, PageCase

WHOLE_HIGH = 900
STEPS = "B A - B AB R A".split()  # what is offered before each instant; - is nothing
PATIENCE = 15_000  # milliseconds: a request without a connection is given up after twenty seconds
SET_TEXT = (
    "const area = document.getElementById('load-text'); area.value = arguments[0];"
    "area.dispatchEvent(new Event('input'))"
)


def rights(root, cmd):
    """Grants or revokes what one needs who drives, steps and sees all, as root."""
    for name in "ABR":
        getattr(root, cmd)("root", "offer", f"0.{name}")
    for name in "ABRO":
        getattr(root, cmd)("root", "observe", f"0.{name}")
    getattr(root, cmd)("root", "step", "0")


class WorkTest(PageCase):
    def setUp(self):
        super().setUp()
        self.change_rights("grant")
        self.addCleanup(self.change_rights, "revoke")

    def change_rights(self, cmd):
        with self.team.root() as root:
            rights(root, cmd)
            root.logout()

    def drive(self):
        """Root has driven the slot, and sees it in the first browser."""
        with self.team.root() as root:
            for offers in STEPS:
                for name in offers.strip("-"):
                    root.offer(0, name)
                root.step(0)
            root.logout()
        self.come_in(self.one, "root", "root")
        self.one.wait_text("#facts", f"{len(STEPS)} instants")

    # Edit, reload, replay.

    def test_a_version_is_replayed_beside_what_was_driven_and_saved(self):
        self.drive()
        before = len(self.team.entries())
        self.one.click("#edit")
        self.one.run(SET_TEXT, TEXT.replace("await B", "awiat B"))
        self.one.wait_text(".bubble", "a statement expected — did you mean `await`?")
        self.one.run(SET_TEXT, TEXT)
        self.one.wait(lambda: not self.one.find(".bubble"), "no fault any more")
        self.one.click("#replay")
        self.one.wait_text(".parting", "All 7 instants are alike.")
        other = TEXT.replace("await A || await B", "await A")
        self.one.run(SET_TEXT, other)
        self.one.click("#replay")
        self.one.wait_text(".parting", "They part at instant 2: O was absent, and is present.")
        self.assertEqual(len(self.one.browser.find_elements("css selector", ".replay .wave")), 2)
        self.one.wait_text(".replay .wave:last-child .readout", "instant 2: A O · mark a")
        self.assertEqual(len(self.team.entries()), before, "nothing was asked of the shared slot")
        self.check_scenario(other)

    def check_scenario(self, text):
        """The scenario that is saved is one that the client runs."""
        from estserve_client.command_line import main

        folder = self.allow_files(self.one)
        self.one.find(".scenario-name").clear()
        self.one.type(".scenario-name", "seven")
        self.one.click("#save-scenario")
        self.assertEqual(self.saved(folder, "seven.inputs"), "B\nA\n;\nB\nA B\nR\nA\n")
        self.assertIn("      2  A       O", self.saved(folder, "seven.expected"))
        (folder / "team.strl").write_text(text)
        os.environ["ESTSERVE"] = teams.program_file()
        with open(os.devnull, "w", encoding="utf-8") as nowhere:
            sys.stdout, out = nowhere, sys.stdout
            try:
                self.assertEqual(main(["test", str(folder)]), 0)
            finally:
                sys.stdout = out

    @unittest.skipUnless(os.environ.get("ESTLAB"), "the variable ESTLAB names no program")
    def test_the_text_shows_what_ran_as_others_step_and_in_any_instant(self):
        self.come_in(self.one, "root", "root")
        self.one.wait_text("#facts", "0 instants")
        with self.team.root() as root:
            for offers in ("", "A", "B"):
                for name in offers:
                    root.offer(0, name)
                root.step(0)
            root.logout()
        emission = "document.querySelectorAll('.source .ran').length"
        self.one.wait_text("#inside", "instant 3: ran ")
        newest = self.one.run(f"return {emission}")
        self.one.type(".wave .instant", "1\n")
        self.one.wait_text("#inside", "instant 1: ran ")
        self.assertLess(
            self.one.run(f"return {emission}"), newest, "O is emitted in instant 3 alone"
        )
        self.assertTrue(self.one.find(".source .rests"))
        self.come_in(self.two, "bob", "watcher")
        self.two.wait_text("#facts", "3 instants")
        self.assertEqual(self.two.text("#inside"), "")

    def test_load_keeps_what_was_driven(self):
        self.drive()
        self.one.click("#edit")
        self.one.run(SET_TEXT, TEXT.replace("emit O", "emit X"))
        self.one.click("#load")
        self.one.wait_text(".bubble", "UnknownName")
        self.one.wait_text("#facts", "7 instants")
        self.one.run(SET_TEXT, TEXT.replace("emit O", "pause; emit O"))
        self.one.click("#load")
        self.one.wait_text("#facts", "0 instants")
        self.one.wait_text(".source", "pause; emit O")
        self.one.wait_text(".text", "Kept: 7 instants of TEAM")
        self.one.click("#replay")
        self.one.wait_text(".parting", "They part at instant 4: O was present, and is absent.")

    # The wave.

    def test_a_wave_is_searched_marked_grouped_and_saved(self):
        self.drive()
        self.choose(".wave select", "O")
        box = self.one.find(".wave-box")
        self.one.wait_text(TOLD, "instant 7: A")
        box.send_keys("[")
        self.one.wait_text(TOLD, "instant 5: A B")
        box.send_keys("[")
        self.one.wait_text(TOLD, "instant 4: B O")
        box.send_keys("m]")
        self.one.wait_text(TOLD, "instant 5: A B · 1 after mark a")
        self.assertEqual(self.one.text(".marks"), "a: 4")
        self.one.click(".wave .signals summary")
        self.choose(".wave .grouping", "kind")
        high = self.one.find(".wave-sizer").size["height"]
        self.one.click("[aria-label='R further up']")
        order = self.one.run(
            "return [...document.querySelectorAll('.wave .pick input')].map((one) => one.value)"
        )
        self.assertEqual(order, ["A", "R", "B", "O"])
        self.choose(".wave .grouping", "none")
        self.assertEqual(high - self.one.find(".wave-sizer").size["height"], 2 * 26, "two titles")
        folder = self.allow_files(self.one)
        self.one.click(".wave .save summary")
        self.one.click("[data-save=VCD]")
        self.assertIn("$var wire 1 % O $end", self.saved(folder, "TEAM.vcd"))
        self.one.click("[data-save='.inputs']")
        self.assertEqual(self.saved(folder, "TEAM.inputs"), "B\nA\n;\nB\nA B\nR\nA\n")

    def test_the_newest_instant_is_followed_in_a_window_of_another_size(self):
        self.come_in(self.one, "root", "root")
        with self.team.root() as root:
            for _ in range(60):
                root.step(0)
            self.one.wait_text("#facts", "60 instants")
            at_end = (
                "const { scrollLeft, scrollWidth, clientWidth } = document.querySelector('.wave-box');"
                "return scrollWidth - clientWidth - scrollLeft < 2 && scrollWidth > clientWidth"
            )
            for width in (700, 500, 1100, 380):
                self.one.use_device(width, WHOLE_HIGH)
                self.one.wait(lambda: self.one.run(at_end), f"the end at {width}")
                newest = self.one.find(".wave .newest").get_attribute("aria-pressed")
                self.assertEqual(newest, "true", width)
            self.one.run("document.getElementById('edit').focus()")
            root.step(0)
            root.logout()
        self.one.wait_text(TOLD, "instant 61:")
        focused = self.one.run("return document.activeElement.id")
        self.assertEqual(focused, "edit", "a step of another leaves the focus")
        self.one.wait(lambda: self.one.run(at_end), "the end")

    def test_what_drives_is_in_view_on_a_small_screen(self):
        self.drive()
        self.one.use_device(380, 700)
        place = (
            "const { top, bottom } = document.querySelector(arguments[0]).getBoundingClientRect();"
        )
        for selector in ("#step", "#discard", "#pending"):
            top, bottom = self.one.run(place + "return [top, bottom]", selector)
            self.assertTrue(0 <= top < bottom <= 700, (selector, top, bottom))
        self.assertLess(self.one.find("header.top").size["height"], 60, "the header is one row")
        self.one.click("[data-view=record]")
        self.one.wait_text("[aria-label=Log]", "step")
        high = "return [...document.querySelectorAll('[aria-label=Log] td')].map((one) => one.clientHeight)"
        self.assertLess(max(self.one.run(high)), 40, "words don't break")

    def test_words_of_a_fault_are_in_view_and_the_text_is_as_wide_as_it_needs(self):
        self.drive()
        wide = "const { scrollWidth, clientWidth } = document.querySelector('.source');"
        sides = (
            "const { left, right } = document.querySelector(arguments[0]).getBoundingClientRect();"
        )
        sides += "return [left, right]"
        with self.team.root() as root:
            root.unload(0)
            root.load(0, "TEAM", TEXT.partition("\n")[2])  # without its long comment
            root.logout()
        self.one.wait_text("#facts", "0 instants")
        for width in (1200, 1920):
            self.one.use_device(width, WHOLE_HIGH)
            self.assertTrue(self.one.run(wide + "return scrollWidth === clientWidth"), width)
        self.one.click("#edit")
        for text in (
            TEXT.replace("await B", "awiat B"),
            f"module M: {' ' * 90} awiat B end module",
        ):
            self.one.run(SET_TEXT, text)
            self.one.wait_text(".bubble", "Syntax: ")
            for width in (380, 800, 1200, 1920):
                self.one.use_device(width, WHOLE_HIGH)
                self.one.run("document.querySelector('.bad').scrollIntoView({ inline: 'center' })")
                desk, bubble = self.one.run(sides, ".desk"), self.one.run(sides, ".bubble")
                self.assertLessEqual(desk[0], bubble[0], width)
                self.assertLessEqual(bubble[1], desk[1], width)

    # Links and keys.

    def test_a_link_that_is_pasted_into_the_tab_is_spent_at_once(self):
        host = visitors.address_of_link(self.team).partition("#")[0]
        self.two.browser.delete_all_cookies()
        self.two.browser.get(host)
        self.two.run("localStorage.clear(); sessionStorage.clear()")
        self.two.browser.refresh()
        self.two.wait_text("h1", "Who are you?")
        link = visitors.address_of_link(self.team)
        self.two.run("location.href = arguments[0]", link)
        self.two.wait_text("h1", "Log in")
        self.assertEqual(self.two.run("return location.href"), host)
        secret = link.partition("#link=")[2]
        stranger = visitors.Visitor(visitors.address_of(self.team))
        self.assertEqual(stranger.enter(secret).status, 401, "it is spent")

    def test_pages_that_were_left_hold_no_connections(self):
        self.come_in(self.one, "root", "root")
        host = visitors.address_of_link(self.team).partition("#")[0]
        longest = (
            "return Math.max(...performance.getEntriesByType('resource').filter("
            "({ name }) => !name.includes('/events')).map(({ duration }) => duration))"
        )
        for _ in range(7):  # a browser has six connections to a host
            self.one.browser.get("about:blank")
            self.one.browser.get(host)
            self.one.wait_text(".source", "module TEAM")
            self.assertLess(self.one.run(longest), PATIENCE, "a request had no connection")
        self.one.browser.back()
        self.one.browser.back()
        self.one.wait_text("#facts", "0 instants")
        with self.team.root() as root:
            root.step(0)
            root.logout()
        self.one.wait_text("#facts", "1 instant ")

    def test_keys_are_listed_and_reach_each_input(self):
        names = [f"I{number}" for number in range(14)]
        text = f"module M: input {', '.join(names)}; output O; emit O end module"
        with self.team.root() as root:
            root.unload(0)
            root.load(0, "M", text)
            for name in names:
                root.grant("root", "offer", f"0.{name}")
            root.logout()
        self.addCleanup(self.change_names, names)
        self.come_in(self.one, "root", "root")
        self.one.wait_text("h1", "Slot 0 · M")
        self.one.press("?")
        self.one.wait_text("#keys-help", "find an input by its name")
        self.one.find("#keys-close").click()
        self.one.press("w")
        self.one.wait_text("#pending", "Pending: I11")
        self.one.press("/")
        self.one.type("#find-input", "13\n")
        self.one.wait_text("#pending", "Pending: I11 I13")
        self.one.press("w")
        self.one.wait_text("#pending", "Pending: I13")

    def change_names(self, names):
        with self.team.root() as root:
            for name in names:
                root.revoke("root", "offer", f"0.{name}")
            root.logout()

    # The policy.

    def test_permissions_are_spread_folded_and_revoked(self):
        self.come_in(self.one, "root", "root")
        self.one.wait_text("h1", "TEAM")
        self.one.click("[data-view=policy]")
        self.one.wait_text(".facts", "all of it")
        every = "[aria-label='revoke observe 0.* of stepper']"
        any_of = "[aria-label^='revoke observe 0.'][aria-label$=' of stepper']"
        for told in ("4 done", "0 done, 4 there already"):
            self.choose("#change-command", "grant")
            self.choose("[aria-label='Change the policy'] [name=role]", "stepper")
            self.choose("#change-operation", "observe")
            self.choose("#change-slot", "0")
            signal = self.one.find("#change-signal")
            signal.clear()
            signal.send_keys("*")
            spread = "[aria-label='Change the policy'] [role=status]"
            self.one.wait_text(spread, "spread over 0.A, 0.B, 0.R, 0.O")
            self.one.click("#change")
            self.one.wait_text("[aria-label='Change the policy']", told)
            self.one.wait(lambda: self.one.find(every), "the row of all four")
        with self.team.client() as cho:
            cho.login("cho", ["stepper"])
            self.assertTrue(cho.check("observe", "0.R")["allowed"])
            self.one.click(every)  # which goes with the first of the four, and 0.R is the third
            self.one.wait(lambda: not self.one.find(any_of), "none of the four any more")
            self.assertFalse(cho.check("observe", "0.R")["allowed"])

    def test_a_policy_is_saved_and_read_with_a_preview(self):
        self.come_in(self.one, "root", "root")
        self.one.click("[data-view=policy]")
        self.one.wait_text(".facts", "all of it")
        folder = self.allow_files(self.one)
        self.one.click("#policy-save")
        text = self.saved(folder, "policy.toml")
        commands = [wish.command for wish in read_policy(text)]
        self.assertIn({"cmd": "grant", "role": "stepper", "op": "step", "object": "0"}, commands)
        fill = "const [text] = arguments, area = document.getElementById('policy-text');"
        fill += "area.value = text; area.dispatchEvent(new Event('input'))"
        self.one.run(fill, text)
        self.one.click("#policy-preview")
        self.one.wait_text("#policy-done", "0 changes")
        self.one.run(fill, text.replace('"observe 0.O"', '"observe 0.B"') + "\n[oops]\n")
        self.one.click("#policy-preview")
        self.one.wait_text("[aria-label='Policy file'] .refusal", "there is no table oops")
        changed = text.replace(
            'watcher = ["observe 0.A", "observe 0.O"]', 'watcher = ["observe 0.A", "observe 0.B"]'
        )
        self.assertNotEqual(changed, text)
        self.one.run(fill, changed)
        self.one.click("#policy-prune")
        self.one.wait_text("#policy-changes", "grant watcher observe 0.B")
        self.one.wait_text("#policy-changes", "revoke watcher observe 0.O")
        self.one.click("#policy-apply")
        self.one.wait_text("#policy-done", "2 of 2 changes done")
        changed = changed.replace('"observe 0.B"', '"observe 0.*"')
        self.one.run(fill, changed)
        self.one.click("#policy-preview")
        self.one.wait_text("#policy-changes summary", "grant watcher observe 0.* (2)")
        self.one.wait_text("#policy-done", "2 changes")
        with self.team.root() as root:
            root.grant("watcher", "observe", "0.O")
            root.revoke("watcher", "observe", "0.B")
            root.logout()


if __name__ == "__main__":
    unittest.main()
