"""The page in a real browser: load, drive, step, watch, be denied, and go on after kills."""
import os
import pathlib
import signal
import time
import unittest

import browsers
import teams
import visitors
from language import LACKS, reads_expressions
from page_case import TOLD, PageCase

SIGNALS, INSTANTS = 64, 10_000
FRAME = 1000 / 30  # milliseconds: a frame that is drawn in less looks smooth


def wide_module():
    """The text of a module of 32 inputs and 32 outputs, of which two do something; the names."""
    inputs = [f"I{number}" for number in range(SIGNALS // 2)]
    outputs = [f"O{number}" for number in range(SIGNALS // 2)]
    declared = f"input {', '.join(inputs)}; output {', '.join(outputs)};"
    body = "every immediate I0 do emit O0 end || every immediate I1 do emit O1 end"
    return f"module WIDE: {declared} {body} end module", inputs + outputs


class PageTest(PageCase):
    # What one can do.

    def test_another_click_takes_an_offer_back_for_who_may_step(self):
        def change(cmd):
            with self.team.root() as root:
                for name in "AB":
                    getattr(root, cmd)("stepper", "offer", f"0.{name}")

        change("grant")
        self.addCleanup(change, "revoke")
        self.drive_and_step()
        for name in "AB":
            self.one.click(f"[data-signal={name}]")
            self.two.wait_text("#pending", f"Pending: {'A B'[: 3 if name == 'B' else 1]}")
        self.two.click("[data-signal=A]")
        self.one.wait_text("#pending", "Pending: B")
        self.one.click("[data-signal=B]")
        self.one.wait_text("[data-signal=B] ~ .refusal", "AlreadyOffered")

    def test_drive_step_and_watch(self):
        self.drive_and_step()
        self.one.click("[data-signal=B]")
        self.one.wait_text("#pending", "Pending: B")
        pressed = self.one.find("[data-signal=B]").get_attribute("aria-pressed")
        self.assertEqual(pressed, "true")
        self.two.click("#step")
        self.one.wait_text("#facts", "1 instant ")
        self.one.wait_text("#pending", "Nothing pending")
        self.one.press("1")
        self.one.wait_text("#pending", "Pending: A")
        self.two.press(" ")
        self.one.wait_text(TOLD, "instant 2: A; may not be observed: B, R")
        self.two.wait_text(TOLD, "instant 2: you may observe nothing here")
        self.one.press("2")
        self.one.wait_text("#pending", "Pending: B")
        self.two.press(" ")
        self.one.wait_text(TOLD, "instant 3: O;")
        self.one.wait_text(".wave-table", "A, inputabsentpresentabsent")
        self.one.wait_text(".wave-table", "O, outputabsentabsentpresent")
        self.one.wait_text(".wave-table", "B, input. (may not be observed)")

    def test_the_wave_is_drawn_and_can_be_gone_through(self):
        self.come_in(self.one, "ann", "lead")
        with self.team.client() as cho:
            cho.login("cho", ["stepper"])
            for _ in range(300):
                cho.step(0)
        self.one.wait_text(TOLD, "instant 300:")
        colours = self.one.run(
            "const c = document.querySelector('canvas'), pen = c.getContext('2d');"
            "const { data } = pen.getImageData(0, 0, c.width, c.height);"
            "const seen = new Set(new Uint32Array(data.buffer));"
            "return [c.width, c.height, seen.size]"
        )
        self.assertGreater(colours[0], 300)
        self.assertGreater(colours[2], 4, "the canvas has more than its ground")
        self.one.type(".wave .instant", "17\n")
        self.one.wait_text(TOLD, "instant 17:")
        self.assertEqual(self.one.find(".wave .newest").get_attribute("aria-pressed"), "false")
        with self.team.client() as cho:
            cho.login("cho", ["stepper"])
            cho.step(0)
        self.one.wait_text("#facts", "301 instants")
        self.one.wait_text(TOLD, "instant 17:")
        self.one.type(".wave .instant", "0\n")
        self.one.wait_text(
            ".wave .refusal", "NoInstant: since the load there were the instants 1 to"
        )
        self.one.click(".wave .newest")
        self.one.wait_text(TOLD, "instant 301:")
        self.one.click(".wave .signals summary")
        self.one.click(".wave .picks input[value=B]")
        self.one.wait(lambda: "B, input" not in self.one.text(".wave-table"), "the table without B")

    def test_an_inout_is_driven_and_shown(self):
        if not reads_expressions(teams.program_file()):
            self.skipTest(LACKS)
        self.come_in(self.one, "ann", "lead")
        text = "module M: inputoutput A; output O; input B; present A then emit O end end module"
        with self.team.root() as root, self.team.client() as cho:
            root.unload(0)
            root.load(0, "M", text)
            self.one.wait_text("h1", "Slot 0 · M")
            cho.login("cho", ["stepper"])
            self.one.press("1")
            self.one.wait_text("#pending", "Pending: A")
            cho.step(0)
            root.logout()
        self.one.wait_text(TOLD, "instant 1: A O; may not be observed: B")
        self.one.wait_text(".wave-table", "A, inoutpresent")
        self.assertIsNotNone(self.one.find("[data-signal=B]"))
        self.assertIsNone(self.one.find("[data-signal=O]"))

    def test_load_with_a_fault_and_without(self):
        self.come_in(self.one, "root", "root")
        self.one.click("#unload")
        self.one.click("#unload-surely")
        self.one.type("#load-text", "module T:\ninput A;\noutput Ö;\nemit O\nend module")
        self.one.click("#load")
        self.one.wait_text(".bubble", "Lexical: no token stands here — names have the letters")
        before = self.one.run(
            "const line = document.querySelector('.bubble').parentNode;"
            "return [[...line.childNodes].slice(0, -2).map((one) => one.textContent).join(''),"
            " line.querySelector('.bad').style.getPropertyValue('--at'),"
            " document.getElementById('load-text').selectionStart]"
        )
        self.assertEqual(before, ["output Ö;", "7", len("module T:\ninput A;\noutput ")])
        self.assertIsNone(self.one.find(".text .refusal:not(:empty)"), "the fault is said once")
        area = self.one.find("#load-text")
        area.clear()
        area.send_keys("module T:\noutput O;\nemit P\nend module")
        self.one.click("#load")
        self.one.wait_text(".bubble", "UnknownName: the name P is not visible there")
        self.one.wait_text(".bubble", "T sees no signal P here")
        area.send_keys("\ue014 ")  # the right arrow, and a blank
        self.one.wait(lambda: not self.one.find(".bubble"), "no fault while one types")
        self.one.wait_text(".bubble", "UnknownName")
        area.clear()
        markup = "% <img src=x onerror=alert(1)>"
        area.send_keys(f"{markup}\nmodule T:\noutput O;\nemit O\nend module")
        self.one.click("#load")
        self.one.wait_text("h1", "Slot 0 · T")
        self.one.wait_text(".source li", markup)
        self.assertIsNone(self.one.find("img"))

    # What one may not do.

    def test_what_is_not_allowed_is_off_and_says_why(self):
        self.drive_and_step()
        self.assertFalse(self.one.find("#step").is_enabled())
        self.assertIn("(needs step on 0)", self.one.text("#step-missing"))
        self.assertFalse(self.two.find("[data-signal=A]").is_enabled())
        none = "You may not offer any input (needs offer on 0.A, 0.B, 0.R)."
        self.assertEqual(self.two.text("#offer-missing"), none)
        self.assertEqual(self.two.text("#pending"), "You may not see what is pending.")
        self.one.press(" ")
        with self.team.root() as root:
            root.revoke("driver", "offer", "0.B")
            self.one.wait_text("#offer-missing", "You may not offer B (needs offer on 0.B).")
            self.assertFalse(self.one.find("[data-signal=B]").is_enabled())
            root.grant("driver", "offer", "0.B")
            root.logout()
        self.one.wait(lambda: self.one.find("[data-signal=B]").is_enabled(), "the toggle, on again")
        self.one.wait_text("#facts", "0 instants")

    def test_a_refusal_stands_at_its_control(self):
        self.drive_and_step()
        self.one.click("[data-signal=A]")
        self.one.wait_text("#pending", "Pending: A")
        self.one.click("[data-signal=R]")
        place = "[data-signal=R] ~ .refusal"
        self.one.wait_text(place, "Excluded: relation 1 (A # R) excludes R, since A is pending")
        self.one.click("[data-signal=A]")
        self.one.wait_text("[data-signal=A] ~ .refusal", "AlreadyOffered: it is pending already")
        self.two.press("\ue003")  # backspace
        self.one.wait_text("#pending", "Nothing pending")
        self.one.wait(lambda: not self.one.text(place), "no refusal any more")

    def test_a_session_that_is_ended_says_so(self):
        self.come_in(self.two, "bob", "watcher")
        with self.team.root() as root:
            root.deassign("bob", "watcher")
            self.two.wait_text(
                ".entry .refusal", "NoSession: there is no login, or its session has ended"
            )
            root.assign("bob", "watcher")
            root.logout()

    # Policy and record.

    def test_policy_and_record(self):
        self.come_in(self.one, "root", "root")
        self.one.click("[data-view=policy]")
        self.one.wait_text(".facts", "all of it")
        label = self.one.find("svg.roles").get_attribute("aria-label")
        self.assertIn("lead above driver, lead above watcher", label)
        self.shoot(self.one, "policy")
        self.choose("#why-user", "ann")
        self.one.type("#why-signal", "A")
        self.one.click("#why")
        self.one.wait_text("#why-answer", "ann has lead")
        self.one.type("[aria-label='Change the policy'] [name=user]", "dan")
        self.one.click("#change")
        self.one.wait_text("[aria-label=Users]", "dan")
        self.one.click("#change")
        place = "[aria-label='Change the policy'] .refusal"
        self.one.wait_text(place, "UserExists: the user dan is there already")
        self.one.type("[aria-label='Change the policy'] [name=user]", "k")
        self.assertEqual(self.one.text(place), "")
        with self.team.root() as root:
            root.deluser("dan")
            root.logout()
        self.one.wait(
            lambda: "dan" not in self.one.text("[aria-label=Users]"), "the users without dan"
        )
        self.one.click("[data-view=record]")
        self.one.wait_text("[aria-label=Log]", "deluser dan")
        self.one.wait_text("[aria-label='Who is logged in']", "root")

    # What goes wrong.

    def test_it_goes_on_after_kills(self):
        self.drive_and_step()
        self.two.press(" ")
        self.one.wait_text("#facts", "1 instant ")
        os.kill(self.team.server(), signal.SIGKILL)
        self.one.click("[data-signal=A]")
        self.one.wait_text("#pending", "Pending: A")
        self.two.wait_text("#state", "live")
        self.two.click("#step")
        self.one.wait_text("#facts", "2 instants")
        port = visitors.address_of(self.team).partition(":")[2]
        self.team.end(signal.SIGKILL)
        self.one.wait_text("#state", "no answer yet")
        self.one.click("[data-signal=B]")
        self.one.wait_text("#waiting", "offer 0.B waits until the gateway answers")
        self.one.press("3")
        self.one.wait_text("#waiting", "offer 0.R")
        self.one.click("#waiting p:nth-child(2) button")
        self.one.wait_text("[data-signal=R] ~ .refusal", "taken back: it was not sent")
        self.team._words = ["--http", f"127.0.0.1:{port}"]
        self.team.start()
        self.one.wait_text("#pending", "Pending: B")
        self.assertEqual(self.one.text("#waiting"), "")
        self.two.wait_text("#state", "live")
        self.two.press(" ")
        self.one.wait_text("#facts", "3 instants")
        self.assertNotIn("R", self.one.text("#pending"), "what was taken back is not done")
        offers = [
            entry
            for entry in self.team.entries()
            if entry.command == "offer" and entry.version > 30
        ]
        self.assertEqual(len({entry.request_id for entry in offers}), len(offers))

    # How it looks.

    def test_it_fits_small_screens_dark_and_light(self):
        self.drive_and_step()
        for letter in "B1 A B".split():
            self.one.press({"B1": "2", "A": "1", "B": "2"}[letter])
            self.one.wait_text("#pending", "Pending: " + letter[0])
            self.two.press(" ")
            self.one.wait_text("#pending", "Nothing pending")
        self.one.press("1")
        self.two.wait(lambda: "3 instants" in self.two.text("#facts"))
        for width in (380, 800, 1200, 1920):
            for dark in (False, True):
                self.one.use_device(width, 900, dark)
                sizes = self.one.run("return [document.documentElement.scrollWidth, innerWidth]")
                self.assertLessEqual(sizes[0], sizes[1], f"nothing sticks out at {width}")
                self.shoot(self.one, f"slot-{width}-{'dark' if dark else 'light'}")
                ground = self.one.run("return getComputedStyle(document.body).backgroundColor")
                self.assertEqual(sum(map(int, ground[4:-1].split(","))) < 200, dark)

    def test_every_control_has_a_name(self):
        self.come_in(self.one, "root", "root")
        script = pathlib.Path(__file__).with_name("nameless.js").read_text()
        for view in ("slots", "policy", "record"):
            self.one.click(f"[data-view={view}]")
            self.one.wait_text(
                "h1", {"slots": "Slot", "policy": "Policy", "record": "Record"}[view]
            )
            time.sleep(0.3)
            self.assertEqual(self.one.run(script), [], view)


@unittest.skipUnless(visitors.HAS_AIOHTTP, visitors.NO_AIOHTTP)
@unittest.skipUnless(browsers.HAS_BROWSER, browsers.NO_BROWSER)
class LargeWaveTest(unittest.TestCase):
    """A wave as large as it gets, at a gateway of its own."""

    def setUp(self):
        self.team = visitors.Team("--http", "127.0.0.1:0")
        self.team.__enter__()
        self.addCleanup(self.team.__exit__)
        visitors.set_up(self.team)
        self.one = browsers.Page()
        self.addCleanup(self.one.close)

    def test_a_large_wave_scrolls_smoothly(self):
        text, names = wide_module()
        with self.team.root() as root:
            root.unload(0)
            for name in names:
                root.grant("watcher", "observe", f"0.{name}")
            root.load(0, "WIDE", text)
            for name in ("I0", "I1"):
                root.grant("driver", "offer", f"0.{name}")
            root.logout()
        with self.team.client() as ann, self.team.client() as cho:
            ann.login("ann", ["lead"])
            cho.login("cho", ["stepper"])
            for at in range(0, INSTANTS, 500):
                ann.offer(0, f"I{at // 500 % 2}")
                cho.ask_all([{"cmd": "step", "slot": 0}] * 500)
        self.one.come_in(visitors.address_of_link(self.team), "ann", "lead")
        self.one.wait_text("#facts", f"{INSTANTS} instants")
        self.one.wait_text(TOLD, f"instant {INSTANTS}: nothing present")
        script = pathlib.Path(__file__).with_name("scrolling.js").read_text()
        told = self.one.browser.execute_async_script(script)
        self.assertGreater(told["unlike"], 100, "the pictures differ")
        self.assertLess(told["median"], FRAME, told)
        self.one.type(".wave .instant", "5501\n")
        self.one.wait_text(TOLD, "instant 5501: I1 O1")
        print(f"a frame of a wave of {INSTANTS} instants of {SIGNALS} signals: {told}")


if __name__ == "__main__":
    unittest.main()
