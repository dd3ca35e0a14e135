"""The inside of instants on the page, in a real browser: lines that are marked as others step, old
instants, the circle of a stuck one, rows of local signals."""
import os
import pathlib
import unittest

from page_case import TOLD, PageCase
from test_insides import ACROSS, CIRCLE

HERE = pathlib.Path(__file__).resolve().parent
MOVES = "module M:\noutput O;\nloop\n  pause;\n  emit O;\n  pause\nend\nend module\n"
RUNS = (HERE.parents[1] / "tests" / "lab" / "motors.strl").read_text()
MARKED = (
    "return [...document.querySelectorAll('.source li')].flatMap("
    "(line, at) => line.classList.contains(arguments[0]) ? [at + 1] : [])"
)
FOLD = """
const [title, done] = arguments, canvas = document.querySelector(".wave canvas");
const { left, top } = canvas.getBoundingClientRect();
canvas.dispatchEvent(new MouseEvent("click", {
  bubbles: true, clientX: left + 10, clientY: top + 32 + 26 * title + 13,
}));
"""
LINES, TIMES, FRAME = 2_000, 20, 16.0  # lines of a text, and milliseconds in which it is marked
SPENT = ("ScriptDuration", "LayoutDuration", "RecalcStyleDuration")


def names_in(vcd):
    """The names of the scopes and wires of a VCD file, in their order."""
    lines = map(str.split, vcd.splitlines())
    return [words[-2] for words in lines if words[0] in ("$scope", "$var")]


@unittest.skipUnless(os.environ.get("ESTLAB"), "the variable ESTLAB names no program")
class InsideTest(PageCase):
    def run_instead(self, main, text, *signals):
        """Another module runs in the slot, of which root may do and see all; root is in the first
        browser."""
        rights = [("step", "0")]
        rights += [(op, f"0.{name}") for name in signals for op in ("offer", "observe")]
        with self.team.root() as root:
            root.unload(0)
            root.load(0, main, text)
            for right in rights:
                root.grant("root", *right)
            root.logout()
        self.addCleanup(self.take_back, rights)
        self.come_in(self.one, "root", "root")
        self.one.wait_text("h1", main)
        self.one.wait_text("#facts", "0 instants")

    def take_back(self, rights):
        with self.team.root() as root:
            for right in rights:
                root.revoke("root", *right)
            root.logout()

    def marked(self, kind):
        """The lines of the text that are marked so in the first browser."""
        return self.one.run(MARKED, kind)

    def wait_marked(self, ran, rests):
        """Waits until these lines are marked."""
        self.one.wait(lambda: self.marked("ran") == ran, f"the lines {ran}")
        self.assertEqual(self.marked("rests"), rests)

    def test_marks_move_as_another_person_steps_and_an_old_instant_is_picked(self):
        self.run_instead("M", MOVES)
        self.come_in(self.two, "cho", "stepper")
        self.two.wait_text("#facts", "0 instants")
        marks = (([3, 4], [4]), ([3, 4, 5, 6], [6]), ([3, 4, 6], [4]))
        for number, (ran, rests) in enumerate(marks, 1):
            self.two.press(" ")
            self.two.wait_text(".bar .count", f"next: instant {number + 1}")
            self.wait_marked(ran, rests)
        self.one.wait_text("#inside", "instant 3: ran 3-4, 6 · control rests at 4")
        self.one.type(".wave .instant", "2\n")
        self.wait_marked([3, 4, 5, 6], [6])
        self.one.wait_text("#inside", "instant 2: ran 3-6 · control rests at 6")
        self.two.press(" ")
        self.one.wait_text("#facts", "4 instants")
        self.assertEqual(self.marked("ran"), [3, 4, 5, 6], "one looks at instant 2 still")
        self.one.click(".wave .newest")
        self.one.wait_text("#inside", "instant 4: ")

    def test_a_stuck_instant_draws_its_circle_over_the_text(self):
        self.run_instead("ARBITER", ACROSS, "ASK")
        self.one.press("1")
        self.one.wait_text("#pending", "Pending: ASK")
        self.one.press(" ")
        self.one.wait_text("#inside", f"instant 1 is stuck: {CIRCLE}")
        self.assertEqual(self.marked("open"), [18, 27, 28, 37, 38])
        self.assertIn(17, self.marked("ran"))
        names = (
            "return [...document.querySelectorAll('.circle text')].map((one) => one.textContent)"
        )
        self.assertEqual(self.one.run(names), ["BUSY", "GRANT"])
        ways = "return document.querySelectorAll('.circle svg > path.' + arguments[0]).length"
        self.assertEqual([self.one.run(ways, kind) for kind in ("waits", "within")], [2, 2])
        self.check_places()
        self.shoot(self.one, "stuck")
        self.one.press("\ue003")  # the key Backspace: Discard
        self.one.wait_text("#pending", "Nothing pending.")
        self.one.wait(lambda: not self.one.find(".circle"), "a text without the circle")
        self.assertEqual(self.marked("open"), [])
        self.one.press(" ")
        self.one.wait_text("#inside", "instant 1: ran ")

    def check_places(self):
        """Curves go from the line of a test to the line of an emission."""
        ends = (
            "const source = document.querySelector('.source');"
            "const middle = (line) => {"
            "  const { offsetTop, offsetHeight } = source.children[line - 1];"
            "  return offsetTop + offsetHeight / 2;"
            "};"
            "return [...source.querySelectorAll('.circle .waits')].map((way) => {"
            "  const end = way.getTotalLength();"
            "  return [way.getPointAtLength(0).y, way.getPointAtLength(end).y];"
            "}).concat([[27, 38].map(middle), [37, 28].map(middle)])"
        )
        *found, first, second = self.one.run(ends)
        for told, wanted in zip(found, (first, second)):
            for one, other in zip(told, wanted):
                self.assertAlmostEqual(one, other, delta=1)

    def test_who_may_not_look_inside_sees_no_circle(self):
        self.run_instead("ARBITER", ACROSS, "ASK")
        self.one.press("1")
        self.one.wait_text("#pending", "Pending: ASK")
        self.come_in(self.two, "cho", "stepper")
        self.two.wait_text("h1", "ARBITER")
        self.two.press(" ")
        self.two.wait_text(".bar", "Stuck: the instant has no constructive reaction")
        self.assertEqual(self.two.text("#inside"), "")
        self.assertIsNone(self.two.find(".circle, .source .open"))

    def test_local_signals_are_rows_that_can_be_folded(self):
        self.run_instead("MAIN", RUNS, "A", "O")
        self.one.press(" ")
        self.one.wait_text("#facts", "1 instant ")
        self.one.press("1")
        self.one.wait_text("#pending", "Pending: A")
        self.one.press(" ")
        self.one.wait_text("#facts", "2 instants")
        rows = ("S, localabsentpresent", "MOTOR_1.OVER, localabsentpresent", "MOTOR_2.OVER, local")
        for row in rows:
            self.one.wait_text(".wave-table", row)
        self.one.wait_text(TOLD, "instant 2: A O S MOTOR_1.OVER MOTOR_2.OVER")
        self.shoot(self.one, "locals")
        self.one.run(FOLD, 4)  # under A, O, inside, S
        self.one.wait(lambda: rows[1] not in self.one.text(".wave-table"), "a group that is folded")
        self.assertIn(rows[2], self.one.text(".wave-table"))
        self.one.click(".wave .signals summary")
        self.one.click(".wave .locals")
        self.one.wait(lambda: rows[0] not in self.one.text(".wave-table"), "all folded")
        self.assertEqual(self.one.find(".wave .locals").get_attribute("aria-pressed"), "false")
        self.one.click(".wave .locals")
        self.one.wait_text(".wave-table", rows[1])
        self.come_in(self.two, "bob", "watcher")
        self.two.wait_text("#facts", "2 instants")
        self.assertIsNone(self.two.find(".wave .locals:not([hidden])"), "bob may not look inside")
        own, others = self.saved_vcd(self.one), self.saved_vcd(self.two)
        self.assertEqual(names_in(own), "MAIN tick A O S MOTOR_1 OVER MOTOR_2 OVER".split())
        self.assertIn('#20\n1!\n1"\n1#\n1$\n1%\n1&\n#25\n', own, "in instant 2 all are present")
        self.assertEqual(names_in(others), "MAIN tick A O".split())

    def saved_vcd(self, page):
        """The VCD file that a browser saves."""
        folder = self.allow_files(page)
        page.click(".wave .save summary")
        page.click("[data-save=VCD]")
        return self.saved(folder, "MAIN.vcd")

    def test_a_long_text_is_marked_within_a_frame(self):
        self.come_in(self.one, "root", "root")
        self.one.wait(lambda: self.one.find(".card.text"), "the text")
        spent = marking_spent(self.one)
        self.assertLess(spent, FRAME)


def marking_spent(page):
    """The milliseconds of processor time that the main thread of a page takes to mark a long text:
    script, styles and layout."""
    browser, script = page.browser, (HERE / "marking.js").read_text()
    browser.set_script_timeout(300)
    browser.execute_cdp_cmd("Performance.enable", {"timeDomain": "threadTicks"})

    def seconds():
        told = browser.execute_cdp_cmd("Performance.getMetrics", {})["metrics"]
        return sum(one["value"] for one in told if one["name"] in SPENT)

    browser.execute_async_script(script, "put", LINES, 0)
    before = seconds()
    marked = browser.execute_async_script(script, "mark", LINES, TIMES)
    spent = seconds() - before
    browser.execute_async_script(script, "take", LINES, 0)
    assert marked == LINES / 2, marked
    return spent * 1e3 / TIMES


if __name__ == "__main__":
    unittest.main()
