#!/usr/bin/env python3
"""What it costs to look inside instants.

usage: inside.py ESTLAB BENCHES PROGRAM [instant | gateway | page ..]

ESTLAB, BENCHES and PROGRAM are the built `crates/estlab/out/estlab`, `crates/benches/out/benches` and `crates/estserve/out/estserve`. Times are
processor times. All three parts are made if none is named; the last two take a Python that has aiohttp, and the last one a browser.

- `instant`: microseconds of an instant by ESTLAB, of a step by `PROGRAM script` with the same inputs, and of the engine alone (BENCHES). It
  fails where an instant takes more than 1.5 times as long as the step;
- `gateway`: ten slots, each stepped STEPS times, and each watched by a tab, which asks for each new instant. The same with tabs that are told
  what ran inside it too. It fails where the gateway (core, page, and the page's programs) then takes more than twice as long;
- `page`: milliseconds in which the page marks a text of 2,000 lines, half of which ran, an eighth of those others than before: script, styles
  and layout of a browser's main thread. It fails from 16 on.
"""
import itertools
import json
import os
import pathlib
import sys

HERE = pathlib.Path(__file__).resolve().parent
ROOT = HERE.parent
sys.dont_write_bytecode = True
import explore  # noqa: E402

INSTANTS = 3_000  # of a module, by a program
SLOTS, STEPS, TABS_WAIT = 10, 60, 60.0
LEAST, MOST, FRAME = 1.5, 2.0, 16.0
MODULES = ("abro", "mouse", "arbiter", "shared_bus")


def texts():
    """Modules, each with its name, its text, its main module and its inputs."""
    sys.path.insert(0, str(ROOT / "clients"))
    from estserve_client.module_text import main_of

    for name in MODULES:
        text = (ROOT / "examples" / name / f"{name}.strl").read_text()
        module = main_of(text, None)
        yield name, text, module.name, module.inputs()
    for name in ("counter12", "arbiter8"):
        text, inputs = explore.PROGRAMS[name]
        yield name, text, "M", inputs


def words(inputs, has_relations):
    """The inputs of the instants: one at a time, and none now and then; with relations none at all."""
    turns = itertools.cycle([[], *([name] for name in inputs if not has_relations)])
    return list(itertools.islice(turns, INSTANTS))


def lab_lines(text, main, word):
    """The lines that load a module and make instants."""
    lines = [{"cmd": "load", "main": main, "text": text}]
    lines += [{"cmd": "instant", "inputs": names} for names in word]
    return "".join(json.dumps(line) + "\n" for line in lines)


def step_lines(text, main, inputs, word):
    """The lines that let root do all, load a module, and offer and step."""
    lines = [{"cmd": "login", "user": "root", "roles": ["root"]}]
    rights = [("load", "0"), ("step", "0"), *(("offer", f"0.{name}") for name in inputs)]
    lines += [{"cmd": "grant", "op": op, "object": on, "role": "root"} for op, on in rights]
    lines.append({"cmd": "load", "slot": 0, "main": main, "text": text})
    for names in word:
        lines += [{"cmd": "offer", "slot": 0, "signal": name} for name in names]
        lines.append({"cmd": "step", "slot": 0})
    return "".join(json.dumps(line) + "\n" for line in lines)


def each(program, given, start):
    """The seconds of an instant, and the last line; `start` are the lines without instants."""
    seconds, run = explore.least(program, given)
    return (seconds - explore.least(program, start)[0]) / INSTANTS, run.lines[-1]


def tell_instants(lab, benches, program):
    """What an instant costs."""
    print("| Module | An instant, us | A step, us | Engine alone, us | Instant over step | Bytes of an answer |")
    print("|---|---|---|---|---|---|")
    worst = 0.0
    for name, text, main, inputs in texts():
        word = words(inputs, "relation" in text)
        instant, line = each([lab], lab_lines(text, main, word), lab_lines(text, main, []))
        if "went" not in line:
            sys.exit(f"inside.py: {line}")
        step, told = each([program, "script"], step_lines(text, main, inputs, word), step_lines(text, main, inputs, []))
        if "code" in told:
            sys.exit(f"inside.py: {told}")
        engine = explore.alone(benches, in_one_line(text, main), inputs)
        worst = max(worst, instant / step)
        print(f"| `{name}` | {instant * 1e6:.2f} | {step * 1e6:.2f} | {engine * 1e6:.2f} | {instant / step:.2f} | {len(line)} |", flush=True)
    if worst > LEAST:
        sys.exit(f"inside.py: an instant takes {worst:.2f} times as long as a step")


def in_one_line(text, main):
    """A text in one line, without its comments, its main module called M."""
    from estserve_client.syntax_tree import tokens_of

    return " ".join("M" if token.text == main else token.text for token in tokens_of(text))


# The gateway.


def watch(visitor, slot, is_explained, seen):
    """A tab that follows a slot: it asks for each new instant, and where that is so for what ran inside."""
    known = 0
    for name, value in visitor.events():
        told = [one for one in value if one["slot"] == slot] if name == "slots" else []
        for one in told:
            if one.get("instants", 0) <= known:
                continue
            first, known = known + 1, one["instants"]
            visitor.get("looks", slot=slot, **{"from": first, "to": known})
            if is_explained and visitor.get("inside", slot=slot, instant=known).told.get("instant") != known:
                seen[slot] = -1
                return
            seen[slot] = known


def spent_by(team, page):
    """The seconds of the gateway: of core and page, and of the programs of the page."""
    import teams
    from gateway import cpu_of

    return sum(map(cpu_of, [team.process.pid, page])), sum(map(cpu_of, teams.children_of(page)))


def tell_gateway(program):
    """What ten slots cost that are watched, and that are explained."""
    took = {}
    for is_explained in (False, True):
        own, labs = (seconds / SLOTS / STEPS for seconds in watched(is_explained))
        took[is_explained] = own + labs
        told = "explained" if is_explained else "watched"
        print(f"a step of ten {told} slots: {own * 1e6:.0f} us of core and page, {labs * 1e6:.0f} of ESTLAB", flush=True)
    ratio = took[True] / took[False]
    print(f"explaining takes {ratio:.2f} times as long")
    if ratio > MOST:
        sys.exit(f"inside.py: more than {MOST:g} times as long")


def watched(is_explained):
    """The gateway's seconds while ten slots are stepped, each watched by a tab."""
    import threading
    import time

    import teams
    import visitors
    from test_two_processes import page_of

    name, text, main, inputs = list(texts())[2]
    seen = dict.fromkeys(range(SLOTS), 0)
    with visitors.Team("--http", "127.0.0.1:0") as team:
        with team.root() as root:
            for slot in range(SLOTS):
                rights = [("load", f"{slot}"), ("step", f"{slot}")]
                rights += [(op, f"{slot}.{one}") for one in inputs for op in ("offer", "observe")]
                root.ask_all([{"cmd": "grant", "role": "root", "op": op, "object": on} for op, on in rights])
                root.load(slot, main, text)
            tabs = [visitors.visitor_of(team, "root", "root") for _ in range(SLOTS)]
            for slot, tab in enumerate(tabs):
                threading.Thread(target=watch, args=(tab, slot, is_explained, seen), daemon=True).start()
            page = page_of(team)
            for turn in range(STEPS + 1):
                for slot in range(SLOTS):
                    if inputs and turn % 2:
                        root.offer(slot, inputs[turn % len(inputs)])
                    root.step(slot)
                teams.wait_for(lambda: set(seen.values()) <= {turn + 1, -1}, TABS_WAIT)
                if -1 in seen.values():
                    sys.exit("inside.py: an instant was not explained")
                if not turn:  # all programs have been started, and the module is loaded in them
                    before = spent_by(team, page)
            time.sleep(0.2)
            spent = [after - since for after, since in zip(spent_by(team, page), before)]
            root.logout()
    return spent


# The page.


def tell_page():
    """How fast the page marks a long text."""
    import test_page_inside

    spent = []

    class Marked(test_page_inside.InsideTest):
        def runTest(self):
            self.come_in(self.one, "root", "root")
            self.one.wait(lambda: self.one.find(".card.text"), "the text")
            spent.append(test_page_inside.marking_spent(self.one))

    import unittest

    unittest.TextTestRunner(stream=sys.stderr, verbosity=0).run(unittest.TestSuite([Marked()]))
    if not spent:
        sys.exit("inside.py: the page was not opened")
    print(f"a text of {test_page_inside.LINES:,} lines is marked in {spent[0]:.1f} ms")
    if spent[0] >= FRAME:
        sys.exit(f"inside.py: {FRAME:g} ms or more")


def main(given):
    if len(given) < 3:
        sys.exit(__doc__.strip())
    lab, benches, program = (str(pathlib.Path(word).resolve()) for word in given[:3])
    os.environ["ESTLAB"], os.environ["ESTSERVE"] = lab, program
    parts = given[3:] or ["instant", "gateway", "page"]
    if "instant" in parts:
        tell_instants(lab, benches, program)
    sys.path[0] = str(ROOT / "gateway" / "tests")  # where this file stands, a file has the name of a module that is taken
    sys.path.append(str(HERE))
    if "gateway" in parts:
        tell_gateway(program)
    if "page" in parts:
        tell_page()


if __name__ == "__main__":
    main(sys.argv[1:])
