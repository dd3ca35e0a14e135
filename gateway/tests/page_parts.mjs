// The page's own rules, without a browser. Its modules lie in the folder that the first argument names.
import assert from "node:assert/strict";
import path from "node:path";
import { pathToFileURL } from "node:url";

const folder = path.resolve(process.argv[2]);
const load = (name) => import(pathToFileURL(path.join(folder, name)).href);
const slot = (more = {}) => ({
  slot: 0, load: 1, main: "T", instants: 4, pending: [],
  signals: [["A", "input"], ["B", "input"], ["M", "inout"], ["O", "output"]],
  may: { step: true, load: true, offer: { A: true, B: true, M: true }, observe: { O: true } },
  ...more,
});

const tests = {
  async "keywords and comments have their kinds"() {
    const { colouredLines } = await load("keywords.js");
    assert.deepEqual(colouredLines("emit Owhen; % end\n%{ a\nb }% tick"), [
      [["act", "emit"], ["", " "], ["", "Owhen"], ["", "; "], ["comment", "% end"]],
      [["comment", "%{ a"]], [["comment", "b }%"], ["", " "], ["logic", "tick"]],
    ]);
    assert.deepEqual(colouredLines(""), [[]]);
    assert.equal(colouredLines("%{ open\nto the end").length, 2);
  },

  async "what is present without a break is one plateau"() {
    const { plateausOf } = await load("edges.js");
    const of = (row) => plateausOf((instant) => "01.".indexOf(row[instant - 1]), 1, row.length);
    assert.deepEqual(of("0110111.1"), [[2, 3], [5, 7], [9, 9]]);
    assert.deepEqual(of("000"), []);
  },

  async "edges are found in both directions"() {
    const { findEdge } = await load("edges.js");
    const row = "0011100.";
    const find = (from, direction) => findEdge(
      (instant) => "01.".indexOf(row[instant - 1]), async () => {}, from, direction, row.length
    );
    assert.equal(await find(1, 1), 3);
    assert.equal(await find(3, 1), 6);
    assert.equal(await find(8, -1), 6);
    assert.equal(await find(6, 1), null, "from absent to hidden is no edge");
    assert.equal(await find(3, -1), null);
  },

  async "two waves part where a signal that both have differs first"() {
    const { drivenOf, partingOf, partingWords } = await load("parting.js");
    const signals = [["A", "input"], ["M", "inout"], ["O", "output"]];
    const one = { signals, rows: ["100", "001", ".10"] };
    const other = { signals: [["O", "output"], ["A", "input"]], rows: ["01", "00", "00"] };
    assert.deepEqual(partingOf(one, other), { instant: 2, signals: [{ name: "O", was: true }] });
    assert.equal(
      partingWords(one, other), "They part at instant 2: O was present, and is absent."
    );
    assert.equal(partingOf(one, one), null);
    assert.equal(partingWords(one, one), "All 3 instants are alike.");
    assert.deepEqual(drivenOf(one), { inputs: [["A"], [], ["M"]], hidden: ["A"] });
  },

  async "a stuck instant has its sentence, and of a replayed one its circle"() {
    const { faultWords, furtherPlaces, plainDiagnosis } = await load("diagnosis.js");
    const { endedWords } = await load("parting.js");
    const sentence = "Stuck: the instant has no constructive reaction; undecided: O P";
    const plain = plainDiagnosis({ code: 50, fault: "Stuck", undecided: ["O", "P"] }, sentence);
    assert.deepEqual([plain.marks, plain.path, plain.is_chain], [[], [], false]);
    assert.equal(faultWords(plain), sentence);
    assert.deepEqual(furtherPlaces(plain), []);
    const [circle, place] = ["O waits for itself: ..", "  text:6:7: emit O, once O is absent"];
    const told = `Your version was refused at instant 2: ${sentence}`;
    assert.equal(endedWords({ ended: sentence, rows: ["00"] }), told);
    const ended = [sentence, circle, place].join("\n");
    assert.equal(endedWords({ ended, rows: ["00"] }), `${told}. ${circle}`, "places are left out");
    assert.equal(endedWords({ ended: null, rows: ["00"] }), "");
  },

  async "the circle of a stuck instant goes from tests to emissions, and back within"() {
    const { curvesOf, wayOf } = await load("circle.js");
    const told = (circle) => curvesOf(circle).map(({ from, to, name }) => `${from} ${to} ${name}`);
    assert.deepEqual(told([
      { signal: "GRANT", emission: 28, test: 27, target: "BUSY", to: 38 },
      { signal: "BUSY", emission: 38, test: 37, target: "GRANT", to: 28 },
    ]), ["28 27 ", "27 38 BUSY", "38 37 ", "37 28 GRANT"]);
    const itself = { signal: "O", emission: 2, test: 2, target: "O", to: 2 };
    assert.deepEqual(told([itself]), ["2 2 O"], "on one line, what waits for itself");
    assert.deepEqual(told([itself, itself]), ["2 2 O"]);
    assert.deepEqual(told([]), []);
    assert.equal(wayOf(30, 90, 100, 140), "M 100 30 C 140 30 140 90 100 90");
    assert.equal(wayOf(30, 30, 100, 140), "M 100 25 C 140 25 140 35 100 35", "a loop has two ends");
  },

  async "a line keeps its marks while they are the same, and loses them after"() {
    const { markLines } = await load("source_text.js");
    let changes = 0;
    const lineOf = () => {
      const names = new Set();
      const change = (act) => (name) => { changes += 1; names[act](name); };
      return { names, classList: { add: change("add"), remove: change("delete") } };
    };
    const source = { children: Array.from({ length: 5 }, lineOf) };
    const told = () => source.children.map(({ names }) => [...names].sort().join(" "));
    markLines(source, { ran: [1, 2], rests: [2], open: undefined });
    assert.deepEqual(told(), ["ran", "ran rests", "", "", ""]);
    markLines(source, { ran: [2, 3], rests: [2], open: [5, 9] });
    assert.deepEqual(told(), ["", "ran rests", "ran", "", "open"]);
    assert.equal(changes, 6, "lines that stay as they are are not touched");
    markLines(source, {});
    assert.deepEqual(told(), ["", "", "", "", ""]);
  },

  async "what happened inside an instant is told in words, and asked once at a time"() {
    const { InsideMarks, insideWords, mayLookInside, ranges } = await load("inside.js");
    assert.equal(ranges([4, 5, 6, 9]), "4-6, 9");
    const told = { instant: 2, load: 1, ran: [3, 4], rests: [4], locals: [["S", 1, 2], ["N.T", 0, 1]] };
    assert.equal(
      insideWords(told), "instant 2: ran 3-4 · control rests at 4 · present inside: S (1 of 2)"
    );
    const ended = { instant: 1, ran: [], rests: [], locals: [] };
    assert.equal(insideWords(ended), "instant 1: ran nothing · nothing is left to run");
    const stuck = { instant: 3, ran: [1], rests: [], locals: [], stuck: { told: "O waits for itself" } };
    assert.equal(insideWords(stuck), "instant 3 is stuck: O waits for itself");
    const [all, some] = [{ A: true, O: true }, { A: true, O: false }];
    assert.deepEqual(
      [{ load: true, observe: some }, { load: false, observe: all }, { load: false, observe: some },
        { load: false, observe: {} }].map(mayLookInside), [true, true, false, false]
    );
    const [asked, marked] = [[], []];
    const connection = {
      read: async (name, { instant }) => {
        asked.push(instant);
        return { ...told, instant };
      },
    };
    const marks = new InsideMarks(connection, 0, (found) => marked.push(found?.instant ?? null));
    const seen = { load: 1, may: { load: true, observe: some } };
    await Promise.all([1, 2, 3].map((instant) => marks.show(seen, instant)));
    assert.deepEqual([asked, marked], [[1, 3], [3]], "of several that are wanted the last is shown");
    await marks.show({ load: 2, may: seen.may }, 1);
    await marks.show({ load: 1, may: { load: false, observe: some } }, 1);
    assert.deepEqual([asked, marked], [[1, 3, 1], [3, null, null]], "of another load nothing is shown");
  },

  async "why nothing can be told is said, and not asked again for that load"() {
    const { InsideMarks, insideWords } = await load("inside.js");
    const { Refused } = await load("requests.js");
    let [asked, fault] = [0, "Failed"];
    const marked = [];
    const read = async () => {
      asked += 1;
      throw new Refused({ sentence: `${fault}: another kernel`, refusal: { fault } });
    };
    const marks = new InsideMarks({ read }, 0, (found) => marked.push(found && insideWords(found)));
    const may = { load: true, observe: {} };
    for (const instant of [1, 2]) await marks.show({ load: 1, may }, instant);
    const told = "what ran can't be told: Failed: another kernel";
    assert.deepEqual([asked, marked.splice(0)], [1, [told, told]]);
    fault = "NotAllowed";
    for (const instant of [1, 2]) await marks.show({ load: 2, may }, instant);
    assert.deepEqual([asked, marked], [2, [null, null]], "who may not know it is told nothing");
  },

  async "why the next instant is stuck is shown, if it is"() {
    const { InsideMarks } = await load("inside.js");
    const [asked, marked] = [[], []];
    let stuck = { told: "O waits for itself" };
    const read = async (name) => {
      asked.push(name);
      return { load: 1, instant: 5, ran: [], rests: [], locals: [], stuck };
    };
    const marks = new InsideMarks({ read }, 0, (found) => marked.push(found?.stuck?.told ?? null));
    const seen = { load: 1, may: { load: true, observe: {} } };
    await marks.showStuck(seen);
    await marks.show(seen, 4);
    stuck = null;
    await marks.showStuck(seen);
    await marks.showStuck({ load: 1, may: { load: false, observe: {} } });
    assert.deepEqual(asked, ["stuck", "inside", "stuck"]);
    assert.deepEqual(marked, ["O waits for itself", "O waits for itself", null, null]);
  },

  async "patterns are spread over the interface, and folded again"() {
    const { fold, spread } = await load("patterns.js");
    const slots = [slot(), slot({ slot: 3, main: "DOOR", signals: [["D_UP", "input"], ["D_O", "output"]] })];
    assert.deepEqual(spread("offer", "T.*", slots), ["0.A", "0.B", "0.M"]);
    assert.deepEqual(spread("observe", "DOOR.D_*", slots), ["3.D_UP", "3.D_O"]);
    assert.deepEqual(spread("observe", "3.*_O", slots), ["3.D_O"]);
    assert.deepEqual(spread("offer", "3.*_O", slots), [], "an output is not offered");
    assert.deepEqual(spread("observe", "7.*", slots), []);
    assert.deepEqual(spread("observe", "7.X", slots), ["7.X"]);
    assert.deepEqual(spread("step", "DOOR", slots), ["3"]);
    assert.deepEqual(spread("audit", "policy", slots), ["policy"]);
    const all = ["A", "B", "M", "O"].map((name) => ["observe", `0.${name}`]);
    const folded = fold([["step", "0"], ...all, ["offer", "0.A"]], slots);
    assert.deepEqual(folded.map(({ operation, object }) => `${operation} ${object}`),
      ["step 0", "observe 0.*", "offer 0.A"]);
    assert.deepEqual(folded[1].objects, ["0.A", "0.B", "0.M", "0.O"]);
    assert.equal(fold(all.slice(1), slots).length, 3, "a part of it stays as it is");
  },

  async "commands of one pattern are shown as one"() {
    const { folded } = await load("patterns.js");
    const grant = (role, object) => ({ cmd: "grant", role, op: "observe", object });
    const commands = [
      { cmd: "addrole", role: "r" }, grant("r", "0.A"), grant("r", "0.B"), grant("s", "0.A"),
      grant("s", "0.B"), grant("s", "3.A"), grant("s", "7.A"),
    ];
    const [all, one] = ["observe door.*", "observe 3.*"];
    const lines = folded(commands, ["", all, all, all, all, one, ""]);
    assert.deepEqual(lines.map(({ words }) => words), [
      "addrole r", "grant r observe door.*", "grant s observe door.*", "grant s observe 3.A",
      "grant s observe 7.A",
    ]);
    assert.deepEqual(lines.flatMap((line) => line.commands), commands);
  },

  async "a refusal goes when its cause does, and not before"() {
    const { isGone, watch } = await load("causes.js");
    const offer = { cmd: "offer", slot: 0, signal: "R" };
    const excluded = watch({ fault: "Excluded", signal: "A" }, offer, slot());
    assert.equal(isGone(excluded, slot()), false, "that A is pending is not yet known here");
    assert.equal(isGone(excluded, slot({ pending: ["A"] })), false);
    assert.equal(isGone(excluded, slot({ pending: ["A", "B"] })), false);
    assert.equal(isGone(excluded, slot({ pending: ["B"] })), true);
    const denied = watch({ fault: "Permission", op: "step", object: "0" }, { cmd: "step" }, slot());
    const without = { ...slot().may, step: false };
    assert.equal(isGone(denied, slot({ may: without, pending: ["B"] })), false);
    assert.equal(isGone(denied, slot()), true);
    const implied = watch({ fault: "Implied", missing: ["B"] }, { cmd: "step" }, slot());
    assert.equal(isGone(implied, slot({ pending: ["B"] })), true);
    assert.equal(isGone(watch({ fault: "Stuck" }, { cmd: "step" }, slot()), slot({ instants: 5 })), true);
  },

  async "what one may not do or see is told once"() {
    const { instantWords, offerWords, pendingWords, spanWords, stepWords } = await load("missing.js");
    assert.equal(offerWords(slot()), "");
    const none = { step: false, offer: {}, observe: {} };
    const told = "You may not offer any input (needs offer on 0.A, 0.B, 0.M).";
    assert.equal(offerWords(slot({ may: none })), told);
    const some = { ...none, offer: { A: true, M: true } };
    assert.equal(offerWords(slot({ may: some })), "You may not offer B (needs offer on 0.B).");
    assert.equal(stepWords(slot({ may: none })), "You may not step or discard (needs step on 0).");
    assert.equal(pendingWords(slot()), "Nothing pending.");
    assert.equal(pendingWords(slot({ pending: ["A", "B"] })), "Pending: A B");
    assert.equal(pendingWords(slot({ may: none })), "You may not see what is pending.");
    assert.equal(
      pendingWords(slot({ may: some, pending: ["A"] })),
      "Pending: A. You may not see whether B is pending."
    );
    assert.equal(instantWords(7, [], ["A", "B"], 2), "instant 7: you may observe nothing here");
    assert.equal(instantWords(7, ["A"], [], 2), "instant 7: A");
    const names = Array.from({ length: 23 }, (_, at) => `S${at}`);
    assert.equal(instantWords(7, [], names, 24),
      "instant 7: nothing present; may not be observed: S0, S1, S2 and 20 more");
    assert.equal(spanWords([2, 3, 4, 7]), "2 to 4, 7");
  },

  async "a command that waits can be taken back"() {
    const { Outbox, TakenBack, commandWords } = await load("outbox.js");
    const seen = [];
    const outbox = new Outbox((items) => seen.push(items.length));
    const [item, other] = [outbox.add({ cmd: "step", slot: 0 }), outbox.add({ cmd: "step", slot: 1 })];
    outbox.wait(item);
    outbox.takeBack(item);
    await assert.rejects(item.back, (fault) => (
      fault instanceof TakenBack && fault.message === "taken back: it was not sent"
    ));
    other.wasSent = true;
    outbox.wait(other);
    outbox.clear();
    await assert.rejects(other.back, /may have been carried out/);
    assert.deepEqual(seen, [1, 0, 1, 0]);
    assert.equal(commandWords({ cmd: "offer", slot: 0, signal: "A" }), "offer 0.A");
    assert.equal(
      commandWords({ cmd: "dsd", name: "n", count: 2, roles: ["a", "b"] }), "dsd n 2 a b"
    );
  },

  async "signals are ordered, picked and grouped"() {
    const { WaveLayout, stemOf } = await load("wave_layout.js");
    const names = ["DOOR_UP", "KEY1", "DOOR_DOWN", "KEY2", "STOP"];
    const layout = new WaveLayout();
    layout.reset(names.map((name, place) => ({ name, kind: place ? "input" : "output", place })));
    const told = () => layout.lines().map((line) => line.name ?? `${line.title}:${line.count}`);
    assert.deepEqual(told(), names);
    layout.move("STOP", -4);
    layout.move("DOOR_UP", -1);
    assert.deepEqual(told(), ["STOP", "KEY1", "DOOR_DOWN", "DOOR_UP", "KEY2"]);
    layout.grouping = "name";
    assert.deepEqual(told(), ["others:1", "STOP", "KEY:2", "KEY1", "KEY2", "DOOR:2", "DOOR_DOWN", "DOOR_UP"]);
    layout.fold("KEY");
    layout.picked = new Set(["STOP", "KEY1", "KEY2"]);
    assert.deepEqual(told(), ["others:1", "STOP", "KEY:2"]);
    assert.deepEqual(layout.signals().map(({ name }) => name), ["STOP"]);
    layout.grouping = "kind";
    assert.deepEqual(told(), ["inputs:3", "STOP", "KEY1", "KEY2"]);
    assert.deepEqual(["A", "A_B", "FLOOR12", "LIFT_DOOR_3"].map(stemOf), [null, "A", "FLOOR", "LIFT_DOOR"]);
  },

  async "local signals stand below, by their modules, and are folded"() {
    const { WaveLayout } = await load("wave_layout.js");
    const layout = new WaveLayout();
    layout.reset([{ name: "A", kind: "input", place: 0 }]);
    assert.equal(layout.showsLocals(), false);
    layout.setLocals([["S", ""], ["M_1.OVER", "M_1"], ["M_2.OVER", "M_2"], ["M_1.ON", "M_1"]]);
    const told = () => layout.lines().map((line) => line.label ?? line.name ?? `${line.title}:${line.count}`);
    assert.deepEqual(
      told(), ["A", "inside:1", "S", "inside M_1:2", "OVER", "ON", "inside M_2:1", "OVER"]
    );
    assert.deepEqual(layout.signals().map(({ place }) => place), [0, 0, 1, 3, 2]);
    layout.fold("inside M_1");
    assert.deepEqual(told(), ["A", "inside:1", "S", "inside M_1:2", "inside M_2:1", "OVER"]);
    assert.equal(layout.showsLocals(), true);
    layout.foldLocals(true);
    assert.deepEqual(told(), ["A", "inside:1", "inside M_1:2", "inside M_2:1"]);
    assert.equal(layout.showsLocals(), false);
    layout.foldLocals(false);
    assert.equal(layout.signals().length, 5);
    layout.reset([]);
    layout.setLocals(Array.from({ length: 13 }, (_, at) => [`S${at}`, ""]));
    assert.deepEqual(told(), ["inside:13"], "many are folded at first");
    layout.foldLocals(false);
    layout.setLocals(Array.from({ length: 14 }, (_, at) => [`S${at}`, ""]));
    assert.equal(layout.signals().length, 14, "what was unfolded stays so");
  },

  async "a wave that is saved has the local signals that one may know, all of one load"() {
    const { takeWave } = await load("saving.js");
    const { vcdText } = await load("exports.js");
    const { WaveLayout } = await load("wave_layout.js");
    const { WaveRows } = await load("wave_rows.js");
    const rowsOf = (letters, view) => async (first, last) => {
      view?.onAsked?.();
      return Array.from({ length: last - first + 1 }, (_, at) => letters[(first + at) % 2]);
    };
    const viewOf = (locals) => {
      const view = { module: "M", all: [{ name: "A", kind: "input", place: 0 }], ended: null };
      view.layout = new WaveLayout();
      view.layout.setLocals(locals);
      view.rows = new WaveRows(rowsOf(["0", "1"]), () => {});
      view.inner = new WaveRows(rowsOf(["01", "10"], view), () => {});
      [[view.rows, 1], [view.inner, locals.length]].forEach(([rows, count]) => {
        rows.reset(count);
        rows.grow(300);
      });
      return view;
    };
    const locals = [["S", ""], ["N_1.T", "N_1"]];
    const wave = await takeWave(viewOf(locals), true);
    assert.deepEqual(wave.locals, locals);
    assert.deepEqual([wave.rows.length, wave.inner.length, wave.inner[299]], [300, 300, "01"]);
    const [head] = vcdText(wave).split("$enddefinitions");
    assert.deepEqual(head.split("\n").slice(2, -1), [
      "$scope module M $end", "$var wire 1 ! tick $end", '$var wire 1 " A $end',
      "$var wire 1 # S $end", "$scope module N_1 $end", "$var wire 1 $ T $end",
      "$upscope $end", "$upscope $end",
    ]);
    const plain = vcdText(await takeWave(viewOf(locals), false));
    assert.equal(plain, vcdText(await takeWave(viewOf([]), true)));
    assert.equal(plain, vcdText({ ...wave, inner: [] }), "of which nothing came, nothing is there");
    assert.doesNotMatch(plain, / [ST] \$end|N_1/);
    const revoked = viewOf(locals);
    revoked.onAsked = () => {
      revoked.layout.setLocals([]);
      revoked.inner.reset(0);
    };
    assert.equal(vcdText(await takeWave(revoked, true)), plain, "what was taken away is not saved");
    const granted = viewOf([]);
    granted.localsTold = Promise.resolve().then(() => {
      granted.layout.setLocals(locals);
      granted.inner.reset(2);
      granted.inner.grow(300);
    });
    assert.deepEqual(await takeWave(granted, true), wave, "what is being told is waited for");
  },

  async "marks have letters and distances"() {
    const { WaveMarks } = await load("wave_marks.js");
    const marks = new WaveMarks();
    marks.toggle(12);
    marks.toggle(3);
    assert.equal(marks.distanceWords(15), " · 3 after mark a");
    assert.equal(marks.distanceWords(3), " · mark b");
    marks.toggle(12);
    assert.deepEqual(marks.marks.map(({ instant, letter }) => [instant, letter]), [[3, "b"]]);
    marks.toggle(1);
    assert.equal(marks.marks[0].letter, "a");
  },

  async "a diagnosis is told with its remedies and further places"() {
    const { faultWords, furtherPlaces, plainDiagnosis } = await load("diagnosis.js");
    const mark = (line, told) => ({ line, column: 1, width: 2, told });
    const found = {
      told: "EmitInput: the input I is emitted", marks: [mark(4, "here"), mark(9, "there")],
      is_chain: false, path_told: "a path:", path: [mark(2, "loop"), mark(3, "end")],
      remedies: ["declare it as an output"],
    };
    assert.equal(faultWords(found), "EmitInput: the input I is emitted: here — declare it as an output");
    assert.deepEqual(
      furtherPlaces(found).map(({ line, told }) => `${line} ${told}`),
      ["9 or here: there", "2 a path: loop", "3 end"]
    );
    assert.deepEqual(plainDiagnosis({}, "x").marks, []);
    assert.equal(plainDiagnosis({ line: 3, column: 2 }, "x").marks[0].line, 3);
  },

  async "each input has a key, up to the sixty-second"() {
    const { keyOf } = await load("keyboard.js");
    const keys = Array.from({ length: 63 }, (_, place) => keyOf(place));
    assert.deepEqual(keys.slice(8, 12), ["9", "0", "q", "w"]);
    assert.equal(new Set(keys).size, 63);
    assert.equal(keys[62], null);
  },

  async "a fault's column counts bytes, and tabs take their columns"() {
    const { columnsOf, lettersBefore } = await load("source_text.js");
    assert.equal(lettersBefore("aÖb", 4), 2);
    assert.equal(lettersBefore("aÖb", 3), 1);
    assert.equal(columnsOf("\ta\tb"), 17);
  },
};

for (const [name, test] of Object.entries(tests)) {
  await test().catch((fault) => { throw new Error(name, { cause: fault }); });
}
console.log(`${Object.keys(tests).length} tests of the page's rules`);
