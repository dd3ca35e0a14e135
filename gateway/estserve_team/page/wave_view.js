/** A wave: a canvas that shows the part which is scrolled to, and what it says in words. */

import { make, say } from "./dom.js";
import { findEdge } from "./edges.js";
import { instantWords } from "./missing.js";
import { refusalPlace } from "./trying.js";
import { coloursOf, drawWave, ROW, RULER, shownInstants } from "./wave_canvas.js";
import { pointed, pressed } from "./wave_hands.js";
import { WaveLayout } from "./wave_layout.js";
import { WaveMarks } from "./wave_marks.js";
import { HIDDEN, PRESENT, UNKNOWN, WaveRows } from "./wave_rows.js";
import { WaveTable } from "./wave_table.js";
import { WaveTools } from "./wave_tools.js";

const CELLS = [2, 4, 8, 16, 28, 44]; // widths of an instant that one can choose
const TALLEST = 0.85; // of the window's height

export class WaveView {
  /** `ask(first, last)` promises the rows of instants; `title` is the wave's. */
  constructor(ask, title = "Wave") {
    this.rows = new WaveRows(ask, () => this.redraw());
    this.inner = new WaveRows(async () => [], () => this.redraw()); // of local signals
    this.layout = new WaveLayout();
    this.marks = new WaveMarks();
    this.all = [];
    this.instants = this.cursor = this.toldOf = 0;
    this.cell = 28;
    this.chosen = null; // the name of a signal
    this.follows = true;
    this.localsTold = null; // a promise, where local signals are asked for
    this.element = this.build(title);
    new ResizeObserver(() => this.sized()).observe(this.box);
    matchMedia("(prefers-color-scheme: dark)").addEventListener("change", () => this.recolour());
  }

  build(title) {
    this.canvas = make("canvas", { "aria-hidden": "true" });
    this.sizer = make("div", { class: "wave-sizer" }, this.canvas);
    this.box = make(
      "div", { class: "wave-box", tabindex: "0", role: "group", "aria-label": title }, this.sizer
    );
    this.box.addEventListener("scroll", () => this.scrolled(), { passive: true });
    this.box.addEventListener("keydown", (event) => pressed(this, event));
    this.canvas.addEventListener("click", (event) => pointed(this, event));
    this.readout = make("p", { class: "readout", role: "status", "aria-live": "polite" });
    this.table = new WaveTable(title);
    this.refused = refusalPlace();
    this.tools = new WaveTools(this, title);
    return make(
      "section", { class: "card wave", "aria-label": title },
      this.tools.element, this.refused, this.box, this.readout, this.tools.marks,
      this.table.element
    );
  }

  recolour() {
    this.colours = null;
    this.redraw();
  }

  // What is shown.

  /** Another load, or other permissions: nothing of before holds. Signals are pairs of a name and
   * its kind. */
  show(module, signals, instants) {
    this.module = module;
    this.all = signals.map(([name, kind], place) => ({ name, kind, place }));
    this.rows.reset(signals.length);
    this.layout.reset(this.all);
    this.marks.reset();
    this.instants = this.cursor = this.toldOf = 0;
    this.chosen = null;
    this.tools.refill();
    this.grow(instants);
  }

  /** What was known of the instants may not be so any more, as after a change of permissions. */
  forget() {
    this.rows.reset(this.all.length);
    this.rows.grow(this.instants);
    this.redraw();
  }

  /** Shows local signals too, pairs of a name and the modules around it: `ask(first, last)` promises
   * the rows of instants. */
  showLocals(signals, ask) {
    this.layout.setLocals(signals);
    this.inner.ask = ask;
    this.inner.reset(signals.length);
    this.inner.grow(this.instants);
    this.tools.refillLocals();
    this.relayout();
  }

  /** The status of a signal in an instant. */
  status({ kind, place }, instant) {
    return (kind === "local" ? this.inner : this.rows).status(instant, place);
  }

  /** Takes the number of instants. */
  grow(instants) {
    if (instants !== this.instants) say(this.refused, "");
    this.instants = instants;
    for (const rows of [this.rows, this.inner]) rows.grow(instants);
    this.resize();
    if (this.follows) this.toEnd();
    this.redraw();
  }

  /** Other signals are shown, or in another order. */
  relayout() {
    this.tools.showFolds();
    this.resize();
    this.redraw();
  }

  // Where one looks.

  names() {
    return this.box.clientWidth < 480 ? 84 : 132;
  }

  resize() {
    const tall = RULER + this.layout.lines().length * ROW + 2;
    this.sizer.style.width = `${this.names() + this.instants * this.cell + this.cell}px`;
    this.sizer.style.height = `${tall}px`;
    this.box.style.height = `${Math.max(90, Math.min(TALLEST * innerHeight, tall + 18))}px`;
  }

  /** The box has another size. What was followed is followed still. */
  sized() {
    this.wide = this.box.clientWidth;
    this.resize();
    if (this.follows) this.toEnd();
    this.redraw();
  }

  zoom(by) {
    const middle = this.middle();
    const at = CELLS.indexOf(this.cell) + by;
    this.cell = CELLS[Math.max(0, Math.min(CELLS.length - 1, at))];
    this.resize();
    if (this.follows) this.toEnd();
    else this.centre(middle);
    this.redraw();
  }

  middle() {
    return (this.box.scrollLeft + (this.box.clientWidth - this.names()) / 2) / this.cell + 0.5;
  }

  centre(instant) {
    this.box.scrollLeft = (instant - 0.5) * this.cell - (this.box.clientWidth - this.names()) / 2;
    this.expected = this.box.scrollLeft;
  }

  toEnd() {
    this.box.scrollLeft = this.sizer.offsetWidth;
    this.expected = this.box.scrollLeft;
  }

  followNewest() {
    this.cursor = 0;
    this.setFollowing(true);
    this.toEnd();
    this.redraw();
  }

  setFollowing(follows) {
    this.follows = follows;
    this.tools.showFollowing(follows);
  }

  /** Shows an instant, in the middle where there is room. */
  jump(instant) {
    say(this.refused, "");
    if (!Number.isInteger(instant) || instant < 1 || instant > this.instants) {
      say(this.refused, `NoInstant: since the load there were the instants 1 to ${this.instants}`);
      return;
    }
    this.setFollowing(false);
    this.cursor = instant;
    this.centre(instant);
    this.redraw();
  }

  scrolled() {
    if (this.box.clientWidth !== this.wide) {
      this.sized(); // a smaller window scrolls by itself
      return;
    }
    const end = this.box.scrollLeft + this.box.clientWidth >= this.sizer.offsetWidth - this.cell;
    if (this.box.scrollLeft !== this.expected) this.setFollowing(end);
    this.redraw();
  }

  // What is pointed at, and pressed.

  /** The instant that is told of. */
  here() {
    return this.cursor || this.instants;
  }

  /** Chooses the signal before or after the chosen one. */
  choose(by) {
    const names = this.layout.signals().map(({ name }) => name);
    const at = names.indexOf(this.chosen) + by;
    this.chosen = names[Math.max(0, Math.min(names.length - 1, at))] ?? null;
    this.tools.showChosen(this.chosen);
    this.redraw();
  }

  /** Goes to the edge of the chosen signal before or after the instant. */
  async toEdge(direction) {
    const all = [...this.all, ...this.layout.locals];
    const signal = all.find(({ name }) => name === this.chosen) ?? this.layout.signals()[0];
    if (!signal) return;
    this.chosen = signal.name;
    this.tools.showChosen(signal.name);
    const statusAt = (instant) => this.status(signal, instant);
    const known = (instant) => (signal.kind === "local" ? this.inner : this.rows).know(instant);
    const found = await findEdge(statusAt, known, this.here(), direction, this.instants);
    if (found !== null) this.jump(found);
    else say(this.refused, `${signal.name} has no edge ${direction < 0 ? "before" : "after"} that`);
  }

  mark(instant = this.here(), isParting = false) {
    if (!instant) return;
    this.marks.toggle(instant, isParting);
    this.tools.showMarks(this.marks.marks);
    this.redraw();
  }

  // Drawing, once a frame.

  redraw() {
    this.frame ??= requestAnimationFrame(() => {
      this.frame = null;
      this.drawNow();
    });
  }

  view() {
    const { scrollLeft: left, scrollTop: top, clientWidth: width, clientHeight: height } = this.box;
    const scale = devicePixelRatio || 1;
    const { cell, instants, cursor, chosen } = this;
    return {
      left, top, width, height, scale, cell, instants, cursor, chosen, names: this.names(),
      lines: this.layout.lines(), marks: this.marks.marks,
    };
  }

  drawNow() {
    if (!this.element.isConnected) return;
    const view = this.view();
    this.fitCanvas(view);
    this.colours ??= coloursOf(this.element);
    const [first, last] = shownInstants(view);
    const margin = last - first + 1;
    this.rows.want(first - margin, last + margin);
    if (this.layout.showsLocals()) this.inner.want(first - margin, last + margin);
    const statusOf = (signal, at) => this.status(signal, at);
    drawWave(this.canvas.getContext("2d"), view, statusOf, this.colours);
    say(this.readout, this.instants ? this.words(this.here()) : "no instant yet");
    if (this.here() !== this.toldOf) this.onHere?.(this.toldOf = this.here()); // where it is set
    this.table.showLater(this.layout.signals(), statusOf, last);
  }

  fitCanvas({ width, height, scale }) {
    const [wide, tall] = [Math.round(width * scale), Math.round(height * scale)];
    if (this.canvas.width !== wide || this.canvas.height !== tall) {
      Object.assign(this.canvas, { width: wide, height: tall });
      Object.assign(this.canvas.style, { width: `${width}px`, height: `${height}px` });
    }
  }

  /** What an instant had, in words. */
  words(instant) {
    const signals = this.layout.signals();
    const of = (status) => signals.filter(
      (signal) => this.status(signal, instant) === status
    ).map(({ name }) => name);
    if (this.all.length && this.rows.status(instant, 0) === UNKNOWN) return `instant ${instant}: ..`;
    const told = instantWords(instant, of(PRESENT), of(HIDDEN), signals.length);
    return told + this.marks.distanceWords(instant);
  }
}
