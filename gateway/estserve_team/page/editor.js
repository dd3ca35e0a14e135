/** A text that is written, with numbers, colours, and its fault under its line. */

import { button, fill, make, say } from "./dom.js";
import { faultWords, furtherPlaces } from "./diagnosis.js";
import { colouredLines } from "./keywords.js";
import { colouredPieces, columnsOf, lettersBefore } from "./source_text.js";

const LEAST = 8; // lines that are shown

export class Editor {
  /** `changed()` is called when something was typed; `label` is the name of the text. */
  constructor(label, changed = () => {}) {
    this.changed = changed;
    this.diagnosis = null;
    this.area = make("textarea", {
      id: "load-text", wrap: "off", spellcheck: "false", autocapitalize: "off",
      "aria-label": label, "aria-describedby": "load-fault",
    });
    this.area.addEventListener("input", () => this.typed());
    this.behind = make("div", { class: "behind", "aria-hidden": "true" });
    this.paper = make("div", { class: "paper" }, this.behind, this.area);
    this.told = make("p", { class: "unseen", id: "load-fault", role: "status" });
    this.nowhere = make("p", { class: "refusal" });
    this.more = make("ul", { class: "more" });
    const desk = make("div", { class: "desk" }, this.paper);
    this.element = make(
      "div", { class: "editor" }, desk, this.told, this.nowhere, this.more
    );
    const measure = () => {
      desk.style.setProperty("--desk", `${desk.clientWidth}px`);
      desk.style.setProperty("--scrolled", `${desk.scrollLeft}px`);
    };
    new ResizeObserver(measure).observe(desk);
    desk.addEventListener("scroll", measure);
    this.draw();
  }

  get value() {
    return this.area.value;
  }

  set value(text) {
    this.area.value = text;
    this.typed();
  }

  typed() {
    this.diagnosis = null;
    this.draw();
    this.changed();
  }

  /** Shows what is wrong with the text; null where nothing is. */
  show(diagnosis) {
    this.diagnosis = diagnosis;
    this.draw();
  }

  draw() {
    const lines = this.value.split("\n");
    const marks = this.diagnosis?.marks ?? [];
    const pieces = colouredLines(this.value);
    fill(this.behind, ...lines.map((line, at) => this.lineOf(
      line, pieces[at] ?? [], marks.filter((mark) => Math.min(mark.line, lines.length) === at + 1)
    )));
    const wide = Math.max(...lines.map(columnsOf)) + 2;
    this.paper.style.setProperty("--lines", Math.max(LEAST, lines.length + 1));
    this.paper.style.setProperty("--columns", wide);
    this.tell();
  }

  /** One line with its marks. */
  lineOf(line, pieces, marks) {
    const shown = make("div", { class: "line" }, ...colouredPieces(pieces));
    for (const mark of marks) {
      const before = lettersBefore(line, mark.column);
      const under = lettersBefore(line.slice(before), (mark.width || 1) + 1) || 1;
      const place = columnsOf(line.slice(0, before));
      const bad = make("span", { class: "bad" });
      bad.style.setProperty("--at", place);
      bad.style.setProperty("--wide", under);
      shown.append(bad);
    }
    if (marks.length && marks[0] === this.diagnosis.marks[0]) shown.append(this.bubble(line, marks[0]));
    return shown;
  }

  /** What is said under the line of the fault. */
  bubble(line, mark) {
    const place = columnsOf(line.slice(0, lettersBefore(line, mark.column)));
    const bubble = make("span", { class: "bubble" }, faultWords(this.diagnosis));
    bubble.style.setProperty("--at", place);
    return bubble;
  }

  /** Says the fault to a screen reader; where it has no place, to all; and its further places. */
  tell() {
    const { diagnosis } = this;
    const words = diagnosis ? faultWords(diagnosis) : "";
    const isPlaced = Boolean(diagnosis?.marks.length);
    say(this.told, isPlaced ? words : "");
    say(this.nowhere, isPlaced ? "" : words);
    fill(this.more, ...(diagnosis ? furtherPlaces(diagnosis) : []).map((place) => make(
      "li", {}, button(`line ${place.line}`, () => this.select(place), { class: "small" }),
      ` ${place.told}`
    )));
  }

  /** Puts the caret where a place is. */
  select({ line, column }) {
    const lines = this.value.split("\n");
    const before = lines.slice(0, line - 1).reduce((sum, one) => sum + one.length + 1, 0);
    const at = before + lettersBefore(lines[line - 1] ?? "", column);
    this.area.focus({ preventScroll: true });
    this.area.setSelectionRange(at, at + 1);
    this.behind.children[line - 1]?.scrollIntoView({ block: "nearest" });
  }

  /** Puts the caret at the fault, if it has a place. */
  goToFault() {
    if (this.diagnosis?.marks.length) this.select(this.diagnosis.marks[0]);
  }
}
