/** What stands over a wave: where one looks, what is shown, what is saved; and its marks under it. */

import { button, fill, make } from "./dom.js";
import { saveMenu } from "./saving.js";
import { GROUPINGS } from "./wave_layout.js";

export class WaveTools {
  constructor(wave, title) {
    this.wave = wave;
    this.picks = make("div", { class: "pop picks" });
    this.marks = make("p", { class: "marks" });
    this.edged = make("select", { "aria-label": "signal whose edges are gone through" });
    this.edged.addEventListener("change", () => {
      wave.chosen = this.edged.value;
      wave.redraw();
    });
    this.newest = button(
      "Newest", () => wave.followNewest(), { class: "newest", "aria-pressed": "true" }
    );
    this.locals = button("Locals", () => this.foldLocals(), {
      class: "locals", title: "show local signals, or fold them", hidden: true,
    });
    this.element = make(
      "div", { class: "tools" }, make("h2", {}, title),
      this.buildJump(), this.newest, this.buildEdges(), this.buildZoom(),
      button("Mark", () => wave.mark(), { class: "mark", title: "mark the instant (m)" }),
      make("details", { class: "menu signals" }, make("summary", {}, "Signals"), this.picks),
      saveMenu(wave)
    );
  }

  buildJump() {
    const number = make("input", {
      type: "number", min: "1", inputmode: "numeric", class: "instant",
      "aria-label": "instant to jump to", placeholder: "instant",
    });
    const jump = make(
      "form", { class: "joined", novalidate: true }, number,
      make("button", { type: "submit", class: "jump" }, "Jump")
    );
    jump.addEventListener("submit", (event) => {
      event.preventDefault();
      this.wave.jump(Number(number.value));
      number.select();
    });
    number.addEventListener("input", () => fill(this.wave.refused));
    return jump;
  }

  buildEdges() {
    const go = (direction) => () => this.wave.toEdge(direction);
    return make(
      "span", { class: "joined" },
      button("‹", go(-1), { class: "edge-before", "aria-label": "edge before" }), this.edged,
      button("›", go(1), { class: "edge-after", "aria-label": "edge after" })
    );
  }

  buildZoom() {
    const zoom = (by) => () => this.wave.zoom(by);
    return make(
      "span", { class: "joined" },
      button("−", zoom(-1), { "aria-label": "narrower instants" }),
      button("+", zoom(1), { "aria-label": "wider instants" })
    );
  }

  // What the wave tells.

  showFollowing(follows) {
    this.newest.setAttribute("aria-pressed", String(follows));
  }

  showChosen(name) {
    this.edged.value = name ?? "";
  }

  /** The marks, each a button that goes there. */
  showMarks(marks) {
    fill(this.marks, ...marks.map(({ instant, letter }) => button(
      `${letter}: ${instant}`, () => this.wave.jump(instant), { class: "small" }
    )));
  }

  /** Another interface: its signals, to be picked, ordered and grouped. */
  refill() {
    this.refillLocals();
    this.showMarks([]);
    this.fillPicks();
  }

  /** Other local signals. */
  refillLocals() {
    const { all, layout } = this.wave;
    fill(this.edged, ...[...all, ...layout.locals].map(({ name }) => make("option", {}, name)));
    if (this.wave.chosen !== null) this.showChosen(this.wave.chosen);
    this.showFolds();
  }

  /** Shows all local signals, or folds them where some are shown. */
  foldLocals() {
    this.wave.layout.foldLocals(this.wave.layout.showsLocals());
    this.showFolds();
    this.wave.relayout();
  }

  showFolds() {
    const { layout } = this.wave;
    this.locals.hidden = !layout.locals.length;
    this.locals.setAttribute("aria-pressed", String(layout.showsLocals()));
  }

  fillPicks() {
    const { layout } = this.wave;
    const grouping = make(
      "select", { "aria-label": "groups", class: "grouping" },
      ...Object.entries(GROUPINGS).map(([value, told]) => make("option", { value }, told))
    );
    grouping.value = layout.grouping;
    grouping.addEventListener("change", () => {
      layout.grouping = grouping.value;
      this.wave.relayout();
    });
    const all = (picked) => () => {
      layout.picked = picked;
      this.changed();
    };
    fill(
      this.picks,
      make(
        "p", { class: "joined" }, grouping, button("All", all(null)),
        button("None", all(new Set())), this.locals
      ),
      ...layout.order.map((signal) => this.buildPick(signal))
    );
  }

  buildPick({ name, kind }) {
    const { layout } = this.wave;
    const box = make("input", { type: "checkbox", checked: layout.isShown(name), value: name });
    box.addEventListener("change", () => {
      const names = layout.order.map((one) => one.name);
      layout.picked = new Set(names.filter((one) => (one === name ? box.checked : layout.isShown(one))));
      this.wave.relayout();
    });
    const move = (by) => () => {
      layout.move(name, by);
      this.changed();
    };
    return make(
      "div", { class: "pick" }, make("label", {}, box, ` ${name} `, make("small", {}, kind)),
      button("↑", move(-1), { class: "small", "aria-label": `${name} further up` }),
      button("↓", move(1), { class: "small", "aria-label": `${name} further down` })
    );
  }

  changed() {
    this.fillPicks();
    this.wave.relayout();
  }
}
