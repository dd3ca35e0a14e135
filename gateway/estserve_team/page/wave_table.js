/** The last of the instants that are seen, as a table for screen readers. */

import { fill, make } from "./dom.js";

const TOLD = 8; // instants that the table has
const TOLD_AFTER = 400; // milliseconds after which it is written anew
const WORDS = ["absent", "present", ". (may not be observed)", "not known yet"];

export class WaveTable {
  constructor(title) {
    this.title = title;
    this.element = make("div", { class: "unseen" });
  }

  /** Writes the table soon, of these signals, up to the last instant that is seen. */
  showLater(signals, statusOf, last) {
    clearTimeout(this.telling);
    this.telling = setTimeout(() => this.show(signals, statusOf, last), TOLD_AFTER);
  }

  show(signals, statusOf, last) {
    const seen = Array.from({ length: TOLD }, (_, at) => last - TOLD + 1 + at).filter(
      (one) => one > 0
    );
    const lines = signals.map((signal) => make(
      "tr", {}, make("th", { scope: "row" }, `${signal.name}, ${signal.kind}`),
      ...seen.map((instant) => make("td", {}, WORDS[statusOf(signal, instant)]))
    ));
    fill(this.element, make(
      "table", { class: "wave-table" }, make("caption", {}, `${this.title}, in words`),
      make(
        "tr", {}, make("th", { scope: "col" }, "signal"),
        ...seen.map((one) => make("th", { scope: "col" }, String(one)))
      ),
      ...lines
    ));
  }
}
