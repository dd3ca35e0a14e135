/** The list of slots. */

import { fill, make, say } from "./dom.js";
import { spanWords } from "./missing.js";

/** What a slot's line says of it. */
const wordsOf = (slot) => (slot.loaded ? `${slot.main} · ${slot.instants}` : "empty");

export class SlotsList {
  constructor() {
    this.list = make("ul", {});
    this.others = make("p", { class: "missing" });
    this.element = make("nav", { class: "slots", "aria-label": "Slots" }, this.list, this.others);
    this.links = new Map();
  }

  /** Shows the slots that may be seen, of which one may be chosen, and names the others. */
  show(slots, chosen) {
    const lines = slots.filter(({ visible }) => visible).map((slot) => this.lineOf(slot, chosen));
    if (
      lines.length !== this.list.children.length || lines.some(
        (line, at) => this.list.children[at] !== line
      )
    ) {
      fill(this.list, ...lines);
    }
    const others = slots.filter(({ visible }) => !visible).map(({ slot }) => slot);
    say(this.others, others.length ? `no permission on ${spanWords(others)}` : "");
  }

  lineOf(slot, chosen) {
    const kept = this.links.get(slot.slot) ?? this.buildLink(slot.slot);
    say(kept.words, wordsOf(slot));
    kept.link.className = slot.loaded ? "loaded" : "empty";
    if (slot.slot === chosen) kept.link.setAttribute("aria-current", "page");
    else kept.link.removeAttribute("aria-current");
    return kept.line;
  }

  buildLink(number) {
    const words = make("span", { class: "quiet" });
    const link = make("a", { href: `#slot=${number}` }, make("b", {}, String(number)), " ", words);
    const kept = { link, words, line: make("li", {}, link) };
    this.links.set(number, kept);
    return kept;
  }
}
