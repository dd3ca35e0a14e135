/** Keys: the name of each input's key, what was pressed for something else, and the list of keys. */

import { button, fill, make } from "./dom.js";

const LETTERS = "qwertyuiopasdfghjklzxcvbnm";
const KEYS = [..."1234567890", ...LETTERS, ...LETTERS.toUpperCase()];

/** The key of an input, by its place; null where there are more inputs than keys. */
export const keyOf = (place) => KEYS[place] ?? null;

/** What each key does, by where it is pressed. */
const LISTED = [
  ["In a slot", [
    ["1 .. 9, 0", "offer one of the first ten inputs, or take it back"],
    ["q w e .. m", "the next 26, in the keyboard's order; with Shift the 26 after those"],
    ["/", "find an input by its name"],
    ["Space", "step"],
    ["Backspace", "discard what is pending"],
  ]],
  ["In the wave", [
    ["← →", "an instant back or on; Page Up and Page Down ten"],
    ["↑ ↓", "choose a signal"],
    ["[ ]", "the edge before or after, of the chosen signal"],
    ["m", "mark the instant, or take its mark away"],
    ["Home End", "the first instant; the newest, which is followed then"],
    ["+ −", "wider or narrower instants"],
  ]],
  ["Everywhere", [["?", "this list"], ["Escape", "close what is open"]]],
];

/** Whether a key was pressed for something else: a text that is written, a control that has the
 * focus. */
export function isMeantElsewhere(event) {
  const focused = event.target.closest?.("input, textarea, select, button, a, summary, dialog");
  return event.ctrlKey || event.altKey || event.metaKey || event.repeat || Boolean(focused);
}

/** Whether a key was pressed while a text is written. */
export const isWriting = (event) => Boolean(event.target.closest?.("input, textarea, select"));

/** The list of keys, as a dialog. */
export class KeysHelp {
  constructor() {
    const groups = LISTED.flatMap(([title, keys]) => [
      make("h2", {}, title),
      make("dl", {}, ...keys.flatMap(([key, does]) => [
        make("dt", {}, make("kbd", {}, key)), make("dd", {}, does),
      ])),
    ]);
    const close = button("Close", () => this.element.close(), { id: "keys-close" });
    this.element = make("dialog", { id: "keys-help", "aria-label": "Keys" });
    fill(this.element, make("h1", {}, "Keys"), ...groups, close);
  }

  show() {
    document.getElementById("menu").open = false;
    if (!this.element.isConnected) document.body.append(this.element);
    if (!this.element.open) this.element.showModal();
  }
}
