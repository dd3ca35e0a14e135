/** A module's text, line by line, with numbers and colours; and where a fault is in a line. */

import { make } from "./dom.js";
import { colouredLines } from "./keywords.js";

const TAB = 8;

/** How many letters of a line stand before the byte with this number, which counts from 1. */
export function lettersBefore(line, column) {
  const bytes = new TextEncoder().encode(line).slice(0, column - 1);
  return new TextDecoder().decode(bytes).replace(/\uFFFD$/, "").length;
}

/** How many columns a line takes on the screen. */
export function columnsOf(line) {
  let columns = 0;
  for (const letter of line) columns += letter === "\t" ? TAB - (columns % TAB) : 1;
  return columns;
}

/** The pieces of a line as elements, in their colours. */
export function colouredPieces(pieces) {
  return pieces.map(([kind, written]) => (
    kind ? make("span", { class: `word-${kind}` }, written) : written
  ));
}

/** The element of a text that is read. */
export function sourceText(text) {
  const lines = colouredLines(text.replace(/\n$/, ""));
  return make(
    "ol", { class: "source", tabindex: "0", "aria-label": "module text" },
    ...lines.map((pieces) => make(
      "li", {}, make("code", {}, ...(pieces.length ? colouredPieces(pieces) : [" "]))
    ))
  );
}

/** Marks the lines of such an element that ran, those in which control rests, and open ones of an
 * instant that is stuck, and no others. */
export function markLines(element, { ran = [], rests = [], open = [] }) {
  const before = element.marked ?? {};
  element.marked = { ran: new Set(ran), rests: new Set(rests), open: new Set(open) };
  for (const [name, now] of Object.entries(element.marked)) {
    const was = before[name] ?? new Set();
    for (const line of was) if (!now.has(line)) element.children[line - 1]?.classList.remove(name);
    for (const line of now) if (!was.has(line)) element.children[line - 1]?.classList.add(name);
  }
}
