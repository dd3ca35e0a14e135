/** The commands that wait for an answer, each with a way to take it back. */

import { button, fill, make } from "./dom.js";
import { commandWords } from "./outbox.js";

/** What is said of a command that waits. */
function wordsOf({ command, wasSent }) {
  const told = wasSent
    ? "was sent, and no answer came: it is asked again, and done once"
    : "waits until the gateway answers, and is sent then";
  return `${commandWords(command)} ${told}. `;
}

/** Shows the items of an outbox that wait. */
export function showWaiting(place, items, outbox) {
  fill(place, ...items.map((item) => make(
    "p", {}, make("span", {}, wordsOf(item)),
    button("Take back", () => outbox.takeBack(item), { class: "small" })
  )));
}
