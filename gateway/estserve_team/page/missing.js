/** What one may not do or see in a slot, told once for a whole group. */

const SHOWN = 3; // objects that are named one by one

/** Numbers that grow, as `2 to 5, 7`. */
export function spanWords(numbers) {
  const spans = [];
  for (const number of numbers) {
    if (spans.length && spans.at(-1)[1] === number - 1) spans.at(-1)[1] = number;
    else spans.push([number, number]);
  }
  return spans.map(([from, to]) => (from === to ? `${from}` : `${from} to ${to}`)).join(", ");
}

/** Names in a row, the first of them where there are many. */
function namesOf(names) {
  if (names.length <= SHOWN + 1) return names.join(", ");
  return `${names.slice(0, SHOWN).join(", ")} and ${names.length - SHOWN} more`;
}

/** The objects of signals in a slot; of many, how they look. */
function objectsOf({ slot }, names) {
  const objects = names.map((name) => `${slot}.${name}`);
  return names.length > SHOWN + 1 ? `each, as ${objects[0]}` : objects.join(", ");
}

/** The inputs and inouts of a slot. */
const offeredIn = ({ signals }) => signals.filter(([, kind]) => kind !== "output").map(
  ([name]) => name
);

/** What is said over the inputs of those that one may not offer; nothing where one may all. */
export function offerWords(slot) {
  const all = offeredIn(slot);
  const without = all.filter((name) => !slot.may.offer[name]);
  if (!without.length) return "";
  const which = without.length === all.length ? "any input" : namesOf(without);
  return `You may not offer ${which} (needs offer on ${objectsOf(slot, without)}).`;
}

/** What is said over Step and Discard, of one who may not. */
export function stepWords({ slot, may }) {
  return may.step ? "" : `You may not step or discard (needs step on ${slot}).`;
}

/** What is pending, as far as one may see it. */
export function pendingWords(slot) {
  const hidden = offeredIn(slot).filter(
    (name) => !slot.may.offer[name] && !slot.may.observe[name]
  );
  const shown = slot.pending.length ? `Pending: ${slot.pending.join(" ")}` : "";
  if (!hidden.length) return shown || "Nothing pending.";
  const isAll = hidden.length === offeredIn(slot).length;
  const some = `whether ${namesOf(hidden)} ${hidden.length > 1 ? "are" : "is"} pending`;
  const told = `You may not see ${isAll ? "what is pending" : some}.`;
  return shown ? `${shown}. ${told}` : told;
}

/** What an instant had, as far as one may see it: names of signals that were present, and of those
 * that may not be observed. */
export function instantWords(instant, present, hidden, count) {
  if (count && hidden.length === count) return `instant ${instant}: you may observe nothing here`;
  const told = present.join(" ") || "nothing present";
  const more = hidden.length ? `; may not be observed: ${namesOf(hidden)}` : "";
  return `instant ${instant}: ${told}${more}`;
}
