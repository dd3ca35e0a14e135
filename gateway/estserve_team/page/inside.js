/** What happened inside the instant that a wave tells of: the lines of the text that ran, those in
 * which control rests, and the local signals; and why the next instant is stuck. */

import { Refused } from "./requests.js";

/** Whether one may know what happens inside, as far as the page knows it: `audit` may be missing. */
export function mayLookInside({ load, observe }) {
  const observed = Object.values(observe);
  return load || (observed.length > 0 && observed.every(Boolean));
}

/** Numbers in their order, those that follow one another together: `4-6, 9`. */
export function ranges(numbers) {
  const parts = [];
  for (const number of numbers) {
    const last = parts.at(-1);
    if (last && last[1] === number - 1) last[1] = number;
    else parts.push([number, number]);
  }
  return parts.map(([first, last]) => (first === last ? `${first}` : `${first}-${last}`)).join(", ");
}

/** A local signal that was present, and of how many incarnations, where several ran. */
const localWords = ([name, present, count]) => (count > 1 ? `${name} (${present} of ${count})` : name);

/** What happened inside an instant, in words; or why that can't be told. */
export function insideWords({ instant, ran, rests, locals, stuck, fault }) {
  if (fault) return `what ran can't be told: ${fault}`;
  if (stuck) return `instant ${instant} is stuck: ${stuck.told}`;
  const present = locals.filter(([, count]) => count > 0).map(localWords);
  return [
    `instant ${instant}: ran ${ran.length ? ranges(ran) : "nothing"}`,
    rests.length ? `control rests at ${ranges(rests)}` : "nothing is left to run",
    ...(present.length ? [`present inside: ${present.join(", ")}`] : []),
  ].join(" · ");
}

export class InsideMarks {
  /** `mark(told)` is called with what happened inside an instant, or null. */
  constructor(connection, number, mark) {
    Object.assign(this, { connection, number, mark, wanted: null, isAsking: false, refused: null });
    this.failed = null; // a load whose inside can't be told, and why
  }

  /** Asks for an instant, if one may know it. Of several that are wanted meanwhile the last counts. */
  show(slot, instant) {
    return this.want(slot, instant > 0 && { name: "inside", words: { instant } });
  }

  /** Asks why the next instant is stuck, if one may know it. */
  showStuck(slot) {
    return this.want(slot, { name: "stuck", words: {} });
  }

  async want(slot, what) {
    const rights = JSON.stringify(slot.may);
    const isOpen = what && mayLookInside(slot.may) && rights !== this.refused;
    const failed = this.failed?.load === slot.load ? this.failed : null;
    this.wanted = isOpen && !failed ? { load: slot.load, rights, ...what } : null;
    if (!this.wanted) this.mark(isOpen ? failed : null);
    if (this.isAsking) return;
    this.isAsking = true;
    while (this.wanted) await this.ask(this.wanted);
    this.isAsking = false;
  }

  async ask(asked) {
    const told = await this.take(asked);
    if (this.wanted !== asked || told?.later) return; // what takes long goes on as it is asked again
    this.wanted = null;
    const isThere = told && (told.fault || (asked.name === "stuck" ? told.stuck : told.instant));
    const isMeant = isThere && told.load === asked.load;
    this.mark(isMeant ? told : null);
  }

  /** What the gateway tells; null where one may not know it. What can't be told is not asked again. */
  async take({ name, words, rights, load }) {
    try {
      return await this.connection.read(name, { slot: this.number, ...words });
    } catch (fault) {
      if (!(fault instanceof Refused)) return null;
      if (fault.fault === "NotAllowed") this.refused = rights;
      else this.failed = { load, fault: fault.message };
      return this.failed?.load === load ? this.failed : null;
    }
  }
}
