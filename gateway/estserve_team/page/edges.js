/** What is found in a wave: plateaus, the next edge, the next instant of some presence. */

import { ABSENT, PRESENT, UNKNOWN } from "./wave_rows.js";

/** The spans of instants, each `[first, last]`, in which a signal is present without a break. */
export function plateausOf(statusAt, first, last) {
  const found = [];
  for (let instant = first; instant <= last; instant += 1) {
    if (statusAt(instant) !== PRESENT) continue;
    const open = found.at(-1);
    if (open && open[1] === instant - 1) open[1] = instant;
    else found.push([instant, instant]);
  }
  return found;
}

/** Whether a signal's status in an instant is another than in the one before. Before the first
 * instant a signal is absent. */
export function isEdge(statusAt, instant) {
  const before = instant > 1 ? statusAt(instant - 1) : ABSENT;
  const now = statusAt(instant);
  return before !== now && [before, now].includes(PRESENT);
}

/** The nearest edge of a signal from an instant on, in a direction of 1 or -1; null where there is
 * none. `known(instant)` promises that the status of an instant and of the one before is known. */
export async function findEdge(statusAt, known, from, direction, last) {
  for (let at = from + direction; at >= 1 && at <= last; at += direction) {
    await known(at);
    if (statusAt(at) === UNKNOWN) return null;
    if (isEdge(statusAt, at)) return at;
  }
  return null;
}
