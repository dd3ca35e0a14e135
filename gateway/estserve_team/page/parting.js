/** Where two runs of the same inputs part. */

/** The places of names that both lists of signals have: triples of a name and its two places. */
function sharedPlaces(one, other) {
  const places = new Map(other.map(([name], place) => [name, place]));
  return one.flatMap(([name], place) => (places.has(name) ? [[name, place, places.get(name)]] : []));
}

/** The names whose status differs in an instant, where both are known. */
function differing(shared, row, otherRow) {
  return shared.filter(([, place, otherPlace]) => {
    const [one, other] = [row[place], otherRow[otherPlace]];
    return one !== other && one !== "." && other !== ".";
  }).map(([name, place]) => ({ name, was: row[place] === "1" }));
}

/** The first instant in which two waves differ, with the signals that do; null where none does. A
 * wave has `signals`, pairs of a name and a kind, and `rows`, strings with a letter a signal. */
export function partingOf(one, other) {
  const shared = sharedPlaces(one.signals, other.signals);
  const last = Math.min(one.rows.length, other.rows.length);
  for (let at = 0; at < last; at += 1) {
    const found = differing(shared, one.rows[at], other.rows[at]);
    if (found.length) return { instant: at + 1, signals: found };
  }
  return null;
}

/** What is said of two waves: where they part, or that they don't. */
export function partingWords(one, other) {
  const parting = partingOf(one, other);
  const both = Math.min(one.rows.length, other.rows.length);
  if (!parting) return both === 1 ? "The one instant is alike." : `All ${both} instants are alike.`;
  const told = parting.signals.map(
    ({ name, was }) => `${name} was ${was ? "present" : "absent"}, and is ${was ? "absent" : "present"}`
  );
  return `They part at instant ${parting.instant}: ${told.join("; ")}.`;
}

/** What is said of the instant that was refused: its sentence, and of a stuck one its circle. Places of
 * the text, which follow, are left out. */
export function endedWords({ ended, rows }) {
  if (!ended) return "";
  const told = ended.split("\n").filter((line) => !line.startsWith(" ")).join(". ");
  return `Your version was refused at instant ${rows.length + 1}: ${told}`;
}

/** The inputs of each instant of a wave, as lists of names; and those that may not be observed. An
 * inout that was present counts as offered, since a wave doesn't tell who made it present. */
export function drivenOf({ signals, rows }) {
  const inputs = signals.flatMap(([name, kind], place) => (kind === "output" ? [] : [[name, place]]));
  const having = (row, letter) => inputs.filter(([, place]) => row[place] === letter);
  const hidden = rows.flatMap((row) => having(row, ".").map(([name]) => name));
  return {
    inputs: rows.map((row) => having(row, "1").map(([name]) => name)),
    hidden: [...new Set(hidden)],
  };
}
