/** What a diagnosis of a refused text says, in sentences and places. */

/** The first sentence: what is wrong, and what is so at its place. */
function firstOf({ told, marks }) {
  const [first] = marks;
  return first?.told && !told.includes(first.told) ? `${told}: ${first.told}` : told;
}

/** All that is said at the place of the fault. */
export function faultWords(diagnosis) {
  return [firstOf(diagnosis), ...diagnosis.remedies].join(" — ");
}

/** The further places, each `{ line, column, told }`: those that may be meant too, and the steps of a
 * path that leads to the fault. */
export function furtherPlaces({ marks, is_chain: isChain, path, path_told: told }) {
  const word = isChain ? "and" : "or here:";
  const others = marks.slice(1).map((mark) => ({ ...mark, told: `${word} ${mark.told}` }));
  const steps = path.map((step, at) => ({ ...step, told: at ? step.told : `${told} ${step.told}` }));
  return [...others, ...steps];
}

/** A diagnosis of a refusal that has none, with the place that it names. */
export function plainDiagnosis({ line, column }, sentence) {
  const marks = line ? [{ line, column, width: 1, told: "" }] : [];
  return { told: sentence, marks, is_chain: false, path: [], path_told: "", remedies: [] };
}
