/** Refusals, as sentences at the control that caused them. */

import { make, say } from "./dom.js";

/** The place of a control's refusals. */
export function refusalPlace() {
  return make("p", { class: "refusal", role: "alert" });
}

/** Does something, and tells at the place why it was refused. Promises what came of it, or null.
 * `heard(fault)` is called with what was refused. */
export async function trying(place, act, heard = () => {}) {
  say(place, "");
  try {
    return await act();
  } catch (fault) {
    say(place, fault.message);
    heard(fault);
    return null;
  }
}

/** The words for a permission that is missing. */
export const needs = (operation, object) => `needs ${operation} on ${object}`;

/** Takes a refusal away when something is typed or chosen anew in a form. */
export function clearOnChange(form, ...places) {
  const clear = () => { for (const place of places) say(place, ""); };
  form.addEventListener("input", clear);
  form.addEventListener("change", clear);
}
