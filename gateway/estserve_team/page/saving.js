/** What is saved as files: waves, scenarios, policies. */

import { button, make, say } from "./dom.js";
import { expectedText, inputsText, vcdText } from "./exports.js";
import { drivenOf } from "./parting.js";

const KEPT = 60_000; // milliseconds for which a file that is saved can be fetched

/** Has the browser save a text as a file of this name. */
export function saveText(name, text, kind = "text/plain") {
  const address = URL.createObjectURL(new Blob([text], { type: kind }));
  make("a", { href: address, download: name }).click();
  setTimeout(() => URL.revokeObjectURL(address), KEPT);
}

/** The files of a scenario, which `estserve-client test` runs: pairs of a name and a text. */
export function scenarioFiles(name, wave) {
  return [
    [`${name}.inputs`, inputsText(wave.inputs ?? drivenOf(wave).inputs)],
    [`${name}.expected`, expectedText(wave)],
  ];
}

/** What can be saved of a wave. */
const FORMS = {
  VCD: (wave) => [[`${wave.module}.vcd`, vcdText(wave)]],
  ".inputs": (wave) => scenarioFiles(wave.module, wave).slice(0, 1),
  "Scenario": (wave) => scenarioFiles(wave.module, wave),
};
const HAS_LOCALS = "VCD";

/** Promises a wave as it is saved, all of it of one load and of the same permissions. */
export async function takeWave(view, hasLocals) {
  for (;;) {
    await view.localsTold; // whether there are any
    const lives = [view.rows.life, view.inner.life];
    const rows = await view.rows.takeAll();
    const inner = hasLocals && view.layout.locals.length ? await view.inner.takeAll() : [];
    if (lives[0] !== view.rows.life || lives[1] !== view.inner.life) continue;
    return {
      module: view.module, signals: view.all.map(({ name, kind }) => [name, kind]), rows,
      ended: view.ended, inner: inner.slice(0, rows.length),
      locals: hasLocals ? view.layout.locals.map(({ name, path }) => [name, path]) : [],
    };
  }
}

/** What is said of instants that did not come. */
function missingWords({ rows, locals, inner }, instants) {
  if (rows.length < instants) return `only ${rows.length} instants came; `;
  const isShort = locals.length && inner.length < rows.length;
  return isShort ? `local signals of only ${inner.length} instants came; ` : "";
}

/** What is said of inputs that are not saved, since one may not observe them. */
function leftWords(wave) {
  const { hidden } = drivenOf(wave);
  return hidden.length ? `without what you may not observe: ${hidden.join(" ")}` : "";
}

/** The menu by which a wave is saved. */
export function saveMenu(view) {
  const told = make("p", { class: "quiet", role: "status" });
  const save = (word, filesOf) => async () => {
    say(told, "..");
    const wave = await takeWave(view, word === HAS_LOCALS);
    for (const [name, text] of filesOf(wave)) saveText(name, text);
    say(told, missingWords(wave, view.instants) + leftWords(wave));
  };
  const buttons = Object.entries(FORMS).map(([word, filesOf]) => button(
    word, save(word, filesOf), { "data-save": word }
  ));
  return make(
    "details", { class: "menu save" }, make("summary", {}, "Save"),
    make("div", { class: "pop" }, ...buttons, told)
  );
}
