/** A version of one's own, driven by the same inputs beside what was driven, on a program of one's
 * own: both waves, and where they part. */

import { button, fill, make, say } from "./dom.js";
import { drivenOf, endedWords, partingOf, partingWords } from "./parting.js";
import { saveText, scenarioFiles } from "./saving.js";
import { WaveView } from "./wave_view.js";

const askOf = (rows) => async (first, last) => rows.slice(first - 1, last);

/** What is said of what could not be replayed as it was. */
function leftWords({ inputs, hidden }, given) {
  const { left, ended, rows } = given;
  const isCut = !ended && rows.length < inputs.length;
  return [
    hidden.length ? `Without the inputs that you may not observe: ${hidden.join(" ")}.` : "",
    left.length ? `Your version has no input ${left.join(" ")}.` : "",
    endedWords(given),
    isCut ? `There was time for ${rows.length} of ${inputs.length} instants.` : "",
  ].filter(Boolean).join(" ");
}

export class ReplayView {
  constructor() {
    this.told = make("p", { class: "parting", role: "status" });
    this.left = make("p", { class: "quiet" });
    this.waves = make("div", { class: "waves" });
    this.name = make("input", {
      class: "scenario-name", value: "scenario", size: "12", "aria-label": "name of the scenario",
    });
    const save = button("Save as scenario", () => this.save(), { id: "save-scenario" });
    this.element = make(
      "section", { class: "card replay", "aria-label": "Replay", hidden: true },
      make("h2", {}, "Replay"), this.told, this.left,
      make("p", { class: "joined" }, this.name, save), this.waves
    );
  }

  /** Shows what was driven, `{ module, signals, rows }`, and what the version gave. */
  show(driven, given) {
    this.driven = drivenOf(driven);
    this.given = { module: given.main, inputs: this.driven.inputs, ...given };
    say(this.told, partingWords(driven, given));
    say(this.left, leftWords(this.driven, given));
    const parting = partingOf(driven, given);
    const views = [
      this.waveOf("As it was driven", driven, parting), this.waveOf("Your version", this.given, parting),
    ];
    fill(this.waves, ...views.map(({ element }) => element));
    this.element.hidden = false;
    this.element.scrollIntoView({ block: "nearest" });
  }

  hide() {
    this.element.hidden = true;
    fill(this.waves);
  }

  waveOf(title, { module, signals, rows, ended }, parting) {
    const view = new WaveView(askOf(rows), title);
    view.ended = ended;
    view.show(module, signals, rows.length);
    if (parting) {
      view.mark(parting.instant, true);
      view.chosen = parting.signals[0].name;
      view.tools.showChosen(view.chosen);
      requestAnimationFrame(() => view.jump(parting.instant));
    }
    return view;
  }

  /** Saves the inputs and what the version gave, as files that `estserve-client test` runs. */
  save() {
    const name = this.name.value.trim().replace(/[^A-Za-z0-9_.-]+/g, "_") || "scenario";
    const { inputs, left, ended, rows } = this.given;
    const run = ended ? inputs.slice(0, rows.length + 1) : inputs.slice(0, rows.length);
    const offered = run.map((names) => names.filter((one) => !left.includes(one)));
    const wave = { ...this.given, inputs: offered };
    for (const [file, text] of scenarioFiles(name, wave)) saveText(file, text);
  }
}
