/** What drives a slot: its inputs and inouts as toggles that offer, Step, Discard. */

import { isGone, watch } from "./causes.js";
import { button, fill, make, say } from "./dom.js";
import { keyOf } from "./keyboard.js";
import { offerWords, pendingWords, stepWords } from "./missing.js";
import { refusalPlace, trying } from "./trying.js";

const OFFERED = ["input", "inout"]; // the kinds of signals that can be offered
const MANY = 12; // inputs from which on one can be found by its name

/** A name that may go over lines after each `_`. */
const breakable = (name) => name.split(/(?<=_)/).flatMap(
  (part, at) => (at ? [make("wbr"), part] : [part])
);

export class Controls {
  /** `stuck()` is called where the next instant is Stuck. */
  constructor(connection, stuck = () => {}) {
    this.connection = connection;
    this.stuck = stuck;
    this.toggles = new Map();
    this.watched = new Map(); // what is refused, by its place
    this.inputs = make("ul", { class: "toggles", "aria-label": "inputs" });
    this.offerNote = make("p", { class: "missing", id: "offer-missing" });
    this.stepNote = make("p", { class: "missing", id: "step-missing" });
    this.pending = make("p", { class: "pending", role: "status", id: "pending" });
    this.count = make("p", { class: "count" });
    this.stepping = this.buildAct("step", "Step", "Space", "space");
    this.discarding = this.buildAct("discard", "Discard", "Backspace", "⌫");
    this.find = this.buildFind();
    this.element = make(
      "section", { class: "card controls", "aria-label": "Inputs and steps" },
      make("h2", {}, "Inputs"), this.offerNote, this.find, this.inputs
    );
    this.bar = make(
      "section", { class: "card bar", "aria-label": "Step" }, this.count, this.pending, this.stepNote,
      make("div", { class: "acts" }, this.stepping.control, this.discarding.control),
      this.stepping.told, this.discarding.told
    );
  }

  /** A button for a command on the slot, with the place of its refusals. */
  buildAct(cmd, label, shortcut, key) {
    const told = refusalPlace();
    const control = button(label, () => this.act(cmd), {
      id: cmd, class: cmd === "step" ? "main" : "",
      "aria-keyshortcuts": shortcut, "aria-describedby": "step-missing",
    });
    control.append(make("kbd", {}, key));
    return { control, told };
  }

  /** A field that shows the inputs with some letters, of which Enter offers the first. */
  buildFind() {
    const find = make("input", {
      type: "search", id: "find-input", "aria-label": "find an input", "aria-keyshortcuts": "/",
      placeholder: "find an input  /",
    });
    find.addEventListener("input", () => this.showFound());
    find.addEventListener("keydown", (event) => {
      if (event.key === "Enter") this.offer(this.found()[0]);
      else if (event.key === "Escape") find.value = "";
      else return;
      event.preventDefault();
      find.value = "";
      find.blur();
      this.showFound();
    });
    return find;
  }

  /** The names of the inputs that are looked for. */
  found() {
    const part = this.find.value.trim().toLowerCase();
    return [...this.toggles.keys()].filter((name) => name.toLowerCase().includes(part));
  }

  showFound() {
    const found = new Set(this.found());
    for (const [name, { element }] of this.toggles) element.hidden = !found.has(name);
  }

  /** Does a command, and tells at its place why it was refused, until the cause has gone. */
  ask(told, command, act = () => this.connection.ask(command)) {
    const { slot } = this;
    this.watched.delete(told);
    return trying(told, act, (fault) => {
      if (fault.refusal) this.watched.set(told, watch(fault.refusal, command, slot));
      else setTimeout(() => say(told, ""), 6_000);
      if (fault.refusal?.fault === "Stuck") this.stuck();
    });
  }

  async act(cmd) {
    const { control, told } = cmd === "step" ? this.stepping : this.discarding;
    if (control.disabled || this.busy) return;
    this.busy = true;
    await this.ask(told, { cmd, slot: this.slot.slot });
    this.busy = false;
  }

  /** Offers an input, or takes its offer back where it is pending and may be discarded. */
  async offer(name) {
    const toggle = this.toggles.get(name);
    if (!toggle || toggle.control.disabled) return;
    const words = { slot: this.slot.slot, signal: name };
    const command = { cmd: "offer", ...words };
    const isBack = this.slot.may.step && this.slot.pending.includes(name);
    const back = () => this.connection.once("retract", words);
    await this.ask(toggle.told, command, isBack ? back : undefined);
  }

  buildToggle(name, place) {
    const [told, key] = [refusalPlace(), keyOf(place)];
    const control = button("", () => this.offer(name), {
      class: "toggle", "data-signal": name, "aria-pressed": "false",
      "aria-describedby": "offer-missing", "aria-keyshortcuts": key,
    });
    if (key) control.append(make("kbd", {}, key));
    control.append(make("span", {}, ...breakable(name)));
    return { control, told, key, element: make("li", {}, control, told) };
  }

  /** Shows the inputs of another load. */
  show(slot) {
    const offered = slot.signals.filter(([, kind]) => OFFERED.includes(kind));
    const inputs = offered.map(([name]) => name);
    this.toggles = new Map(inputs.map((name, place) => [name, this.buildToggle(name, place)]));
    fill(this.inputs, ...[...this.toggles.values()].map(({ element }) => element));
    this.watched.clear();
    this.find.hidden = inputs.length < MANY;
    this.find.value = "";
    for (const { told } of [this.stepping, this.discarding]) say(told, "");
    this.update(slot);
  }

  /** Shows what is pending, and what may be done. */
  update(slot) {
    this.slot = slot;
    for (const [name, { control }] of this.toggles) {
      const isPending = slot.pending.includes(name);
      control.setAttribute("aria-pressed", String(isPending));
      control.disabled = !slot.may.offer[name];
      control.title = isPending && slot.may.step ? "take this offer back" : "";
    }
    this.forgetGone(slot);
    this.stepping.control.disabled = this.discarding.control.disabled = !slot.may.step;
    say(this.offerNote, offerWords(slot));
    say(this.stepNote, stepWords(slot));
    say(this.pending, pendingWords(slot));
    say(this.count, `next: instant ${slot.instants + 1}`);
  }

  /** Takes refusals away whose cause has gone. */
  forgetGone(slot) {
    for (const [told, watched] of this.watched) {
      if (isGone(watched, slot)) {
        say(told, "");
        this.watched.delete(told);
      }
    }
  }

  /** Does what a key stands for. True where it stands for something. */
  pressed(key) {
    const [name] = [...this.toggles].find(([, toggle]) => toggle.key === key) ?? [];
    if (key === " ") this.act("step");
    else if (key === "Backspace") this.act("discard");
    else if (name !== undefined) this.offer(name);
    else if (key === "/" && !this.find.hidden) this.find.focus();
    else return false;
    return true;
  }
}
