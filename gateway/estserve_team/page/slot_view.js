/** One slot: what runs in it, what drives it, its wave and its text. */

import { Controls } from "./controls.js";
import { fill, make, say } from "./dom.js";
import { InsideMarks, mayLookInside } from "./inside.js";
import { isMeantElsewhere } from "./keyboard.js";
import { TextCard } from "./text_card.js";
import { Refused } from "./requests.js";
import { needs } from "./trying.js";
import { WaveView } from "./wave_view.js";

const JOURNAL = 65_536; // entries that a slot's journal may have

export class SlotView {
  constructor(connection, number) {
    this.connection = connection;
    this.number = number;
    this.controls = new Controls(connection, () => this.showStuck());
    this.wave = new WaveView((first, last) => this.fetchRows(first, last));
    this.wave.onHere = () => this.showInside();
    this.text = new TextCard(connection, number, () => this.takeDriven());
    this.inside = new InsideMarks(connection, number, (told) => this.text.markInside(told));
    this.title = make("h1", { tabindex: "-1" }, `Slot ${number}`);
    this.facts = make("p", { class: "facts", id: "facts" });
    this.parts = make("div", { class: "parts" });
    this.element = make(
      "div", { class: "slot" }, make("header", {}, this.title, this.facts), this.parts
    );
    this.load = null;
  }

  /** The rows of some instants. Those of another load than the one that is shown are not for this
   * wave. */
  async fetchRows(first, last) {
    const { load } = this;
    const told = await this.connection.read("looks", { slot: this.number, from: first, to: last });
    return told.load === load ? told.rows : [];
  }

  /** Marks in the text what happened inside the instant that the wave tells of. */
  showInside() {
    this.isStuck = false;
    if (this.load !== null) this.inside.show(this.slot, this.wave.here());
  }

  /** Draws over the text why the next instant is stuck. */
  showStuck() {
    this.isStuck = true;
    this.inside.showStuck(this.slot);
  }

  /** Asks for the local signals anew, and shows them as they come. */
  askLocals() {
    this.wave.localsTold = this.showLocals().catch(() => {});
  }

  /** Shows the local signals in the wave, where one may know them; where not, none. */
  async showLocals() {
    const { load, slot } = this;
    const told = mayLookInside(slot.may) ? await this.readLocals(1, 0) : null;
    if (load !== this.load) return;
    const signals = told?.load === load ? told.signals : [];
    if (!signals.length && !this.wave.layout.locals.length) return;
    this.wave.showLocals(signals, async (first, last) => {
      const more = await this.readLocals(first, last);
      if (!more) this.wave.showLocals([], async () => []);
      return more?.load === load ? more.rows : [];
    });
  }

  /** Local signals and their rows in some instants; null where they are refused. */
  async readLocals(from, to) {
    try {
      for (;;) {
        const told = await this.connection.read("locals", { slot: this.number, from, to });
        if (!told.later) return told; // what takes long goes on as it is asked again
      }
    } catch (fault) {
      if (fault instanceof Refused) return null;
      throw fault;
    }
  }

  /** What was driven since the load, as far as it may be observed. */
  async takeDriven() {
    const { signals, main } = this.slot;
    return { module: main, signals, rows: await this.wave.rows.takeAll() };
  }

  /** Shows what is known of the slot by now. */
  update(slot) {
    const before = this.slot;
    this.slot = slot;
    const load = slot.visible && slot.loaded ? slot.load : null;
    const isOther = !before || load !== this.load || slot.visible !== before.visible;
    if (isOther || (load === null && slot.may.load !== before.may.load)) {
      this.load = load;
      this.rebuild(slot);
    } else if (load !== null) {
      this.renew(slot, before);
    }
    if (slot.visible) this.text.show(slot, isOther);
    this.tellFacts(slot);
  }

  /** The same load as before: more instants, other pending inputs, other permissions. */
  renew(slot, before) {
    this.controls.update(slot);
    if (JSON.stringify(slot.may.observe) !== JSON.stringify(before.may.observe)) this.wave.forget();
    const isOther = JSON.stringify(slot.may) !== JSON.stringify(before.may);
    if (isOther) this.askLocals();
    const isGone = slot.instants !== before.instants || slot.pending.join() !== before.pending.join();
    if (isOther || (this.isStuck && isGone)) this.showInside();
    this.wave.grow(slot.instants);
  }

  rebuild(slot) {
    say(
      this.title,
      slot.loaded && slot.visible ? `Slot ${this.number} · ${slot.main}` : `Slot ${this.number}`
    );
    if (!slot.visible) {
      const missing = `needs some permission on ${this.number}, or on a signal of it`;
      fill(this.parts, make("p", { class: "card missing" }, missing));
    } else if (!slot.loaded) {
      const empty = `The slot is empty (${needs("load", this.number)}).`;
      const form = [this.text.element, this.text.replay.element];
      fill(this.parts, ...(slot.may.load ? form : [make("p", { class: "card" }, empty)]));
    } else {
      this.showLoad(slot);
    }
  }

  showLoad(slot) {
    this.controls.show(slot);
    const rail = make("div", { class: "rail" }, this.controls.bar, this.controls.element);
    const side = make("div", { class: "side" }, rail);
    fill(this.parts, side, this.text.element, this.wave.element, this.text.replay.element);
    this.wave.show(slot.main, slot.signals, slot.instants);
    this.isStuck = false;
    this.askLocals();
  }

  tellFacts(slot) {
    if (!slot.visible) return say(this.facts, "");
    const filled = `journal: ${slot.entries} of ${JOURNAL} entries`;
    const instants = slot.instants === 1 ? "1 instant" : `${slot.instants} instants`;
    return say(this.facts, slot.loaded ? `${instants} · ${filled}` : `empty · ${filled}`);
  }

  recolour() {
    this.wave.recolour();
  }

  /** Does what a key stands for. */
  pressed(event) {
    if (isMeantElsewhere(event) || !this.slot?.loaded || !this.slot.visible) return;
    if (this.controls.pressed(event.key)) event.preventDefault();
  }
}
