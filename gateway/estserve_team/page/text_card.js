/** The text of a slot: as it was loaded, or as one edits it, with what can be done with either. */

import { button, field, fill, make, say } from "./dom.js";
import { drawCircle, eraseCircle } from "./circle.js";
import { Checker, diagnosisOf } from "./checking.js";
import { plainDiagnosis } from "./diagnosis.js";
import { Editor } from "./editor.js";
import { EXAMPLE } from "./example.js";
import { drivenOf } from "./parting.js";
import { ReplayView } from "./replay_view.js";
import { Refused } from "./requests.js";
import { insideWords } from "./inside.js";
import { markLines, sourceText } from "./source_text.js";
import { needs, refusalPlace, trying } from "./trying.js";

/** One text of several, each of which begins on a line of its own. */
const joined = (texts) => texts.map((text) => text.replace(/\n?$/, "\n")).join("");

/** How many instants, in words. */
const counted = (count) => (count === 1 ? "1 instant" : `${count} instants`);

export class TextCard {
  /** `takeDriven()` promises what was driven in the slot since its load. */
  constructor(connection, number, takeDriven) {
    Object.assign(this, { connection, number, takeDriven });
    this.checker = new Checker(connection);
    this.editor = new Editor("Module text", () => this.typed());
    this.replay = new ReplayView();
    this.kept = null; // what was driven before the last load
    this.isEditing = false;
    this.title = make("h2", {});
    this.body = make("div", {});
    this.told = refusalPlace();
    this.note = make("p", { class: "quiet", role: "status" });
    this.inner = make("p", { class: "quiet", id: "inside" });
    this.inside = null; // what happened inside the instant that is looked at
    this.missing = make("p", { class: "missing", id: "load-missing" });
    this.acts = make("div", { class: "inline" });
    this.element = make(
      "section", { class: "card text", "aria-label": "Text" },
      this.title, this.missing, this.body, this.inner, this.acts, this.told, this.note
    );
    this.buildForm();
  }

  buildForm() {
    this.main = make(
      "input", { id: "load-main", placeholder: "the first that no other runs", maxlength: "48" }
    );
    this.main.addEventListener("input", () => this.typed());
    this.file = make("input", {
      type: "file", id: "load-file", multiple: true, accept: ".strl,.txt,text/plain",
    });
    this.file.addEventListener("change", () => this.readFile());
    this.editor.area.placeholder = EXAMPLE;
    this.load = button("Load", () => this.loadText(), { id: "load", class: "main" });
    this.play = button("Replay", () => this.replayText(), { id: "replay" });
    this.back = button("Back to the loaded text", () => this.stopEditing(), { id: "edit-back" });
    this.form = make(
      "form", { class: "load", "aria-label": "Edit and load" }, this.editor.element,
      make(
        "div", { class: "inline" }, field("Main module", this.main), field("From files", this.file)
      )
    );
    this.form.addEventListener("submit", (event) => event.preventDefault());
  }

  // What is shown.

  /** Shows the slot as it is now; `isOther` says that another module, or none, is loaded. */
  show(slot, isOther) {
    this.slot = slot;
    if (isOther) {
      this.text = this.inside = null;
      if (slot.loaded) this.fetchText(slot.load);
      if (slot.loaded && !this.editor.value.trim()) this.isEditing = false;
    }
    if (!slot.loaded && slot.may.load) this.isEditing = true;
    this.layOut();
  }

  async fetchText(load) {
    const told = await trying(this.told, () => this.connection.read("text", { slot: this.number }));
    if (told?.load !== load || load !== this.slot.load) return;
    this.text = told.text;
    if (this.isEditing && this.editor.value === this.text) this.isEditing = false;
    this.layOut();
  }

  /** Whether there is something to replay: what is driven now, or was before the load. */
  hasDriven() {
    return (this.slot.loaded && this.slot.instants > 0) || this.kept !== null;
  }

  layOut() {
    const { loaded, may } = this.slot;
    const shown = this.isEditing ? this.form : this.reading();
    if (this.body.firstChild !== shown) fill(this.body, shown);
    say(this.title, this.isEditing ? (loaded ? "Your version" : "Load a module") : "Text");
    say(this.missing, may.load ? "" : `You may not load here (${needs("load", this.number)}).`);
    this.load.disabled = !may.load;
    this.play.disabled = !this.hasDriven();
    this.back.hidden = !loaded;
    this.noteKept();
    this.showMarks();
    if (!this.isAsking) fill(this.acts, ...this.actsNow());
  }

  /** Marks the lines that ran in an instant, and those in which control rests; none for null. */
  markInside(told) {
    this.inside = told;
    this.showMarks();
  }

  showMarks() {
    const isShown = !this.isEditing && this.slot?.loaded && this.inside !== null;
    say(this.inner, isShown ? insideWords(this.inside) : "");
    if (this.source?.localName !== "ol") return;
    const { ran, rests, stuck } = isShown ? this.inside : {};
    markLines(this.source, { ran, rests, open: stuck?.open });
    if (this.drawn?.stuck === stuck && this.drawn?.source === this.source) return;
    this.drawn = { stuck, source: this.source };
    if (stuck) drawCircle(this.source, stuck.circle);
    else eraseCircle(this.source);
  }

  reading() {
    if (!this.slot.loaded) return make("p", {}, "The slot is empty.");
    if (this.shownText !== this.text || !this.source) {
      this.shownText = this.text;
      this.source = this.text === null ? make("p", { class: "quiet" }, "..") : sourceText(this.text);
    }
    return this.source;
  }

  actsNow() {
    if (this.isEditing) return [this.load, this.play, this.back];
    if (!this.slot.loaded) return [];
    const { may } = this.slot;
    this.edit ??= button("Edit", () => this.startEditing(), { id: "edit" });
    this.unload ??= button("Unload", () => this.askToUnload(), { id: "unload" });
    this.unload.disabled = !may.load;
    return [this.edit, this.unload, ...(this.kept ? [this.play] : [])];
  }

  noteKept() {
    say(this.note, this.kept ? (
      `Kept: ${counted(this.kept.rows.length)} of ${this.kept.module}, as driven before the load; `
      + "Replay drives your version by them."
    ) : "");
  }

  // Edit.

  startEditing() {
    if (this.text === null) return;
    this.isEditing = true;
    this.editor.value = this.text;
    this.layOut();
    this.editor.area.focus();
  }

  stopEditing() {
    this.isEditing = false;
    this.checker.stop();
    say(this.told, "");
    this.replay.hide();
    this.layOut();
  }

  async readFile() {
    const texts = await Promise.all([...this.file.files].map((file) => file.text()));
    if (texts.length) this.editor.value = joined(texts);
  }

  mainName() {
    return this.main.value.trim();
  }

  typed() {
    say(this.told, "");
    this.checker.checkLater(
      this.editor.value, this.mainName(), (diagnosis) => this.editor.show(diagnosis)
    );
  }

  /** What was driven: in this load, or else before it. */
  async driven() {
    if (!this.slot.loaded || !this.slot.instants) return this.kept;
    const driven = await this.takeDriven();
    return driven.rows.length ? driven : this.kept;
  }

  /** What becomes of one's text on a program of one's own; null where it is refused, and told. */
  async tryOut(inputs) {
    this.checker.stop();
    const text = this.isEditing ? this.editor.value : this.text;
    const told = await trying(this.told, () => (
      this.checker.tryText(text, this.isEditing ? this.mainName() : this.slot.main, inputs)
    ));
    const diagnosis = told && diagnosisOf(told);
    if (diagnosis) {
      this.editor.show(diagnosis);
      this.editor.goToFault();
    }
    return diagnosis ? null : told;
  }

  async replayText() {
    this.play.disabled = true;
    const driven = await this.driven();
    const inputs = driven ? drivenOf(driven).inputs : [];
    const given = driven && await this.tryOut(inputs);
    if (given) this.replay.show(driven, given);
    this.play.disabled = false;
  }

  // Load and unload.

  /** Loads one's text in place of what is there. It is tried first, so that a text with a fault
   * leaves what is there; what was driven is kept, to be replayed. */
  async loadText() {
    const text = this.editor.value;
    const command = { cmd: "load", slot: this.number, text };
    if (this.mainName()) command.main = this.mainName();
    this.load.disabled = true;
    say(this.told, "");
    this.editor.show(null);
    if (!this.slot.loaded || await this.makeRoom()) await this.ask(command);
    this.load.disabled = !this.slot.may.load;
  }

  async makeRoom() {
    const driven = await this.driven();
    if (!await this.tryOut([])) return false;
    this.kept = driven;
    return Boolean(await trying(
      this.told, () => this.connection.ask({ cmd: "unload", slot: this.number })
    ));
  }

  async ask(command) {
    this.checker.stop();
    try {
      await this.connection.ask(command);
      this.isEditing = false;
    } catch (fault) {
      this.tell(fault);
    }
  }

  /** Tells of a refusal: at its place where it has one, and else at the form. */
  tell(fault) {
    const { diagnosis } = fault;
    const isPlaced = fault instanceof Refused && (diagnosis || fault.refusal.line);
    if (!isPlaced) {
      say(this.told, fault.message);
      return;
    }
    this.editor.show(diagnosis ?? plainDiagnosis(fault.refusal, fault.message));
    this.editor.goToFault();
  }

  /** Asks once more: with the module its instants go. */
  askToUnload() {
    const back = () => {
      this.isAsking = false;
      this.layOut();
    };
    const act = async () => {
      const driven = await this.driven();
      back();
      const done = await trying(
        this.told, () => this.connection.ask({ cmd: "unload", slot: this.number })
      );
      if (done) this.kept = driven;
      this.layOut();
    };
    this.isAsking = true;
    fill(
      this.acts, make("span", {}, "With the module, its instants and pending inputs go. "),
      button("Unload it", act, { id: "unload-surely", class: "grave" }), button("Keep it", back)
    );
  }
}
