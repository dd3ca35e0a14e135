/** Who is here, and what was done: the log of the record, and its archive. */

import { button, field, fill, make, say, table } from "./dom.js";
import { clearOnChange, refusalPlace, trying } from "./trying.js";

const PAGE = 100; // entries that are shown at once

const timeOf = (text) => new Date(text).toLocaleTimeString([], { hour12: false });

export class RecordView {
  constructor(connection) {
    this.connection = connection;
    this.told = refusalPlace();
    this.who = make("div", {});
    this.log = make("div", {});
    this.more = button("Older", () => this.older(), { id: "log-older", hidden: true });
    this.warnings = make("ul", { class: "warnings" });
    this.element = make(
      "div", {}, make(
        "header", {}, make("h1", { tabindex: "-1" }, "Record")
      ), this.told, this.warnings,
      make(
        "div", { class: "parts" },
        make(
          "section", { class: "card", "aria-label": "Who is logged in" },
          make("h2", {}, "Who is logged in"), this.who
        ),
        make(
          "section", { class: "card wide", "aria-label": "Log" }, make("h2", {}, "Log"),
          this.buildFilter(), this.log, this.more
        ),
        this.buildArchive()
      )
    );
  }

  buildFilter() {
    this.slot = make("select", { id: "log-slot" }, make("option", { value: "" }, "all"));
    for (let slot = 0; slot < 16; slot += 1) this.slot.append(make("option", {}, String(slot)));
    this.user = make("input", { id: "log-user", size: "10" });
    const form = make(
      "form", { class: "inline" }, field("Slot", this.slot), field("User", this.user),
      make("button", { type: "submit", id: "log-show" }, "Show")
    );
    form.addEventListener("submit", (event) => {
      event.preventDefault();
      this.show();
    });
    return form;
  }

  buildArchive() {
    this.archived = make("select", { id: "archive-slot" }, make("option", { value: "" }, "none"));
    for (let slot = 0; slot < 16; slot += 1) this.archived.append(make("option", {}, String(slot)));
    const [told, note] = [refusalPlace(), make("p", { class: "quiet" })];
    const form = make(
      "form", { class: "card", "aria-label": "Archive" }, make("h2", {}, "Archive"),
      make(
        "p", {},
        "Begins a new record: everyone is logged out, and the old record is kept. ",
        "A slot that is named is empty afterwards."
      ),
      field("Empty slot", this.archived), make(
        "button", { type: "submit", id: "archive" }, "Archive"
      ), told, note
    );
    clearOnChange(form, told);
    form.addEventListener("submit", async (event) => {
      event.preventDefault();
      const words = this.archived.value === "" ? {} : { slot: Number(this.archived.value) };
      if (await trying(told, () => this.connection.once("archive", words))) say(
        note, "A new record has begun."
      );
    });
    return form;
  }

  async show() {
    const who = await trying(this.told, () => this.connection.read("who"));
    if (!who) return;
    const rows = who.holders.map((one) => [
      one.user, one.roles?.join(" ") ?? "", one.person, String(one.session ?? ""),
      timeOf(one.since),
    ]);
    fill(
      this.who,
      table("Who is logged in", ["user", "roles", "person", "session", "since"], rows, "nobody")
    );
    this.entries = [];
    await this.older();
  }

  /** Shows older entries beneath those that are shown. */
  async older() {
    const words = { limit: PAGE };
    if (this.slot.value !== "") words.slot = this.slot.value;
    if (this.user.value.trim()) words.user = this.user.value.trim();
    if (this.entries.length) words.before = this.entries[this.entries.length - 1].number;
    const log = await trying(this.told, () => this.connection.read("log", words));
    if (!log) return;
    this.entries.push(...log.entries);
    this.more.hidden = !log.more;
    const rows = this.entries.map((one) => [
      timeOf(one.time), one.user, one.told, one.slot === null ? "policy" : `slot ${one.slot}`,
      String(one.place), one.instant ? String(one.instant) : "",
    ]);
    fill(
      this.log,
      table("Log", ["time", "user", "command", "of", "place", "instant"], rows, "no entries")
    );
  }

  warn(sentences) {
    fill(this.warnings, ...sentences.map((one) => make("li", {}, one)));
  }
}
