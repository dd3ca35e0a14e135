/** The page: who is here, which view is shown, and live events handed to it. */

import { Connection } from "./connection.js";
import { byId, button, fill, make, say } from "./dom.js";
import { EntryView } from "./entry_view.js";
import { KeysHelp, isWriting } from "./keyboard.js";
import { PolicyView } from "./policy_view.js";
import { RecordView } from "./record_view.js";
import { Unknown } from "./requests.js";
import { SlotsList } from "./slots_list.js";
import { SlotView } from "./slot_view.js";
import { nextTheme, showTheme } from "./theme.js";
import { showWaiting } from "./waiting_bar.js";

const STATES = { live: "live", waiting: "no answer yet: it is tried again ..", out: "" };

class Page {
  constructor() {
    this.connection = new Connection(
      (name, value) => this.hear(name, value), (state, fault) => this.tell(state, fault),
      (items) => showWaiting(byId("waiting"), items, this.connection.outbox)
    );
    this.entry = new EntryView(this.connection, (told) => this.entered(told));
    this.keys = new KeysHelp();
    this.slots = new Map();
    this.slotViews = new Map();
    this.list = new SlotsList();
    this.seat = null;
  }

  async start() {
    const link = this.takeLink();
    this.recolour(showTheme);
    byId("theme").addEventListener("click", () => this.recolour(nextTheme));
    byId("change-entry").addEventListener("click", () => this.leave());
    byId("keys").addEventListener("click", () => this.keys.show());
    byId("who").textContent = "Menu";
    addEventListener("hashchange", () => this.moved());
    document.addEventListener("keydown", (event) => this.pressed(event));
    document.addEventListener("click", (event) => closeOthers(event.target));
    await this.enter(link);
  }

  /** The token of a link, which is taken out of the address at once. */
  takeLink() {
    const [, link] = location.hash.match(/^#link=([\w-]+)$/) ?? [];
    if (link) history.replaceState(null, "", location.pathname);
    return link;
  }

  /** Another address: a view, or a link that was pasted into this tab. */
  async moved() {
    const link = this.takeLink();
    if (!link) return this.route();
    this.entry.forget();
    await this.connection.leave().catch(() => {});
    return this.enter(link);
  }

  async enter(link) {
    try {
      this.me = await this.connection.enter(link);
      this.showEntry();
      if (!link) await this.entry.again();
    } catch (fault) {
      this.tell("out", fault);
    }
  }

  showEntry(reason) {
    this.seat = null;
    this.view = null;
    document.body.dataset.in = "no";
    this.entry.show(this.me, reason);
    fill(byId("main"), this.entry.element);
    say(byId("who"), "Menu");
    say(byId("roles"), "");
  }

  entered(told) {
    this.seat = told;
    document.body.dataset.in = "yes";
    this.slots.clear();
    this.slotViews.clear();
    this.list = new SlotsList();
    this.policy = new PolicyView(this.connection, this.slots);
    this.record = new RecordView(this.connection);
    const roles = told.roles.join(" ");
    say(byId("who"), told.user);
    say(byId("roles"), roles ? `${told.user} with ${roles}` : `${told.user} with no roles`);
    this.route();
  }

  async leave() {
    byId("menu").open = false;
    this.entry.forget();
    await this.connection.leave().catch(() => {});
    await this.enter();
  }

  /** Shows the view that the address names. */
  route() {
    if (!this.seat) return;
    const [, name, number] = location.hash.match(/^#(\w+)(?:=(\d+))?$/) ?? [];
    this.chosen = name === "policy" || name === "record" ? name : "slots";
    if (number !== undefined && Number(number) < 16) this.number = Number(number);
    for (const link of document.querySelectorAll("#views a")) {
      if (link.dataset.view === this.chosen) link.setAttribute("aria-current", "page");
      else link.removeAttribute("aria-current");
    }
    if (this.chosen === "slots") this.showSlots();
    else this.showView(this.chosen === "policy" ? this.policy : this.record);
  }

  showView(view) {
    this.view = view;
    fill(byId("main"), view.element);
    view.show(this.seat.roles);
  }

  /** Shows the list of slots, and the one that is chosen: at first one that is loaded. */
  showSlots() {
    const slots = [...this.slots.values()].sort((one, other) => one.slot - other.slot);
    if (!slots.length) return;
    this.number ??= (
      slots.find(({ loaded }) => loaded) ?? slots.find(({ visible }) => visible) ?? slots[0]
    ).slot;
    this.list.show(slots, this.number);
    if (!this.slotViews.has(this.number)) this.slotViews.set(
      this.number, new SlotView(this.connection, this.number)
    );
    this.view = this.slotViews.get(this.number);
    if (
      byId("main").firstChild !== this.list.element || byId("main").lastChild !== this.view.element
    ) {
      fill(byId("main"), this.list.element, this.view.element);
    }
    if (this.slots.has(this.number)) this.view.update(this.slots.get(this.number));
  }

  pressed(event) {
    if (event.key === "?" && !isWriting(event)) this.keys.show();
    else if (event.key === "Escape") closeOthers(null);
    else this.view?.pressed?.(event);
  }

  // What is heard.

  hear(name, value) {
    if (name === "slots") {
      for (const slot of value) this.slots.set(slot.slot, slot);
      if (this.seat && this.chosen === "slots") this.showSlots();
    } else if (name === "policy" || name === "record") {
      this.refreshLater(name);
    } else if (name === "warnings") {
      this.warn(value);
    } else if (name === "ended") {
      this.connection.leave().catch(() => {});
      this.showEntry(value);
    }
  }

  warn(sentences) {
    this.record?.warn(sentences);
    fill(byId("warnings"), ...sentences.map((one) => make("p", {}, one)));
  }

  /** Reads policy or record anew where it is shown; many changes at once are read once. */
  refreshLater(name) {
    if (this.chosen !== name) return;
    this.refreshing ??= setTimeout(() => {
      this.refreshing = null;
      if (this.seat && this.chosen === name) this.view.show(this.seat.roles);
    }, 400);
  }

  tell(state, fault) {
    byId("state").dataset.state = state;
    say(byId("state"), STATES[state]);
    if (state !== "out") return;
    if (fault instanceof Unknown || !this.me) this.showUnknown(fault);
    else this.showEntry(fault?.message);
  }

  /** Says how one gets in. */
  showUnknown(fault) {
    this.seat = null;
    document.body.dataset.in = "no";
    const again = button("Try again", () => this.enter());
    fill(byId("main"), make(
      "section", { class: "card entry" }, make("h1", { tabindex: "-1" }, "Who are you?"),
      make("p", { class: "refusal", role: "alert" }, fault?.message ?? ""),
      make(
        "p", {},
        "Ask for a link in a terminal on the team's machine, and open it within five minutes:"
      ),
      make("pre", {}, make("code", {}, "estserve-client team link --state DIR")), again
    ));
  }

  /** Changes or shows the theme, and draws anew what has colours of its own. */
  recolour(change) {
    change(byId("theme"));
    for (const view of this.slotViews.values()) view.recolour();
  }
}

/** Closes what is open besides the place of a click: menus and lists. */
function closeOthers(place) {
  for (const open of document.querySelectorAll("details.menu[open], #menu[open]")) {
    if (!open.contains(place)) open.open = false;
  }
}

new Page().start();
