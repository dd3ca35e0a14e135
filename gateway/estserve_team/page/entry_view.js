/** Where one says as whom, and with which roles, one works. */

import { button, field, fill, make, say } from "./dom.js";
import { Refused, Unknown } from "./requests.js";
import { clearOnChange, refusalPlace } from "./trying.js";

const KEY = `estserve-roles ${location.pathname}`;

export class EntryView {
  /** `entered(told)` is called after a login. */
  constructor(connection, entered) {
    this.connection = connection;
    this.entered = entered;
    this.user = make("select", { id: "entry-user" });
    this.roles = make("fieldset", { id: "entry-roles" });
    this.told = refusalPlace();
    this.title = make("h1", { tabindex: "-1" }, "Log in");
    this.person = make("p", { class: "quiet" });
    this.send = make("button", { type: "submit", class: "main", id: "entry" }, "Log in");
    this.out = button("Forget this browser", () => this.leaveForGood(), { id: "out" });
    this.element = make(
      "form", { class: "card entry" },
      this.title, this.person, field("User", this.user), this.roles,
      make("div", { class: "inline" }, this.send, this.out), this.told
    );
    this.user.addEventListener("change", () => this.showRoles());
    clearOnChange(this.element, this.told);
    this.element.addEventListener("submit", (event) => {
      event.preventDefault();
      this.login();
    });
  }

  /** Shows whom the person may be. `reason` says why a login is asked for anew. */
  show(me, reason = "") {
    this.users = new Map(me.users.map((one) => [one.user, one]));
    say(this.person, `You are ${me.person}.`);
    const nobody = `Nobody has let ${me.person} be a user of this team's policy.`;
    say(this.told, me.users.length ? reason : nobody);
    fill(this.user, ...me.users.map(({ user }) => make("option", {}, user)));
    this.send.disabled = !me.users.length;
    const last = this.lastChoice();
    if (this.users.has(last.user)) this.user.value = last.user;
    this.showRoles();
  }

  lastChoice() {
    try {
      return JSON.parse(localStorage.getItem(KEY)) ?? {};
    } catch {
      return {};
    }
  }

  /** The roles that the user may activate. Those of the last login, or the only one, are chosen. */
  showRoles() {
    const { assigned = [], authorized = [] } = this.users.get(this.user.value) ?? {};
    const last = this.lastChoice();
    const first = assigned.length === 1 ? assigned : [];
    const chosen = last.user === this.user.value ? last.roles : first;
    const boxes = authorized.map((role) => make(
      "label", {}, make(
        "input", { type: "checkbox", value: role, checked: chosen.includes(role) }
      ), ` ${role}`,
      assigned.includes(role) ? null : make("small", {}, " below an assigned one")
    ));
    fill(
      this.roles, make("legend", {}, "Roles to be active"),
      ...(boxes.length ? boxes : [make("p", { class: "quiet" }, "none")])
    );
  }

  /** Ends the visit of this browser. */
  async leaveForGood() {
    this.forget();
    await this.connection.out().catch(() => {});
    this.connection.tell("out", new Unknown("This browser is known no more."));
  }

  /** A page that is opened anew in its tab goes on as it was. */
  async again() {
    const { user, roles } = JSON.parse(sessionStorage.getItem(KEY)) ?? {};
    if (this.users.has(user)) await this.login(user, roles);
  }

  /** The page is left: it asks again. */
  forget() {
    sessionStorage.removeItem(KEY);
  }

  chosenRoles() {
    return [...this.roles.querySelectorAll("input:checked")].map(({ value }) => value);
  }

  async login(user = this.user.value, roles = this.chosenRoles()) {
    this.send.disabled = true;
    say(this.told, "");
    try {
      const told = await this.connection.login(user, roles);
      for (const store of [localStorage, sessionStorage]) store.setItem(
        KEY, JSON.stringify({ user, roles })
      );
      this.entered(told);
    } catch (fault) {
      if (!(fault instanceof Refused)) this.connection.tell("out", fault);
      say(this.told, fault.message);
    }
    this.send.disabled = false;
  }
}
