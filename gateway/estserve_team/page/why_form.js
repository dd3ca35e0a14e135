/** The form that tells why somebody may do something. */

import { field, fill, make } from "./dom.js";
import { PermissionFields } from "./permission_fields.js";
import { clearOnChange, refusalPlace, trying } from "./trying.js";

export class WhyForm {
  constructor(connection, slots) {
    this.connection = connection;
    this.user = make("select", { id: "why-user", required: true });
    this.permission = new PermissionFields("why", slots);
    this.told = refusalPlace();
    this.answer = make("div", { id: "why-answer", role: "status" });
    this.element = make(
      "form", { class: "card", "aria-label": "Why may somebody" }, make("h2", {}, "Why?"),
      field("User", this.user), this.permission.element,
      make("button", { type: "submit", id: "why" }, "Ask"), this.told, this.answer
    );
    clearOnChange(this.element, this.told);
    this.element.addEventListener("change", () => fill(this.answer));
    this.element.addEventListener("submit", (event) => {
      event.preventDefault();
      this.ask();
    });
  }

  update({ users }) {
    const { value } = this.user;
    fill(this.user, ...users.map(({ user }) => make("option", {}, user)));
    if (users.some(({ user }) => user === value)) this.user.value = value;
    this.permission.refill();
  }

  /** Asks about each object that is meant. */
  async ask() {
    const { operation, objects } = this.permission.value();
    fill(this.answer);
    for (const object of objects) {
      const words = { user: this.user.value, operation, object };
      const why = await trying(this.told, () => this.connection.read("why", words));
      if (!why) return;
      const lines = objects.length > 1 ? [`${operation} on ${object}:`, ...why.lines] : why.lines;
      this.answer.append(...lines.map((line) => make("p", {}, line)));
    }
  }
}
