/** The policy, as who may read it: users, roles as a graph, grants, sets; why somebody may do
 * something; changes. */

import { ChangeForm, askAll } from "./change_form.js";
import { fill, make, say, table } from "./dom.js";
import { grantsTable } from "./grants_table.js";
import { PolicyFileForm } from "./policy_file_form.js";
import { roleGraph } from "./role_graph.js";
import { refusalPlace, trying } from "./trying.js";
import { WhyForm } from "./why_form.js";

const OWN = "what concerns you: the rest needs administer or audit on policy";

const card = (title, part, kind = "card") => make(
  "section", { class: kind, "aria-label": title }, make("h2", {}, title), part
);

export class PolicyView {
  /** `slots` has what is known of each slot, by its number. */
  constructor(connection, slots) {
    this.connection = connection;
    this.known = () => [...slots.values()].filter(({ visible }) => visible);
    this.facts = make("p", { class: "facts" });
    this.told = refusalPlace();
    this.parts = make("div", { class: "parts policy" });
    this.why = new WhyForm(connection, this.known);
    this.change = new ChangeForm(connection, this.known);
    this.file = new PolicyFileForm(connection);
    this.element = make(
      "div", {}, make(
        "header", {}, make("h1", { tabindex: "-1" }, "Policy"), this.facts
      ), this.told, this.parts,
      make(
        "div", { class: "parts policy" }, this.why.element, this.change.element, this.file.element
      )
    );
  }

  async show(active) {
    const told = await trying(this.told, () => this.connection.read("policy"));
    if (!told) return;
    for (const form of [this.why, this.change, this.file]) form.update(told);
    say(this.facts, `version ${told.version} · ${told.whole ? "all of it" : OWN}`);
    const users = told.users.map(({ user, roles }) => [user, roles.join(" ")]);
    const revoke = told.may_administer ? (commands) => this.revoke(commands) : null;
    fill(
      this.parts,
      card("Roles", this.graph(told, active), "card wide"),
      card("Users", table("Users", ["user", "roles"], users, "no users")),
      card("Grants", grantsTable(told.roles, this.known(), revoke)),
      card("Separation sets", this.sets(told))
    );
  }

  async revoke(commands) {
    say(this.told, "");
    const { fault } = await askAll(this.connection, commands);
    if (fault) say(this.told, fault.message);
  }

  graph(told, active) {
    if (!told.roles.length) return make("p", { class: "quiet" }, "no roles");
    const edges = told.roles.flatMap(
      ({ role, juniors }) => juniors.map((junior) => [role, junior])
    );
    const graph = roleGraph(told.roles.map(({ role }) => role), edges, active);
    return make(
      "div", { class: "scrolls", tabindex: "0", role: "region", "aria-label": "Roles as a graph" },
      graph
    );
  }

  sets({ sets }) {
    const rows = sets.map(({ name, count, roles }) => [
      name, `at most ${count - 1} of`, roles.join(" "),
    ]);
    return table("Separation sets", ["set", "in a session", "roles"], rows, "no separation sets");
  }
}
