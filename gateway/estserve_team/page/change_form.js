/** The form that changes the policy: what is there is chosen, only new names are typed. */

import { field, fill, make, say } from "./dom.js";
import { PermissionFields } from "./permission_fields.js";
import { Refused } from "./requests.js";
import { clearOnChange, needs, refusalPlace } from "./trying.js";

const NEW = { type: "new" };
const chosen = (from) => ({ type: "chosen", from });
const MANY = { type: "many", from: "roles" };
const NUMBER = { type: "number" };

/** The commands, each in words, with its fields: a label, and what can be put there. */
export const CHANGES = {
  adduser: ["add a user", { user: ["User", NEW] }],
  deluser: ["delete a user", { user: ["User", chosen("users")] }],
  addrole: ["add a role", { role: ["Role", NEW] }],
  delrole: ["delete a role", { role: ["Role", chosen("roles")] }],
  assign: ["give a user a role", { user: ["User", chosen("users")], role: ["Role", chosen("roles")] }],
  deassign: [
    "take a role from a user", { user: ["User", chosen("users")], role: ["Role", chosen("roles")] },
  ],
  grant: ["let a role do something", { role: ["Role", chosen("roles")] }],
  revoke: ["let a role do something no more", { role: ["Role", chosen("roles")] }],
  inherit: [
    "put a role above another",
    { senior: ["Upper role", chosen("roles")], junior: ["Lower role", chosen("roles")] },
  ],
  disinherit: [
    "put a role no more above another",
    { senior: ["Upper role", chosen("roles")], junior: ["Lower role", chosen("roles")] },
  ],
  dsd: [
    "separate roles",
    {
      name: ["Name of the set", NEW], roles: ["Roles", MANY],
      count: ["A session may not have this many of them", NUMBER],
    },
  ],
  undsd: ["separate roles no more", { name: ["Set", chosen("sets")] }],
};

/** Gives a list these choices; what is chosen stays chosen. */
function choices(list, names) {
  const before = new Set([...list.selectedOptions].map(({ value }) => value));
  fill(list, ...names.map((one) => make("option", { selected: before.has(one) }, one)));
  return list;
}

export class ChangeForm {
  constructor(connection, slots) {
    this.connection = connection;
    this.known = { users: [], roles: [], sets: [] };
    this.command = make(
      "select", { id: "change-command" },
      ...Object.entries(CHANGES).map(([name, [told]]) => make("option", { value: name }, told))
    );
    this.permission = new PermissionFields("change", slots);
    this.fields = make("div", {});
    this.told = refusalPlace();
    this.done = make("p", { role: "status", class: "quiet" });
    this.send = make("button", { type: "submit", id: "change", class: "main" }, "Do it");
    this.note = make("p", { class: "missing" });
    this.element = this.build();
    this.refill();
  }

  build() {
    const form = make(
      "form", { class: "card", "aria-label": "Change the policy" }, make("h2", {}, "Change"),
      this.note, field("What", this.command), this.fields, this.send, this.told, this.done
    );
    this.command.addEventListener("change", () => this.refill());
    clearOnChange(form, this.told, this.done);
    form.addEventListener("submit", (event) => {
      event.preventDefault();
      this.change();
    });
    return form;
  }

  /** Takes what there is to choose from. */
  update({ users, roles, sets, may_administer: allowed }) {
    this.known = {
      users: users.map(({ user }) => user), roles: roles.map(({ role }) => role),
      sets: sets.map(({ name }) => name),
    };
    this.send.disabled = !allowed;
    say(this.note, allowed ? "" : `You may not change the policy (${needs("administer", "policy")}).`);
    this.refresh();
  }

  /** Offers what there is to choose from by now; the fields stay, and what is chosen in them. */
  refresh() {
    const [, fields] = CHANGES[this.command.value];
    for (const [name, control] of this.controls) {
      const { from } = fields[name][1];
      if (from) choices(control, this.known[from]);
    }
    this.permission.refill();
  }

  /** Shows the fields of the command; what was put in them stays where it can. */
  refill() {
    const before = this.keys();
    const [, fields] = CHANGES[this.command.value];
    this.controls = new Map(
      Object.entries(fields).map(([name, [, form]]) => [name, this.buildControl(name, form)])
    );
    const parts = [...this.controls].map(([name, control]) => field(fields[name][0], control));
    const hasPermission = ["grant", "revoke"].includes(this.command.value);
    fill(this.fields, ...parts, hasPermission ? this.permission.element : null);
    if (hasPermission) this.permission.refill();
    for (const [name, control] of this.controls) this.putBack(control, before[name]);
  }

  putBack(control, value) {
    if (value === undefined || control.multiple) return;
    const has = control.tagName !== "SELECT" || [...control.options].some((one) => one.value === value);
    if (has && control.type !== "number") control.value = value;
  }

  buildControl(name, { type, from }) {
    if (type === "new") return make("input", { name, required: true, maxlength: "24" });
    if (type === "number") {
      return make("input", { name, required: true, type: "number", min: "2", max: "32", value: "2" });
    }
    const list = make("select", { name, required: true, multiple: type === "many" });
    return choices(list, this.known[from]);
  }

  /** The keys of the command. */
  keys() {
    return Object.fromEntries([...(this.controls ?? [])].map(([name, control]) => [
      name, control.multiple ? [...control.selectedOptions].map(({ value }) => value)
        : control.type === "number" ? Number(control.value) : control.value.trim(),
    ]));
  }

  /** The commands that are meant: of a pattern one for each object. */
  commands() {
    const [cmd, keys] = [this.command.value, this.keys()];
    if (!["grant", "revoke"].includes(cmd)) return [{ cmd, ...keys }];
    const { operation, objects } = this.permission.value();
    return objects.map((object) => ({ cmd, ...keys, op: operation, object }));
  }

  async change() {
    const commands = this.commands();
    say(this.done, "");
    say(this.told, "");
    const { done, there, fault } = await askAll(this.connection, commands);
    if (fault) say(this.told, fault.message);
    const more = there ? `, ${there} there already` : "";
    if (done || there) say(this.done, commands.length > 1 ? `${done} done${more}` : `done${more}`);
  }
}

/** What is refused since it is so already, which does no harm where many are asked for. */
const SO_ALREADY = ["AlreadyGranted", "NotGranted"];

/** Asks for commands in turn, up to the first that is refused. How many were done, how many were so
 * already, and the refusal. */
export async function askAll(connection, commands) {
  let [done, there] = [0, 0];
  for (const command of commands) {
    try {
      await connection.ask(command);
      done += 1;
    } catch (fault) {
      const isSo = commands.length > 1 && fault instanceof Refused && SO_ALREADY.includes(fault.fault);
      if (!isSo) return { done, there, fault };
      there += 1;
    }
  }
  return { done, there, fault: null };
}
