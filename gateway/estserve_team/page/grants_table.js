/** The grants of a policy, folded over whole interfaces, each with a way to revoke it. */

import { button, make, table } from "./dom.js";
import { fold } from "./patterns.js";

/** What stands for an object: itself, or the objects that a pattern stands for. */
function objectCell({ object, objects }) {
  if (objects.length === 1) return object;
  return make(
    "details", {}, make("summary", {}, `${object} (${objects.length})`),
    make("small", {}, objects.join(" "))
  );
}

/** Whether a grant is the one without which nobody changes the policy any more. */
const isLast = (role, operation) => role === "root" && operation === "administer";

/** The table. `revoke(commands)` is called with what a row stands for; without it rows have no
 * button. */
export function grantsTable(roles, slots, revoke) {
  const rows = roles.flatMap(({ role, permissions }) => fold(permissions, slots).map((grant) => {
    const { operation, object, objects } = grant;
    const commands = objects.map((one) => ({ cmd: "revoke", role, op: operation, object: one }));
    const control = revoke && !isLast(role, operation) && button("Revoke", () => revoke(commands), {
      class: "small", "aria-label": `revoke ${operation} ${object} of ${role}`,
    });
    return [role, operation, objectCell(grant), control || ""];
  }));
  return table("Grants", ["role", "operation", "object", ""], rows, "no grants");
}
