/** A policy as a policy file, which `estserve-client apply` and the page read. */

const quoted = (names) => `[${names.map((name) => `"${name}"`).join(", ")}]`;

/** A list that goes over lines where it is long. */
function listed(key, names) {
  const line = `${key} = ${quoted(names)}\n`;
  if (line.length <= 101) return line;
  return `${key} = [\n${names.map((name) => `    "${name}",\n`).join("")}]\n`;
}

/** A table of lists, where it has any. */
function tableOf(head, entries) {
  const lines = entries.filter(([, names]) => names.length).map(
    ([key, names]) => listed(key, names)
  );
  return lines.length ? `\n[${head}]\n${lines.join("")}` : "";
}

/** The text of a policy that is told whole: users with their roles, roles with their juniors and
 * permissions, separation sets. */
export function policyText({ users, roles, sets }) {
  const names = (list, key) => list.map((one) => one[key]).filter((name) => name !== "root");
  const assigned = users.map(({ user, roles: own }) => [
    user, own.filter((role) => user !== "root" || role !== "root"),
  ]);
  const granted = roles.map(({ role, permissions }) => [
    role, permissions.map(([operation, object]) => `${operation} ${object}`).filter(
      (words) => role !== "root" || words !== "administer policy"
    ),
  ]);
  return [
    listed("users", names(users, "user")), listed("roles", names(roles, "role")),
    tableOf("inherit", roles.map(({ role, juniors }) => [role, juniors])),
    tableOf("assign", assigned),
    ...sets.map(({ name, count, roles: members }) => (
      `\n[separate.${name}]\nroles = ${quoted(members)}\ncount = ${count}\n`
    )),
    tableOf("permissions", granted),
  ].join("");
}
