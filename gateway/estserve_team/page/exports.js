/** What is saved of a wave: a list of inputs, the table that is expected of it, a VCD file. They are
 * the client's own formats. A wave has `module`, `signals`, `rows` and `ended`, what is said of an
 * instant that was refused. */

const STEP = 10; // units of time of an instant in a VCD file
const KINDS = ["input", "inout", "output"];

const placesOf = (signals, kind) => signals.flatMap(
  ([name, other], place) => (other === kind ? [[name, place]] : [])
);

/** The list of inputs, a line an instant; an instant without any is a `;`. */
export function inputsText(inputs) {
  return inputs.map((names) => `${names.join(" ") || ";"}\n`).join("");
}

/** The names that a row has of a kind, and `.` for each that may not be observed. */
function presentOf(places, row) {
  return places.flatMap(
    ([name, place]) => (row[place] === "." ? ["."] : row[place] === "1" ? [name] : [])
  ).join(" ");
}

/** The lines of cells, as wide as they have to be. */
function tableLines(heads, kinds, rows) {
  const cells = rows.map((row) => kinds.map((places) => presentOf(places, row)));
  const widths = heads.map((head, at) => {
    if (at === heads.length - 1) return 0;
    const all = kinds[at].map(([name]) => name).join(" ");
    const shown = at ? [all] : cells.map((line) => line[0]);
    return Math.max(head.length, ...shown.map(({ length }) => length));
  });
  const line = (number, words) => [
    String(number).padStart(7), ...words.map((word, at) => word.padEnd(widths[at])),
  ].join("  ").trimEnd();
  return [line("instant", heads), ...cells.map((words, at) => line(at + 1, words))];
}

/** The table of a wave, as `estserve-client test` expects it. */
export function expectedText({ signals, rows, ended }) {
  const kinds = KINDS.filter((kind) => kind !== "inout" || placesOf(signals, kind).length);
  const lines = tableLines(
    kinds.map((kind) => `${kind}s`), kinds.map((kind) => placesOf(signals, kind)), rows
  );
  if (ended) lines.push(`instant ${rows.length + 1}: ${ended.split("\n")[0]}`);
  return lines.map((one) => `${one}\n`).join("");
}

/** The short name of a wire: printable characters from `!` to `~`. */
function codeOf(number) {
  const first = String.fromCharCode(33 + (number % 94));
  return number < 94 ? first : first + codeOf(Math.floor(number / 94) - 1);
}

/** The changes of a row against the one before. */
function changesOf(wires, row, before) {
  const value = (letter) => (letter === "." ? "x" : letter);
  return wires.filter(({ place }) => row[place] !== before?.[place]).map(
    ({ place, code }) => value(row[place]) + code
  );
}

/** The wires of a VCD file: each signal that may be observed in some instant, by the path of its
 * scope, the main module first; a local one stands in those of the modules around it. */
function wiresOf({ module, signals, locals }, rows) {
  const named = [
    ...signals.map(([name]) => ({ name, path: [module] })),
    ...locals.map(([name, path]) => ({
      name: path ? name.slice(path.length + 1) : name,
      path: [module, ...(path ? path.split(".") : [])],
    })),
  ].map((one, place) => ({ ...one, place }));
  const isSeen = ({ place }) => !rows.length || rows.some((row) => row[place] !== ".");
  return named.filter(isSeen).map((one, at) => ({ ...one, code: codeOf(at + 1) }));
}

/** The lines of scopes, each with its wires and the scopes in it. */
function scopeLines(wires, depth = 0) {
  const scopes = new Map();
  for (const wire of wires.filter(({ path }) => path.length > depth)) {
    scopes.set(wire.path[depth], scopes.get(wire.path[depth]) ?? []);
    scopes.get(wire.path[depth]).push(wire);
  }
  return [...scopes].flatMap(([scope, members]) => [
    `$scope module ${scope} $end`,
    ...members.filter(({ path }) => path.length === depth + 1).map(
      ({ name, code }) => `$var wire 1 ${code} ${name} $end`
    ),
    ...scopeLines(members, depth + 1),
    "$upscope $end",
  ]);
}

/** A VCD file (IEEE 1364) of a wave: instant n lasts from 10 n on, and `tick` is up in its first
 * half. Signals that may not be observed in any instant are left out. Where the wave has `locals`,
 * pairs of a name and the modules around it, and `inner`, their rows, those are in it too. */
export function vcdText({ module, signals, rows, locals = [], inner = [] }) {
  const unknown = ".".repeat(locals.length);
  const all = rows.map((row, at) => row + (inner[at] ?? unknown));
  const wires = wiresOf({ module, signals, locals }, all);
  const tick = codeOf(0);
  const lines = [
    "$version estserve $end", "$timescale 1 ns $end",
    ...scopeLines([{ name: "tick", path: [module], code: tick }, ...wires]),
    "$enddefinitions $end",
  ];
  all.forEach((row, at) => {
    const changed = [`1${tick}`, ...changesOf(wires, row, all[at - 1])];
    lines.push(`#${STEP * (at + 1)}`);
    lines.push(...(at ? changed : ["$dumpvars", ...changed, "$end"]));
    lines.push(`#${STEP * (at + 1) + STEP / 2}`, `0${tick}`);
  });
  return [...lines, `#${STEP * (all.length + 1)}`].map((one) => `${one}\n`).join("");
}
