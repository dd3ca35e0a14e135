/** The order of roles as a small graph: seniors above juniors. */

import { draw } from "./dom.js";

const WIDE = 112, HIGH = 30, APART = 16, BELOW = 44; // pixels

/** The roles by how far they stand above the lowest, by edges `[senior, junior]`. */
export function layersOf(roles, edges) {
  const below = new Map(roles.map((role) => [role, []]));
  for (const [senior, junior] of edges) below.get(senior)?.push(junior);
  const heights = new Map();
  const heightOf = (role) => {
    if (!heights.has(role)) {
      heights.set(role, Math.max(-1, ...below.get(role).map(heightOf)) + 1);
    }
    return heights.get(role);
  };
  const layers = [];
  for (const role of roles) (layers[heightOf(role)] ??= []).push(role);
  return layers;
}

/** Where each role of a layer would stand best: over the middle of its juniors. */
function wishesOf(layer, edges, places) {
  return layer.map((role, at) => {
    const juniors = edges.filter(([senior]) => senior === role).map(
      ([, junior]) => places.get(junior).x
    );
    const middle = juniors.reduce((sum, x) => sum + x, 0) / juniors.length;
    return { role, x: juniors.length ? middle : at * (WIDE + APART) };
  }).sort((one, other) => one.x - other.x);
}

/** The middle of each role's box, from the lowest layer up. */
function placesOf(layers, edges) {
  const places = new Map();
  layers.forEach((layer, height) => {
    let free = 0;
    for (const { role, x } of wishesOf(layer, edges, places)) {
      const at = Math.max(free, x);
      places.set(role, { x: at, y: (layers.length - 1 - height) * (HIGH + BELOW) });
      free = at + WIDE + APART;
    }
  });
  return places;
}

/** The roles in an order in which the juniors of one senior stand side by side. */
function neighbours(roles, edges) {
  const found = new Set(edges.map(([, junior]) => junior));
  return [...found, ...roles.filter((role) => !found.has(role))];
}

function drawEdge([senior, junior], places) {
  const [from, to] = [places.get(senior), places.get(junior)];
  const [top, bottom] = [from.y + HIGH / 2, to.y - HIGH / 2 - 5];
  const bend = (bottom - top) / 2;
  const curve = `${from.x},${top + bend} ${to.x},${bottom - bend} ${to.x},${bottom}`;
  const path = `M${from.x},${top} C${curve}`;
  return draw("path", { d: path, class: "edge", "marker-end": "url(#arrow)" });
}

function drawRole(role, { x, y }, active) {
  const shown = role.length > 13 ? `${role.slice(0, 12)}…` : role;
  return draw(
    "g", { class: active ? "role active" : "role", transform: `translate(${x},${y})` },
    draw("title", { text: role }),
    draw("rect", { x: -WIDE / 2, y: -HIGH / 2, width: WIDE, height: HIGH, rx: 8 }),
    draw("text", { "text-anchor": "middle", "dominant-baseline": "central", text: shown })
  );
}

function drawArrow() {
  const size = { refX: 6, refY: 4, markerWidth: 8, markerHeight: 8 };
  return draw(
    "marker", { id: "arrow", viewBox: "0 0 8 8", orient: "auto", ...size },
    draw("path", { d: "M0,0 L8,4 L0,8 z" })
  );
}

/** The graph of roles with edges `[senior, junior]`; those that are active are marked. */
export function roleGraph(roles, edges, active) {
  const known = edges.filter((edge) => edge.every((role) => roles.includes(role)));
  const layers = layersOf(neighbours(roles, known), known);
  const places = placesOf(layers, known);
  const wide = Math.max(...[...places.values()].map(({ x }) => x)) + WIDE + 4;
  const high = layers.length * (HIGH + BELOW) - BELOW + 4;
  const told = known.map(([senior, junior]) => `${senior} above ${junior}`).join(", ");
  const box = `${-WIDE / 2 - 2} ${-HIGH / 2 - 2} ${wide} ${high}`;
  const label = `Roles: ${roles.join(", ")}. ${told || "No role is above another."}`;
  return draw(
    "svg", {
      viewBox: box, width: wide, height: high, class: "roles", role: "img", "aria-label": label,
    },
    draw("defs", {}, drawArrow()),
    ...known.map((edge) => drawEdge(edge, places)),
    ...roles.map((role) => drawRole(role, places.get(role), active.includes(role)))
  );
}
