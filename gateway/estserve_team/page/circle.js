/** The circle of a stuck instant, drawn over its text: each emission waits for a test, and the test for
 * the emission that may still come. */

import { draw, make } from "./dom.js";

const NEAR = 28, APART = 22; // pixels that a curve stands out, and the next one more
const ABOVE = 60; // pixels of text that are seen over the first line
const LOOP = 5; // pixels between the ends of a curve on one line
const HEAD = "circle-head";

/** The curves of a circle, each from a line to a line: what waits, with the name of what it waits for,
 * and with none from an emission back to its test. Each stands once. */
export function curvesOf(circle) {
  const curves = circle.flatMap(({ emission, test, target, to }) => [
    { from: emission, to: test, name: "" }, { from: test, to, name: target },
  ]);
  const words = curves.map((curve) => JSON.stringify(curve));
  return curves.filter(({ from, to, name }, at) => (
    words.indexOf(words[at]) === at && (name || from !== to)
  ));
}

/** How a curve goes between two heights, `x` being where the text ends there. */
export function wayOf(from, to, x, far) {
  const [begin, end] = from === to ? [from - LOOP, to + LOOP] : [from, to];
  return `M ${x} ${begin} C ${far} ${begin} ${far} ${end} ${x} ${end}`;
}

function head() {
  const way = draw("path", { d: "M 0 0 L 8 4 L 0 8 z" });
  const shape = { id: HEAD, viewBox: "0 0 8 8", refX: 7, refY: 4, markerWidth: 7, markerHeight: 7 };
  return draw("defs", {}, draw("marker", { ...shape, orient: "auto-start-reverse" }, way));
}

/** Takes the circle that is drawn over a text away. */
export function eraseCircle(source) {
  source.querySelector(":scope > .circle")?.remove();
}

/** Draws a circle over a text, whose lines are the element's children, and goes there. */
export function drawCircle(source, circle) {
  eraseCircle(source);
  const curves = curvesOf(circle);
  if (!curves.length) return;
  const places = new Map(curves.flatMap(({ from, to }) => [from, to]).map((line) => {
    const item = source.children[line - 1];
    const code = item.firstElementChild;
    return [line, { y: item.offsetTop + item.offsetHeight / 2, x: code.offsetLeft + code.offsetWidth }];
  }));
  const x = Math.max(...[...places.values()].map((place) => place.x)) + 6;
  source.scrollTop = Math.min(...[...places.values()].map((place) => place.y)) - ABOVE;
  const far = x + NEAR + APART * curves.length;
  const shapes = curves.flatMap(({ from, to, name }, at) => {
    const [begin, end] = [places.get(from).y, places.get(to).y];
    const out = x + NEAR + APART * at;
    const way = draw("path", {
      d: wayOf(begin, end, x, out), class: name ? "waits" : "within", "marker-end": `url(#${HEAD})`,
    });
    const words = { x: (x + 3 * out) / 4 + 4, y: (begin + end) / 2 + 4 + 7 * at };
    return name ? [way, draw("text", words, name)] : [way];
  });
  const wide = far + 8 * Math.max(...curves.map(({ name }) => name.length));
  const size = { width: wide, height: source.scrollHeight };
  source.append(make(
    "li", { class: "circle", "aria-hidden": "true" }, draw("svg", size, head(), ...shapes)
  ));
}
