/** Draws the part of a wave that is seen. */

import { plateausOf } from "./edges.js";
import { ABSENT, HIDDEN, PRESENT } from "./wave_rows.js";

export const ROW = 26, RULER = 32; // pixels
const NUMBERS = 21, LETTERS = 7; // where numbers and the letters of marks stand in the ruler
const SLOPED = 10; // from this width of an instant on, plateaus have slopes

/** The colours of the page's theme, by the names of the style sheet. */
export function coloursOf(element) {
  const style = getComputedStyle(element);
  const named = (name) => style.getPropertyValue(name).trim();
  return {
    ground: named("--card"), ink: named("--ink"), quiet: named("--quiet"), line: named("--line"),
    input: named("--input"), output: named("--output"), inout: named("--inout"),
    cursor: named("--cursor"), soft: named("--soft"), accent: named("--accent"),
    grave: named("--grave"), font: named("--mono"),
  };
}

/** The sign before a signal's name, by its kind: what goes in, what comes out, what does both, and what
 * stays inside. */
const SIGNS = { input: "▸", output: "◂", inout: "◆", local: "·" };

/** The instants that a view shows, the first and the last. */
export function shownInstants(view) {
  const first = Math.max(1, Math.floor(view.left / view.cell) + 1);
  const wide = Math.max(0, view.width - view.names);
  return [first, Math.min(view.instants, Math.ceil((view.left + wide) / view.cell) + 1)];
}

/** The lines that a view shows, by their places. */
function shownLines(view) {
  const first = Math.max(0, Math.floor(view.top / ROW));
  return [first, Math.min(view.lines.length, Math.ceil((view.top + view.height - RULER) / ROW))];
}

const leftOf = (view, instant) => view.names + (instant - 1) * view.cell - view.left;
const topOf = (view, at) => RULER + at * ROW - view.top;

/** How far apart the numbers over the instants stand. */
function numberStep(view) {
  const room = 10 + 8 * String(view.instants).length;
  return [1, 2, 5, 10, 20, 50, 100, 200, 500, 1000, 2000, 5000].find(
    (step) => step * view.cell >= room
  ) ?? 10000;
}

function drawRuler(pen, view, colours, [first, last]) {
  const step = numberStep(view);
  pen.fillStyle = colours.ground;
  pen.fillRect(view.names + 1, 0, view.width, RULER);
  pen.fillStyle = colours.quiet;
  pen.textAlign = "center";
  for (let at = Math.ceil(first / step) * step; at <= last; at += step) {
    pen.fillText(String(at), leftOf(view, at) + view.cell / 2, NUMBERS);
  }
}

/** A band over one instant. */
function drawBand(pen, view, instant, colour) {
  pen.fillStyle = colour;
  pen.fillRect(leftOf(view, instant), 0, Math.max(2, view.cell), view.height);
}

/** The marks, each a line at the beginning of its instant with its letter. */
function drawMarks(pen, view, colours) {
  pen.textAlign = "left";
  for (const { instant, letter, isParting } of view.marks) {
    const x = Math.round(leftOf(view, instant));
    if (x < view.names) continue;
    pen.fillStyle = isParting ? colours.grave : colours.accent;
    pen.fillRect(x, 0, 1.5, view.height);
    pen.fillText(letter, x + 3, LETTERS);
  }
}

/** A plateau: a pulse over the instants in which a signal is present without a break. */
function tracePlateau({ solid, filled }, x, wide, high, low, slope) {
  solid.moveTo(x, low);
  solid.lineTo(x + slope, high);
  solid.lineTo(x + wide - slope, high);
  solid.lineTo(x + wide, low);
  filled.rect(x + slope, high, wide - 2 * slope, low - high);
}

/** What of a signal's line is down, and where it may not be observed. */
function traceRest({ solid, dotted }, view, statusAt, low, middle, [first, last]) {
  for (let instant = first; instant <= last; instant += 1) {
    const [status, x] = [statusAt(instant), leftOf(view, instant)];
    if (status === ABSENT) {
      solid.moveTo(x, low);
      solid.lineTo(x + view.cell, low);
    } else if (status === HIDDEN) {
      dotted.rect(x + view.cell / 2 - 1, middle, 2, 2);
    }
  }
}

/** The line of one signal: a plateau where it is present, down where it is absent, dots where it may
 * not be observed. */
function traceRow(view, statusAt, y, span) {
  const paths = { solid: new Path2D(), dotted: new Path2D(), filled: new Path2D() };
  const [high, low] = [y + 6, y + ROW - 6];
  const slope = view.cell >= SLOPED ? Math.min(4, view.cell / 5) : 0;
  traceRest(paths, view, statusAt, low, (high + low) / 2, span);
  const [first, last] = span;
  const begin = first > 1 && statusAt(first - 1) === PRESENT ? first - 1 : first;
  const end = last < view.instants && statusAt(last + 1) === PRESENT ? last + 1 : last;
  for (const [from, to] of plateausOf(statusAt, begin, end)) {
    const wide = (to - from + 1) * view.cell;
    tracePlateau(paths, leftOf(view, from), wide, high, low, slope);
  }
  return paths;
}

function drawRow(pen, view, statusOf, colours, at, span) {
  const signal = view.lines[at];
  const statusAt = (instant) => statusOf(signal, instant);
  const { solid, dotted, filled } = traceRow(view, statusAt, topOf(view, at), span);
  pen.strokeStyle = pen.fillStyle = colours[signal.kind] ?? colours.ink;
  pen.globalAlpha = 0.22;
  pen.fill(filled);
  pen.globalAlpha = 1;
  pen.stroke(solid);
  pen.fillStyle = colours.quiet;
  pen.fill(dotted);
}

/** A name that fits into the column of names. */
function fitName(pen, name, room) {
  if (pen.measureText(name).width <= room) return name;
  let end = name.length;
  while (end > 1 && pen.measureText(`${name.slice(0, end)}…`).width > room) end -= 1;
  return `${name.slice(0, end)}…`;
}

/** The title of a group, over the whole width. */
function drawTitle(pen, view, colours, line, y) {
  pen.fillStyle = colours.soft;
  pen.fillRect(0, y + 1, view.width, ROW - 1);
  pen.fillStyle = colours.ink;
  const told = `${line.isFolded ? "▸" : "▾"} ${line.title} (${line.count})`;
  pen.fillText(fitName(pen, told, view.width - 8), 4, y + ROW / 2);
}

function drawNames(pen, view, colours, [first, last]) {
  pen.fillStyle = colours.ground;
  pen.fillRect(0, 0, view.names, view.height);
  pen.textAlign = "left";
  for (let at = first; at < last; at += 1) {
    const [line, y] = [view.lines[at], topOf(view, at)];
    if (line.title !== undefined) {
      drawTitle(pen, view, colours, line, y);
    } else {
      if (line.name === view.chosen) {
        pen.fillStyle = colours.cursor;
        pen.fillRect(0, y + 1, view.names, ROW - 1);
      }
      pen.fillStyle = colours[line.kind] ?? colours.ink;
      pen.fillText(SIGNS[line.kind] ?? "", 4, y + ROW / 2);
      pen.fillStyle = colours.ink;
      pen.fillText(fitName(pen, line.label ?? line.name, view.names - 24), 17, y + ROW / 2);
    }
  }
  pen.fillStyle = colours.ground;
  pen.fillRect(0, 0, view.names, RULER);
  pen.fillStyle = colours.quiet;
  pen.fillText("instant", 4, NUMBERS);
}

function drawLines(pen, view, colours, [first, last]) {
  pen.strokeStyle = colours.line;
  pen.beginPath();
  for (let at = first; at <= last; at += 1) {
    const y = Math.round(topOf(view, at)) + 0.5;
    pen.moveTo(0, y);
    pen.lineTo(view.width, y);
  }
  pen.moveTo(view.names + 0.5, 0);
  pen.lineTo(view.names + 0.5, view.height);
  pen.stroke();
}

/** Draws what a view shows; `statusOf` tells of a signal and an instant. A view has `width`, `height`,
 * `left`, `top` (how far it is scrolled), `cell` (the width of an instant), `names` (the width of the
 * names), `lines` (signals and titles of groups), `instants`, `cursor`, `chosen` (a name), `marks`,
 * `scale` (of the screen). */
export function drawWave(pen, view, statusOf, colours) {
  pen.setTransform(view.scale, 0, 0, view.scale, 0, 0);
  pen.fillStyle = colours.ground;
  pen.fillRect(0, 0, view.width, view.height);
  pen.font = `12px ${colours.font}`;
  pen.textBaseline = "middle";
  pen.lineWidth = 1;
  const [span, lines] = [shownInstants(view), shownLines(view)];
  if (view.cursor) drawBand(pen, view, view.cursor, colours.cursor);
  drawLines(pen, view, colours, lines);
  pen.lineWidth = 1.5;
  for (let at = lines[0]; at < lines[1]; at += 1) {
    if (view.lines[at].name !== undefined) drawRow(pen, view, statusOf, colours, at, span);
  }
  drawRuler(pen, view, colours, span);
  drawMarks(pen, view, colours);
  pen.lineWidth = 1;
  drawNames(pen, view, colours, lines);
  drawLines(pen, view, colours, [0, -1]);
}
