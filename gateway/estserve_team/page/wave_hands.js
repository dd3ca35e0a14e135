/** What a pointer and keys do to a wave. */

import { ROW, RULER } from "./wave_canvas.js";

const MOVES = {
  ArrowLeft: -1, ArrowRight: 1, PageUp: -10, PageDown: 10, Home: -Infinity,
};

/** A click on the canvas: a group is folded, a signal chosen, or an instant looked at. */
export function pointed(wave, event) {
  const { left, top } = wave.canvas.getBoundingClientRect();
  const x = event.clientX - left - wave.names();
  const line = wave.layout.lines()[
    Math.floor((event.clientY - top - RULER + wave.box.scrollTop) / ROW)
  ];
  const instant = Math.floor((x + wave.box.scrollLeft) / wave.cell) + 1;
  if (line?.title !== undefined) wave.layout.fold(line.title);
  else if (x < 0) wave.chosen = line?.name ?? wave.chosen;
  else if (instant <= wave.instants) wave.cursor = instant;
  wave.relayout();
}

/** Does what a key stands for. True where it stands for something. */
function act(wave, key) {
  const acts = {
    ArrowUp: () => wave.choose(-1), ArrowDown: () => wave.choose(1),
    "[": () => wave.toEdge(-1), "]": () => wave.toEdge(1), m: () => wave.mark(),
    "+": () => wave.zoom(1), "-": () => wave.zoom(-1), End: () => wave.followNewest(),
  };
  if (key in acts) acts[key]();
  else if (!(key in MOVES) || !wave.instants) return false;
  else wave.jump(Math.max(1, Math.min(wave.instants, wave.here() + MOVES[key])));
  return true;
}

/** A key that is pressed on the wave's box. */
export function pressed(wave, event) {
  if (event.target !== wave.box || !act(wave, event.key)) return;
  event.preventDefault();
  event.stopPropagation();
}
