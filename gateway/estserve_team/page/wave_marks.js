/** Marked instants of a wave, each with a letter. */

const LETTERS = "abcdefghijklmnopqrstuvwxyz";

export class WaveMarks {
  constructor() {
    this.reset();
  }

  reset() {
    this.marks = [];
  }

  /** Marks an instant, or takes its mark away. */
  toggle(instant, isParting = false) {
    const before = this.marks.length;
    this.marks = this.marks.filter((mark) => mark.instant !== instant);
    if (this.marks.length < before) return;
    const used = new Set(this.marks.map(({ letter }) => letter));
    const letter = [...LETTERS].find((one) => !used.has(one)) ?? "·";
    this.marks.push({ instant, letter, isParting });
    this.marks.sort((one, other) => one.instant - other.instant);
  }

  /** How far an instant is from the nearest mark, in words; nothing where there is none. */
  distanceWords(instant) {
    const far = ({ instant: at }) => Math.abs(at - instant);
    const [nearest] = [...this.marks].sort((one, other) => far(one) - far(other));
    if (!nearest || nearest.instant === instant) return nearest ? ` · mark ${nearest.letter}` : "";
    const side = instant > nearest.instant ? "after" : "before";
    return ` · ${far(nearest)} ${side} mark ${nearest.letter}`;
  }
}
