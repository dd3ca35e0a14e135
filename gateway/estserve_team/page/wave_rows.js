/** What is known of a load's instants: statuses, fetched by chunks as they are looked at. */

export const ABSENT = 0, PRESENT = 1, HIDDEN = 2, UNKNOWN = 3;
export const CHUNK = 128; // instants that are asked for at once
const ASKED_AT_ONCE = 3;
const AGAIN = 500; // milliseconds after which instants that did not come are asked for again
const CODES = { 0: ABSENT, 1: PRESENT, ".": HIDDEN };
const LETTERS = ["0", "1", "."];

export class WaveRows {
  /** `ask(first, last)` promises the rows of these instants, each a string with a letter a signal;
   * `changed` is called with news. */
  constructor(ask, changed) {
    this.ask = ask;
    this.changed = changed;
    this.reset(0);
  }

  /** Forgets everything: another load, or other permissions. */
  reset(signals) {
    this.signals = signals;
    this.newest = 0;
    this.chunks = new Map();
    this.wanted = [];
    this.asked = 0;
    this.life = (this.life ?? 0) + 1;
  }

  /** Takes the number of instants that there are now. */
  grow(newest) {
    this.newest = Math.max(this.newest, newest);
  }

  /** The status of a signal, by its place in the declaration, in an instant, from 1. */
  status(instant, signal) {
    const at = (instant - 1) % CHUNK;
    const chunk = this.chunks.get((instant - 1 - at) / CHUNK);
    return chunk && at < chunk.filled ? chunk.bytes[at * this.signals + signal] : UNKNOWN;
  }

  /** These instants are looked at: what is not known of them is asked for, and what was wanted
   * before is not. */
  want(first, last) {
    this.wanted = [];
    const [from, to] = [Math.max(1, first), Math.min(last, this.newest)];
    for (let number = Math.floor((from - 1) / CHUNK); number * CHUNK < to; number += 1) {
      this.wanted.push(number);
    }
    this.askNext();
  }

  chunkOf(number) {
    if (!this.chunks.has(number)) {
      this.chunks.set(
        number, { bytes: new Uint8Array(CHUNK * this.signals), filled: 0, asking: null }
      );
    }
    return this.chunks.get(number);
  }

  /** Whether a chunk lacks instants that there are, and nobody asks for them. */
  lacks(number) {
    const chunk = this.chunkOf(number);
    return !chunk.asking && chunk.filled < Math.min(CHUNK, this.newest - number * CHUNK);
  }

  askNext() {
    while (this.asked < ASKED_AT_ONCE) {
      const number = this.wanted.find((one) => this.lacks(one));
      if (number === undefined) return;
      this.fetchChunk(number);
    }
  }

  /** Asks for what a chunk lacks. Promises that it came, or can't be got now. */
  fetchChunk(number) {
    const chunk = this.chunkOf(number);
    chunk.asking ??= this.fetchRows(number, chunk);
    return chunk.asking;
  }

  async fetchRows(number, chunk) {
    const { life } = this;
    this.asked += 1;
    const first = number * CHUNK + chunk.filled + 1;
    const last = Math.min(this.newest, (number + 1) * CHUNK);
    const rows = await this.ask(first, last).catch(() => []);
    if (life !== this.life) return;
    chunk.asking = null;
    this.asked -= 1;
    this.keep(chunk, rows);
    if (rows.length) this.changed();
    else setTimeout(() => this.changed(), AGAIN);
  }

  /** Promises that what can be known of an instant, and of the one before, is known. */
  async know(instant) {
    for (const at of [instant - 1, instant]) {
      const number = Math.floor((at - 1) / CHUNK);
      if (at >= 1 && at <= this.newest && this.signals && this.status(at, 0) === UNKNOWN) {
        await this.fetchChunk(number);
        if (this.status(at, 0) === UNKNOWN) await this.fetchChunk(number);
      }
    }
  }

  /** Promises the rows of all instants, as far as they can be got before all is forgotten: strings
   * with a letter a signal. */
  async takeAll() {
    const [rows, { life }] = [[], this];
    for (let instant = 1; instant <= this.newest; instant += 1) {
      if (this.signals && this.status(instant, 0) === UNKNOWN) await this.know(instant);
      if (life !== this.life) return rows;
      const codes = Array.from({ length: this.signals }, (_, at) => this.status(instant, at));
      if (codes.includes(UNKNOWN)) return rows;
      rows.push(codes.map((code) => LETTERS[code]).join(""));
    }
    return rows;
  }

  keep(chunk, rows) {
    for (const row of rows) {
      const codes = Array.from(row, (letter) => CODES[letter]);
      chunk.bytes.set(codes, chunk.filled * this.signals);
      chunk.filled += 1;
    }
  }
}
