/** Texts that are tried on a program of their own, by the gateway: while one types, and to replay. */

const PAUSE = 500; // milliseconds without a key after which a text is tried

/** What is asked of a text; without a main module, of the first that no other runs. */
const wordsOf = (text, main, inputs = []) => (main ? { text, main, inputs } : { text, inputs });

export class Checker {
  constructor(connection) {
    this.connection = connection;
    this.turn = 0;
  }

  /** What becomes of a text: see `api/try`. Raises Refused. */
  tryText(text, main, inputs = []) {
    return this.connection.post("try", wordsOf(text, main, inputs));
  }

  /** Has a text tried when nothing was typed for a while. `tell(diagnosis)` is called with what is
   * wrong, or null; not for a text that is typed on meanwhile. */
  checkLater(text, main, tell) {
    clearTimeout(this.pause);
    this.turn += 1;
    const { turn } = this;
    if (!text.trim()) return;
    this.pause = setTimeout(async () => {
      const told = await this.connection.once("try", wordsOf(text, main)).catch(() => null);
      if (told && turn === this.turn) tell(diagnosisOf(told));
    }, PAUSE);
  }

  /** What was asked before is not told any more. */
  stop() {
    clearTimeout(this.pause);
    this.turn += 1;
  }
}

/** What is wrong with a text that was tried; null where nothing is. */
export function diagnosisOf(told) {
  if (told.diagnosis) return told.diagnosis;
  if (!told.fault) return null;
  return { told: told.fault, marks: [], remedies: [], path: [], path_told: "", is_chain: false };
}
