/** Commands that are under way. One that is not answered at once can be seen, and be taken back. */

/** A command was taken back by whoever gave it. */
export class TakenBack extends Error {}

/** What is said of a command that is taken back. */
const NOT_SENT = "taken back: it was not sent";
const NOT_AGAIN = "not sent again; it may have been carried out";

export class Outbox {
  /** `changed(items)` is called where those that wait are others than before. */
  constructor(changed = () => {}) {
    this.changed = changed;
    this.items = [];
  }

  /** Takes a command on. Its `stop` promises that it is taken back. */
  add(command) {
    const item = { command, isWaiting: false, wasSent: false, isBack: false };
    item.back = new Promise((_, refuse) => { item.refuse = refuse; });
    item.back.catch(() => {});
    this.items.push(item);
    return item;
  }

  /** No answer came, or none is to be expected now. */
  wait(item) {
    if (item.isWaiting || item.isBack) return;
    item.isWaiting = true;
    this.tell();
  }

  /** It was answered, or given up. */
  end(item) {
    this.items = this.items.filter((one) => one !== item);
    if (item.isWaiting) this.tell();
  }

  /** Takes a command back: it is not sent again. */
  takeBack(item) {
    item.isBack = true;
    item.refuse(new TakenBack(item.wasSent ? NOT_AGAIN : NOT_SENT));
    this.end(item);
  }

  /** Takes all back. */
  clear() {
    for (const item of [...this.items]) this.takeBack(item);
  }

  tell() {
    this.changed(this.items.filter(({ isWaiting }) => isWaiting));
  }
}

/** A command in words, as `offer 0.A`. */
export function commandWords({ cmd, slot, signal, ...keys }) {
  if (signal !== undefined) return `${cmd} ${slot}.${signal}`;
  if (slot !== undefined) return `${cmd} ${slot}`;
  const words = ["user", "senior", "junior", "role", "op", "object", "name", "count", "roles"];
  return [cmd, ...words.flatMap((word) => keys[word] ?? [])].join(" ");
}
