/** Which signals a wave shows, in which order, and in which groups. */

const KINDS = { input: "inputs", inout: "inouts", output: "outputs" };
const OTHERS = "others";
const FEW = 12; // local signals, which are unfolded at first

/** The ways to group signals, and what each is called. */
export const GROUPINGS = { none: "no groups", kind: "by kind", name: "by name" };

/** What the names of a group have in common: letters before a `_` or a number. */
export function stemOf(name) {
  return name.match(/^([A-Za-z]+(?:_[A-Za-z]+)*?)(?:_?\d+|_[A-Za-z0-9]+)$/)?.[1] ?? null;
}

/** The group of each signal: by its kind, or by a stem that more than one name has. */
function titlesOf(signals, grouping) {
  if (grouping === "kind") return signals.map(({ kind }) => KINDS[kind] ?? kind);
  const stems = signals.map(({ name }) => stemOf(name));
  return stems.map((stem) => (
    stem !== null && stems.indexOf(stem) !== stems.lastIndexOf(stem) ? stem : OTHERS
  ));
}

export class WaveLayout {
  constructor() {
    this.reset([]);
    this.grouping = "none";
  }

  /** Another interface: signals with `name`, `kind`, `place`. All are shown, as declared. */
  reset(signals) {
    this.order = [...signals];
    this.picked = null; // the names that are shown; null for all
    this.folded = new Set(); // titles of groups
    this.locals = [];
  }

  /** Local signals stand under the others, those of one module together: pairs of a name and the
   * modules around it. Many are folded at first, but for those that were there before. */
  setLocals(signals) {
    const before = new Set(this.localTitles());
    this.locals = signals.map(([name, path], place) => ({
      name, path, kind: "local", place, label: path ? name.slice(path.length + 1) : name,
      group: path ? `inside ${path}` : "inside",
    }));
    const fresh = this.localTitles().filter((title) => !before.has(title));
    if (signals.length > FEW) for (const title of fresh) this.folded.add(title);
  }

  localTitles() {
    return [...new Set(this.locals.map(({ group }) => group))];
  }

  /** Whether a local signal is shown. */
  showsLocals() {
    return this.localTitles().some((title) => !this.folded.has(title));
  }

  /** Folds all local signals, or shows them all. */
  foldLocals(isFolded) {
    for (const title of this.localTitles()) {
      if (isFolded) this.folded.add(title);
      else this.folded.delete(title);
    }
  }

  /** Moves a signal up or down among those that are shown. */
  move(name, by) {
    const at = this.order.findIndex((one) => one.name === name);
    const to = at + by;
    if (at < 0 || to < 0 || to >= this.order.length) return;
    [this.order[at], this.order[to]] = [this.order[to], this.order[at]];
  }

  fold(title) {
    if (!this.folded.delete(title)) this.folded.add(title);
  }

  isShown(name) {
    return !this.picked || this.picked.has(name);
  }

  /** The lines from above: signals, and a title `{ title, count, isFolded }` over each group. */
  lines() {
    const shown = this.order.filter(({ name }) => this.isShown(name));
    const inner = this.grouped(this.locals, this.locals.map(({ group }) => group));
    if (this.grouping === "none") return [...shown, ...inner];
    return [...this.grouped(shown, titlesOf(shown, this.grouping)), ...inner];
  }

  /** The lines of signals, those of one title together. */
  grouped(signals, titles) {
    const groups = new Map();
    titles.forEach((title, at) => {
      groups.set(title, [...(groups.get(title) ?? []), signals[at]]);
    });
    return [...groups].flatMap(([title, members]) => {
      const isFolded = this.folded.has(title);
      return [{ title, count: members.length, isFolded }, ...(isFolded ? [] : members)];
    });
  }

  /** The signals that are shown, from above. */
  signals() {
    return this.lines().filter(({ kind }) => kind !== undefined);
  }
}
