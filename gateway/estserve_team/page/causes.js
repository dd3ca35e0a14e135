/** When the cause of a refusal has gone, so that it need not be told any more. */

/** The signal that has to be pending while a refusal holds; null where there is none. */
function blockingName({ fault, signal }, command) {
  if (fault === "Excluded") return signal;
  return fault === "AlreadyOffered" ? command.signal : null;
}

/** What is watched of a refusal of a command on a slot, as the slot was when it came. */
export function watch(refusal, command, slot) {
  const name = blockingName(refusal, command);
  return { refusal, name, wasSeen: name !== null && slot.pending.includes(name), before: slot };
}

/** Whether a permission that was missing is there now. */
function isAllowedNow({ op, object = "" }, { may }) {
  const signal = object.split(".")[1];
  const allowed = { offer: may.offer?.[signal], step: may.step, load: may.load };
  return Boolean(allowed[op]);
}

/** Whether the cause of a watched refusal has gone, by what the slot is now. */
export function isGone(watched, slot) {
  const { refusal, before } = watched;
  if (slot.load !== before.load || slot.instants !== before.instants) return true;
  if (refusal.fault === "Permission") return isAllowedNow(refusal, slot);
  const isPending = slot.pending.includes(watched.name);
  if (watched.name !== null && (watched.wasSeen || isPending)) {
    watched.wasSeen = true;
    return !isPending;
  }
  return slot.pending.join(" ") !== before.pending.join(" ");
}
