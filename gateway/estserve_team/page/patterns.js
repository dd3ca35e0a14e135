/** Permissions by patterns, as `observe washer.*`: spread over interfaces, and folded again. */

import { commandWords } from "./outbox.js";

/** The slots that a word names: a number, or the name of a main module that is loaded. */
function slotsNamed(word, slots) {
  return slots.filter(({ slot, main }) => word === String(slot) || (main && word === main));
}

/** The signals of a slot that a pattern means; `*` stands for any letters. Only inputs can be
 * offered. */
function signalsMeant(pattern, operation, { signals = [] }) {
  const parts = pattern.split("*").map((part) => part.replace(/[^A-Za-z0-9_]/g, "\\$&"));
  const form = new RegExp(`^${parts.join(".*")}$`);
  return signals.filter(
    ([name, kind]) => form.test(name) && (operation !== "offer" || kind !== "output")
  ).map(([name]) => name);
}

/** The objects that a pattern stands for, of the slots that are known. One that stands for none is
 * an object as it is written, where it has no `*`. */
export function spread(operation, written, slots) {
  const [word, ...rest] = written.trim().split(".");
  const named = slotsNamed(word, slots);
  if (!rest.length) return named.length ? named.map(({ slot }) => String(slot)) : [word];
  const pattern = rest.join(".");
  const found = named.flatMap((slot) => (
    signalsMeant(pattern, operation, slot).map((name) => `${slot.slot}.${name}`)
  ));
  if (found.length || written.includes("*")) return found;
  return [named.length ? `${named[0].slot}.${pattern}` : written.trim()];
}

/** The signals of a slot on which an operation can be granted. */
function grantable(operation, { signals = [] }) {
  return signals.filter(([, kind]) => operation !== "offer" || kind !== "output").map(
    ([name]) => name
  );
}

/** Permissions of one role with those of a whole interface as one, `["observe", "0.*"]`. Each has
 * the objects that it stands for: `{ operation, object, objects }`. */
export function fold(permissions, slots) {
  const folded = [];
  const done = new Set();
  for (const [operation, object] of permissions) {
    const key = `${operation} ${object}`;
    if (done.has(key)) continue;
    const slot = slots.find((one) => object.startsWith(`${one.slot}.`));
    const all = (slot ? grantable(operation, slot) : []).map((name) => `${slot.slot}.${name}`);
    const granted = new Set(
      permissions.filter(([other]) => other === operation).map(([, other]) => other)
    );
    const isWhole = all.length > 1 && all.includes(object) && all.every((one) => granted.has(one));
    const objects = isWhole ? all : [object];
    for (const one of objects) done.add(`${operation} ${one}`);
    folded.push({ operation, object: isWhole ? `${slot.slot}.*` : object, objects });
  }
  return folded;
}

/** Commands in words, those of one pattern as one: `patterns` has for each command the pattern that
 * it is a part of, or an empty text. Each has its commands: `{ words, commands }`. */
export function folded(commands, patterns) {
  const lines = [];
  let [last, before] = [null, ""];
  commands.forEach((command, at) => {
    const key = patterns[at] && `grant ${command.role} ${patterns[at]}`;
    if (key && key === before) last.commands.push(command);
    else {
      last = { words: key || commandWords(command), commands: [command] };
      lines.push(last);
    }
    before = key;
  });
  for (const line of lines) {
    if (line.commands.length === 1) line.words = commandWords(line.commands[0]);
  }
  return lines;
}
