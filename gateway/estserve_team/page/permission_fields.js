/** Fields by which a permission is chosen: an operation, a slot or the policy, a signal or a
 * pattern. */

import { field, fill, make, say } from "./dom.js";
import { spread } from "./patterns.js";

/** Each operation with what it is on. */
const ON = {
  offer: "signal", observe: "signal", step: "slot", load: "slot", audit: "either",
  administer: "policy",
};

const option = (value, told = value) => make("option", { value }, told);

/** The names of the sixteen slots, with the module of those that are loaded. */
function slotOptions(slots) {
  return Array.from({ length: 16 }, (_, number) => {
    const main = slots.find(({ slot }) => slot === number)?.main;
    return option(String(number), main ? `${number} · ${main}` : String(number));
  });
}

export class PermissionFields {
  /** `slots()` gives what is known of the slots; `name` begins the ids. */
  constructor(name, slots) {
    this.slots = slots;
    this.operation = make(
      "select", { id: `${name}-operation` }, ...Object.keys(ON).map((one) => option(one))
    );
    this.slot = make("select", { id: `${name}-slot` });
    this.names = make("datalist", { id: `${name}-names` });
    this.signal = make("input", {
      id: `${name}-signal`, list: `${name}-names`, placeholder: "A, or a pattern as *",
      autocomplete: "off",
    });
    this.signalField = field("Signal", this.signal);
    this.slotField = field("On", this.slot);
    this.told = make("p", { class: "quiet", role: "status" });
    this.element = make(
      "div", {}, field("Operation", this.operation), this.slotField, this.signalField, this.names,
      this.told
    );
    this.operation.addEventListener("change", () => this.refill());
    this.element.addEventListener("input", () => this.tell());
    this.element.addEventListener("change", () => this.tell());
    this.refill();
  }

  /** Shows the fields that the operation has. */
  refill() {
    const on = ON[this.operation.value];
    const before = this.slot.value;
    const policy = on === "policy" || on === "either" ? [option("policy")] : [];
    const slots = on === "policy" ? [] : slotOptions(this.slots());
    fill(this.slot, ...policy, ...slots);
    if ([...this.slot.options].some(({ value }) => value === before)) this.slot.value = before;
    this.signalField.hidden = on !== "signal";
    this.signal.required = on === "signal";
    this.tell();
  }

  /** Offers the signals of the slot, and tells what a pattern is spread over. */
  tell() {
    const slot = this.slots().find((one) => String(one.slot) === this.slot.value);
    fill(this.names, option("*", "all"), ...(slot?.signals ?? []).map(([name]) => option(name)));
    const isPattern = !this.signalField.hidden && this.signal.value.includes("*");
    const { objects } = this.value();
    const none = "no signal that is known here fits the pattern";
    const told = objects.length ? `spread over ${objects.join(", ")}` : none;
    say(this.told, isPattern ? told : "");
  }

  /** The operation, and the objects that are meant. */
  value() {
    const [operation, slot] = [this.operation.value, this.slot.value];
    const isSignal = ON[operation] === "signal";
    const written = isSignal ? `${slot}.${this.signal.value.trim()}` : slot;
    return { operation, objects: spread(operation, written, this.slots()) };
  }
}
