/** The policy as a file: saved, and read with a preview of what it changes. */

import { askAll } from "./change_form.js";
import { button, field, fill, make, say } from "./dom.js";
import { commandWords } from "./outbox.js";
import { folded } from "./patterns.js";
import { policyText } from "./policy_text.js";
import { saveText } from "./saving.js";
import { refusalPlace, trying } from "./trying.js";

const NOT_WHOLE = "You see a part of the policy alone (the rest needs administer or audit on policy).";

/** A change in words; that of a pattern with the objects that it stands for. */
function changeLine(kind, { words, commands }) {
  if (commands.length === 1) return make("li", { class: kind }, words);
  const objects = commands.map(({ object }) => object).join(" ");
  return make(
    "li", { class: kind },
    make("details", {}, make("summary", {}, `${words} (${commands.length})`), make("small", {}, objects))
  );
}

export class PolicyFileForm {
  constructor(connection) {
    this.connection = connection;
    this.text = make("textarea", {
      id: "policy-text", class: "policy-text", rows: "8", spellcheck: "false", wrap: "off",
      placeholder: 'users = ["ann"]\nroles = ["driver"]\n\n[permissions]\ndriver = ["offer 0.A"]',
    });
    this.file = make("input", { type: "file", id: "policy-file", accept: ".toml,text/plain" });
    this.prunes = make("input", { type: "checkbox", id: "policy-prune" });
    this.told = refusalPlace();
    this.note = make("p", { class: "missing" });
    this.done = make("p", { role: "status", class: "quiet", id: "policy-done" });
    this.changes = make("ul", { class: "changes", id: "policy-changes" });
    this.apply = button("Apply", () => this.carryOut(), { id: "policy-apply", class: "main" });
    this.element = this.build();
    this.forget();
  }

  build() {
    const save = button("Save as TOML", () => this.save(), { id: "policy-save" });
    const put = button("Put it below", () => this.put(), { id: "policy-put" });
    this.text.addEventListener("input", () => this.forget());
    this.prunes.addEventListener("change", () => this.preview());
    this.file.addEventListener("change", () => this.readFile());
    return make(
      "section", { class: "card wide", "aria-label": "Policy file" },
      make("h2", {}, "As a file"), this.note,
      make("p", { class: "inline" }, save, put), field("A policy file", this.text),
      make(
        "div", { class: "inline" }, field("From a file", this.file),
        make("label", {}, this.prunes, " take away what the file doesn't ask for"),
        button("Preview", () => this.preview(), { id: "policy-preview" }), this.apply
      ),
      this.told, this.changes, this.done
    );
  }

  update(policy) {
    this.policy = policy;
    say(this.note, policy.whole ? "" : NOT_WHOLE);
    if (this.plan) this.preview();
  }

  save() {
    saveText("policy.toml", policyText(this.policy));
  }

  put() {
    this.text.value = policyText(this.policy);
    this.forget();
  }

  async readFile() {
    if (!this.file.files.length) return;
    this.text.value = await this.file.files[0].text();
    await this.preview();
  }

  /** Another text: what was previewed is not so any more. */
  forget() {
    this.plan = null;
    this.apply.disabled = true;
    fill(this.changes);
    for (const place of [this.told, this.done]) say(place, "");
  }

  /** Shows what the file changes; nothing is sent to the program. */
  async preview() {
    this.forget();
    if (!this.text.value.trim()) return;
    const words = { toml: this.text.value };
    const plan = await trying(this.told, () => this.connection.post("plan", words));
    if (plan?.fault) say(this.told, `line ${plan.line}: ${plan.fault}`);
    if (!plan || plan.fault) return;
    this.plan = [...plan.add, ...(this.prunes.checked ? plan.take : [])];
    fill(
      this.changes, ...folded(plan.add, plan.patterns).map((one) => changeLine("added", one)),
      ...(this.prunes.checked ? plan.take : []).map(
        (command) => changeLine("taken", { words: commandWords(command), commands: [command] })
      )
    );
    const left = this.prunes.checked ? "" : `, ${plan.take.length} more than the file asks for`;
    say(this.done, `${this.plan.length} changes; ${plan.there} there already${left}`);
    this.apply.disabled = !this.plan.length || !this.policy.may_administer;
  }

  async carryOut() {
    const commands = this.plan;
    this.apply.disabled = true;
    const { done, fault } = await askAll(this.connection, commands);
    this.forget();
    if (fault) say(this.told, `${commandWords(commands[done])}: ${fault.message}`);
    say(this.done, `${done} of ${commands.length} changes done`);
  }
}
