// Prints, as JSON, what the page saves of each wave on standard input, and of a policy; its words for
// commands; and the keys of each command that its form has.
import path from "node:path";
import { pathToFileURL } from "node:url";

const load = (name) => import(pathToFileURL(path.join(path.resolve(process.argv[2]), name)).href);
const { expectedText, inputsText, vcdText } = await load("exports.js");
const { drivenOf } = await load("parting.js");
const { policyText } = await load("policy_text.js");
const { KEYWORDS } = await load("keywords.js");
const { commandWords } = await load("outbox.js");
const { CHANGES } = await load("change_form.js");
let text = "";
for await (const part of process.stdin) text += part;
const { waves, policy, commands } = JSON.parse(text);
console.log(JSON.stringify({
  waves: waves.map((wave) => ({
    vcd: vcdText(wave), expected: expectedText(wave), inputs: inputsText(drivenOf(wave).inputs),
  })),
  policy: policyText(policy), keywords: KEYWORDS, words: commands.map(commandWords),
  fields: Object.fromEntries(
    Object.entries(CHANGES).map(([name, [, fields]]) => [name, Object.keys(fields)])
  ),
}));
