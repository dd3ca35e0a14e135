/** The tokens of a module text by their kinds, for its colours. */

const WORDS = {
  declare: "module input output inputoutput relation signal run in",
  act: "nothing pause halt emit sustain exit await",
  control: "present then else when immediate loop each every suspend abort weak trap end do",
  logic: "and or not tick",
};
const KINDS = new Map(
  Object.entries(WORDS).flatMap(([kind, words]) => words.split(" ").map((word) => [word, kind]))
);
const TOKEN = /%\{[^]*?(?:\}%|$)|%[^\n]*|[A-Za-z][A-Za-z0-9_]*|\n|[^%A-Za-z\n]+/g;

/** The keywords of the language. */
export const KEYWORDS = [...KINDS.keys()];

/** The kind of a token: a keyword's, `comment`, or nothing. */
function kindOf(token) {
  return token.startsWith("%") ? "comment" : KINDS.get(token) ?? "";
}

/** The pieces of each line of a text, each a pair of a kind and what is written. */
export function colouredLines(text) {
  const lines = [[]];
  for (const [token] of text.matchAll(TOKEN)) {
    token.split("\n").forEach((part, at) => {
      if (at) lines.push([]);
      if (part) lines.at(-1).push([kindOf(token), part]);
    });
  }
  return lines;
}
