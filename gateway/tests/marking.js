// Puts a text of so many lines into the page, for the word "put"; marks it so many times for "mark", each
// time half of its lines, of which an eighth are others than before; and takes it away for "take".
const [word, count, times, done] = arguments;
const put = async () => {
  const { sourceText } = await import(new URL("page/source_text.js", document.baseURI));
  const lines = Array.from({ length: count }, (_, at) => `  present A then emit O end; % ${at}`);
  window.markedSource = sourceText(lines.join("\n"));
  document.querySelector(".card.text").append(window.markedSource);
  window.markedSource.getBoundingClientRect();
};
const mark = async () => {
  const { markLines } = await import(new URL("page/source_text.js", document.baseURI));
  for (let turn = 0; turn < times; turn += 1) {
    const first = 1 + ((turn % 2) * count) / 16;
    const ran = Array.from({ length: count / 2 }, (_, at) => first + at);
    markLines(window.markedSource, { ran, rests: ran.slice(0, 20), open: [] });
    window.markedSource.getBoundingClientRect();
    await new Promise((go) => requestAnimationFrame(() => setTimeout(go)));
  }
};
const take = async () => window.markedSource.remove();
const marked = () => window.markedSource.querySelectorAll(".ran").length;
({ put, mark, take })[word]().then(() => done(marked()), (fault) => done(String(fault)));
