// The controls of the page that have no name for a screen reader.
const nameOf = (element) =>
  element.getAttribute("aria-label")
  || [...(element.labels ?? [])].map((label) => label.textContent).join("")
  || (["INPUT", "SELECT", "TEXTAREA"].includes(element.tagName) ? "" : element.textContent);
return [...document.querySelectorAll("button, input, select, textarea, a, summary")]
  .filter((element) => element.checkVisibility() && !nameOf(element).trim())
  .map((element) => element.outerHTML.slice(0, 120));
