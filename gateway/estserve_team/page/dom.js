/** Elements of the page. Names and texts become text nodes, never markup. */

const SVG = "http://www.w3.org/2000/svg";
const LONG = 40; // letters of a cell whose words may go over lines

/** Sets attributes: `text`, listeners as functions, those that are there or not, and words. */
function setAttributes(element, attributes) {
  for (const [name, value] of Object.entries(attributes)) {
    if (name === "text") element.textContent = value;
    else if (typeof value === "function") element.addEventListener(name, value);
    else if (value === true) element.setAttribute(name, "");
    else if (value !== false && (value ?? null) !== null) element.setAttribute(name, value);
  }
  return element;
}

/** An element with attributes and children; a child that is a string becomes text. */
export function make(tag, attributes = {}, ...children) {
  const element = setAttributes(document.createElement(tag), attributes);
  element.append(...children.filter((child) => child !== null && child !== undefined));
  return element;
}

/** An element of SVG. */
export function draw(tag, attributes = {}, ...children) {
  const element = setAttributes(document.createElementNS(SVG, tag), attributes);
  element.append(...children);
  return element;
}

export const byId = (id) => document.getElementById(id);

/** Puts children into an element in place of those that it has. Where they are there already, they
 * stay, and with them the focus. */
export function fill(element, ...children) {
  const wanted = children.filter((child) => child !== null && child !== undefined);
  const { childNodes } = element;
  const isSame = wanted.length === childNodes.length && wanted.every(
    (child, at) => child === childNodes[at]
  );
  if (!isSame) element.replaceChildren(...wanted);
  return element;
}

/** Sets the text of an element where it differs, so that screen readers don't repeat it. */
export function say(element, text) {
  if (element.textContent !== text) element.textContent = text;
}

/** A button. A pointer's click leaves the focus with the page, so that the space bar steps. */
export function button(text, act, attributes = {}) {
  const made = make("button", { type: "button", ...attributes }, text);
  made.addEventListener("click", (event) => {
    if (event.detail > 0) made.blur();
    act(event);
  });
  return made;
}

/** A table with a head and rows, each a list of strings or elements; with no rows, a sentence. */
export function table(caption, heads, rows, empty) {
  if (!rows.length) return make("p", { class: "quiet" }, empty);
  const cell = (tag, attributes) => (told) => {
    const isLong = typeof told === "string" && told.length > LONG;
    return make(tag, isLong ? { ...attributes, class: "long" } : attributes, told);
  };
  return make(
    "div", { class: "scrolls", tabindex: "0", role: "region", "aria-label": caption },
    make(
      "table", {},
      make("caption", { class: "unseen" }, caption),
      make("thead", {}, make("tr", {}, ...heads.map(cell("th", { scope: "col" })))),
      make("tbody", {}, ...rows.map((row) => make("tr", {}, ...row.map(cell("td", {})))))
    )
  );
}

/** A field with its label. */
export function field(label, control) {
  return make("label", { class: "field" }, make("span", {}, label), control);
}
