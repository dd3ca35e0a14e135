/** Dark and light: as the system has it, or as one chooses. */

import { say } from "./dom.js";

const KEY = "estserve-theme";
const THEMES = ["system", "light", "dark"];

const chosen = () => localStorage.getItem(KEY) ?? "system";

/** Shows the chosen theme, and its name on a button. */
export function showTheme(control) {
  document.documentElement.dataset.theme = chosen();
  say(control, `Colours: ${chosen()}`);
}

/** Chooses the next theme, and shows it. */
export function nextTheme(control) {
  localStorage.setItem(KEY, THEMES[(THEMES.indexOf(chosen()) + 1) % THEMES.length]);
  showTheme(control);
}
