// @ts-check
// The colours of the theme, as colours.css has them.

const known = new Map();
const dark = matchMedia("(prefers-color-scheme: dark)");

// "light" or "dark".
export const theme = () => document.documentElement.dataset.theme;

// The value of a colour, or of a family of letters, by its name.
export function colourOf(name) {
  if (!known.has(name)) known.set(name, getComputedStyle(document.documentElement).getPropertyValue(`--${name}`).trim());
  return known.get(name);
}

function take(name) {
  document.documentElement.dataset.theme = name;
  known.clear();
}

// Where the browser keeps the theme that was chosen.
const KEY = "stabsim theme";

// Takes the theme that was chosen, or else that of the system, whenever it changes; `changed` is called then.
export function takeTheme(changed) {
  const now = () => localStorage.getItem(KEY) ?? (dark.matches ? "dark" : "light");
  dark.addEventListener("change", () => {
    if (now() === theme()) return;
    take(now());
    changed();
  });
  take(now());
}

// Chooses the other theme.
export function exchangeThemes() {
  take(theme() === "dark" ? "light" : "dark");
  localStorage.setItem(KEY, theme());
}
