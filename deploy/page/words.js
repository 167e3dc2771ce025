// The strings of the page in the reader's language. Each language has one file with the same keys.
import { en } from "./messages.js";
import { de } from "./de.js";

const ALL = { en, de };
const STORED = "land.language";

export const LANGUAGES = Object.keys(ALL);

function stored() {
  try {
    return localStorage.getItem(STORED);
  } catch {
    return null;        // storage may be disabled
  }
}

function chosen() {
  const wanted = [stored(), ...navigator.languages].filter(Boolean).map((one) => one.slice(0, 2));
  return wanted.find((one) => one in ALL) || "en";
}

export let language = chosen();
export let locale = localeOf();

// The regional variant of the language that the browser prefers: it decides the separators of numbers and the
// form of dates.
function localeOf() {
  return navigator.languages.find((one) => one.slice(0, 2) === language) || language;
}

export function setLanguage(next) {
  language = next;
  locale = localeOf();
  document.documentElement.lang = next;
  try {
    localStorage.setItem(STORED, next);
  } catch { /* the choice lasts until the page is closed */ }
}

export const languageName = (one) => ALL[one]["language.own"];
export const hasWord = (key) => key in ALL[language];

// The pattern of a key. A pattern with forms for one and many has its number in `n`.
function patternOf(key, values) {
  const found = ALL[language][key];
  if (found === undefined) return key;
  if (typeof found === "string") return found;
  return found[new Intl.PluralRules(language).select(Number(values.n))] || found.other;
}

const PLACE = /\{(\w+)\}/g;
const grouped = (value) => (typeof value === "number" ? new Intl.NumberFormat(locale).format(value) :
  String(value));

// A string: {name} is replaced by a value. Numbers are written with the reader's separators.
export function t(key, values = {}) {
  return patternOf(key, values).replace(PLACE, (_, name) => grouped(values[name]));
}

// The same as a list of texts and nodes, for values that are elements.
export function parts(key, values) {
  const found = [];
  let position = 0;
  const pattern = patternOf(key, values);
  for (const match of pattern.matchAll(PLACE)) {
    const value = values[match[1]];
    found.push(pattern.slice(position, match.index), value instanceof Node || Array.isArray(value) ? value :
      grouped(value));
    position = match.index + match[0].length;
  }
  return [...found, pattern.slice(position)].filter((one) => one !== "");
}
