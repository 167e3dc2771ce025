// Times (the register calls them moments) are Unix times in milliseconds. They are shown in local time with
// its zone, and in UTC.
import { h } from "./dom.js";
import { locale, t } from "./words.js";

const MAX_MOMENT = 4102444799999;
const two = (n, places = 2) => String(n).padStart(places, "0");

const joined = (year, month, day, hours, minutes, seconds, ms) =>
  [year, two(month), two(day)].join("-") + " " + [hours, minutes, seconds].map((n) => two(n)).join(":") +
    "." + two(ms, 3);

// In UTC, as in a title sheet.
export function formatMoment(ms) {
  const d = new Date(ms);
  return joined(d.getUTCFullYear(), d.getUTCMonth() + 1, d.getUTCDate(), d.getUTCHours(), d.getUTCMinutes(),
    d.getUTCSeconds(),
    d.getUTCMilliseconds());
}

// In local time, with the name of the zone.
export function localMoment(ms) {
  const form = { year: "numeric", month: "short", day: "numeric", hour: "2-digit", minute: "2-digit",
    second: "2-digit",
    timeZoneName: "short" };
  return new Intl.DateTimeFormat(locale, form).format(new Date(ms));
}

// Both, as an element: the local time, and in small letters the exact time in UTC.
export function when(ms) {
  return h("time", { datetime: new Date(ms).toISOString(), class: "when" }, localMoment(ms) + " ",
    h("span", { class: "utc" }, formatMoment(ms) + " UTC"));
}

export const whenText = (ms) => localMoment(ms) + " (" + formatMoment(ms) + " UTC)";

export const zoneName = () => Intl.DateTimeFormat().resolvedOptions().timeZone || t("time.local");

// The value of a date picker (datetime-local) for a moment, and the moment of a value; null for an empty one.
export function pickerValue(ms) {
  const d = new Date(ms);
  return joined(d.getFullYear(), d.getMonth() + 1, d.getDate(), d.getHours(), d.getMinutes(), d.getSeconds(),
    d.getMilliseconds())
    .replace(" ", "T");
}

export function momentOfPicker(text) {
  if (text === "") return null;
  const value = new Date(text).getTime();
  return value >= 0 && value <= MAX_MOMENT ? value : undefined;
}

// Parses the time in a URL.
export const momentFromUrl = (text) => (text !== null && /^\d{1,13}$/.test(text) &&
  Number(text) <= MAX_MOMENT ? Number(text) : null);
